/*
 * A plugin for QEMU 7.2 that writes what RISC-V harts do as a commit log for rvrows.
 *
 *     qemu-system-riscv64 -accel tcg,thread=single -singlestep -plugin commits.so,out=FILE ..
 *
 * With one thread and one instruction to a block there is one instruction in flight. When the next one starts, of
 * whatever hart, its registers are written, and its store has taken effect. So the records come in the true order, as
 * the program runs. Several threads would make that order a guess.
 *
 * It is for programs without traps and address translation: an instruction that traps would be logged as retired.
 */
#include "plugin.h"

#include <inttypes.h>
#include <stdio.h>
#include <stdlib.h>
#include <string.h>

EXPORT int qemu_plugin_version = 1;

enum { HARTS = 16, FLOATING = 33 };
enum { OPCODE = 0x7f, LOAD = 0x03, LOAD_FP = 0x07, STORE = 0x23, STORE_FP = 0x27, AMO = 0x2f };

/* An instruction of the program. */
typedef struct {
    uint64_t pc;
    uint32_t bits;
} Insn;

/* The instruction in flight; insn is NULL where there is none. */
static struct {
    const Insn *insn;
    unsigned hart;
    uint64_t address;
    uint64_t stored;    /* the register that it stores, or the operand of an AMO */
    unsigned size;      /* of its access in bytes; 0 where it has made none */
} flight;

static FILE *out;
static uint64_t orders[HARTS]; /* how many instructions of each hart retired */
static uint64_t records;
static uint64_t now; /* how many stores took effect */

/* An integer register, or from FLOATING on a floating point register. */
static uint64_t read_register(unsigned hart, unsigned number)
{
    static GByteArray *bytes;
    uint64_t value = 0;

    if (number == 0)
        return 0;
    if (!bytes)
        bytes = g_byte_array_new();
    g_byte_array_set_size(bytes, 0);
    riscv_cpu_gdb_read_register(qemu_get_cpu((int)hart), bytes, (int)number);
    memcpy(&value, bytes->data, sizeof value);
    return value;
}

/* Whether all bits of the word count, or those of a compressed instruction. */
static bool is_long(uint32_t bits) { return (bits & 3) == 3; }
static unsigned quadrant(uint32_t bits) { return bits & 3; }
static unsigned funct3_short(uint32_t bits) { return bits >> 13 & 7; }
static bool is_atomic(uint32_t bits) { return is_long(bits) && (bits & OPCODE) == AMO; }
static unsigned function(uint32_t bits) { return bits >> 27; }
static bool is_lr(uint32_t bits) { return is_atomic(bits) && function(bits) == 2; }
static bool is_sc(uint32_t bits) { return is_atomic(bits) && function(bits) == 3; }

static bool is_load(uint32_t bits)
{
    if (is_long(bits))
        return (bits & OPCODE) == LOAD || (bits & OPCODE) == LOAD_FP || is_lr(bits);
    return quadrant(bits) != 1 && funct3_short(bits) >= 1 && funct3_short(bits) <= 3;
}

static bool is_store(uint32_t bits)
{
    if (is_long(bits))
        return (bits & OPCODE) == STORE || (bits & OPCODE) == STORE_FP;
    return quadrant(bits) != 1 && funct3_short(bits) >= 5;
}

/* The register that a memory instruction writes. */
static unsigned destination(uint32_t bits)
{
    if (is_long(bits))
        return (bits >> 7 & 31) + ((bits & OPCODE) == LOAD_FP ? FLOATING : 0);
    return (quadrant(bits) == 0 ? 8 + (bits >> 2 & 7) : bits >> 7 & 31) + (funct3_short(bits) == 1 ? FLOATING : 0);
}

/* The register that a memory instruction stores, or the operand of an AMO. */
static unsigned source(uint32_t bits)
{
    if (is_long(bits))
        return (bits >> 20 & 31) + ((bits & OPCODE) == STORE_FP ? FLOATING : 0);
    return (quadrant(bits) == 0 ? 8 + (bits >> 2 & 7) : bits >> 2 & 31) + (funct3_short(bits) == 5 ? FLOATING : 0);
}

/* The low bytes of a value. */
static uint64_t low(uint64_t value, unsigned size)
{
    return size < 8 ? value & ((UINT64_C(1) << 8 * size) - 1) : value;
}

/* What an AMO makes of the old value and its operand. */
static uint64_t amo_result(uint32_t bits, unsigned size, uint64_t old, uint64_t operand)
{
    int64_t a = size == 4 ? (int32_t)old : (int64_t)old, b = size == 4 ? (int32_t)operand : (int64_t)operand;

    old = low(old, size);
    operand = low(operand, size);
    switch (function(bits)) {
    case 0: return low(old + operand, size);
    case 1: return operand;
    case 4: return old ^ operand;
    case 8: return old | operand;
    case 12: return old & operand;
    case 16: return a < b ? old : operand;
    case 20: return a > b ? old : operand;
    case 24: return old < operand ? old : operand;
    default: return old > operand ? old : operand;
    }
}

/* The store in flight has taken effect. */
static void log_effect(uint64_t order)
{
    now++;
    fprintf(out, "P,%u,%" PRIu64 ",,,%" PRIx64 ",,,%" PRIu64 "\n", flight.hart, order, flight.address, now);
    records++;
}

/* The rest of a record C behind its address, of an AMO. Where rd is x0 nothing shows the old value. */
static void log_amo(uint32_t bits)
{
    uint64_t old = low(read_register(flight.hart, destination(bits)), flight.size);

    if (destination(bits) != 0)
        fprintf(out, "%" PRIx64 ",%" PRIx64 ",\n", old, amo_result(bits, flight.size, old, flight.stored));
    else if (function(bits) == 1)
        fprintf(out, ",%" PRIx64 ",\n", low(flight.stored, flight.size));
    else
        fprintf(out, ",,\n");
}

/* Writes the records of the instruction in flight, which has ended. */
static void finish(void)
{
    uint32_t bits;
    uint64_t order, value;

    if (!flight.insn || flight.hart >= HARTS)
        return;
    bits = flight.insn->bits;
    order = orders[flight.hart]++;
    value = low(read_register(flight.hart, destination(bits)), flight.size);
    fprintf(out, "C,%u,%" PRIu64 ",%" PRIx64 ",", flight.hart, order, flight.insn->pc);
    fprintf(out, "%0*x,", is_long(bits) ? 8 : 4, bits);
    records++;
    if (!is_load(bits) && !is_store(bits) && !is_atomic(bits)) {
        fprintf(out, ",,,\n");
        return;
    }
    fprintf(out, "%" PRIx64 ",", flight.address);
    if (is_load(bits) && destination(bits) != 0) {
        fprintf(out, "%" PRIx64 ",,%" PRIu64 "\n", value, now);
    } else if (is_load(bits)) {
        fprintf(out, ",,%" PRIu64 "\n", now);
    } else if (is_store(bits)) {
        fprintf(out, ",%" PRIx64 ",\n", low(flight.stored, flight.size));
        log_effect(order);
    } else if (is_sc(bits) && value != 0) {
        fprintf(out, "1,,\n");
    } else if (is_sc(bits)) {
        fprintf(out, "0,%" PRIx64 ",\n", low(flight.stored, flight.size));
        log_effect(order);
    } else {
        log_amo(bits);
        log_effect(order);
    }
}

/* An instruction starts: the one before has ended. */
static void start(unsigned hart, void *data)
{
    const Insn *insn = data;
    uint32_t bits = insn->bits;

    finish();
    flight.insn = insn;
    flight.hart = hart;
    flight.size = 0;
    flight.stored = is_store(bits) || is_atomic(bits) ? read_register(hart, source(bits)) : 0;
    if (is_atomic(bits)) { /* an SC may fail without an access */
        flight.address = read_register(hart, bits >> 15 & 31);
        flight.size = 1u << (bits >> 12 & 3);
    }
}

/* The instruction in flight accesses memory. */
static void take_access(unsigned hart, qemu_plugin_meminfo_t info, uint64_t address, void *data)
{
    (void)hart;
    (void)data;
    flight.address = address;
    flight.size = 1u << (info & 15); /* the low bits are the logarithm of the size */
}

/* A block is translated: each of its instructions is to be told. */
static void translate(qemu_plugin_id_t id, struct qemu_plugin_tb *tb)
{
    (void)id;
    for (size_t i = 0; i < qemu_plugin_tb_n_insns(tb); i++) {
        struct qemu_plugin_insn *part = qemu_plugin_tb_get_insn(tb, i);
        Insn *insn = calloc(1, sizeof *insn);

        if (!insn)
            abort();
        insn->pc = qemu_plugin_insn_vaddr(part);
        memcpy(&insn->bits, qemu_plugin_insn_data(part), qemu_plugin_insn_size(part));
        qemu_plugin_register_vcpu_insn_exec_cb(part, start, QEMU_PLUGIN_CB_R_REGS, insn);
        qemu_plugin_register_vcpu_mem_cb(part, take_access, QEMU_PLUGIN_CB_NO_REGS, QEMU_PLUGIN_MEM_RW, NULL);
    }
}

/* The machine ends. The registers of the instruction in flight can't be told any more: it is left out. */
static void end(qemu_plugin_id_t id, void *data)
{
    (void)id;
    (void)data;
    fprintf(out, "E,,%" PRIu64 ",,,,,,\n", records);
    fclose(out);
}

EXPORT int qemu_plugin_install(qemu_plugin_id_t id, const qemu_info_t *info, int argc, char **argv)
{
    (void)info;
    for (int i = 0; i < argc; i++)
        if (!strncmp(argv[i], "out=", 4))
            out = fopen(argv[i] + 4, "w");
    if (!out) {
        fprintf(stderr, "commits: out=FILE is missing, or the file can't be written\n");
        return 1;
    }
    fprintf(out, "kind,hart,order,pc,insn,addr,rdata,wdata,time\n");
    qemu_plugin_register_vcpu_tb_trans_cb(id, translate);
    qemu_plugin_register_atexit_cb(id, end, NULL);
    return 0;
}
