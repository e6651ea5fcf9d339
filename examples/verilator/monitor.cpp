// The C side of duo.v: it makes an event of each instruction that retires, and offers it to the monitor as soon as the
// versions that it returned or wrote are known. The simulation stops at the first event that RVWMO forbids.
//
// A version of a word is known once its store takes effect. A load's is that of the store whose value it returned:
// program.py stores every value once. Events of a hart are offered in program order.
#include <rvmon.h>

#include <cstdio>
#include <cstdlib>
#include <deque>
#include <map>
#include <set>
#include <string>
#include <utility>
#include <vector>

using StoreId = std::pair<int, int>;  // a hart, and the number of its instruction

namespace {

struct Waiting {
    rvmon_event event;
    bool reads_store = false;  // its read version is that of this store
    StoreId read_from;
    bool writes = false;       // its written version is that of this store
    StoreId wrote_by;
};

struct Hart {
    uint32_t seq = 0;
    std::set<uint32_t> behind[32];  // for each register the events from which its value was computed
    std::deque<Waiting> waiting;
};

rvmon monitor;
Hart harts[2];
std::map<StoreId, uint32_t> versions;    // of the stores that took effect
std::map<uint32_t, uint32_t> newest;     // of each word
std::map<std::pair<uint32_t, uint32_t>, StoreId> store_of;  // by word and value
bool decided = false;

void die(const char *what) {
    std::fprintf(stderr, "monitor: %s\n", what);
    std::exit(3);
}

std::string text_of(uint8_t form) {
    size_t size = 0;
    std::string text;
    uint8_t none = 0;
    rvmon_text(&monitor, form, &none, 0, &size);
    text.resize(size);
    if (rvmon_text(&monitor, form, reinterpret_cast<uint8_t *>(&text[0]), size, &size) != RVMON_ACCEPTED) die("no text");
    return text;
}

void depend(rvmon_event &event, uint32_t kind, const std::set<uint32_t> &on) {
    for (uint32_t seq : on) {
        if (event.count == 8) die("more than 8 dependencies");
        event.deps[event.count++] = {seq, kind};
    }
}

// Offers the events of a hart whose versions are known.
void offer_known(Hart &hart) {
    while (!decided && !hart.waiting.empty()) {
        Waiting &next = hart.waiting.front();
        if (next.reads_store) {
            auto found = versions.find(next.read_from);
            if (found == versions.end()) return;
            // An AMO returned the version before its own.
            next.event.read = found->second - (next.event.op == RVMON_AMO ? 1 : 0);
        }
        if (next.writes) {
            auto found = versions.find(next.wrote_by);
            if (found == versions.end()) return;
            next.event.wrote = found->second;
        }
        uint8_t reply = rvmon_offer(&monitor, &next.event);
        if (reply == RVMON_FORBIDDEN || reply == RVMON_MALFORMED) decided = true;
        else if (reply != RVMON_ACCEPTED) die(rvmon_words(reply));
        hart.waiting.pop_front();
    }
}

int offer_all() {
    for (Hart &hart : harts) offer_known(hart);
    return decided;
}

}  // namespace

extern "C" int retired(int id, int order, int insn_bits, int address, int rdata, int wdata) {
    uint32_t insn = static_cast<uint32_t>(insn_bits), opcode = insn & 0x7f;
    uint32_t rd = insn >> 7 & 31, rs1 = insn >> 15 & 31, rs2 = insn >> 20 & 31, word = static_cast<uint32_t>(address) / 4;
    if (!monitor.is_open && rvmon_open(&monitor, RVMON_RVWMO) != RVMON_ACCEPTED) die("it does not open");
    Hart &hart = harts[id];
    Waiting made;
    made.event = rvmon_event{};
    made.event.hart = made.event.source = static_cast<uint8_t>(id);
    made.event.seq = hart.seq;
    made.event.word = word;
    std::set<uint32_t> result;
    switch (opcode) {
    case 0x03:  // LW
        made.event.op = RVMON_LOAD;
        if (rdata != 0) {
            made.reads_store = true;
            made.read_from = store_of[{word, static_cast<uint32_t>(rdata)}];
        }
        depend(made.event, RVMON_ADDRESS, hart.behind[rs1]);
        result = {hart.seq};
        break;
    case 0x23:  // SW
        made.event.op = RVMON_STORE;
        made.writes = true;
        made.wrote_by = {id, order};
        store_of[{word, static_cast<uint32_t>(wdata)}] = {id, order};
        depend(made.event, RVMON_ADDRESS, hart.behind[rs1]);
        depend(made.event, RVMON_DATA, hart.behind[rs2]);
        break;
    case 0x2f:  // AMOSWAP.W
        made.event.op = RVMON_AMO;
        made.reads_store = made.writes = true;
        made.read_from = made.wrote_by = {id, order};
        made.event.acquire = insn >> 26 & 1;
        made.event.release = insn >> 25 & 1;
        depend(made.event, RVMON_ADDRESS, hart.behind[rs1]);
        depend(made.event, RVMON_DATA, hart.behind[rs2]);
        result = {hart.seq};
        break;
    case 0x0f:  // FENCE and FENCE.TSO
        made.event.op = insn >> 28 == 8 ? RVMON_FENCE_TSO : RVMON_FENCE;
        made.event.pred = (insn >> 25 & 1) | (insn >> 24 & 1) << 1;
        made.event.succ = (insn >> 21 & 1) | (insn >> 20 & 1) << 1;
        break;
    case 0x63: {  // BEQ
        std::set<uint32_t> both = hart.behind[rs1];
        both.insert(hart.behind[rs2].begin(), hart.behind[rs2].end());
        made.event.op = RVMON_BRANCH;
        depend(made.event, RVMON_CONTROL, both);
        break;
    }
    default:  // ADDI, ADD, XOR
        result = hart.behind[rs1];
        if (opcode == 0x33) result.insert(hart.behind[rs2].begin(), hart.behind[rs2].end());
        if (rd != 0) hart.behind[rd] = result;
        return 0;
    }
    if (rd != 0 && (opcode == 0x03 || opcode == 0x2f)) hart.behind[rd] = result;
    hart.seq++;
    hart.waiting.push_back(made);
    return offer_all();
}

extern "C" int performed(int id, int order, int address, int data) {
    uint32_t word = static_cast<uint32_t>(address) / 4;
    versions[{id, order}] = ++newest[word];
    store_of[{word, static_cast<uint32_t>(data)}] = {id, order};
    return offer_all();
}

extern "C" void finished(int cycle) {
    if (!monitor.is_open) die("nothing retired");
    if (decided) std::fprintf(stderr, "stopped in cycle %d\n", cycle);
    std::fputs(text_of(RVMON_EXPLAINED).c_str(), stderr);
    rvmon_close(&monitor);
    std::fflush(stderr);
}
