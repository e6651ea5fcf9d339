"""A second opinion on commit logs, written from docs/LOGS.md: the rows of a log, or its fault.

Of instructions it knows loads, stores, LR, SC and AMOs of integer registers, fences, branches, JALR and ADD, so that
decoding is a matter of masks.
"""

import csv
import io
from dataclasses import dataclass, field

from opinion.commits import HEADER

MOST_PARTS = 8
SETS = ["", "w", "r", "rw"]
TRACE_HEADER = "hart,seq,op,word,read,wrote,ann,deps"


class Fault(Exception):
    """A fault of a log: its row, and its number."""

    def __init__(self, row, number):
        super().__init__(f"row {row}: fault {number}")
        self.row = row
        self.number = number


@dataclass
class Asked:
    """What is asked of the rows."""

    zero: bool = False
    complete: bool = True
    pending: bool = False
    low: int = 0
    high: int = 2**64

    def has(self, addr):
        return self.low <= addr < self.high


# What a record says


def number(row, text, base, most, limit):
    digits = "0123456789" if base == 10 else "0123456789abcdefABCDEF"
    if text == "":
        raise Fault(row, 5)
    if len(text) > most or any(digit not in digits for digit in text) or int(text, base) > limit:
        raise Fault(row, 3)
    return int(text, base)


def blank(row, text):
    if text != "":
        raise Fault(row, 6)


def hexadecimal(row, text, has, needed):
    """A number in hexadecimal where the record has the field, which it may need; else the field must be blank."""
    if not has:
        blank(row, text)
        return None
    if text == "" and not needed:
        return None
    return number(row, text, 16, 16, 2**64 - 1)


def hart_of(row, text):
    hart = number(row, text, 10, 20, 2**32 - 1)
    if hart > 15:
        raise Fault(row, 21)
    return hart


def order_of(row, text):
    return number(row, text, 10, 20, 2**64 - 1)


def time_of(row, text):
    return number(row, text, 10, 20, 2**63)


@dataclass
class Instruction:
    """What the bits of an instruction are: its kind, and its registers."""

    kind: str
    rd: int = 0
    address: tuple = ()
    data: tuple = ()
    sources: tuple = ()
    marks: str = ""
    size: int = 0


def atomic(row, bits):
    """An LR, SC or AMO. LR.rl and SC.aq have no marks (manual, 8.2)."""
    rd, rs1, rs2 = bits >> 7 & 31, bits >> 15 & 31, bits >> 20 & 31
    function, both = bits >> 27, bits >> 25 & 3
    size = {2: 4, 3: 8}.get(bits >> 12 & 7)
    if size is None or function not in (0, 1, 2, 3, 4, 8, 12, 16, 20, 24, 28):
        raise Fault(row, 8)
    marks = ["", "R", "A", "AR"][both]
    if function == 2:
        if rs2:
            raise Fault(row, 8)
        return Instruction("LR", rd, (rs1,), (), (rs1,), marks if both & 2 else "", size)
    if function == 3:
        return Instruction("SC", rd, (rs1,), (rs2,), (rs1, rs2), marks if both & 1 else "", size)
    return Instruction("AMO", rd, (rs1,), (rs2,), (rs1, rs2), marks, size)


def fence(bits):
    """A FENCE. What orders no memory has no row."""
    if bits >> 20 == 0x833:
        return Instruction("FT")
    before, after = SETS[bits >> 24 & 3], SETS[bits >> 20 & 3]
    return Instruction("F" if before and after else "N", marks=f"{before}-{after}")


def decode(row, bits):
    """An instruction of those that the logs have."""
    opcode, function = bits & 127, bits >> 12 & 7
    rd, rs1, rs2 = bits >> 7 & 31, bits >> 15 & 31, bits >> 20 & 31
    if opcode == 0x03 and function != 7:
        return Instruction("L", rd, (rs1,), (), (rs1,), size=1 << (function & 3))
    if opcode == 0x23 and function < 4:
        return Instruction("S", 0, (rs1,), (rs2,), (rs1, rs2), size=1 << function)
    if opcode == 0x2F:
        return atomic(row, bits)
    if opcode == 0x0F and function == 0:
        return fence(bits)
    if opcode == 0x63 and function not in (2, 3):
        return Instruction("BR", sources=(rs1, rs2))
    if opcode == 0x67 and function == 0:
        return Instruction("BR", rd, sources=(rs1,))
    if bits & 0xFE00707F == 0x33:
        return Instruction("N", rd, sources=(rs1, rs2))
    raise Fault(row, 8)


@dataclass
class Retired:
    """An instruction that retired."""

    row: int
    hart: int
    order: int
    instruction: Instruction
    addr: int
    rdata: int
    wdata: int
    time: int

    @property
    def op(self):
        """Its operation in a trace."""
        kind = self.instruction.kind
        if kind != "SC":
            return kind
        stored = self.wdata is not None if self.rdata is None else self.rdata == 0
        return "SC" if stored else "SF"

    def stores(self):
        return self.op in ("S", "SC", "AMO")

    def low(self, value):
        """The bytes of a value that it accesses."""
        return None if value is None else value % 256**self.instruction.size


@dataclass
class Performed:
    """A store that took effect."""

    row: int
    hart: int
    order: int
    addr: int
    wdata: int
    time: int


class Records:
    """The records of a log so far, each checked beside those before it."""

    def __init__(self, asked):
        self.asked = asked
        self.retired = []
        self.performed = []
        self.counts = [0] * 16
        self.words = []
        self.ended = False

    def take_retired(self, row, record):
        hart = hart_of(row, record[1])
        order = order_of(row, record[2])
        if order != self.counts[hart]:
            raise Fault(row, 7)
        number(row, record[3], 16, 16, 2**64 - 1)
        instruction = decode(row, number(row, record[4], 16, 8, 2**32 - 1))
        kind = instruction.kind
        addr = hexadecimal(row, record[5], kind in ("L", "LR", "S", "SC", "AMO"), True)
        rdata = hexadecimal(row, record[6], kind in ("L", "LR", "SC", "AMO"), False)
        wdata = hexadecimal(row, record[7], kind in ("S", "SC", "AMO"), False)
        time = None if record[8] == "" else time_of(row, record[8])
        if addr is not None and not self.asked.has(addr):
            instruction, addr = Instruction("N", instruction.rd), None
        new = Retired(row, hart, order, instruction, addr, rdata, wdata, time)
        if addr is not None:
            self.take_word(row, addr, instruction.size)
        for effect in self.effects(hart, order):
            if not new.stores():
                raise Fault(row, 19 if new.op == "SF" else 13)
            self.agree(row, new, effect)
        self.counts[hart] += 1
        self.retired.append(new)
        return new

    def take_word(self, row, addr, size):
        """The bytes of an access: the word's number is its place among the words."""
        if addr % size:
            raise Fault(row, 9)
        if (addr, size) in self.words:
            return
        if any(addr < other + more and other < addr + size for other, more in self.words):
            raise Fault(row, 10)
        self.words.append((addr, size))

    def take_performed(self, row, record):
        hart = hart_of(row, record[1])
        order = order_of(row, record[2])
        blank(row, record[3])
        blank(row, record[4])
        addr = number(row, record[5], 16, 16, 2**64 - 1)
        blank(row, record[6])
        wdata = hexadecimal(row, record[7], True, False)
        time = time_of(row, record[8])
        if self.asked.has(addr):
            self.perform(Performed(row, hart, order, addr, wdata, time))

    def perform(self, new):
        row, stores = new.row, self.stores(new.hart, new.order)
        if new.order < self.counts[new.hart] and not stores:
            raise Fault(row, 13)
        for store in stores:
            self.agree(row, store, new)
        if self.performed and new.time < self.performed[-1].time:
            raise Fault(row, 11)
        if self.effects(new.hart, new.order):
            raise Fault(row, 14)
        if any(effect.addr == new.addr and effect.time == new.time for effect in self.performed):
            raise Fault(row, 12)
        self.performed.append(new)

    def take_end(self, row, record):
        blank(row, record[1])
        if order_of(row, record[2]) != row - 1:
            raise Fault(row, 23)
        for text in record[3:]:
            blank(row, text)
        self.ended = True

    def end(self, row):
        """The log ends behind this row."""
        last = row - 1 if self.ended else row
        if self.asked.complete and not self.ended:
            raise Fault(row + 1, 23)
        if any(effect.order >= self.counts[effect.hart] for effect in self.performed):
            raise Fault(last, 13)
        for store in self.retired:
            if store.stores() and not self.effects(store.hart, store.order):
                if not self.asked.pending:
                    raise Fault(store.row, 15)
                time = self.performed[-1].time + 1 if self.performed else 1
                self.performed.append(Performed(store.row, store.hart, store.order, store.addr, None, time))

    def stores(self, hart, order):
        return [one for one in self.retired if one.stores() and (one.hart, one.order) == (hart, order)]

    def effects(self, hart, order):
        return [effect for effect in self.performed if (effect.hart, effect.order) == (hart, order)]

    @staticmethod
    def agree(row, store, effect):
        if store.addr != effect.addr:
            raise Fault(row, 16)
        if None not in (store.wdata, effect.wdata) and store.low(store.wdata) != store.low(effect.wdata):
            raise Fault(row, 16)


# The versions of words


UNKNOWN = "unknown"  # what more records may tell


class Memory:
    """The versions of words, by the records so far."""

    def __init__(self, records):
        self.records = records
        self.first = {}  # what version 0 of a word holds, as a load told

    def effects(self, addr):
        return [effect for effect in self.records.performed if effect.addr == addr]

    def wrote(self, hart, order):
        """The version that a store made, and when."""
        for mine in self.records.effects(hart, order):
            return self.effects(mine.addr).index(mine) + 1, mine.time
        return UNKNOWN

    def value(self, addr, version):
        """What a version holds: a number, None where no record shows it, or UNKNOWN."""
        if version == 0:
            return 0 if self.records.asked.zero else self.first.get(addr)
        effect = self.effects(addr)[version - 1]
        for store in self.records.stores(effect.hart, effect.order):
            return store.low(store.wdata if effect.wdata is None else effect.wdata)
        return UNKNOWN

    def by_time(self, one, ended):
        """The version that the times tell an instruction returned."""
        if one.op == "AMO":
            wrote = self.wrote(one.hart, one.order)
            return UNKNOWN if wrote == UNKNOWN else wrote[0] - 1
        if one.time is None:
            return None if ended else UNKNOWN
        own = [store for store in self.records.retired if (store.hart, store.addr) == (one.hart, one.addr)]
        own = [store for store in own if store.stores() and store.order < one.order]
        if own:
            wrote = self.wrote(own[-1].hart, own[-1].order)
            if wrote == UNKNOWN:
                return UNKNOWN
            if wrote[1] > one.time:
                return wrote[0]
        if not ended and not any(effect.time > one.time for effect in self.records.performed):
            return UNKNOWN
        return sum(effect.time <= one.time for effect in self.effects(one.addr))

    def returned(self, one, ended):
        """The version that an instruction returned, or UNKNOWN. A fault where there is none."""
        version, shown = self.by_time(one, ended), one.low(one.rdata)
        if version == UNKNOWN:
            return UNKNOWN
        if version is not None:
            holds = None if shown is None else self.value(one.addr, version)
            if holds in (None, shown):
                return version
            if not ended:
                return UNKNOWN
        if shown is None:
            raise Fault(one.row, 17)
        versions = range(len(self.effects(one.addr)) + 1)
        found = [version for version in versions if self.value(one.addr, version) == shown]
        if not found and self.value(one.addr, 0) is None:
            return 0
        if len(found) != 1:
            raise Fault(one.row, 18 if found else 17)
        return found[0]

    def tell(self, one, version):
        """A row came that returned this version."""
        if version == 0 and one.rdata is not None:
            self.first.setdefault(one.addr, one.low(one.rdata))


# The rows of a log


@dataclass
class Row:
    """A row that waits for its versions: of which instruction it is, if it has some."""

    op: str
    marks: str
    deps: str
    one: Retired = None


@dataclass
class Hart:
    """The rows of a hart, and what its registers depend on."""

    hart: int
    rows: list = field(default_factory=list)
    given: int = 0
    events: dict = field(default_factory=dict)
    tested: set = field(default_factory=set)
    carriers: list = field(default_factory=list)

    def of(self, registers):
        return set().union(*(self.events.get(register, set()) for register in registers))

    def fold(self, parts, events):
        """A carrier that lists the parts, in their place."""
        self.carriers.append((len(self.rows), events))
        self.rows.append(Row("I", "", " ".join(f"d{part}" for part in parts)))
        return [len(self.rows) - 1], events

    def collect(self, events):
        """Eight parts at most that stand for the events: the latest carriers that can, then events."""
        parts, listed, rest = [], set(), set(events)
        for carrier, carried in reversed(list(self.carriers)):
            if len(parts) < MOST_PARTS and carried <= rest:
                parts, listed, rest = parts + [carrier], listed | carried, rest - carried
        for event in sorted(rest):
            if len(parts) == MOST_PARTS:
                parts, listed = self.fold(parts, listed)
            parts, listed = parts + [event], listed | {event}
        return parts, listed

    def lists(self, address, data):
        first, second = self.collect(address), self.collect(data)
        if len(first[0]) + len(second[0]) > MOST_PARTS:
            second = self.fold(*second)
        if len(first[0]) + len(second[0]) > MOST_PARTS:
            first = self.fold(*first)
        return " ".join([f"a{part}" for part in first[0]] + [f"d{part}" for part in second[0]])

    def branch(self, insn):
        events = sorted(self.of(insn.sources) - self.tested)
        self.tested.update(events)
        for start in range(0, len(events), MOST_PARTS):
            self.rows.append(Row("BR", "", " ".join(f"c{event}" for event in events[start:start + MOST_PARTS])))

    def take(self, one):
        """Adds the rows of the next instruction."""
        insn, carried = one.instruction, set()
        if one.op in ("L", "LR", "S", "SC", "SF", "AMO"):
            deps = self.lists(self.of(insn.address), self.of(insn.data))
            carried = {len(self.rows)} if one.op in ("L", "LR", "SC", "AMO") else set()
            self.rows.append(Row(one.op, insn.marks, deps, one))
        elif one.op in ("F", "FT"):
            self.rows.append(Row(one.op, insn.marks, ""))
        elif one.op == "BR":
            self.branch(insn)
        else:
            carried = self.of(insn.sources)
        if insn.rd:
            self.events[insn.rd] = carried

    def give(self, memory, ended):
        """The rows that are known, as texts."""
        while self.given < len(self.rows):
            row = self.rows[self.given]
            word, read, wrote = "", "", ""
            if row.one is not None:
                one = row.one
                word = memory.records.words.index((one.addr, one.instruction.size))
                if one.stores():
                    wrote = memory.wrote(one.hart, one.order)
                    if wrote == UNKNOWN:
                        return
                    wrote = wrote[0]
                if one.op in ("L", "LR", "AMO"):
                    read = memory.returned(one, ended)
                    if read == UNKNOWN:
                        return
                    memory.tell(one, read)
            yield f"{self.hart},{self.given},{row.op},{word},{read},{wrote},{row.marks},{row.deps}"
            self.given += 1


class Translation:
    """The rows of a log, record by record."""

    def __init__(self, asked):
        self.records = Records(asked)
        self.memory = Memory(self.records)
        self.harts = [Hart(hart) for hart in range(16)]
        self.lines = [TRACE_HEADER]
        self.row = -1

    def give(self, harts, ended):
        for hart in harts:
            for line in hart.give(self.memory, ended):
                self.lines.append(line)

    def take(self, record):
        self.row += 1
        row, records = self.row, self.records
        if row == 0:
            if record != HEADER.split(","):
                raise Fault(0, 1)
        elif records.ended:
            raise Fault(row, 22)
        elif len(record) != 9:
            raise Fault(row, 2)
        elif record[0] == "C":
            one = records.take_retired(row, record)
            self.harts[one.hart].take(one)
            self.give([self.harts[one.hart]], False)
        elif record[0] == "P":
            records.take_performed(row, record)
            self.give(self.harts, False)
        elif record[0] == "E":
            records.take_end(row, record)
        else:
            raise Fault(row, 4)

    def finish(self):
        if self.row < 0:
            raise Fault(0, 1)
        self.records.end(self.row)
        self.give(self.harts, True)


def rows_of(text, asked):
    """The lines that come of a log, and its fault if it has one."""
    translation = Translation(asked)
    try:
        for record in csv.reader(io.StringIO(text)):
            if record:
                translation.take(record)
        translation.finish()
    except Fault as fault:
        return translation.lines, (fault.row, fault.number)
    return translation.lines, None
