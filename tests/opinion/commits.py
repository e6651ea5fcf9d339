"""Random commit logs, some of them broken on purpose.

Their harts have store buffers, which give their stores to memory one by one. Of instructions there are loads and stores
of each size, LR, SC, AMOs, fences, branches, jumps and additions. The logs show times and values, or leave some out.
"""

import random
from dataclasses import dataclass, field

HEADER = "kind,hart,order,pc,insn,addr,rdata,wdata,time"
INSN = HEADER.split(",").index("insn")
SIZES = [1, 2, 4, 8]
SUM = 8  # a register that is only added to


@dataclass
class Design:
    """Harts with store buffers over one memory, and what they log."""

    chance: random.Random
    harts: int
    timed: bool
    shown: bool
    sizes: list
    records: list = field(default_factory=list)
    memory: dict = field(default_factory=dict)
    time: int = 0
    value: int = 0

    def __post_init__(self):
        self.buffers = [[] for _ in range(self.harts)]
        self.orders = [0] * self.harts

    def retire(self, hart, insn, addr="", rdata="", wdata="", time=""):
        order = self.orders[hart]
        self.orders[hart] += 1
        self.records.append(["C", hart, order, f"{0x80000000 + 4 * order:x}", f"{insn:08x}", addr, rdata, wdata, time])
        return order

    def perform(self, hart, order, address, value, shown):
        self.time += 1
        self.memory[address] = value
        wdata = f"{value:x}" if shown else ""
        self.records.append(["P", hart, order, "", "", f"{address:x}", "", wdata, self.time])

    def drain(self, hart):
        order, address, value = self.buffers[hart].pop(0)
        self.perform(hart, order, address, value, self.chance.random() < 0.5)

    def drain_all(self, hart):
        while self.buffers[hart]:
            self.drain(hart)

    def next_value(self, size):
        """A value of so many bytes; now and then one that there was."""
        self.value += self.chance.choice((0,) + (1,) * 20)
        return self.value % 256**size

    def load(self, hart, address, insn):
        own = [value for _, at, value in self.buffers[hart] if at == address]
        value = own[-1] if own else self.memory.get(address, 0)
        if self.chance.random() < 0.005:
            value = 77
        rdata = f"{value:x}" if self.shown or not self.timed else ""
        self.retire(hart, insn, f"{address:x}", rdata, "", self.time if self.timed else "")
        self.time += self.chance.randint(0, 1)

    def store(self, hart, address, size, insn):
        value = self.next_value(size)
        order = self.retire(hart, insn, f"{address:x}", "", f"{value:x}")
        self.buffers[hart].append((order, address, value))

    def store_at_once(self, hart, address, size, insn, rdata):
        """An AMO, or an SC that stores: it shows `rdata`."""
        value = self.next_value(size)
        wdata = "" if self.chance.random() < 0.1 and rdata != "" else f"{value:x}"
        order = self.retire(hart, insn, f"{address:x}", rdata, wdata)
        self.perform(hart, order, address, value, False)
        if self.chance.random() < 0.5:
            self.records[-2:] = reversed(self.records[-2:])

    def atomic(self, hart, address, size, registers):
        """An LR, SC or AMO."""
        chance = self.chance
        insn = 0x202F | (0x1000 if size == 8 else 0) | chance.randint(0, 3) << 25 | registers
        self.drain_all(hart)
        old = self.memory.get(address, 0)
        kind = chance.random()
        if kind < 0.25:
            self.load(hart, address, insn & ~(31 << 20) | 0x10000000)
        elif kind < 0.4:
            self.retire(hart, insn | 0x18000000, f"{address:x}", "1" if chance.random() < 0.8 else "")
        elif kind < 0.6:
            self.store_at_once(hart, address, size, insn | 0x18000000, chance.choice(("0", "")))
        else:
            function = chance.choice((0, 1, 4, 8, 12, 16, 20, 24, 28))
            self.store_at_once(hart, address, size, insn | function << 27, f"{old:x}" if self.shown else "")

    def access(self, hart, word, registers):
        """A load, a store or an atomic operation of a word."""
        chance = self.chance
        size = self.sizes[word]
        address = 0x1000 + 8 * word
        kind = chance.random()
        if kind < 0.25 and size >= 4:
            self.atomic(hart, address, size, registers)
        elif kind < 0.65:
            function = chance.choice((SIZES.index(size), (SIZES.index(size) + 4) % 7))
            self.load(hart, address, 0x03 | (function if size < 8 else 3) << 12 | registers & 0xFFF80)
        else:
            self.store(hart, address, size, 0x23 | SIZES.index(size) << 12 | registers & 0x1FF8000)

    def step(self):
        chance = self.chance
        hart = chance.randrange(self.harts)
        rd, rs1, rs2 = (chance.randint(0, SUM - 1) for _ in range(3))
        if chance.random() < 0.2:
            rs1, rs2 = chance.choice(((SUM, rs2), (rs1, SUM)))
        registers = rd << 7 | rs1 << 15 | rs2 << 20
        if self.buffers[hart] and chance.random() < 0.3:
            self.drain(hart)
            return
        kind = chance.random()
        if kind < 0.6:
            self.access(hart, chance.randrange(len(self.sizes)), registers)
        elif kind < 0.67:
            sets = 0x83300000 if chance.random() < 0.2 else chance.randint(0, 15) << 24 | chance.randint(0, 15) << 20
            self.retire(hart, 0x0F | sets)
        elif kind < 0.75:
            self.retire(hart, chance.choice((0x63 | registers & 0x1FF8000, 0x67 | registers & 0xFFF80)))
        elif kind < 0.88:
            self.retire(hart, 0x33 | registers)
        else:
            self.retire(hart, 0x33 | rs2 << 20 | SUM << 15 | SUM << 7)


def break_records(chance, records):
    """Takes a record away, exchanges two, changes a field, or cuts the log."""
    way = chance.random()
    place = chance.randrange(len(records))
    if way < 0.2:
        del records[place]
    elif way < 0.5:
        other = chance.randrange(len(records))
        records[place], records[other] = records[other], records[place]
    elif way < 0.95:
        column = chance.randrange(9)
        others = ["", "x", "0", "ffffffff"] if column == INSN else ["", "x", "99", "1", "0", "1008", "1004"]
        records[place][column] = chance.choice(others)
    else:
        del records[place:]


def random_log(seed):
    """The log of a seed, as a text."""
    chance = random.Random(seed)
    sizes = [chance.choice((8, 8, 4, 4, 2, 1)) for _ in range(chance.randint(1, 4))]
    design = Design(chance, chance.randint(1, 4), chance.random() < 0.7, chance.random() < 0.8, sizes)
    for _ in range(chance.choice((10, 30, 60, 60, 200))):
        design.step()
    for hart in range(design.harts):
        if chance.random() < 0.95:
            design.drain_all(hart)
    records = design.records
    if chance.random() < 0.3:
        for _ in range(chance.randint(1, 2)):
            if records:
                break_records(chance, records)
    if chance.random() < 0.95:
        records.append(["E", "", len(records), "", "", "", "", "", ""])
    return "\n".join([HEADER] + [",".join(map(str, record)) for record in records]) + "\n"
