"""Random traces of messages between harts, for runs of any length.

A hart stores to a shared word, and tells it by a flag behind a fence. Who loads the flag bars what it does later: by a
fence, a branch, an address or an acquire annotation, some of which bar loads alone, or stores alone. Late loads and
stores of older versions then try what the bars leave open. So a past that forgets too much shows.

Harts swap the value of a word too: by an LR, and an SC, a failed SC or neither some events later. So LRs are forgotten
that still wait.
"""

import random
from collections import Counter

from opinion.model import Event
from opinion.traces import HEADER, Trace, row_of

SHARED, FIRST_FLAG, FIRST_READ, FIRST_COUNTER, SWAPPED = 3, 10, 20, 30, 40
LATE_ROUNDS = 4
BARS = ["r-r", "rw-r", "r-w", "rw-w", "r-rw", "branch", "address", "acquire"]


class Messages:
    """The events of some harts in the order in which they come, and what late ones may try."""

    def __init__(self, dice):
        self.dice = dice
        self.count = dice.choice([2, 2, 3])
        self.seq = [0] * self.count
        self.versions = Counter()
        self.events = []
        self.late = []
        self.reserved = [None] * self.count

    def add(self, hart, operation, word=0, read=0, wrote=0, annotation="", dependencies=()):
        """Adds an event, and gives its number."""
        number = self.seq[hart]
        self.seq[hart] += 1
        self.events.append(Event(hart, number, operation, word, read, wrote, annotation, tuple(dependencies)))
        return number

    def tell(self, hart):
        """A hart stores, or loads what is still to be stored, and tells it by its flag."""
        word = self.dice.randrange(SHARED)
        older = self.versions[word]
        newer = self.versions[word] = older + self.dice.choice([1, 2, 2])
        if self.dice.random() < 0.3:
            self.add(hart, "L", word, read=newer)
            self.late.append(("S", word, newer))
        else:
            self.add(hart, "S", word, wrote=newer)
            self.late.append(("L", word, older))
            if newer > older + 1:
                self.late.append(("S", word, newer - 1))
        self.add(hart, "F", annotation=self.dice.choice(["rw-w", "rw-rw", "rw-rw"]))
        self.versions[FIRST_FLAG + hart] += 1
        self.add(hart, "S", FIRST_FLAG + hart, wrote=self.versions[FIRST_FLAG + hart])
        if self.dice.random() < 0.8:
            self.add(hart, "F", annotation="rw-rw")

    def hear(self, hart, teller):
        """A hart loads the flag of another one, and bars what it does later."""
        flag = self.add(hart, "L", FIRST_FLAG + teller, read=self.versions[FIRST_FLAG + teller])
        for _ in range(self.dice.choice([0, 1, 1, 1, 2])):
            bar = self.dice.choice(BARS)
            if bar == "branch":
                self.add(hart, "BR", dependencies=[("c", flag)])
            elif bar == "address":
                self.add(hart, "L", FIRST_READ + hart, dependencies=[("a", flag)])
            elif bar == "acquire":
                old = self.versions[FIRST_COUNTER + hart]
                self.versions[FIRST_COUNTER + hart] += 1
                self.add(hart, "AMO", FIRST_COUNTER + hart, old, old + 1, "A")
            else:
                self.add(hart, "F", annotation=bar)

    def swap(self, hart, is_sound):
        """A hart loads the swapped word by an LR, or ends a swap that it began: where that is to be sound, by an SC only
        if nobody stored since."""
        version, loaded = self.versions[SWAPPED], self.reserved[hart]
        if loaded is None:
            self.add(hart, "LR", SWAPPED, read=version)
            self.reserved[hart] = version
            return
        operation = self.dice.choice(["SC", "SC", "SF", "LR"])
        if operation == "SC" and is_sound and version != loaded:
            operation = "SF"
        if operation == "SC":
            self.versions[SWAPPED] += 1
            self.add(hart, "SC", SWAPPED, wrote=version + 1)
        elif operation == "SF":
            self.add(hart, "SF", SWAPPED)
        else:
            self.add(hart, "LR", SWAPPED, read=version)
        self.reserved[hart] = version if operation == "LR" else None

    def come_late(self, hart):
        """A hart loads or stores an older version of a shared word."""
        operation, word, version = late = self.dice.choice(self.late)
        if operation == "L":
            self.add(hart, "L", word, read=version)
        else:
            self.late.remove(late)
            self.add(hart, "S", word, wrote=version)

    def round(self, late):
        """A message to most harts, and with this chance a late event. Where there is no chance, all is sound."""
        teller = self.dice.randrange(self.count)
        if self.dice.random() < 0.4:
            self.swap(self.dice.randrange(self.count), not late)
        self.tell(teller)
        for hart in range(self.count):
            if hart != teller and self.dice.random() < 0.9:
                self.hear(hart, teller)
        if self.late and self.dice.random() < late:
            self.come_late(self.dice.randrange(self.count))


    def trace(self):
        """The trace of these events."""
        lines = [HEADER, *(",".join(row_of(event)) for event in self.events)]
        model = self.dice.choice(["rvwmo", "rvwmo", "tso"])
        return Trace(["".join(line + "\n" for line in lines)], model, [], False, False)


def message_trace(seed):
    """The trace of messages that has this seed."""
    dice = random.Random(seed)
    messages = Messages(dice)
    for _ in range(dice.randint(1, 4)):
        messages.round(0.5)
    return messages.trace()


def long_message_trace(seed, count):
    """The trace of this seed in which so many events come before the first late one."""
    messages = Messages(random.Random(seed))
    while len(messages.events) < count:
        messages.round(0)
    for _ in range(LATE_ROUNDS):
        messages.round(0.3)
    return messages.trace()
