"""A second opinion on RVWMO and Ztso: events, logs, rules, lawful orders, faults and certificates.

It is written from docs/MODEL.md, apart from the program. It sorts the operations by what each axiom asks of them, and
confirms the order by the axioms; of a small log it also looks for an order by backtracking, and compares the two.
"""

import graphlib
import re
from dataclasses import dataclass

FENCE_SETS = [f"{before}-{behind}" for before in ("r", "w", "rw") for behind in ("r", "w", "rw")]

# Of each operation: the numbers that it has, the annotations that it may have, the letters of its dependencies.
OPERATIONS = {
    "L": (("word", "read"), [""], "a"),
    "S": (("word", "wrote"), [""], "ad"),
    "LR": (("word", "read"), ["", "A", "AR"], "a"),
    "SC": (("word", "wrote"), ["", "R", "AR"], "ad"),
    "SF": (("word",), ["", "R", "AR"], "ad"),
    "AMO": (("word", "read", "wrote"), ["", "A", "R", "AR"], "ad"),
    "F": ((), FENCE_SETS, ""),
    "FT": ((), [""], ""),
    "BR": ((), [""], "c"),
    "I": ((), [""], "d"),
}


# Events and logs


@dataclass(eq=False)
class Event:
    """An event of a hart. A number that the operation has not is 0; a dependency is a letter and a number."""

    hart: int
    seq: int
    operation: str
    word: int = 0
    read: int = 0
    wrote: int = 0
    annotation: str = ""
    dependencies: tuple = ()

    def __post_init__(self):
        self.is_load = self.operation in ("L", "LR", "AMO")
        self.is_store = self.operation in ("S", "SC", "AMO")
        self.is_memory = self.is_load or self.is_store
        self.can_be_listed = self.operation in ("L", "LR", "SC", "SF", "AMO", "I")

    @property
    def name(self):
        """The event's id, as reports have it."""
        return f"h{self.hart}:{self.seq}"


class Log:
    """A list of entries (source, event), judged by one memory model.

    What the rules order before an event depends on the events of its hart up to it. So it is found once, and kept for
    all logs of one trace.
    """

    def __init__(self, entries, model, ordered_before=None):
        self.entries = entries
        self.model = model
        self.events = [event for _, event in entries]
        self.ordered_before = {} if ordered_before is None else ordered_before

    def extended(self, source, event):
        """The log with one entry more."""
        return Log(self.entries + [(source, event)], self.model, self.ordered_before)

    def by_rules(self, operation):
        """The operations that a rule orders before this one."""
        if operation not in self.ordered_before:
            self.ordered_before[operation] = [
                a for a in self.events if any(rule_orders(self, number, a, operation) for number in RULES)
            ]
        return self.ordered_before[operation]

    def of_hart(self, hart):
        """The events of a hart, in program order."""
        return [event for event in self.events if event.hart == hart]

    def between(self, a, b):
        """The events between a and b in program order."""
        return [m for m in self.events if is_earlier(a, m) and is_earlier(m, b)]

    def named(self, name):
        """The first event that has the id, or None."""
        return next((event for event in self.events if event.name == name), None)

    def stores_of(self, word):
        """The stores of a word."""
        return [event for event in self.events if event.is_store and event.word == word]

    def writer(self, word, version):
        """The first store that wrote the version of the word, or None; version 0 has none."""
        return next((s for s in self.stores_of(word) if s.wrote == version), None) if version else None

    def paired_load_reserved(self, event):
        """The LR that is paired with the event, or None."""
        return next((a for a in self.events if is_paired(self, a, event)), None)


# What relates two events of a hart


def is_earlier(a, b):
    """a is earlier than b in program order."""
    return a.hart == b.hart and a.seq < b.seq


def returns(b, a):
    """Load b returns what store a wrote."""
    return b.is_load and a.is_store and b.word == a.word and b.read == a.wrote


def is_paired(log, a, b):
    """LR a is paired with the later SC b: no LR, SC or failed SC stands between them."""
    if a.operation != "LR" or b.operation != "SC" or not is_earlier(a, b):
        return False
    return not any(m.operation in ("LR", "SC", "SF") for m in log.between(a, b))


def has_bit(event, letter):
    """An LR, an SC or an AMO has the acquire bit (A) or the release bit (R)."""
    return event.operation in ("LR", "SC", "AMO") and letter in event.annotation


def is_acquire(log, event):
    """The event has an acquire annotation; by Ztso every load has one."""
    return has_bit(event, "A") or (log.model == "tso" and event.is_load)


def is_release(log, event):
    """The event has a release annotation; by Ztso every store has one."""
    return has_bit(event, "R") or (log.model == "tso" and event.is_store)


def is_rcsc(log, event):
    """The event has an RCsc annotation; by Ztso every AMO has one."""
    return has_bit(event, "A") or has_bit(event, "R") or (log.model == "tso" and event.operation == "AMO")


def fence_orders(fence, a, b):
    """A fence between a and b orders them."""
    if fence.operation == "FT":
        return a.is_load or (a.is_store and b.is_store)
    if fence.operation != "F":
        return False
    before, behind = fence.annotation.split("-")
    return is_in_set(a, before) and is_in_set(b, behind)


def is_in_set(event, letters):
    """The event is in a fence's set: r takes loads, w takes stores."""
    return ("r" in letters and event.is_load) or ("w" in letters and event.is_store)


def lists(b, a, letters):
    """b lists a dependency on a of one of these kinds: a address, d data, c control."""
    return is_earlier(a, b) and any(letter in letters and seq == a.seq for letter, seq in b.dependencies)


def is_behind(log, a, carrier):
    """The carrier lists a, or a carrier that a is behind."""
    return carrier.operation == "I" and depends(log, carrier, a, "d")


def depends(log, b, a, letters):
    """b lists a dependency of one of these kinds on a, or on a carrier that a is behind."""
    return lists(b, a, letters) or any(lists(b, m, letters) and is_behind(log, a, m) for m in log.of_hart(b.hart))


# Preserved program order: what each rule asks of two memory operations, a earlier than b


def rule_1(log, a, b):
    """b is a store of a's word."""
    return b.is_store and b.word == a.word


def rule_2(log, a, b):
    """Both are loads of a word that no store between them writes, and they return different versions."""
    if not (a.is_load and b.is_load and a.word == b.word and a.read != b.read):
        return False
    return not any(m.is_store and m.word == a.word for m in log.between(a, b))


def rule_3(log, a, b):
    """a is an AMO or an SC, and b is a load that returns what a wrote."""
    return a.operation in ("AMO", "SC") and returns(b, a)


def rule_4(log, a, b):
    """A fence orders a before b."""
    return any(fence_orders(m, a, b) for m in log.between(a, b))


def rule_5(log, a, b):
    """a has an acquire annotation."""
    return is_acquire(log, a)


def rule_6(log, a, b):
    """b has a release annotation."""
    return is_release(log, b)


def rule_7(log, a, b):
    """Both have RCsc annotations."""
    return is_rcsc(log, a) and is_rcsc(log, b)


def rule_8(log, a, b):
    """a is paired with b."""
    return is_paired(log, a, b)


def rule_9(log, a, b):
    """b has an address dependency on a."""
    return depends(log, b, a, "a")


def rule_10(log, a, b):
    """b has a data dependency on a."""
    return depends(log, b, a, "d")


def rule_11(log, a, b):
    """b is a store with a control dependency on a: a branch between them depends on a."""
    return b.is_store and any(m.operation == "BR" and depends(log, m, a, "c") for m in log.between(a, b))


def rule_12(log, a, b):
    """b is a load that returns what a store between them wrote, whose address or data depends on a."""
    return any(returns(b, m) and depends(log, m, a, "ad") for m in log.between(a, b))


def rule_13(log, a, b):
    """b is a store, and the address of an event between them depends on a."""
    return b.is_store and any(depends(log, m, a, "a") for m in log.between(a, b))


RULES = {
    1: rule_1, 2: rule_2, 3: rule_3, 4: rule_4, 5: rule_5, 6: rule_6, 7: rule_7,
    8: rule_8, 9: rule_9, 10: rule_10, 11: rule_11, 12: rule_12, 13: rule_13,
}


def rule_orders(log, number, a, b):
    """The rule of this number orders a before b."""
    return a.is_memory and b.is_memory and is_earlier(a, b) and RULES[number](log, a, b)


# Lawful orders: whether an operation may stand next in the order, behind those placed


def keeps_program_order(log, placed, operation):
    """Each operation that a rule orders before this one is placed."""
    return all(a in placed for a in log.by_rules(operation))


def keeps_versions(log, placed, operation):
    """Stores of one word stand by version: those of lower versions are placed, and those of higher are not."""
    if not operation.is_store:
        return True
    others = (store for store in log.stores_of(operation.word) if store is not operation)
    return all((store in placed) == (store.wrote < operation.wrote) for store in others)


def has_load_value(log, placed, operation):
    """No candidate of a load has a version above the one read, and the version's writer, where known, is one."""
    if not operation.is_load:
        return True
    stores = log.stores_of(operation.word)
    candidates = [store for store in stores if store in placed or is_earlier(store, operation)]
    writer = log.writer(operation.word, operation.read)
    return all(store.wrote <= operation.read for store in candidates) and (writer is None or writer in candidates)


def is_atomic(log, placed, operation):
    """For an SC paired with an LR: the writer of what the LR returned is placed, no other hart's later store is."""
    load = log.paired_load_reserved(operation)
    if load is None:
        return True
    writer = log.writer(load.word, load.read)
    later = (s for s in log.stores_of(load.word) if s.wrote > load.read and s.hart != operation.hart)
    return (writer is None or writer in placed) and not any(store in placed for store in later)


AXIOMS = (keeps_versions, has_load_value, is_atomic, keeps_program_order)

# A log of more events is not searched by backtracking, which may take long.
SMALL_LOG = 10


def can_be_ordered(log):
    """Some order is found by backtracking. Which operation may come next depends on the set placed alone."""
    operations = [event for event in log.events if event.is_memory]
    dead_ends = set()

    def can_end(placed):
        if len(placed) == len(operations):
            return True
        if placed in dead_ends:
            return False
        for operation in operations:
            if operation not in placed and all(axiom(log, placed, operation) for axiom in AXIOMS):
                if can_end(placed | {operation}):
                    return True
        dead_ends.add(placed)
        return False

    return can_end(frozenset())


def demands_of(log, operation):
    """What the axioms ask of an operation's place: the operations before it, and those behind it."""
    before, behind = list(log.by_rules(operation)), []
    if operation.is_store:
        others = [store for store in log.stores_of(operation.word) if store is not operation]
        before += [store for store in others if store.wrote < operation.wrote]
        behind += [store for store in others if store.wrote >= operation.wrote]
    if operation.is_load:
        writer = log.writer(operation.word, operation.read)
        before += [writer] if writer and not is_earlier(writer, operation) else []
        newer = [store for store in log.stores_of(operation.word) if store.wrote > operation.read]
        behind += [store for store in newer if store is not operation]
        # A newer store that is earlier in program order is a candidate wherever it stands.
        behind += [operation for store in newer if is_earlier(store, operation)]
    load = log.paired_load_reserved(operation)
    if load:
        writer = log.writer(load.word, load.read)
        before += [writer] if writer else []
        newer = (store for store in log.stores_of(load.word) if store.wrote > load.read)
        behind += [store for store in newer if store.hart != operation.hart]
    return before, behind


def order_by_demands(log):
    """The operations sorted by what the axioms ask of each, or None where that goes round in a circle."""
    operations = [event for event in log.events if event.is_memory]
    sorter = graphlib.TopologicalSorter({operation: [] for operation in operations})
    for operation in operations:
        before, behind = demands_of(log, operation)
        if operation in before or operation in behind:
            return None
        sorter.add(operation, *before)
        for other in behind:
            sorter.add(other, operation)
    try:
        return list(sorter.static_order())
    except graphlib.CycleError:
        return None


def is_lawful(log, order):
    """The order is lawful, by the axioms."""
    return all(axiom(log, order[:place], operation) for place, operation in enumerate(order) for axiom in AXIOMS)


def has_lawful_order(log):
    """Some global memory order of the log is lawful."""
    order = order_by_demands(log)
    if order is not None and not is_lawful(log, order):
        raise AssertionError("the second opinion sorts operations in an order that is not lawful")
    if len(log.events) <= SMALL_LOG and can_be_ordered(log) != (order is not None):
        raise AssertionError("the second opinion finds by backtracking what it does not find by sorting")
    return order is not None


# Faults of an entry over the log before it, in their order: the fault's text, or None


def fault_1(log, source, event):
    """The hart is above 15."""
    return "hart" if event.hart > 15 else None


def fault_2(log, source, event):
    """The event's number is not the number of its hart's events so far."""
    expected = len(log.of_hart(event.hart))
    return f"sequence, expected {expected}" if event.seq != expected else None


def fault_3(log, source, event):
    """A dependency is not on an earlier number, or on an event that none may list, or of a wrong kind."""
    listed = {earlier.seq for earlier in log.of_hart(event.hart) if earlier.can_be_listed}
    letters = OPERATIONS[event.operation][2]
    good = all(letter in letters and seq < event.seq and seq in listed for letter, seq in event.dependencies)
    return None if good else "dependency"


def fault_4(log, source, event):
    """A store writes version 0."""
    return "version zero" if event.is_store and event.wrote == 0 else None


def fault_5(log, source, event):
    """A store writes a version that a store of the log wrote."""
    writer = log.writer(event.word, event.wrote) if event.is_store else None
    return f"version taken by {writer.name}" if writer else None


def fault_6(log, source, event):
    """An SC, and the hart's last LR, SC or failed SC is no LR, or there is none."""
    if event.operation != "SC":
        return None
    ends = [earlier.operation for earlier in log.of_hart(event.hart) if earlier.operation in ("LR", "SC", "SF")]
    return "no reservation" if not ends or ends[-1] != "LR" else None


def fault_7(log, source, event):
    """The hart has 4,096 events."""
    return "hart full" if len(log.of_hart(event.hart)) >= 4096 else None


def fault_8(log, source, event):
    """The hart's events so far came from another source."""
    others = any(earlier.hart == event.hart and other != source for other, earlier in log.entries)
    return "other source" if others else None


def fault_9(log, source, event):
    """There are more than eight dependencies. No row has them: it is a fault of its trace before."""
    return "too many dependencies" if len(event.dependencies) > 8 else None


FAULTS = {
    1: fault_1, 2: fault_2, 3: fault_3, 4: fault_4, 5: fault_5, 6: fault_6, 7: fault_7, 8: fault_8, 9: fault_9,
}


def fault_of(log, source, event):
    """The first fault of an entry, as its number and text, or None."""
    for number, fault in FAULTS.items():
        text = fault(log, source, event)
        if text is not None:
            return f"fault {number} {text}"
    return None


# Certificates


def is_coherence(log, a, b):
    """Both store one word, b with the higher version."""
    return a.is_store and b.is_store and a.word == b.word and a.wrote < b.wrote


def is_reads_from(log, a, b):
    """a wrote what b returned, and is not earlier in program order."""
    return returns(b, a) and not is_earlier(a, b)


def is_from_read(log, a, b):
    """b is another store of the word that a loaded, with a higher version than a returned."""
    return a is not b and a.is_load and b.is_store and a.word == b.word and b.wrote > a.read


def is_atomic_in(log, a, b):
    """a wrote what the LR paired with b returned."""
    load = log.paired_load_reserved(b)
    return load is not None and returns(load, a)


def is_atomic_out(log, a, b):
    """b is another hart's store of the word of the LR paired with a, with a higher version than the LR returned."""
    load = log.paired_load_reserved(a)
    return load is not None and b.is_store and b.hart != a.hart and b.word == load.word and b.wrote > load.read


REASONS = {
    "coherence": is_coherence, "reads-from": is_reads_from, "from-read": is_from_read,
    "atomic-in": is_atomic_in, "atomic-out": is_atomic_out,
}


def is_stale(load, store):
    """An earlier store of the load's hart and word has a higher version than the load returned."""
    same_word = load.is_load and store.is_store and load.word == store.word
    return same_word and is_earlier(store, load) and store.wrote > load.read


def certifies(log, lines):
    """The lines are a certificate of the log that begins with its last event."""
    stale = re.fullmatch("stale: (.+) reads below (.+)", lines[0]) if len(lines) == 1 else None
    if stale:
        load, store = log.named(stale[1]), log.named(stale[2])
        return load is log.events[-1] and store is not None and is_stale(load, store)
    edges = [re.fullmatch(r"(h\S+) (.+) (h\S+)", line) for line in lines[1:]]
    if not edges or not all(edges) or lines[0] != f"circle of {len(edges)}":
        return False
    closes = all(edge[3] == following[1] for edge, following in zip(edges, edges[1:] + edges[:1]))
    return closes and edges[0][1] == log.events[-1].name and all(is_edge(log, *edge.groups()) for edge in edges)


def is_edge(log, a_name, reason, b_name):
    """The log has two memory operations of these ids, and an edge between them for this reason."""
    a, b = log.named(a_name), log.named(b_name)
    if not (a and b and a.is_memory and b.is_memory):
        return False
    if reason in REASONS:
        return REASONS[reason](log, a, b)
    return any(reason == f"rule {number}" and rule_orders(log, number, a, b) for number in RULES)
