"""Traces as text: what a trace says, as docs/TRACE.md has it, and random small traces."""

import random
import re
from collections import Counter
from dataclasses import dataclass

from opinion.model import Event, OPERATIONS, is_earlier

LARGEST_NUMBER = 4_294_967_295
FULL = 4_096
HEADER = "hart,seq,op,word,read,wrote,ann,deps"


# The text of a trace


def number_fault(text, largest=LARGEST_NUMBER):
    """The fault of a field that must be a number, or None."""
    if text == "":
        return 5
    return None if re.fullmatch("[0-9]{1,10}", text) and int(text) <= largest else 3


def dependencies_fault(text, letters):
    """The fault of a row's dependencies, or None."""
    parts = text.split(" ") if text else []
    if len(parts) > 8:
        return 9
    for part in parts:
        if part[:1] not in list(letters) or number_fault(part[1:], 1_073_741_823):
            return 8
    return None


def row_fault(fields, has_carriers):
    """The first fault of a data row, or None. A row `I` is one only where the trace may have carriers."""
    if len(fields) != 8:
        return 2
    hart, seq, operation, *numbers, annotation, dependencies = fields
    fault = number_fault(hart, 255) or number_fault(seq)
    if fault:
        return fault
    if operation not in OPERATIONS or (operation == "I" and not has_carriers):
        return 4
    needed, annotations, letters = OPERATIONS[operation]
    for column, text in zip(("word", "read", "wrote"), numbers):
        fault = number_fault(text) if column in needed else (6 if text else None)
        if fault:
            return fault
    return 7 if annotation not in annotations else dependencies_fault(dependencies, letters)


def event_of(fields):
    """The event that a row without a fault says."""
    hart, seq, operation, word, read, wrote, annotation, dependencies = fields
    parts = tuple((part[0], int(part[1:])) for part in dependencies.split())
    return Event(int(hart), int(seq), operation, int(word or 0), int(read or 0), int(wrote or 0), annotation, parts)


def number_said(fields):
    """The number of rows that an end record says, or None where the fields are none."""
    if len(fields) != 2 or fields[0] != "end" or number_fault(fields[1]):
        return None
    return int(fields[1])


def read_source(text, has_carriers, has_end=False):
    """The events that a source gives, its fault as (row, number) or None, and what its end record says."""
    lines = text.splitlines()
    if not lines or lines[0] != HEADER:
        return [], (0, 1), None
    rows = [line.split(",") for line in lines[1:]]
    said = number_said(rows[-1]) if has_end and rows else None
    events = []
    for row, fields in enumerate(rows if said is None else rows[:-1], start=1):
        fault = row_fault(fields, has_carriers)
        if fault:
            return events, (row, fault), None
        events.append(event_of(fields))
    return events, None, said


# Random traces

# Shapes of a hart's events: operation, word, and an annotation or a dependency; `-` stands for no word.
SHAPES = [
    "S x; F - rw-rw; L y",
    "L x; F - rw-rw; S y",
    "S x; F - rw-rw; S y",
    "L x; F - rw-rw; L y",
    "LR x; SC x; L x; L y a2",
    "LR z; SC x R; LR y A",
    "L x; F - r-r; LR z; SC y",
    "L x; L y a0",
    "L x; S y d0",
    "L x; BR - c0; S y",
    "L x; S z d0; L z; S y d2",
    "L x; S z d0; L z; L y a2",
    "L x; L z a0; S y",
]

# The same with carriers.
CARRIER_SHAPES = [
    "L x; I - d0; L y a1",
    "L x; I - d0; S y d1",
    "L x; I - d0; BR - c1; S y",
    "L x; I - d0; I - d1; S y d2",
    "L x; I - d0; S z d1; L z; S y d3",
    "L x; I - d0; S z d1; L z; L y a3",
    "L x; I - d0; L z a1; S y",
]


@dataclass
class Trace:
    """A random trace: the text of each source, and the words for the program. Where it is to be complete, some of a
    source may have been cut off, the end of its last line aside."""

    sources: list
    model: str
    words: list
    with_json: bool
    has_carriers: bool
    is_complete: bool = False
    was_cut: bool = False
    tells_strength: bool = False


def chance(dice, probability):
    """True with this probability."""
    return dice.random() < probability


def random_operation(dice, earlier, has_carriers):
    """An operation for a hart that has these events. An SC mostly follows an LR."""
    if has_carriers and any(event.can_be_listed for event in earlier) and chance(dice, 0.2):
        return "I"
    ends = [event.operation for event in earlier if event.operation in ("LR", "SC", "SF")]
    if ends and ends[-1] == "LR" and chance(dice, 0.5):
        return "SC"
    return dice.choices(["L", "S", "LR", "SF", "AMO", "F", "FT", "BR"], [9, 8, 5, 1, 4, 3, 1, 3])[0]


def random_dependencies(dice, operation, earlier):
    """Dependencies of an operation on events of its hart that may be listed."""
    listed = [event.seq for event in earlier if event.can_be_listed]
    letters = OPERATIONS[operation][2]
    if not listed or not letters or not chance(dice, 0.75):
        return ()
    return tuple((dice.choice(letters), dice.choice(listed)) for _ in range(dice.choice([1, 1, 1, 2, 3])))


def random_events(dice, crossed, count, has_carriers):
    """So many events of some harts, each behind those of its hart, without versions.

    Where they are crossed, each of two harts begins with the word that the other mostly takes afterwards, so that what
    a rule orders in one hart is seen by the other.
    """
    harts = dice.sample(range(16), 2 if crossed else dice.randint(1, 4))
    words = dice.sample(dice.choice([range(3), range(LARGEST_NUMBER + 1)]), 3 if crossed else dice.randint(1, 3))
    events = []
    for _ in range(count):
        hart = dice.choice(harts)
        earlier = [event for event in events if event.hart == hart]
        operation = random_operation(dice, earlier, has_carriers)
        word = dice.choice(words)
        if operation == "SC" and chance(dice, 0.7):
            word = [event.word for event in earlier if event.operation == "LR"][-1]
        elif crossed and chance(dice, 0.8):
            own = harts.index(hart)
            word = words[1 - own] if any(event.is_memory for event in earlier) else words[own]
        annotation = dice.choice(OPERATIONS[operation][1])
        dependencies = random_dependencies(dice, operation, earlier)
        events.append(Event(hart, len(earlier), operation, word, annotation=annotation, dependencies=dependencies))
    return events


def shaped_events(dice, has_carriers):
    """Events of two harts, each of a shape in which some rule orders accesses to two words, which are crossed."""
    words = dice.sample(range(LARGEST_NUMBER + 1), 3)
    shapes = [dice.choice(SHAPES), dice.choice(CARRIER_SHAPES if has_carriers else SHAPES)]
    events = []
    for hart, shape, (x, y) in zip(dice.sample(range(16), 2), shapes, [words[:2], words[1::-1]]):
        number = {"x": x, "y": y, "z": words[2], "-": 0}
        rows = [(row.split() + ["", ""])[:3] for row in shape.split("; ")]
        for seq, (operation, word, more) in enumerate(rows):
            annotation, dependencies = ("", ((more[0], int(more[1])),)) if more[1:].isdigit() else (more, ())
            events.append(Event(hart, seq, operation, number[word], 0, 0, annotation, dependencies))
    return events


def random_order(dice, events, crossed):
    """A global memory order to give versions by. Crossed, one of a hart's first two operations comes after all others;
    else the order is near that of the events, and operations of one hart on one word mostly keep theirs."""
    order = [event for event in events if event.is_memory]
    if crossed and order:
        own = [event for event in order if event.hart == order[0].hart]
        late = dice.choice(own[:2])
        return [event for event in own if event is not late] + [event for event in order if event not in own] + [late]
    for _ in range(dice.choice([0, 2, 4, 8, 16]) if len(order) > 1 else 0):
        place = dice.randrange(len(order) - 1)
        a, b = order[place : place + 2]
        if a.hart != b.hart or a.word != b.word or chance(dice, 0.1):
            order[place : place + 2] = [b, a]
    return order


def give_versions(dice, order, changed):
    """Gives the versions that a global memory order says; a load gets another one with this probability."""
    step = dice.choice([1, 1, 1, 7, LARGEST_NUMBER // 10])
    last = Counter()
    for store in order:
        if store.is_store:
            last[store.word] += step
            store.wrote = last[store.word]
    for place, load in enumerate(order):
        if load.is_load:
            stores = [s for s in order if s.is_store and s.word == load.word]
            seen = [s.wrote for s in stores if s is not load and (s in order[:place] or is_earlier(s, load))]
            load.read = max(seen, default=0)
            if chance(dice, changed):
                load.read = step * dice.randint(0, len(stores) + 1)


def make_odd(dice, events):
    """Makes one event odd, mostly in a way that no execution has."""
    event = dice.choice(events)
    letters = OPERATIONS[event.operation][2]
    oddities = [("seq", dice.randint(0, 9)), ("hart", event.hart + 16), ("operation", "SC")]
    if event.is_load:
        oddities += [("read", LARGEST_NUMBER), ("read", event.wrote)]
    if event.is_store:
        others = [other.wrote for other in events if other.is_store and other.word == event.word]
        oddities += [("wrote", 0), ("wrote", dice.choice(others))]
    if letters:
        oddities.append(("dependencies", ((letters[-1], dice.randint(0, 9)),)))
    column, value = dice.choice(oddities)
    setattr(event, column, value)
    if event.operation == "SC":
        event.annotation = event.annotation if event.annotation in OPERATIONS["SC"][1] else ""


def row_of(event):
    """The eight fields of an event's row."""
    needed = OPERATIONS[event.operation][0]
    numbers = [str(getattr(event, column)) if column in needed else "" for column in ("word", "read", "wrote")]
    dependencies = " ".join(f"{letter}{seq}" for letter, seq in event.dependencies)
    return [str(event.hart), str(event.seq), event.operation, *numbers, event.annotation, dependencies]


def spoil_row(dice, fields):
    """Changes the text of a row, mostly to one that is not in the format."""
    numbers = ["", "x", "-1", " 0", "0 ", "256", "4294967295", "4294967296", "0000000001", "00000000001"]
    texts = {
        2: ["", "X", "l", "LRSC", "SF", "L", "F", "I"],
        6: ["", "A", "R", "AR", "RA", "rw-", "r-w", "w-wr"],
        7: ["", "a", "b0", "c0", "a0 ", "a0  a0", "d0 a", "a1073741824", " ".join(["a0"] * 9)],
    }
    column = dice.randrange(9)
    if column == 8:
        return dice.choice([fields[:-1], fields + [""]])
    return fields[:column] + [dice.choice(texts.get(column, numbers))] + fields[column + 1 :]


def source_of_each(dice, events, count):
    """The number of each event's source; mostly a hart is in one source."""
    source_of_hart = {hart: dice.randrange(count) for hart in sorted({event.hart for event in events})}
    sources = [source_of_hart[event.hart] for event in events]
    if chance(dice, 0.08):
        sources[dice.randrange(len(sources))] = dice.randrange(count)
    return sources


def small_events(dice, has_carriers):
    """Two to nine events with versions, one of them odd at times."""
    crossed = chance(dice, 0.6)
    if crossed and chance(dice, 0.5):
        events = shaped_events(dice, has_carriers)
    else:
        events = random_events(dice, crossed, dice.choice([2, 3, 4, 5, 6, 6, 7, 7, 8, 8, 9, 9]), has_carriers)
    give_versions(dice, random_order(dice, events, crossed), 0.12)
    if chance(dice, 0.12):
        make_odd(dice, events)
    return events


def many_events(dice, has_carriers):
    """Twenty to forty events with versions. Few loads get another one, so that some traces are allowed whole."""
    events = random_events(dice, False, dice.randint(20, 40), has_carriers)
    give_versions(dice, random_order(dice, events, False), dice.choice([0, 0.01, 0.05]))
    return events


def full_hart(dice, has_carriers):
    """Events of a hart that has one too many: branches and fences, and another hart's store."""
    hart = dice.randrange(16)
    kinds = ["BR", "FT", "I"] if has_carriers else ["BR", "FT"]
    events = [Event(hart, seq, dice.choice(kinds)) for seq in range(dice.choice([FULL, FULL + 1]))]
    events.insert(dice.randrange(len(events)), Event((hart + 1) % 16, 0, "S", 0, 0, 1))
    return events


def random_trace(seed):
    """The trace that has this seed."""
    dice = random.Random(seed)
    size = dice.choices([small_events, many_events, full_hart], [0.95, 0.0497, 0.0003])[0]
    has_carriers = chance(dice, 0.25)
    events = size(dice, has_carriers)
    if chance(dice, 0.3):
        events.sort(key=lambda event: event.hart)
    count = dice.choice([1, 1, 2, 3]) if size is small_events else 1
    rows = [row_of(event) for event in events]
    sources = source_of_each(dice, events, count)
    if chance(dice, 0.06):
        spoiled = dice.randrange(len(rows))
        rows[spoiled] = spoil_row(dice, rows[spoiled])
    headers = [dice.choice(["", "hart"]) if chance(dice, 0.003) else HEADER for _ in range(count)]
    lines = [[headers[s], *(",".join(row) for row, of in zip(rows, sources) if of == s)] for s in range(count)]
    texts = ["".join(line + "\n" for line in source) for source in lines]
    model = dice.choice(["rvwmo", "rvwmo", "tso"])
    words = ["--workers", str(dice.randint(1, 24)), "--slots", str(dice.randint(2, 16)), "--model", model]
    words += ["--carriers"] if has_carriers else []
    trace = Trace(texts, model, words, chance(dice, 0.5), has_carriers)
    if chance(dice, 0.25):
        make_complete(dice, trace)
    if chance(dice, 0.25):
        trace.tells_strength = True
        trace.words.append("--strength")
    return trace


def make_complete(dice, trace):
    """Gives the sources end records, few of them a wrong one, and cuts one of the sources off at times."""
    trace.is_complete = True
    trace.words.append("--complete")
    whole = []
    for source, text in enumerate(trace.sources):
        rows = text.count("\n") - 1
        end = f"end,{rows}\n"
        whole.append(len(text + end) - 1)
        odd = ["", f"end,{rows + 1}\n", end + end, "end\n", "end,x\n", end + text.split("\n")[-2] + "\n"]
        trace.sources[source] += dice.choice(odd) if chance(dice, 0.1) else end
    if chance(dice, 0.3):
        source = dice.randrange(len(trace.sources))
        text = trace.sources[source]
        kept = dice.choice([dice.randrange(len(text)), len(text) - dice.randint(1, 9)])
        trace.was_cut = kept < whole[source]
        trace.sources[source] = text[: max(kept, 0)]
