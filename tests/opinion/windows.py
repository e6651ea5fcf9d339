"""Traces judged as runs of any length, and what is wrong with what is said of them."""

import re

from opinion.model import certifies, is_edge
from opinion.outcomes import possible_outcomes

LAST_HART = 15
FORGOTTEN = re.compile(
    r"rvmon: allowed so far: ([0-9]+) events, .*\n"
    r"rvmon: LR forgotten at h([0-9]+):([0-9]+): its SC stands too many events behind it; see --sc-within\n"
)
PAST = re.compile(r"past: (h\S+) (from-read|coherence|reads-from|atomic-out) word ([0-9]+) version ([0-9]+)")


def window_words(trace, cut_each, within):
    """The words that have a trace judged as a run of any length, where the harts of its rows are declared, and an SC
    stands so many events behind its LR."""
    numbers = re.findall(r"^([0-9]{1,10}),", "\n".join(trace.sources), re.M)
    harts = sorted({int(number) for number in numbers if int(number) <= LAST_HART}) or [0]
    words = ["--harts", ",".join(map(str, harts)), "--cut", str(cut_each), "--model", trace.model]
    return [*words, "--sc-within", str(within)]


def window_outcomes(trace):
    """What may be said of it: no row is a carrier, or an end record. None where a source has a fault, as other programs
    leave out rows right before it, and where a hart would be full, as such a run has no limit."""
    outcomes = possible_outcomes(trace.sources, trace.model, False)
    is_other = any("fault 7 " in outcome or outcome.startswith("rvmon: ") for outcome in outcomes)
    return None if is_other else outcomes


def complaint_of_window(trace, answers, outcomes):
    """What is wrong with two answers, the second one of which reads the sources again where an event comes before what
    was forgotten; or None. Of a version that a forgotten store wrote the event and the fault are compared. A hart has
    ended with its source, so an event of it in another one can't be judged."""
    answer, rechecked = answers
    if len(trace.sources) > 1 and answer.returncode == 3 and answer.stderr.endswith(", or it has ended\n"):
        return None
    if forgotten := FORGOTTEN.fullmatch(answer.stderr):
        return complaint_of_forgotten(trace, *map(int, forgotten.groups()), outcomes)
    lines = answer.stdout.splitlines()
    if not lines or answer.stderr:
        return "it was not judged"
    first, *rest = lines
    is_taken = first.endswith(": fault 5 version taken")
    if not (any(outcome.startswith(first + " by ") for outcome in outcomes) if is_taken else first in outcomes):
        return "the outcome is none of those possible"
    outcome = first.split(" ")[0]
    if answer.returncode != {"allowed:": 0, "forbidden:": 1, "malformed:": 2}[outcome]:
        return "the status is not that of the outcome"
    if outcome != "forbidden:":
        return "more is said" if rest else complaint_of_same(answer, rechecked)
    if not rest[0].startswith("past: "):
        is_shown = any(certifies(log, rest) for log in outcomes[first])
        return complaint_of_same(answer, rechecked) if is_shown else "the certificate is none"
    if not any(leads_back(log, rest) for log in outcomes[first]):
        return "there is no such edge to what was forgotten"
    return complaint_of_recheck(first, rechecked, outcomes[first])


def complaint_of_long(whole, answers):
    """What is wrong with two answers to a trace that was judged as a whole too; the second one reads the trace again."""
    answer, rechecked = answers
    (told, *shown), (first, *rest) = (whole.stdout.splitlines() or [""], answer.stdout.splitlines() or [""])
    is_taken = first.endswith(": fault 5 version taken") and told.startswith(first + " by ")
    if answer.stderr or answer.returncode != whole.returncode or not (is_taken or first == told):
        return f"judged as a whole it is: {told}"
    if not rest or not rest[0].startswith("past: "):
        return complaint_of_same(answer, rechecked)
    again, *circle = rechecked.stdout.splitlines() or [""]
    is_shown = again == first and circle and circle[0].startswith(("circle of ", "stale: "))
    return None if is_shown and not rechecked.stderr and shown else "with --recheck it has no circle"


def complaint_of_forgotten(trace, taken, hart, number, outcomes):
    """What is wrong where so many events were taken, and that one is said to be an SC whose LR was forgotten."""
    within = int(trace.words[trace.words.index("--sc-within") + 1])
    rows = [line.split(",") for source in trace.sources for line in source.splitlines()]
    own = {}
    for row in rows:
        if len(row) > 2 and row[0].isdigit() and row[1].isdigit() and int(row[0]) == hart:
            own.setdefault(int(row[1]), row[2])
    if any(other not in own for other in range(number)):
        return "its number is not the next of its hart, which is not told"
    before = [other for other in range(number) if own[other] in ("LR", "SC", "SF")]
    if own[number] != "SC" or not before or own[before[-1]] != "LR":
        return "no LR was forgotten"
    if number - before[-1] <= within:
        return "the LR is forgotten too early"
    refusals = [re.search(r" after ([0-9]+) events", outcome) for outcome in outcomes]
    is_lawful = any(refusal is None or int(refusal[1]) >= taken for refusal in refusals)
    return None if is_lawful else "more is taken than some order is lawful for"


def complaint_of_same(answer, rechecked):
    """What is wrong where nothing is read again."""
    is_same = (answer.returncode, answer.stdout, answer.stderr) == (
        rechecked.returncode,
        rechecked.stdout,
        rechecked.stderr,
    )
    return None if is_same else "with --recheck it is another answer"


def complaint_of_recheck(first, rechecked, logs):
    """What is wrong with the circle of an event that comes before what was forgotten."""
    again, *rest = rechecked.stdout.splitlines() or [""]
    if again != first or rechecked.returncode != 1 or rechecked.stderr:
        return "with --recheck it is another outcome"
    return None if any(certifies(log, rest) for log in logs) else "the circle of --recheck is none"


def leads_back(log, lines):
    """The one line tells an edge of the log from its last event."""
    past = PAST.fullmatch(lines[0]) if len(lines) == 1 else None
    if not past or past[1] != log.events[-1].name:
        return False
    _, reason, word, version = past.groups()
    ends = (b for b in log.events if b.word == int(word))
    ends = (b for b in ends if int(version) == (b.read if reason == "reads-from" else b.wrote))
    return any(is_edge(log, past[1], reason, b.name) for b in ends)
