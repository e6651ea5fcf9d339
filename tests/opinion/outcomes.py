"""What a report may say of a trace, and what is wrong with a report."""

import dataclasses
import json
import re

from opinion.model import Log, certifies, fault_of, has_lawful_order
from opinion.traces import read_source

# How many rows of a file are judged at most before it is the turn of the next one
ROWS_OF_TURN = 8

# Outcomes: the first line of a report, or the line on standard error


def is_waiting(log, event):
    """Whether the event returned a version that no store of the log has written."""
    return event.is_load and event.read > 0 and log.writer(event.word, event.read) is None


def allowed_line(log):
    """What is said of a log that has a lawful order."""
    operations = [event for event in log.events if event.is_memory]
    waiting = [event for event in operations if is_waiting(log, event)]
    return f"allowed: {len(log.events)} events, {len(operations)} operations, {len(waiting)} waiting loads"


def lack_of(given, said, log):
    """What a whole run lacks that would be complete, or None."""
    for source, (events, number) in enumerate(zip(given, said)):
        if number is None:
            return f"source {source} has no end record"
        if number != len(events):
            return f"source {source} ends after {len(events)} rows, and says {number}"
    if not log.events:
        return "no events"
    waiting = [event for event in log.events if is_waiting(log, event)]
    for load in sorted(waiting, key=lambda event: (event.hart, event.seq)):
        return f"{load.name} waits for version {load.read} of word {load.word}"
    return None


def strength_of(log):
    """How many loads could not have returned the next older version of their word that a store wrote, or the initial
    one, and how many there are that returned a later one. Each is put back by itself, and the log judged again."""
    loads = [event for event in log.events if event.is_load and event.read > 0]
    refused = 0
    for load in loads:
        older = max((store.wrote for store in log.stores_of(load.word) if store.wrote < load.read), default=0)
        changed = dataclasses.replace(load, read=older)
        entries = [(source, changed if event is load else event) for source, event in log.entries]
        refused += not has_lawful_order(Log(entries, log.model))
    return refused, len(loads)


def strength_line(log):
    """What is said of that. At most 200 loads are put back, and no trace here has more."""
    refused, tried = strength_of(log)
    return f"strength: {refused} of {tried} older reads would be refused"


def outcome_in_turn(sources, model, has_carriers, is_complete=False, tells_strength=False):
    """The outcome where the rows of the sources are judged in turn: by its line the log that is the evidence of a
    refusal, or the lines that follow where it is allowed.

    A turn has eight rows. A load that waits for its store ends the turn of its source before. Where no source could go
    on so, the next turns begin with the event of the one whose last event is the oldest, whatever it waits for.
    """
    given, faults, said = zip(*(read_source(text, has_carriers, is_complete) for text in sources))
    log = Log([], model, {})
    arrived, since = [0] * len(given), [0] * len(given)
    unread, overdue = set(range(len(given))), None
    while unread:
        before, waiting = len(log.events), set()
        for source in sorted(unread):
            for _ in range(ROWS_OF_TURN):
                if arrived[source] == len(given[source]):
                    if faults[source]:
                        return {trace_fault_line(source, faults[source]): []}
                    unread.discard(source)
                    break
                event = given[source][arrived[source]]
                is_overdue = overdue is not None and since[source] <= overdue
                if len(given) > 1 and not is_overdue and is_waiting(log, event):
                    waiting.add(source)
                    break
                refusal = refusal_line(log, source, event)
                log = log.extended(source, event)
                if refusal:
                    return {refusal: [log]}
                arrived[source] += 1
                since[source] = len(log.events)
        overdue = min((since[source] for source in waiting), default=None) if len(log.events) == before else None
    return {allowed_line(log): lines_behind(given, said, log, is_complete, tells_strength)}


def possible_outcomes(sources, model, has_carriers, is_complete=False, tells_strength=False):
    """Each outcome that some order of arrival leads to, with the logs that are the evidence of each refusal, or with
    the lines that follow where it is allowed.

    The events of a source arrive in their order, those of several sources in any. What has arrived is told by how many
    events each source gave, as the merges of these have the same faults and the same lawful orders. So a single source
    has one outcome.
    """
    if len(sources) == 1:
        return outcome_in_turn(sources, model, has_carriers, is_complete, tells_strength)
    given, faults, said = zip(*(read_source(text, has_carriers, is_complete) for text in sources))
    outcomes, ordered_before = {}, {}
    whole = tuple(len(events) for events in given)
    accepted = [(0,) * len(given)]
    for arrived in accepted:
        entries = [(s, event) for s, events in enumerate(given) for event in events[: arrived[s]]]
        log = Log(entries, model, ordered_before)
        if arrived == whole and not any(faults):
            outcomes[allowed_line(log)] = lines_behind(given, said, log, is_complete, tells_strength)
        for source, event in next_entries(given, arrived):
            refusal = refusal_line(log, source, event)
            following = tuple(count + (s == source) for s, count in enumerate(arrived))
            if refusal:
                outcomes.setdefault(refusal, []).append(log.extended(source, event))
            elif following not in accepted:
                accepted.append(following)
    outcomes.update((trace_fault_line(source, fault), []) for source, fault in enumerate(faults) if fault)
    return outcomes


def lines_behind(given, said, log, is_complete, tells_strength):
    """The lines that follow where a whole run is allowed."""
    lack = lack_of(given, said, log) if is_complete else None
    lines = [f"incomplete: {lack}"] if lack else []
    return lines + ([strength_line(log)] if tells_strength else [])


def next_entries(given, arrived):
    """The next event of each source that has one."""
    return [(s, events[arrived[s]]) for s, events in enumerate(given) if arrived[s] < len(events)]


def trace_fault_line(source, fault):
    """What is said of a source that has this fault, of a row and with a number."""
    return f"rvmon: source {source} row {fault[0]}: trace fault {fault[1]}"


def refusal_line(log, source, event):
    """What is said of the event where it is refused over the log, or None."""
    fault = fault_of(log, source, event)
    if fault:
        return f"malformed: {event.name} after {len(log.events)} events: {fault}"
    if not has_lawful_order(log.extended(source, event)):
        return f"forbidden: {event.name} after {len(log.events)} events"
    return None


# Answers of the program

# Of each outcome: the text of a report with the names of the keys that JSON has besides `outcome` and `certificate`.
REPORTS = {
    "allowed": "allowed: {events} events, {operations} operations, {waiting} waiting loads",
    "forbidden": "forbidden: {event} after {after} events",
    "malformed": "malformed: {event} after {after} events: fault {fault} {text}",
}


def text_of_json(output):
    """The text report that says the same as a JSON report. Raises an error where it is none."""
    report = json.loads(output)
    is_allowed = report["outcome"] == "allowed"
    lack = report.pop("incomplete", None) if is_allowed else None
    strength = report.pop("strength", None) if is_allowed else None
    if json.dumps(json.loads(output), sort_keys=True, separators=(",", ":")) + "\n" != output:
        raise ValueError("it is not written as it should be")
    form = REPORTS[report.pop("outcome")]
    lines = certificate_lines(report.pop("certificate")) if form == REPORTS["forbidden"] else []
    if set(report) != set(re.findall(r"{(\w+)}", form)):
        raise ValueError("the keys are not those of the outcome")
    lines += [f"incomplete: {lack}"] if lack else []
    lines += ["strength: {refused} of {tried} older reads would be refused".format(**strength)] if strength else []
    return "".join(line + "\n" for line in [form.format(**report), *lines])


def certificate_lines(certificate):
    """The lines of text that say the same as a certificate in JSON."""
    if set(certificate) == {"stale"}:
        return ["stale: {load} reads below {store}".format(**certificate["stale"])]
    edges = certificate["circle"]
    return [f"circle of {len(edges)}", *("{from} {reason} {to}".format(**edge) for edge in edges)]


def complaint_of(answer, text, outcomes):
    """What is wrong with an answer whose report, as text, is this; or None."""
    lines = (text or answer.stderr).split("\n")
    if lines.pop() != "" or not lines or lines[0] not in outcomes:
        return "the outcome is none of those possible"
    outcome = lines[0].split(":")[0]
    behind = outcomes[lines[0]] if outcome == "allowed" else []
    lacks = any(line.startswith("incomplete: ") for line in behind)
    if answer.returncode != {"allowed": 4 if lacks else 0, "forbidden": 1, "malformed": 2, "rvmon": 2}[outcome]:
        return "the status is not that of the outcome"
    if (outcome == "rvmon") != (answer.stdout == "") or (outcome != "rvmon") != (answer.stderr == ""):
        return "the outcome is on the wrong output"
    if outcome == "forbidden":
        good = any(certifies(log, lines[1:]) for log in outcomes[lines[0]])
        return None if good else "the certificate is none"
    return "what follows is another" if lines[1:] != behind else None
