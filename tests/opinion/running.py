"""Runs of the programs over traces, and traces judged as runs of any length."""

import os
import subprocess
import tempfile
from pathlib import Path

from opinion.messages import long_message_trace
from opinion.windows import complaint_of_long, complaint_of_window, window_outcomes, window_words

SECONDS_TO_ANSWER = 60
SC_WITHIN = [1024, 1, 3]
LONG_EVENTS = 5000
LONG_CUTS = [1, 8, 100, 2000]


def run_program(program, words, files, descriptors=()):
    """Runs the program over files, with these descriptors open; one that does not end is killed, and has the status
    -9."""
    command = [program, *words, *files]
    try:
        return subprocess.run(
            command, stdin=subprocess.DEVNULL, capture_output=True, encoding="utf-8", errors="replace",
            timeout=SECONDS_TO_ANSWER, check=False, pass_fds=descriptors,
        )
    except subprocess.TimeoutExpired:
        return subprocess.CompletedProcess(command, -9, "", f"no answer in {SECONDS_TO_ANSWER} seconds\n")


def run_over(program, trace, folder, variants):
    """What the program says of a trace by each of these words."""
    with tempfile.TemporaryDirectory(dir=folder) as place:
        files = [os.path.join(place, f"{source}.csv") for source in range(len(trace.sources))]
        for file, text in zip(files, trace.sources):
            Path(file).write_text(text, encoding="ascii")
        return [run_program(program, words, files) for words in variants]


def run_over_pipes(program, trace):
    """What the program says of a trace each of whose sources was written to a pipe, which holds all of it."""
    readers = []
    for text in trace.sources:
        reader, writer = os.pipe()
        os.write(writer, text.encode("ascii"))
        os.close(writer)
        readers.append(reader)
    answer = run_program(program, trace.words, [f"/dev/fd/{reader}" for reader in readers], readers)
    for reader in readers:
        os.close(reader)
    return answer


def failure_text(trace, outcomes, answers, complaints):
    """What is printed of a disagreement."""
    lines = ["; ".join(complaints)]
    for source, text in enumerate(trace.sources):
        lines += [f"source {source}:", text.rstrip("\n")]
    lines += ["possible here:", *(f"  {outcome}" for outcome in sorted(outcomes))]
    for answer in answers:
        lines += [f"{' '.join(answer.args)}: status {answer.returncode}", answer.stdout + answer.stderr]
    return "\n".join(lines)


def try_window(program, folder, seed, trace, cut_each):
    """Judges the trace of a seed as a run of any length, with a cut after so many events: a text where they disagree."""
    outcomes = window_outcomes(trace)
    if outcomes is None:
        return None
    trace.words = window_words(trace, cut_each, SC_WITHIN[seed // len(SC_WITHIN) % len(SC_WITHIN)])
    answers = run_over(program, trace, folder, [trace.words, [*trace.words, "--recheck"]])
    complaint = complaint_of_window(trace, answers, outcomes)
    return failure_text(trace, outcomes, answers, [complaint]) if complaint else None


def try_long(program, watcher, folder, seed):
    """Judges a long trace of the seed as a whole and as a run of any length: a text where the two disagree."""
    trace = long_message_trace(seed, LONG_EVENTS)
    trace.words = window_words(trace, LONG_CUTS[seed // LONG_EVENTS % len(LONG_CUTS)], LONG_EVENTS)
    (whole,) = run_over(program, trace, folder, [["--model", trace.model]])
    answers = run_over(watcher, trace, folder, [trace.words, [*trace.words, "--recheck"]])
    complaint = complaint_of_long(whole, answers)
    return failure_text(trace, {whole.stdout}, answers, [complaint]) if complaint else None
