"""Compares the rows and verdicts of random commit logs with those of the second opinion."""

import random
import subprocess
from collections import Counter
from multiprocessing import Pool
from pathlib import Path

from opinion.commits import random_log
from opinion.logs import Asked, rows_of

CRATES = Path(__file__).resolve().parent.parent.parent / "crates"
RVROWS = CRATES / "rvrows/out/rvrows"
RVMON = CRATES / "rvmon/out/rvmon"


def asked_by(seed):
    """What is asked of a seed's log, and the words that ask for it."""
    chance = random.Random(-seed)
    asked = Asked(chance.random() < 0.7, chance.random() < 0.9, chance.random() < 0.1)
    if chance.random() < 0.1:
        asked.low, asked.high = 0x1000, 0x1010
    words = ["--zero"] * asked.zero + ["--complete"] * asked.complete + ["--pending"] * asked.pending
    return asked, words + (["--range", "1000-1010"] if asked.low else [])


def run(program, words, text):
    return subprocess.run([program, *words], input=text, capture_output=True, encoding="utf-8", check=False)


def complaint_of_rows(lines, rows, judged, told):
    """What is wrong where the log has no fault."""
    wanted = judged.stdout.splitlines()
    if rows.returncode != 0 or rows.stdout.splitlines() != lines:
        return f"other rows {rows.stderr}"
    if told.stdout.splitlines()[:len(wanted)] != wanted or told.returncode != judged.returncode:
        return f"rvmon --log says {told.stdout}{told.stderr}"
    return None


def complaint_of_fault(fault, lines, rows, told):
    """What is wrong where the log has a fault: a row before it may be refused, and all may not be allowed."""
    start = f"row {fault[0]}: fault {fault[1]} "
    if rows.returncode != 2 or not rows.stderr.startswith("rvrows: " + start) or rows.stdout.splitlines() != lines:
        return f"{start}but {rows.stderr or 'no fault'}"
    refused = told.returncode in (1, 2) and told.stdout.startswith(("forbidden", "malformed"))
    if not refused and (told.returncode != 2 or not told.stderr.startswith("rvmon: " + start)):
        return f"{start}but rvmon --log says {told.stdout}{told.stderr}"
    return None


def try_log(seed):
    """Compares what comes of a seed's log: what is wrong, if anything is, and whether the log has a fault."""
    text = random_log(seed)
    asked, words = asked_by(seed)
    lines, fault = rows_of(text, asked)
    rows, told = run(RVROWS, words, text), run(RVROWS, ["--log"] + words, text)
    if fault is None:
        complaint = complaint_of_rows(lines, rows, run(RVMON, ["--carriers"], rows.stdout), told)
    else:
        complaint = complaint_of_fault(fault, lines, rows, told)
    return complaint and f"log {seed}: {complaint}\nto repeat it: tests/logs 1 {seed}", fault is not None


def try_logs(count, first):
    """Tries so many logs on all cores, prints what is seen, and returns how many passed, failed and have faults."""
    tally = Counter()
    with Pool() as pool:
        for complaint, has_fault in pool.imap(try_log, range(first, first + count), chunksize=16):
            tally["failed" if complaint else "passed"] += 1
            tally["faults"] += has_fault
            if complaint:
                print(complaint)
    return tally["passed"], tally["failed"], tally["faults"]
