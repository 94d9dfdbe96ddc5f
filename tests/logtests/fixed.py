"""Tests of a log program on fixed logs. Each takes the counts of checks and the program's path."""

import re
import subprocess
import time
from pathlib import Path
from typing import Dict, List, Tuple

from model import ROOT
from model.checks import Checks
from model.limits import CALL_TAG, CONTAINERS, DEVICES, KINDS, LOG_LIMIT, VALUE_LENGTHS, Refusal
from model.logtext import assemble, assemble_line, split_records
from model.records import encode, frame_bytes
from model.test_gains import everywhere, label
from model.test_runs import RUN_B_INPUT, RUN_B_OUTPUT
from tests.logtests.compare import SECONDS, difference, fault_in, model_lines, program_output
from tests.logtests.randomlogs import largest_calls, largest_log, random_log
from tests.logtests.shorten import report

RUNS = ROOT / "tests" / "logtests" / "runs.txt"
RUN_NAMES = "CDEFGHIJKLMN"
PAPERS = ROOT / "tests" / "logtests" / "papers.txt"
PAPER_NUMBERS = {"2", "3", "4", "5"}
LOGS = ROOT / "logs"
PAUSE = 0.05  # seconds between two pieces of an input
CUT = f"refused {Refusal.CUT_SHORT}"

# A log with an accepted record of each kind and each tag of a rule, and one of unknown tag.
EVERY_KIND = b"""
start 0
create 0 name=5 descriptor=0 container=24
pipe 0 descriptors=1,2 container=25
device 0 descriptor=3 device=panel
open 0 name=5 descriptor=4
dup 0 from=0 to=5
label container=24 item=1
forbid item=1 in=panel divert=port
separate items=1,2 inhibit
confine item=3 to=0-63 inhibit
read 0 descriptor=0
write 0 descriptor=3
truncate 0 descriptor=1
map-read 0 descriptor=0
map-both 0 descriptor=1
unmap 0 container=24 read
link 0 from=5 to=6
rename 0 from=6 to=7
unlink 0 name=7
fork 0 child=1
close 0 descriptor=5
exit 1
raw 14 0002 abcd
write 0 descriptor=4
"""


def check_log(checks: Checks, name: str, program: str, log: bytes, wanted: List[str]) -> None:
    """Check what a program writes for a log; a failed one is printed as text."""
    fault = difference(program_output(program, log), wanted)
    text = f"{fault}\n{report(program, log)}" if fault and len(log) < 2000 else str(fault)
    checks.true(name, fault is None, text)


# The runs of document 01, and the checks of document 02's papers.


def test_empty_log(checks: Checks, program: str) -> None:
    """Run A: no record, no answer."""
    checks.equal("run A: output", program_output(program, b""), b"")
    run = subprocess.run([program], stdin=subprocess.DEVNULL, capture_output=True, timeout=SECONDS)
    found = (run.returncode, run.stdout, run.stderr)
    checks.equal("run A: status, output and messages", found, (0, b"", b""))


def test_run_b(checks: Checks, program: str) -> None:
    """Run B, byte for byte."""
    checks.equal("run B: output", program_output(program, RUN_B_INPUT), RUN_B_OUTPUT.encode())


Runs = Dict[str, List[Tuple[bytes, str]]]  # for each name its records with their answers


def read_runs(path: Path, front: str) -> Runs:
    """The runs of a file, whose names begin with a word."""
    runs: Runs = {}
    name = ""
    for line in path.read_text().splitlines():
        if line.startswith(f"{front} "):
            name = line
            runs[name] = []
        elif line.strip() and not line.startswith("#"):
            said, _, answer = line.partition("=>")
            times, record = re.fullmatch(r"(?:(\d+) times )?(.*)", said).groups()
            runs[name] += [(assemble_line(record), answer.strip())] * int(times or 1)
    return runs


def check_runs(checks: Checks, program: str, runs: Runs) -> None:
    """Check the outcomes of runs; the model is held to the same."""
    for name, pairs in runs.items():
        log = b"".join(record for record, _ in pairs)
        wanted = [answer for _, answer in pairs]
        checks.equal(f"{name}, in the model", model_lines(log), wanted)
        check_log(checks, name, program, log, wanted)


def test_paper_runs(checks: Checks, program: str) -> None:
    """Runs C to N of document 01."""
    runs = read_runs(RUNS, "run")
    checks.equal("runs of document 01", "".join(name[4] for name in runs), RUN_NAMES)
    check_runs(checks, program, runs)


def test_later_papers(checks: Checks, program: str) -> None:
    """The checks of document 02's papers."""
    runs = read_runs(PAPERS, "paper")
    numbers = {name.partition(":")[0].split()[1] for name in runs}
    checks.equal("papers of document 02", numbers, PAPER_NUMBERS)
    check_runs(checks, program, runs)


def test_every_container(checks: Checks, program: str) -> None:
    """Document 02, Paper 5: a label that all containers gain by, and one that all but one do."""
    calls = everywhere()
    last = DEVICES[-1]
    calls += [label(last, 1), label(last, 1), label(24, 2), label(last, 2), label(last, 3)]
    gained = [len(CONTAINERS), 0, len(CONTAINERS) - 1, 1, len(CONTAINERS)]
    wanted = [f"allow {count}" for count in (*[0] * len(everywhere()), *gained)]
    check_log(checks, "every container gains", program, b"".join(map(encode, calls)), wanted)


def test_demonstration_logs(checks: Checks, program: str) -> None:
    """The logs of logs/ get their expected answers.

    An expected file is the model's answers, made in this way and then read:
    tools/logtool assemble logs/NAME.log.txt | model/modelrun answers - >logs/NAME.expected
    """
    texts = sorted(LOGS.glob("*.log.txt"))
    checks.true("there are demonstration logs", len(texts) >= 4)
    for text in texts:
        name = text.name[: -len(".log.txt")]
        wanted = (LOGS / f"{name}.expected").read_text().splitlines()
        check_log(checks, f"logs/{text.name}", program, assemble(text.read_bytes()), wanted)


# Where a log ends.


def test_prefixes(checks: Checks, program: str) -> None:
    """Every proper prefix of a log with a record of each kind."""
    log = assemble(EVERY_KIND)
    records, answers = split_records(log), model_lines(log)
    done = {r[3] for r, a in zip(records, answers) if r[0] == CALL_TAG and a[0] in "am"}
    loaded = {r[0] for r, a in zip(records, answers) if a.startswith("rule")}
    checks.equal("prefixes: kinds done", done, set(KINDS))
    checks.equal("prefixes: rules loaded", loaded, set(VALUE_LENGTHS) - {CALL_TAG})
    checks.true("prefixes: an unknown tag", f"refused {Refusal.UNKNOWN_TAG}" in answers)
    ends = [sum(map(len, records[:count])) for count in range(len(records) + 1)]
    for length in range(len(log)):
        whole = sum(end <= length for end in ends) - 1
        wanted = answers[:whole] + ([] if length in ends else [CUT])
        checks.equal(f"prefix of {length} bytes, in the model", model_lines(log[:length]), wanted)
        check_log(checks, f"prefix of {length} bytes", program, log[:length], wanted)


def test_largest(checks: Checks, program: str) -> None:
    """Logs of as many bytes as are allowed, of one byte more and of many more."""
    shortest = frame_bytes(0, b"")
    count = LOG_LIMIT // len(shortest)
    exact = shortest * (count - 1) + frame_bytes(0, bytes(LOG_LIMIT - count * len(shortest)))
    logs = {
        "shortest records and a byte": shortest * count + b"\x10",
        "shortest records": exact,
        "one record": frame_bytes(CALL_TAG, bytes(LOG_LIMIT - 3)),
        "calls": largest_calls(1),
        "records of every sort": largest_log(2),
    }
    for name, log in logs.items():
        checks.equal(f"largest log, {name}: its length", len(log), LOG_LIMIT)
        check_log(checks, f"largest log, {name}", program, log, model_lines(log))
        output = program_output(program, log + log[:1])
        checks.equal(f"one byte more than the largest log, {name}", output, b"log too long\n")
    for more in (2, 5000, LOG_LIMIT, 20 * LOG_LIMIT):
        output = program_output(program, exact + bytes(more))
        checks.equal(f"{more} bytes more than the largest log", output, b"log too long\n")
    check_log(checks, "a byte less than allowed", program, exact[:-1], model_lines(exact[:-1]))


def output_of_pieces(program: str, pieces: List[bytes]) -> bytes:
    """What a program writes for an input that comes in pieces."""
    run = subprocess.Popen([program], stdin=subprocess.PIPE, stdout=subprocess.PIPE, bufsize=0)
    try:
        for piece in pieces:
            assert run.stdin is not None
            run.stdin.write(piece)
            time.sleep(PAUSE)
        return run.communicate(timeout=SECONDS)[0]
    finally:
        run.kill()


def test_pieces(checks: Checks, program: str) -> None:
    """Input that comes through a pipe in pieces is one log."""
    for cuts in ([1], [2], [3], [5], [8], [1, 2, 3, 4], [20, 30, 40]):
        ends = [0, *cuts, len(RUN_B_INPUT)]
        pieces = [RUN_B_INPUT[start:end] for start, end in zip(ends, ends[1:])]
        output = output_of_pieces(program, pieces)
        checks.equal(f"run B in pieces, cut at {cuts}", output, RUN_B_OUTPUT.encode())
    log = random_log(1)
    pieces = [log[:700], log[700:]]
    wanted = model_lines(log)
    checks.equal("a log in pieces", difference(output_of_pieces(program, pieces), wanted), None)
    long = frame_bytes(0, bytes(LOG_LIMIT - 3))
    output = output_of_pieces(program, [long, b"\x00"])
    checks.equal("one byte too many, later", output, b"log too long\n")


def test_same_again(checks: Checks, program: str) -> None:
    """Two runs of one log write the same: nothing is kept from run to run."""
    log = random_log(2)
    first, second = (program_output(program, log) for _ in range(2))
    checks.true("the same log again", first == second)
    checks.equal("the same log again, beside the model", fault_in(program, log), None)
