"""Runs of a program under valgrind: instructions, shares by function, single records, memory."""

import functools
import os
import re
import shutil
import subprocess
import sys
import tempfile
import textwrap
from array import array
from collections import Counter
from pathlib import Path
from typing import Dict, List, NamedTuple, Sequence, Tuple

INPUT_BUFFER = 65536  # bytes that each measured program reads its input into
SECONDS = 300  # for one run
CHUNK = 1 << 22  # bytes of a trace that are read at once
WIDTH = 120  # of a line of prose
ROOM = tempfile.TemporaryDirectory()  # for the copies of programs, as long as this runs


class BadRun(Exception):
    """A run that cannot be measured."""


class Report(NamedTuple):
    """Parts of a document by name, and the limits that do not hold, in words."""

    parts: Dict[str, List[str]]
    broken: List[str]


def say(text: str) -> None:
    """A line of progress."""
    print(text, file=sys.stderr, flush=True)


def row(*cells: object) -> str:
    """A row of a table."""
    texts = [f"{cell:,}" if isinstance(cell, int) else str(cell) for cell in cells]
    return f"| {' | '.join(texts)} |"


def prose(text: str) -> List[str]:
    """A paragraph in lines as wide as those of the document."""
    return textwrap.wrap(text, WIDTH, break_long_words=False, break_on_hyphens=False)


def rule_of(sides: str) -> str:
    """The line below the head of a table: l for a column of words, r for one of numbers."""
    return row(*({"l": "---", "r": "---:"}[side] for side in sides))


@functools.lru_cache(maxsize=None)
def kept(program: Path) -> Path:
    """A copy of a program as it is now: it may be built anew while it is measured."""
    return Path(shutil.copy(program, ROOM.name))


def valgrind(options: Sequence[str], program: Path, data: bytes) -> Tuple[str, List[str]]:
    """What valgrind says of a run, and the lines that the program writes."""
    if len(data) > INPUT_BUFFER:
        raise BadRun(f"{len(data):,} bytes do not fit the input")
    command = ["valgrind", *options, str(kept(program))]
    with tempfile.TemporaryFile() as given:  # a pipe could be read in pieces, which costs more
        given.write(data)
        given.seek(0)
        try:
            run = subprocess.run(command, stdin=given, capture_output=True, timeout=SECONDS)
        except subprocess.TimeoutExpired as error:
            raise BadRun(f"{program.name} under valgrind did not end in {SECONDS} s") from error
    if run.returncode != 0:
        raise BadRun(f"valgrind ended with status {run.returncode}: {run.stderr.decode()}")
    return run.stderr.decode(), run.stdout.decode().split("\n")


def instructions(program: Path, data: bytes) -> Tuple[int, List[str]]:
    """The instructions of a run, and the lines written."""
    said, lines = valgrind(["--tool=callgrind", "--callgrind-out-file=/dev/null"], program, data)
    found = re.search(r"Collected : (\d+)", said)
    if not found:
        raise BadRun(f"callgrind gave no count: {said}")
    return int(found[1]), lines


def instructions_by_function(program: Path, data: bytes) -> Counter:
    """The instructions of a run by function, without those of the functions that it calls."""
    with tempfile.TemporaryDirectory() as room:
        out = Path(room) / "callgrind"
        valgrind(["--tool=callgrind", f"--callgrind-out-file={out}"], program, data)
        command = ["callgrind_annotate", "--auto=no", "--threshold=100", str(out)]
        run = subprocess.run(command, capture_output=True, text=True, timeout=SECONDS)
    if run.returncode != 0:
        raise BadRun(f"callgrind_annotate ended with status {run.returncode}: {run.stderr}")
    counts: Counter = Counter()
    # a line has the count, its share, the file and the function, and mostly the object
    for count, function in re.findall(r"(?m)^ *([\d,]+) \([^)]*\) +[^:\n]*:(\S+)", run.stdout):
        counts[function] += int(count.replace(",", ""))
    return counts


class Peak(NamedTuple):
    """The most bytes of the stack and of the heap."""

    stack: int
    heap: int


def peak_of(program: Path, data: bytes) -> Peak:
    """The peaks of a run."""
    with tempfile.TemporaryDirectory() as room:
        out = Path(room) / "massif"
        options = ["--tool=massif", "--stacks=yes", "--peak-inaccuracy=0.0"]
        valgrind([*options, f"--massif-out-file={out}"], program, data)
        text = out.read_text()
    sizes = {
        sort: max(map(int, re.findall(rf"mem_{sort}_B=(\d+)", text))) for sort in ("stacks", "heap")
    }
    return Peak(sizes["stacks"], sizes["heap"])


# Single records of a log, from a trace of one run.


def executed(program: Path, data: bytes) -> array:
    """The addresses of the instructions of a run, in order."""
    addresses = array("Q")
    pattern = re.compile(rb"^I  ([0-9a-f]+)", re.MULTILINE)
    source, sink = os.pipe()
    options = ["--tool=lackey", "--basic-counts=no", "--trace-mem=yes", f"--log-fd={sink}"]
    with tempfile.TemporaryFile() as given, open(source, "rb") as trace:
        given.write(data)
        given.seek(0)
        run = subprocess.Popen(
            ["valgrind", *options, str(kept(program))],
            stdin=given,
            stdout=subprocess.DEVNULL,
            pass_fds=[sink],
        )
        os.close(sink)
        rest = b""
        while piece := trace.read(CHUNK):
            lines, end, rest = (rest + piece).rpartition(b"\n")
            addresses.extend([int(number, 16) for number in pattern.findall(lines + end)])
        if run.wait() != 0:
            raise BadRun(f"valgrind ended with status {run.returncode} in a trace")
    return addresses


def loop_marks(addresses: array, turns: int) -> List[List[int]]:
    """For each loop of so many turns, one after the other: where each turn begins.

    An instruction that is executed just so many times belongs to such a loop. Those of one loop
    overlap in time; the earliest of them marks its turns.
    """
    counts = Counter(addresses)
    places: Dict[int, List[int]] = {pc: [] for pc, count in counts.items() if count == turns}
    for place, address in enumerate(addresses):
        if address in places:
            places[address].append(place)
    marks: List[List[int]] = []
    for found in sorted(places.values()):
        if not marks or found[0] > marks[-1][-1]:
            marks.append(found)
    return marks


def traced_costs(program: Path, data: bytes, records: int) -> List[int]:
    """About what each record of a log takes, but the last, over all loops over the records."""
    marks = loop_marks(executed(program, data), records)
    if not marks:
        raise BadRun(f"no loop of {program.name} turns once for each record")
    return [sum(mark[k + 1] - mark[k] for mark in marks) for k in range(records - 1)]
