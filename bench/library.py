"""What a call costs through the library: by the hook, which copies the monitor, and in place."""

import subprocess
from typing import Dict, List, NamedTuple, Tuple

from bench.counting import BadRun, Report, instructions, peak_of, prose, row, rule_of, say
from bench.logcases import CASES, CONFINING
from bench.machine import monitor_size
from bench.states import KIND_NAMES, Case
from model import ROOT
from model.limits import Kind
from model.records import Rule, encode

ARCHIVE = ROOT / "target" / "staticlib" / "libhook.a"
SOURCE = ROOT / "bench" / "hookcost.c"
BUILT = ROOT / "target" / "embed" / "hookcost"
HOOK, IN_PLACE, NONE, COPY = b"h", b"p", b"n", b"c"
COLUMNS: List[Tuple[str, str, List[Rule]]] = [
    ("small", "small state, 0 rules", []),
    ("worst", "worst state, 0 rules", []),
    ("worst", "worst state, 32 rules", CONFINING),
]


class Cost(NamedTuple):
    """Instructions of one call by the hook and in place."""

    hook: int
    in_place: int


def build() -> None:
    """Link the program that is counted with the archive."""
    BUILT.parent.mkdir(parents=True, exist_ok=True)
    # Names are bound at the start, so that the first copy costs as much as the next.
    flags = ["-std=c11", "-O2", "-Wl,-z,now", f"-I{ROOT / 'embed'}"]
    command = ["gcc", *flags, str(SOURCE), str(ARCHIVE), "-o", str(BUILT)]
    made = subprocess.run(command, capture_output=True, text=True)
    if made.returncode != 0:
        raise BadRun(f"gcc could not build {BUILT.name}: {made.stderr}")


def log_of(rules: List[Rule], case: Case) -> bytes:
    """The rules, the calls before, and the measured call."""
    return b"".join(map(encode, [*rules, *case.before, case.call]))


def counted(how: bytes, log: bytes) -> int:
    """The instructions of a run; every record is allowed or a rule."""
    count, lines = instructions(BUILT, how + log)
    if any(line not in ("a", "r", "") for line in lines) or lines[-2] != "a":
        raise BadRun("a record before the measured call, or that call, is not allowed")
    return count


def cost(log: bytes) -> Cost:
    """The call at a log's end, above a run in which it is left out."""
    without = counted(NONE, log)
    return Cost(counted(HOOK, log) - without, counted(IN_PLACE, log) - without)


def costs() -> Dict[Tuple[int, str], Cost]:
    """By kind and column; of the cases of a kind the one that costs most."""
    found = {}
    for kind, name in KIND_NAMES.items():
        for state, column, rules in COLUMNS:
            made = [cost(log_of(rules, case)) for case in CASES[state][kind]]
            found[kind, column] = Cost(max(c.hook for c in made), max(c.in_place for c in made))
        say(f"measured {name} by the hook and in place")
    return found


def stacks() -> Dict[bytes, int]:
    """The peak of the stack over the kinds, in the worst state with 32 rules, program included."""
    peaks = {HOOK: 0, IN_PLACE: 0, NONE: 0}
    for kind in KIND_NAMES:
        log = log_of(CONFINING, CASES["worst"][kind][0])
        for how in peaks:
            peaks[how] = max(peaks[how], peak_of(BUILT, how + log).stack)
    say("measured the stack of the hook")
    return peaks


def archive_bytes() -> int:
    """The code in the archive."""
    said = subprocess.run(["size", str(ARCHIVE)], capture_output=True, text=True).stdout
    return sum(int(line.split()[0]) for line in said.splitlines()[1:])


def table(found: Dict[Tuple[int, str], Cost]) -> List[str]:
    """A row for each kind."""
    head = [f"{way}, {column}" for _, column, _ in COLUMNS for way in ("Hook", "In place")]
    lines = [row("Kind", "Call", *head), rule_of("rl" + "r" * len(head))]
    for kind, name in KIND_NAMES.items():
        numbers = [n for _, column, _ in COLUMNS for n in found[kind, column]]
        lines.append(row(kind, name, *numbers))
    return lines


def report() -> Report:
    """The part of the document on the hook and the library."""
    build()
    found, peaks = costs(), stacks()
    log = log_of([], CASES["small"][Kind.START][0])
    copy = counted(COPY, log) - counted(NONE, log)
    more = sorted({c.hook - c.in_place for c in found.values()})
    by = f"{more[0]:,}" if len(more) == 1 else f"{more[0]:,} to {more[-1]:,}"
    text = (
        f"By the hook a call takes {by} instructions more than in place, since it copies the monitor "
        f"out and back. One copy of its {monitor_size():,} bytes by the C library takes {copy:,}. "
        f"Peak of the stack over all kinds, worst state, 32 rules, with that of the program "
        f"itself: {peaks[HOOK]:,} bytes by the hook, {peaks[IN_PLACE]:,} in place, {peaks[NONE]:,} "
        f"with no call. Code of the archive: {archive_bytes():,} bytes."
    )
    return Report({"hook and library": [*table(found), "", *prose(text)]}, [])
