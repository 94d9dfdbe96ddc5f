"""The two log programs that are measured side by side, and what a record costs in each."""

import functools
import subprocess
from pathlib import Path
from typing import Callable, List, NamedTuple, Sequence, Tuple

from bench.counting import BadRun, instructions
from bench.logcases import LogCase
from model import ROOT
from model.limits import Refusal
from model.records import encode, frame_bytes
from model.tracker import State, Tracker

BUILD = ROOT / "bench" / "baseline" / "build"
BUILD_SECONDS = 120


class Program(NamedTuple):
    """A log program."""

    name: str
    path: Path


PROVED = Program("program", ROOT / "crates" / "runlog" / "out" / "runlog")
BASELINE = Program("baseline", ROOT / "bench" / "baseline" / "target" / "baseline")

# A record of unknown tag: it gets a line and changes nothing. The random logs begin with it, and so
# does the log that is taken off.
IDLE = frame_bytes(0, b"")
IDLE_ANSWER = f"refused {Refusal.UNKNOWN_TAG}"


class Pair(NamedTuple):
    """A figure of the proved program beside that of the baseline."""

    proved: int
    baseline: int

    @property
    def cells(self) -> Tuple[int, int, str]:
        """Both, and how many times the baseline's the program's is."""
        return self.proved, self.baseline, f"{self.proved / self.baseline:.1f}"


def both(measure: Callable[[Program], int]) -> Pair:
    """Measure the two."""
    return Pair(measure(PROVED), measure(BASELINE))


def most(pairs: Sequence[Pair]) -> Pair:
    """The most of each."""
    return Pair(max(pair.proved for pair in pairs), max(pair.baseline for pair in pairs))


def build_baseline() -> None:
    """Build the baseline; it takes some seconds."""
    run = subprocess.run([str(BUILD)], capture_output=True, text=True, timeout=BUILD_SECONDS)
    if run.returncode != 0:
        raise BadRun(f"bench/baseline/build ended with status {run.returncode}: {run.stderr}")


@functools.lru_cache(maxsize=None)
def counted(program: Program, log: bytes) -> Tuple[int, List[str]]:
    """The instructions of a run and the lines written; each log is run once."""
    count, lines = instructions(program.path, log)
    return count, lines[:-1]


def log_before(case: LogCase) -> bytes:
    """The log without the measured record."""
    return b"".join(map(encode, [*case.rules, *case.before]))


@functools.lru_cache(maxsize=None)
def model_after(log: bytes) -> Tuple[List[str], State]:
    """What the model answers to a log, and the state after it."""
    tracker = Tracker()
    answers = tracker.run_log(log)
    return [str(answer) for answer in answers], tracker.state


def without_gain(line: str) -> str:
    """An answer without the number of containers that gained."""
    return line.rpartition(" ")[0] if line.startswith(("allow", "modify")) else line


def wanted_lines(case: LogCase) -> List[str]:
    """What the model answers: rules are loaded, calls allowed, and the record gets its answer."""
    before, state = model_after(log_before(case))
    tracker = Tracker()
    tracker.state = state
    lines = [*before, str(tracker.answer_record(case.record)[0])]
    meant = [f"rule {number}" for number in range(len(case.rules))] + len(case.before) * ["allow"]
    if [without_gain(line) for line in lines] != [*meant, case.answer]:
        said = f"the record {case.record.hex()} or one before it gets another answer"
        raise BadRun(f"{said} from the model: {lines[-1]}, not {case.answer}")
    return lines


def record_cost(program: Program, case: LogCase) -> int:
    """The instructions of a record, its turns of the loops and its line included."""
    log, wanted = log_before(case), wanted_lines(case)
    without, before = counted(program, log)
    with_record, lines = counted(program, log + case.record)
    if before != wanted[:-1] or lines != wanted:
        said = f"the record {case.record.hex()} or one before it gets another answer"
        raise BadRun(f"{said} from the {program.name}: {lines[-1:]}, not {wanted[-1]}")
    return with_record - without


def costs(cases: Sequence[LogCase]) -> Pair:
    """A record in both programs: in each the case that costs most."""
    return most([both(lambda program, case=case: record_cost(program, case)) for case in cases])


def log_cost(program: Program, log: bytes, answers: List[str]) -> int:
    """The instructions of a log, without the start of the program and an idle record."""
    start, _ = counted(program, IDLE)
    count, lines = instructions(program.path, IDLE + log)
    if lines[:-1] != [IDLE_ANSWER, *answers]:
        raise BadRun(f"the {program.name} differs from the model on a random log")
    return count - start
