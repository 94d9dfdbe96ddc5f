"""Wall time as ratios, memory, sizes, and all of it beside the box."""

import os
import re
import statistics
import struct
import subprocess
import tempfile
import time
from pathlib import Path
from typing import Dict, List, NamedTuple, Tuple

from bench.counting import INPUT_BUFFER, BadRun, Peak, kept, peak_of, row, rule_of, say
from bench.logcases import CASES, CONFINING, PLACES, SEEDS, TABLE_SIZES, call_cases, mixed_log
from bench.logcases import other_cases
from bench.programs import BASELINE, IDLE, PROVED, Pair, Program, log_before
from model import ROOT
from tests.logtests.compare import model_lines
from tests.logtests.randomlogs import largest_calls, largest_log

REPEATS = 401
MODEL_REPEATS = 5
# Where a Monitor is defined, and each of its parts.
STRUCTS = {name: ROOT / "crates" / crate / "src" / "lib.rt" for name, crate in (("Monitor", "decision"), ("Tracker", "tracker"), ("Rules", "rules"))}
NUMBER_SIZES = {"bool": 1, "u8": 1, "u16": 2, "u32": 4, "u64": 8, "usize": 8}
RUNLOG = ROOT / "crates" / "runlog" / "src" / "main.rt"
EXECUTED = 4  # the flag of a section that is executed, SHF_EXECINSTR

# The box: the request's first paragraph.
CORE_HERTZ = 120_000_000
MEMORY = 512 * 1024
FLASH = 4 * 1024 * 1024
STRAPS = 32
# Assumed.
BEATS = 4  # a second: 240 a minute, one message each
CALLS = 12  # that one message makes
MARGIN = 4
CYCLES = (1, 2)  # of an instruction


# Wall time.


class Times(NamedTuple):
    """Medians of seconds, of a log and of an idle record."""

    log: float
    idle: float

    @property
    def own(self) -> float:
        """Without the start of the process."""
        return self.log - self.idle


def timed(program: Path, file: str) -> float:
    """The seconds of one run."""
    actions = [
        (os.POSIX_SPAWN_OPEN, 0, file, os.O_RDONLY, 0),
        (os.POSIX_SPAWN_OPEN, 1, os.devnull, os.O_WRONLY, 0),
    ]
    began = time.perf_counter()
    child = os.posix_spawn(program, [program], {}, file_actions=actions)
    _, status = os.waitpid(child, 0)
    seconds = time.perf_counter() - began
    if status != 0:
        raise BadRun(f"{program.name} ended with status {status}")
    return seconds


def interleaved(log: bytes) -> Dict[str, Times]:
    """Both programs on a log and on an idle record, in turn."""
    seconds: Dict[Tuple[str, str], List[float]] = {}
    with tempfile.TemporaryDirectory() as room:
        files = {"log": Path(room) / "log", "idle": Path(room) / "idle"}
        files["log"].write_bytes(log)
        files["idle"].write_bytes(IDLE)
        for _ in range(REPEATS):
            for program in (PROVED, BASELINE):
                for name, file in files.items():
                    run = timed(kept(program.path), str(file))
                    seconds.setdefault((program.name, name), []).append(run)
    medians = {key: statistics.median(values) for key, values in seconds.items()}
    return {
        program.name: Times(medians[program.name, "log"], medians[program.name, "idle"])
        for program in (PROVED, BASELINE)
    }


class Ratio(NamedTuple):
    """Wall times of a log as ratios."""

    whole: float  # program to baseline, the processes from start to end
    own: float  # the same without the start of the process
    model: float  # the model to the program without its start


def model_seconds(log: bytes) -> float:
    """The seconds that the model takes, the median of a few runs."""
    runs = []
    for _ in range(MODEL_REPEATS):
        began = time.perf_counter()
        model_lines(log)
        runs.append(time.perf_counter() - began)
    return statistics.median(runs)


def wall_ratio(log: bytes) -> Ratio:
    """Measure a log."""
    times = interleaved(log)
    proved, baseline = times[PROVED.name], times[BASELINE.name]
    model = model_seconds(log) / proved.own
    return Ratio(proved.log / baseline.log, proved.own / baseline.own, model)


# Memory.


def memory_logs() -> List[bytes]:
    """The worst states with 32 rules, the other records, and a random log."""
    cases = [case for kind in CASES["worst"] for case in call_cases(CONFINING, "worst", kind)[:1]]
    cases += other_cases(PLACES["worst"][0]).values()
    logs = [log_before(case) + case.record for case in cases]
    return [*logs, mixed_log(SEEDS[0], "mixed", TABLE_SIZES[-1]).data]


def measured_peak(program: Program) -> Peak:
    """The most bytes of the stack and of the heap over these logs."""
    peaks = [peak_of(program.path, log) for log in memory_logs()]
    return Peak(max(peak.stack for peak in peaks), max(peak.heap for peak in peaks))


def answers_array() -> int:
    """The bytes of the array of answers in the program; 0 if it has none."""
    found = re.search(r"\[0u32; (\d+)\]", RUNLOG.read_text())
    return 4 * int(found[1]) if found else 0


# Sizes.


def fields_of(name: str) -> List[str]:
    """The types of the fields of a struct, as the source has them."""
    path = STRUCTS[name]
    found = re.search(rf"struct {name} \{{(.*?)\}}", path.read_text(), re.DOTALL)
    if not found:
        raise BadRun(f"no struct {name} in {path.relative_to(ROOT)}")
    return re.findall(r"(?m)^\s*(?:pub )?\w+: (.+?),?$", found[1])


def type_size(text: str) -> int:
    """The bytes of a number, of an array, or of a part: its fields, as a multiple of 8."""
    if text in STRUCTS:
        return -(-sum(map(type_size, fields_of(text))) // 8) * 8
    array = re.fullmatch(r"\[(.+); (\d+)\]", text)
    if array:
        return int(array[2]) * type_size(array[1])
    if text not in NUMBER_SIZES:
        raise BadRun(f"a field of Monitor has the type {text}, which is no number and no array")
    return NUMBER_SIZES[text]


def monitor_size() -> int:
    """The bytes of a Monitor."""
    return type_size("Monitor")


def baseline_size() -> int:
    """The bytes of the baseline's Monitor, as it says itself."""
    run = subprocess.run([str(BASELINE.path), "--size"], capture_output=True, text=True)
    return int(run.stdout)


def executed_bytes(path: Path) -> int:
    """The bytes of the sections of a file that are executed."""
    data = path.read_bytes()
    if data[:6] != b"\x7fELF\x02\x01":
        raise BadRun(f"{path.name} is no 64-bit ELF file")
    (table,) = struct.unpack_from("<Q", data, 0x28)
    width, count = struct.unpack_from("<HH", data, 0x3A)
    total = 0
    for place in range(table, table + width * count, width):
        (flags,) = struct.unpack_from("<Q", data, place + 8)
        (size,) = struct.unpack_from("<Q", data, place + 32)
        total += size if flags & EXECUTED else 0
    return total


class Machine(NamedTuple):
    """Time, memory and sizes."""

    wall: Dict[str, Ratio]  # by log
    peaks: Dict[str, Peak]  # by program
    state: Pair
    code: Pair  # own code
    linked: int  # the baseline's code with the standard library


def measured_machine() -> Machine:
    """Measure everything that is not a count of instructions; about two minutes."""
    logs = {"largest, 32 rules": largest_log(SEEDS[0]), "largest, 0 rules": largest_calls(SEEDS[0])}
    wall = {name: wall_ratio(log) for name, log in logs.items()}
    say("measured wall time")
    peaks = {program.name: measured_peak(program) for program in (PROVED, BASELINE)}
    say("measured the stack and the heap")
    own = Path(f"{BASELINE.path}.o")
    code = Pair(executed_bytes(kept(PROVED.path)), executed_bytes(own))
    state = Pair(monitor_size(), baseline_size())
    return Machine(wall, peaks, state, code, executed_bytes(kept(BASELINE.path)))


def own_stack(found: Machine, program: Program) -> int:
    """The peak of the stack without the buffers that hold the input and the answers."""
    buffers = INPUT_BUFFER + answers_array() if program == PROVED else 0
    return found.peaks[program.name].stack - buffers


def own_heap(found: Machine, program: Program) -> int:
    """The peak of the heap without the input."""
    return max(0, found.peaks[program.name].heap - (INPUT_BUFFER if program == BASELINE else 0))


# Tables.


def size_table(found: Machine) -> List[str]:
    """Memory and sizes."""
    stack, heap = (
        Pair(of(found, PROVED), of(found, BASELINE)) for of in (own_stack, own_heap)
    )
    lines = [row("Bytes", "Program", "Baseline"), rule_of("lrr")]
    lines.append(row("State (a `Monitor`)", *found.state))
    lines.append(row("Peak of the stack, without input and answers", *stack))
    lines.append(row("Peak of the heap, without the input", *heap))
    lines.append(row("Own code", *found.code))
    lines.append(row("Code with the standard library", found.code.proved, found.linked))
    return lines


def wall_table(found: Machine) -> List[str]:
    """Ratios of wall times."""
    heads = ("Program : baseline", "the same, start of the process taken off", "Model : program")
    lines = [row("Log of 65,536 bytes", *heads), rule_of("lrrr")]
    for name, ratio in found.wall.items():
        lines.append(row(name, f"{ratio.whole:.1f}", f"{ratio.own:.1f}", f"{ratio.model:.0f}"))
    return lines


def percent(part: float) -> str:
    """A share in words."""
    return f"{100 * part:.1f}%"


def span(values: List[str]) -> str:
    """Least and most."""
    return " to ".join(values)


def box_table(found: Machine, means: Dict[str, Pair], largest: Pair) -> List[str]:
    """The figures beside the box."""
    expected = STRAPS * BEATS * CALLS
    most = MARGIN * expected
    lines = [row("Of the box", "Program", "Baseline"), rule_of("lrr")]
    for name, pair in means.items():
        for calls, words in ((expected, "calls expected"), (most, "calls with the margin")):
            shares = (
                span([percent(count * cycles * calls / CORE_HERTZ) for cycles in CYCLES])
                for count in pair
            )
            lines.append(row(f"Share of the core, {name}, {words}", *shares))
    micro = (
        span([f"{count * cycles * 1e6 / CORE_HERTZ:.0f}" for cycles in CYCLES]) for count in largest
    )
    lines.append(row("Microseconds of the largest record", *micro))
    stack = [own_stack(found, program) + own_heap(found, program) for program in (PROVED, BASELINE)]
    shares = {
        "512 KB of memory, state": (found.state, MEMORY),
        "512 KB of memory, peak of stack and heap": (stack, MEMORY),
        "4 MB of flash, own code": (found.code, FLASH),
    }
    for name, (counts, whole) in shares.items():
        lines.append(row(f"Share of {name}", *(percent(count / whole) for count in counts)))
    return lines


def box_text() -> str:
    """What the table of the box assumes, with its numbers."""
    expected = STRAPS * BEATS * CALLS
    most = MARGIN * expected
    return (
        f"Calls expected: {STRAPS} straps x {BEATS} messages a second x {CALLS} calls a message = "
        f"{expected:,} a second. With a margin of {MARGIN}: {most:,} a second. If the core did "
        f"nothing else, at {CORE_HERTZ // 1_000_000} MHz a call may take "
        f"{CORE_HERTZ // expected:,} cycles, and with the margin {CORE_HERTZ // most:,}."
    )
