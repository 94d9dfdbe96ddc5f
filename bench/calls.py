"""Count the instructions of one call of each kind, and the stack.

A call in place is the difference of two runs of crates/bench_calls/out/bench_calls under
valgrind whose inputs differ in their last five bytes alone: the call that is
measured, and a call of unknown kind. A call by value is the difference of a run
of crates/test_calls/out/test_calls with the call and one without it, where the call adds
no item, since the program prints them all. Of the cases of a kind the one that
costs most is reported.
"""

import functools
from itertools import zip_longest
from pathlib import Path
from typing import Dict, List, NamedTuple, Sequence, Tuple

from bench.counting import INPUT_BUFFER, BadRun, Report, instructions, peak_of, row, rule_of, say
from bench.logcases import CASES
from bench.states import KIND_NAMES, Case
from model import ROOT
from model.limits import CONTAINERS, FILES, Refusal
from model.records import Call, encode
from model.tracker import State, Tracker

IN_PLACE = ROOT / "crates" / "bench_calls" / "out" / "bench_calls"
BY_VALUE = ROOT / "crates" / "test_calls" / "out" / "test_calls"

MOST_INSTRUCTIONS = 6000  # of any call in the worst state
USUAL_INSTRUCTIONS = 1500  # of more than half of the kinds in the worst state
MOST_STACK = 16 * 1024  # in place
MOST_COPIED = 24 * 1024  # by value: the tracker is copied

UNKNOWN = Call(0)
WIDE = 1 << FILES[-4] | 1 << FILES[-1]  # bench_calls adds these to the last set: 20 digits


def input_of(calls: Sequence[Call]) -> bytes:
    """The calls as the programs read them."""
    return b"".join(map(bytes, calls))


# What the model says of the calls.


def gained_by(tracker: Tracker, call: Call) -> int:
    """Make a call, which must be allowed: the set of the containers that gained."""
    before = tracker.state.items
    answer, _ = tracker.answer_record(encode(call))
    if answer.word != "allow":
        raise BadRun(f"{call} of the state or the measured call gets '{answer}' from the model")
    after = tracker.state.items
    return sum(1 << c for c in CONTAINERS if after[c] - before[c])


@functools.lru_cache(maxsize=None)
def model_after(calls: Tuple[Call, ...]) -> State:
    """The state after calls."""
    tracker = Tracker()
    for call in calls:
        gained_by(tracker, call)
    return tracker.state


def gain_of(case: Case) -> int:
    """The set of the containers that gain by the measured call."""
    tracker = Tracker()
    tracker.state = model_after(tuple(case.before))
    return gained_by(tracker, case.call)


# Runs of the programs.


def check_lines(lines: List[str], wanted: List[str]) -> None:
    """The first lines written must be the wanted ones."""
    for place, (line, meant) in enumerate(zip_longest(lines[: len(wanted)], wanted), 1):
        if line != meant:
            raise BadRun(f"line {place} is '{line}', not '{meant}'")


def in_place(case: Case) -> int:
    """The instructions of a call above those of a call of unknown kind."""
    made = len(case.before) * ["0"]
    with_call, lines = instructions(IN_PLACE, input_of([*case.before, case.call]))
    check_lines(lines, [*made, "0", str(gain_of(case) | WIDE), ""])
    with_unknown, lines = instructions(IN_PLACE, input_of([*case.before, UNKNOWN]))
    check_lines(lines, [*made, str(int(Refusal.UNKNOWN_KIND)), str(WIDE), ""])
    return with_call - with_unknown


def by_value(case: Case) -> int:
    """The instructions of a call that adds no item, with its turn of the loop and its line."""
    count = len(case.before)
    with_call, lines = instructions(BY_VALUE, input_of([*case.before, case.call]))
    without, other = instructions(BY_VALUE, input_of(case.before))
    check_lines(lines[count:], ["0 0", *other[count:]])
    return with_call - without


def stack(program: Path, calls: List[Call]) -> int:
    """The peak of the stack in bytes, less the input buffer."""
    return peak_of(program, input_of(calls)).stack - INPUT_BUFFER


class Figures(NamedTuple):
    """All that is measured; instructions by kind."""

    small: Dict[int, int]
    worst: Dict[int, int]
    whole: Dict[int, int]  # by value in the worst state
    stack: int
    whole_stack: int


def measured() -> Figures:
    """Measure everything; some minutes."""
    figures = Figures({}, {}, {}, 0, 0)
    for kind, name in KIND_NAMES.items():
        small, worst = CASES["small"][kind], CASES["worst"][kind]
        figures.small[kind] = max(map(in_place, small))
        figures.worst[kind] = max(map(in_place, worst))
        figures.whole[kind] = max(by_value(case) for case in worst if not gain_of(case))
        inputs = [[*case.before, case.call] for case in worst]
        figures = figures._replace(
            stack=max(figures.stack, *(stack(IN_PLACE, calls) for calls in inputs)),
            whole_stack=max(figures.whole_stack, *(stack(BY_VALUE, calls) for calls in inputs)),
        )
        say(f"measured {name}")
    return figures


def table(figures: Figures) -> List[str]:
    """The figures as the lines of a document."""
    heads = ("Small state", "Worst state", "Worst state, by value, with its line")
    lines = [row("Kind", "Call", *heads), rule_of("rlrrr")]
    for kind, name in KIND_NAMES.items():
        lines.append(row(kind, name, figures.small[kind], figures.worst[kind], figures.whole[kind]))
    lines += [
        "",
        f"Peak of the stack, less the input buffer of {INPUT_BUFFER:,} bytes: "
        f"{figures.stack:,} bytes in place, {figures.whole_stack:,} by value.",
    ]
    return lines


def broken_limits(figures: Figures) -> List[str]:
    """The limits that do not hold, in words."""
    broken = []
    for kind, name in KIND_NAMES.items():
        if figures.worst[kind] > MOST_INSTRUCTIONS:
            broken.append(f"{name} takes {figures.worst[kind]:,}, more than {MOST_INSTRUCTIONS:,}")
    usual = [kind for kind, count in figures.worst.items() if count < USUAL_INSTRUCTIONS]
    if 2 * len(usual) <= len(figures.worst):
        broken.append(f"only {len(usual)} kinds take less than {USUAL_INSTRUCTIONS:,}")
    for words, peak, most in (
        ("in place", figures.stack, MOST_STACK),
        ("by value", figures.whole_stack, MOST_COPIED),
    ):
        if peak >= most:
            broken.append(f"the stack {words} is {peak:,} bytes, not under {most:,}")
    return broken


def report() -> Report:
    """Measure, and check the limits."""
    figures = measured()
    return Report({"calls": table(figures)}, broken_limits(figures))
