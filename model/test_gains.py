"""Document 02, Paper 5: which containers gain by a call, in runs and in trackers made wrong."""

from contextlib import contextmanager
from typing import Callable, Dict, FrozenSet, Iterator, List, NamedTuple, Tuple, Union
from unittest import mock

from model import tracker
from model.checks import Checks, Options
from model.contents import RecordStep, call_of, gifts
from model.limits import CONTAINERS, DEVICES, FILES, PROCESSES, PROCESS_CONTAINERS, Kind, MapSort
from model.limits import process_container
from model.records import Call, Rule, encode, forbid, separate
from model.test_random import ENOUGH_CASES, records_of
from model.test_runs import RUN_B_INPUT
from model.tracker import EFFECTS, Answer, State, Tracker, gains, work_out

Record = Union[Call, Rule]
NOBODY: FrozenSet[int] = frozenset()
DONE = ("allow", "modify")


class Told(NamedTuple):
    """A record, its answer, and the containers that gain by it."""

    record: Record
    answer: str
    gained: FrozenSet[int] = NOBODY


def spread(record: Record, *gained: int) -> Told:
    """A record that is allowed, with the containers that gain by it."""
    return Told(record, f"allow {len(gained)}", frozenset(gained))


def diverted(record: Record, rule: int, substitute: int, *gained: int) -> Told:
    """A write that is diverted, with the containers that gain by that."""
    return Told(record, f"modify {rule} {substitute} {len(gained)}", frozenset(gained))


def quiet(*records: Record) -> List[Told]:
    """Records that are allowed, and by which none gains."""
    return [spread(record) for record in records]


def label(container: int, item: int) -> Call:
    """A label."""
    return Call(Kind.LABEL, 0, container, item)


class Run(NamedTuple):
    """Records with what they tell, from the fresh state or another."""

    name: str
    told: List[Told]
    start: Callable[[], State] = State


# Processes 0, 1 and 2 are live: 8, 9 and 10. Descriptor 0 of each leads to 24, descriptor 1 of
# processes 0 and 1 to 25, and descriptor 2 of process 0 to device 1, the panel.
BOX = quiet(
    Call(Kind.START, 0),
    Call(Kind.START, 1),
    Call(Kind.START, 2),
    Call(Kind.CREATE, 0, 1, 0, 24),
    Call(Kind.OPEN, 1, 1, 0),
    Call(Kind.OPEN, 2, 1, 0),
    Call(Kind.CREATE, 0, 2, 1, 25),
    Call(Kind.OPEN, 1, 2, 1),
    Call(Kind.DEVICE, 0, 2, 1),
)
READ, WRITE = Call(Kind.READ, 0, 0), Call(Kind.WRITE, 0, 0)
TO_PANEL = Call(Kind.WRITE, 0, 2)
MAP_READ, MAP_BOTH = Call(Kind.MAP_READ, 0, 0), Call(Kind.MAP_BOTH, 0, 0)
FORK = Call(Kind.FORK, 0, 3)


def by(process: int, call: Call) -> Call:
    """The same call of another process."""
    return call._replace(process=process)


def on(descriptor: int, call: Call) -> Call:
    """The same call by another descriptor."""
    return call._replace(a=descriptor)


# Process 1 maps 24 and 25 to read, and process 0 maps 25 both ways: 9 is in the reach of 8 and of
# 24.
IN_BOTH = quiet(by(1, MAP_READ), on(1, by(1, MAP_READ)), on(1, MAP_BOTH))


def torn() -> State:
    """The same links in a state that no record makes: 9 lacks what 8 and what 24 hold."""
    model = Tracker()
    model.run_log(b"".join(encode(told.record) for told in (*BOX, *IN_BOTH)))
    model.state.items.update({24: frozenset({1}), 8: frozenset({2})})
    return model.state


def everywhere() -> List[Call]:
    """Calls after which what is given to device 7 reaches every container, and nothing else does.

    Process 0 maps all others both ways, but device 7 to read, and each process maps 24 both ways.
    """
    calls = [Call(Kind.START, 0)]
    for name, container in enumerate(FILES):
        calls += [Call(Kind.CREATE, 0, name, 0, container), MAP_BOTH, Call(Kind.CLOSE, 0, 0)]
    for device in DEVICES:
        mapping = MAP_READ if device == DEVICES[-1] else MAP_BOTH
        calls += [Call(Kind.DEVICE, 0, 0, device), mapping, Call(Kind.CLOSE, 0, 0)]
    for process in PROCESSES[1:]:
        calls += [Call(Kind.START, process), Call(Kind.OPEN, process, 0, 0), by(process, MAP_BOTH)]
    return calls


ALL_BUT_LAST = [container for container in CONTAINERS if container != DEVICES[-1]]

RUNS = [
    Run(
        "a label",
        [
            *BOX,
            spread(label(24, 5), 24),
            spread(label(24, 5)),
            spread(label(24, 6), 24),
            spread(label(0, 5), 0),
            spread(label(8, 5), 8),
        ],
    ),
    Run(
        "a label of a file that two processes map",
        [
            *BOX,
            *quiet(MAP_READ, by(1, MAP_READ)),
            spread(label(24, 5), 24, 8, 9),
            spread(label(24, 5)),
            spread(label(9, 6), 9),
            spread(label(24, 6), 24, 8),
        ],
    ),
    Run(
        "a label over several links",
        [
            *BOX,
            *quiet(MAP_READ, on(1, MAP_BOTH), on(1, by(1, MAP_BOTH))),
            spread(label(24, 5), 24, 8, 25, 9),
            spread(label(25, 6), 25, 8, 9),
            spread(label(8, 5)),
        ],
    ),
    Run(
        "a read",
        [
            *BOX,
            *quiet(READ),
            spread(label(24, 5), 24),
            spread(READ, 8),
            *quiet(READ),
            spread(label(24, 6), 24),
            spread(label(24, 7), 24),
            spread(READ, 8),
            spread(label(24, 8), 24),
            spread(on(1, MAP_BOTH), 25),
            spread(by(1, on(1, MAP_READ)), 9),
            spread(READ, 8, 25, 9),
        ],
    ),
    Run(
        "what is given is there in part",
        [
            *BOX,
            *quiet(by(1, MAP_READ), by(2, MAP_READ)),
            spread(label(8, 5), 8),
            spread(label(8, 6), 8),
            spread(label(9, 5), 9),
            spread(label(10, 5), 10),
            spread(label(10, 6), 10),
            spread(WRITE, 24, 9),
            *quiet(WRITE),
        ],
    ),
    Run(
        "a write",
        [
            *BOX,
            *quiet(WRITE),
            spread(label(8, 5), 8),
            spread(label(8, 6), 8),
            spread(WRITE, 24),
            *quiet(WRITE),
            spread(TO_PANEL, 1),
            *quiet(TO_PANEL),
            *quiet(by(1, on(1, MAP_BOTH))),
            spread(on(1, WRITE), 25, 9),
        ],
    ),
    Run(
        "map read",
        [
            *BOX,
            spread(label(24, 5), 24),
            spread(MAP_READ, 8),
            *quiet(MAP_READ),
            spread(label(8, 6), 8),
            *quiet(MAP_READ, Call(Kind.UNMAP, 0, 24, MapSort.MAPPED_READ)),
        ],
    ),
    Run("map both, nothing to give", [*BOX, *quiet(MAP_BOTH, MAP_BOTH)]),
    Run(
        "map both, the process gains",
        [*BOX, spread(label(24, 5), 24), spread(MAP_BOTH, 8), *quiet(MAP_BOTH)],
    ),
    Run(
        "map both, the container gains",
        [*BOX, spread(label(8, 5), 8), spread(MAP_BOTH, 24), *quiet(MAP_BOTH)],
    ),
    Run(
        "map both, both gain",
        [*BOX, spread(label(8, 5), 8), spread(label(24, 6), 24), spread(MAP_BOTH, 8, 24)],
    ),
    Run(
        "map both, both hold the same",
        [*BOX, spread(label(8, 5), 8), spread(label(24, 5), 24), *quiet(MAP_BOTH)],
    ),
    Run(
        "map both, both sides gain over links",
        [
            *BOX,
            *quiet(on(1, MAP_BOTH), by(1, MAP_READ), by(2, MAP_READ)),
            spread(label(8, 5), 8, 25),
            spread(label(24, 6), 24, 9, 10),
            spread(MAP_BOTH, 8, 25, 24, 9, 10),
        ],
    ),
    Run(
        "map both, a container in both reaches has it all",
        [
            *BOX,
            *IN_BOTH,
            spread(label(24, 1), 24, 9),
            spread(label(8, 2), 8, 25, 9),
            spread(MAP_BOTH, 8, 25, 24),
        ],
    ),
    Run(
        "map both, a container in both reaches gains by both",
        [spread(MAP_BOTH, 8, 25, 24, 9), spread(MAP_BOTH, 25), *quiet(MAP_BOTH)],
        torn,
    ),
    Run(
        "a fork",
        [
            *BOX,
            *quiet(Call(Kind.FORK, 0, 5)),
            spread(label(8, 5), 8),
            spread(FORK, 11),
            spread(label(8, 6), 8),
            spread(Call(Kind.FORK, 0, 4), 12),
            *quiet(Call(Kind.EXIT, 3)),
            spread(FORK, 11),
        ],
    ),
    Run(
        "a fork of a process that is mapped: the child alone gains",
        [
            *BOX,
            *quiet(MAP_BOTH, by(1, MAP_BOTH)),
            spread(label(24, 5), 24, 8, 9),
            spread(label(8, 6), 8, 24, 9),
            spread(FORK, 11),
            spread(label(11, 7), 11, 24, 8, 9),
        ],
    ),
    Run(
        "what moves nothing, or only empties",
        [
            *BOX,
            spread(label(24, 5), 24),
            spread(READ, 8),
            *quiet(Call(Kind.TRUNCATE, 0, 0), Call(Kind.TRUNCATE, 0, 0)),
            spread(label(25, 6), 25),
            *quiet(Call(Kind.UNLINK, 0, 2), Call(Kind.CLOSE, 1, 1), Call(Kind.CLOSE, 0, 1)),
            *quiet(Call(Kind.CREATE, 0, 2, 1, 25), Call(Kind.LINK, 0, 2, 3)),
            *quiet(Call(Kind.RENAME, 0, 1, 3), Call(Kind.DUP, 0, 0, 9)),
            *quiet(Call(Kind.PIPE, 0, 10, 11, 26), by(2, MAP_BOTH)),
            spread(label(26, 7), 26),
            *quiet(Call(Kind.UNMAP, 2, 24, MapSort.MAPPED_BOTH), Call(Kind.EXIT, 0)),
            *quiet(Call(Kind.START, 0), Call(Kind.OPEN, 0, 3, 0), Call(Kind.DEVICE, 0, 1, 7)),
        ],
    ),
    Run(
        "an unmap that ends the use of a file",
        [
            *BOX,
            *quiet(on(1, MAP_READ), Call(Kind.UNLINK, 0, 2), Call(Kind.CLOSE, 0, 1)),
            *quiet(Call(Kind.CLOSE, 1, 1)),
            spread(label(25, 5), 25, 8),
            *quiet(Call(Kind.UNMAP, 0, 25, MapSort.MAPPED_READ)),
        ],
    ),
    Run(
        "a diverted write tells the gain at its substitute",
        [
            *BOX,
            Told(forbid(5, [1], 1, 25), "rule 0"),
            *quiet(by(1, on(1, MAP_BOTH))),
            spread(label(8, 5), 8),
            spread(label(8, 6), 8),
            diverted(TO_PANEL, 0, 25, 25, 9),
            diverted(TO_PANEL, 0, 25),
            spread(label(8, 7), 8),
            spread(label(9, 7), 9, 25),
            diverted(TO_PANEL, 0, 25),
            spread(label(8, 4), 8),
            diverted(TO_PANEL, 0, 25, 25, 9),
        ],
    ),
    Run(
        "and not that of the call that was stopped",
        [
            *BOX,
            Told(forbid(5, [24], 1, 3), "rule 0"),
            *quiet(by(1, MAP_READ), by(2, MAP_READ)),
            spread(label(8, 5), 8),
            diverted(WRITE, 0, 3, 3),
            diverted(WRITE, 0, 3),
        ],
    ),
    Run(
        "inhibit, rule and refused have no such number",
        [
            *BOX,
            Told(forbid(5, [1]), "rule 0"),
            Told(separate(5, 6), "rule 1"),
            spread(label(8, 5), 8),
            Told(TO_PANEL, "inhibit 0"),
            Told(label(8, 6), "inhibit 1"),
            Told(on(9, WRITE), "refused 14"),
            Told(label(26, 5), "refused 8"),
            Told(Call(20), "refused 4"),
            Told(forbid(5, [8]), "refused 12"),
            spread(WRITE, 24),
        ],
    ),
    Run(
        "every container gains",
        [
            *quiet(*everywhere()),
            spread(label(DEVICES[-1], 1), *CONTAINERS),
            *quiet(label(DEVICES[-1], 1), label(24, 1)),
            spread(label(8, 2), *ALL_BUT_LAST),
            spread(label(23, 3), *ALL_BUT_LAST),
        ],
    ),
]


# The lines of run B that the paper states, and its two refusals.
RUN_B = ["allow 0", "allow 0", "allow 1", "rule 0", "allow 0", "allow 1", "modify 0 3 1"]
RUN_B += ["refused 14", "refused 1"]


def differences(run: Run) -> List[str]:
    """Where the tracker differs from what a run states."""
    model = Tracker()
    model.state = run.start()
    found = []
    for number, told in enumerate(run.told, 1):
        before = model.state
        answer = str(model.answer_record(encode(told.record))[0])
        gained = frozenset(gains(before, model.state))
        if (answer, gained) != told[1:]:
            found.append(f"record {number}, {told}: {answer}, {sorted(gained)}")
    return found


def test_gains(checks: Checks, options: Options) -> None:
    """The runs of Paper 5."""
    answers = [str(answer) for answer in Tracker().run_log(RUN_B_INPUT)]
    checks.equal("gains: run B", answers, RUN_B)
    for run in RUNS:
        checks.equal(f"gains: {run.name}", differences(run), [])
    kinds = {told.record.kind for run in RUNS for told in run.told if isinstance(told.record, Call)}
    checks.true("gains: every kind is in a run", kinds >= {*Kind}, str(kinds))


def test_items_gained(checks: Checks, options: Options) -> None:
    """Which items each container gained."""
    model = Tracker()
    records = [*(told.record for told in BOX), label(8, 5), label(8, 6), label(24, 5), label(24, 7)]
    model.run_log(b"".join(map(encode, records)))
    before = model.state
    model.answer_record(encode(MAP_BOTH))
    checks.equal("gains: the items", gains(before, model.state), {8: {7}, 24: {6}})
    checks.equal("gains: back", gains(model.state, before), {})


# Random logs, with the sets as bits, and what may gain by the kind of the call.

NUMBERS = {"allow": 1, "modify": 3, "inhibit": 1, "rule": 1, "refused": 1}  # of each answer


def bits_of(model: Tracker) -> List[int]:
    """What the items query answers of each container."""
    return [model.query_items(container) for container in CONTAINERS]


def told_fault(data: bytes, answer: Answer, before: State, old: List[int], new: List[int]) -> str:
    """What is wrong with the number that an answer tells; nothing if it is right."""
    if answer.word not in DONE:
        right = len(answer.numbers) == NUMBERS[answer.word]
        return "" if right else f"{answer} has more numbers"
    gained = {c for c in CONTAINERS if new[c] & ~old[c]}
    if len(answer.numbers) != NUMBERS[answer.word] or answer.numbers[-1] != len(gained):
        return f"{answer} for {gained}"
    call = call_of(RecordStep(data))
    targets = {target for _, target in gifts(call, answer, before)}
    may = {process_container(call.a)} if call.kind == Kind.FORK else NOBODY
    may = may.union(*map(before.reach, targets))
    return "" if gained <= may else f"{answer} for {gained}, and only {may} may gain"


def log_faults(records: List[bytes]) -> Iterator[Tuple[int, str]]:
    """The records of a log whose number is wrong."""
    model = Tracker()
    old = bits_of(model)
    for place, data in enumerate(records):
        before = model.state
        answer, _ = model.answer_record(data)
        new = bits_of(model)
        fault = told_fault(data, answer, before, old, new)
        if fault:
            yield place, fault
        old = new


def test_told_in_logs(checks: Checks, options: Options) -> None:
    """Each number in random logs, beside a count by bits."""
    for seed in range(options.seed, options.seed + options.cases):
        checks.seeded("test_told_in_logs", seed, list(log_faults(records_of(seed))))


# Trackers made wrong on purpose: the number is another, and the states are right.

Count = Callable[[State, Call, Answer, State], int]


@contextmanager
def telling(count: Count) -> Iterator[None]:
    """A tracker that tells another number of a call that is allowed or diverted."""
    right = tracker.judge

    def judge(state: State, call: Call) -> Tuple[Answer, State]:
        answer, after = right(state, call)
        if answer.word in DONE:
            told = count(state, call, answer, after)
            answer = answer._replace(numbers=(*answer.numbers[:-1], told))
        return answer, after

    with mock.patch.object(tracker, "judge", judge):
        yield


@contextmanager
def answering(change: Callable[[Answer, State, Call], Answer]) -> Iterator[None]:
    """A tracker that gives calls other answers."""
    right = tracker.judge

    def judge(state: State, call: Call) -> Tuple[Answer, State]:
        answer, after = right(state, call)
        return change(answer, state, call), after

    with mock.patch.object(tracker, "judge", judge):
        yield


def targets_of(state: State, call: Call, answer: Answer) -> List[int]:
    """The containers that a call gives to, before links."""
    if call.kind == Kind.FORK:
        return [process_container(call.a)]
    return [target for _, target in gifts(call, answer, state)]


def of_items(state: State, call: Call, answer: Answer, after: State) -> int:
    """The items that came somewhere."""
    return sum(map(len, gains(state, after).values()))


def of_reach(state: State, call: Call, answer: Answer, after: State) -> int:
    """All that the call reached, gaining or not."""
    return len(set().union(*map(state.reach, targets_of(state, call, answer))))


def of_holders(state: State, call: Call, answer: Answer, after: State) -> int:
    """All that the call reached and that hold something now."""
    reached = set().union(*map(state.reach, targets_of(state, call, answer)))
    return sum(bool(after.items[container]) for container in reached)


def of_stopped(state: State, call: Call, answer: Answer, after: State) -> int:
    """What would have gained by the call as it stands."""
    return len(gains(state, work_out(state, call)))


def of_changed(state: State, call: Call, answer: Answer, after: State) -> int:
    """The containers that hold something else than before."""
    return sum(state.items[container] != after.items[container] for container in CONTAINERS)


def of_first(state: State, call: Call, answer: Answer, after: State) -> int:
    """One, if any gained."""
    return bool(gains(state, after))


def of_others(state: State, call: Call, answer: Answer, after: State) -> int:
    """Those that gained over links, without those given to."""
    return len(gains(state, after).keys() - {*targets_of(state, call, answer)})


def of_empty(state: State, call: Call, answer: Answer, after: State) -> int:
    """Those that gained and held nothing before."""
    return sum(not state.items[container] for container in gains(state, after))


def of_each_gift(state: State, call: Call, answer: Answer, after: State) -> int:
    """In map both, what gains by the read, and again what gains by the write."""
    if call.kind != Kind.MAP_BOTH:
        return len(gains(state, after))
    read = state.copy()
    EFFECTS[Kind.READ](read, call)
    written = read.copy()
    EFFECTS[Kind.WRITE](written, call)
    return len(gains(state, read)) + len(gains(read, written))


def of_one_gift(kind: int) -> Count:
    """In map both, what gains by the read alone, or by the write alone."""

    def count(state: State, call: Call, answer: Answer, after: State) -> int:
        given = state.copy()
        if call.kind != Kind.MAP_BOTH:
            return len(gains(state, after))
        EFFECTS[kind](given, call)
        return len(gains(state, given))

    return count


def of_fork(told: int) -> Count:
    """In a fork always this."""
    return lambda state, call, answer, after: (
        told if call.kind == Kind.FORK else len(gains(state, after))
    )


def of_some(counted: Callable[[int], bool]) -> Count:
    """Of those that gained some only."""
    return lambda state, call, answer, after: sum(map(counted, gains(state, after)))


def of_six_bits(state: State, call: Call, answer: Answer, after: State) -> int:
    """In six bits."""
    return len(gains(state, after)) % 64


def of_word(word: str) -> Count:
    """Nothing for one of the words."""
    return lambda state, call, answer, after: (
        0 if answer.word == word else len(gains(state, after))
    )


def without_number(answer: Answer, state: State, call: Call) -> Answer:
    """As before the paper."""
    return answer._replace(numbers=answer.numbers[:-1]) if answer.word in DONE else answer


def inhibit_told(answer: Answer, state: State, call: Call) -> Answer:
    """A call that is stopped tells what would have gained."""
    if answer.word != "inhibit":
        return answer
    return answer._replace(numbers=(*answer.numbers, len(gains(state, work_out(state, call)))))


WRONG: Dict[str, Callable] = {
    "counts items": lambda: telling(of_items),
    "counts the whole reach": lambda: telling(of_reach),
    "counts what holds something in the reach": lambda: telling(of_holders),
    "counts twice what gains by both gifts of map both": lambda: telling(of_each_gift),
    "counts the read of map both alone": lambda: telling(of_one_gift(Kind.READ)),
    "counts the write of map both alone": lambda: telling(of_one_gift(Kind.WRITE)),
    "tells the gain of the stopped call": lambda: telling(of_stopped),
    "tells 0 for a fork": lambda: telling(of_fork(0)),
    "tells 1 for every fork": lambda: telling(of_fork(1)),
    "counts what changed": lambda: telling(of_changed),
    "counts the first container alone": lambda: telling(of_first),
    "leaves out the receiver": lambda: telling(of_others),
    "counts what held nothing before": lambda: telling(of_empty),
    "leaves out processes": lambda: telling(of_some(lambda c: c not in PROCESS_CONTAINERS)),
    "leaves out devices": lambda: telling(of_some(lambda c: c not in DEVICES)),
    "leaves out files": lambda: telling(of_some(lambda c: c not in FILES)),
    "counts in six bits": lambda: telling(of_six_bits),
    "tells 0 in modify": lambda: telling(of_word("modify")),
    "tells 0 in allow": lambda: telling(of_word("allow")),
    "tells no number": lambda: answering(without_number),
    "tells a number in inhibit": lambda: answering(inhibit_told),
}
TORN_ALONE = "counts twice what gains by both gifts of map both"
NOT_IN_LOGS = (TORN_ALONE, "counts in six bits")  # random ones


def test_wrong_gains_found(checks: Checks, options: Options) -> None:
    """The runs find trackers that tell another number.

    One that counts twice what gains by both gifts of map both differs in a torn state alone: in any
    other, what lies in both reaches holds what both ends hold.
    """
    for name, wrong in WRONG.items():
        with wrong():
            found = [run for run in RUNS if differences(run)]
        checks.true(f"runs of Paper 5 find: one that {name}", bool(found))
        from_records = any(run.start is State for run in found)
        checks.equal(f"found by records alone: one that {name}", from_records, name != TORN_ALONE)
    checks.true("gains: the right tracker is back", not any(map(differences, RUNS)))


def test_wrong_gains_in_logs(checks: Checks, options: Options) -> None:
    """Random logs find them too."""
    seeds = range(options.seed, options.seed + ENOUGH_CASES)
    logs = [records_of(seed) for seed in seeds]
    for name in WRONG.keys() - {*NOT_IN_LOGS}:
        with WRONG[name]():
            found = any(fault for records in logs for fault in log_faults(records))
        checks.true(f"logs find: one that {name}, seeds from {seeds[0]}", found)
