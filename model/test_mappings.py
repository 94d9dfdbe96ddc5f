"""Document 02, Paper 4: counted mappings, in runs and in trackers made wrong on purpose."""

from contextlib import ExitStack, contextmanager
from typing import Callable, ContextManager, Dict, Iterator, List, NamedTuple, Set, Tuple, Union
from unittest import mock

from model import tracker
from model.checks import Checks, Options
from model.contents import MemoryStep, MixedFunctions, RecordStep, TwinRun, exactness_faults
from model.limits import COUNT_LIMIT, MAP_SORTS, Kind, MapSort, Refusal
from model.records import Call, Rule, encode, forbid
from model.tracker import EFFECTS, MAPPED_SORTS, State, Tracker

READ, BOTH = MapSort.MAPPED_READ, MapSort.MAPPED_BOTH

# Processes 0 and 1 are live, and the descriptor 0 of each leads to 24, the beat buffer. Descriptor
# 1 of process 0 leads to 25.
BUFFER = [
    Call(Kind.START, 0),
    Call(Kind.START, 1),
    Call(Kind.CREATE, 0, 1, 0, 24),
    Call(Kind.OPEN, 1, 1, 0),
    Call(Kind.CREATE, 0, 2, 1, 25),
]
MAP_READ = Call(Kind.MAP_READ, 0, 0)
MAP_BOTH = Call(Kind.MAP_BOTH, 0, 0)
UNMAP_READ = Call(Kind.UNMAP, 0, 24, READ)
UNMAP_BOTH = Call(Kind.UNMAP, 0, 24, BOTH)
MAPS = {READ: MAP_READ, BOTH: MAP_BOTH}
UNMAPS = {READ: UNMAP_READ, BOTH: UNMAP_BOTH}
TRUNCATE = Call(Kind.TRUNCATE, 0, 0)
TO_PROCESS, TO_BUFFER = (24, 8), (8, 24)


def given(container: int, item: int) -> Call:
    """A label."""
    return Call(Kind.LABEL, 0, container, item)


class Run(NamedTuple):
    """Records after those of BUFFER with their answers, and what the state is after them."""

    name: str
    pairs: List[Tuple[Union[Call, Rule], str]]
    links: Set[Tuple[int, int]]
    counts: Dict[Tuple[int, int, int], int]
    holders: Dict[int, List[int]] = {}  # by item


def allowed(*records: Union[Call, Rule]) -> List[Tuple[Union[Call, Rule], str]]:
    """Records that are all allowed, and by which no container gains an item."""
    return [(record, "allow 0") for record in records]


def runs_of_a_sort(sort: int) -> List[Run]:
    """The runs that go alike for both sorts."""
    maps, unmap, other = MAPS[sort], UNMAPS[sort], UNMAPS[1 - sort]
    links = {TO_PROCESS} if sort == READ else {TO_PROCESS, TO_BUFFER}
    name = MapSort(sort).name
    twice = allowed(maps, maps, unmap)
    full = allowed(*[maps] * COUNT_LIMIT)
    through = [Call(Kind.DUP, 0, 0, 7), maps._replace(a=7)]
    child = {"maps": maps._replace(process=2), "unmap": unmap._replace(process=2)}
    return [
        Run(
            f"mapped twice, unmapped once, {name}",
            [*twice, (given(24, 5), "allow 2")],
            links,
            {(0, 24, sort): 1},
            {5: [8, 24]},
        ),
        Run(
            f"what the link brings is judged, {name}",
            [
                *twice,
                (forbid(5, [0]), "rule 0"),
                *allowed(Call(Kind.DEVICE, 0, 2, 0)),
                (given(24, 5), "allow 2"),
                (Call(Kind.WRITE, 0, 2), "inhibit 0"),
            ],
            links,
            {(0, 24, sort): 1},
            {5: [8, 24]},
        ),
        Run(
            f"mapped twice, unmapped twice, {name}",
            [*twice, *allowed(unmap), (given(24, 5), "allow 1"), (unmap, "refused 16")],
            set(),
            {},
            {5: [24]},
        ),
        Run(
            f"by another descriptor the same count rises, {name}",
            [*allowed(maps, *through, Call(Kind.CLOSE, 0, 0), Call(Kind.CLOSE, 0, 7), unmap)],
            links,
            {(0, 24, sort): 1},
        ),
        Run(
            f"the other sort is not mapped, {name}",
            [*allowed(maps), (other, "refused 16")],
            links,
            {(0, 24, sort): 1},
        ),
        Run(
            f"a sort that there is not, {name}",
            [
                *allowed(maps),
                (unmap._replace(b=2), "refused 5"),
                (unmap._replace(b=255), "refused 5"),
            ],
            links,
            {(0, 24, sort): 1},
        ),
        Run(
            f"255 mappings, then 17, {name}",
            [*full, (maps, "refused 17"), *allowed(through[0]), (through[1], "refused 17")],
            links,
            {(0, 24, sort): 255},
        ),
        Run(
            f"17 looks at one count, {name}",
            [
                *full,
                *allowed(MAPS[1 - sort], maps._replace(a=1), maps._replace(process=1)),
                (maps, "refused 17"),
                *allowed(other),
                (maps, "refused 17"),
                *allowed(unmap, maps),
                (maps, "refused 17"),
            ],
            {*links, *((25, 8), (8, 25))[: len(links)], *((24, 9), (9, 24))[: len(links)]},
            {(0, 24, sort): 255, (0, 25, sort): 1, (1, 24, sort): 1},
        ),
        Run(
            f"5 comes before 17, and 14 where the descriptor is closed, {name}",
            [
                *full,
                (maps._replace(c=1), "refused 5"),
                (maps._replace(process=2), "refused 6"),
                (maps._replace(a=9), "refused 14"),
            ],
            links,
            {(0, 24, sort): 255},
        ),
        Run(
            f"a fork at 255, {name}",
            [
                *full,
                *allowed(Call(Kind.FORK, 0, 2)),
                (child["maps"], "refused 17"),
                *allowed(child["unmap"]),
                (maps, "refused 17"),
                *allowed(child["maps"]),
                (child["maps"], "refused 17"),
                *allowed(child["unmap"]),
            ],
            {*links, *((24, 10), (10, 24))[: len(links)]},
            {(0, 24, sort): 255, (2, 24, sort): 254},
        ),
        Run(
            f"a fork copies a count of two, {name}",
            [
                *allowed(maps, maps, Call(Kind.FORK, 0, 2), child["unmap"]),
                (given(24, 5), "allow 3"),
                *allowed(unmap, unmap),
                (given(24, 6), "allow 2"),
                *allowed(child["unmap"]),
                (given(24, 7), "allow 1"),
            ],
            set(),
            {},
            {5: [8, 10, 24], 6: [10, 24], 7: [24]},
        ),
        Run(
            f"the next process of a number has no mappings, {name}",
            [
                *allowed(maps, maps, Call(Kind.EXIT, 0), Call(Kind.START, 0)),
                (unmap, "refused 16"),
                (given(24, 5), "allow 1"),
                *allowed(Call(Kind.OPEN, 0, 1, 0)),
                (maps, "allow 1"),
                *allowed(unmap),
                (unmap, "refused 16"),
            ],
            set(),
            {},
            {5: [8, 24]},
        ),
        Run(
            f"an exit at 255, {name}",
            [
                *full,
                *allowed(Call(Kind.EXIT, 0), Call(Kind.START, 0), Call(Kind.OPEN, 0, 1, 0), maps),
            ],
            links,
            {(0, 24, sort): 1},
        ),
        Run(
            f"a file is in use while a mapping is left, {name}",
            [
                *allowed(maps, maps),
                (given(24, 5), "allow 2"),
                *allowed(Call(Kind.UNLINK, 0, 1)),
                *allowed(Call(Kind.CLOSE, 0, 0), Call(Kind.CLOSE, 1, 0), unmap),
                (Call(Kind.CREATE, 0, 3, 0, 24), "refused 7"),
            ],
            links,
            {(0, 24, sort): 1},
            {5: [8, 24]},
        ),
        Run(
            f"the last unmap ends its use, {name}",
            [
                *allowed(maps, maps),
                (given(24, 5), "allow 2"),
                *allowed(Call(Kind.UNLINK, 0, 1)),
                *allowed(Call(Kind.CLOSE, 0, 0), Call(Kind.CLOSE, 1, 0), unmap, unmap),
            ],
            set(),
            {},
            {5: [8]},
        ),
        Run(
            f"an inhibited mapping raises no count, {name}",
            [
                (forbid(5, [8]), "rule 0"),
                (given(24, 5), "allow 1"),
                (maps, "inhibit 0"),
                (unmap, "refused 16"),
            ],
            set(),
            {},
            {5: [24]},
        ),
    ]


RUNS = [
    *runs_of_a_sort(READ),
    *runs_of_a_sort(BOTH),
    Run(
        "read and both ways, and the two-way one ends",
        [
            *allowed(MAP_READ, MAP_BOTH, UNMAP_BOTH),
            (given(24, 5), "allow 2"),
            (given(8, 6), "allow 1"),
        ],
        {TO_PROCESS},
        {(0, 24, READ): 1},
        {5: [8, 24], 6: [8]},
    ),
    Run(
        "read and both ways, and the one for reading ends",
        [
            *allowed(MAP_BOTH, MAP_READ, UNMAP_READ),
            (given(24, 5), "allow 2"),
            (given(8, 6), "allow 2"),
        ],
        {TO_PROCESS, TO_BUFFER},
        {(0, 24, BOTH): 1},
        {5: [8, 24], 6: [8, 24]},
    ),
    Run(
        "both ways twice, read once",
        [
            *allowed(MAP_BOTH, MAP_READ, MAP_BOTH, UNMAP_READ, UNMAP_BOTH),
            (given(8, 6), "allow 2"),
        ],
        {TO_PROCESS, TO_BUFFER},
        {(0, 24, BOTH): 1},
        {6: [8, 24]},
    ),
    Run(
        "a two-way mapping does not raise the read count",
        [*allowed(MAP_BOTH, UNMAP_BOTH), (given(24, 5), "allow 1"), (UNMAP_READ, "refused 16")],
        set(),
        {},
        {5: [24]},
    ),
    Run(
        "items move at a second mapping",
        [*allowed(MAP_READ), (given(8, 6), "allow 1"), (MAP_BOTH, "allow 1")],
        {TO_PROCESS, TO_BUFFER},
        {(0, 24, READ): 1, (0, 24, BOTH): 1},
        {6: [8, 24]},
    ),
    Run(
        "a truncated file is kept while a two-way mapping is left",
        [
            *allowed(MAP_BOTH, MAP_BOTH),
            (given(24, 5), "allow 2"),
            *allowed(UNMAP_BOTH, TRUNCATE),
        ],
        {TO_PROCESS, TO_BUFFER},
        {(0, 24, BOTH): 1},
        {5: [8, 24]},
    ),
    Run(
        "and is emptied where one for reading is left",
        [
            *allowed(MAP_BOTH, MAP_READ),
            (given(24, 5), "allow 2"),
            *allowed(UNMAP_BOTH, TRUNCATE),
        ],
        {TO_PROCESS},
        {(0, 24, READ): 1},
        {5: [8]},
    ),
    Run(
        "a device is counted too",
        [
            *allowed(Call(Kind.DEVICE, 0, 2, 3), Call(Kind.MAP_BOTH, 0, 2)),
            *allowed(Call(Kind.MAP_BOTH, 0, 2), Call(Kind.UNMAP, 0, 3, BOTH)),
            (given(8, 5), "allow 2"),
            (Call(Kind.TRUNCATE, 0, 2), "refused 10"),
        ],
        {(3, 8), (8, 3)},
        {(0, 3, BOTH): 1},
        {5: [3, 8]},
    ),
]


def differences(run: Run) -> List[str]:
    """Where the tracker differs from what a run states."""
    model = Tracker()
    model.run_log(b"".join(map(encode, BUFFER)))
    found = []
    for number, (record, wanted) in enumerate(run.pairs, 1):
        answer = str(model.answer_record(encode(record))[0])
        if answer != wanted:
            found.append(f"record {number}, {record}: {answer}, not {wanted}")
    state = model.state
    if state.links != run.links:
        found.append(f"links {sorted(state.links)}, not {sorted(run.links)}")
    if state.mappings != run.counts:
        found.append(f"counts {state.mappings}, not {run.counts}")
    holders = {item: state.holders(item) for item in run.holders}
    if holders != run.holders:
        found.append(f"holders {holders}, not {run.holders}")
    return found


def test_counted_mappings(checks: Checks, options: Options) -> None:
    """The runs of Paper 4."""
    for run in RUNS:
        checks.equal(f"mappings: {run.name}", differences(run), [])


# Trackers made wrong on purpose. An effect that puts 0 in place of a count takes it away.

Effect = Callable[[State, Call], None]
Wrong = Callable[[], ContextManager]


def set_count(state: State, process: int, container: int, sort: int, count: int) -> None:
    """Put a count in its place."""
    state.mappings.pop((process, container, sort), None)
    if count > 0:
        state.mappings[process, container, sort] = count


@contextmanager
def replaced(**patches: object) -> Iterator[None]:
    """A tracker with other effects, by kind, and other parts, by name."""
    effects = {Kind[name]: part for name, part in patches.items() if name in Kind.__members__}
    with ExitStack() as stack:
        stack.enter_context(mock.patch.dict(EFFECTS, effects))
        for name, part in patches.items():
            if name not in Kind.__members__:
                stack.enter_context(mock.patch.object(tracker, name, part))
        yield


def after(kind: int, also: Effect) -> Effect:
    """The right effect of a kind, and then something else."""
    right = EFFECTS[kind]

    def effect(state: State, call: Call) -> None:
        right(state, call)
        also(state, call)

    return effect


def clear_pair(state: State, call: Call) -> None:
    """Unmap ends all mappings of the pair."""
    for sort in MAP_SORTS:
        set_count(state, call.process, call.a, sort, 0)


def move_to_both(state: State, call: Call) -> None:
    """Mapped both ways once, all mappings of the pair are."""
    container = state.descriptors[call.process, call.a]
    counts = {sort: state.count(call.process, container, sort) for sort in MAP_SORTS}
    if counts[BOTH]:
        set_count(state, call.process, container, READ, 0)
        set_count(state, call.process, container, BOTH, sum(counts.values()))


def unmap_any(state: State, call: Call) -> None:
    """Unmap takes from whichever count there is."""
    sort = BOTH if state.count(call.process, call.a, BOTH) else READ
    left = state.count(call.process, call.a, sort) - 1
    set_count(state, call.process, call.a, sort, left)


def mapped_by_any(state: State, call: Call, thing: str, number: int) -> bool:
    """16 where no sort is mapped."""
    if thing != tracker.MAPPING:
        return right_is_there(state, call, thing, number)
    return any(state.count(call.process, number, sort) for sort in MAP_SORTS)


def mapped_by_other(state: State, call: Call, thing: str, number: int) -> bool:
    """16 by the other sort."""
    return right_is_there(state, call._replace(b=1 - call.b), thing, number)


def lower(state: State, call: Call) -> None:
    """Unmap of a sort that may not be mapped."""
    count = state.count(call.process, call.a, call.b) - 1
    set_count(state, call.process, call.a, call.b, count)


def wrapped(state: State, call: Call) -> None:
    """A count goes on from 255 to 0."""
    container = state.descriptors[call.process, call.a]
    sort = MAPPED_SORTS[call.kind]
    count = state.count(call.process, container, sort) % (COUNT_LIMIT + 1)
    set_count(state, call.process, container, sort, count)


def raise_read(state: State, call: Call) -> None:
    """A two-way mapping raises the read count too."""
    container = state.descriptors[call.process, call.a]
    count = state.count(call.process, container, READ) + 1
    set_count(state, call.process, container, READ, min(count, COUNT_LIMIT))


def child_has(most: int) -> Effect:
    """A fork copies no more of each count than this."""

    def effect(state: State, call: Call) -> None:
        for process, container, sort in list(state.mappings):
            if process == call.a:
                count = min(most, state.count(process, container, sort))
                set_count(state, process, container, sort, count)

    return effect


def exit_leaves_mappings(state: State, call: Call) -> None:
    """A dead process's counts are there for the next process of that number."""
    mappings = state.mappings
    right_exit(state, call)
    state.mappings = mappings


def full_by_pair(state: State, call: Call) -> Iterator[tracker.Fact]:
    """17 looks at both counts of the pair."""
    yield from right_call_facts(state, call)
    target = state.descriptors.get((call.process, call.a))
    if call.kind in MAPPED_SORTS and target is not None:
        if COUNT_LIMIT in [state.count(call.process, target, sort) for sort in MAP_SORTS]:
            yield tracker.Fact(Refusal.COUNT_FULL, "a")


def full_first(numbers: Set[Refusal]) -> Refusal:
    """17 before every other number."""
    return Refusal.COUNT_FULL if Refusal.COUNT_FULL in numbers else right_first(numbers)


right_exit = EFFECTS[Kind.EXIT]
right_is_there = tracker.is_there
right_first = tracker.first_refusal
right_call_facts = tracker.call_facts

MANY = 10**9
WRONG: Dict[str, Wrong] = {
    "unmap clears the pair": lambda: replaced(UNMAP=after(Kind.UNMAP, clear_pair)),
    "one count for both sorts": lambda: replaced(
        MAP_READ=after(Kind.MAP_READ, move_to_both),
        MAP_BOTH=after(Kind.MAP_BOTH, move_to_both),
        UNMAP=unmap_any,
        is_there=mapped_by_any,
    ),
    "a count wraps at 256": lambda: replaced(
        MAP_READ=after(Kind.MAP_READ, wrapped),
        MAP_BOTH=after(Kind.MAP_BOTH, wrapped),
        COUNT_LIMIT=MANY,
    ),
    "a count goes on above 255": lambda: replaced(COUNT_LIMIT=MANY),
    "a count ends at 254": lambda: replaced(COUNT_LIMIT=COUNT_LIMIT - 1),
    "a two-way mapping raises the read count": lambda: replaced(
        MAP_BOTH=after(Kind.MAP_BOTH, raise_read)
    ),
    "fork without mappings": lambda: replaced(FORK=after(Kind.FORK, child_has(0))),
    "fork with one mapping of each": lambda: replaced(FORK=after(Kind.FORK, child_has(1))),
    "exit leaves mappings": lambda: replaced(EXIT=exit_leaves_mappings),
    "16 by the other sort": lambda: replaced(is_there=mapped_by_other, UNMAP=lower),
    "16 where no sort is mapped": lambda: replaced(is_there=mapped_by_any, UNMAP=lower),
    "17 by either count": lambda: replaced(call_facts=full_by_pair),
    "17 before 5": lambda: replaced(first_refusal=full_first),
}


def test_wrong_counts_found(checks: Checks, options: Options) -> None:
    """The runs find trackers that count wrongly.

    17 before 10 is not among them: only a truncate meets 10 and only a mapping meets 17, so that
    no record can tell the two orders apart.
    """
    for name, wrong in WRONG.items():
        with wrong():
            found = [run.name for run in RUNS if differences(run)]
        checks.true(f"runs of Paper 4 find: {name}", bool(found))
    checks.true("the right tracker is back", not any(map(differences, RUNS)))



# Bytes that pass over the link that an unmap leaves, with a beat buffer that is mapped twice.
PASSING = [
    *BUFFER,
    MAP_READ,
    MAP_READ,
    UNMAP_READ,
    Call(Kind.FORK, 0, 2),
    given(24, 5),
]


def test_bytes_pass(checks: Checks, options: Options) -> None:
    """Two runs that differ in what the label brings differ in each process that maps the buffer."""
    steps = [RecordStep(encode(call)) for call in PASSING] + [MemoryStep((8, 9, 10))]
    report = TwinRun(MixedFunctions(1), [5], 1).run(steps)
    checks.equal("bytes pass: faults", report.faults, [])
    checks.equal("bytes pass: each holder differs", report.held_but_equal, 0)
    checks.equal("bytes pass: exactly these", exactness_faults(steps, True), [])
    for name, reached in (("unmap clears the pair", {8, 10}), ("fork without mappings", {10})):
        with WRONG[name]():
            faults = TwinRun(MixedFunctions(1), [5], 1).run(steps).faults
        checks.equal(f"bytes pass: {name}", {fault.container for fault in faults}, reached)
