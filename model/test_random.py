"""Random logs and step lists: demand 3, exactness, invariants and statistics."""

import functools
from typing import Dict, List, Tuple
from unittest import mock

from model import tracker
from model.checks import Checks, Options
from model.choices import Choices
from model.contents import MixedFunctions, RecordStep, Step, TwinReport, TwinRun, VariedFunctions
from model.contents import call_of, exactness_faults
from model.generate import MIXES, generate_records, generate_steps
from model.limits import CONFINE_TAG, CONTAINERS, COUNT_LIMIT, FILES, FORBID_TAG, KINDS, MAP_SORTS
from model.limits import PROCESS_CONTAINERS, RECORD_REFUSALS, SEPARATE_TAG, Kind, Refusal
from model.limits import process_container
from model.records import Call, Rule, read_frame
from model.tally import GAIN_IN_BOTH, MANY, Tally
from model.test_mappings import WRONG
from model.tracker import MAPPED_SORTS, NO_ITEMS, State, Tracker

STEPS = 160
RECORDS = 150
LONG_STEPS = 620  # of a list in which a count of mappings climbs to its limit
LONG_RECORDS = 480
LONG_EVERY = 17  # logs, one of which is long; of the lists of steps every third such
ENOUGH_CASES = 50  # with fewer, nothing is said about a whole batch
MIX_NAMES = list(MIXES)


def mix_of(seed: int) -> str:
    """The mix of a seed: half of the cases are deep."""
    return ["deep", "mixed", "deep", "hostile"][seed % 4]


@functools.lru_cache(maxsize=None)
def steps_of(seed: int) -> List[Step]:
    """The step list of a seed; several tests use the same."""
    return generate_steps(seed, STEPS if seed % (3 * LONG_EVERY) else LONG_STEPS, mix_of(seed))


def records_of(seed: int, mix: str = "") -> List[bytes]:
    """The records of a seed's log."""
    count = RECORDS if seed % LONG_EVERY else LONG_RECORDS
    return generate_records(seed, count, mix or mix_of(seed))


def chosen_items(seed: int, steps: List[Step]) -> List[int]:
    """Some of the labelled items, or one of them that a rule is about."""
    choices = Choices(seed)
    calls = [call for call in map(call_of, steps) if call is not None]
    labelled = sorted({call.b for call in calls if call.kind == Kind.LABEL})
    frames = [read_frame(step.data) for step in steps if isinstance(step, RecordStep)]
    ruled = {f.value[0] for f in frames if f and f.value and f.tag in (FORBID_TAG, CONFINE_TAG)}
    both = [item for item in labelled if item in ruled]
    if both and choices.chance(0.5):
        return [choices.pick(both)]
    return choices.some(labelled, choices.pick([0.1, 0.3, 0.6]))


def twin_report(seed: int, steps: List[Step], functions: type) -> TwinReport:
    """The two runs of a step list."""
    return TwinRun(functions(seed), chosen_items(seed, steps), seed).run(steps)


def test_twin_mixed(checks: Checks, options: Options) -> None:
    """Functions of all arguments: contents differ just where a chosen item is held."""
    beside = forbidden = 0
    for seed in range(options.seed, options.seed + options.cases):
        report = twin_report(seed, steps_of(seed), MixedFunctions)
        checks.seeded("test_twin_mixed", seed, report.faults)
        checks.equal(f"held items differ, seed {seed}", report.held_but_equal, 0)
        beside += report.equal_beside_different
        forbidden += report.forbidden
    if options.cases >= ENOUGH_CASES:
        checks.true("twin: equal beside different", beside > 1000 * options.cases, str(beside))
        checks.true("twin: forbidden containers", forbidden > 100 * options.cases, str(forbidden))


def test_twin_varied(checks: Checks, options: Options) -> None:
    """Functions that now mix, now copy, keep or clear."""
    for seed in range(options.seed, options.seed + options.cases):
        report = twin_report(seed, steps_of(seed), VariedFunctions)
        checks.seeded("test_twin_varied", seed, report.faults)


def test_exactness(checks: Checks, options: Options) -> None:
    """Contents as item sets are the recorded items."""
    for seed in range(options.seed, options.seed + options.cases):
        steps = steps_of(seed)
        for memory_joins in (False, True):
            checks.seeded("test_exactness", seed, exactness_faults(steps, memory_joins))


# Wrong trackers, each of which the two runs or the exactness must find.


def limited_reach(depth: int):
    """A reach that follows at most so many links."""

    def reach(state: State, container: int) -> set:
        return {c for c, links in state.distances(container).items() if links <= depth}

    return mock.patch.object(State, "reach", reach)


def wrong_effect(kind: int, effect):
    """A tracker with another effect of one kind."""
    return mock.patch.dict(tracker.EFFECTS, {kind: effect})


def truncate_always(state: State, call: Call) -> None:
    state.items[state.descriptors[call.process, call.a]] = NO_ITEMS


def fork_without_items(state: State, call: Call) -> None:
    right_fork(state, call)
    state.items[process_container(call.a)] = NO_ITEMS


def map_both_only_reads(state: State, call: Call) -> None:
    written = state.items[state.descriptors[call.process, call.a]]
    right_map_both(state, call)
    state.items[state.descriptors[call.process, call.a]] = written


right_fork = tracker.EFFECTS[Kind.FORK]
right_map_both = tracker.EFFECTS[Kind.MAP_BOTH]
right_broken_places = tracker.broken_places


def broken_outside_processes(state: State, rule: Rule) -> List[int]:
    return [c for c in right_broken_places(state, rule) if c not in PROCESS_CONTAINERS]


def give_to_all(state: State, container: int, given: frozenset) -> None:
    for receiver in state.used() | {container}:
        state.items[receiver] |= given


UNSAFE = {
    **{name: WRONG[name] for name in ("unmap clears the pair", "fork without mappings")},
    "one link": lambda: limited_reach(1),
    "three links": lambda: limited_reach(3),
    "truncate always empties": lambda: wrong_effect(Kind.TRUNCATE, truncate_always),
    "fork without items": lambda: wrong_effect(Kind.FORK, fork_without_items),
    "map both only reads": lambda: wrong_effect(Kind.MAP_BOTH, map_both_only_reads),
    "rules spare processes": lambda: mock.patch.object(
        tracker, "broken_places", broken_outside_processes
    ),
}
INEXACT = {
    "exit leaves mappings": WRONG["exit leaves mappings"],
    "one count for both sorts": WRONG["one count for both sorts"],
    "a two-way mapping raises the read count": WRONG["a two-way mapping raises the read count"],
    "everything is stained": lambda: mock.patch.object(State, "give", give_to_all),
    "ended uses keep items": lambda: mock.patch.object(State, "empty_unused", lambda state: None),
}


def test_wrong_trackers_found(checks: Checks, options: Options) -> None:
    """The checks of demand 3 and exactness find trackers made wrong on purpose."""
    seeds = range(options.seed, options.seed + ENOUGH_CASES)
    lists = [(seed, steps_of(seed)) for seed in seeds]
    for name, wrong in UNSAFE.items():
        with wrong():
            found = any(twin_report(seed, steps, MixedFunctions).faults for seed, steps in lists)
        checks.true(f"two runs find: {name}, seeds from {seeds[0]}", found)
    for name, wrong in INEXACT.items():
        with wrong():
            found = any(exactness_faults(steps, False) for _, steps in lists)
        checks.true(f"exactness finds: {name}, seeds from {seeds[0]}", found)


def closure(state: State) -> Dict[int, set]:
    """Every reach, by joining pairs until nothing is added."""
    pairs = set(state.links)
    while True:
        joined = {(u, w) for u, v in pairs for x, w in pairs if v == x} | pairs
        if joined == pairs:
            break
        pairs = joined
    return {c: {c} | {v for u, v in pairs if u == c} for c in CONTAINERS}


def state_faults(state: State) -> List[str]:
    """What document 01 says of every state, where it fails."""
    faults = []
    used = state.used()
    own = {process_container(process) for process in state.live}
    if any(state.items[u] - state.items[v] for u, v in state.links):
        faults.append("a linked container lacks an item of its feeder")
    if any(state.items[c] for c in CONTAINERS if c not in used):
        faults.append("a container not in use holds an item")
    if tracker.broken_rules(state):
        faults.append("a loaded rule is broken")
    for pair in state.links:
        processes = set(pair) & set(PROCESS_CONTAINERS)
        if len(processes) != 1 or not processes <= own:
            faults.append("a link has not one live process")
    if any(count not in range(1, COUNT_LIMIT + 1) for count in state.mappings.values()):
        faults.append("a count is not from 1 to 255")
    if any(key[0] not in state.live or key[2] not in MAP_SORTS for key in state.mappings):
        faults.append("a count of a dead process or of no sort")
    if any(process not in state.live for process, _ in state.descriptors):
        faults.append("a dead process has a descriptor")
    if any(container in PROCESS_CONTAINERS for container in state.descriptors.values()):
        faults.append("a descriptor leads to a process")
    if any(container not in FILES for container in state.names.values()):
        faults.append("a name leads to no file")
    return faults


def log_faults(records: List[bytes]) -> List[Tuple[int, str]]:
    """Faults of the states and the unchanged states of a log."""
    faults: List[Tuple[int, str]] = []
    model = Tracker()
    for place, data in enumerate(records):
        before = model.state
        kept = before.copy()
        answer, _ = model.answer_record(data)
        if before != kept:
            faults.append((place, "the state before was changed in place"))
        if answer.word in ("refused", "inhibit") and model.state != kept:
            faults.append((place, f"{answer} changed the state"))
        faults += [(place, fault) for fault in state_faults(model.state)]
    reaches = closure(model.state)
    if any(model.state.reach(c) != reaches[c] for c in CONTAINERS):
        faults.append((len(records), "reach is not the closure of the links"))
    return faults


def test_invariants(checks: Checks, options: Options) -> None:
    """States keep what document 01 says of them; refusals change nothing."""
    for seed in range(options.seed, options.seed + options.cases):
        records = records_of(seed)
        checks.seeded("test_invariants", seed, log_faults(records))
        answers = Tracker().run_log(b"".join(records))
        checks.equal(f"an answer a record, seed {seed}", len(answers), len(records))
        checks.true(f"the same log again, seed {seed}", records_of(seed) == records)


def batch(options: Options, mix: str) -> Tally:
    """The tally of a batch of logs of one mix."""
    tally = Tally()
    for seed in range(options.seed, options.seed + options.cases):
        tally.add_log(records_of(seed, mix))
    return tally


# The refusals that can apply at once, by place; no others do.
PAIRS = [
    (Refusal.UNKNOWN_KIND, Refusal.OUT_OF_RANGE),
    (Refusal.UNKNOWN_KIND, Refusal.SAME_TWICE),
    (Refusal.UNKNOWN_KIND, Refusal.RULES_FULL),
    (Refusal.UNKNOWN_KIND, Refusal.BROKEN_ALREADY),
    (Refusal.OUT_OF_RANGE, Refusal.DEAD_PROCESS),
    (Refusal.OUT_OF_RANGE, Refusal.TAKEN),
    (Refusal.OUT_OF_RANGE, Refusal.MISSING),
    (Refusal.OUT_OF_RANGE, Refusal.DESCRIPTOR_CLOSED),
    (Refusal.OUT_OF_RANGE, Refusal.NAME_UNBOUND),
    (Refusal.OUT_OF_RANGE, Refusal.NO_LINK),
    (Refusal.OUT_OF_RANGE, Refusal.SAME_TWICE),
    (Refusal.OUT_OF_RANGE, Refusal.NO_FILE),
    (Refusal.OUT_OF_RANGE, Refusal.COUNT_FULL),
    (Refusal.OUT_OF_RANGE, Refusal.RULES_FULL),
    (Refusal.OUT_OF_RANGE, Refusal.BROKEN_ALREADY),
    (Refusal.DEAD_PROCESS, Refusal.TAKEN),
    (Refusal.DEAD_PROCESS, Refusal.DESCRIPTOR_CLOSED),
    (Refusal.DEAD_PROCESS, Refusal.NAME_UNBOUND),
    (Refusal.DEAD_PROCESS, Refusal.NO_LINK),
    (Refusal.DEAD_PROCESS, Refusal.SAME_TWICE),
    (Refusal.TAKEN, Refusal.DESCRIPTOR_CLOSED),
    (Refusal.TAKEN, Refusal.NAME_UNBOUND),
    (Refusal.TAKEN, Refusal.SAME_TWICE),
    (Refusal.SAME_TWICE, Refusal.RULES_FULL),
    (Refusal.SAME_TWICE, Refusal.BROKEN_ALREADY),
    (Refusal.RULES_FULL, Refusal.BROKEN_ALREADY),
]
EMPTYING = (Kind.CLOSE, Kind.TRUNCATE, Kind.UNMAP, Kind.UNLINK, Kind.RENAME, Kind.EXIT)
EVENTS = [
    "inhibit: action inhibits",
    "inhibit: not a write",
    "inhibit: substitute not in use",
    "inhibit: diverted write breaks a rule",
    "inhibit: a higher broken rule diverts",
    "inhibit: several rules broken",
    "truncate kept items",
    "fork of a mapped process",
    "start again after a mapped exit",
    "mapped twice before kind 17",
    "mapped twice before kind 18",
    *(f"emptied by kind {kind}" for kind in EMPTYING),
]

# Of mappings; these occur in some of the mixes.
PLACES = [
    f"sort {sort}, {same} the same sort, {other}"
    for sort in MAP_SORTS
    for same in ("with", "without")
    for other in ("alone", "beside the other")
]
MAPPING_EVENTS = [
    *(f"{done}, {place}" for done in ("mapped", "unmapped") for place in PLACES),
    "unmap: no mapping at all",
    "unmap: the other sort",
    "unmap: unknown sort",
    *(f"count full, kind {kind}" for kind in MAPPED_SORTS),
    "count full before kind 17",
    "count full before kind 18",
    "unmapped, the count full",
]

# Of how far calls spread: document 02, Paper 5.
GAIN_EVENTS = [
    *(f"{word}, {many}" for word in ("allow", "modify") for many in MANY),
    *(f"fork, {many}" for many in MANY[:2]),
    "one container gains several items",
    "containers gain different items",
    "modify, the stopped write would have reached more or fewer",
    "map both, both ends gain",
    "map both, a container in both reaches",
]

# What lies in both reaches holds already what both ends hold, since a linked container holds what
# its feeder holds. And a fork gives to the child alone.
NO_EVENTS = [GAIN_IN_BOTH, f"fork, {MANY[2]}"]


def check_tallies(checks: Checks, tallies: Dict[str, Tally]) -> None:
    """Check that a batch has everything in it."""
    for word in ("allow", "inhibit", "modify", "rule", "refused"):
        count = sum(tally.words[word] for tally in tallies.values())
        checks.true(f"generated: {word}", count > 0)
    for number in RECORD_REFUSALS:
        for mix, tally in tallies.items():
            checks.true(f"generated, {mix}: refused {number}", tally.refusals[number] > 0)
    for pair in PAIRS:
        count = sum(tally.refused_together[pair] for tally in tallies.values())
        checks.true(f"generated: refusals {pair} at once", count > 0)
    others = {pair for tally in tallies.values() for pair in tally.refused_together} - {*PAIRS}
    checks.equal("generated: other refusals at once", others, set())
    for kind in KINDS:
        checks.true(f"generated: kind {kind} done", tallies["deep"].done_kinds[kind] > 0)
    for tag in (FORBID_TAG, SEPARATE_TAG, CONFINE_TAG):
        for action in (0, 1):
            count = tallies["deep"].rules[tag, action]
            checks.true(f"generated: rule of tag {tag:x}, action {action}", count > 0)
    for event in EVENTS:
        checks.true(f"generated: {event}", tallies["deep"].events[event] > 0)
    for event in (*MAPPING_EVENTS, *GAIN_EVENTS):
        count = sum(tally.events[event] for tally in tallies.values())
        checks.true(f"generated: {event}", count > 2, f"{count} times")
    for event in NO_EVENTS:
        count = sum(tally.events[event] for tally in tallies.values())
        checks.equal(f"generated: {event}", count, 0)
    deep = tallies["deep"]
    checks.true("generated: a reach of 4 links", deep.longest_reach >= 4)
    checks.true("generated: a gift over 4 links", deep.longest_gift >= 4)
    share = f"{deep.accepted_share():.3f} accepted, {deep.done_share():.3f} done"
    checks.true("generated: 80 % accepted in deep", deep.accepted_share() >= 0.8, share)
    checks.true("generated: 70 % done in deep", deep.done_share() >= 0.7, share)


def test_statistics(checks: Checks, options: Options) -> None:
    """A batch of generated logs has every answer, refusal and event in it."""
    if options.cases < ENOUGH_CASES:
        return
    tallies = {mix: batch(options, mix) for mix in MIX_NAMES}
    for mix, tally in tallies.items():
        words = ", ".join(f"{word} {count}" for word, count in sorted(tally.words.items()))
        print(
            f"{mix}: {tally.records} records: {words}; accepted {tally.accepted_share():.0%};"
            f" longest reach {tally.longest_reach} links, longest gift {tally.longest_gift}"
        )
    check_tallies(checks, tallies)
