"""Document 02, Paper 3: map both in sequence, beside document 01's form."""

from typing import List, Tuple
from unittest import mock

from model import tracker
from model.checks import Checks, Options
from model.contents import RecordStep, call_of
from model.limits import Kind, MapSort
from model.records import Call, encode, forbid
from model.test_random import ENOUGH_CASES, records_of, state_faults
from model.tracker import Answer, State, Tracker


def map_both_at_once(state: State, call: Call) -> None:
    """As read and as write, both from the state before; then the mapping."""
    container = state.descriptors[call.process, call.a]
    from_container, from_process = state.items[container], state.items[call.caller]
    state.give(call.caller, from_container)
    state.give(container, from_process)
    key = (call.process, container, MapSort.MAPPED_BOTH)
    state.mappings[key] = state.mappings.get(key, 0) + 1


def by_sequence(state: State, records: List[bytes]) -> List[Tuple[Answer, State]]:
    """What each record gets, and the state after it."""
    model = Tracker()
    model.state = state
    return [(model.answer_record(data)[0], model.state) for data in records]


def at_once(state: State, records: List[bytes]) -> List[Tuple[Answer, State]]:
    """The same by document 01's form."""
    with mock.patch.dict(tracker.EFFECTS, {Kind.MAP_BOTH: map_both_at_once}):
        return by_sequence(state, records)


def has_more(before: State, data: bytes) -> bool:
    """Whether the second gift has items for others that document 01's form does not give them."""
    call = call_of(RecordStep(data))
    if call is None or call.kind != Kind.MAP_BOTH or call.process not in before.live:
        return False
    container = before.descriptors.get((call.process, call.a))
    if container is None or call.b or call.c:
        return False
    more = before.items[container] - before.items[call.caller]
    return bool(more) and len(before.reach(container)) > 1


def test_forms_agree(checks: Checks, options: Options) -> None:
    """Each record of a log gets the same by both forms, and leaves the same state."""
    compared = 0
    for seed in range(options.seed, options.seed + options.cases):
        records = records_of(seed)
        now, former = by_sequence(State(), records), at_once(State(), records)
        faults = [(n, f"{x[0]}, {y[0]}") for n, (x, y) in enumerate(zip(now, former)) if x != y]
        checks.seeded("test_forms_agree", seed, faults)
        states = [State()] + [state for _, state in now]
        compared += sum(map(has_more, states, records))
    if options.cases >= ENOUGH_CASES:
        enough = compared > options.cases // 10
        checks.true("forms: second gifts that have more", enough, str(compared))


def test_forms_differ(checks: Checks, options: Options) -> None:
    """They differ in a state that no record makes: 9 and 25 lack what is linked to them."""
    mappings = {(1, 24, MapSort.MAPPED_READ): 1, (0, 25, MapSort.MAPPED_BOTH): 1}
    torn = State(live={0, 1}, mappings=mappings, names={0: 24, 1: 25})
    torn.descriptors.update({(0, 0): 24, (0, 1): 25, (1, 0): 24})
    torn.items.update({24: frozenset({1}), 8: frozenset({2})})
    ruled = torn.copy()
    ruled.rules.append(forbid(1, [9]))
    faults = ["a linked container lacks an item of its feeder"]
    checks.equal("torn: its fault", state_faults(torn), faults)
    for form, second, answer in ((by_sequence, {1, 2}, "inhibit 0"), (at_once, {2}, "allow 4")):
        call = [encode(Call(Kind.MAP_BOTH, 0, 0))]
        items = form(torn, call)[0][1].items
        held = [items[container] for container in (8, 25, 24, 9)]
        checks.equal(f"torn: {form.__name__}", held, [{1, 2}, {1}, {1, 2}, second])
        checks.equal(f"torn: {form.__name__}, a rule", str(form(ruled, call)[0][0]), answer)
