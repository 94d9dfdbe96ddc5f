"""The tracker of document 01 as plain sets, dictionaries and graph search.

Papers 1 to 5 of document 02 are in it.

A State is never changed once it is in a Tracker: each accepted record puts a
new State in its place, so a caller may keep an earlier one.
"""

from dataclasses import dataclass, field
from typing import Callable, Collection, Dict, FrozenSet, Iterable, Iterator, List, NamedTuple
from typing import Optional, Set, Tuple, Union

from model.limits import ACTIONS, CONTAINERS, COUNT_LIMIT, DESCRIPTORS, DEVICES, DIVERT_ACTION
from model.limits import FILES, FORBID_TAG, ITEMS, KINDS, MAP_SORTS, NAMES, PROCESSES, RULE_LIMIT
from model.limits import SEPARATE_TAG, VALUE_LENGTHS, Kind, MapSort, Refusal, by_place
from model.limits import process_container
from model.records import CALL_FIELDS, RULE_ITEMS, Call, Frame, Rule, decode, read_frame

NO_ITEMS: FrozenSet[int] = frozenset()
MapKey = Tuple[int, int, int]  # of a count of mappings: process, container, sort


class Answer(NamedTuple):
    """What a record gets: a word and its numbers."""

    word: str
    numbers: Tuple[int, ...] = ()

    def __str__(self) -> str:
        return " ".join([self.word, *map(str, self.numbers)])


def refused(refusal: Refusal) -> Answer:
    """The answer of a refusal."""
    return Answer("refused", (refusal,))


@dataclass
class State:
    """Storage, mappings, naming, live processes and rules."""

    live: Set[int] = field(default_factory=set)
    items: Dict[int, FrozenSet[int]] = field(
        default_factory=lambda: dict.fromkeys(CONTAINERS, NO_ITEMS)
    )
    mappings: Dict[MapKey, int] = field(default_factory=dict)  # counts above 0 alone
    names: Dict[int, int] = field(default_factory=dict)
    descriptors: Dict[Tuple[int, int], int] = field(default_factory=dict)
    rules: List[Rule] = field(default_factory=list)

    def copy(self) -> "State":
        """A state that can be changed without changing this one."""
        return State(
            set(self.live),
            dict(self.items),
            dict(self.mappings),
            dict(self.names),
            dict(self.descriptors),
            list(self.rules),
        )

    @property
    def links(self) -> Set[Tuple[int, int]]:
        """The links: to a process while it has any mapping, back while it has one both ways."""
        found = set()
        for process, container, sort in self.mappings:
            own = process_container(process)
            found.add((container, own))
            if sort == MapSort.MAPPED_BOTH:
                found.add((own, container))
        return found

    def count(self, process: int, container: int, sort: int) -> int:
        """How many mappings of a sort a process has of a container."""
        return self.mappings.get((process, container, sort), 0)

    def used(self) -> Set[int]:
        """The containers in use."""
        found = set(DEVICES)
        found.update(process_container(process) for process in self.live)
        found.update(self.names.values())
        found.update(self.descriptors.values())
        found.update(container for _, container, _ in self.mappings)
        return found

    def distances(self, container: int) -> Dict[int, int]:
        """Each container in the reach, with the fewest links that lead to it."""
        targets: Dict[int, List[int]] = {}
        for source, target in self.links:
            targets.setdefault(source, []).append(target)
        found = {container: 0}
        queue = [container]
        for source in queue:
            for target in targets.get(source, []):
                if target not in found:
                    found[target] = found[source] + 1
                    queue.append(target)
        return found

    def reach(self, container: int) -> Set[int]:
        """The container and everything that links lead to from it."""
        return set(self.distances(container))

    def is_fed(self, container: int) -> bool:
        """Whether a link leads into the container."""
        return any(target == container for _, target in self.links)

    def held(self) -> FrozenSet[int]:
        """The items that some container holds."""
        return NO_ITEMS.union(*self.items.values())

    def holders(self, item: int) -> List[int]:
        """The containers that hold an item, in rising order."""
        return sorted([c for c, held in self.items.items() if item in held])

    def give(self, container: int, given: FrozenSet[int]) -> None:
        """Add the items to everything in the container's reach."""
        for receiver in self.reach(container):
            self.items[receiver] |= given

    def empty_unused(self) -> None:
        """Empty the files and pipes that are not in use."""
        for container in set(FILES) - self.used():
            self.items[container] = NO_ITEMS


# Effects of the calls: document 01, The records; document 02, Paper 4, for mappings. Each changes
# the state given.

# The sort of mapping that a kind makes.
MAPPED_SORTS: Dict[int, MapSort] = {
    Kind.MAP_READ: MapSort.MAPPED_READ,
    Kind.MAP_BOTH: MapSort.MAPPED_BOTH,
}


def _start(state: State, call: Call) -> None:
    state.live.add(call.process)
    state.items[call.caller] = NO_ITEMS


def _open(state: State, call: Call) -> None:
    state.descriptors[call.process, call.b] = state.names[call.a]


def _create(state: State, call: Call) -> None:
    state.names[call.a] = call.c
    state.descriptors[call.process, call.b] = call.c
    state.items[call.c] = NO_ITEMS


def _pipe(state: State, call: Call) -> None:
    state.descriptors[call.process, call.a] = call.c
    state.descriptors[call.process, call.b] = call.c
    state.items[call.c] = NO_ITEMS


def _device(state: State, call: Call) -> None:
    state.descriptors[call.process, call.a] = call.b


def _dup(state: State, call: Call) -> None:
    state.descriptors[call.process, call.b] = state.descriptors[call.process, call.a]


def _close(state: State, call: Call) -> None:
    del state.descriptors[call.process, call.a]


def _read(state: State, call: Call) -> None:
    container = state.descriptors[call.process, call.a]
    state.give(call.caller, state.items[container])


def _write(state: State, call: Call) -> None:
    container = state.descriptors[call.process, call.a]
    state.give(container, state.items[call.caller])


def _truncate(state: State, call: Call) -> None:
    container = state.descriptors[call.process, call.a]
    if not state.is_fed(container):
        state.items[container] = NO_ITEMS


def _raise_count(state: State, call: Call) -> None:
    container = state.descriptors[call.process, call.a]
    sort = MAPPED_SORTS[call.kind]
    state.mappings[call.process, container, sort] = state.count(call.process, container, sort) + 1


def _map_read(state: State, call: Call) -> None:
    _read(state, call)
    _raise_count(state, call)


def _map_both(state: State, call: Call) -> None:
    # In the order of document 02, Paper 3: the write is of what the process then holds.
    _read(state, call)
    _write(state, call)
    _raise_count(state, call)


def _unmap(state: State, call: Call) -> None:
    key = (call.process, call.a, call.b)
    left = state.mappings.pop(key) - 1
    if left:
        state.mappings[key] = left


def _unlink(state: State, call: Call) -> None:
    del state.names[call.a]


def _rename(state: State, call: Call) -> None:
    if call.a != call.b:
        state.names[call.b] = state.names.pop(call.a)


def _link(state: State, call: Call) -> None:
    state.names[call.b] = state.names[call.a]


def _fork(state: State, call: Call) -> None:
    child = process_container(call.a)
    state.live.add(call.a)
    state.items[child] = state.items[call.caller]
    for (process, descriptor), container in list(state.descriptors.items()):
        if process == call.process:
            state.descriptors[call.a, descriptor] = container
    for (process, container, sort), count in list(state.mappings.items()):
        if process == call.process:
            state.mappings[call.a, container, sort] = count


def _exit(state: State, call: Call) -> None:
    state.live.remove(call.process)
    state.items[call.caller] = NO_ITEMS
    state.mappings = {
        key: count for key, count in state.mappings.items() if key[0] != call.process
    }
    state.descriptors = {
        key: container for key, container in state.descriptors.items() if key[0] != call.process
    }


def _label(state: State, call: Call) -> None:
    state.give(call.a, frozenset([call.b]))


EFFECTS: Dict[int, Callable[[State, Call], None]] = {
    Kind.START: _start,
    Kind.OPEN: _open,
    Kind.CREATE: _create,
    Kind.PIPE: _pipe,
    Kind.DEVICE: _device,
    Kind.DUP: _dup,
    Kind.CLOSE: _close,
    Kind.READ: _read,
    Kind.WRITE: _write,
    Kind.TRUNCATE: _truncate,
    Kind.MAP_READ: _map_read,
    Kind.MAP_BOTH: _map_both,
    Kind.UNMAP: _unmap,
    Kind.UNLINK: _unlink,
    Kind.RENAME: _rename,
    Kind.LINK: _link,
    Kind.FORK: _fork,
    Kind.EXIT: _exit,
    Kind.LABEL: _label,
}


def work_out(state: State, call: Call) -> State:
    """The state after a call that is not refused, before any rule is judged."""
    after = state.copy()
    EFFECTS[call.kind](after, call)
    after.empty_unused()
    return after


# What a call spread: document 02, Paper 5.


def gains(before: State, after: State) -> Dict[int, FrozenSet[int]]:
    """The containers that hold an item now which they lacked before, each with all such items."""
    new = {container: after.items[container] - before.items[container] for container in CONTAINERS}
    return {container: items for container, items in new.items() if items}


def allowed(before: State, after: State) -> Answer:
    """The answer to a call that leads from one state to another as it stands."""
    return Answer("allow", (len(gains(before, after)),))


def modified(number: int, rule: Rule, before: State, after: State) -> Answer:
    """The answer to a write that the rule of this number diverts; the gain is that made."""
    return Answer("modify", (number, rule.substitute, len(gains(before, after))))


# Refusals: document 01, What a record gets. All that apply are collected.

UNUSED = range(0, 1)
FIELD_RANGES: Dict[int, Tuple[range, range, range, range]] = {
    Kind.START: (PROCESSES, UNUSED, UNUSED, UNUSED),
    Kind.OPEN: (PROCESSES, NAMES, DESCRIPTORS, UNUSED),
    Kind.CREATE: (PROCESSES, NAMES, DESCRIPTORS, FILES),
    Kind.PIPE: (PROCESSES, DESCRIPTORS, DESCRIPTORS, FILES),
    Kind.DEVICE: (PROCESSES, DESCRIPTORS, DEVICES, UNUSED),
    Kind.DUP: (PROCESSES, DESCRIPTORS, DESCRIPTORS, UNUSED),
    Kind.CLOSE: (PROCESSES, DESCRIPTORS, UNUSED, UNUSED),
    Kind.READ: (PROCESSES, DESCRIPTORS, UNUSED, UNUSED),
    Kind.WRITE: (PROCESSES, DESCRIPTORS, UNUSED, UNUSED),
    Kind.TRUNCATE: (PROCESSES, DESCRIPTORS, UNUSED, UNUSED),
    Kind.MAP_READ: (PROCESSES, DESCRIPTORS, UNUSED, UNUSED),
    Kind.MAP_BOTH: (PROCESSES, DESCRIPTORS, UNUSED, UNUSED),
    Kind.UNMAP: (PROCESSES, CONTAINERS, MAP_SORTS, UNUSED),
    Kind.UNLINK: (PROCESSES, NAMES, UNUSED, UNUSED),
    Kind.RENAME: (PROCESSES, NAMES, NAMES, UNUSED),
    Kind.LINK: (PROCESSES, NAMES, NAMES, UNUSED),
    Kind.FORK: (PROCESSES, PROCESSES, UNUSED, UNUSED),
    Kind.EXIT: (PROCESSES, UNUSED, UNUSED, UNUSED),
    Kind.LABEL: (UNUSED, CONTAINERS, ITEMS, UNUSED),
}

# What a field of a call names.
PROCESS = "process"
DESCRIPTOR = "descriptor"
NAME = "name"
CONTAINER = "container"
MAPPING = "mapping"  # by the caller, of the container in field a and the sort in field b

# Row 7, taken: the fields that must name something free.
NEW_THINGS: Dict[int, Dict[str, str]] = {
    Kind.START: {"process": PROCESS},
    Kind.OPEN: {"b": DESCRIPTOR},
    Kind.CREATE: {"b": DESCRIPTOR, "a": NAME, "c": CONTAINER},
    Kind.PIPE: {"a": DESCRIPTOR, "b": DESCRIPTOR, "c": CONTAINER},
    Kind.DEVICE: {"a": DESCRIPTOR},
    Kind.DUP: {"b": DESCRIPTOR},
    Kind.LINK: {"b": NAME},
    Kind.FORK: {"a": PROCESS},
}

# The place of 8: the kinds whose field a must name something that is there, and what it names.
NEEDED_THINGS: Dict[int, str] = {
    Kind.OPEN: NAME,
    Kind.DUP: DESCRIPTOR,
    Kind.CLOSE: DESCRIPTOR,
    Kind.READ: DESCRIPTOR,
    Kind.WRITE: DESCRIPTOR,
    Kind.TRUNCATE: DESCRIPTOR,
    Kind.MAP_READ: DESCRIPTOR,
    Kind.MAP_BOTH: DESCRIPTOR,
    Kind.UNMAP: MAPPING,
    Kind.UNLINK: NAME,
    Kind.RENAME: NAME,
    Kind.LINK: NAME,
    Kind.LABEL: CONTAINER,
}

# The number tells what was not there: document 02, Paper 2.
LACKED: Dict[str, Refusal] = {
    DESCRIPTOR: Refusal.DESCRIPTOR_CLOSED,
    NAME: Refusal.NAME_UNBOUND,
    MAPPING: Refusal.NO_LINK,
    CONTAINER: Refusal.MISSING,
}

# Row 6, dead process: the kinds without a calling process.
NEEDS_NO_CALLER = (Kind.START, Kind.LABEL)


class Fact(NamedTuple):
    """A test that a record fails."""

    refusal: Refusal
    field: str = ""  # that is at fault; empty if no single one is
    thing: str = ""  # what it names, if that is dead, taken, missing, no file or mapped too often
    allowed: Collection[int] = ()  # the values that it may have, whatever the state is
    containers: Tuple[int, ...] = ()  # where the thing leads, or those that break the rule


def is_there(state: State, call: Call, thing: str, number: int) -> bool:
    """Whether a thing is live, open, bound, in use or mapped by the caller."""
    if thing == PROCESS:
        return number in state.live
    if thing == MAPPING:
        return state.count(call.process, number, call.b) > 0
    if thing == CONTAINER:
        return number in state.used()
    return bool(leads(state, call, thing, number))


def leads(state: State, call: Call, thing: str, number: int) -> Tuple[int, ...]:
    """The container that an open descriptor of the caller or a bound name leads to."""
    target = None
    if thing == DESCRIPTOR:
        target = state.descriptors.get((call.process, number))
    if thing == NAME:
        target = state.names.get(number)
    return () if target is None else (target,)


def call_facts(state: State, call: Call) -> Iterator[Fact]:
    """The tests that a call fails."""
    if call.kind not in KINDS:
        yield Fact(Refusal.UNKNOWN_KIND, "kind", allowed=KINDS)
        return
    for field, allowed in zip(CALL_FIELDS, FIELD_RANGES[call.kind]):
        if getattr(call, field) not in allowed:
            yield Fact(Refusal.OUT_OF_RANGE, field, allowed=allowed)
    yield from state_facts(state, call)
    if call.kind == Kind.PIPE and call.a == call.b:
        yield Fact(Refusal.SAME_TWICE, "b", DESCRIPTOR)
    target = leads(state, call, DESCRIPTOR, call.a)
    if call.kind == Kind.TRUNCATE and target and target[0] in DEVICES:
        yield Fact(Refusal.NO_FILE, "a", DESCRIPTOR, containers=target)
    if call.kind in MAPPED_SORTS and target:
        if state.count(call.process, target[0], MAPPED_SORTS[call.kind]) >= COUNT_LIMIT:
            yield Fact(Refusal.COUNT_FULL, "a", DESCRIPTOR, containers=target)


def state_facts(state: State, call: Call) -> Iterator[Fact]:
    """The tests of rows 6 and 7 and of 8's place that a call fails."""
    if call.kind not in NEEDS_NO_CALLER and call.process not in state.live:
        yield Fact(Refusal.DEAD_PROCESS, "process", PROCESS)
    for field, thing in NEW_THINGS.get(call.kind, {}).items():
        number = getattr(call, field)
        if is_there(state, call, thing, number):
            target = leads(state, call, thing, number)
            yield Fact(Refusal.TAKEN, field, thing, containers=target)
    needed = NEEDED_THINGS.get(call.kind)
    if needed and not is_there(state, call, needed, call.a):
        yield Fact(LACKED[needed], "a", needed)


def substitutes(action: int) -> Set[int]:
    """The substitutes that an action may have."""
    return {*DEVICES, *FILES} if action == DIVERT_ACTION else {0}


def rule_facts(state: State, rule: Rule) -> Iterator[Fact]:
    """The tests that a rule fails."""
    if rule.action not in ACTIONS:
        yield Fact(Refusal.UNKNOWN_KIND, "action", allowed=ACTIONS)
    for field, item in zip(RULE_ITEMS, rule.items):
        if item not in ITEMS:
            yield Fact(Refusal.OUT_OF_RANGE, field, allowed=ITEMS)
    allowed = substitutes(rule.action)
    if rule.substitute not in allowed:
        yield Fact(Refusal.OUT_OF_RANGE, "substitute", allowed=allowed)
    if rule.tag == SEPARATE_TAG and rule.items[0] == rule.items[1]:
        yield Fact(Refusal.SAME_TWICE, "second")
    if len(state.rules) >= RULE_LIMIT:
        yield Fact(Refusal.RULES_FULL)
    places = broken_places(state, rule)
    if places:
        yield Fact(Refusal.BROKEN_ALREADY, containers=tuple(places))


def record_facts(state: State, record: Union[Call, Rule]) -> Iterator[Fact]:
    """The tests that a record of a known tag and the right length fails."""
    return call_facts(state, record) if isinstance(record, Call) else rule_facts(state, record)


def frame_facts(state: State, frame: Optional[Frame]) -> Iterator[Fact]:
    """The tests that a measured record fails."""
    if frame is None:
        yield Fact(Refusal.CUT_SHORT)
    elif frame.tag not in VALUE_LENGTHS:
        yield Fact(Refusal.UNKNOWN_TAG)
    elif len(frame.value) != VALUE_LENGTHS[frame.tag]:
        yield Fact(Refusal.WRONG_LENGTH)
    else:
        yield from record_facts(state, decode(frame))


def refusals(facts: Iterable[Fact]) -> Set[Refusal]:
    """The refusals that apply."""
    return {fact.refusal for fact in facts}


def frame_refusals(state: State, frame: Optional[Frame]) -> Set[Refusal]:
    """The refusals that apply to a measured record."""
    return refusals(frame_facts(state, frame))


def first_refusal(numbers: Set[Refusal]) -> Refusal:
    """The one number that is answered when several apply: that of the earliest place."""
    return by_place(numbers)[0]


# Rules and verdicts: document 01, What a record gets.


def broken_places(state: State, rule: Rule) -> List[int]:
    """The containers that break the rule, in rising order."""
    if rule.tag == SEPARATE_TAG:
        return [c for c in CONTAINERS if state.items[c].issuperset(rule.items)]
    item = rule.items[0]
    return [c for c in state.holders(item) if forbids(rule, c, item)]


def is_broken(state: State, rule: Rule) -> bool:
    """Whether the state breaks the rule."""
    return bool(broken_places(state, rule))


def forbids(rule: Rule, container: int, item: int) -> bool:
    """Whether the rule forbids the container the item, that item alone."""
    if rule.tag == SEPARATE_TAG or rule.items[0] != item:
        return False
    return (container in rule.containers) == (rule.tag == FORBID_TAG)


def broken_rules(state: State) -> List[int]:
    """The numbers of the rules that the state breaks, in rising order."""
    held = state.held()
    return [
        number
        for number, rule in enumerate(state.rules)
        if held.issuperset(rule.items) and is_broken(state, rule)
    ]


def divert(state: State, call: Call, rule: Rule) -> State:
    """The state after writing to the rule's substitute instead."""
    after = state.copy()
    after.give(rule.substitute, state.items[call.caller])
    return after


def divert_obstacle(state: State, call: Call, rule: Rule) -> Optional[str]:
    """Why a call that breaks this rule cannot be diverted; None if it can."""
    if rule.action != DIVERT_ACTION:
        return "action inhibits"
    if call.kind != Kind.WRITE:
        return "not a write"
    if rule.substitute not in state.used():
        return "substitute not in use"
    if broken_rules(divert(state, call, rule)):
        return "diverted write breaks a rule"
    return None


def judge(state: State, call: Call) -> Tuple[Answer, State]:
    """The verdict on a call that is not refused, and the state after it."""
    after = work_out(state, call)
    broken = broken_rules(after)
    if not broken:
        return allowed(state, after), after
    rule = state.rules[broken[0]]
    if divert_obstacle(state, call, rule) is None:
        diverted = divert(state, call, rule)
        return modified(broken[0], rule, state, diverted), diverted
    return Answer("inhibit", (broken[0],)), state


def load_rule(state: State, rule: Rule) -> Tuple[Answer, State]:
    """The answer to a rule that is not refused, and the state after it."""
    after = state.copy()
    after.rules.append(rule)
    return Answer("rule", (len(state.rules),)), after


class Tracker:
    """One tracker, changed by records and asked by queries."""

    def __init__(self) -> None:
        self.state = State()

    def answer_record(self, log: bytes, position: int = 0) -> Tuple[Answer, Optional[int]]:
        """Answer the record at a position of a log.

        Also gives the position of the next record, or None when reading ends.
        """
        frame = read_frame(log, position)
        applying = frame_refusals(self.state, frame)
        if frame is None or applying:
            return refused(first_refusal(applying)), frame.end if frame else None
        record = decode(frame)
        answer_to = judge if isinstance(record, Call) else load_rule
        answer, self.state = answer_to(self.state, record)
        return answer, frame.end

    def run_log(self, log: bytes) -> List[Answer]:
        """Answer the records of a log, one after the other."""
        answers = []
        position: Optional[int] = 0
        while position is not None and position < len(log):
            answer, position = self.answer_record(log, position)
            answers.append(answer)
        return answers

    def query_items(self, container: int) -> Union[int, Answer]:
        """The items of a container as a 64-bit set, or a refusal."""
        if container not in CONTAINERS:
            return refused(Refusal.OUT_OF_RANGE)
        return sum(1 << item for item in self.state.items[container])

    def query_holders(self, item: int, lent: List[int]) -> Union[int, Answer]:
        """Put an item's holders, rising (02, Paper 1), at the front of a list; answer how many."""
        if item not in ITEMS:
            return refused(Refusal.OUT_OF_RANGE)
        holders = self.state.holders(item)
        if len(lent) < len(holders):
            return refused(Refusal.SLICE_SHORT)
        lent[: len(holders)] = holders
        return len(holders)
