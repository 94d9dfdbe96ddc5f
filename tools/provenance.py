"""A log run in the model record by record, with the way of every item that a container holds.

An Origin says how a container got an item. It is made when the container gains
the item and has the giver's own Origin of that moment, so the way of an item is
a chain that ends at a label and that later records cannot change.

Mappings of one sort are alike, and a log does not tell which of them an unmap ends.
The latest is taken to end first, as callbacks that are nested end.
"""

from typing import Any, Dict, Iterator, List, NamedTuple, Optional, Set, Tuple

from model.contents import gifts
from model.limits import VALUE_LENGTHS, Kind, process_container
from model.records import Call, decode, read_frame
from model.tracker import CONTAINER, DESCRIPTOR, MAPPING, NAME, Answer, MapKey, State, Tracker
from model.tracker import allowed, work_out

Link = Tuple[int, int]
Thing = Tuple[Any, ...]  # that a call can find missing: the model's word for it and its numbers
MADE = {Kind.CREATE: "file", Kind.PIPE: "pipe"}  # what the new container of a call is
DONE = ("allow", "modify")  # answers to a call that changes the state
BREAKING = ("inhibit", "modify")  # answers that name a rule which would be broken


class Origin(NamedTuple):
    """How a container got an item."""

    record: int
    kind: int  # of the call
    rule: Optional[int]  # that diverted the write
    giver: Optional[int]  # the container that gave the item; None: a label
    path: Tuple[int, ...]  # the container given to, then along links to the holder
    began: Tuple[int, ...]  # the record in which each link of the path began
    before: Optional["Origin"]  # how the giver got it


Origins = Dict[Tuple[int, int], Origin]  # by container and item
Made = Dict[MapKey, Tuple[int, ...]]  # the record that made each mapping, the latest last


class Moment(NamedTuple):
    """A state with its past."""

    state: State
    origins: Origins
    began: Dict[Link, int]  # the record in which each link began
    made: Made
    sorts: Dict[int, str]  # which containers were last made as files and which as pipes
    loaded: Tuple[int, ...]  # the record of each rule
    ended: Dict[Thing, int]  # the last record in which each thing ended


class Step(NamedTuple):
    """A record, what it got, and the moments before and after it."""

    number: int  # from 1
    data: bytes
    record: Any  # a Call or a Rule; None if it has no known tag and length
    answer: Answer
    before: Moment
    after: Moment
    judged: Optional[Moment]  # what a call that breaks a rule would have led to


def fresh() -> Moment:
    """The moment before the first record."""
    return Moment(State(), {}, {}, {}, {}, (), {})


def record_of(data: bytes) -> Any:
    """The call or the rule of a record; None if it has no known tag and length."""
    frame = read_frame(data)
    if frame is None or len(frame.value) != VALUE_LENGTHS.get(frame.tag):
        return None
    return decode(frame)


def gifts_of(call: Call, answer: Answer, before: State) -> List[Tuple[Optional[int], int]]:
    """Each giver with the container given to; a fork gives to the child alone."""
    if call.kind == Kind.FORK:
        return [(call.caller, process_container(call.a))]
    return gifts(call, answer, before)


def routes(state: State, container: int) -> Dict[int, Tuple[int, ...]]:
    """A shortest path along links to everything in a container's reach."""
    targets: Dict[int, List[int]] = {}
    for source, target in sorted(state.links):
        targets.setdefault(source, []).append(target)
    found: Dict[int, Tuple[int, ...]] = {container: (container,)}
    queue = [container]
    for source in queue:
        for target in targets.get(source, []):
            if target not in found:
                found[target] = (*found[source], target)
                queue.append(target)
    return found


def grown(moment: Moment, after: State, number: int, call: Call, answer: Answer) -> Origins:
    """The origins after a call: what is no longer held left out, what was gained put in."""
    before = moment.state
    if after.items == before.items:
        return moment.origins
    origins = {key: way for key, way in moment.origins.items() if key[1] in after.items[key[0]]}
    rule = answer.numbers[0] if answer.word == "modify" else None
    for giver, target in gifts_of(call, answer, before):
        given = {call.b} if giver is None else before.items[giver]
        if not given:
            continue
        for receiver, path in routes(before, target).items():
            began = tuple(moment.began[link] for link in zip(path, path[1:]))
            for item in given & (after.items[receiver] - before.items[receiver]):
                past = None if giver is None else moment.origins[giver, item]
                way = Origin(number, call.kind, rule, giver, path, began, past)
                origins.setdefault((receiver, item), way)
    return origins


def gone(before: State, after: State) -> Set[Thing]:
    """What is closed, unbound, unmapped or out of use after a call and was not before it."""
    return {
        *((DESCRIPTOR, *key) for key in before.descriptors.keys() - after.descriptors.keys()),
        *((NAME, name) for name in before.names.keys() - after.names.keys()),
        *((MAPPING, *key) for key in before.mappings.keys() - after.mappings.keys()),
        *((CONTAINER, container) for container in before.used() - after.used()),
    }


def made_after(made: Made, after: State, number: int) -> Made:
    """The records of the mappings after a call: new ones are its own, and the latest end first."""
    kept = {key: made.get(key, ())[:count] for key, count in after.mappings.items()}
    return {key: old + (number,) * (after.mappings[key] - len(old)) for key, old in kept.items()}


def moved_on(moment: Moment, after: State, number: int, call: Call, answer: Answer) -> Moment:
    """The moment after a call that was done, or that would have been."""
    began, made = moment.began, moment.made
    if after.mappings != moment.state.mappings:
        began = {link: began.get(link, number) for link in after.links}
        made = made_after(made, after, number)
    sorts = moment.sorts
    if call.kind in MADE:
        sorts = {**sorts, call.c: MADE[call.kind]}
    ended, lost = moment.ended, gone(moment.state, after)
    if lost:
        ended = {**ended, **dict.fromkeys(lost, number)}
    origins = grown(moment, after, number, call, answer)
    return Moment(after, origins, began, made, sorts, moment.loaded, ended)


def next_moment(moment: Moment, after: State, number: int, record: Any, answer: Answer) -> Moment:
    """The moment after a record."""
    if isinstance(record, Call) and answer.word in DONE:
        return moved_on(moment, after, number, record, answer)
    if answer.word == "rule":
        return moment._replace(state=after, loaded=(*moment.loaded, number))
    return moment


def steps_of(log: bytes) -> Iterator[Step]:
    """The steps of a log."""
    tracker = Tracker()
    moment = fresh()
    position: Optional[int] = 0
    number = 0
    while position is not None and position < len(log):
        number += 1
        answer, end = tracker.answer_record(log, position)
        data = log[position:end]
        record = record_of(data)
        judged = None
        if isinstance(record, Call) and answer.word in BREAKING:
            worked = work_out(moment.state, record)
            judged = moved_on(moment, worked, number, record, allowed(moment.state, worked))
        after = next_moment(moment, tracker.state, number, record, answer)
        yield Step(number, data, record, answer, moment, after, judged)
        moment, position = after, end


def chain(origin: Origin) -> List[Origin]:
    """The way of an item, from its label on."""
    way = []
    step: Optional[Origin] = origin
    while step is not None:
        way.append(step)
        step = step.before
    return way[::-1]
