"""The states in which calls are measured, as the calls that lead there.

What a call costs depends on the items too, since it tells which containers
gained. So a call that gives is measured where it gives nothing, where it gives
an item that what it reaches lacks, and where it gives one that all hold.
"""

from typing import Dict, List, NamedTuple

from model.limits import COUNT_LIMIT, DESCRIPTORS, DEVICES, FILES, NAMES, PROCESSES, Kind, MapSort
from model.limits import process_container
from model.records import Call

KIND_NAMES = {
    Kind.START: "start",
    Kind.OPEN: "open",
    Kind.CREATE: "create",
    Kind.PIPE: "pipe",
    Kind.DEVICE: "device",
    Kind.DUP: "dup",
    Kind.CLOSE: "close",
    Kind.READ: "read",
    Kind.WRITE: "write",
    Kind.TRUNCATE: "truncate",
    Kind.MAP_READ: "map read",
    Kind.MAP_BOTH: "map both",
    Kind.UNMAP: "unmap",
    Kind.UNLINK: "unlink",
    Kind.RENAME: "rename",
    Kind.LINK: "link",
    Kind.FORK: "fork",
    Kind.EXIT: "exit",
    Kind.LABEL: "label",
}


class Case(NamedTuple):
    """A call, and the calls before it."""

    before: List[Call]
    call: Call


# Calls that give what their process or a file holds.
GIVING = (Kind.READ, Kind.WRITE, Kind.MAP_READ, Kind.MAP_BOTH)


def small_cases() -> Dict[int, Case]:
    """One live process, 0, and one file, 24, under name 0 and descriptor 0.

    Nothing is held but where label is measured, which gives what is held already.
    """
    base = [Call(Kind.START, 0), Call(Kind.CREATE, 0, 0, 0, 24)]
    mapped = [*base, Call(Kind.MAP_READ, 0, 0)]
    labelled = [*base, Call(Kind.LABEL, 0, 24, 0)]
    calls = [
        Call(Kind.START, 1),
        Call(Kind.OPEN, 0, 0, 1),
        Call(Kind.CREATE, 0, 1, 1, 25),
        Call(Kind.PIPE, 0, 1, 2, 25),
        Call(Kind.DEVICE, 0, 1, 0),
        Call(Kind.DUP, 0, 0, 1),
        Call(Kind.CLOSE, 0, 0),
        Call(Kind.READ, 0, 0),
        Call(Kind.WRITE, 0, 0),
        Call(Kind.TRUNCATE, 0, 0),
        Call(Kind.MAP_READ, 0, 0),
        Call(Kind.MAP_BOTH, 0, 0),
        Call(Kind.UNMAP, 0, 24, MapSort.MAPPED_READ),
        Call(Kind.UNLINK, 0, 0),
        Call(Kind.RENAME, 0, 0, 1),
        Call(Kind.LINK, 0, 0, 1),
        Call(Kind.FORK, 0, 1),
        Call(Kind.EXIT, 0),
        Call(Kind.LABEL, 0, 24, 0),
    ]
    before = {Kind.UNMAP: mapped, Kind.LABEL: labelled}
    return {call.kind: Case(before.get(call.kind, base), call) for call in calls}


def small_laden_cases() -> Dict[int, Case]:
    """The same state for calls that move items, with item 0 where the call brings it elsewhere."""
    base = [Call(Kind.START, 0), Call(Kind.CREATE, 0, 0, 0, 24)]
    filled = [*base, Call(Kind.LABEL, 0, 24, 0)]
    holding = [*base, Call(Kind.LABEL, 0, process_container(0), 0)]
    cases = [
        Case(filled, Call(Kind.READ, 0, 0)),
        Case(holding, Call(Kind.WRITE, 0, 0)),
        Case(filled, Call(Kind.MAP_READ, 0, 0)),
        Case(holding, Call(Kind.MAP_BOTH, 0, 0)),
        Case(holding, Call(Kind.FORK, 0, 1)),
        Case(base, Call(Kind.LABEL, 0, 24, 0)),
    ]
    return {case.call.kind: case for case in cases}


def small_held_cases() -> Dict[int, Case]:
    """The same state for calls that give item 0 to what holds it already."""
    base = [Call(Kind.START, 0), Call(Kind.CREATE, 0, 0, 0, 24)]
    held = [*base, Call(Kind.LABEL, 0, 24, 0), Call(Kind.READ, 0, 0)]
    return {kind: Case(held, Call(kind, 0, 0)) for kind in GIVING}


def mapping_cases() -> Dict[str, Case]:
    """Calls on the mappings of a file in the small state, by those that are there."""
    base = [Call(Kind.START, 0), Call(Kind.CREATE, 0, 0, 0, 24)]
    read, both = Call(Kind.MAP_READ, 0, 0), Call(Kind.MAP_BOTH, 0, 0)
    end_read, end_both = (Call(Kind.UNMAP, 0, 24, sort) for sort in MapSort)
    listed = [
        ("map read, the first", [], read),
        ("map read, the second", [read], read),
        ("map read, the last that is allowed", (COUNT_LIMIT - 1) * [read], read),
        ("map both, the first", [], both),
        ("map both, the second", [both], both),
        ("map both, mapped to read before", [read], both),
        ("unmap to read, one left", [read, read], end_read),
        ("unmap to read, the last", [read], end_read),
        ("unmap both ways, one left", [both, both], end_both),
        ("unmap both ways, the last", [both], end_both),
        ("unmap both ways, the last, one to read left", [read, both], end_both),
    ]
    return {name: Case([*base, *mapped], call) for name, mapped, call in listed}


# The worst state. FIRST is a file that feeds process 15 alone, and so is HIDDEN, which has no name
# and no descriptor. Process k gives to process k - 1 through a file of its own, from 15 down to 0:
# each search for the next process tries every lower one first. Process 0, the last, gives to the
# devices and to most other files.
GIVER = PROCESSES[-1]
FIRST = FILES[0]
HIDDEN = FILES[1]
FILLER = FILES[17]
FREE = FILES[-1]
D_FIRST, D_WORK, D_OTHER, D_LAST = 0, 2, DESCRIPTORS[-2], DESCRIPTORS[-1]
N_FIRST, N_FILLER, N_WORK, N_OTHER, N_LAST = 0, 1, 2, NAMES[-2], NAMES[-1]


def chain_file(process: int) -> int:
    """The file through which a process gives to the next lower one."""
    return HIDDEN + 1 + GIVER - process


def mapped_only(process: int, file: int, kind: int) -> List[Call]:
    """A file that the process maps, with no name and no descriptor."""
    return [
        Call(Kind.CREATE, process, N_WORK, D_WORK, file),
        Call(kind, process, D_WORK),
        Call(Kind.CLOSE, process, D_WORK),
        Call(Kind.UNLINK, process, N_WORK),
    ]


def link_of_chain(giver: int, receiver: int) -> List[Call]:
    """Links from one process to a file and from that to another process."""
    return [
        Call(Kind.CREATE, giver, N_WORK, D_WORK, chain_file(giver)),
        Call(Kind.MAP_BOTH, giver, D_WORK),
        Call(Kind.OPEN, receiver, N_WORK, D_WORK),
        Call(Kind.MAP_READ, receiver, D_WORK),
        Call(Kind.CLOSE, receiver, D_WORK),
        Call(Kind.CLOSE, giver, D_WORK),
        Call(Kind.UNLINK, giver, N_WORK),
    ]


def worst_state(live: range, spread: bool) -> List[Call]:
    """The worst state; with spread the last process of the chain gives to many containers."""
    last = live[0]
    calls = [Call(Kind.START, process) for process in live]
    calls.append(Call(Kind.CREATE, GIVER, N_FIRST, D_FIRST, FIRST))
    calls.append(Call(Kind.MAP_READ, GIVER, D_FIRST))
    calls += mapped_only(GIVER, HIDDEN, Kind.MAP_READ)
    for giver in range(GIVER, last, -1):
        calls += link_of_chain(giver, giver - 1)
    if spread:
        for device in DEVICES:
            calls += [Call(Kind.DEVICE, last, D_WORK, device), Call(Kind.MAP_BOTH, last, D_WORK)]
            calls += [Call(Kind.CLOSE, last, D_WORK)]
        for file in range(FILLER + 1, FREE):
            calls += mapped_only(last, file, Kind.MAP_BOTH)
    calls += [Call(Kind.CREATE, GIVER, N_FILLER, D_WORK, FILLER)]
    calls += [Call(Kind.LINK, GIVER, N_FILLER, n) for n in NAMES if n not in (N_FIRST, N_FILLER)]
    opened = {(GIVER, D_FIRST), (GIVER, D_WORK)}
    closed = [(p, d) for p in live for d in DESCRIPTORS if (p, d) not in opened]
    calls += [Call(Kind.OPEN, p, N_FILLER, d) for p, d in closed]
    return calls + [Call(Kind.MAP_BOTH, last, D_WORK)] if spread else calls


def own_pipe(file: int, kept: int, other: int) -> List[Call]:
    """Make one descriptor the only way to a file."""
    return [
        Call(Kind.CLOSE, GIVER, kept),
        Call(Kind.CLOSE, GIVER, other),
        Call(Kind.PIPE, GIVER, kept, other, file),
        Call(Kind.CLOSE, GIVER, other),
        Call(Kind.OPEN, GIVER, N_FILLER, other),
    ]


def many_owned() -> List[Call]:
    """A state in which one process has the only descriptor of many pipes."""
    calls = worst_state(PROCESSES, spread=False)
    for number, file in enumerate(range(FILLER + 1, FREE + 1)):
        calls += own_pipe(file, D_WORK + 1 + number, D_LAST)
    return calls


def worst_cases() -> Dict[int, Case]:
    """The worst state, less what the call needs free, and the call at its worst place.

    Items are as in the small cases.
    """
    full = worst_state(PROCESSES, spread=True)
    one_dead = worst_state(PROCESSES[1:], spread=True)
    freed = [Call(Kind.CLOSE, GIVER, D_LAST)]
    both_freed = [*freed, Call(Kind.CLOSE, GIVER, D_OTHER)]
    unbound = [Call(Kind.UNLINK, GIVER, N_LAST)]
    # FREE has no use but the name N_LAST
    named_only = [
        *freed,
        *unbound,
        Call(Kind.CREATE, GIVER, N_LAST, D_LAST, FREE),
        Call(Kind.CLOSE, GIVER, D_LAST),
        Call(Kind.OPEN, GIVER, N_FILLER, D_LAST),
    ]
    label = Call(Kind.LABEL, 0, HIDDEN, 0)
    cases = [
        Case(one_dead, Call(Kind.START, 0)),
        Case(full + freed, Call(Kind.OPEN, GIVER, N_FILLER, D_LAST)),
        Case(full + freed + unbound, Call(Kind.CREATE, GIVER, N_LAST, D_LAST, FREE)),
        Case(full + both_freed, Call(Kind.PIPE, GIVER, D_OTHER, D_LAST, FREE)),
        Case(full + freed, Call(Kind.DEVICE, GIVER, D_LAST, DEVICES[-1])),
        Case(full + freed, Call(Kind.DUP, GIVER, D_FIRST, D_LAST)),
        Case(full + own_pipe(FREE, D_OTHER, D_LAST), Call(Kind.CLOSE, GIVER, D_OTHER)),
        Case(full, Call(Kind.READ, GIVER, D_FIRST)),
        Case(full, Call(Kind.WRITE, GIVER, D_FIRST)),
        Case(full, Call(Kind.TRUNCATE, GIVER, D_FIRST)),
        Case(full, Call(Kind.MAP_READ, GIVER, D_FIRST)),
        Case(full, Call(Kind.MAP_BOTH, GIVER, D_FIRST)),
        Case(full, Call(Kind.UNMAP, GIVER, HIDDEN, MapSort.MAPPED_READ)),
        Case(full + named_only, Call(Kind.UNLINK, GIVER, N_LAST)),
        Case(full + named_only, Call(Kind.RENAME, GIVER, N_OTHER, N_LAST)),
        Case(full + unbound, Call(Kind.LINK, GIVER, N_FILLER, N_LAST)),
        Case(one_dead, Call(Kind.FORK, GIVER, 0)),
        Case(many_owned(), Call(Kind.EXIT, GIVER)),
        Case(full + [label], label),
    ]
    return {case.call.kind: case for case in cases}


def worst_laden_cases() -> Dict[int, Case]:
    """The same state for calls that move items.

    Item 0 is where the call brings it to most containers. Process 0 stands apart from the chain
    where it writes. The file FREE stands apart where it is read.
    """
    full = worst_state(PROCESSES, spread=True)
    one_dead = worst_state(PROCESSES[1:], spread=True)
    first, last = PROCESSES[0], PROCESSES[1]
    apart = [Call(Kind.START, first), Call(Kind.OPEN, first, N_FIRST, D_FIRST)]
    holding = [*one_dead, *apart, Call(Kind.LABEL, 0, process_container(first), 0)]
    filled = [
        *full,
        Call(Kind.CLOSE, GIVER, D_LAST),
        Call(Kind.UNLINK, GIVER, N_LAST),
        Call(Kind.CREATE, GIVER, N_LAST, D_LAST, FREE),
        Call(Kind.LABEL, 0, FREE, 0),
    ]
    inherited = [*one_dead, Call(Kind.LABEL, 0, process_container(last), 0)]
    cases = [
        Case(filled, Call(Kind.READ, GIVER, D_LAST)),
        Case(holding, Call(Kind.WRITE, first, D_FIRST)),
        Case(filled, Call(Kind.MAP_READ, GIVER, D_LAST)),
        Case(holding, Call(Kind.MAP_BOTH, first, D_FIRST)),
        Case(inherited, Call(Kind.FORK, last, first)),
        Case(full, Call(Kind.EXIT, first)),
        Case(full, Call(Kind.LABEL, 0, HIDDEN, 0)),
    ]
    return {case.call.kind: case for case in cases}


def worst_held_cases() -> Dict[int, Case]:
    """The same calls as in the worst cases, where all that the file reaches holds item 0."""
    held = [*worst_state(PROCESSES, spread=True), Call(Kind.LABEL, 0, FIRST, 0)]
    return {kind: Case(held, Call(kind, GIVER, D_FIRST)) for kind in GIVING}
