"""Calls and rules proposed for a present state, sound or with chosen flaws."""

from typing import Dict, Iterable, List, Optional, Tuple

from model.choices import Choices
from model.limits import ACTIONS, CONFINE_TAG, CONTAINERS, COUNT_LIMIT, DESCRIPTORS, DEVICES
from model.limits import DIVERT_ACTION, FILES, FORBID_TAG, INHIBIT_ACTION, ITEMS, MAP_SORTS, NAMES
from model.limits import PROCESSES, SEPARATE_TAG, Kind
from model.records import CALL_FIELDS, Call, Rule, confine, forbid, separate
from model.tracker import FIELD_RANGES, MAPPED_SORTS, State, Tracker, substitutes

# What each field of a call names in the present state.
ROLES: Dict[int, Tuple[str, str, str, str]] = {
    Kind.START: ("dead process", "zero", "zero", "zero"),
    Kind.OPEN: ("live process", "bound name", "closed descriptor", "zero"),
    Kind.CREATE: ("live process", "unbound name", "closed descriptor", "unused file"),
    Kind.PIPE: ("live process", "closed descriptor", "closed descriptor", "unused file"),
    Kind.DEVICE: ("live process", "closed descriptor", "device", "zero"),
    Kind.DUP: ("live process", "open descriptor", "closed descriptor", "zero"),
    Kind.CLOSE: ("live process", "open descriptor", "zero", "zero"),
    Kind.READ: ("live process", "open descriptor", "zero", "zero"),
    Kind.WRITE: ("live process", "open descriptor", "zero", "zero"),
    Kind.TRUNCATE: ("live process", "file descriptor", "zero", "zero"),
    Kind.MAP_READ: ("live process", "open descriptor", "zero", "zero"),
    Kind.MAP_BOTH: ("live process", "open descriptor", "zero", "zero"),
    Kind.UNMAP: ("live process", "mapped container", "mapped sort", "zero"),
    Kind.UNLINK: ("live process", "bound name", "zero", "zero"),
    Kind.RENAME: ("live process", "bound name", "any name", "zero"),
    Kind.LINK: ("live process", "bound name", "unbound name", "zero"),
    Kind.FORK: ("live process", "dead process", "zero", "zero"),
    Kind.EXIT: ("live process", "zero", "zero", "zero"),
    Kind.LABEL: ("zero", "used container", "item", "zero"),
}


class Proposer:
    """Proposes calls and rules for the state that a tracker is in."""

    def __init__(self, choices: Choices, tracker: Tracker) -> None:
        self.choices = choices
        self.tracker = tracker
        self.items = [ITEMS[0], ITEMS[-1]] + [choices.pick(ITEMS) for _ in range(5)]

    @property
    def state(self) -> State:
        """The present state."""
        return self.tracker.state

    def live(self) -> List[int]:
        """The live processes."""
        return sorted(self.state.live)

    def dead(self) -> List[int]:
        """The dead processes."""
        return [process for process in PROCESSES if process not in self.state.live]

    def bound(self) -> List[int]:
        """The bound names."""
        return sorted(self.state.names)

    def unbound(self) -> List[int]:
        """The unbound names."""
        return [name for name in NAMES if name not in self.state.names]

    def open(self, process: int) -> List[int]:
        """The open descriptors of a process."""
        return sorted(d for owner, d in self.state.descriptors if owner == process)

    def closed(self, process: int) -> List[int]:
        """The closed descriptors of a process."""
        return [d for d in DESCRIPTORS if (process, d) not in self.state.descriptors]

    def unused_files(self) -> List[int]:
        """The files and pipes not in use."""
        used = self.state.used()
        return [c for c in FILES if c not in used]

    def mapped(self, process: int) -> List[int]:
        """The containers that a process maps."""
        return sorted({mapped for owner, mapped, _ in self.state.mappings if owner == process})

    def sorts(self, process: int, container: int) -> List[int]:
        """The sorts of mapping that a process has of a container."""
        return [sort for sort in MAP_SORTS if self.state.count(process, container, sort)]

    def mappable(self, process: int, kind: int) -> List[int]:
        """The open descriptors of a process by which a kind of mapping can be made once more."""
        state, sort = self.state, MAPPED_SORTS[kind]
        counts = {
            d: state.count(process, state.descriptors[process, d], sort) for d in self.open(process)
        }
        return [descriptor for descriptor, count in counts.items() if count < COUNT_LIMIT]

    def file_descriptors(self, process: int) -> List[int]:
        """The open descriptors of a process that lead to files or pipes."""
        return [d for d in self.open(process) if self.state.descriptors[process, d] in FILES]

    def fitting(self, role: str, process: int, first: int = 0) -> List[int]:
        """The values that have a role now; descriptors and mappings are those of the process.

        The sorts of a mapping are those of the container in the first field.
        """
        if role == "zero":
            return [0]
        sources = {
            "live process": self.live,
            "dead process": self.dead,
            "bound name": self.bound,
            "unbound name": self.unbound,
            "any name": lambda: list(NAMES),
            "open descriptor": lambda: self.open(process),
            "closed descriptor": lambda: self.closed(process),
            "file descriptor": lambda: self.file_descriptors(process),
            "mapped container": lambda: self.mapped(process),
            "mapped sort": lambda: self.sorts(process, first),
            "unused file": self.unused_files,
            "used container": lambda: sorted(self.state.used()),
            "device": lambda: list(DEVICES),
            "item": lambda: self.items,
        }
        return sources[role]()

    def call(self, kind: int, process: Optional[int] = None) -> Optional[Call]:
        """A call that is not refused, or None if the state has none to offer."""
        if process is None:
            callers = self.fitting(ROLES[kind][0], 0)
            if not callers:
                return None
            process = self.choices.pick(callers)
        values = [process]
        for role in ROLES[kind][1:]:
            fitting = self.fitting(role, process, values[-1])
            if kind == Kind.PIPE and role == "closed descriptor":
                fitting = [d for d in fitting if d not in values[1:]]
            if kind in MAPPED_SORTS and role == "open descriptor":
                fitting = self.mappable(process, kind)
            if not fitting:
                return None
            if role in ("item", "used container", "open descriptor"):
                values.append(self.choices.pick(fitting))
            else:
                values.append(self.choices.near(fitting))
        return Call(kind, *values)

    def flawed(self, call: Call, fields: Iterable[str], outside: bool) -> Call:
        """The call with some fields in the wrong state or outside their range."""
        changes = {}
        for name in fields:
            index = CALL_FIELDS.index(name)
            allowed = FIELD_RANGES[call.kind][index]
            fitting = self.fitting(ROLES[call.kind][index], call.process, call.a)
            wrong = [value for value in allowed if value not in fitting]
            if outside or not wrong:
                wrong = [value for value in range(256) if value not in allowed]
                if self.choices.chance(0.5):
                    wrong = wrong[:1]
            changes[name] = self.choices.pick(wrong)
        return call._replace(**changes)

    def item(self) -> int:
        """An item, mostly one that labels bring in."""
        return self.choices.pick(self.items if self.choices.chance(0.7) else ITEMS)

    def action(self) -> Tuple[int, int]:
        """An action with a substitute that it may have."""
        action = self.choices.pick(ACTIONS)
        return action, self.choices.pick(sorted(substitutes(action)))

    def rule(self) -> Optional[Rule]:
        """A rule that the present state keeps, or None."""
        tag = self.choices.weighted([(FORBID_TAG, 5), (SEPARATE_TAG, 2), (CONFINE_TAG, 2)])
        action, substitute = self.action()
        item = self.item()
        holders = self.state.holders(item)
        if tag == FORBID_TAG:
            free = [c for c in CONTAINERS if c not in holders]
            forbidden = self.choices.some(free, self.choices.pick([0.05, 0.2]))
            return forbid(item, forbidden, action, substitute)
        if tag == CONFINE_TAG:
            allowed = self.choices.some(CONTAINERS, 0.9) + holders
            return confine(item, allowed, action, substitute)
        together = {i for held in self.state.items.values() if item in held for i in held}
        apart = [i for i in ITEMS if i != item and i not in together]
        if not apart:
            return None
        return separate(item, self.choices.pick(apart), action, substitute)

    def broken_rule(self) -> Optional[Rule]:
        """A rule that the present state breaks, or None."""
        holding = sorted(c for c, items in self.state.items.items() if items)
        if not holding:
            return None
        container = self.choices.pick(holding)
        held = sorted(self.state.items[container])
        item = self.choices.pick(held)
        action, substitute = self.action()
        if len(held) > 1 and self.choices.chance(0.4):
            other = self.choices.pick([i for i in held if i != item])
            return separate(item, other, action, substitute)
        if self.choices.chance(0.5):
            outside = [c for c in CONTAINERS if c != container]
            return confine(item, self.choices.some(outside, 0.5), action, substitute)
        return forbid(item, [container, *self.choices.some(CONTAINERS, 0.1)], action, substitute)

    def harmless_rule(self) -> Rule:
        """A rule that no state breaks."""
        if self.choices.chance(0.5):
            return forbid(self.choices.pick(ITEMS), [], INHIBIT_ACTION, 0)
        return confine(self.choices.pick(ITEMS), CONTAINERS, DIVERT_ACTION, 0)
