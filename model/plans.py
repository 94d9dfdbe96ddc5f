"""Short lists of records that lead a state somewhere deep."""

from typing import List, Optional, Tuple, Union

from model.choices import Choices
from model.limits import CONTAINERS, COUNT_LIMIT, DEVICES, DIVERT_ACTION, FILES, INHIBIT_ACTION
from model.limits import ITEMS, MAP_SORTS, PROCESSES, RULE_LIMIT, Kind, process_container
from model.proposals import Proposer
from model.records import Call, Rule, confine, forbid, separate
from model.tracker import MAPPED_SORTS

Plan = List[Union[Call, Rule]]
MAPPING_KINDS = sorted(MAPPED_SORTS)
MANY = 4  # mappings of a file by a process, beyond which an exit ends them
WAITS = 40  # calls before a climb begins
ATTEMPTS = 3  # climbs that may begin, of which one gets to the limit at most


class Planner:
    """Makes plans from the present state; an empty plan means none is possible."""

    def __init__(self, choices: Choices, proposer: Proposer) -> None:
        self.choices = choices
        self.proposer = proposer
        self.table = [
            (self.chain, 3),
            (self.divert, 4),
            (self.divert_separate, 2),
            (self.reuse_process, 2),
            (self.end_use, 4),
            (self.nest, 2),
            (self.truncate_mapped, 3),
            (self.fork_mapped, 2),
        ]

    def plan(self) -> Plan:
        """One of the plans."""
        return self.choices.weighted(self.table)()

    def chain(self) -> Plan:
        """Map new files from process to process, then give to the first."""
        proposer = self.proposer
        processes = self.choices.some(PROCESSES, self.choices.pick([0.15, 0.3]))
        if len(processes) < 2:
            return []
        plan: Plan = [Call(Kind.START, p) for p in processes if p not in proposer.state.live]
        files = proposer.unused_files()
        names = proposer.unbound()
        for giver, receiver in zip(processes, processes[1:]):
            give, take = self._descriptor(giver, 0), self._descriptor(receiver, -1)
            if give is None or take is None or len(files) < 4 or len(names) < 4:
                return plan
            file = files.pop(self.choices.below(len(files)))
            name = names.pop(self.choices.below(4))
            mapping = self.choices.pick([Kind.MAP_READ, Kind.MAP_BOTH])
            plan += [
                Call(Kind.CREATE, giver, name, give, file),
                Call(Kind.MAP_BOTH, giver, give),
                Call(Kind.OPEN, receiver, name, take),
                Call(mapping, receiver, take),
            ]
            plan += [Call(Kind.CLOSE, giver, give), Call(Kind.CLOSE, receiver, take)]
        plan.append(Call(Kind.LABEL, 0, process_container(processes[0]), proposer.item()))
        return plan

    def divert(self) -> Plan:
        """Load a diverting rule against a device and write to that device."""
        process = self._live()
        if process is None or not self.proposer.closed(process):
            return []
        item = self.proposer.item()
        device = self.choices.pick(DEVICES)
        if device in self.proposer.state.holders(item):
            return []
        substitute = self._substitute(device)
        forbidden = {device, *self.choices.some(DEVICES, 0.1)}
        rule = forbid(item, forbidden, DIVERT_ACTION, substitute)
        if self.choices.chance(0.3):
            rule = confine(item, set(CONTAINERS) - {device}, DIVERT_ACTION, substitute)
        descriptor = self.choices.near(self.proposer.closed(process))
        plan: Plan = [Call(Kind.LABEL, 0, process_container(process), item), rule]
        if self.choices.chance(0.15):
            plan.insert(1, forbid(item, [substitute], INHIBIT_ACTION, 0))
        plan.append(Call(Kind.DEVICE, process, descriptor, device))
        plan.append(Call(Kind.WRITE, process, descriptor))
        if self.choices.chance(0.3):
            plan.append(Call(Kind.MAP_BOTH, process, descriptor))
        if self.choices.chance(0.3):
            plan.append(Call(Kind.LABEL, 0, device, item))
        return plan

    def divert_separate(self) -> Plan:
        """Load a diverting rule that separates two items, and bring them together."""
        process = self._live()
        if process is None or not self.proposer.closed(process):
            return []
        first = self.proposer.item()
        second = self.choices.pick([item for item in ITEMS if item != first])
        device = self.choices.pick(DEVICES)
        descriptor = self.choices.near(self.proposer.closed(process))
        substitute = self._substitute(device)
        last = self.choices.pick([Kind.WRITE, Kind.WRITE, Kind.READ, Kind.MAP_READ])
        return [
            Call(Kind.LABEL, 0, process_container(process), first),
            separate(first, second, DIVERT_ACTION, substitute),
            Call(Kind.LABEL, 0, device, second),
            Call(Kind.DEVICE, process, descriptor, device),
            Call(last, process, descriptor),
        ]

    def reuse_process(self) -> Plan:
        """End a mapped process and start its number again, beside a gift."""
        mapped = [p for p in self.proposer.live() if self.proposer.mapped(p)]
        if not mapped:
            return []
        process = self.choices.pick(mapped)
        container = self.choices.pick(self.proposer.mapped(process))
        plan: Plan = [Call(Kind.EXIT, process), Call(Kind.START, process)]
        plan.append(Call(Kind.LABEL, 0, container, self.proposer.item()))
        return plan

    def end_use(self) -> Plan:
        """End one use of a file after the other until it is not in use."""
        holding = [c for c in FILES if self.proposer.state.items[c]]
        caller = self._live()
        if not holding or caller is None:
            return []
        uses = {container: self._endings(container, caller) for container in holding}
        fewest = min(len(plan) for plan in uses.values())
        return uses[self.choices.pick([c for c in holding if len(uses[c]) <= fewest + 1])]

    def truncate_mapped(self) -> Plan:
        """Truncate a file that is mapped, then unmap it and truncate again."""
        found = []
        for process in self.proposer.live():
            for descriptor in self.proposer.file_descriptors(process):
                container = self.proposer.state.descriptors[process, descriptor]
                if container in self.proposer.mapped(process):
                    found.append((process, descriptor, container))
        if not found:
            return []
        process, descriptor, container = self.choices.pick(found)
        truncate = Call(Kind.TRUNCATE, process, descriptor)
        sort = self.proposer.sorts(process, container)[-1]
        return [truncate, Call(Kind.UNMAP, process, container, sort), truncate]

    def fork_mapped(self) -> Plan:
        """Fork a mapped process and give to what feeds it."""
        mapped = [p for p in self.proposer.live() if self.proposer.mapped(p)]
        dead = self.proposer.dead()
        if not mapped or not dead:
            return []
        process = self.choices.pick(mapped)
        container = self.choices.pick(self.proposer.mapped(process))
        return [
            Call(Kind.FORK, process, self.choices.near(dead)),
            Call(Kind.LABEL, 0, container, self.proposer.item()),
        ]

    def nest(self) -> Plan:
        """Map a container twice and unmap it twice, with gifts to both ends between."""
        opened = sorted(self.proposer.state.descriptors)
        if not opened:
            return []
        process, descriptor = self.choices.pick(opened)
        container = self.proposer.state.descriptors[process, descriptor]
        kinds = [self.choices.pick(MAPPING_KINDS) for _ in range(2)]
        unmaps = [Call(Kind.UNMAP, process, container, MAPPED_SORTS[kind]) for kind in kinds[::-1]]
        gifts = [self._label(container), self._label(process_container(process))]
        plan: Plan = [Call(kind, process, descriptor) for kind in kinds]
        return [*plan, unmaps[0], *gifts, unmaps[1], self._label(container)]

    def fill_rules(self) -> Plan:
        """Load rules that bind nobody until no more fit."""
        missing = RULE_LIMIT - len(self.proposer.state.rules)
        return [self.proposer.harmless_rule() for _ in range(missing)]

    def _label(self, container: int) -> Call:
        return Call(Kind.LABEL, 0, container, self.proposer.item())

    def _live(self) -> Optional[int]:
        live = self.proposer.live()
        return self.choices.pick(live) if live else None

    def _descriptor(self, process: int, place: int) -> Optional[int]:
        """The first or last closed descriptor of a process."""
        closed = self.proposer.closed(process)
        return closed[place] if len(closed) > 1 else None

    def _substitute(self, device: int) -> int:
        """A substitute that is in use, not in use, or the device itself."""
        in_use = sorted(c for c in self.proposer.state.used() if c in FILES or c in DEVICES)
        table = [(in_use, 6), (self.proposer.unused_files(), 2), ([device], 1)]
        return self.choices.pick(self.choices.weighted(table) or [device])

    def _endings(self, container: int, caller: int) -> Plan:
        """The calls that end every use of a file, the exit of a process among them."""
        state = self.proposer.state
        plan: Plan = []
        for name in sorted(n for n, c in state.names.items() if c == container):
            others = [n for n in self.proposer.bound() if state.names[n] != container]
            if others and self.choices.chance(0.3):
                plan.append(Call(Kind.RENAME, caller, self.choices.pick(others), name))
            else:
                plan.append(Call(Kind.UNLINK, caller, name))
        for key in sorted(k for k, c in state.descriptors.items() if c == container):
            plan.append(Call(Kind.CLOSE, *key))
        for process in self.proposer.live():
            plan += self._unmaps(process, container)
        if self.choices.chance(0.5):
            plan.reverse()
        if plan[-1].kind in (Kind.CLOSE, Kind.UNMAP) and self.choices.chance(0.2):
            plan[-1] = Call(Kind.EXIT, plan[-1].process)
        return plan

    def _unmaps(self, process: int, container: int) -> Plan:
        """The calls that end every mapping of a container by a process."""
        counts = {sort: self.proposer.state.count(process, container, sort) for sort in MAP_SORTS}
        if sum(counts.values()) > MANY:
            return [Call(Kind.EXIT, process)]
        unmaps = [[Call(Kind.UNMAP, process, container, s)] * n for s, n in counts.items()]
        return [unmap for row in unmaps for unmap in row]


class Climber:
    """Maps one container by one process until the count is at its limit, and goes on from there.

    It proposes call by call, for other records may come between. Where one of these ends what it
    maps by, or a rule stops it, it begins again with another mapping, a few times.
    """

    def __init__(self, choices: Choices, proposer: Proposer) -> None:
        self.choices = choices
        self.proposer = proposer
        self.waits = WAITS
        self.attempts = ATTEMPTS
        self.target: Optional[Tuple[int, int, int]] = None  # kind, process, container
        self.before = -1  # the count before the last call that it proposed

    def calls(self) -> Plan:
        """The next calls: one that maps, those that follow at the limit, or none."""
        if self.waits or not self.attempts:
            self.waits = max(0, self.waits - 1)
            return []
        if self.target is None:
            self.target = self._choice()
        if self.target is None:
            return []
        kind, process, container = self.target
        state, opened = self.proposer.state, self.proposer.open(process)
        through = [d for d in opened if state.descriptors[process, d] == container]
        count = state.count(process, container, MAPPED_SORTS[kind])
        if not through or count == self.before:
            self.target, self.attempts, self.before = None, self.attempts - 1, -1
            return []
        self.before = count
        maps = Call(kind, process, self.choices.pick(through))
        if count < COUNT_LIMIT:
            return [maps]
        self.attempts = 0
        return self._at_limit(maps, container)

    def _choice(self) -> Optional[Tuple[int, int, int]]:
        """Something that is open, and the sort of mapping to make of it."""
        opened = sorted(self.proposer.state.descriptors)
        if not opened:
            return None
        process, descriptor = self.choices.pick(opened)
        kind = self.choices.pick(MAPPING_KINDS)
        return kind, process, self.proposer.state.descriptors[process, descriptor]

    def _at_limit(self, maps: Call, container: int) -> Plan:
        """What is tried where a count is at its limit."""
        other = next(kind for kind in MAPPING_KINDS if kind != maps.kind)
        unmap = Call(Kind.UNMAP, maps.process, container, MAPPED_SORTS[maps.kind])
        label = Call(Kind.LABEL, 0, container, self.proposer.item())
        plan: Plan = [maps, maps._replace(c=1), maps._replace(kind=other), label]
        if self.choices.chance(0.7):
            plan += self._forked(maps, unmap)
        plan += [unmap, maps, maps]
        if self.choices.chance(0.5):
            plan += [unmap._replace(b=MAPPED_SORTS[other]), maps]
        if self.choices.chance(0.5):
            device = Call(Kind.DEVICE, maps.process, maps.a, self.choices.pick(DEVICES))
            plan += [*self._anew(maps.process), unmap, device, maps]
        return plan

    def _anew(self, process: int) -> Plan:
        """The end of a process and another of its number."""
        return [Call(Kind.EXIT, process), Call(Kind.START, process)]

    def _forked(self, maps: Call, unmap: Call) -> Plan:
        """A child that has the count at its limit, loses one and gains one; the parent's stays."""
        dead = self.proposer.dead()
        if not dead:
            return []
        child = self.choices.near(dead)
        plan: Plan = [Call(Kind.FORK, maps.process, child), maps._replace(process=child)]
        plan += [unmap._replace(process=child), maps, maps._replace(process=child)]
        if self.choices.chance(0.5):
            plan += [*self._anew(child), unmap._replace(process=child)]
        return plan
