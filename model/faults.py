"""Records that are meant to be refused, alone or for several reasons."""

from typing import Optional

from model.choices import Choices
from model.limits import ACTIONS, CALL_TAG, CONFINE_TAG, CONTAINERS, COUNT_LIMIT, DEVICES
from model.limits import FORBID_TAG, ITEMS, KINDS, MAP_SORTS, PROCESSES, RULE_LIMIT, SEPARATE_TAG
from model.limits import VALUE_LENGTHS, Kind
from model.proposals import ROLES, Proposer
from model.records import CALL_FIELDS, Call, Rule, encode, frame_bytes, separate
from model.tracker import FIELD_RANGES, LACKED, MAPPED_SORTS, MAPPING, NEEDED_THINGS, is_there

# Tags beside the known ones, those of later papers first.
OTHER_TAGS = [*range(0x14, 0x1C), 0x00, 0x01, 0x0F, 0x1C, 0x20, 0x7F, 0x80, 0x90, 0xFF]
EDGES = [0, 1, 7, 8, 15, 16, 23, 24, 31, 32, 63, 64, 127, 128, 255]


class FaultMaker:
    """Makes faulty records for the present state; None if a fault has no case."""

    def __init__(self, choices: Choices, proposer: Proposer) -> None:
        self.choices = choices
        self.proposer = proposer
        self.table = [
            (self.unknown_tag, 2),
            (self.wrong_length, 2),
            (self.unknown_kind, 1),
            (self.flawed_call, 12),
            (self.mapped_too_often, 2),
            (self.missing, 2),
            (self.taken_and_missing, 2),
            (self.same_twice, 2),
            (self.truncated_device, 2),
            (self.flawed_rule, 4),
            (self.broken_rule, 2),
            (self.rule_too_many, 3),
        ]

    def fault(self) -> Optional[bytes]:
        """One of the faults."""
        return self.choices.weighted(self.table)()

    def unknown_tag(self) -> bytes:
        """A tag that document 01 does not know, of any length."""
        length = self.choices.pick([0, 1, 3, 4, 5, 11, 64, 260])
        return frame_bytes(self.choices.pick(OTHER_TAGS), self.choices.data(length))

    def wrong_length(self) -> bytes:
        """A known tag whose value is too long or too short."""
        tag = self.choices.pick(sorted(VALUE_LENGTHS))
        right = VALUE_LENGTHS[tag]
        wrong = [n for n in (0, 1, 4, 5, right - 1, right + 1, 11, right + 256) if n != right]
        return frame_bytes(tag, self.choices.data(self.choices.pick(wrong)))

    def unknown_kind(self) -> bytes:
        """A kind outside 1 to 19, the other fields of any value."""
        kind = self.choices.pick([0, KINDS[-1] + 1, 255, self.choices.pick(range(20, 256))])
        return encode(Call(kind, *(self.choices.pick(EDGES) for _ in CALL_FIELDS)))

    def flawed_call(self) -> Optional[bytes]:
        """A call with one to three fields that do not fit the state."""
        call = self.proposer.call(self.choices.pick(KINDS))
        if call is None:
            return None
        fields = [self.choices.pick(CALL_FIELDS) for _ in range(self.choices.pick([1, 1, 2, 3]))]
        return encode(self.proposer.flawed(call, fields, self.choices.chance(0.25)))

    def missing(self) -> Optional[bytes]:
        """A call that fits but for field a, which names something that is not there."""
        thing = self.choices.pick(list(LACKED))
        if thing == MAPPING:
            return self.unmapped()
        kind = self.choices.pick([k for k, needed in NEEDED_THINGS.items() if needed == thing])
        callers = self.proposer.fitting(ROLES[kind][0], 0)
        if not callers:
            return None
        call = Call(kind, self.choices.pick(callers))
        numbers = FIELD_RANGES[kind][CALL_FIELDS.index("a")]
        absent = [n for n in numbers if not is_there(self.proposer.state, call, thing, n)]
        others = self.proposer.fitting(ROLES[kind][CALL_FIELDS.index("b")], call.process)
        if not absent or not others:
            return None
        return encode(call._replace(a=self.choices.pick(absent), b=self.choices.near(others)))

    def unmapped(self) -> Optional[bytes]:
        """An unmap of a sort that the process does not map, of the container or of any."""
        sort = self.choices.pick(MAP_SORTS)
        state, live = self.proposer.state, self.proposer.live()
        if not live:
            return None
        process = self.choices.pick(live)
        absent = [c for c in CONTAINERS if not state.count(process, c, sort)]
        mapped = [c for c in self.proposer.mapped(process) if c in absent]
        container = self.choices.pick(mapped if mapped and self.choices.chance(0.6) else absent)
        return encode(Call(Kind.UNMAP, process, container, sort))

    def mapped_too_often(self) -> Optional[bytes]:
        """A mapping whose count is at its limit, now and then with a field that is not used."""
        state = self.proposer.state
        full = [
            Call(kind, process, descriptor)
            for (process, descriptor), container in sorted(state.descriptors.items())
            for kind, sort in MAPPED_SORTS.items()
            if state.count(process, container, sort) == COUNT_LIMIT
        ]
        if not full:
            return None
        unused = self.choices.pick(EDGES) if self.choices.chance(0.2) else 0
        return encode(self.choices.pick(full)._replace(c=unused))

    def taken_and_missing(self) -> Optional[bytes]:
        """A call whose field a is missing and whose field b is taken."""
        call = self.proposer.call(self.choices.pick([Kind.OPEN, Kind.DUP, Kind.LINK]))
        return encode(self.proposer.flawed(call, "ab", False)) if call else None

    def same_twice(self) -> Optional[bytes]:
        """A pipe, or a rule that separates, whose two fields are equal."""
        if self.choices.chance(0.4):
            action, substitute = self.proposer.action()
            item = self.proposer.item()
            return encode(separate(item, item, action, substitute))
        call = self.proposer.call(Kind.PIPE)
        if call is None:
            return None
        if self.choices.chance(0.4):
            flaw = self.choices.pick(["process", "a", "c"])
            call = self.proposer.flawed(call, [flaw], False)
        return encode(call._replace(b=call.a))

    def truncated_device(self) -> Optional[bytes]:
        """A truncate of a device, now and then with a field that is not used."""
        descriptors = self.proposer.state.descriptors
        found = sorted(key for key, container in descriptors.items() if container in DEVICES)
        if not found:
            return None
        unused = self.choices.pick(EDGES) if self.choices.chance(0.2) else 0
        return encode(Call(Kind.TRUNCATE, *self.choices.pick(found), unused))

    def flawed_rule(self) -> Optional[bytes]:
        """A rule with a wrong action, item or substitute, or several of them."""
        rule = self.proposer.rule()
        if rule is None:
            return None
        flaws = self.choices.some(["action", "item", "substitute"], 0.5)
        if "action" in flaws:
            rule = rule._replace(action=self.choices.pick(range(ACTIONS[-1] + 1, 256)))
        if "item" in flaws:
            above = self.choices.pick([ITEMS[-1] + 1, 99, 255])
            rule = rule._replace(items=(above,) * len(rule.items))
        if "substitute" in flaws:
            rule = rule._replace(substitute=self.choices.pick([1, 8, 16, 23, 64, 255]))
        return encode(rule)

    def broken_rule(self) -> Optional[bytes]:
        """A rule that the present state breaks."""
        rule = self.proposer.broken_rule()
        return encode(rule) if rule else None

    def rule_too_many(self) -> Optional[bytes]:
        """A rule while no more can be held, sound or with another fault."""
        if len(self.proposer.state.rules) < RULE_LIMIT:
            return None
        held = self.proposer.broken_rule()
        rules = [self.proposer.harmless_rule(), held, self._equal_items(held)]
        return encode(self.choices.pick([rule for rule in rules if rule]))

    def mutated(self, record: bytes) -> bytes:
        """A sound record with one or two bytes of its value changed."""
        value = bytearray(record[3:])
        for _ in range(self.choices.pick([1, 1, 2])):
            value[self.choices.below(len(value))] = self.choices.pick(EDGES)
        return frame_bytes(record[0], bytes(value))

    def noise(self) -> bytes:
        """A call or a rule made without a look at the state."""
        pick = self.choices.pick
        tag = self.choices.weighted([(CALL_TAG, 6), (FORBID_TAG, 1), (CONFINE_TAG, 1)])
        if tag == CALL_TAG:
            return encode(Call(pick(KINDS), pick(PROCESSES), *(pick(EDGES) for _ in "abc")))
        containers = frozenset(self.choices.some(CONTAINERS, 0.5))
        item = pick([self.proposer.item(), pick(EDGES)])
        return encode(Rule(tag, (item,), containers, pick([0, 1, 2]), pick([0, pick(EDGES)])))

    def cut(self, following: bytes) -> bytes:
        """A record that runs past the end, with or without later bytes."""
        whole = self.choices.pick([following, self.unknown_tag(), self.wrong_length()])
        if self.choices.chance(0.3):
            tag = self.choices.pick([*VALUE_LENGTHS, *OTHER_TAGS])
            return bytes([tag, self.choices.pick([1, 8, 255]), 0]) + following
        return whole[: 1 + self.choices.below(len(whole) - 1)]

    def _equal_items(self, rule: Optional[Rule]) -> Rule:
        item = rule.items[0] if rule else self.proposer.item()
        return Rule(SEPARATE_TAG, (item, item), frozenset(), 0, 0)
