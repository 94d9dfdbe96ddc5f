"""Records as bytes and as values: document 01, The records."""

from typing import FrozenSet, Iterable, NamedTuple, Optional, Tuple, Union

from model.limits import CALL_TAG, CONFINE_TAG, CONTAINERS, FORBID_TAG, HEADER_LENGTH, SEPARATE_TAG
from model.limits import SET_BYTES, process_container


class Call(NamedTuple):
    """The five bytes of a call."""

    kind: int
    process: int = 0
    a: int = 0
    b: int = 0
    c: int = 0

    @property
    def caller(self) -> int:
        """The container of the calling process."""
        return process_container(self.process)


CALL_FIELDS = Call._fields[1:]  # those after the kind


class Rule(NamedTuple):
    """A rule; the container set is empty for one that separates."""

    tag: int
    items: Tuple[int, ...]
    containers: FrozenSet[int]
    action: int
    substitute: int


RULE_ITEMS = ("first", "second")  # the items of a rule as fields


class Frame(NamedTuple):
    """One measured record of a log and the place where the next begins."""

    tag: int
    value: bytes
    end: int


def forbid(item: int, containers: Iterable[int], action: int = 0, substitute: int = 0) -> Rule:
    """Tag 11 hex: broken when a container of the set holds the item."""
    return Rule(FORBID_TAG, (item,), frozenset(containers), action, substitute)


def separate(first: int, second: int, action: int = 0, substitute: int = 0) -> Rule:
    """Tag 12 hex: broken when one container holds both items."""
    return Rule(SEPARATE_TAG, (first, second), frozenset(), action, substitute)


def confine(item: int, containers: Iterable[int], action: int = 0, substitute: int = 0) -> Rule:
    """Tag 13 hex: broken when a container outside the set holds the item."""
    return Rule(CONFINE_TAG, (item,), frozenset(containers), action, substitute)


def frame_bytes(tag: int, value: bytes) -> bytes:
    """A record of any tag and value, with the length of that value."""
    return bytes([tag]) + len(value).to_bytes(2, "big") + value


def encode(record: Union[Call, Rule]) -> bytes:
    """The bytes of a call or a rule."""
    if isinstance(record, Call):
        return frame_bytes(CALL_TAG, bytes(record))
    value = bytes(record.items)
    if record.tag != SEPARATE_TAG:
        bits = sum(1 << container for container in record.containers)
        value += bits.to_bytes(SET_BYTES, "big")
    return frame_bytes(record.tag, value + bytes([record.action, record.substitute]))


def decode_call(value: bytes) -> Call:
    """The call in a value of the right length."""
    return Call(*value)


def decode_rule(tag: int, value: bytes) -> Rule:
    """The rule in a value of the right length."""
    action, substitute = value[-2], value[-1]
    if tag == SEPARATE_TAG:
        return separate(value[0], value[1], action, substitute)
    bits = int.from_bytes(value[1 : 1 + SET_BYTES], "big")
    containers = frozenset(c for c in CONTAINERS if bits >> c & 1)
    return Rule(tag, (value[0],), containers, action, substitute)


def decode(frame: Frame) -> Union[Call, Rule]:
    """The call or the rule in a record of a known tag and the right length."""
    if frame.tag == CALL_TAG:
        return decode_call(frame.value)
    return decode_rule(frame.tag, frame.value)


def stated_length(log: bytes, position: int = 0) -> int:
    """How long the record at a position is to be; that of a header if it ends within that."""
    start = position + HEADER_LENGTH
    if start > len(log):
        return HEADER_LENGTH
    return HEADER_LENGTH + int.from_bytes(log[position + 1 : start], "big")


def read_frame(log: bytes, position: int = 0) -> Optional[Frame]:
    """Measure the record at a position; None if it runs past the end."""
    end = position + stated_length(log, position)
    if end > len(log):
        return None
    return Frame(log[position], log[position + HEADER_LENGTH : end], end)
