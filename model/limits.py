"""The numbers of documents 01 and 02 in one place: limits, tags, kinds and refusals."""

from enum import IntEnum
from typing import Collection, List


class Number(IntEnum):
    """Named numbers that are written as numbers, whatever the version of Python."""

    __str__ = int.__repr__
    __format__ = int.__format__


# Document 01, The box.
CONTAINERS = range(0, 64)
DEVICES = range(0, 8)
PROCESS_CONTAINERS = range(8, 24)
FILES = range(24, 64)  # files and pipes
PROCESSES = range(0, 16)
ITEMS = range(0, 64)
NAMES = range(0, 128)
DESCRIPTORS = range(0, 32)
RULE_LIMIT = 32
LOG_LIMIT = 65536
COUNT_LIMIT = 255  # mappings of one sort that a process has of a container: document 02, Paper 4

# Document 01, The records: tags and the length of each tag's value.
CALL_TAG = 0x10
FORBID_TAG = 0x11  # the item may not be in a container of the set
SEPARATE_TAG = 0x12  # no container may hold both items
CONFINE_TAG = 0x13  # the item may not be in a container outside the set
HEADER_LENGTH = 3
VALUE_LENGTHS = {CALL_TAG: 5, FORBID_TAG: 11, SEPARATE_TAG: 4, CONFINE_TAG: 11}
SET_BYTES = 8


class Kind(Number):
    """The kinds of call."""

    START = 1
    OPEN = 2
    CREATE = 3
    PIPE = 4
    DEVICE = 5
    DUP = 6
    CLOSE = 7
    READ = 8
    WRITE = 9
    TRUNCATE = 10
    MAP_READ = 11
    MAP_BOTH = 12
    UNMAP = 13
    UNLINK = 14
    RENAME = 15
    LINK = 16
    FORK = 17
    EXIT = 18
    LABEL = 19


KINDS = range(min(Kind), max(Kind) + 1)


class MapSort(Number):
    """The sorts of mapping, each with a count of its own: document 02, Paper 4.

    Unmap's field b names the sort that loses one.
    """

    MAPPED_READ = 0
    MAPPED_BOTH = 1


MAP_SORTS = range(min(MapSort), max(MapSort) + 1)

# Rule actions.
INHIBIT_ACTION = 0
DIVERT_ACTION = 1
ACTIONS = range(0, 2)


class Refusal(Number):
    """Document 01, What a record gets: the first in the order below that applies is the answer.

    Document 02, Paper 2: the earliest place decides, not the lowest number. So the order here is
    that of the tests. 14, 15 and 16 stand in 8's place, and no record meets two of these four.
    Paper 4: 17 comes after 10.
    """

    CUT_SHORT = 1
    UNKNOWN_TAG = 2
    WRONG_LENGTH = 3
    UNKNOWN_KIND = 4
    OUT_OF_RANGE = 5
    DEAD_PROCESS = 6
    TAKEN = 7
    MISSING = 8  # the container to label is not in use
    DESCRIPTOR_CLOSED = 14
    NAME_UNBOUND = 15
    NO_LINK = 16  # to unmap: no mapping of the sort that field b names
    SAME_TWICE = 9
    NO_FILE = 10
    COUNT_FULL = 17
    RULES_FULL = 11
    BROKEN_ALREADY = 12
    SLICE_SHORT = 13


# Those that a record can get; the last is for a query.
RECORD_REFUSALS = tuple(Refusal)[:-1]


def by_place(numbers: Collection[Refusal]) -> List[Refusal]:
    """Refusals in the order of their tests."""
    return [refusal for refusal in Refusal if refusal in numbers]


def process_container(process: int) -> int:
    """The container of a process."""
    return PROCESS_CONTAINERS.start + process
