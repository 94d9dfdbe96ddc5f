"""The logs that are measured: one record in a state, and random logs.

A log of one record begins with its rules, on a fresh tracker. Then come the
calls that lead to the state, and last the record. Only item 0 is ever held
there, so no rule is broken but where a record is to break one.
"""

import functools
from typing import Dict, List, NamedTuple

from bench.states import D_LAST, FILLER, FIRST, FREE, GIVER, HIDDEN, KIND_NAMES, N_LAST, Case
from bench.states import mapping_cases, small_cases, small_held_cases, small_laden_cases
from bench.states import worst_cases, worst_held_cases, worst_laden_cases
from model.generate import MIXES
from model.limits import CALL_TAG, CONTAINERS, COUNT_LIMIT, DEVICES, DIVERT_ACTION, FILES, ITEMS
from model.limits import PROCESSES, RULE_LIMIT, Kind, Refusal, process_container
from model.records import Call, Rule, confine, encode, forbid, frame_bytes, separate
from tests.logtests.compare import model_lines
from tests.logtests.randomlogs import LogGenerator

RULE_NUMBERS = range(RULE_LIMIT)
LAST_RULE = RULE_NUMBERS[-1]

# Full tables of rules that no state of a measured call breaks: one item each, or two.
FORBIDDING = [forbid(item, []) for item in RULE_NUMBERS]
SEPARATING = [separate(item, RULE_LIMIT + item) for item in RULE_NUMBERS]
CONFINING = [confine(item, CONTAINERS) for item in RULE_NUMBERS]
RULE_TABLES = {
    "tag 11 hex, empty sets": FORBIDDING,
    "tag 12 hex": SEPARATING,
    "tag 13 hex, full sets": CONFINING,
    "the three in turn": [
        (FORBIDDING, SEPARATING, CONFINING)[number % 3][number] for number in RULE_NUMBERS
    ],
}
# One fewer, none of them about item 0.
ALL_BUT_ONE = CONFINING[1:]
# A full table of rules of tag 12 hex that all speak of item 0.
PARTING = [separate(0, 1 + number) for number in RULE_NUMBERS]

CASES: Dict[str, Dict[int, List[Case]]] = {
    state: {kind: [made[kind] for made in tables if kind in made] for kind in KIND_NAMES}
    for state, tables in {
        "small": (small_cases(), small_laden_cases(), small_held_cases()),
        "worst": (worst_cases(), worst_laden_cases(), worst_held_cases()),
    }.items()
}


class LogCase(NamedTuple):
    """A record with the rules and the calls before it, and what it must get.

    The answer is without the number of containers that gained: the model tells it.
    """

    rules: List[Rule]
    before: List[Call]
    record: bytes
    answer: str


def allowed_case(rules: List[Rule], case: Case) -> LogCase:
    """A call that is allowed."""
    return LogCase(rules, case.before, encode(case.call), "allow")


def call_cases(rules: List[Rule], state: str, kind: int) -> List[LogCase]:
    """A kind of call that is allowed, at the places where it may cost most."""
    return [allowed_case(rules, case) for case in CASES[state][kind]]


def gaining_write(rules: List[Rule]) -> LogCase:
    """The write of the small state by which the file gains an item."""
    return allowed_case(rules, small_laden_cases()[Kind.WRITE])


MAPPINGS: Dict[str, LogCase] = {
    name: allowed_case([], case) for name, case in mapping_cases().items()
}


# Writes that a rule stops, rules, and refusals.


class Place(NamedTuple):
    """A state in which the writing process holds item 0, its write, and where else it could go."""

    before: List[Call]
    write: Call
    written: int
    substitute: int
    # a live process with a descriptor and a name that are free after some calls, and one that dies
    process: int
    descriptor: int
    name: int
    freeing: List[Call]
    dying: List[Call]
    dead: int
    used: int  # a file in use


def small_place() -> Place:
    """The small state: the write goes to a file, or else to a device."""
    case = small_laden_cases()[Kind.WRITE]
    file, device = FILES[0], DEVICES[3]
    return Place(case.before, case.call, file, device, 0, 1, 1, [], [], PROCESSES[-1], file)


def worst_place(case: Case) -> Place:
    """The worst state: the search from the substitute takes as long as that from the file."""
    label = Call(Kind.LABEL, 0, process_container(case.call.process), 0)
    freeing = [Call(Kind.CLOSE, GIVER, D_LAST), Call(Kind.UNLINK, GIVER, N_LAST)]
    dead = PROCESSES[5]
    return Place(
        [*case.before, label],
        case.call,
        FIRST,
        HIDDEN,
        GIVER,
        D_LAST,
        N_LAST,
        freeing,
        [Call(Kind.EXIT, dead)],
        dead,
        FILLER,
    )


PLACES: Dict[str, List[Place]] = {
    "small": [small_place()],
    "worst": [worst_place(made[Kind.WRITE]) for made in (worst_cases(), worst_laden_cases())],
}
INHIBITED = f"write, inhibited by rule {LAST_RULE}"
DIVERTED = f"write, diverted by rule {LAST_RULE}"
PARTED = "write, 32 rules of tag 12 hex on the item given"
PARTED_INHIBITED = f"{INHIBITED} behind 31 of tag 12 hex on the item given"
PARTED_DIVERTED = f"{DIVERTED} behind 31 of tag 12 hex on the item given"


def stopped_case(rules: List[Rule], place: Place, diverts: bool) -> LogCase:
    """The write, with a last rule against it."""
    divert = (DIVERT_ACTION, place.substitute) if diverts else ()
    stopping = forbid(0, [place.written], *divert)
    answer = f"modify {LAST_RULE} {place.substitute}" if diverts else f"inhibit {LAST_RULE}"
    return LogCase([*rules, stopping], place.before, encode(place.write), answer)


def stopped_cases(place: Place) -> Dict[str, LogCase]:
    """The write, with the last of 32 rules against it, or with rules that all speak of its item."""
    return {
        INHIBITED: stopped_case(ALL_BUT_ONE, place, False),
        DIVERTED: stopped_case(ALL_BUT_ONE, place, True),
        PARTED: LogCase(PARTING, place.before, encode(place.write), "allow"),
        PARTED_INHIBITED: stopped_case(PARTING[:-1], place, False),
        PARTED_DIVERTED: stopped_case(PARTING[:-1], place, True),
    }


def write_case(place: Place) -> LogCase:
    """The write with no rule loaded."""
    return LogCase([], place.before, encode(place.write), "allow")


def rule_cases(place: Place) -> Dict[str, LogCase]:
    """Rules that are loaded, and those that are refused for what is held."""
    rule, wide = encode(CONFINING[0]), encode(forbid(ITEMS[-1], CONTAINERS))
    broken = encode(forbid(0, [process_container(place.write.process)]))
    last = f"rule {LAST_RULE}"
    return {
        "rule, loaded as number 0": LogCase([], place.before, rule, "rule 0"),
        f"rule, loaded as number {LAST_RULE}": LogCase(ALL_BUT_ONE, place.before, rule, last),
        "rule against all containers": LogCase(ALL_BUT_ONE, place.before, wide, last),
        "rule, 32 are held": refusing(CONFINING, place.before, rule, Refusal.RULES_FULL),
        "rule, broken already": refusing(ALL_BUT_ONE, place.before, broken, Refusal.BROKEN_ALREADY),
    }


def refusing(rules: List[Rule], before: List[Call], record: bytes, number: int) -> LogCase:
    """A record that is refused."""
    return LogCase(rules, before, record, f"refused {number}")


def refused_cases(place: Place) -> Dict[str, LogCase]:
    """A record for each of the other refusals, with 32 rules held."""
    process, descriptor, free = place.process, place.descriptor, place.freeing
    create = Call(Kind.CREATE, process, place.name, descriptor, place.used)
    dead_read, truncate = Call(Kind.READ, place.dead), Call(Kind.TRUNCATE, process, descriptor)
    read = Call(Kind.READ, process, descriptor)
    opening = Call(Kind.OPEN, process, place.name, descriptor)
    device = [*free, Call(Kind.DEVICE, process, descriptor, DEVICES[0])]
    mapping = Call(Kind.MAP_READ, process, descriptor)
    mapped = [*device, *COUNT_LIMIT * [mapping]]
    listed = [
        ("header cut short", [], bytes([CALL_TAG, 0]), Refusal.CUT_SHORT),
        ("unknown tag", [], frame_bytes(0, b""), Refusal.UNKNOWN_TAG),
        ("wrong length", [], frame_bytes(CALL_TAG, b""), Refusal.WRONG_LENGTH),
        ("unknown kind", [], encode(Call(0)), Refusal.UNKNOWN_KIND),
        ("call out of range", [], encode(Call(Kind.START, PROCESSES.stop)), Refusal.OUT_OF_RANGE),
        ("read of a dead process", place.dying, encode(dead_read), Refusal.DEAD_PROCESS),
        ("create, file in use", free, encode(create), Refusal.TAKEN),
        ("label, file not in use", free, encode(Call(Kind.LABEL, 0, FREE)), Refusal.MISSING),
        ("read of a closed descriptor", free, encode(read), Refusal.DESCRIPTOR_CLOSED),
        ("open of an unbound name", free, encode(opening), Refusal.NAME_UNBOUND),
        ("unmap, no link", [], encode(Call(Kind.UNMAP, process, FREE)), Refusal.NO_LINK),
        ("rule, items equal", [], encode(separate(1, 1)), Refusal.SAME_TWICE),
        ("truncate of a device", device, encode(truncate), Refusal.NO_FILE),
        ("map read, count at 255", mapped, encode(mapping), Refusal.COUNT_FULL),
    ]
    return {
        name: refusing(CONFINING, [*place.before, *calls], record, number)
        for name, calls, record, number in listed
    }


def other_cases(place: Place) -> Dict[str, LogCase]:
    """Records that are not allowed calls."""
    return {**stopped_cases(place), **rule_cases(place), **refused_cases(place)}


# Random logs. They differ between the tables, since each follows the state that it leads to.
SEEDS = (1, 2)
RECORDS = 2000
TABLE_SIZES = (0, 4, 8, 16, RULE_LIMIT)
MIX_NAMES = list(MIXES)


class MixedLog(NamedTuple):
    """A random log and what the model answers."""

    data: bytes
    answers: List[str]

    @property
    def refused(self) -> int:
        """How many of its records are refused."""
        return sum(answer.startswith("refused") for answer in self.answers)


def mixed_log(seed: int, mix: str, rules: int) -> MixedLog:
    """The log of a seed: so many rules first, no more later, and 2,000 records in all."""
    return growing_log(seed, mix, rules, RECORDS, RECORDS)


def growing_log(seed: int, mix: str, rules: int, records: int, first: int) -> MixedLog:
    """The first records of a log of so many records."""
    data = b"".join(random_records(seed, mix, rules, records)[:first])
    return MixedLog(data, model_lines(data))


@functools.lru_cache(maxsize=1)
def random_records(seed: int, mix: str, rules: int, records: int) -> List[bytes]:
    """The records of a random log."""
    generator = LogGenerator(seed, mix, rules, rules)
    return [generator.record() for _ in range(records)]
