"""Refusals, ranges, framing and queries."""

from itertools import product
from typing import List, Set, Tuple, Union

from model.checks import Checks, Options
from model.limits import ACTIONS, CALL_TAG, CONTAINERS, COUNT_LIMIT, FORBID_TAG, ITEMS, KINDS
from model.limits import MAP_SORTS, PROCESSES, Kind, Refusal
from model.records import Call, Rule, confine, encode, forbid, frame_bytes, read_frame, separate
from model.test_runs import RUN_G, allows, more
from model.tracker import CONTAINER, DESCRIPTOR, MAPPING, NAME, PROCESS, Fact, Tracker
from model.tracker import frame_refusals, record_facts, refusals, refused

# Processes 0 and 1 live; name 5 and descriptor 0 lead to 24, which holds items 1
# and 2; descriptor 1 leads to device 1; 16 lies in device 2 alone.
SETUP = [
    Call(Kind.START, 0),
    Call(Kind.START, 1),
    Call(Kind.CREATE, 0, 5, 0, 24),
    Call(Kind.DEVICE, 0, 1, 1),
    Call(Kind.LABEL, 0, 24, 1),
    Call(Kind.LABEL, 0, 24, 2),
    Call(Kind.LABEL, 0, 2, 16),
]
FULL = SETUP + [forbid(40, [])] * 32

# Process 0 maps 24 to read and device 1 both ways, each as often as can be, and 25 both ways once.
COUNTED = [
    *SETUP,
    *[Call(Kind.MAP_READ, 0, 0)] * COUNT_LIMIT,
    *[Call(Kind.MAP_BOTH, 0, 1)] * COUNT_LIMIT,
    Call(Kind.CREATE, 0, 6, 2, 25),
    Call(Kind.MAP_BOTH, 0, 2),
]

# The order of the tests. Document 02, Paper 2: 14 to 16 are in 8's place, each for its kinds. Paper
# 4: 17 is after 10.
ORDER = [1, 2, 3, 4, 5, 6, 7, 8, 14, 15, 16, 9, 10, 17, 11, 12, 13]
KINDS_OF_PLACE = {8: [19], 14: [6, 7, 8, 9, 10, 11, 12], 15: [2, 14, 15, 16], 16: [13]}

Case = Tuple[Union[Call, Rule], Set[Refusal]]

CALL_CASES: List[Case] = [
    (Call(0), {Refusal.UNKNOWN_KIND}),
    (Call(20), {Refusal.UNKNOWN_KIND}),
    (Call(255, 255, 255, 255, 255), {Refusal.UNKNOWN_KIND}),
    (Call(Kind.START, 16), {Refusal.OUT_OF_RANGE}),
    (Call(Kind.LABEL, 1, 24, 1), {Refusal.OUT_OF_RANGE}),
    (Call(Kind.UNLINK, 0, 5, 0, 1), {Refusal.OUT_OF_RANGE}),
    (Call(Kind.DEVICE, 2, 0, 1), {Refusal.DEAD_PROCESS}),
    (Call(Kind.UNLINK, 2, 5), {Refusal.DEAD_PROCESS}),
    (Call(Kind.EXIT, 15), {Refusal.DEAD_PROCESS}),
    (Call(Kind.FORK, 2, 3), {Refusal.DEAD_PROCESS}),
    (Call(Kind.START, 0), {Refusal.TAKEN}),
    (Call(Kind.FORK, 0, 1), {Refusal.TAKEN}),
    (Call(Kind.FORK, 0, 0), {Refusal.TAKEN}),
    (Call(Kind.OPEN, 0, 5, 0), {Refusal.TAKEN}),
    (Call(Kind.CREATE, 0, 5, 2, 25), {Refusal.TAKEN}),
    (Call(Kind.CREATE, 0, 6, 0, 25), {Refusal.TAKEN}),
    (Call(Kind.CREATE, 0, 6, 2, 24), {Refusal.TAKEN}),
    (Call(Kind.PIPE, 0, 0, 2, 25), {Refusal.TAKEN}),
    (Call(Kind.PIPE, 0, 2, 0, 25), {Refusal.TAKEN}),
    (Call(Kind.PIPE, 0, 2, 3, 24), {Refusal.TAKEN}),
    (Call(Kind.DEVICE, 0, 0, 7), {Refusal.TAKEN}),
    (Call(Kind.DUP, 0, 0, 1), {Refusal.TAKEN}),
    (Call(Kind.DUP, 0, 0, 0), {Refusal.TAKEN}),
    (Call(Kind.LINK, 0, 5, 5), {Refusal.TAKEN}),
    (Call(Kind.OPEN, 0, 6, 2), {Refusal.NAME_UNBOUND}),
    (Call(Kind.DUP, 0, 3, 2), {Refusal.DESCRIPTOR_CLOSED}),
    (Call(Kind.DUP, 0, 3, 3), {Refusal.DESCRIPTOR_CLOSED}),
    (Call(Kind.CLOSE, 1, 0), {Refusal.DESCRIPTOR_CLOSED}),
    (Call(Kind.READ, 1, 0), {Refusal.DESCRIPTOR_CLOSED}),
    (Call(Kind.WRITE, 1, 0), {Refusal.DESCRIPTOR_CLOSED}),
    (Call(Kind.TRUNCATE, 1, 0), {Refusal.DESCRIPTOR_CLOSED}),
    (Call(Kind.MAP_READ, 1, 0), {Refusal.DESCRIPTOR_CLOSED}),
    (Call(Kind.MAP_BOTH, 1, 0), {Refusal.DESCRIPTOR_CLOSED}),
    (Call(Kind.UNMAP, 0, 24), {Refusal.NO_LINK}),
    (Call(Kind.UNMAP, 0, 24, 1), {Refusal.NO_LINK}),
    (Call(Kind.UNMAP, 0, 8), {Refusal.NO_LINK}),
    (Call(Kind.UNMAP, 0, 23, 1), {Refusal.NO_LINK}),
    (Call(Kind.UNLINK, 0, 6), {Refusal.NAME_UNBOUND}),
    (Call(Kind.RENAME, 0, 6, 5), {Refusal.NAME_UNBOUND}),
    (Call(Kind.RENAME, 0, 6, 6), {Refusal.NAME_UNBOUND}),
    (Call(Kind.LINK, 0, 6, 7), {Refusal.NAME_UNBOUND}),
    (Call(Kind.LINK, 0, 6, 6), {Refusal.NAME_UNBOUND}),
    (Call(Kind.LABEL, 0, 25, 1), {Refusal.MISSING}),
    (Call(Kind.LABEL, 0, 10, 1), {Refusal.MISSING}),
    (Call(Kind.PIPE, 0, 3, 3, 25), {Refusal.SAME_TWICE}),
    (Call(Kind.TRUNCATE, 0, 1), {Refusal.NO_FILE}),
]

SEVERAL_CASES: List[Case] = [
    (Call(Kind.DEVICE, 2, 0, 8), {Refusal.OUT_OF_RANGE, Refusal.DEAD_PROCESS}),
    (Call(Kind.OPEN, 0, 5, 0, 1), {Refusal.OUT_OF_RANGE, Refusal.TAKEN}),
    (Call(Kind.CLOSE, 0, 2, 1), {Refusal.OUT_OF_RANGE, Refusal.DESCRIPTOR_CLOSED}),
    (Call(Kind.UNLINK, 0, 128), {Refusal.OUT_OF_RANGE, Refusal.NAME_UNBOUND}),
    (Call(Kind.UNMAP, 0, 24, 2), {Refusal.OUT_OF_RANGE, Refusal.NO_LINK}),
    (Call(Kind.UNMAP, 0, 24, 1, 1), {Refusal.OUT_OF_RANGE, Refusal.NO_LINK}),
    (Call(Kind.LABEL, 1, 25, 1), {Refusal.OUT_OF_RANGE, Refusal.MISSING}),
    (Call(Kind.PIPE, 0, 32, 32, 25), {Refusal.OUT_OF_RANGE, Refusal.SAME_TWICE}),
    (Call(Kind.TRUNCATE, 0, 1, 0, 255), {Refusal.OUT_OF_RANGE, Refusal.NO_FILE}),
    (Call(Kind.CREATE, 2, 5, 0, 25), {Refusal.DEAD_PROCESS, Refusal.TAKEN}),
    (Call(Kind.READ, 2, 0), {Refusal.DEAD_PROCESS, Refusal.DESCRIPTOR_CLOSED}),
    (Call(Kind.UNLINK, 2, 6), {Refusal.DEAD_PROCESS, Refusal.NAME_UNBOUND}),
    (Call(Kind.UNMAP, 2, 24), {Refusal.DEAD_PROCESS, Refusal.NO_LINK}),
    (Call(Kind.PIPE, 2, 0, 0, 25), {Refusal.DEAD_PROCESS, Refusal.SAME_TWICE}),
    (Call(Kind.OPEN, 0, 6, 0), {Refusal.TAKEN, Refusal.NAME_UNBOUND}),
    (Call(Kind.DUP, 0, 3, 0), {Refusal.TAKEN, Refusal.DESCRIPTOR_CLOSED}),
    (Call(Kind.LINK, 0, 6, 5), {Refusal.TAKEN, Refusal.NAME_UNBOUND}),
    (Call(Kind.PIPE, 0, 0, 0, 25), {Refusal.TAKEN, Refusal.SAME_TWICE}),
    (Call(Kind.PIPE, 0, 3, 3, 24), {Refusal.TAKEN, Refusal.SAME_TWICE}),
    (Call(Kind.LINK, 2, 6, 5), {Refusal.DEAD_PROCESS, Refusal.TAKEN, Refusal.NAME_UNBOUND}),
    (forbid(99, [], 7), {Refusal.UNKNOWN_KIND, Refusal.OUT_OF_RANGE}),
    (separate(3, 3, 2), {Refusal.UNKNOWN_KIND, Refusal.SAME_TWICE}),
    (forbid(1, [24], 2), {Refusal.UNKNOWN_KIND, Refusal.BROKEN_ALREADY}),
    (separate(64, 64), {Refusal.OUT_OF_RANGE, Refusal.SAME_TWICE}),
    (forbid(1, [24], 0, 1), {Refusal.OUT_OF_RANGE, Refusal.BROKEN_ALREADY}),
    (separate(1, 1), {Refusal.SAME_TWICE, Refusal.BROKEN_ALREADY}),
]

RULE_CASES: List[Case] = [
    (forbid(1, [], 2), {Refusal.UNKNOWN_KIND}),
    (confine(1, CONTAINERS, 255), {Refusal.UNKNOWN_KIND}),
    (separate(1, 3, 2), {Refusal.UNKNOWN_KIND}),
    (forbid(64, []), {Refusal.OUT_OF_RANGE}),
    (separate(1, 64), {Refusal.OUT_OF_RANGE}),
    (separate(64, 1), {Refusal.OUT_OF_RANGE}),
    (forbid(1, [], 0, 3), {Refusal.OUT_OF_RANGE}),
    (forbid(1, [], 1, 8), {Refusal.OUT_OF_RANGE}),
    (forbid(1, [], 1, 64), {Refusal.OUT_OF_RANGE}),
    (separate(3, 3), {Refusal.SAME_TWICE}),
    (separate(16, 16, 1, 63), {Refusal.SAME_TWICE, Refusal.BROKEN_ALREADY}),
    (forbid(1, [24]), {Refusal.BROKEN_ALREADY}),
    (forbid(1, [24], 1, 3), {Refusal.BROKEN_ALREADY}),
    (separate(1, 2), {Refusal.BROKEN_ALREADY}),
    (confine(16, []), {Refusal.BROKEN_ALREADY}),
    (confine(16, [3, 24]), {Refusal.BROKEN_ALREADY}),
]

FULL_CASES: List[Case] = [
    (forbid(40, []), {Refusal.RULES_FULL}),
    (separate(3, 4), {Refusal.RULES_FULL}),
    (confine(50, [], 1, 24), {Refusal.RULES_FULL}),
    (forbid(99, []), {Refusal.OUT_OF_RANGE, Refusal.RULES_FULL}),
    (forbid(40, [], 9), {Refusal.UNKNOWN_KIND, Refusal.RULES_FULL}),
    (separate(3, 3), {Refusal.SAME_TWICE, Refusal.RULES_FULL}),
    (forbid(1, [24]), {Refusal.RULES_FULL, Refusal.BROKEN_ALREADY}),
    (separate(2, 2), {Refusal.SAME_TWICE, Refusal.RULES_FULL, Refusal.BROKEN_ALREADY}),
    (
        separate(99, 99, 2),
        {Refusal.UNKNOWN_KIND, Refusal.OUT_OF_RANGE, Refusal.SAME_TWICE, Refusal.RULES_FULL},
    ),
]


COUNTED_CASES: List[Case] = [
    (Call(Kind.MAP_READ, 0, 0), {Refusal.COUNT_FULL}),
    (Call(Kind.MAP_BOTH, 0, 1), {Refusal.COUNT_FULL}),
    (Call(Kind.MAP_READ, 0, 0, 1), {Refusal.OUT_OF_RANGE, Refusal.COUNT_FULL}),
    (Call(Kind.MAP_BOTH, 0, 1, 0, 255), {Refusal.OUT_OF_RANGE, Refusal.COUNT_FULL}),
    (Call(Kind.MAP_READ, 0, 3), {Refusal.DESCRIPTOR_CLOSED}),
    (Call(Kind.MAP_READ, 1, 0), {Refusal.DESCRIPTOR_CLOSED}),
    (Call(Kind.TRUNCATE, 0, 1), {Refusal.NO_FILE}),
    (Call(Kind.UNMAP, 0, 24, 1), {Refusal.NO_LINK}),
    (Call(Kind.UNMAP, 0, 1, 0), {Refusal.NO_LINK}),
    (Call(Kind.UNMAP, 0, 25, 0), {Refusal.NO_LINK}),
    (Call(Kind.UNMAP, 0, 25, 2), {Refusal.OUT_OF_RANGE, Refusal.NO_LINK}),
    (Call(Kind.UNMAP, 1, 25, 1), {Refusal.NO_LINK}),
    (Call(Kind.UNMAP, 2, 25, 1), {Refusal.DEAD_PROCESS, Refusal.NO_LINK}),
]

# Calls beside them that pass.
COUNTED_PASSING = [
    Call(Kind.MAP_BOTH, 0, 0),
    Call(Kind.MAP_READ, 0, 1),
    Call(Kind.MAP_READ, 0, 2),
    Call(Kind.MAP_BOTH, 0, 2),
    Call(Kind.UNMAP, 0, 24, 0),
    Call(Kind.UNMAP, 0, 1, 1),
    Call(Kind.UNMAP, 0, 25, 1),
]


def test_numbers(checks: Checks, options: Options) -> None:
    checks.equal("kinds: numbers", [int(kind) for kind in Kind], list(range(1, 20)))
    checks.equal("refusals: the order of places", [int(refusal) for refusal in Refusal], ORDER)
    checks.equal("refusals: numbers", sorted(ORDER), list(range(1, 18)))
    said = [str(Kind.READ), f"{Kind.READ}", f"{Kind.READ:>3}", str(refused(Refusal.TAKEN))]
    checks.equal("numbers as they are written", said, ["8", "8", "  8", "refused 7"])


def check_cases(checks: Checks, setup: list, cases: List[Case]) -> None:
    """Check answer, applying refusals and unchanged state of each case."""
    for record, expected in cases:
        tracker = allows(setup)
        before = tracker.state.copy()
        data = encode(record)
        applying = frame_refusals(tracker.state, read_frame(data))
        checks.equal(f"{record}: refusals that apply", applying, expected)
        answer, _ = tracker.answer_record(data)
        first = min(expected, key=ORDER.index)
        checks.equal(f"{record}: answer", answer, refused(first))
        checks.equal(f"{record}: state", tracker.state, before)


FACT_CASES: List[Tuple[Union[Call, Rule], Fact]] = [
    (Call(20), Fact(Refusal.UNKNOWN_KIND, "kind", allowed=KINDS)),
    (Call(Kind.START, 16), Fact(Refusal.OUT_OF_RANGE, "process", allowed=PROCESSES)),
    (Call(Kind.EXIT, 15), Fact(Refusal.DEAD_PROCESS, "process", PROCESS)),
    (Call(Kind.FORK, 0, 1), Fact(Refusal.TAKEN, "a", PROCESS)),
    (Call(Kind.CREATE, 0, 6, 0, 25), Fact(Refusal.TAKEN, "b", DESCRIPTOR, containers=(24,))),
    (Call(Kind.CREATE, 0, 5, 2, 25), Fact(Refusal.TAKEN, "a", NAME, containers=(24,))),
    (Call(Kind.CREATE, 0, 6, 2, 24), Fact(Refusal.TAKEN, "c", CONTAINER)),
    (Call(Kind.READ, 1, 0), Fact(Refusal.DESCRIPTOR_CLOSED, "a", DESCRIPTOR)),
    (Call(Kind.UNLINK, 0, 6), Fact(Refusal.NAME_UNBOUND, "a", NAME)),
    (Call(Kind.UNMAP, 0, 24), Fact(Refusal.NO_LINK, "a", MAPPING)),
    (Call(Kind.LABEL, 0, 25, 1), Fact(Refusal.MISSING, "a", CONTAINER)),
    (Call(Kind.PIPE, 0, 3, 3, 25), Fact(Refusal.SAME_TWICE, "b", DESCRIPTOR)),
    (Call(Kind.TRUNCATE, 0, 1), Fact(Refusal.NO_FILE, "a", DESCRIPTOR, containers=(1,))),
    (forbid(1, [], 2), Fact(Refusal.UNKNOWN_KIND, "action", allowed=ACTIONS)),
    (separate(1, 64), Fact(Refusal.OUT_OF_RANGE, "second", allowed=ITEMS)),
    (forbid(1, [], 0, 3), Fact(Refusal.OUT_OF_RANGE, "substitute", allowed={0})),
    (separate(3, 3), Fact(Refusal.SAME_TWICE, "second")),
    (confine(16, [3, 24]), Fact(Refusal.BROKEN_ALREADY, containers=(2,))),
    (separate(1, 2), Fact(Refusal.BROKEN_ALREADY, containers=(24,))),
]


COUNTED_FACTS = [
    (Call(Kind.MAP_READ, 0, 0), Fact(Refusal.COUNT_FULL, "a", DESCRIPTOR, containers=(24,))),
    (Call(Kind.MAP_BOTH, 0, 1), Fact(Refusal.COUNT_FULL, "a", DESCRIPTOR, containers=(1,))),
    (Call(Kind.UNMAP, 0, 24, 1), Fact(Refusal.NO_LINK, "a", MAPPING)),
]


def test_facts(checks: Checks, options: Options) -> None:
    for setup, cases in ((SETUP, FACT_CASES), (COUNTED, COUNTED_FACTS)):
        state = allows(setup).state
        for record, fact in cases:
            checks.equal(f"{record}: facts", list(record_facts(state, record)), [fact])
    sorts = Fact(Refusal.OUT_OF_RANGE, "b", allowed=MAP_SORTS)
    facts = list(record_facts(allows(SETUP).state, Call(Kind.UNMAP, 0, 24, 2)))
    checks.equal("an unknown sort: facts", facts, [sorts, Fact(Refusal.NO_LINK, "a", MAPPING)])


def test_calls_refused(checks: Checks, options: Options) -> None:
    check_cases(checks, SETUP, CALL_CASES)


def test_counts_refused(checks: Checks, options: Options) -> None:
    check_cases(checks, COUNTED, COUNTED_CASES)
    for call in COUNTED_PASSING:
        checks.equal(f"{call}: passes", more(allows(COUNTED), [call]), ["allow 0"])


def test_rules_refused(checks: Checks, options: Options) -> None:
    check_cases(checks, SETUP, RULE_CASES)


def test_earliest_place(checks: Checks, options: Options) -> None:
    check_cases(checks, SETUP, SEVERAL_CASES)


# Document 02, Paper 2, on the state of SETUP.
PLACE_CASES: List[Tuple[str, Call, int]] = [
    ("dup of a closed descriptor, onto an open one", Call(Kind.DUP, 0, 3, 0), 7),
    ("dup of a closed descriptor, onto a closed one", Call(Kind.DUP, 0, 3, 2), 14),
    ("dup of a closed descriptor onto itself", Call(Kind.DUP, 0, 3, 3), 14),
    ("truncate of a closed descriptor", Call(Kind.TRUNCATE, 0, 3), 14),
    ("truncate of a device", Call(Kind.TRUNCATE, 0, 1), 10),
    ("read of a descriptor that another process has open", Call(Kind.READ, 1, 0), 14),
    ("read of a dead process", Call(Kind.READ, 2, 0), 6),
    ("open of an unbound name, as an open descriptor", Call(Kind.OPEN, 0, 6, 0), 7),
    ("open of an unbound name, as a closed one", Call(Kind.OPEN, 0, 6, 2), 15),
    ("link of an unbound name, to a bound one", Call(Kind.LINK, 0, 6, 5), 7),
    ("link of an unbound name, to an unbound one", Call(Kind.LINK, 0, 6, 7), 15),
    ("rename of an unbound name, to a bound one", Call(Kind.RENAME, 0, 6, 5), 15),
    ("unmap of a file in use", Call(Kind.UNMAP, 0, 24), 16),
    ("unmap of a file not in use", Call(Kind.UNMAP, 0, 25), 16),
    ("unmap of the other sort", Call(Kind.UNMAP, 0, 24, 1), 16),
    ("unmap of a sort that there is not", Call(Kind.UNMAP, 0, 24, 2), 5),
    ("unmap with a field that is not used", Call(Kind.UNMAP, 0, 24, 0, 1), 5),
    ("label of a file not in use", Call(Kind.LABEL, 0, 25, 1), 8),
    ("label of a dead process", Call(Kind.LABEL, 0, 10, 1), 8),
    ("pipe of one descriptor twice, closed", Call(Kind.PIPE, 0, 3, 3, 25), 9),
    ("pipe of one descriptor twice, open", Call(Kind.PIPE, 0, 0, 0, 25), 7),
]


def test_which_was_missing(checks: Checks, options: Options) -> None:
    for name, call, number in PLACE_CASES:
        checks.equal(name, more(allows(SETUP), [call]), [f"refused {number}"])
    live = allows([Call(Kind.START, 0)])
    for number, kinds in KINDS_OF_PLACE.items():
        for kind in kinds:
            answers = more(live, [Call(kind, 0, 24)])
            checks.equal(f"kind {kind}: what was missing", answers, [f"refused {number}"])


def test_one_of_a_place(checks: Checks, options: Options) -> None:
    """No call gets two of 8, 14, 15 and 16, and each number comes for its kinds alone."""
    near = (0, 1, 2, 3, 5, 6, 8, 10, 23, 24, 25, 31, 32, 63, 64, 127, 128, 255)
    rest = (0, 1, 5, 24, 25, 255)
    for name, records in (("fresh", []), ("setup", SETUP), ("run G", RUN_G)):
        state = allows(records).state
        found: Set[int] = set()
        wrong = []
        for fields in product(KINDS, (0, 1, 2, 16), near, rest, rest[:-1]):
            numbers = refusals(record_facts(state, Call(*fields))) & KINDS_OF_PLACE.keys()
            found |= numbers
            if len(numbers) > 1 or any(fields[0] not in KINDS_OF_PLACE[n] for n in numbers):
                wrong.append((fields, numbers))
        checks.equal(f"one of a place, {name}", wrong, [])
        checks.equal(f"one of a place, {name}: each occurs", found, set(KINDS_OF_PLACE))


def test_rules_full(checks: Checks, options: Options) -> None:
    check_cases(checks, FULL, FULL_CASES)


def test_rules_accepted(checks: Checks, options: Options) -> None:
    accepted = [forbid(1, []), confine(16, [2]), confine(50, []), separate(1, 16, 1, 63)]
    accepted += [forbid(1, [25], 1, substitute) for substitute in (0, 7, 24)] + [forbid(1, [25])]
    answers = Tracker()
    answers.state = allows(SETUP).state
    lines = [str(answers.answer_record(encode(rule))[0]) for rule in accepted]
    checks.equal("rules accepted", lines, [f"rule {n}" for n in range(len(accepted))])


# The ranges of document 01 and of Paper 4 by a letter, and each kind's fields by these letters.
RANGES = {
    "P": range(0, 16),
    "N": range(0, 128),
    "D": range(0, 32),
    "F": range(24, 64),
    "C": range(0, 64),
    "I": range(0, 64),
    "V": range(0, 8),
    "S": range(0, 2),
    "-": range(0, 1),
}
LAYOUTS = {
    Kind.START: "P---",
    Kind.OPEN: "PND-",
    Kind.CREATE: "PNDF",
    Kind.PIPE: "PDDF",
    Kind.DEVICE: "PDV-",
    Kind.DUP: "PDD-",
    Kind.CLOSE: "PD--",
    Kind.READ: "PD--",
    Kind.WRITE: "PD--",
    Kind.TRUNCATE: "PD--",
    Kind.MAP_READ: "PD--",
    Kind.MAP_BOTH: "PD--",
    Kind.UNMAP: "PCS-",
    Kind.UNLINK: "PN--",
    Kind.RENAME: "PNN-",
    Kind.LINK: "PNN-",
    Kind.FORK: "PP--",
    Kind.EXIT: "P---",
    Kind.LABEL: "-CI-",
}


def test_call_ranges(checks: Checks, options: Options) -> None:
    state = allows(SETUP).state
    for kind, layout in LAYOUTS.items():
        low = [RANGES[letter][0] for letter in layout]
        for index, letter in enumerate(layout):
            accepted = []
            for value in range(256):
                call = Call(kind, *low[:index], value, *low[index + 1 :])
                if Refusal.OUT_OF_RANGE not in refusals(record_facts(state, call)):
                    accepted.append(value)
            checks.equal(f"kind {kind}, field {index}: range", accepted, list(RANGES[letter]))


def test_rule_ranges(checks: Checks, options: Options) -> None:
    state = allows(SETUP).state
    diverted = [*range(0, 8), *range(24, 64)]
    tables = [
        ("item", lambda value: forbid(value, []), list(range(64))),
        ("first item", lambda value: separate(value, 63), list(range(64))),
        ("second item", lambda value: separate(0, value), list(range(64))),
        ("substitute of 0", lambda value: confine(1, CONTAINERS, 0, value), [0]),
        ("substitute of 1", lambda value: confine(1, CONTAINERS, 1, value), diverted),
    ]
    for name, make, expected in tables:
        facts = {value: record_facts(state, make(value)) for value in range(256)}
        accepted = [v for v in facts if Refusal.OUT_OF_RANGE not in refusals(facts[v])]
        checks.equal(f"rule {name}: range", accepted, expected)
    facts = {action: record_facts(state, forbid(1, [], action)) for action in range(256)}
    actions = [a for a in facts if Refusal.UNKNOWN_KIND not in refusals(facts[a])]
    checks.equal("rule action: range", actions, [0, 1])


def test_framing(checks: Checks, options: Options) -> None:
    start = encode(Call(Kind.START, 0))
    long_call = frame_bytes(CALL_TAG, start[3:] + bytes(256))
    cases = [
        ("one byte", b"\x10", "refused 1"),
        ("two bytes", b"\x10\x00", "refused 1"),
        ("no value", b"\x10\x00\x05", "refused 1"),
        ("value cut", start[:-1], "refused 1"),
        ("unknown tag, one byte", b"\xff", "refused 1"),
        ("unknown tag, cut", b"\x14\x00\x01", "refused 1"),
        ("wrong length, cut", b"\x10\x00\x06" + start[3:], "refused 1"),
        ("length low byte first", b"\x10\x05\x00" + start[3:], "refused 1"),
        ("bytes after a cut", b"\x10\xff\xff" + start + start, "refused 1"),
        ("unknown tag, no value", b"\x14\x00\x00", "refused 2"),
        ("tag before the first", frame_bytes(0x0F, start[3:]), "refused 2"),
        ("call, no value", b"\x10\x00\x00", "refused 3"),
        ("call, 4 bytes", frame_bytes(CALL_TAG, start[3:-1]), "refused 3"),
        ("call, 261 bytes", long_call, "refused 3"),
        ("rule, 4 bytes", frame_bytes(FORBID_TAG, bytes(4)), "refused 3"),
        ("whole", start, "allow 0"),
    ]
    for name, data, expected in cases:
        lines = [str(answer) for answer in Tracker().run_log(data)]
        checks.equal(f"framing: {name}", lines, [expected])
        if expected != "refused 1" and expected != "allow 0":
            lines = [str(answer) for answer in Tracker().run_log(data + start)]
            checks.equal(f"framing: {name}, then a call", lines, [expected, "allow 0"])


def test_several_logs(checks: Checks, options: Options) -> None:
    tracker = Tracker()
    start = encode(Call(Kind.START, 0))
    first = tracker.run_log(start + b"\x10")
    second = tracker.run_log(start)
    lines = [str(answer) for answer in first + second]
    checks.equal("a cut ends its log only", lines, ["allow 0", "refused 1", "refused 7"])


def test_items_query(checks: Checks, options: Options) -> None:
    tracker = allows(SETUP + [Call(Kind.LABEL, 0, 24, 63), Call(Kind.LABEL, 0, 24, 0)])
    checks.equal("items: bits", tracker.query_items(24), 1 << 63 | 0b111)
    checks.equal("items: none", tracker.query_items(63), 0)
    checks.equal("items: 64", tracker.query_items(64), refused(Refusal.OUT_OF_RANGE))
    checks.equal("items: 65,535", tracker.query_items(65535), refused(Refusal.OUT_OF_RANGE))


def test_holders_query(checks: Checks, options: Options) -> None:
    tracker = allows(SETUP + [Call(Kind.READ, 0, 0)])
    lent = [700, 701, 702, 703]
    checks.equal("holders: count", tracker.query_holders(1, lent), 2)
    checks.equal("holders: slice", lent, [8, 24, 702, 703])
    exact = [0, 0]
    checks.equal("holders: exact slice", tracker.query_holders(1, exact), 2)
    checks.equal("holders: exact slice filled", exact, [8, 24])
    short = [77]
    checks.equal("holders: short", tracker.query_holders(1, short), refused(Refusal.SLICE_SHORT))
    checks.equal("holders: short slice kept", short, [77])
    none = tracker.query_holders(64, [])
    checks.equal("holders: 5 before 13", none, refused(Refusal.OUT_OF_RANGE))
    kept = list(lent)
    checks.equal("holders: 64", tracker.query_holders(64, lent), refused(Refusal.OUT_OF_RANGE))
    checks.equal("holders: slice kept", lent, kept)
    checks.equal("holders: none in no slice", tracker.query_holders(63, []), 0)
