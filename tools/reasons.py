"""Why a record is refused, and what would have passed in its place.

The model gives the facts: which tests fail. WORDINGS puts each in words, with the
field to change and the values with which the test would pass. A record is offered in
place of a refused one only if it does what that one was meant to do: the number of
something new may be another one, and so may a field that the call does not use. Who
makes the call, what it is done to and which item it is about stay.
"""

from typing import Any, Callable, Dict, List, NamedTuple, Optional, Sequence, Tuple

from model import limits
from model.limits import COUNT_LIMIT, DESCRIPTORS, FILES, HEADER_LENGTH, ITEMS, MAP_SORTS, NAMES
from model.limits import PROCESSES, RULE_LIMIT, VALUE_LENGTHS, Kind, Refusal
from model.logtext import FORMS, SORT, Form
from model.records import CALL_FIELDS, RULE_ITEMS, Rule, read_frame, stated_length
from model.tracker import CONTAINER, DESCRIPTOR, MAPPED_SORTS, NAME, NEW_THINGS, PROCESS, UNUSED
from model.tracker import Fact, State, first_refusal, forbids, frame_facts, record_facts, refusals
from tools.phrases import WORD_OF_KIND
from tools.words import Words, joined, numbers_text, plural, set_words, sort_words, times

ENDS = ("from", "to")  # keys that do not say what they are keys to


class Failed(NamedTuple):
    """A test that a record fails, in words."""

    text: str
    field: str = ""  # the field to change; empty if no other value helps
    values: Sequence[Any] = ()  # those with which the test passes
    fitting: str = ""  # what these are called, as in: open one{s}
    advice: str = ""  # what else to do, or what to do if there are none
    offers: Sequence[Any] = ()  # those with which the record does what it was meant to do


class Case(NamedTuple):
    """What the words are about."""

    words: Words
    state: State
    data: bytes
    record: Any  # a Call or a Rule; None for refusals 1 to 3

    def facts(self) -> List[Fact]:
        """The tests that the record fails."""
        if self.record is None:
            return list(frame_facts(self.state, read_frame(self.data)))
        return list(record_facts(self.state, self.record))

    def value(self, fact: Fact) -> int:
        """What the field at fault says."""
        if fact.field in RULE_ITEMS:
            return self.record.items[RULE_ITEMS.index(fact.field)]
        return getattr(self.record, fact.field)

    def leads(self, descriptor: int) -> Optional[int]:
        """Where a descriptor of the caller leads."""
        return self.state.descriptors.get((self.record.process, descriptor))


class Reason(NamedTuple):
    """A refusal, and what becomes of the record once its tests are passed."""

    number: Refusal
    facts: List[Fact]
    failed: List[Failed]  # the same in words
    mended: Any  # the record as it was meant, with these tests passed; None if there is none
    then: Optional["Reason"]  # what the mended record is refused with


def refusal_number(state: State, record: Any) -> Optional[Refusal]:
    """What a record of a known tag and length is refused with."""
    found = refusals(record_facts(state, record))
    return first_refusal(found) if found else None


def replaced(record: Any, field: str, value: Any) -> Any:
    """A record with one field changed."""
    if field in RULE_ITEMS:
        items = list(record.items)
        items[RULE_ITEMS.index(field)] = value
        return record._replace(items=tuple(items))
    return record._replace(**{field: value})


# The words for the fields of a call, from the forms of the text.


def field_words(form: Form) -> Dict[str, str]:
    """The word for each field of a call."""
    words: List[str] = []
    for part in form.parts:
        key = part.keys[0].rstrip("=") if part.keys else "unused field"
        if key in ENDS:
            key = part.shape.partition("=")[2].lower()
        words += [key.rstrip("s") if part.size > 1 else key or "process"] * part.size
    return dict(zip(CALL_FIELDS, words))


FIELD_WORDS = {form.lead[0]: field_words(form) for form in FORMS if form.tag == limits.CALL_TAG}


def free_numbers(case: Case, field: str) -> List[int]:
    """The free numbers for something new that a field of a call names; none if it names none."""
    state = case.state
    thing = NEW_THINGS.get(case.record.kind, {}).get(field)
    if thing == PROCESS:
        return [process for process in PROCESSES if process not in state.live]
    if thing == DESCRIPTOR:
        return [d for d in DESCRIPTORS if case.leads(d) is None]
    if thing == NAME:
        return [number for number in NAMES if number not in state.names]
    if thing == CONTAINER:
        used = state.used()
        return [number for number in FILES if number not in used]
    return []


# Rows 1 to 5: the form of the record.


def cut_short(case: Case, fact: Fact) -> Failed:
    """Row 1."""
    length, whole = len(case.data), stated_length(case.data)
    where = "this record's header" if length < HEADER_LENGTH else "this record"
    there = "is there" if length == 1 else "are there"
    text = f"the log ends in {where}: {length} of {whole} bytes {there}"
    return Failed(text, advice="copy the log again, whole: reading ends here")


def unknown_tag(case: Case, fact: Fact) -> Failed:
    """Row 2."""
    known = joined(f"{tag:02x}" for tag in VALUE_LENGTHS)
    return Failed(f"tag {case.data[0]:02x} hex is unknown", advice=f"known tags are {known} hex")


def wrong_length(case: Case, fact: Fact) -> Failed:
    """Row 3."""
    found, tag = len(case.data) - HEADER_LENGTH, case.data[0]
    return Failed(f"a length of {found}, and tag {tag:02x} hex has length {VALUE_LENGTHS[tag]}")


def unknown_kind(case: Case, fact: Fact) -> Failed:
    """Row 4: the kind of a call, or the action of a rule."""
    text = f"{fact.field} {case.value(fact)} is unknown"
    return Failed(text, fact.field, list(fact.allowed), "known one{s}")


def out_of_range(case: Case, fact: Fact) -> Failed:
    """Row 5."""
    value, allowed = case.value(fact), sorted(fact.allowed)
    if isinstance(case.record, Rule):
        item = fact.field in RULE_ITEMS
        text = f"{'item' if item else fact.field} {value} is out of range"
        fitting = "item{s}" if item else f"one{{s}} for action {case.record.action}"
        return Failed(text, fact.field, allowed, fitting)
    kind = WORD_OF_KIND[case.record.kind]
    if fact.allowed == UNUSED:
        text = f"field {fact.field} is {value}, and {kind} does not use it"
        return Failed(text, fact.field, allowed, advice="it must be 0", offers=allowed)
    text = f"{FIELD_WORDS[case.record.kind][fact.field]} {value} is out of range"
    if fact.allowed == MAP_SORTS:
        known = f"sorts are {joined(map(sort_text, allowed))}"
        return Failed(text, fact.field, allowed, advice=known)
    fitting = f"number{{s}} for {kind} there"
    return Failed(text, fact.field, allowed, fitting, offers=free_numbers(case, fact.field))


def sort_text(sort: int) -> str:
    """A sort of mapping by its number, and by its word in a text."""
    return f"{sort} ({SORT.write(bytes([sort]))})"


# Rows 6 to 10, 14 to 16 in 8's place, and 17 after 10: the state.


def dead_process(case: Case, fact: Fact) -> Failed:
    """Row 6."""
    text = f"{case.words.process(case.value(fact))} is not live"
    none = "no process is live: start one first"
    return Failed(text, fact.field, sorted(case.state.live), "live one{s}", none)


def users(case: Case, container: int) -> str:
    """What keeps a container in use, in short."""
    state = case.state
    names = sorted(name for name, target in state.names.items() if target == container)
    found = [plural("name", names)] if names else []
    opened: Dict[int, List[int]] = {}
    for (process, descriptor), target in sorted(state.descriptors.items()):
        if target == container:
            opened.setdefault(process, []).append(descriptor)
    for process, numbers in opened.items():
        found.append(f"{plural('descriptor', numbers)} of process {process}")
    links = [case.words.link(*link) for link in sorted(state.links) if container in link]
    return joined([*found, *(f"link {link}" for link in links)])


def taken_words(case: Case, fact: Fact) -> Tuple[str, str, str]:
    """What is taken, what free ones are called, and what is said if there are none."""
    value, words = case.value(fact), case.words
    if fact.thing == PROCESS:
        return f"{words.process(value)} is live already", "one{s} not live", "every process is live"
    if fact.thing == CONTAINER:
        text = f"container {value} is in use by {users(case, value)}"
        return text, "free one{s}", "every container is in use"
    led = words.containers(fact.containers)
    if fact.thing == NAME:
        text = f"{words.name(value)} is bound and leads to {led}"
        return text, "unbound one{s}", "every name is bound"
    owner = words.process(case.record.process)
    text = f"descriptor {value} of {owner} is open and leads to {led}"
    return text, "closed one{s}", f"{owner} has every descriptor open: close one first"


def taken(case: Case, fact: Fact) -> Failed:
    """Row 7: a field names something new by a number that is taken."""
    text, fitting, none = taken_words(case, fact)
    free = free_numbers(case, fact.field)
    return Failed(text, fact.field, free, fitting, none, offers=free)


def missing(case: Case, fact: Fact) -> Failed:
    """8: a label's container is not in use."""
    value = case.value(fact)
    state_of_it = "live" if value in limits.PROCESS_CONTAINERS else "in use"
    text = f"{case.words.container(value)} is not {state_of_it}"
    return Failed(text, fact.field, sorted(case.state.used()), "container{s} in use")


def descriptor_closed(case: Case, fact: Fact) -> Failed:
    """14: the descriptor is closed; a truncate needs one that leads to a file or a pipe."""
    owner = case.words.process(case.record.process)
    text = f"descriptor {case.value(fact)} of {owner} is closed"
    files = case.record.kind == Kind.TRUNCATE
    kept = FILES if files else limits.CONTAINERS
    opened = [d for d in DESCRIPTORS if case.leads(d) in kept]
    fitting = "open one{s} with a file or pipe" if files else "open one{s}"
    none = "no file or pipe" if files else "none"
    return Failed(text, fact.field, opened, fitting, f"{owner} has {none} open: open one first")


def name_unbound(case: Case, fact: Fact) -> Failed:
    """15: the name is unbound."""
    text, bound = f"{case.words.name(case.value(fact))} is unbound", sorted(case.state.names)
    none = "no name is bound: create a file first"
    return Failed(text, fact.field, bound, "bound one{s}", none)


def no_link(case: Case, fact: Fact) -> Failed:
    """16: the caller has no mapping of the container that is of the sort in field b."""
    state, (_, process, container, sort, _) = case.state, case.record
    owner, how = case.words.process(process), sort_words(sort)
    text = f"{owner} has no mapping of {case.words.container(container)} {how}"
    others = [other for other in MAP_SORTS if state.count(process, container, other)]
    if others:
        has = f"it has some {sort_words(others[0])}, which is sort {sort_text(others[0])}"
        return Failed(text, "b", others, advice=has)
    mapped = sorted(key[1] for key in state.mappings if (key[0], key[2]) == (process, sort))
    none = f"it maps nothing {how}: map a descriptor first"
    return Failed(text, fact.field, mapped, f"container{{s}} that it maps {how}", none)


def same_twice(case: Case, fact: Fact) -> Failed:
    """Row 9."""
    value = case.value(fact)
    if isinstance(case.record, Rule):
        others = [item for item in ITEMS if item != value]
        return Failed(f"both items are {value}", fact.field, others, "other item{s}")
    others = [d for d in free_numbers(case, fact.field) if d != value]
    text, none = f"both descriptors are {value}", "no other descriptor is closed"
    return Failed(text, fact.field, others, "other closed one{s}", none, offers=others)


def no_file(case: Case, fact: Fact) -> Failed:
    """Row 10."""
    text = f"descriptor {case.value(fact)} leads to {case.words.containers(fact.containers)}"
    files = [d for d in DESCRIPTORS if case.leads(d) in FILES]
    none = "only a file or a pipe can be truncated, and none is open"
    return Failed(text, fact.field, files, "one{s} with a file or pipe", none)


def count_full(case: Case, fact: Fact) -> Failed:
    """17: the mapping would be one too many."""
    process, sort = case.record.process, MAPPED_SORTS[case.record.kind]
    how = f"{sort_words(sort)} {times(COUNT_LIMIT)}"
    what = f"{case.words.process(process)} maps {case.words.containers(fact.containers)}"
    fewer = [
        descriptor
        for descriptor in DESCRIPTORS
        for container in [case.leads(descriptor)]
        if container is not None and case.state.count(process, container, sort) < COUNT_LIMIT
    ]
    text = f"{what} {how}, the most there can be: unmap it once first"
    return Failed(text, fact.field, fewer, "descriptor{s} with fewer mappings")


# Rows 11 and 12: rules.


def rules_full(case: Case, fact: Fact) -> Failed:
    """Row 11."""
    text = f"{RULE_LIMIT} rules are held, the most there can be"
    return Failed(text, advice="a rule cannot be removed: put fewer rules into the log")


def protects(rule: Rule) -> bool:
    """Whether a rule with a set of containers keeps its item out of any."""
    return any(forbids(rule, container, rule.items[0]) for container in limits.CONTAINERS)


def broken_already(case: Case, fact: Fact) -> Failed:
    """Row 12; a rule that leaves out what breaks it is offered if it protects something else."""
    rule, words, places = case.record, case.words, fact.containers
    hold = "holds" if len(places) == 1 else "hold"
    text = f"{words.containers(places)} {hold} {joined(map(words.item, rule.items))} now"
    if rule.tag == limits.SEPARATE_TAG:
        return Failed(text, advice="load the rule before the two items meet")
    fixed = rule.containers.symmetric_difference(places)
    if not protects(rule._replace(containers=fixed)):
        return Failed(text, advice="load the rule before the item gets there")
    change = "without {} in its set" if rule.tag == limits.FORBID_TAG else "with {} in its set too"
    open_now = f"{change.format(set_words(words, places))}, which it would not protect"
    advice = f"it would be loaded {open_now}, or before the item gets there"
    return Failed(text, "containers", [fixed], advice=advice, offers=[fixed])


WORDINGS: Dict[Refusal, Callable[[Case, Fact], Failed]] = {
    Refusal.CUT_SHORT: cut_short,
    Refusal.UNKNOWN_TAG: unknown_tag,
    Refusal.WRONG_LENGTH: wrong_length,
    Refusal.UNKNOWN_KIND: unknown_kind,
    Refusal.OUT_OF_RANGE: out_of_range,
    Refusal.DEAD_PROCESS: dead_process,
    Refusal.TAKEN: taken,
    Refusal.MISSING: missing,
    Refusal.DESCRIPTOR_CLOSED: descriptor_closed,
    Refusal.NAME_UNBOUND: name_unbound,
    Refusal.NO_LINK: no_link,
    Refusal.SAME_TWICE: same_twice,
    Refusal.NO_FILE: no_file,
    Refusal.COUNT_FULL: count_full,
    Refusal.RULES_FULL: rules_full,
    Refusal.BROKEN_ALREADY: broken_already,
}


# What would have passed.


def mend(case: Case, failed: List[Failed]) -> Any:
    """The record as it was meant, with the failed tests passed; None if there is none."""
    if case.record is None or not all(test.offers for test in failed):
        return None
    record = case.record
    for test in failed:
        others = [replaced(record, test.field, value) for value in test.offers]
        record = next((other for other in others if not is_same_twice(case, other)), others[0])
    passing = (other for other in others if refusal_number(case.state, other) is None)
    return next(passing, record)


def is_same_twice(case: Case, record: Any) -> bool:
    """Whether row 9 applies to a record in the place of the refused one."""
    return Refusal.SAME_TWICE in refusals(record_facts(case.state, record))


def reason_of(case: Case, number: Refusal) -> Reason:
    """The refusal with a number, taken apart."""
    facts = [fact for fact in case.facts() if fact.refusal == number]
    failed = [WORDINGS[number](case, fact) for fact in facts]
    mended = mend(case, failed)
    then = refusal_number(case.state, mended) if mended is not None else None
    following = reason_of(case._replace(record=mended), then) if then is not None else None
    return Reason(number, facts, failed, mended, following)


def failed_text(test: Failed) -> str:
    """A failed test, and what would have passed, in words."""
    if not test.values or not test.fitting:
        return f"{test.text}; {test.advice}" if test.advice else test.text
    if len(test.values) == 1:
        return f"{test.text}; the only {test.fitting.format(s='')} is {numbers_text(test.values)}"
    return f"{test.text}; {test.fitting.format(s='s')} are {numbers_text(test.values)}"
