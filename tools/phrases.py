"""Calls, rules, answers and the hops of an item in words: the tables by kind, tag and answer.

A new kind of call is a line in CALLS and, if it gives items, one in HOPS. A new
sort of rule is a line in RULES, a new answer one in ANSWERS.
"""

from typing import Any, Dict

from model.limits import CALL_TAG, CONFINE_TAG, DEVICES, DIVERT_ACTION, FORBID_TAG, INHIBIT_ACTION
from model.limits import KINDS, PROCESS_CONTAINERS, SEPARATE_TAG, Kind
from model.logtext import FORMS, counted
from model.records import Call, Rule
from model.tracker import Answer, State
from tools.provenance import DONE, Origin
from tools.words import Words, set_words, sort_words


class Verb:
    """A verb in a sentence on a call, as in {do:writes/write}: writes, or would write."""

    def __init__(self, done: bool, would: str = "would ") -> None:
        self.done = done
        self.would = would

    def __format__(self, forms: str) -> str:
        does, would_do = forms.split("/")
        return does if self.done else self.would + would_do


def verbs(done: bool) -> Dict[str, Verb]:
    """The first verb of a sentence and the further ones, of a call that is done or is not."""
    return {"do": Verb(done), "also": Verb(done, would="")}


# A call. {through} is descriptor a and where it leads before the call; {through_on} goes on.
CALLS: Dict[int, str] = {
    Kind.START: "{process} {do:starts/start}",
    Kind.OPEN: "{process} {do:opens/open} {name_a} as descriptor {b}",
    Kind.CREATE: "{process} {do:creates/create} {name_a} as a new file, container {c}, open as "
    "descriptor {b}",
    Kind.PIPE: "{process} {do:makes/make} a new pipe, container {c}, open as descriptors {a} and "
    "{b}",
    Kind.DEVICE: "{process} {do:opens/open} {device_b} as descriptor {a}",
    Kind.DUP: "{process} {do:copies/copy} {through_on} to descriptor {b}",
    Kind.CLOSE: "{process} {do:closes/close} {through}",
    Kind.READ: "{process} {do:reads/read} from {through}",
    Kind.WRITE: "{process} {do:writes/write} to {through}",
    Kind.TRUNCATE: "{process} {do:truncates/truncate} {through}",
    Kind.MAP_READ: "{process} {do:maps/map} {through}, for reading",
    Kind.MAP_BOTH: "{process} {do:maps/map} {through}, both ways",
    Kind.UNMAP: "{process} {do:unmaps/unmap} {container_a}, one mapping {sort_b}",
    Kind.UNLINK: "{process} {do:unlinks/unlink} {name_a}",
    Kind.RENAME: "{process} {do:renames/rename} {name_a} to {name_b}",
    Kind.LINK: "{process} {do:makes/make} {name_b} lead where {name_a} leads",
    Kind.FORK: "{process} {do:forks/fork} {child}",
    Kind.EXIT: "{process} {do:exits/exit}",
    Kind.LABEL: "{item_b} {do:comes/come} in from outside and {also:is/be} given to {container_a}",
}

# How an item gets on by a call.
HOPS: Dict[int, str] = {
    Kind.READ: "{target} {do:reads/read} it from {giver}",
    Kind.WRITE: "{giver} {do:writes/write} it to {target}",
    Kind.MAP_READ: "{target} {do:maps/map} {giver} for reading",
    Kind.MAP_BOTH: "{process} {do:maps/map} {mapped} both ways",
    Kind.FORK: "{target} {do:is/be} forked from {giver}",
    Kind.LABEL: "it {do:comes/come} in from outside, by a label of {target}",
}
DIVERTED = "{giver} writes it, and rule {rule} diverts the write to {target}"

# A rule, and what becomes of a call that would break it.
RULES: Dict[int, str] = {
    FORBID_TAG: "{first} may not be in {containers}",
    SEPARATE_TAG: "no container may hold both {first} and {second}",
    CONFINE_TAG: "{first} may be in {containers} only",
}
EMPTY_RULES: Dict[int, str] = {  # with an empty set
    FORBID_TAG: "{first} may be anywhere, for the set is empty",
    CONFINE_TAG: "{first} may be nowhere, for the set is empty",
}
ACTIONS: Dict[int, str] = {
    INHIBIT_ACTION: "a call that would break it is inhibited",
    DIVERT_ACTION: "a write that would break it is diverted to {substitute}",
}

# An answer. Behind it stands how many containers gained, where any did.
ANSWERS: Dict[str, str] = {
    "allow": "the call is done",
    "rule": "the rule is loaded, as rule {0}",
    "inhibit": "it would break rule {0}, and nothing is done",
    "modify": "it would break rule {0}, and the write goes to {substitute} instead",
    "refused": "nothing is done",
}

GAINED = "{meaning}; {containers} gained an item"

# Why a call that breaks a diverting rule is not diverted, by the model's words.
OBSTACLES: Dict[str, str] = {
    "action inhibits": "",
    "not a write": "rule {rule} diverts writes only, and this is no write",
    "substitute not in use": "rule {rule} cannot divert it: {substitute} is not in use",
    "diverted write breaks a rule": "rule {rule} cannot divert it: a write to {substitute} would "
    "break rule {broken}",
}

WORD_OF_KIND = {form.lead[0]: form.word for form in FORMS if form.tag == CALL_TAG}


def through_text(words: Words, call: Call, state: State, end: str = "") -> str:
    """Descriptor a of the caller, and where it leads, with an end of that."""
    target = state.descriptors.get((call.process, call.a))
    led = "" if target is None else f", {words.container(target)}{end}"
    return f"descriptor {call.a}{led}"


def call_text(words: Words, call: Call, state: State, done: bool) -> str:
    """A call in words, by the state before it; one that is not done as it stands would do so."""
    if call.kind not in KINDS:
        return f"a call of kind {call.kind}, which is unknown"
    return CALLS[call.kind].format(
        **verbs(done),
        process=words.process(call.process),
        a=call.a,
        b=call.b,
        c=call.c,
        through=through_text(words, call, state),
        through_on=through_text(words, call, state, end=","),
        name_a=words.name(call.a),
        name_b=words.name(call.b),
        container_a=words.container(call.a),
        sort_b=sort_words(call.b),
        device_b=words.container(call.b) if call.b in DEVICES else f"device {call.b}",
        child=words.process(call.a),
        item_b=words.item(call.b),
    )


def rule_text(words: Words, rule: Rule) -> str:
    """What a rule asks, in words."""
    first, last = rule.items[0], rule.items[-1]
    shapes = RULES if rule.containers else {**RULES, **EMPTY_RULES}
    return shapes[rule.tag].format(
        first=words.item(first),
        second=words.item(last),
        containers=set_words(words, rule.containers, "or" if rule.tag == FORBID_TAG else "and"),
    )


def action_text(words: Words, rule: Rule) -> str:
    """What becomes of a call that would break a rule."""
    wrong = f"with an unknown action, {rule.action}"
    return ACTIONS.get(rule.action, wrong).format(substitute=words.container(rule.substitute))


def sentence(words: Words, record: Any, state: State, done: bool) -> str:
    """A record in words; a call that is not done as it stands is said to be one that would."""
    if record is None:
        return "bytes that are no record of a known tag and length"
    if isinstance(record, Call):
        return call_text(words, record, state, done)
    return f"a rule: {rule_text(words, record)}; {action_text(words, record)}"


def answer_meaning(words: Words, answer: Answer) -> str:
    """An answer in words."""
    substitute = words.container(answer.numbers[1]) if answer.word == "modify" else ""
    meaning = ANSWERS[answer.word].format(*answer.numbers, substitute=substitute)
    gained = answer.numbers[-1] if answer.word in DONE else 0
    if not gained:
        return meaning
    return GAINED.format(meaning=meaning, containers=counted(gained, "container"))


def hop_text(words: Words, origin: Origin, done: bool) -> str:
    """How an item got on by the record of an origin, or would have; links left out."""
    target = origin.path[0]
    ends = sorted((target, target if origin.giver is None else origin.giver))
    process = next((end for end in ends if end in PROCESS_CONTAINERS), ends[0])
    mapped = next((end for end in ends if end != process), ends[-1])
    return (HOPS[origin.kind] if origin.rule is None else DIVERTED).format(
        **verbs(done),
        giver="" if origin.giver is None else words.container(origin.giver),
        target=words.container(target),
        process=words.container(process),
        mapped=words.container(mapped),
        rule=origin.rule,
    )
