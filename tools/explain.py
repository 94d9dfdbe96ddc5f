"""What a record does and why it gets its answer, in words."""

from typing import Dict, List, NamedTuple, Optional, Tuple

from model.limits import RULE_LIMIT, Kind, Refusal
from model.logtext import REFUSAL_WORDS, record_text
from model.records import Call, Rule, encode
from model.tracker import CONTAINER, DESCRIPTOR, LACKED, MAPPING, NAME, Answer
from model.tracker import broken_places, broken_rules, divert, divert_obstacle, judge, load_rule
from tools.changes import Changes, changes_between
from tools.mappings import counted_lines, lasting_links, mapping_changes
from tools.names import NO_OWN, Own
from tools.phrases import OBSTACLES, answer_meaning, hop_text, rule_text, sentence
from tools.provenance import DONE, Moment, Origin, Step, chain, gifts_of
from tools.reasons import Case, Reason, failed_text, reason_of
from tools.words import Words, joined, numbers_text, plural, short

SHOWN_BYTES = 16  # of a raw value
GIVING = (Kind.READ, Kind.WRITE)
OFFERED = ("allow", "rule")  # answers to a record that does what it says

Line = Tuple[int, str]  # how deep it stands, and the text


class Explanation(NamedTuple):
    """All that is said of a record."""

    number: int
    record: str  # as a line of a readable log
    answer: str  # as the program writes it, with the bench's word for a refusal
    sentence: str  # the record in words
    meaning: str  # the answer in words
    why: List[Line]
    gains: List[str]  # a line for each container that gained; these stand among the changes too
    changes: List[str]  # one at least, if only to say that nothing changed


def answer_text(answer: Answer) -> str:
    """An answer, a refusal with the bench's word."""
    if answer.word != "refused":
        return str(answer)
    return f"{answer} ({REFUSAL_WORDS[answer.numbers[0]]})"


# The way of an item.


def path_text(origin: Origin) -> str:
    """The links of an origin, each with the record in which it began."""
    links = zip(origin.path, origin.path[1:], origin.began)
    return ", ".join(f"{short(u)} -> {short(v)} (record {n})" for u, v, n in links)


def way_lines(
    words: Words, origin: Origin, depth: int, present: Optional[int] = None
) -> List[Line]:
    """The way of an item, a line for each record of it; the present one is not done."""
    lines = []
    for step in chain(origin):
        done = step.record != present
        place = f"record {step.record}" if done else "this record"
        text = f"{place}: {hop_text(words, step, done)}"
        if len(step.path) > 1:
            carry = "carry" if done else "would carry"
            text += f"; links {carry} it on to {words.container(step.path[-1])}: {path_text(step)}"
        lines.append((depth, text))
    return lines


def place_lines(
    words: Words, moment: Moment, rule: Rule, container: int, present: int
) -> List[Line]:
    """The ways of a rule's items to a container that breaks it."""
    lines: List[Line] = []
    for item in rule.items:
        lines.append((0, f"the way of item {item} to {words.plain(container)}:"))
        lines += way_lines(words, moment.origins[container, item], 1, present)
    return lines


# Rules that would be broken.


def nearest(moment: Moment, rule: Rule, places: List[int], number: int) -> List[int]:
    """The places that break a rule, those first to which this record has the shortest way."""

    def distance(container: int) -> Tuple[int, int]:
        ways = [moment.origins[container, item] for item in rule.items]
        return min((len(w.path) for w in ways if w.record == number), default=0), container

    return sorted(places, key=distance)


def broken_lines(words: Words, step: Step, moment: Moment) -> List[Line]:
    """The rule that a call would break, where, and how the items get there."""
    number = step.answer.numbers[0]
    rule = moment.state.rules[number]
    lines = [(0, f"rule {number} (record {moment.loaded[number]}): {rule_text(words, rule)}")]
    first, *others = nearest(moment, rule, broken_places(moment.state, rule), step.number)
    items = joined(map(words.item, rule.items))
    lines.append((0, f"{words.container(first)} would hold {items}"))
    if others:
        lines.append((0, f"so would {words.containers(others)}"))
    return lines + place_lines(words, moment, rule, first, step.number)


def obstacle_lines(words: Words, step: Step) -> List[Line]:
    """Why an inhibited call is not diverted, if its rule diverts."""
    state, call = step.before.state, step.record
    number = step.answer.numbers[0]
    rule = state.rules[number]
    obstacle = divert_obstacle(state, call, rule) or "action inhibits"
    broken = broken_rules(divert(state, call, rule)) if obstacle.startswith("diverted") else []
    text = OBSTACLES[obstacle].format(
        rule=number, substitute=words.container(rule.substitute), broken=numbers_text(broken[:1])
    )
    return [(0, text)] if text else []


# Refusals.

# What became of a thing that is missing: a record ended it, or none ever made it.
PASTS: Dict[str, Tuple[str, str]] = {
    DESCRIPTOR: ("record {} closed it", "no earlier record opened it"),
    NAME: ("record {} unbound it", "no earlier record bound it"),
    MAPPING: ("record {} ended the last one", "no earlier record made one"),
    CONTAINER: ("record {} ended its use", "no earlier record brought it into use"),
}


def past_text(step: Step, thing: str) -> str:
    """Since when the thing that field a of a call names is missing."""
    call = step.record
    keys = {
        DESCRIPTOR: (call.process, call.a),
        NAME: (call.a,),
        MAPPING: (call.process, call.a, call.b),
        CONTAINER: (call.a,),
    }
    ended, never = PASTS[thing]
    record = step.before.ended.get((thing, *keys[thing]))
    return never if record is None else ended.format(record)


def mended_lines(step: Step, reason: Reason) -> List[Line]:
    """A record that does what was meant, with what it would get; none if it would be stopped."""
    while reason.then is not None:
        reason = reason.then
    record = reason.mended
    if record is None:
        return []
    state = step.before.state
    answer, _ = judge(state, record) if isinstance(record, Call) else load_rule(state, record)
    if answer.word not in OFFERED:
        return []
    return [(0, f"in its place this gets {answer}: {record_text(encode(record))}")]


def refusal_lines(words: Words, step: Step) -> List[Line]:
    """Which tests failed, and what would have passed."""
    number = step.answer.numbers[0]
    case = Case(words, step.before.state, step.data, step.record)
    first = reason = reason_of(case, number)
    lines = [(0, text) for text in dict.fromkeys(map(failed_text, reason.failed))]
    while reason.then is not None:
        reason = reason.then
        failed = "; ".join(map(failed_text, reason.failed))
        word = REFUSAL_WORDS[reason.number]
        lines.append((0, f"with that mended, refused with {reason.number} ({word}): {failed}"))
    if number in (Refusal.NO_LINK, Refusal.COUNT_FULL):
        lines += [(0, text) for text in counted_lines(words, step)]
    if number in LACKED.values():
        lines.append((0, past_text(step, first.facts[0].thing)))
    if number == Refusal.BROKEN_ALREADY:
        place = first.facts[0].containers[0]
        lines += place_lines(words, step.before, step.record, place, step.number)
    return lines + mended_lines(step, first)


# Changes.


def gain_lines(words: Words, step: Step, changes: Changes) -> List[str]:
    """The containers that gained, the nearest first, with the items, and the links on the way."""
    gains = []
    for container, items in changes.gained.items():
        paths = sorted({step.after.origins[container, item].path for item in items}, key=len)
        over = [" -> ".join(map(short, path)) for path in paths if len(path) > 1]
        along = f", over {joined(over)}" if over else ""
        text = f"{words.container(container)} gained {words.items(items)}{along}"
        gains.append((len(paths[0]), container, text))
    return [text for _, _, text in sorted(gains)]


def loss_lines(words: Words, changes: Changes) -> List[str]:
    """What was emptied."""
    return [
        f"{words.container(container)} was emptied: {words.items(items)} gone"
        for container, items in changes.lost.items()
    ]


def descriptor_changes(words: Words, changes: Changes) -> List[str]:
    """Which descriptors lead elsewhere, those of one process with one target together."""
    groups: Dict[Tuple, List[int]] = {}
    for (process, descriptor), ends in changes.descriptors.items():
        groups.setdefault((process, ends), []).append(descriptor)
    lines = []
    for (process, (before, after)), numbers in groups.items():
        which = f"{plural('descriptor', numbers)} of {words.process(process)}"
        many = len(numbers) > 1
        if after is None:
            led = f"{'are' if many else 'is'} closed; before: {words.container(before)}"
        else:
            led = f"{'lead' if many else 'leads'} to {words.container(after)}"
        lines.append(f"{which} {led}")
    return lines


def name_changes(words: Words, changes: Changes) -> List[str]:
    """Which names lead elsewhere."""
    lines = []
    for name, (before, after) in changes.names.items():
        was = f"; before: {words.container(before)}" if before is not None else ""
        now = "is unbound" if after is None else f"leads to {words.container(after)}"
        lines.append(f"{words.name(name)} {now}{was}")
    return lines


def change_lines(words: Words, step: Step, changes: Changes, gains: List[str]) -> List[str]:
    """All that a record changed, a line each; none if nothing."""
    lines = [f"{words.process(process)} is live" for process in changes.started]
    lines += [f"{words.process(process)} is dead" for process in changes.ended]
    lines += [f"{words.container(container)} is in use" for container in changes.used]
    lines += gains + loss_lines(words, changes)
    lines += mapping_changes(words, step, changes)
    lines += [f"link began: {words.link(*link)}" for link in changes.linked]
    lines += [f"link ended: {words.link(*link)}" for link in changes.unlinked]
    lines += lasting_links(words, step, changes)
    lines += name_changes(words, changes)
    lines += descriptor_changes(words, changes)
    lines += [f"{words.container(container)} is no longer in use" for container in changes.freed]
    rules = len(step.after.state.rules)
    held = f"{rules} of {RULE_LIMIT} rules {'is' if rules == 1 else 'are'} held"
    return lines + [held for _ in changes.rules]


def idle_text(words: Words, step: Step) -> str:
    """Why a call that is done changes nothing."""
    state, call = step.before.state, step.record
    if call.kind == Kind.TRUNCATE:
        file = state.descriptors[call.process, call.a]
        link = min((link for link in state.links if link[1] == file), default=None)
        if link is None:
            return f"nothing: {words.container(file)} is empty already"
        into = f"{words.link(*link)} (record {step.before.began[link]})"
        return f"nothing: {words.container(file)} is not emptied, for a link leads into it: {into}"
    given = [
        f"{words.container(target)} holds {what} already"
        for giver, target in gifts_of(call, step.answer, state)
        for what in [words.items({call.b} if giver is None else state.items[giver])]
        if what != "nothing"
    ]
    if given:
        return f"nothing: {joined(given)}"
    return "nothing" + (": there was nothing to give" if call.kind in GIVING else "")


# All of it.


def why_lines(words: Words, step: Step) -> List[Line]:
    """What is said of an answer beyond its meaning."""
    if step.answer.word == "refused":
        return refusal_lines(words, step)
    if step.judged is None:
        return []
    lines = broken_lines(words, step, step.judged)
    return lines + (obstacle_lines(words, step) if step.answer.word == "inhibit" else [])


def explain(step: Step, own: Own = NO_OWN) -> Explanation:
    """A record and its answer in words."""
    words = Words(own, step.after.sorts)
    said = Words(own, step.before.sorts)
    done = isinstance(step.record, Call) and step.answer.word in DONE
    changed = changes_between(step.before.state, step.after.state)
    gains = gain_lines(words, step, changed)
    changes = change_lines(words, step, changed, gains)
    if not changes:
        changes = [idle_text(words, step) if done else "nothing"]
    return Explanation(
        step.number,
        record_text(step.data, SHOWN_BYTES),
        answer_text(step.answer),
        sentence(said, step.record, step.before.state, step.answer.word == "allow"),
        answer_meaning(words, step.answer),
        why_lines(words, step),
        gains,
        changes,
    )
