"""Properties of explain and draw on many random logs, checked by means of their own."""

import re
from collections import Counter
from typing import Any, Callable, Dict, Iterator, List, Optional, Set, Tuple
from xml.etree import ElementTree

from model import tracker
from model.choices import Choices
from model.limits import CONTAINERS, DEVICES, FILES, FORBID_TAG, ITEMS, KINDS, RECORD_REFUSALS
from model.limits import Kind, process_container
from model.logtext import assemble_line
from model.records import Call, Rule, encode, read_frame
from model.tracker import State, Tracker, frame_refusals
from tests.logtests.randomlogs import log_generator
from tests.tools import drawing
from tests.tools.mapped import Ledger, mapping_faults
from tests.tools.session import Session, logtool
from tools import page
from tools.changes import Changes, changes_between
from tools.draw import svg_text
from tools.explain import Explanation, explain
from tools.names import NO_OWN
from tools.provenance import DONE, Origin, Step, chain, record_of, steps_of
from tools.reasons import Case, Reason, reason_of, replaced
from tools.report import full_lines
from tools.scene import Painter, all_contents, pair_of, plan_of
from tools.views import View, view_at, views_of
from tools.words import Words

RECORDS = range(20, 51)  # of a log
LONG = 300  # of a few logs
LONG_EVERY = 100  # logs, one of which is long
CLIMBING = 420  # of a few others, in which a count of mappings climbs to its limit
CLIMBING_EVERY = 60  # logs, one of which is such
RULES_FIRST = 4  # rules at the front of a log, at most
PAGE_EVERY = 20  # logs, one of which becomes a page
PROGRAM_LOGS = 12
PROGRESS = 200

WORDS = ("allow", "inhibit", "modify", "rule", "refused")


def make_log(seed: int) -> bytes:
    """The log of a seed: of a modest length, with a few rules at its front."""
    count = LONG if seed % LONG_EVERY == 0 else RECORDS[seed % len(RECORDS)]
    count = CLIMBING if seed % CLIMBING_EVERY == 30 else count
    generator = log_generator(seed, count)
    generator.first = min(generator.first, RULES_FIRST)
    records = [generator.record() for _ in range(count)]
    if generator.choices.chance(generator.mix.cut):
        records.append(generator.cut_record())
    return b"".join(records)


# Where items come from.


def gives(call: Call, state: State) -> Set[Tuple[Optional[int], int]]:
    """Giver and receiver of a call's gifts, by document 01's table of calls."""
    there = state.descriptors.get((call.process, call.a), -1)
    me = call.caller
    table = {
        Kind.READ: {(there, me)},
        Kind.WRITE: {(me, there)},
        Kind.MAP_READ: {(there, me)},
        Kind.MAP_BOTH: {(there, me), (me, there)},
        Kind.FORK: {(me, process_container(call.a))},
        Kind.LABEL: {(None, call.a)},
    }
    return table.get(call.kind, set())


def hop_fault(steps: List[Step], hop: Origin, item: int) -> str:
    """What is wrong with one hop of an item."""
    step = steps[hop.record - 1]
    before, call = step.before.state, step.record
    if step.answer.word not in DONE or not isinstance(call, Call):
        return f"record {hop.record} was not done"
    pairs = (
        {(call.caller, step.answer.numbers[1])}
        if step.answer.word == "modify"
        else gives(call, before)
    )
    if (hop.giver, hop.path[0]) not in pairs:
        return f"record {hop.record} gives nothing from {hop.giver} to {hop.path[0]}"
    if hop.giver is None and (call.kind, call.b) != (Kind.LABEL, item):
        return f"record {hop.record} is no label of item {item}"
    if hop.giver is not None and item not in before.items[hop.giver]:
        return f"container {hop.giver} did not hold item {item} before record {hop.record}"
    for link, began in zip(zip(hop.path, hop.path[1:]), hop.began):
        states = [steps[number].before.state for number in range(began, hop.record)]
        if link in steps[began - 1].before.state.links or not all(link in s.links for s in states):
            return f"link {link} did not last from record {began} to {hop.record}"
    if item in before.items[hop.path[-1]] or item not in step.after.state.items[hop.path[-1]]:
        return f"container {hop.path[-1]} did not gain item {item} in record {hop.record}"
    return ""


def way_fault(steps: List[Step], container: int, item: int, origin: Origin) -> str:
    """What is wrong with the way of an item to a container that holds it."""
    way = chain(origin)
    if way[0].giver is not None or way[-1].path[-1] != container:
        return "the way does not lead from a label to the holder"
    for first, second in zip(way, way[1:]):
        if first.path[-1] != second.giver or first.record >= second.record:
            return f"record {second.record} does not go on from record {first.record}"
    return next(filter(None, (hop_fault(steps, hop, item) for hop in way)), "")


def provenance_faults(steps: List[Step]) -> Iterator[str]:
    """What is wrong with the ways of all that is held at any moment."""
    known: Set[int] = set()
    for step in steps:
        for moment in filter(None, [step.after, step.judged]):
            held = {(c, i) for c in CONTAINERS for i in moment.state.items[c]}
            if held != set(moment.origins):
                yield f"record {step.number}: ways for {sorted(set(moment.origins) ^ held)[:3]}"
        for (container, item), origin in step.after.origins.items():
            if id(origin) not in known:
                known.add(id(origin))
                fault = way_fault(steps, container, item, origin)
                if fault:
                    yield f"record {step.number}, item {item} in {container}: {fault}"


# Changes.


def moved(table: Dict, moves: Dict) -> Dict:
    """A table with some entries leading elsewhere."""
    changed = {**table, **{key: after for key, (_, after) in moves.items()}}
    return {key: target for key, target in changed.items() if target is not None}


def applied(state: State, changes: Changes) -> State:
    """A state with changes made to it."""
    items = {
        c: (state.items[c] - changes.lost.get(c, frozenset())) | changes.gained.get(c, frozenset())
        for c in CONTAINERS
    }
    mappings = {**state.mappings, **{key: after for key, (_, after) in changes.mapped.items()}}
    return State(
        (state.live | {*changes.started}) - {*changes.ended},
        items,
        {key: count for key, count in mappings.items() if count},
        moved(state.names, changes.names),
        moved(state.descriptors, changes.descriptors),
        [*state.rules, *changes.rules],
    )


def change_faults(step: Step, said: Explanation) -> Iterator[str]:
    """Whether the changes are the difference of the states, and are all said."""
    before, after = step.before.state, step.after.state
    changes = changes_between(before, after)
    if applied(before, changes) != after:
        yield f"record {step.number}: the changes do not lead to the state after it"
    if (before.links | {*changes.linked}) - {*changes.unlinked} != after.links:
        yield f"record {step.number}: the changes do not lead to the links after it"
    if {*changes.used} != (after.used() - before.used()) & {*FILES}:
        yield f"record {step.number}: containers in use"
    if said.changes[0].startswith("nothing") != (before == after):
        yield f"record {step.number}: '{said.changes[0]}'"
    parts = (" gained ", " was emptied: ", "link began: ", "link ended: ")
    counts = [sum(part in line for line in said.changes) for part in parts]
    wanted = [len(changes.gained), len(changes.lost), len(changes.linked), len(changes.unlinked)]
    if counts != wanted:
        yield f"record {step.number}: {said.changes} for {wanted}"
    if step.answer.word not in (*DONE, "rule") and before != after:
        yield f"record {step.number}: {step.answer} changed the state"


# Who gained, by the items before and after.

GAIN = re.compile(
    r"(process|device|file|pipe) (\d+)(?: \(\w+\))? gained items? ([^>]*?)(?:, over .*)?"
)


def gained_by(step: Step) -> Dict[int, Set[int]]:
    """The items that each container gained; those that gained none are left out."""
    before, after = step.before.state.items, step.after.state.items
    found = {c: {i for i in ITEMS if i in after[c] and i not in before[c]} for c in CONTAINERS}
    return {container: items for container, items in found.items() if items}


def read_items(text: str) -> Set[int]:
    """The items of a row, as in 1, 3 to 5."""
    found: Set[int] = set()
    for first, last in re.findall(r"(\d+)(?: to (\d+))?", text):
        found.update(range(int(first), int(last or first) + 1))
    return found


def read_gains(lines: List[str]) -> Dict[int, Set[int]]:
    """The containers that lines say gained, each with its items."""
    found: Dict[int, Set[int]] = {}
    for line in lines:
        sort, number, items = GAIN.fullmatch(line).groups()
        container = process_container(int(number)) if sort == "process" else int(number)
        found[container] = read_items(items)
    return found


def gain_faults(step: Step, said: Explanation) -> Iterator[str]:
    """Whether those that gained are said, each with its items, and how many they are."""
    gained = gained_by(step)
    if len(said.gains) != len(gained) or read_gains(said.gains) != gained:
        yield f"record {step.number}: {said.gains} for {gained}"
    if not {*said.gains} <= {*said.changes}:
        yield f"record {step.number}: {said.gains} is not among the changes"
    told = re.findall(r"; (\d+) containers? gained an item$", said.meaning)
    if told != [str(len(gained))] * bool(gained):
        yield f"record {step.number}: '{said.meaning}' for {gained}"
    numbers = {"allow": [len(gained)], "modify": [*step.answer.numbers[:2], len(gained)]}
    wanted = [step.answer.word, *map(str, numbers.get(step.answer.word, step.answer.numbers[:1]))]
    if said.answer.split(" (")[0] != " ".join(wanted):
        yield f"record {step.number}: '{said.answer}' for {gained}"


# Refusals.


def numbers_of(state: State, record: Any) -> Set[int]:
    """The refusals that apply to a record."""
    return frame_refusals(state, read_frame(encode(record)))


def other_values(test: Any, choices: Choices) -> List[int]:
    """Numbers that are not among the values with which a test passes: the next ones, and any."""
    if test.field == "containers":
        return []
    near = [test.values[0] - 1, test.values[-1] + 1, choices.below(128)]
    return [value for value in near if value in range(256) and value not in test.values]


def advice_faults(case: Case, reason: Reason, choices: Choices) -> Iterator[str]:
    """Whether what a refusal says would pass does pass, and nothing else does."""
    failed = reason.failed
    if case.record is None or not all(test.values for test in failed):
        return
    tested = RECORD_REFUSALS[: RECORD_REFUSALS.index(reason.number) + 1]
    for test in failed:
        for value in {0, len(test.values) - 1, choices.below(len(test.values))}:
            record = case.record
            for other in failed:
                record = replaced(record, other.field, other.values[0])
            record = replaced(record, test.field, test.values[value])
            if {*tested} & numbers_of(case.state, record):
                yield f"{record} for {test.text} is refused with {numbers_of(case.state, record)}"
        for value in other_values(test, choices):
            if not numbers_of(case.state, replaced(case.record, test.field, value)):
                yield f"{test.text}: {value} would pass, and is not named"


def refusal_faults(step: Step, said: Explanation, choices: Choices) -> Iterator[str]:
    """Whether a refusal is taken apart rightly."""
    case = Case(Words(), step.before.state, step.data, step.record)
    reason: Optional[Reason] = reason_of(case, step.answer.numbers[0])
    last = reason
    while reason is not None:
        if not reason.failed:
            yield f"record {step.number}: no test fails for {reason.number}"
        for fault in advice_faults(case, reason, choices):
            yield f"record {step.number}: {fault}"
        case, last, reason = case._replace(record=reason.mended), reason, reason.then
    offered = last.mended is not None and answer_to(step, last.mended).word in ("allow", "rule")
    shown = [text for _, text in said.why if text.startswith(OFFER)]
    if offered != bool(shown):
        yield f"record {step.number}: {shown} for {last.mended}"
    for text in shown:
        for fault in offer_faults(step, text):
            yield f"record {step.number}: {text}: {fault}"


# What became of a thing that is missing, by the number of the refusal.

THERE: Dict[int, Callable[[State, Call], bool]] = {
    8: lambda state, call: call.a in state.used(),
    14: lambda state, call: (call.process, call.a) in state.descriptors,
    15: lambda state, call: call.a in state.names,
    16: lambda state, call: (call.process, call.a, call.b) in state.mappings,
}


def past_faults(steps: List[Step], step: Step, said: Explanation) -> Iterator[str]:
    """Whether the last record that ended the thing is named, or that there never was one."""
    number = step.answer.numbers[0]
    if number not in THERE:
        return
    earlier = reversed(steps[: step.number - 1])
    ended = next((s.number for s in earlier if THERE[number](s.before.state, step.record)), None)
    front = "no earlier record " if ended is None else f"record {ended} "
    found = [text for _, text in said.why if text.startswith(front)]
    others = [text for _, text in said.why if text.startswith(("no earlier record ", "record "))]
    if len(found) != 1 or found != others:
        yield f"record {step.number}: {others} for '{front}'"


# What is offered in place of a refused record.

OFFER = "in its place this gets "

# By kind, the fields that name something new, which may have another number, and those not used.
NEW = {
    Kind.START: "p",
    Kind.OPEN: "b",
    Kind.CREATE: "abc",
    Kind.PIPE: "abc",
    Kind.DEVICE: "a",
    Kind.DUP: "b",
    Kind.LINK: "b",
    Kind.FORK: "a",
}
UNUSED = {
    Kind.START: "abc",
    Kind.OPEN: "c",
    Kind.DEVICE: "c",
    Kind.DUP: "c",
    **dict.fromkeys(range(Kind.CLOSE, Kind.UNLINK + 1), "bc"),
    Kind.UNMAP: "c",
    Kind.RENAME: "c",
    Kind.LINK: "c",
    Kind.FORK: "bc",
    Kind.EXIT: "abc",
    Kind.LABEL: "pc",
}


def answer_to(step: Step, record: Any) -> tracker.Answer:
    """What the model answers to another record in a record's place."""
    other = Tracker()
    other.state = step.before.state
    return other.answer_record(encode(record))[0]


def call_fault(refused: Call, offered: Call) -> str:
    """Why a call does not do what a refused one was meant to do; nothing if it does."""
    if refused.kind != offered.kind:
        return "another kind"
    for field, was, now in zip("pabc", refused[1:], offered[1:]):
        free = field in NEW.get(refused.kind, "")
        unused = field in UNUSED.get(refused.kind, "")
        if was != now and not free and not (unused and now == 0):
            return f"another field {field}"
    return ""


def rule_fault(step: Step, offered: Rule) -> str:
    """The same of a rule: only what breaks it now may be left out, and something is protected."""
    refused = step.record
    if refused._replace(containers=offered.containers) != offered:
        return "another rule"
    holders = set(step.before.state.holders(refused.items[0]))
    if refused.containers ^ offered.containers != forbidden(refused) & holders:
        return "another set"
    return "" if forbidden(offered) else "it protects nothing"


def forbidden(rule: Rule) -> Set[int]:
    """The containers that a rule forbids its item."""
    return set(rule.containers) if rule.tag == FORBID_TAG else {*CONTAINERS} - rule.containers


def offer_faults(step: Step, text: str) -> Iterator[str]:
    """Whether a record that is offered gets the answer, is not stopped, and does what was meant."""
    answer, _, line = text[len(OFFER) :].partition(": ")
    offered = record_of(assemble_line(line))
    if str(answer_to(step, offered)) != answer or answer.split()[0] not in ("allow", "rule"):
        yield f"the model answers {answer_to(step, offered)}"
    if isinstance(offered, Call) and isinstance(step.record, Call):
        fault = call_fault(step.record, offered)
    else:
        fault = rule_fault(step, offered)
    if fault:
        yield fault


# Rules that would be broken.


def stopped_faults(step: Step, said: Explanation) -> Iterator[str]:
    """Whether the places named would break the rule."""
    rule = step.before.state.rules[step.answer.numbers[0]]
    text = "\n".join(line for _, line in said.why)
    if not tracker.is_broken(step.judged.state, rule) or " would hold " not in text:
        yield f"record {step.number}: {text}"
    if (
        f"rule {step.answer.numbers[0]} (record {step.before.loaded[step.answer.numbers[0]]}): "
        not in text
    ):
        yield f"record {step.number}: the rule is not named: {text}"
    if text.count("the way of item") != len(rule.items) or "this record: " not in text:
        yield f"record {step.number}: the ways: {text}"


# All of a log.


def step_faults(steps: List[Step], step: Step, choices: Choices, ledger: Ledger) -> Iterator[str]:
    """What is wrong with what is said of a record."""
    said = explain(step)
    yield from change_faults(step, said)
    yield from gain_faults(step, said)
    yield from mapping_faults(step, said, ledger)
    if step.answer.word == "refused":
        yield from refusal_faults(step, said, choices)
        yield from past_faults(steps, step, said)
    if step.judged is not None:
        yield from stopped_faults(step, said)
    if not full_lines(said, 100, None) or not said.sentence:
        yield f"record {step.number}: nothing is said"


def label_faults(drawn: Dict[Tuple[int, int], Any], view: View) -> Iterator[str]:
    """Whether each link says how often it is mapped, where that is more than once."""
    state = view.moment.state
    for process, container in {key[:2] for key in state.mappings}:
        pair = (process_container(process), container)
        read, both = state.count(process, container, 0), state.count(process, container, 1)
        wanted = f"read {read}, both {both}" if read and both else f"{read + both}\u00d7"
        text, marks = drawn.get(pair, ("", set()))
        if text != wanted and (text or read + both > 1):
            yield f"the label of {pair}: '{text}' for '{wanted}'"
        if text == "1\u00d7" and marks != {"less"}:
            yield f"the label of {pair}: '{text}' with marks {marks}"
    if len(drawn) > len({key[:2] for key in state.mappings}):
        yield f"labels on links that are not there: {drawn}"


def picture_faults(steps: List[Step], at: int) -> Iterator[str]:
    """What is wrong with the picture after a record."""
    svg = ElementTree.fromstring(svg_text(steps, at, "a log", NO_OWN))
    view = view_at(steps, at)
    state = view.moment.state
    drawn = drawing.drawn_containers(svg)
    wanted = {c for c in state.used() if c not in DEVICES or state.items[c]}
    if not wanted <= drawn or not drawn <= state.used() | view.gone() | {*view.stopped}:
        yield f"at {at}: containers {sorted(wanted ^ drawn)}"
    if drawing.drawn_links(svg) != {pair_of(link) for link in view.links()}:
        yield f"at {at}: links"
    yield from label_faults(drawing.drawn_labels(svg), view)
    step = view.step
    given = (
        {} if step is None or step.answer.word != "allow" else gives(step.record, step.before.state)
    )
    inner = {pair for pair in given if pair[0] is not None and step.record.kind != Kind.FORK}
    if step is not None and step.answer.word == "allow" and drawing.drawn_moves(svg) != inner:
        yield f"at {at}: what the call moved"
    gained = {} if step is None else gained_by(step)
    if drawing.drawn_gains(svg) != {*gained}:
        yield f"at {at}: marked as gaining {drawing.drawn_gains(svg)} for {gained}"
    for fault in drawing.layout_faults(svg):
        yield f"at {at}: {fault}"
    for container in sorted(drawn):
        held = drawing.drawn_items(svg, container)
        if held != set(state.items[container]):
            yield f"at {at}: container {container} holds {sorted(held)} in the picture"


def tinted(scene: Dict[str, Tuple[str, ...]]) -> Set[int]:
    """The containers whose boxes are marked as gaining, by the elements of a page."""
    frames = {key: group[0] for key, group in scene.items() if key.startswith("container-")}
    marked = [key for key, frame in frames.items() if re.search(r'class="b[^"]* gained"', frame)]
    return {int(key.split("-")[1]) for key in marked}


def page_faults(steps: List[Step]) -> Iterator[str]:
    """Whether the differences of a page lead to the pictures of each record."""
    views = views_of(steps)
    data = page.page_data(steps, 0, "a log", NO_OWN)
    contents = all_contents(views, NO_OWN)
    painter = Painter(plan_of(views, contents))
    scene: Dict[str, Any] = {}
    for number, (view, boxes) in enumerate(zip(views, contents)):
        scene.update(data["differences"][number])
        shown = {
            key: tuple(data["elements"][n] for n in group) for key, group in scene.items() if group
        }
        if shown != painter.scene(view, boxes):
            yield f"page, record {number}: another picture"
        gained = gained_by(steps[number - 1]) if number else {}
        if tinted(shown) != {*gained}:
            yield f"page, record {number}: marked as gaining {tinted(shown)} for {gained}"
    for step, record in zip(steps, data["records"]):
        if read_gains(record["g"]) != gained_by(step):
            yield f"page, record {step.number}: {record['g']} for {gained_by(step)}"
        rest = [line for line in explain(step).changes if " gained " not in line]
        if record["c"] != rest:
            yield f"page, record {step.number}: {record['c']} for {rest}"
    if [record["a"].split(" (")[0] for record in data["records"]] != [str(s.answer) for s in steps]:
        yield "page: answers"


def log_faults(seed: int) -> Tuple[List[str], List[Step]]:
    """What is wrong with the explanations and pictures of a log."""
    log = make_log(seed)
    choices, ledger = Choices(seed), Ledger()
    steps = list(steps_of(log))
    faults = [] if [s.answer for s in steps] == Tracker().run_log(log) else ["answers"]
    faults += provenance_faults(steps)
    for step in steps:
        faults += step_faults(steps, step, choices, ledger)
    for at in {len(steps), choices.below(len(steps) + 1)}:
        faults += picture_faults(steps, at)
    if seed % PAGE_EVERY == 0:
        faults += page_faults(steps)
    return faults, steps


def test_properties(session: Session) -> None:
    """Every property on every log."""
    counts: Counter = Counter()
    for done, seed in enumerate(range(session.seed, session.seed + session.logs), 1):
        faults, steps = log_faults(seed)
        again = f"tests/tools/run --only manylogs --seed {seed} --logs 1"
        text = f"{len(faults)} faults, the first: {faults[:1]}\n  repeat: {again}"
        session.checks.true(f"random log, seed {seed}", not faults, text)
        counts.update(step.answer.word for step in steps)
        counts.update(f"refused {s.answer.numbers[0]}" for s in steps if s.answer.word == "refused")
        counts.update(f"kind {s.record.kind}" for s in steps if s.answer.word == "allow")
        counts["offers"] += sum(
            text.startswith(OFFER)
            for s in steps
            if s.answer.word == "refused"
            for _, text in explain(s).why
        )
        counts["links that stay"] += sum(
            line.startswith("link stays: ")
            for s in steps
            if s.answer.word == "allow" and s.record.kind == Kind.UNMAP
            for line in explain(s).changes
        )
        counts["gains"] += sum(len(gained_by(s)) > 1 for s in steps)
        counts["hops"] += sum(
            len(chain(way)) for s in steps[-1:] for way in s.after.origins.values()
        )
        if done % PROGRESS == 0:
            session.say(f"{done} of {session.logs} logs")
    check_counts(session, counts)


def check_counts(session: Session, counts: Counter) -> None:
    """The logs must contain what the properties speak of."""
    said = (*WORDS, "hops", "offers", "links that stay", "gains")
    session.say(", ".join(f"{word} {counts[word]}" for word in said))
    if session.logs < 500:
        session.say("fewer than 500 logs: how often each answer occurs is not checked")
        return
    names = [*WORDS, *(f"kind {kind}" for kind in KINDS)]
    names += [*(f"refused {number}" for number in RECORD_REFUSALS), "links that stay"]
    for name in names:
        session.checks.true(f"random logs: {name}", counts[name] >= 20, f"{counts[name]} times")
    session.checks.true("random logs: hops", counts["hops"] > 2000, str(counts["hops"]))
    session.checks.true("random logs: offers", counts["offers"] > 500, str(counts["offers"]))
    session.checks.true("random logs: gains", counts["gains"] > 200, str(counts["gains"]))


def test_program(session: Session) -> None:
    """The program beside the model on a handful of logs."""
    for seed in range(session.seed, session.seed + min(PROGRAM_LOGS, session.logs)):
        result = logtool(
            "explain", "-", "--brief", "--program", session.runnable, data=make_log(seed)
        )
        last = result.output.splitlines()[-1:]
        good = result.status in (0, 1) and "the program answers the same." in "".join(last)
        session.checks.true(
            f"the program on the log of seed {seed}", good, str((last, result.message))
        )
