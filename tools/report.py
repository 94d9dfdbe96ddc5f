"""Explanations as lines of text, and which of them are shown."""

import re
import textwrap
from collections import Counter
from typing import Dict, Iterator, List, NamedTuple, Optional, Set

from model.limits import CONTAINERS, ITEMS
from model.logtext import CONTAINER_NAMES, Unfit, counted, read_number
from tools.explain import Explanation, explain, way_lines
from tools.names import Own
from tools.phrases import ANSWERS
from tools.provenance import Moment, Step
from tools.words import Words

INDENT = "    "
TOGETHER = re.compile(
    "(record|process|container|device|file|pipe|item|name|descriptor|rule) [0-9]+| -> "
    "|[0-9]+ containers? gained"
)
Other = Dict[int, str]  # the program's answers that are not the model's, by record
SELECTION = f"numbers and runs of records as in 3,7-9, or {', '.join(ANSWERS)}"


class Selection(NamedTuple):
    """Which records are shown: by their numbers or by the words of their answers."""

    numbers: Set[int]
    words: Set[str]

    def has(self, step: Step) -> bool:
        """Whether a record is shown."""
        if not self.numbers and not self.words:
            return True
        return step.number in self.numbers or step.answer.word in self.words


def read_selection(text: str, count: int) -> Selection:
    """The records that --only names, of so many."""
    chosen = Selection(set(), set())
    for part in filter(None, text.split(",")):
        run = re.fullmatch("([0-9]{1,6})(-([0-9]{1,6}))?", part)
        if part in ANSWERS:
            chosen.words.add(part)
        elif run and 1 <= int(run[1]) <= int(run[3] or run[1]) <= count:
            chosen.numbers.update(range(int(run[1]), int(run[3] or run[1]) + 1))
        else:
            has = f"records 1 to {count}" if count else "no records"
            raise Unfit(f"--only {part}", f"{SELECTION}; this log has {has}")
    return chosen


def wrapped(text: str, width: int, front: str) -> List[str]:
    """A text in lines of a width, the first with this front and the others indented further."""
    lines = textwrap.wrap(
        TOGETHER.sub(lambda found: found[0].replace(" ", "\u00a0"), text),
        width,
        initial_indent=front,
        subsequent_indent=" " * len(front) + "  ",
        break_long_words=False,
        break_on_hyphens=False,
    )
    return [line.replace("\u00a0", " ") for line in lines]


def full_lines(said: Explanation, width: int, program: Optional[str]) -> List[str]:
    """All that is said of a record; the program's answer if it is another one."""
    front = f"{said.number:<{len(INDENT)}}" if said.number < 1000 else f"{said.number} "
    lines = wrapped(f"{said.record}", width, front)
    lines += wrapped(said.sentence, width, INDENT)
    lines += wrapped(f"{said.answer}: {said.meaning}", width, INDENT)
    if program is not None:
        lines += wrapped(f"the program answers otherwise: {program}", width, INDENT)
    for depth, text in said.why:
        lines += wrapped(text, width, INDENT + "  " * (depth + 1))
    if len(said.changes) == 1:
        return [*lines, *wrapped(f"changed: {said.changes[0]}", width, INDENT), ""]
    lines.append(f"{INDENT}changed:")
    for change in said.changes:
        lines += wrapped(change, width, INDENT + "  - ")
    return [*lines, ""]


def full_report(steps: List[Step], own: Own, other: Other, width: int) -> Iterator[str]:
    """All that is said of records."""
    for step in steps:
        yield from full_lines(explain(step, own), width, other.get(step.number))


def brief_report(steps: List[Step], own: Own, other: Other) -> Iterator[str]:
    """A line for each record: number, answer, the record in words."""
    said = [explain(step, own) for step in steps]
    places = max((len(str(one.number)) for one in said), default=0)
    answers = max((len(one.answer) for one in said), default=0)
    for one in said:
        program = f"  (the program: {other[one.number]})" if one.number in other else ""
        yield f"{one.number:>{places}}  {one.answer:<{answers}}  {one.sentence}{program}"


def read_place(text: str) -> List[int]:
    """The container and the item that --way names."""
    words = text.split(",")
    if len(words) != 2:
        raise Unfit(f"--way {text}", "a container and an item with a comma between, as in 26,1")
    container = read_number(f"--way {text}", words[0], CONTAINER_NAMES, CONTAINERS)
    return [container, read_number(f"--way {text}", words[1], allowed=ITEMS)]


def way_report(moment: Moment, number: int, own: Own, place: List[int], width: int) -> List[str]:
    """The way of an item to a container that holds it after a record."""
    words = Words(own, moment.sorts)
    container, item = place
    origin = moment.origins.get((container, item))
    if origin is None:
        held = words.items(moment.state.items[container])
        no_item = f"{words.container(container)} does not hold {words.item(item)}; it holds {held}"
        return wrapped(f"after record {number}, {no_item}", width, "")
    head = f"after record {number}, {words.container(container)} holds {words.item(item)}:"
    lines = wrapped(head, width, "")
    for depth, text in way_lines(words, origin, 1):
        lines += wrapped(text, width, "  " * depth)
    return lines


def counts_text(steps: List[Step]) -> str:
    """How many records got which answer."""
    counts = Counter(step.answer.word for step in steps)
    listed = ", ".join(f"{counts[word]} {word}" for word in ANSWERS if counts[word]) or "no answers"
    return f"{counted(len(steps), 'record')}: {listed}"
