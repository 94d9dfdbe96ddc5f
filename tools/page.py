"""A log as one page for a browser, that steps through its records.

The page has the elements of all pictures once each, and for each record the
groups that differ from the record before. A script in page.html puts them
together; it draws nothing of its own.
"""

import json
from pathlib import Path
from typing import Any, Dict, List
from xml.sax.saxutils import escape

from tools.boxes import COLOURS, STYLE
from tools.draw import ANSWER_COLOURS, headings_text, printable, rule_lines
from tools.explain import Explanation, explain
from tools.names import Own
from tools.provenance import Step
from tools.scene import Painter, Scene, all_contents, plan_of
from tools.views import View, views_of
from tools.words import Words

TEMPLATE = Path(__file__).resolve().parent / "page.html"


class Table:
    """Texts with a number for each; the same text has the same number."""

    def __init__(self) -> None:
        self.numbers: Dict[str, int] = {}

    def number(self, text: str) -> int:
        """The number of a text."""
        return self.numbers.setdefault(text, len(self.numbers))


def difference(before: Scene, after: Scene, table: Table) -> Dict[str, Any]:
    """The groups that differ, as numbers of elements; 0 for one that is no longer there."""
    changed: Dict[str, Any] = {key: 0 for key in before if key not in after}
    for key, group in after.items():
        if before.get(key) is not group:
            changed[key] = [table.number(text) for text in group]
    return changed


def record_data(said: Explanation, word: str) -> Dict[str, Any]:
    """What the page says of a record."""
    return {
        "r": said.record,
        "a": said.answer,
        "w": word,
        "s": said.sentence,
        "m": said.meaning,
        "y": said.why,
        "g": said.gains,
        "c": [change for change in said.changes if change not in said.gains],
    }


def rule_data(views: List[View], own: Own) -> List[Any]:
    """The rules in words, each with the record that loaded it."""
    last = views[-1]
    return [list(pair) for pair in zip(last.moment.loaded, rule_lines(last, own))]


def item_data(views: List[View], own: Own) -> Dict[int, Any]:
    """The items of the log, each with its colour and its own name."""
    words = Words(own)
    held = {item for view in views for item in view.moment.state.held()}
    ruled = {item for rule in views[-1].moment.state.rules for item in rule.items}
    return {item: [COLOURS[item], words.own_name("item", item)] for item in sorted(held | ruled)}


def picture_data(views: List[View], own: Own) -> Dict[str, Any]:
    """The pictures: elements, places, and the differences from record to record."""
    contents = all_contents(views, own)
    plan = plan_of(views, contents)
    painter = Painter(plan)
    scenes = [painter.scene(view, boxes) for view, boxes in zip(views, contents)]
    table = Table()
    none: Scene = {}
    differences = [difference(*pair, table) for pair in zip([none, *scenes], scenes)]
    keys = {key for scene in scenes for key in scene}
    return {
        "elements": list(table.numbers),
        "places": {key: plan.origin(key) for key in sorted(keys, key=drawing_order)},
        "differences": differences,
        "headings": headings_text(plan),
        "size": [plan.width, plan.height],
    }


def drawing_order(key: str) -> Any:
    """Links are drawn first, then their labels, then what a call moved, then boxes."""
    sort, *numbers = key.split("-")
    return ("link", "label", "move", "container").index(sort), [int(number) for number in numbers]


def page_data(steps: List[Step], at: int, name: str, own: Own) -> Dict[str, Any]:
    """All that the page needs."""
    views = views_of(steps)
    return {
        "title": printable(name),
        "at": at,
        "records": [record_data(explain(step, own), step.answer.word) for step in steps],
        "rules": rule_data(views, own),
        "items": item_data(views, own),
        **picture_data(views, own),
    }


def html_text(steps: List[Step], at: int, name: str, own: Own) -> str:
    """The page, which opens at a record."""
    data = json.dumps(page_data(steps, at, name, own), separators=(",", ":"), ensure_ascii=True)
    answers = "".join(f".{word}{{color:{colour}}}\n" for word, colour in ANSWER_COLOURS.items())
    parts = {
        "@TITLE@": escape(printable(name)),
        "@STYLE@": STYLE + answers,
        "@DATA@": data.replace("<", "\\u003c"),
    }
    text = TEMPLATE.read_text(encoding="utf-8")
    for mark, part in parts.items():
        text = text.replace(mark, part)
    return text
