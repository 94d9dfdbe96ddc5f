"""The state after a record as one picture, in SVG or in Graphviz dot."""

import textwrap
from typing import Iterable, List, Tuple

from tools.boxes import CHARACTER, CHIP_HEIGHT, COLOURS, DONE, GAINED, GAP, GONE, LINE, NEVER, NEW
from tools.boxes import STOPPED, STYLE, TEXT_SIZE, TITLE_SIZE, Content, Token, chip, element, number
from tools.boxes import path, token_elements
from tools.explain import explain
from tools.names import Own
from tools.phrases import action_text, rule_text
from tools.provenance import Link, Step
from tools.scene import HEAD, MARGIN, Painter, Plan, Scene, contents_of, head_element, pair_of
from tools.scene import plan_of
from tools.views import View, count_text, view_at
from tools.words import Words

NARROWEST = 760.0
HEAD_SIZE = 15

# The colour of an answer's mark.
ANSWER_COLOURS = {
    "allow": "#0a7d2c",
    "rule": "#1f5fa8",
    "inhibit": "#c81e1e",
    "modify": "#b45309",
    "refused": "#5b6672",
}
KEY = [
    (chip(1), "held"),
    (chip(1, NEW), "gained"),
    (chip(1, GONE), "gone"),
    (chip(1, STOPPED), "would break a rule here"),
    (chip(1, "", NEVER), "forbidden by a rule"),
]
ARROW_KEY = [
    ("l", "", "mapped memory: what the arrow leads to is fed"),
    ("l", NEW, "new"),
    ("l", GONE, "ended"),
    ("m", DONE, "this call"),
    ("m", STOPPED, "stopped"),
]
COUNT_KEY = (
    f"on an arrow, {count_text(2, 0)}: mapped twice; {count_text(2, 1)}: twice for reading and "
    "once both ways; green: more often than before this record, amber: not so often"
)
GAIN_KEY = "a box on a green ground gained an item by this record"


def printable(name: str) -> str:
    """A name that text of any sort can hold."""
    return "".join(character if character.isprintable() else "?" for character in name)


def title_text(view: View, count: int, name: str) -> str:
    """What the picture shows, in words."""
    number = view.step.number if view.step else 0
    return f"{printable(name)}: after record {number} of {count}"


def rule_lines(view: View, own: Own) -> List[str]:
    """The loaded rules in words."""
    words = Words(own, view.moment.sorts)
    return [
        f"rule {number}: {rule_text(words, rule)}; {action_text(words, rule)}"
        for number, rule in enumerate(view.moment.state.rules)
    ]


# The parts of an SVG around the boxes.


class Sheet:
    """Elements one below the other, at a place that moves down."""

    def __init__(self, width: float, y: float) -> None:
        self.width = width
        self.y = y
        self.elements: List[str] = []

    def text(self, text: str, sort: str = "", size: float = TEXT_SIZE, **more: object) -> None:
        """A text, in as many lines as the width asks for."""
        most = int((self.width - 2 * MARGIN) / (CHARACTER * size))
        for line in textwrap.wrap(text, most, subsequent_indent="    "):
            indent = len(line) - len(line.lstrip())
            x = MARGIN + indent * CHARACTER * size
            said = {"sort": sort} if sort else {}
            place = {"x": x, "y": self.y + size}
            self.elements.append(element("text", line.strip(), **said, **place, **more))
            self.y += size + 5

    def row(self, parts: Iterable[Tuple[List[Token], str]]) -> None:
        """Tokens, each with words behind them; full rows go on below."""
        x = float(MARGIN)
        for tokens, words in parts:
            said = [*tokens, Token(words)]
            room = sum(token.width + GAP for token in said)
            if x > MARGIN and x + room > self.width - MARGIN:
                x, self.y = float(MARGIN), self.y + LINE
            for token in said:
                self.elements += token_elements(token, x, self.y)
                x += token.width + GAP
            x += 2 * GAP
        self.y += LINE


def head(view: View, count: int, name: str, own: Own, width: float) -> Sheet:
    """The title, the record and its answer."""
    sheet = Sheet(width, MARGIN)
    title = title_text(view, count, name)
    sheet.text(title, size=HEAD_SIZE, style=f"font-size:{HEAD_SIZE}px;font-weight:bold")
    if view.step:
        said = explain(view.step, own)
        sheet.text(said.record, sort="t", size=TITLE_SIZE)
        sheet.text(said.sentence)
        colour = ANSWER_COLOURS[view.step.answer.word]
        sheet.text(f"{said.answer}: {said.meaning}", style=f"fill:{colour};font-weight:bold")
    sheet.y += GAP
    return sheet


def arrow_key(sheet: Sheet) -> None:
    """What the arrows are."""
    x = float(MARGIN)
    for sort, mark, words in ARROW_KEY:
        y = sheet.y + CHIP_HEIGHT / 2
        line = path("M", x, y, "L", x + 34 - HEAD, y)
        sheet.elements.append(element("path", sort=f"{sort} {mark}".strip(), d=line))
        sheet.elements.append(head_element(x + 34, y, -HEAD, mark))
        sheet.elements.append(element("text", words, x=x + 34 + GAP, y=sheet.y + 12))
        x += 34 + 3 * GAP + Token(words).width
    sheet.y += LINE


def foot(view: View, own: Own, width: float, y: float) -> Sheet:
    """The rules, the items by their own names, and what the marks mean."""
    sheet = Sheet(width, y)
    for line in rule_lines(view, own):
        sheet.text(line)
    sheet.y += GAP
    words = Words(own)
    named = [item for item in range(len(COLOURS)) if words.own_name("item", item)]
    if named:
        sheet.row(([chip(item)], words.own_name("item", item)) for item in named)
    sheet.row(([token], meaning) for token, meaning in KEY)
    arrow_key(sheet)
    if view.changes.gained:
        sheet.text(GAIN_KEY)
    if view.labels():
        sheet.text(COUNT_KEY)
    return sheet


# SVG.


def scene_text(scene: Scene, plan: Plan) -> str:
    """The groups of a scene."""
    lines = []
    for key, elements in scene.items():
        x, y = plan.origin(key)
        moved = f' transform="translate({number(x)} {number(y)})"' if x or y else ""
        lines.append(f'<g id="{key}"{moved}>{"".join(elements)}</g>')
    return "\n".join(lines)


def headings_text(plan: Plan) -> str:
    """The words over the columns."""
    top = min((y for _, y in plan.places.values()), default=0.0)
    return "".join(element("text", text, sort="h", x=x, y=top - 9) for x, text in plan.headings)


def svg_text(steps: List[Step], at: int, name: str, own: Own) -> str:
    """The state after a record as SVG."""
    view = view_at(steps, at)
    contents = contents_of(view, own)
    width = max(NARROWEST, plan_of([view], [contents], 0).width)
    above = head(view, len(steps), name, own, width)
    plan = plan_of([view], [contents], above.y)
    below = foot(view, own, width, plan.height)
    height = below.y + MARGIN
    size = f'width="{number(width)}" height="{number(height)}"'
    lines = [
        f'<svg xmlns="http://www.w3.org/2000/svg" {size} '
        f'viewBox="0 0 {number(width)} {number(height)}">',
        element("title", title_text(view, len(steps), name)),
        f"<style>{STYLE}</style>",
        '<rect width="100%" height="100%" fill="#fff"/>',
        *above.elements,
        headings_text(plan),
        scene_text(Painter(plan).scene(view, contents), plan),
        *below.elements,
        "</svg>",
    ]
    return "\n".join(filter(None, lines)) + "\n"


# Graphviz dot.


def dot_string(lines: Iterable[str]) -> str:
    """Lines as a label, each set left."""
    escaped = (line.replace("\\", "\\\\").replace('"', '\\"') for line in lines)
    return '"' + "".join(f"{line}\\l" for line in escaped) + '"'


def dot_box(content: Content) -> str:
    """A box as a node, filled if it gained; an item is a number in brackets."""
    lines = [
        " ".join(f"[{token.text}]" if token.item >= 0 else token.text for token in section)
        for section in content.sections
    ]
    filled = ', style=filled, fillcolor="#e3f4e6"' if GAINED in content.mark.split() else ""
    return f"  c{content.container} [label={dot_string(lines)}{filled}];"


def dot_edge(link: Link, mark: str, view: View) -> str:
    """A link as an edge; that to the process says how often it is mapped."""
    styles = {"": [], NEW: ['color="#0a7d2c"', "penwidth=2"], GONE: ["style=dashed"]}[mark]
    label = view.labels().get(pair_of(link)) if pair_of(link) != link else None
    said = [*styles, *([f'label="{label.text}"'] if label else [])]
    return f"  c{link[0]} -> c{link[1]}{' [' + ', '.join(said) + ']' if said else ''};"


def dot_text(steps: List[Step], at: int, name: str, own: Own) -> str:
    """The state after a record as Graphviz dot."""
    view = view_at(steps, at)
    label = dot_string([title_text(view, len(steps), name), *rule_lines(view, own)])
    lines = [
        "digraph state {",
        f"  label={label}; labelloc=t; labeljust=l; rankdir=LR;",
        '  fontname="monospace"; node [shape=box, fontname="monospace"];',
    ]
    lines += [dot_box(content) for content in contents_of(view, own).values()]
    lines += [dot_edge(link, mark, view) for link, mark in sorted(view.links().items())]
    return "\n".join([*lines, "}", ""])
