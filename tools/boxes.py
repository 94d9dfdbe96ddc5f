"""The box of a container in a picture: what it says, and its SVG elements.

A box is a row of sections, each a row of tokens: words and chips. A chip is an
item. Marks say what the last record changed. Places are within the box.
"""

import colorsys
from functools import lru_cache
from typing import Any, Dict, List, NamedTuple, Tuple
from xml.sax.saxutils import escape

from model.limits import DEVICES, ITEMS, PROCESS_CONTAINERS
from model.logtext import set_text
from tools.views import View
from tools.words import Words, short

# Sizes.
WIDTH = 236
PAD = 8
TITLE_SIZE = 12
TEXT_SIZE = 11
CHARACTER = 0.61  # width of a character, as a part of its size
LINE = 19  # from one row of tokens to the next
GAP = 5  # between two tokens
CHIP_WIDTH = 24
MARKED_WIDTH = 32
CHIP_HEIGHT = 16
SATURATION = 0.75
LEAST_CONTRAST = 7.5  # of a chip with black
CACHED = 100_000  # drawings that are kept, since boxes and tokens come again and again

# Marks: what the last record did to a thing, or would have done.
NEW = "new"
GONE = "gone"
STOPPED = "stopped"
DONE = "done"  # of what a call moved
GAINED = "gained"  # of a box, beside another mark
NEVER = "never"  # a forbidden item
EMPTY = (GONE, STOPPED, NEVER)  # chips without the item's colour
SIGNS = {NEW: "+", GONE: "\u2212", STOPPED: "!"}  # in front of an item's number

STYLE = """
text{font-family:"DejaVu Sans Mono",Menlo,Consolas,monospace;font-size:11px;fill:#1c2630}
.t{font-size:12px;font-weight:bold}
.h{font-size:13px;fill:#4a5560}
.b{fill:#fff;stroke:#5b6672}
.b.device{fill:#e8f0f9}
.b.process{fill:#f2eef8}
.b.gained{fill:#e3f4e6}
.b.new{stroke:#0a7d2c;stroke-width:2.5}
.b.gone{fill:#f4f5f6;stroke:#8b949c;stroke-dasharray:6 4}
.b.stopped{stroke:#c81e1e;stroke-width:3}
text.o{fill:#4a5560}
text.new{fill:#0a7d2c;font-weight:bold}
text.gone{fill:#6b747c;text-decoration:line-through}
text.stopped{fill:#c81e1e;font-weight:bold}
text.c{text-anchor:middle;font-weight:bold;text-decoration:none}
text.n{fill:#6b747c}
.k{stroke:#5b6672;stroke-width:.7}
.k.new{stroke:#0a7d2c;stroke-width:2.5}
.k.gone{fill:#fff;stroke:#8b949c;stroke-width:1;stroke-dasharray:3 2}
.k.stopped{fill:#fff;stroke:#c81e1e;stroke-width:2;stroke-dasharray:3 2}
.k.never,.never{fill:#fff;stroke:#c81e1e;stroke-width:1.3}
.l{fill:none;stroke:#8a5a2b;stroke-width:1.5}
.a{fill:#8a5a2b}
.l.new{stroke:#0a7d2c;stroke-width:3}
.a.new{fill:#0a7d2c}
.m{fill:none;stroke-width:3}
.m.done{stroke:#1f5fa8}
.a.done,text.w.done{fill:#1f5fa8}
.m.stopped{stroke:#c81e1e;stroke-dasharray:8 4}
.a.stopped{fill:#c81e1e}
text.w{text-anchor:middle;font-weight:bold;stroke:#fff;stroke-width:4;paint-order:stroke}
.l.gone{stroke:#8b949c;stroke-width:2;stroke-dasharray:7 5}
.a.gone{fill:#8b949c}
.g{fill:#fff}
text.q{font-weight:bold;fill:#6f451d}
text.q.new{fill:#0a7d2c}
text.q.less{fill:#b45309}
text.e{text-anchor:end}
"""


class Token(NamedTuple):
    """A word or a chip."""

    text: str
    mark: str = ""
    item: int = -1  # of a chip
    style: str = ""  # of a word, or NEVER

    @property
    def width(self) -> float:
        """The room that it takes."""
        if self.item >= 0:
            return MARKED_WIDTH if self.mark else CHIP_WIDTH
        return len(self.text) * CHARACTER * (TITLE_SIZE if self.style == "t" else TEXT_SIZE)


class Content(NamedTuple):
    """What a box says."""

    container: int
    mark: str  # or two: GAINED may stand behind another
    sections: Tuple[Tuple[Token, ...], ...]


class Drawing(NamedTuple):
    """The elements of a box but its frame, and the height that they need."""

    elements: Tuple[str, ...]
    height: float


# What a box says.


def clipped(text: str, room: float, size: float = TEXT_SIZE) -> str:
    """A text that fits into a width."""
    most = int(room / (CHARACTER * size))
    return text if len(text) <= most else text[: most - 1] + "\u2026"


def title_section(words: Words, container: int) -> Tuple[Token, ...]:
    """What the container is, and its own name."""
    number = f" ({container})" if container in PROCESS_CONTAINERS else ""
    title = Token(words.plain(container) + number, style="t")
    own = words.own_name("container", container)
    room = WIDTH - 2 * PAD
    if own and title.width + GAP + len(own) * CHARACTER * TEXT_SIZE > room:
        return (title, Token(clipped(own, room), style="o"))
    return (title, Token(own, style="o")) if own else (title,)


def chip(item: int, mark: str = "", style: str = "") -> Token:
    """The chip of an item."""
    return Token(f"{SIGNS.get(mark, '')}{item}", mark, item, style)


def item_section(view: View, container: int) -> Tuple[Token, ...]:
    """The items that a container holds, lost, or would have gained."""
    gained = view.changes.gained.get(container, ())
    marks = {item: NEW if item in gained else "" for item in view.moment.state.items[container]}
    marks.update({item: GONE for item in view.changes.lost.get(container, ())})
    marks.update({item: STOPPED for item in view.stopped.get(container, ()) if item not in marks})
    return tuple(chip(item, marks[item]) for item in sorted(marks))


def never_section(view: View, container: int) -> Tuple[Token, ...]:
    """The items that a rule forbids the container."""
    items = sorted(view.forbidden.get(container, ()))
    label = [Token("forbidden", style="n")] if items else []
    return (*label, *(chip(item, "", NEVER) for item in items))


def name_marks(view: View, container: int) -> Dict[int, str]:
    """The names that lead to the container, or did before the last record, with their marks."""
    marks = {name: "" for name, target in view.moment.state.names.items() if target == container}
    for name, (before, after) in view.changes.names.items():
        if container in (before, after):
            marks[name] = NEW if after == container else GONE
    return marks


def name_section(view: View, words: Words, container: int) -> Tuple[Token, ...]:
    """The names of a container: runs of those without an own name, and the others one by one."""
    marks = name_marks(view, container)
    runs: List[Tuple[int, Token]] = []
    for mark in ("", NEW, GONE):
        plain = [n for n in marks if marks[n] == mark and not words.own_name("name", n)]
        for run in set_text(plain).split(",") if plain else ():
            runs.append((int(run.split("-")[0]), Token(run, mark)))
    for name in marks:
        own = words.own_name("name", name)
        if own:
            text = clipped(f"{name} {own}", WIDTH - 2 * PAD)
            runs.append((name, Token(text, marks[name])))
    label = Token("names" if len(marks) > 1 else "name", style="n")
    return (label, *(token for _, token in sorted(runs))) if runs else ()


def descriptor_section(view: View, container: int) -> Tuple[Token, ...]:
    """The descriptors of a process, those with one target together."""
    process = container - PROCESS_CONTAINERS.start
    groups: Dict[Tuple[str, int], List[int]] = {}
    for (owner, number), target in view.moment.state.descriptors.items():
        if owner == process:
            mark = NEW if (owner, number) in view.changes.descriptors else ""
            groups.setdefault((mark, target), []).append(number)
    for (owner, number), (before, _) in view.changes.descriptors.items():
        if owner == process and before is not None:
            groups.setdefault((GONE, before), []).append(number)
    ordered = sorted(groups.items(), key=lambda group: sorted(group[1]))
    tokens = [
        Token(clipped(f"{set_text(numbers)}\u2192{short(target)}", WIDTH - 2 * PAD), mark)
        for (mark, target), numbers in ordered
    ]
    return (Token("descriptors", style="n"), *tokens) if tokens else ()


def content_of(view: View, words: Words, container: int) -> Content:
    """What the box of a container says."""
    sections = [title_section(words, container), item_section(view, container)]
    sections.append(never_section(view, container))
    if container in PROCESS_CONTAINERS:
        sections.append(descriptor_section(view, container))
    else:
        sections.append(name_section(view, words, container))
    marks = [view.mark(container), GAINED if container in view.changes.gained else ""]
    return Content(container, " ".join(filter(None, marks)), tuple(filter(None, sections)))


# How it is drawn.


def number(value: float) -> str:
    """A coordinate, to a tenth."""
    return f"{value:.1f}".removesuffix(".0")


def element(tag: str, text: str = "", /, **attributes: Any) -> str:
    """An SVG element; `sort` is its class. Only the text may have signs that XML knows."""
    listed = ""
    for name, value in attributes.items():
        said = value if isinstance(value, str) else number(value)
        listed += f' {"class" if name == "sort" else name}="{said}"'
    return f"<{tag}{listed}>{escape(text)}</{tag}>" if text else f"<{tag}{listed}/>"


def path(*parts: object) -> str:
    """The letters and coordinates of a path or a polygon."""
    return " ".join(number(p) if isinstance(p, (int, float)) else str(p) for p in parts)


def contrast(red: float, green: float, blue: float) -> float:
    """The contrast of a colour with black, from 1 to 21."""

    def linear(part: float) -> float:
        return part / 12.92 if part <= 0.04045 else ((part + 0.055) / 1.055) ** 2.4

    luminance = 0.2126 * linear(red) + 0.7152 * linear(green) + 0.0722 * linear(blue)
    return 20 * luminance + 1


def item_colour(item: int) -> str:
    """The colour of an item's chip, light enough for dark digits."""
    hue = item * 0.381966 % 1
    lightness = (0.62, 0.72, 0.80)[item // 8 % 3]
    colour = colorsys.hls_to_rgb(hue, lightness, SATURATION)
    while contrast(*colour) < LEAST_CONTRAST:
        lightness += 0.01
        colour = colorsys.hls_to_rgb(hue, lightness, SATURATION)
    return "#" + "".join(f"{int(part * 255):02x}" for part in colour)


COLOURS = [item_colour(item) for item in ITEMS]


def chip_elements(token: Token, x: float, y: float) -> List[str]:
    """A chip with its upper left corner at a place."""
    size = {"x": x, "y": y, "width": token.width, "height": CHIP_HEIGHT, "rx": 4}
    middle = x + token.width / 2
    sort = token.style or token.mark
    colour = {} if sort in EMPTY else {"fill": COLOURS[token.item]}
    elements = [
        element("rect", sort=f"k {sort}".strip(), **colour, **size),
        element("text", token.text, sort=f"c {token.mark}".strip(), x=middle, y=y + 12),
    ]
    if token.style == NEVER:
        stroke = path("M", x + 3, y + CHIP_HEIGHT - 2, "L", x + CHIP_WIDTH - 3, y + 2)
        elements.append(element("path", sort=NEVER, d=stroke))
    return elements


@lru_cache(maxsize=CACHED)
def token_elements(token: Token, x: float, y: float) -> Tuple[str, ...]:
    """A token with its upper left corner at a place."""
    if token.item >= 0:
        return tuple(chip_elements(token, x, y))
    sort = " ".join(filter(None, [token.style, token.mark]))
    said = {"sort": sort} if sort else {}
    return (element("text", token.text, x=x, y=y + 12, **said),)


@lru_cache(maxsize=CACHED)
def draw_content(content: Content) -> Drawing:
    """The elements of a box; rows that are full go on below."""
    elements: List[str] = []
    y = float(PAD)
    for section in content.sections:
        x = float(PAD)
        for token in section:
            if x > PAD and x + token.width > WIDTH - PAD:
                x, y = float(PAD), y + LINE
            elements += token_elements(token, x, y)
            x += token.width + GAP
        y += LINE
    return Drawing(tuple(elements), y + PAD - (LINE - CHIP_HEIGHT))


def frame(content: Content, height: float) -> str:
    """The frame of a box."""
    sort = "device" if content.container in DEVICES else ""
    sort = "process" if content.container in PROCESS_CONTAINERS else sort
    style = " ".join(filter(None, ["b", sort, content.mark]))
    return element("rect", sort=style, width=WIDTH, height=height, rx=6)
