"""The places of boxes and links in a picture, and the elements of each.

Devices stand left, processes in the middle, files and pipes right; if there are
many files, the first of them stand below the devices. A link joins a process
with another container, so it never crosses a column. How often it is mapped stands at
the process's end of it.
"""

from typing import Collection, Dict, Iterable, List, NamedTuple, Tuple

from model.limits import DEVICES, FILES, PROCESS_CONTAINERS
from tools.boxes import CHARACTER, GONE, LINE, NEW, TEXT_SIZE, WIDTH, Content, content_of
from tools.boxes import draw_content, element, frame, path
from tools.names import Own
from tools.phrases import WORD_OF_KIND
from tools.provenance import Link
from tools.views import Label, View
from tools.words import Words

MARGIN = 16
BETWEEN_BOXES = 10
BETWEEN_COLUMNS = 150
HEADING = 26
ALONE = 14  # files that stand in a single column
END_ROOM = 7  # between two links at one side of a box
LABEL_ROOM = 14  # between two links at the side of a process, if one of them is labelled
LABEL_GAP = 4  # between an arrow's head and a label
HEAD = 8  # of an arrow
TITLE_HEIGHT = 17  # at which the arrow of a call meets a box
WORD_PLACES = (0.5, 0.65, 0.8, 0.35, 0.2)  # shares of an arrow at which its word may stand

Group = Tuple[str, ...]  # elements
Scene = Dict[str, Group]  # by the group's name, in the order of drawing
Contents = Dict[int, Content]  # by container
Sides = Dict[Tuple[int, bool], List[Link]]  # the links at the left or right side of each box


class Plan(NamedTuple):
    """Where everything stands."""

    places: Dict[int, Tuple[float, float]]  # the upper left corner of each box
    heights: Dict[int, float]
    ends: Dict[Tuple[Link, int], float]  # the height at which a pair's link meets a box
    headings: List[Tuple[float, str]]  # of the columns
    width: float
    height: float

    def origin(self, key: str) -> Tuple[float, float]:
        """The place of a group; links are drawn where they are."""
        sort, number = key.split("-")[:2]
        return self.places[int(number)] if sort == "container" else (0.0, 0.0)


def pair_of(link: Link) -> Link:
    """The two ends of a link, the process first."""
    return link if link[0] in PROCESS_CONTAINERS else (link[1], link[0])


# Layout.


def stack_height(column: List[int], heights: Dict[int, float]) -> float:
    """The height of boxes below each other."""
    return sum(heights[container] + BETWEEN_BOXES for container in column)


def make_columns(heights: Dict[int, float]) -> List[Tuple[str, List[int]]]:
    """The containers of each column, with its heading."""
    left = [c for c in sorted(heights) if c in DEVICES]
    right = [c for c in sorted(heights) if c in FILES]
    heading = "devices" if left else ""
    if len(right) > ALONE:
        heading = " / ".join(filter(None, [heading, "files and pipes"]))
        while stack_height([*left, right[0]], heights) <= stack_height(right[1:], heights):
            left.append(right.pop(0))
    middle = [c for c in sorted(heights) if c in PROCESS_CONTAINERS]
    return [(heading, left), ("processes", middle), ("files and pipes", right)]


def end_order(pairs: Iterable[Link], columns: List[Tuple[str, List[int]]]) -> Sides:
    """The pairs that meet each side of each box, in the order of their other ends."""
    rank: Dict[int, Tuple[int, int]] = {}
    for number, (_, column) in enumerate(columns):
        rank.update((container, (number, place)) for place, container in enumerate(column))
    sides: Sides = {}
    for process, other in pairs:
        to_left = rank[other][0] == 0
        sides.setdefault((process, to_left), []).append((process, other))
        sides.setdefault((other, not to_left), []).append((process, other))
    for (container, _), meeting in sides.items():
        meeting.sort(key=lambda pair: rank[pair[1] if pair[0] == container else pair[0]])
    return sides


def end_room(container: int, meeting: List[Link], labelled: Collection[Link]) -> float:
    """The room between two links at a side of a box."""
    if container in PROCESS_CONTAINERS and not {*labelled}.isdisjoint(meeting):
        return LABEL_ROOM
    return END_ROOM


def make_plan(
    heights: Dict[int, float],
    pairs: Iterable[Link],
    labelled: Collection[Link] = (),
    top: float = MARGIN,
) -> Plan:
    """Places for boxes that need these heights, and for links between pairs, some labelled."""
    columns = make_columns(heights)
    sides = end_order(pairs, columns)
    full = dict(heights)
    for (container, _), meeting in sides.items():
        room = end_room(container, meeting, labelled)
        full[container] = max(full[container], (len(meeting) + 1) * room)
    places: Dict[int, Tuple[float, float]] = {}
    headings = []
    x = float(MARGIN)
    for heading, column in columns:
        if not column:
            continue
        headings.append((x, heading))
        y = top + HEADING
        for container in column:
            places[container] = (x, y)
            y += full[container] + BETWEEN_BOXES
        x += WIDTH + BETWEEN_COLUMNS
    ends = {}
    for (container, _), meeting in sides.items():
        for number, pair in enumerate(meeting, 1):
            share = full[container] * number / (len(meeting) + 1)
            ends[pair, container] = places[container][1] + share
    bottom = max((places[c][1] + full[c] for c in places), default=top + LINE)
    width = x - BETWEEN_COLUMNS + MARGIN if places else WIDTH
    return Plan(places, full, ends, headings, width, bottom + MARGIN)


# Texts on links and arrows.


class Area(NamedTuple):
    """Where a text stands."""

    left: float
    right: float
    y: float  # its base line

    def meets(self, other: "Area") -> bool:
        """Whether two texts are over each other."""
        apart = self.right < other.left or other.right < self.left
        return not apart and abs(self.y - other.y) < TEXT_SIZE


def text_width(text: str) -> float:
    """The width of a text."""
    return len(text) * CHARACTER * TEXT_SIZE


def label_area(plan: Plan, pair: Link, label: Label) -> Area:
    """Where the label of a link stands: on it, beside the process."""
    process, other = pair
    x, y = plan.places[process][0], plan.ends[pair, process] + TEXT_SIZE / 3
    width, away = text_width(label.text), HEAD + LABEL_GAP
    if x < plan.places[other][0]:
        return Area(x + WIDTH + away, x + WIDTH + away + width, y)
    return Area(x - away - width, x - away, y)


class Arrow(NamedTuple):
    """The ends of an arrow between the titles of two boxes."""

    x1: float
    y1: float
    x2: float
    y2: float

    def at(self, share: float) -> Tuple[float, float]:
        """A place on it: it begins and ends level, and is steepest half way."""
        along = 1.5 * share - 1.5 * share**2 + share**3
        down = 3 * share**2 - 2 * share**3
        return self.x1 + (self.x2 - self.x1) * along, self.y1 + (self.y2 - self.y1) * down

    def word(self, word: str, share: float) -> Area:
        """Where its word stands, a little above a place on it."""
        (x, y), half = self.at(share), text_width(word) / 2
        return Area(x - half, x + half, y - 4)


def arrow_of(plan: Plan, pair: Link) -> Arrow:
    """The arrow of what a call moved."""
    (giver_x, giver_y), (target_x, target_y) = plan.places[pair[0]], plan.places[pair[1]]
    rightward = giver_x < target_x
    x1 = giver_x + WIDTH if rightward else giver_x
    x2 = target_x if rightward else target_x + WIDTH
    return Arrow(x1, giver_y + TITLE_HEIGHT, x2, target_y + TITLE_HEIGHT)


def word_place(arrow: Arrow, word: str, labels: Iterable[Area]) -> float:
    """Where on an arrow its word stands over no label, if there is such a place."""
    taken = list(labels)
    free = (s for s in WORD_PLACES if not any(map(arrow.word(word, s).meets, taken)))
    return next(free, WORD_PLACES[0])


# Elements.


def head_element(x: float, y: float, back: float, mark: str) -> str:
    """An arrow's head with its point at x; its back lies on the side of the sign."""
    points = path(x, y, x + back, y - HEAD / 2, x + back, y + HEAD / 2)
    return element("polygon", sort=f"a {mark}".strip(), points=points)


class Painter:
    """Makes the groups of pictures with one plan; what it has made once it keeps."""

    def __init__(self, plan: Plan) -> None:
        self.plan = plan
        self.boxes: Dict[Content, Group] = {}
        self.links: Dict[Tuple, Group] = {}

    def box(self, content: Content) -> Group:
        """A box."""
        if content not in self.boxes:
            outer = frame(content, self.plan.heights[content.container])
            self.boxes[content] = (outer, *draw_content(content).elements)
        return self.boxes[content]

    def link(self, pair: Link, marks: Dict[Link, str]) -> Group:
        """The links between two containers."""
        key = (pair, marks.get(pair), marks.get((pair[1], pair[0])))
        if key not in self.links:
            self.links[key] = link_group(self.plan, pair, marks)
        return self.links[key]

    def label(self, pair: Link, label: Label) -> Group:
        """How often a link is mapped."""
        key = (pair, label)
        if key not in self.links:
            self.links[key] = label_group(self.plan, pair, label)
        return self.links[key]

    def move(self, pair: Link, mark: str, word: str, share: float) -> Group:
        """What a call moved between two containers."""
        key = (pair, mark, word, share)
        if key not in self.links:
            self.links[key] = move_group(self.plan, pair, mark, word, share)
        return self.links[key]

    def scene(self, view: View, contents: Contents) -> Scene:
        """The groups of a view: links, their labels, then what the call moved, then boxes."""
        marks, labels = view.links(), view.labels()
        scene: Scene = {}
        for pair in sorted({pair_of(link) for link in marks}):
            scene[f"link-{pair[0]}-{pair[1]}"] = self.link(pair, marks)
        for pair, label in labels.items():
            scene[f"label-{pair[0]}-{pair[1]}"] = self.label(pair, label)
        taken = [label_area(self.plan, pair, label) for pair, label in labels.items()]
        for pair, mark in view.moves().items():
            word = WORD_OF_KIND[view.step.record.kind] if view.step else ""
            share = word_place(arrow_of(self.plan, pair), word, taken)
            scene[f"move-{pair[0]}-{pair[1]}"] = self.move(pair, mark, word, share)
        for container, content in contents.items():
            scene[f"container-{container}"] = self.box(content)
        return scene


def link_group(plan: Plan, pair: Link, marks: Dict[Link, str]) -> Group:
    """The curve between two boxes with a head for each link."""
    left, right = sorted(pair, key=lambda end: plan.places[end][0])
    x1, x2 = plan.places[left][0] + WIDTH, plan.places[right][0]
    y1, y2 = plan.ends[pair, left], plan.ends[pair, right]
    found = {marks[link] for link in ((left, right), (right, left)) if link in marks}
    mark = NEW if NEW in found else GONE if found == {GONE} else ""
    start = x1 + HEAD - 1 if (right, left) in marks else x1
    end = x2 - HEAD + 1 if (left, right) in marks else x2
    half = (x1 + x2) / 2
    curve = path("M", start, y1, "C", half, y1, half, y2, end, y2)
    group = [element("path", sort=f"l {mark}".strip(), d=curve)]
    if (right, left) in marks:
        group.append(head_element(x1, y1, HEAD, marks[right, left]))
    if (left, right) in marks:
        group.append(head_element(x2, y2, -HEAD, marks[left, right]))
    return tuple(group)


def label_group(plan: Plan, pair: Link, label: Label) -> Group:
    """How often a link is mapped, in a gap of it beside the process."""
    area = label_area(plan, pair, label)
    leftward = plan.places[pair[1]][0] < plan.places[pair[0]][0]
    gap = {"x": area.left - 2, "width": area.right - area.left + 4}
    sort = " ".join(filter(None, ["q", label.mark, "e" if leftward else ""]))
    x = area.right if leftward else area.left
    return (
        element("rect", sort="g", y=area.y - TEXT_SIZE + 1, height=TEXT_SIZE + 1, **gap),
        element("text", label.text, sort=sort, x=x, y=area.y),
    )


def move_group(plan: Plan, pair: Link, mark: str, word: str, share: float) -> Group:
    """An arrow between the titles of two boxes, with the word of the call on it."""
    arrow = arrow_of(plan, pair)
    x1, y1, x2, y2 = arrow
    back = -HEAD if x1 < x2 else HEAD
    half = (x1 + x2) / 2
    curve = path("M", x1, y1, "C", half, y1, half, y2, x2 + back, y2)
    area = arrow.word(word, share)
    return (
        element("path", sort=f"m {mark}", d=curve),
        head_element(x2, y2, back, mark),
        element("text", word, sort=f"w {mark}", x=(area.left + area.right) / 2, y=area.y),
    )


# What the boxes say.


def contents_of(view: View, own: Own) -> Contents:
    """What each box of a view says."""
    words = Words(own, view.moment.sorts)
    return {container: content_of(view, words, container) for container in view.shown()}


def next_contents(view: View, own: Own, before: View, contents: Contents) -> Contents:
    """The same for the view after another; boxes that neither record touches stay as they are."""
    if view.forbidden is not before.forbidden:
        return contents_of(view, own)
    words = Words(own, view.moment.sorts)
    touched = view.touched() | before.touched()
    return {
        c: contents[c] if c in contents and c not in touched else content_of(view, words, c)
        for c in view.shown()
    }


def all_contents(views: List[View], own: Own) -> List[Contents]:
    """What the boxes say in each view of a log."""
    found = [contents_of(views[0], own)]
    for before, view in zip(views, views[1:]):
        found.append(next_contents(view, own, before, found[-1]))
    return found


def needed(contents: Iterable[Contents]) -> Dict[int, float]:
    """The height that each box needs in all of these pictures."""
    heights: Dict[int, float] = {}
    for boxes in contents:
        for container, content in boxes.items():
            height = draw_content(content).height
            heights[container] = max(heights.get(container, 0.0), height)
    return heights


def plan_of(views: List[View], contents: List[Contents], top: float = MARGIN) -> Plan:
    """The plan of the pictures of some views, one for all of them."""
    pairs = {pair_of(link) for view in views for link in view.links()}
    labelled = {pair for view in views for pair in view.labels()}
    return make_plan(needed(contents), pairs, labelled, top)
