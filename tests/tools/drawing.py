"""Tests of draw: the pictures' form, marks and layout, and the command."""

import json
import re
import tempfile
from pathlib import Path
from typing import Iterator, List, Set, Tuple
from unittest import mock
from xml.etree import ElementTree

from model import limits
from model.limits import Kind
from model.logtext import assemble
from model.records import Call, confine, encode, forbid, separate
from tests.tools.session import LOGS, STORIES, Session, logtool, story_names, story_steps
from tools import boxes, scene
from tools.draw import dot_text, svg_text
from tools.names import NO_OWN
from tools.page import html_text
from tools.provenance import Step, steps_of
from tools.views import views_of

SVG = "{http://www.w3.org/2000/svg}"
Area = Tuple[float, float, float, float]  # left, top, right, bottom


# What stands in a picture.


def groups_of(svg: ElementTree.Element) -> dict:
    """The groups of a picture by their names."""
    return {group.get("id"): group for group in svg.iter(f"{SVG}g")}


def drawn_containers(svg: ElementTree.Element) -> Set[int]:
    """The containers that have a box."""
    return {int(key.split("-")[1]) for key in groups_of(svg) if key.startswith("container-")}


def drawn_links(svg: ElementTree.Element) -> Set[Tuple[int, int]]:
    """The pairs that are joined, the process first."""
    keys = [key.split("-")[1:] for key in groups_of(svg) if key.startswith("link-")]
    return {(int(process), int(other)) for process, other in keys}


def drawn_labels(svg: ElementTree.Element) -> dict:
    """What stands on links, by the pair, each with its marks."""
    found = {}
    for key, group in groups_of(svg).items():
        if key.startswith("label-"):
            text = group.find(f"{SVG}text")
            process, other = map(int, key.split("-")[1:])
            found[process, other] = (text.text, {*text.get("class").split()} - {"q", "e"})
    return found


def drawn_items(svg: ElementTree.Element, container: int) -> Set[int]:
    """The items that a box shows as held."""
    group = groups_of(svg)[f"container-{container}"]
    chips = [e for e in group if e.tag == f"{SVG}rect" and "k" in e.get("class", "").split()]
    texts = [e for e in group if e.tag == f"{SVG}text" and "c" in e.get("class", "").split()]
    held = set()
    for chip, text in zip(chips, texts):
        if not {"never", "gone", "stopped"} & set(chip.get("class", "").split()):
            held.add(int(text.text.lstrip("+")))
    return held


def drawn_moves(svg: ElementTree.Element) -> Set[Tuple[int, int]]:
    """The givers and receivers of the last call."""
    keys = [key.split("-")[1:] for key in groups_of(svg) if key.startswith("move-")]
    return {(int(giver), int(target)) for giver, target in keys}


def drawn_gains(svg: ElementTree.Element) -> Set[int]:
    """The containers whose boxes are marked as gaining."""
    return {
        int(key.split("-")[1])
        for key, group in groups_of(svg).items()
        if key.startswith("container-")
        and "gained" in group.find(f"{SVG}rect").get("class").split()
    }


def areas_of(svg: ElementTree.Element) -> List[Area]:
    """Where the boxes stand."""
    found = []
    for key, group in groups_of(svg).items():
        if key.startswith("container-"):
            x, y = map(float, re.findall(r"[-0-9.]+", group.get("transform")))
            frame = group.find(f"{SVG}rect")
            width, height = float(frame.get("width")), float(frame.get("height"))
            found.append((x, y, x + width, y + height))
    return found


def text_width(text: ElementTree.Element) -> float:
    """How wide a text is, at least."""
    size = boxes.TITLE_SIZE if "t" in text.get("class", "").split() else boxes.TEXT_SIZE
    return len(text.text or "") * size * boxes.CHARACTER


def text_right(text: ElementTree.Element) -> float:
    """Where a text ends, at least."""
    room = text_width(text)
    middle = "c" in text.get("class", "").split()
    return float(text.get("x")) + (room / 2 if middle else room)


def text_area(text: ElementTree.Element) -> Area:
    """Where a text on a link or an arrow stands."""
    sorts, width = text.get("class").split(), text_width(text)
    before = {"w": width / 2, "e": width}
    left = float(text.get("x")) - next((before[sort] for sort in before if sort in sorts), 0)
    bottom = float(text.get("y"))
    return left, bottom - boxes.TEXT_SIZE * 0.8, left + width, bottom


def over(one: Area, two: Area) -> bool:
    """Whether two areas have a place in common."""
    return one[0] < two[2] and two[0] < one[2] and one[1] < two[3] and two[1] < one[3]


def texts_between(svg: ElementTree.Element, sort: str) -> List[ElementTree.Element]:
    """The texts on links (label) or on arrows (move)."""
    groups = [group for key, group in groups_of(svg).items() if key.startswith(f"{sort}-")]
    return [text for group in groups for text in group.iter(f"{SVG}text")]


def label_faults(svg: ElementTree.Element) -> Iterator[str]:
    """Labels of links that are over boxes, or over each other."""
    labels = [(text.text, text_area(text)) for text in texts_between(svg, "label")]
    for number, (text, area) in enumerate(labels):
        if area[0] < 0 or area[2] > float(svg.get("width")):
            yield f"label '{text}' outside the picture"
        if any(over(area, box) for box in areas_of(svg)):
            yield f"label '{text}' over a box"
        for other, place in labels[:number]:
            if over(area, place):
                yield f"label '{text}' over '{other}'"


def layout_faults(svg: ElementTree.Element) -> Iterator[str]:
    """Boxes outside the picture or over each other, texts outside their boxes."""
    width, height = float(svg.get("width")), float(svg.get("height"))
    areas = areas_of(svg)
    for number, one in enumerate(areas):
        if one[0] < 0 or one[1] < 0 or one[2] > width or one[3] > height:
            yield f"box {one} outside {width} x {height}"
        for two in areas[:number]:
            if over(one, two):
                yield f"box {one} over {two}"
    yield from label_faults(svg)
    for key, group in groups_of(svg).items():
        frame = group.find(f"{SVG}rect")
        for text in group.iter(f"{SVG}text") if key.startswith("container-") else ():
            inside = text_right(text) <= float(frame.get("width")) - 2
            if not inside or float(text.get("y")) > float(frame.get("height")) - 3:
                yield f"{key}: text '{text.text}' outside its box"
    for text in svg.findall(f"{SVG}text"):
        if text_right(text) > width or float(text.get("y")) > height:
            yield f"text '{text.text}' outside the picture"


# Pictures of fixed logs.


def crowded_log() -> bytes:
    """A log with all 64 containers in use, many items, links and descriptors, and 32 rules."""
    records: list = [Call(Kind.START, process) for process in limits.PROCESSES]
    for place, container in enumerate(limits.FILES):
        process, descriptor = place % 16, place // 16
        records.append(Call(Kind.CREATE, process, place, descriptor, container))
        records.append(Call(Kind.LABEL, 0, container, place))
    for process in limits.PROCESSES:
        records += [Call(Kind.OPEN, process, process * 2, d) for d in range(5, 25)]
        records += [Call(Kind.DEVICE, process, 25 + n, (process + n) % 8) for n in range(4)]
        records.append(Call(Kind.MAP_BOTH if process % 3 else Kind.MAP_READ, process, 0))
        records += [Call(Kind.MAP_READ, process, 5), Call(Kind.MAP_READ, process, 25)]
    records += [Call(Kind.LINK, 0, 0, name) for name in range(41, 128, 2)]
    records += [Call(Kind.LABEL, 0, 8, item) for item in range(64)]
    records += [forbid(item, range(0, 64, 3), 1, 3) for item in range(49, 63)]
    records += [confine(item, limits.CONTAINERS) for item in range(18)] + [separate(62, 63)]
    return b"".join(map(encode, records))


def steps_of_text(text: str) -> List[Step]:
    """The steps of a readable log."""
    return list(steps_of(assemble(text.encode())))


def parsed(steps: List[Step], at: int, own: dict = NO_OWN) -> ElementTree.Element:
    """The picture after a record."""
    return ElementTree.fromstring(svg_text(steps, at, "a log", own))


def sorts_in(group: ElementTree.Element) -> Set[str]:
    """The classes of the elements of a group."""
    return {sort for part in group.iter() for sort in part.get("class", "").split()}


def test_crowded(session: Session) -> None:
    """All containers in use."""
    steps = list(steps_of(crowded_log()))
    svg = parsed(steps, len(steps))
    state = steps[-1].after.state
    session.checks.equal("crowded: containers", drawn_containers(svg), set(limits.CONTAINERS))
    session.checks.true("crowded: links", len(drawn_links(svg)) > 40, str(len(drawn_links(svg))))
    session.checks.equal("crowded: rules", len(state.rules), 32)
    session.checks.equal("crowded: layout", list(layout_faults(svg)), [])
    session.checks.true("crowded: width", float(svg.get("width")) < 1200, svg.get("width"))
    texts = [text.text for text in svg.iter(f"{SVG}text")]
    for number in range(32):
        session.checks.true(
            f"crowded: rule {number}", any(t.startswith(f"rule {number}:") for t in texts)
        )


def test_stories(session: Session) -> None:
    """Each record of the logs of logs/, and the empty log."""
    for name in STORIES:
        steps = story_steps(name)
        for at in range(len(steps) + 1):
            svg = parsed(steps, at, story_names(name))
            session.checks.equal(f"{name} at {at}: layout", list(layout_faults(svg)), [])
            texts = " ".join(text.text for text in svg.iter(f"{SVG}text"))
            session.checks.true(
                f"{name} at {at}: title", f"after record {at} of {len(steps)}" in texts
            )
    svg = parsed([], 0)
    session.checks.equal("empty log: containers", drawn_containers(svg), set())
    session.checks.equal("empty log: layout", list(layout_faults(svg)), [])


MARKED = [
    ("start 0", "container-8", {"b", "process", "new"}),
    ("start 0\nexit 0", "container-8", {"b", "process", "gone"}),
    ("start 0\nlabel container=process0 item=3", "container-8", {"k", "new"}),
    ("start 0\nlabel container=process0 item=3\nexit 0", "container-8", {"k", "gone"}),
    ("start 0\nlabel container=process0 item=3", "container-8", {"b", "process", "gained"}),
    (
        "start 0\nlabel container=process0 item=3\nfork 0 child=1",
        "container-9",
        {"b", "new", "gained"},
    ),
    (
        "start 0\ndevice 0 descriptor=1 device=panel\nmap-both 0 descriptor=1",
        "link-8-1",
        {"l", "new"},
    ),
    (
        "start 0\ndevice 0 descriptor=1 device=panel\nmap-both 0 descriptor=1\n"
        "close 0 descriptor=1\nunmap 0 container=panel both",
        "link-8-1",
        {"l", "gone"},
    ),
    (
        "start 0\ndevice 0 descriptor=1 device=panel\nmap-read 0 descriptor=1\n"
        "map-read 0 descriptor=1",
        "label-8-1",
        {"q", "new"},
    ),
    (
        "start 0\ndevice 0 descriptor=1 device=panel\nmap-read 0 descriptor=1\n"
        "map-read 0 descriptor=1\nunmap 0 container=panel read",
        "label-8-1",
        {"q", "less"},
    ),
    ("forbid item=3 in=panel inhibit", "container-1", {"never"}),
    ("forbid item=3 in=panel divert=port", "container-3", {"device"}),
    (
        "forbid item=3 in=panel inhibit\nlabel container=panel item=3",
        "container-1",
        {"k", "stopped"},
    ),
    (
        "start 0\ncreate 0 name=5 descriptor=0 container=24\nunlink 0 name=5",
        "container-24",
        {"gone"},
    ),
    ("start 0\npipe 0 descriptors=0,1 container=24", "container-8", {"new"}),
    (
        "start 0\npipe 0 descriptors=0,1 container=24\nread 0 descriptor=1",
        "move-24-8",
        {"m", "done"},
    ),
    (
        "forbid item=3 in=panel inhibit\nstart 0\nlabel container=process0 item=3\n"
        "device 0 descriptor=1 device=panel\nwrite 0 descriptor=1",
        "move-8-1",
        {"m", "stopped"},
    ),
    (
        "forbid item=3 in=panel divert=port\nstart 0\nlabel container=process0 item=3\n"
        "device 0 descriptor=1 device=panel\nwrite 0 descriptor=1",
        "move-8-3",
        {"m", "done"},
    ),
    ("start 0\npipe 0 descriptors=0,1 container=24\nclose 0 descriptor=1", "container-8", {"gone"}),
    (
        "confine item=1 to=process0 inhibit\nstart 0\nlabel container=process0 item=1\n"
        "fork 0 child=3",
        "container-11",
        {"b", "stopped"},
    ),
]


def test_marks(session: Session) -> None:
    """What the last record changed, or would have, is marked, and no longer after the next."""
    for text, key, sorts in MARKED:
        steps = steps_of_text(text)
        name = f"marks of '{text.splitlines()[-1]}'"
        groups = groups_of(parsed(steps, len(steps)))
        found = sorts_in(groups[key]) if key in groups else set()
        session.checks.true(name, sorts <= found, f"{key} has {found}")
        if "never" in sorts or "device" in sorts:
            continue
        later = groups_of(parsed(steps_of_text(text + "\nexit 15"), len(steps) + 1))
        found = sorts_in(later[key]) if key in later else set()
        session.checks.true(
            f"{name}, one record on",
            not found & {"new", "gone", "stopped", "less", "gained"},
            str(found),
        )


# The last record of each log, with the containers that gain by it.
SHARED = (
    "start 0\nstart 1\ncreate 0 name=5 descriptor=0 container=24\nopen 1 name=5 descriptor=0\n"
    "map-read 0 descriptor=0\nmap-read 1 descriptor=0\n"
)
DIVERTED = (
    "forbid item=3 in=panel divert=port\nstart 0\nlabel container=process0 item=3\n"
    "device 0 descriptor=1 device=panel\nwrite 0 descriptor=1\n"
)
GAINS = [
    ("", set()),
    ("start 0", set()),
    (SHARED, set()),
    (SHARED + "label container=24 item=3", {8, 9, 24}),
    (SHARED + "label container=24 item=3\nlabel container=24 item=3", set()),
    (SHARED + "label container=process1 item=3\nlabel container=24 item=3", {8, 24}),
    (SHARED + "label container=process0 item=3\nfork 0 child=7", {15}),
    (SHARED + "label container=24 item=3\ntruncate 0 descriptor=0", set()),
    (DIVERTED, {3}),
    (DIVERTED + "write 0 descriptor=1", set()),
    (DIVERTED.replace("divert=port", "inhibit"), set()),
]


def test_gains(session: Session) -> None:
    """The boxes that gained are marked, in every form, and the mark is explained."""
    for text, wanted in GAINS:
        steps = steps_of_text(text)
        name = f"gains of '{text.splitlines()[-1] if text else ''}'"
        svg = parsed(steps, len(steps))
        session.checks.equal(name, drawn_gains(svg), wanted)
        key = [text.text for text in svg.iter(f"{SVG}text") if "gained an item by" in text.text]
        session.checks.equal(f"{name}: it is explained", len(key), int(bool(wanted)))
        session.checks.equal(f"{name}: layout", list(layout_faults(svg)), [])
        lines = dot_text(steps, len(steps), "a log", NO_OWN).splitlines()
        filled = {int(re.match("  c([0-9]+) ", line)[1]) for line in lines if "filled" in line}
        session.checks.equal(f"{name}: in dot", filled, wanted)


# What is mapped, each with what stands on the link afterwards, and its mark.
ONE = "start 0\ncreate 0 name=5 descriptor=0 container=24\nmap-read 0 descriptor=0\n"
LABELS = [
    (ONE, None),
    (ONE + "map-read 0 descriptor=0", ("2\u00d7", {"new"})),
    (ONE + "map-read 0 descriptor=0\nexit 9", ("2\u00d7", set())),
    (ONE + "map-read 0 descriptor=0\nunmap 0 container=24 read", ("1\u00d7", {"less"})),
    (ONE + "map-read 0 descriptor=0\nunmap 0 container=24 read\nexit 9", None),
    (ONE + "map-both 0 descriptor=0", ("read 1, both 1", {"new"})),
    (ONE + "map-both 0 descriptor=0\nunmap 0 container=24 both", ("1\u00d7", {"less"})),
    (ONE + "map-both 0 descriptor=0\nunmap 0 container=24 read", ("1\u00d7", {"less"})),
    (
        ONE + "map-both 0 descriptor=0\nmap-read 0 descriptor=0\nunmap 0 container=24 both\n"
        "map-both 0 descriptor=0\nexit 9",
        ("read 2, both 1", set()),
    ),
    (ONE + "unmap 0 container=24 read", None),
    (ONE + "map-both 0 descriptor=0\n" * 255, ("read 1, both 255", {"new"})),
    (
        ONE + "map-both 0 descriptor=0\n" * 255 + "map-read 0 descriptor=0\n" * 254 + "exit 9",
        ("read 255, both 255", set()),
    ),
]


def test_labels(session: Session) -> None:
    """How often a container is mapped stands on the link, where that says something."""
    for text, wanted in LABELS:
        steps = steps_of_text(text)
        name = f"label after {len(steps)} records, '{text.splitlines()[-1]}'"
        svg = parsed(steps, len(steps))
        session.checks.equal(name, drawn_labels(svg).get((8, 24)), wanted)
        session.checks.equal(f"{name}: layout", list(layout_faults(svg)), [])
        words = [text_area(text) for text in texts_between(svg, "move")]
        labels = [text_area(text) for text in texts_between(svg, "label")]
        clear = not any(over(word, label) for word in words for label in labels)
        session.checks.true(f"{name}: the word of the call stands clear of it", clear)
        key = [text.text for text in svg.iter(f"{SVG}text") if "mapped twice" in text.text]
        session.checks.equal(f"{name}: it is explained", len(key), int(wanted is not None))
        lines = dot_text(steps, len(steps), "a log", NO_OWN).splitlines()
        labelled = [line for line in lines if line.startswith("  c24 -> c8") and "label=" in line]
        there = wanted is not None and any(f'label="{wanted[0]}"' in line for line in labelled)
        session.checks.equal(f"{name}: in dot", there, wanted is not None)
        page = html_text(steps, len(steps), "a log", NO_OWN)
        said = json.dumps(f">{wanted[0]}</text>")[1:-1] if wanted else ""
        session.checks.true(f"{name}: on the page", said.replace("<", "\\u003c") in page)


def test_way_back_alone(session: Session) -> None:
    """Where the way back ends alone, the link is drawn as one that stays."""
    steps = steps_of_text(ONE + "map-both 0 descriptor=0\nunmap 0 container=24 both")
    group = groups_of(parsed(steps, len(steps)))["link-8-24"]
    sorts = [part.get("class") for part in group]
    session.checks.equal("the way back ends", sorts, ["l", "a", "a gone"])


def crowded_labels() -> bytes:
    """A log in which each of many links has a label, at both sides of the processes."""
    records = [Call(Kind.START, process) for process in range(4)]
    for place, container in enumerate(range(24, 54)):
        records.append(Call(Kind.CREATE, place % 4, place, 0 if place < 4 else place, container))
    for place in range(30):
        for process in (place % 4, (place + 1) % 4):
            records.append(Call(Kind.OPEN, process, place, 31))
            records += [Call(Kind.MAP_BOTH, process, 31)] * 2 + [Call(Kind.MAP_READ, process, 31)]
            records.append(Call(Kind.CLOSE, process, 31))
    return b"".join(map(encode, records))


def test_crowded_labels(session: Session) -> None:
    """Labels of many links stand clear of each other."""
    steps = list(steps_of(crowded_labels()))
    session.checks.equal("labels: all done", {s.answer.word for s in steps}, {"allow"})
    svg = parsed(steps, len(steps))
    labels = drawn_labels(svg)
    session.checks.equal("labels: one for each link", len(labels), 60)
    session.checks.equal("labels: texts", {text for text, _ in labels.values()}, {"read 1, both 2"})
    session.checks.equal("labels: layout", list(layout_faults(svg)), [])
    with mock.patch.object(scene, "end_room", lambda *given: scene.END_ROOM):
        faults = list(layout_faults(parsed(steps, len(steps))))
    session.checks.true("labels: too little room is found", bool(faults))


def test_idle_devices(session: Session) -> None:
    """Devices that nothing concerns are not drawn."""
    for text, wanted in [
        ("", set()),
        ("start 0", {8}),
        ("start 0\ndevice 0 descriptor=1 device=radio", {2, 8}),
        ("label container=7 item=1", {7}),
        ("confine item=1 to=24 inhibit", set()),
        ("forbid item=1 in=panel,30 divert=port", {1, 3}),
    ]:
        steps = steps_of_text(text)
        session.checks.equal(
            f"devices of '{text}'", drawn_containers(parsed(steps, len(steps))), wanted
        )


def test_dot(session: Session) -> None:
    """The form for Graphviz."""
    for name in STORIES:
        steps = story_steps(name)
        lines = dot_text(steps, len(steps), 'a "name"', story_names(name)).splitlines()
        view = views_of(steps)[-1]
        ends = (lines[0], lines[-1])
        session.checks.equal(f"{name}: dot frame", ends, ("digraph state {", "}"))
        nodes = [line.split()[0] for line in lines if re.match(r"  c[0-9]+ \[", line)]
        session.checks.equal(f"{name}: dot boxes", nodes, [f"c{c}" for c in view.shown()])
        edges = {tuple(map(int, re.findall("c([0-9]+)", line))) for line in lines if "->" in line}
        session.checks.true(f"{name}: dot links", {*view.links()} <= edges, str(edges))
        quotes = all(line.replace('\\"', "").count('"') % 2 == 0 for line in lines)
        session.checks.true(f"{name}: dot quotes", quotes)


# The command.


def test_command(session: Session) -> None:
    """The forms by the end of the name, --at, and what cannot be drawn."""
    log = str(LOGS / "rowers.log.txt")
    steps, own = story_steps("rowers"), story_names("rowers")
    with tempfile.TemporaryDirectory() as folder:
        for words, ending, make, at in [
            ([], "svg", svg_text, 30),
            (["--at", "28"], "SVG", svg_text, 28),
            (["--at", "0"], "dot", dot_text, 0),
            ([], "html", html_text, 1),
            (["--at", "28"], "html", html_text, 28),
        ]:
            path = Path(folder) / f"picture.{ending}"
            result = logtool("draw", log, "-o", str(path), *words)
            session.checks.equal(f"draw {words} .{ending}", result, (0, "", ""))
            same = path.read_text() == make(steps, at, "rowers.log.txt", own)
            session.checks.true(f"draw {words} .{ending}: the picture", same)
        out = str(Path(folder) / "out.svg")
        for words, part in [
            (["-o", out, "--at", "31"], "expected 0 to 30"),
            (["-o", out, "--at", "-1"], "expected 0 to 30"),
            (["-o", out, "--at", "x"], "invalid int value"),
            (["-o", out + ".png"], "ends in .svg, .html, .dot"),
            (["-o", "-"], "ends in .svg, .html, .dot"),
            ([], "-o"),
        ]:
            result = logtool("draw", log, *words)
            good = result.status == 2 and not result.output and part in result.message
            session.checks.true(f"draw {words}", good, str(result))
        session.checks.true("nothing drawn after an error", not Path(out).exists())
        cut = Path(folder) / "cut.log"
        cut.write_bytes(b"\x10\x00")
        for ending in ("svg", "html", "dot"):
            path = Path(folder) / f"cut.{ending}"
            result = logtool("draw", str(cut), "-o", str(path))
            good = result.status == 1 and "copy it again" in result.message and path.exists()
            session.checks.true(f"draw a log cut short, .{ending}", good, str(result))


def test_strange_names(session: Session) -> None:
    """Names of files and things with signs that XML and scripts know."""
    own = {("container", 8): '</script><b>&"', ("item", 1): "<!--", ("name", 5): "]]>'"}
    steps = steps_of_text(
        "start 0\ncreate 0 name=5 descriptor=0 container=24\nlabel container=24 item=1"
    )
    for name in ('a\x01"<&\udc80', "</title><script>"):
        ElementTree.fromstring(svg_text(steps, 3, name, own))
        text = html_text(steps, 3, name, own)
        session.checks.equal(f"a page named {name!a}: scripts", text.count("</script>"), 2)
        text.encode()
