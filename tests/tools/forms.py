"""Every command takes a log as bytes and as readable text, from files and from standard input."""

import tempfile
from pathlib import Path
from typing import List

from model.generate import MIXES, generate_records
from model.logfiles import is_text
from model.logtext import FORMS, disassemble
from tests.logtests.randomlogs import random_log
from tests.tools.commands import NAMELESS, Ran, environment, inside, run
from tests.tools.session import LOGS, STORIES, Session, story_log

SEEDS = range(1, 101)

# What stands at the front of an input, and whether it is a text.
FRONTS = [
    (b"start 0\n", True),
    (b"start 0", True),
    (b"opne 0\n", True),
    (b"# a comment\nstart 0\n", True),
    (b"\n \t\r\n\n  start 0\n", True),
    (b"start 0\r\nexit 0\r\n", True),
    (b"\xef\xbb\xbfstart 0\n", True),
    (b"\xff\xfes\x00t\x00", True),
    (b"\xfe\xff\x00s\x00t", True),
    (b"# caf\xe9\n", True),
    ("# \u00fcber\n".encode(), True),
    (b"raw 10 0005 0100000000\n", True),
    (b"start 0\n" + bytes(100), True),  # a disk that filled up, or lost its power
    (b"# \x1b[0m\n", True),
    (b"start\x00 0\n", True),
    (b"x", True),
    (b"\x10", False),
    (b"\x10\x00", False),
    (b"\x10\x00\x05\x01\x00\x00\x00\x00", False),
    (b"\x11\x00\x0b", False),
    (b"\x12\x00\x04", False),
    (b"\x13\x00\x0b", False),
    (b"\x0a\x00\x00\x10\x00\x05", False),
    (b"\x20\x00\x00", False),
    (b"#\x00\x00", False),
    (b"s\x00\x05tart\n", False),
    (b"\xff\x00\x00", False),
]

# Commands on one log, of which the output is the same however the log comes.
READING = [
    "runlog {}",
    "logtool assemble {}",
    "logtool show {}",
    f"logtool explain {{}} {NAMELESS}",
    "modelrun answers {}",
    "modelrun state {}",
    "modelrun items {} 26",
    "modelrun holders {} 1",
]


def test_fronts(session: Session) -> None:
    """What tells a text from bytes."""
    for front, wanted in FRONTS:
        session.checks.equal(f"is a text: {front!r}", is_text(front), wanted)
    for form in FORMS:
        line = form.shape.encode()
        session.checks.true(f"is a text: {form.shape}", is_text(line))
    logs = [b"".join(generate_records(seed, 20, mix)) for mix in MIXES for seed in SEEDS]
    logs += [random_log(seed) for seed in SEEDS]
    wrong = [log[:8].hex() for log in logs if log and is_text(log)]
    session.checks.equal("random logs that pass for texts", wrong, [])
    wrong = [text[:20] for text in map(disassemble, logs) if not is_text(text)]
    session.checks.equal("texts of random logs that pass for bytes", wrong, [])


def ways(folder: Path, name: str) -> List[Path]:
    """A log as text and as bytes; the first one also under names that do not fit."""
    text, log = (LOGS / f"{name}.log.txt").read_bytes(), story_log(name)
    files = {"a.txt": text, "a.log": log}
    if name == STORIES[0]:
        files.update({"text.log": text, "text": text, "bytes.txt": log, "bytes": log})
    for file, data in files.items():
        (folder / file).write_bytes(data)
    return [folder / file for file in files]


def without_name(ran: Ran, path: str) -> Ran:
    """What a command left, whatever the input's name is."""
    return ran._replace(message=ran.message.replace(path, "-").replace("standard input", "-"))


def check_alike(session: Session, name: str, found: List[Ran]) -> None:
    """All ways lead to the same output, status and message, and to some output."""
    others = [ran for ran in found if ran != found[0]]
    session.checks.true(f"{name}: alike", not others, str([found[0], *others[:1]]))
    session.checks.true(f"{name}: an output", bool(found[0].output), found[0].message)


def test_ways(session: Session) -> None:
    """Each command on each log, as text and as bytes, from files and from standard input."""
    for story in STORIES:
        with tempfile.TemporaryDirectory() as folder:
            files = ways(Path(folder), story)
            for words in READING:
                found = []
                for path in files:
                    ran = inside(session, words.format(path))
                    found.append(without_name(ran, str(path)))
                    ran = inside(session, words.format("-"), data=path.read_bytes())
                    found.append(without_name(ran, "-"))
                check_alike(session, f"{words} on {story}", found)


def test_pictures(session: Session) -> None:
    """Pictures of a log from standard input are the same, whatever its form."""
    for ending in ("svg", "html", "dot"):
        with tempfile.TemporaryDirectory() as folder:
            out = Path(folder) / f"a.{ending}"
            drawn = []
            for path in ways(Path(folder), "rowers"):
                ran = inside(session, f"logtool draw - -o {out}", data=path.read_bytes())
                session.checks.equal(f"draw - -o .{ending} of {path.name}", ran, Ran(0, b"", ""))
                drawn.append(out.read_bytes())
            session.checks.true(f"pictures .{ending}: alike", len(set(drawn)) == 1)


def test_disassemble(session: Session) -> None:
    """The text of a text is that of its log; comments that are left out are named."""
    for story in STORIES:
        log, text = story_log(story), (LOGS / f"{story}.log.txt").read_bytes()
        of_bytes = inside(session, "logtool disassemble -", data=log)
        of_text = inside(session, "logtool disassemble -", data=text)
        session.checks.equal(f"disassemble {story}: bytes", of_bytes.output, disassemble(log))
        session.checks.equal(f"disassemble {story}: text", of_text.output, disassemble(log))
        good = "is a text already" in of_text.message and "already" not in of_bytes.message
        session.checks.true(f"disassemble {story}: message", good, of_text.message)
        again = inside(session, "logtool disassemble -", data=of_text.output)
        session.checks.equal(f"disassemble {story}: again", again.output, of_text.output)
        session.checks.true("a text without loss", "already" not in again.message, again.message)


def test_settled(session: Session) -> None:
    """--text and --bytes settle it, whatever stands there."""
    story = LOGS / "rowers.log.txt"
    for words in READING:
        form = words.format("-")
        same = [
            inside(session, f"{form} --text", data=story.read_bytes()),
            inside(session, f"{form} --bytes", data=story_log("rowers")),
        ]
        check_alike(session, f"{form}, the form that it has", same)
        ran = inside(session, f"{form} --text", data=story_log("rowers"))
        good = ran.status == 2 and "standard input, line 1: found" in ran.message
        good = good and not ran.output and "--bytes" not in ran.message
        session.checks.true(f"{form} --text of bytes", good, str(ran))
        ran = inside(session, f"{form} --text --bytes", data=b"")
        session.checks.equal(f"{form} --text --bytes", (ran.status, ran.output), (2, b""))
    ran = inside(session, "modelrun answers - --bytes", data=story.read_bytes())
    session.checks.equal("a text as bytes", ran.output, b"refused 1\n")
    ran = inside(session, f"modelrun holders {story} 1")
    session.checks.equal("holders of item 1 in the story", ran.output, b"1 26\n")


def test_cut_short(session: Session) -> None:
    """Queries of a log that is cut short are answered, and it is said."""
    log = story_log("rowers") + b"\x10"
    for words in ("modelrun state -", "modelrun items - 26", "modelrun holders - 1"):
        whole, cut = inside(session, words, data=log[:-1]), inside(session, words, data=log)
        session.checks.equal(f"{words}, cut short: output", cut.output, whole.output)
        said = "standard input: found 1 byte of record 31, expected at least 3; "
        good = cut.status == 1 and said in cut.message and not whole.message
        session.checks.true(f"{words}, cut short: message", good, str(cut))


def test_characters(session: Session) -> None:
    """Comments and names go out whatever the output's characters are."""
    text = "start 0 # \u2192 caf\u00e9\n#beat\nexit 0 #radio\n".encode()
    with tempfile.TemporaryDirectory() as folder:
        names = Path(folder) / "names"
        names.write_text("process 0 = \u2192\n", encoding="utf-8")
        for encoding in ("utf-8", "latin-1", "ascii"):
            env = environment({"PYTHONIOENCODING": encoding})
            for words in ("runlog --show -", f"logtool explain - --names {names}"):
                ran = run(session, words, input=text, env=env)
                arrow = "\u2192".encode(encoding, "backslashreplace")
                good = (ran.status, ran.message) == (0, "") and arrow in ran.output
                session.checks.true(f"{words}, {encoding}", good, str(ran))
    ran = run(session, "runlog --show -", input=text)
    lines = [line.split()[-1] for line in ran.output.decode().splitlines()]
    session.checks.equal("runlog --show: comments", lines, ["caf\u00e9", "beat", "radio"])
    for text in (b"", b"\n"):
        ran = run(session, "runlog --show -", input=text)
        session.checks.equal(f"runlog --show of {text!r}", ran, Ran(0, b"", ""))


def test_bad_texts(session: Session) -> None:
    """A text with a fault is not taken for a log that is cut short."""
    for text, part in (
        (b"start 0\nopne 0\n", "line 2: found 'opne'"),
        (b"start 0\n" + bytes(9), "line 2: found '\\x00"),
        (b"start 0\n# caf\xe9\n", "line 2: found byte e9 hex, expected text in UTF-8"),
        (b"start\x00 0\n", "line 1: found 'start\\x00'"),
        (b"\xff\xfes\x00", "found a text in UTF-16, expected UTF-8; save it as UTF-8"),
    ):
        for words in READING:
            ran = inside(session, words.format("-"), data=text)
            good = ran.status == 2 and not ran.output and part in ran.message
            good = good and "add --bytes" in ran.message and "Traceback" not in ran.message
            session.checks.true(f"{words} on {text!r}", good, str(ran))


def test_other_packages(session: Session) -> None:
    """Installed packages with the names of the repository's own are not taken for them."""
    story = LOGS / "rowers.log.txt"
    with tempfile.TemporaryDirectory() as folder:
        for name in ("model", "tools", "tests", "bench"):
            (Path(folder) / name).mkdir()
            (Path(folder) / name / "__init__.py").write_text("raise ImportError('another one')\n")
        env = environment({"PYTHONPATH": folder})
        for words in (words.format(story) for words in READING):
            found = [run(session, words), run(session, words, env=env, cwd=folder)]
            check_alike(session, f"{words}, beside other packages", found)
