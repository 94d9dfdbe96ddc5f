"""Tests of own names: the text, its errors, and where it is looked for."""

import os
import tempfile
from pathlib import Path

from model.logtext import BadLine
from tests.tools.session import LOGS, STORIES, Session, logtool, story_names
from tools.names import beside, read_names
from tools.words import Words

GOOD = """\ufeff# a comment
container 24 = beat  buffer   # and another
container panel = front panel\r
container process1 = session
process 0 = radio driver
item 63 = strap = 63

name 127 = coach's file
"""
GOOD_NAMES = {
    ("container", 24): "beat buffer",
    ("container", 1): "front panel",
    ("container", 9): "session",
    ("container", 8): "radio driver",
    ("item", 63): "strap = 63",
    ("name", 127): "coach's file",
}

# A text and what its message must say.
BAD = [
    ("item 1", ["line 1", "'item 1'", "a line such as: container 24 = beat buffer"]),
    ("\nitem = x", ["line 2", "'item'", "container or item or name or process and one number"]),
    ("items 1 = x", ["'items 1'", "container or item or name or process"]),
    ("item 64 = x", ["'64'", "from 0 to 63"]),
    ("name 128 = x", ["'128'", "from 0 to 127"]),
    ("process 16 = x", ["'16'", "from 0 to 15"]),
    ("container 64 = x", ["'64'", "from 0 to 63", "process0 to process15"]),
    ("item one = x", ["'one'", "from 0 to 63"]),
    ("item 1 = ", ["''", "a name of 1 to 60 characters"]),
    ("item 1 = # none", ["a name of 1 to 60 characters"]),
    (f"item 1 = {'x' * 61}", ["'xxx", "a name of 1 to 60 characters"]),
    ("item 1 = a\x01", ["a name of 1 to 60 characters"]),
    ("item 1 = a\n# two\nitem 1 = b", ["line 3", "'item 1'", "line 1 has one already"]),
    ("process 0 = a\ncontainer 8 = b", ["line 2", "'container 8'", "line 1 has one already"]),
]


def message_of(text: bytes) -> str:
    """The message about names that cannot be read."""
    try:
        return f"no message, but {read_names(text)}"
    except BadLine as error:
        return str(error)


def test_texts(session: Session) -> None:
    """Good and bad texts."""
    session.checks.equal("names: a good text", read_names(GOOD.encode()), GOOD_NAMES)
    session.checks.equal("names: an empty text", read_names(b""), {})
    for text, parts in BAD:
        message = message_of(text.encode())
        fits = all(part in message for part in ["line ", "found ", "expected ", *parts])
        session.checks.true(f"names: message for {text[:40]!r}", fits, message)
    message = message_of(b"item 1 = a\nitem 2 = \xff")
    wanted = "line 2: found byte ff hex, expected text in UTF-8"
    session.checks.equal("names: no UTF-8", message, wanted)


def test_words(session: Session) -> None:
    """How names stand behind numbers."""
    words = Words(GOOD_NAMES, {24: "file", 25: "pipe"})
    said = [words.container(c) for c in (0, 1, 4, 8, 9, 10, 24, 25, 26, 255)]
    wanted = [
        "device 0 (network)",
        "device 1 (front panel)",
        "device 4",
        "process 0 (radio driver)",
    ]
    wanted += ["process 1 (session)", "process 2", "file 24 (beat buffer)", "pipe 25"]
    wanted += ["container 26", "container 255"]
    session.checks.equal("words: containers", said, wanted)
    session.checks.equal("words: process 255", words.process(255), "process 255")
    session.checks.equal("words: items", words.items([3, 63]), "item 3 and item 63 (strap = 63)")
    session.checks.equal(
        "words: many items",
        words.items(range(60, 64)),
        "item 60, item 61, " "item 62 and item 63 (strap = 63)",
    )
    session.checks.equal("words: more items", words.items(range(50, 64)), "items 50 to 63")
    session.checks.equal("words: no items", words.items([]), "nothing")
    session.checks.equal("words: name", words.name(127), "name 127 (coach's file)")


def test_places(session: Session) -> None:
    """Where names are looked for."""
    for path, wanted in [
        ("a/b.log", "a/b.names.txt"),
        ("a/b.log.txt", "a/b.names.txt"),
        ("b.txt", "b.names.txt"),
        ("b", "b.names.txt"),
        ("b.bin", "b.bin.names.txt"),
    ]:
        session.checks.equal(f"names beside {path}", beside(path), wanted)
    with tempfile.TemporaryDirectory() as folder:
        log = Path(folder) / "a.log.txt"
        log.write_text("start 0\n")
        explain = ("explain", str(log), "--model-only", "--brief")
        session.checks.true("no names", "  process 0 starts\n" in logtool(*explain).output)
        (Path(folder) / "a.names.txt").write_text("process 0 = beside\n")
        session.checks.true("names beside", "0 (beside) starts" in logtool(*explain).output)
        other = Path(folder) / "other"
        other.write_text("process 0 = other\n")
        result = logtool(*explain, "--names", str(other))
        session.checks.true("names chosen", "0 (other) starts" in result.output, result.output)
        result = logtool(*explain, "--names", os.devnull)
        session.checks.true("names put off", "process 0 starts" in result.output, result.output)
        picture = Path(folder) / "a.svg"
        logtool("draw", str(log), "-o", str(picture))
        session.checks.true("names in a picture", ">beside</text>" in picture.read_text())
        check_bad_names(session, log, other)


def check_bad_names(session: Session, log: Path, names: Path) -> None:
    """Names that cannot be used stop every command that takes them."""
    names.write_text("process 0 = a\nitm 1 = b\n")
    out = str(log.parent / "out.svg")
    for words in (["explain", str(log), "--model-only"], ["draw", str(log), "-o", out]):
        result = logtool(*words, "--names", str(names))
        good = result.status == 2 and not result.output and f"{names}, line 2: " in result.message
        session.checks.true(f"bad names: {words[0]}", good, str(result))
        result = logtool(*words, "--names", "no-such-file")
        good = result.status == 2 and "cannot read 'no-such-file': No such file" in result.message
        session.checks.true(f"no names: {words[0]}", good, str(result))
    session.checks.true("bad names: no picture", not os.path.exists(out))


def test_stories(session: Session) -> None:
    """The logs of logs/ have names, and each is used."""
    for name in STORIES:
        text = logtool("explain", str(LOGS / f"{name}.log.txt"), "--model-only").output
        for (sort, number), own in story_names(name).items():
            used = f"({own})" in text
            session.checks.true(f"{name}: the name of {sort} {number} is used", used, own)
