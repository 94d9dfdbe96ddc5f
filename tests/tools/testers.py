"""The commands of docs/TESTERS.md and README.md are run, and outputs and pictures compared."""

import os
import re
import shlex
import subprocess
import tempfile
from contextlib import contextmanager
from pathlib import Path
from typing import Iterator, List, NamedTuple

from model import ROOT
from tests.tools.session import Session

PAGE = ROOT / "docs" / "TESTERS.md"
README = ROOT / "README.md"
PLACE = "/tmp/"  # where the commands write
INDENT = "    "
PROMPT = "$ "
LINKED = ("tools", "logs", "model", "runlog")  # what the commands use
SIMPLE = ("tools/logtool", "cat")
BUILDING = ("rt ", "gcc ")  # commands of README.md that tests/embed stands for
SETTING = ("run_b=", "bytes()")  # lines of README.md that its commands use
SECONDS = 60
LARGEST_PICTURE = 150_000  # bytes


class Shown(NamedTuple):
    """A command of the page and the output below it."""

    command: str
    output: List[str]


def shown_commands(text: str) -> List[Shown]:
    """The commands of a page with their outputs."""
    found: List[Shown] = []
    inside = False
    for line in text.splitlines():
        if line.startswith(INDENT + PROMPT):
            found.append(Shown(line[len(INDENT + PROMPT) :], []))
            inside = True
        elif line.strip() and not line.startswith(INDENT):
            inside = False
        elif inside:
            found[-1].output.append(line[len(INDENT) :])
    for shown in found:
        while shown.output and not shown.output[-1].strip():
            shown.output.pop()
    return found


def run_words(session: Session, command: str, place: str) -> List[str]:
    """The words of a command; explain is run with the program at hand, so that none is built."""
    words = shlex.split(command.replace(PLACE, f"{place}/"))
    if words[:2] == ["tools/logtool", "explain"]:
        words += ["--program", session.runnable]
    return words


def output_lines(words: List[str], folder: str) -> List[str]:
    """The lines that a command writes, those of standard error where they come."""
    streams = {"stdout": subprocess.PIPE, "stderr": subprocess.STDOUT}
    run = subprocess.run(words, cwd=folder, text=True, timeout=SECONDS, **streams)
    return run.stdout.rstrip().splitlines()


def check_shown(session: Session, page: str, shown: Shown, lines: List[str]) -> None:
    """A command writes what the page shows."""
    pairs = zip(lines, shown.output)
    first = next((pair for pair in pairs if pair[0] != pair[1]), len(lines))
    detail = f"the first difference: {first}; its whole output is\n" + "\n".join(lines)
    session.checks.true(f"{page}: output of {shown.command}", lines == shown.output, detail)


@contextmanager
def linked_folder(session: Session, page: str) -> Iterator[str]:
    """A folder with what the commands of a page use, in which they must leave nothing."""
    with tempfile.TemporaryDirectory() as folder:
        for name in LINKED:
            os.symlink(ROOT / name, Path(folder) / name)
        yield folder
        left = set(os.listdir(folder)) - {*LINKED}
        session.checks.equal(f"{page}: files that its commands leave", left, set())


def check_pictures(session: Session, text: str, folder: str) -> None:
    """Each picture of the page is there, small, and what its command draws."""
    pictures = re.findall(r"!\[[^]]+\]\(pictures/([^)]+)\)", text)
    session.checks.true("TESTERS.md: pictures", len(pictures) >= 3, str(pictures))
    for name in pictures:
        kept = ROOT / "docs" / "pictures" / name
        small = kept.is_file() and 1000 < kept.stat().st_size < LARGEST_PICTURE
        session.checks.true(f"TESTERS.md: docs/pictures/{name} is there and small", small)
        drawn = Path(folder) / name
        if name.endswith(".svg"):
            same = drawn.is_file() and drawn.read_bytes() == kept.read_bytes()
            advice = f"draw docs/pictures/{name} again, as the page says"
            session.checks.true(f"TESTERS.md: docs/pictures/{name} is up to date", same, advice)
        else:
            session.checks.true(f"TESTERS.md: {name} is a PNG", kept.read_bytes()[:4] == b"\x89PNG")
    unused = {path.name for path in (ROOT / "docs" / "pictures").iterdir()} - {*pictures}
    session.checks.equal("TESTERS.md: pictures that are not used", unused, set())


def test_page(session: Session) -> None:
    """Every command of the page, in the order of the page, in a folder of its own."""
    text = PAGE.read_text()
    commands = shown_commands(text)
    session.checks.true("TESTERS.md: commands", len(commands) >= 10, str(len(commands)))
    with tempfile.TemporaryDirectory() as place, linked_folder(session, "TESTERS.md") as folder:
        for shown in commands:
            command = shown.command
            simple = command.split()[0] in SIMPLE and not set(command) & set("|<>&;$`")
            session.checks.true(f"TESTERS.md: a simple command: {command}", simple)
            lines = output_lines(run_words(session, command, place), folder) if simple else []
            check_shown(session, "TESTERS.md", shown, lines)
        check_pictures(session, text, place)


def settings(text: str) -> str:
    """The lines of README.md that give its commands their words."""
    found: List[str] = []
    for line in text.splitlines():
        inner = line[len(INDENT) :]
        if line.startswith(INDENT) and inner.startswith(SETTING):
            found.append(inner)
        elif found and found[-1].count("'") % 2 and line.startswith(INDENT * 2):
            found[-1] += f"\n{inner}"
    return "\n".join(found)


def test_readme(session: Session) -> None:
    """Every command of README.md that it shows with its output."""
    text = README.read_text()
    commands = [one for one in shown_commands(text) if not one.command.startswith(BUILDING)]
    session.checks.true("README.md: commands", len(commands) >= 8, str(len(commands)))
    runlog = f"./runlog --program {session.runnable} "
    with linked_folder(session, "README.md") as folder:
        for shown in commands:
            command = shown.command.replace("./runlog ", runlog)
            lines = output_lines(["bash", "-c", f"{settings(text)}\n{command}"], folder)
            check_shown(session, "README.md", shown, lines)
