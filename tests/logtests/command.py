"""Tests of the command ./runlog: statuses, answers and where messages go."""

import os
import re
import shutil
import subprocess
import tempfile
from contextlib import contextmanager
from pathlib import Path
from typing import Dict, Iterator, List, NamedTuple, Optional

from model import ROOT
from model.checks import Checks
from model.limits import LOG_LIMIT, RECORD_REFUSALS
from model.logtext import assemble, record_text, split_records
from model.test_runs import RUN_B_INPUT, RUN_B_OUTPUT
from tests.logtests.compare import model_lines
from tests.logtests.wrong import FAULTS, make_program

COMMAND = ROOT / "runlog"
STORY = ROOT / "logs" / "rowers.log.txt"
RUN_B_TEXT = ROOT / "logs" / "run-b.log.txt"
CALLBACKS = ROOT / "logs" / "callbacks.log.txt"
COPIED = ("runlog", "tools", "model", "logs")

# What a program that follows one link answers to some records of the story. 28 mixes the rowers.
ONE_LINK = {10: "allow 2", 12: "allow 0", 26: "allow 2", 28: "allow 0", 30: "allow 0"}

# Stands in for rt: notes its arguments, and puts a program where rt would.
RT = """#!/bin/sh
echo "$*" >>"$CALLS"
echo "rt: runlog is being proved"
[ -z "$FAILS" ] || exit 1
mkdir -p out && cp "$STANDIN" out/runlog
"""


class Ran(NamedTuple):
    """What a command did."""

    status: int
    output: str
    messages: str


class Room:
    """A folder for files, from which the command is run on a program."""

    def __init__(self, folder: Path, program: Optional[str]) -> None:
        self.folder = folder
        self.chosen = ["--program", program] if program else []

    def run(self, words: List[str], data: bytes = b"") -> Ran:
        """Run the command of the repository."""
        return ran([str(COMMAND), *self.chosen, *words], data, self.folder)

    def file(self, name: str, data: bytes) -> str:
        """A file of the room."""
        (self.folder / name).write_bytes(data)
        return name


def ran(words: List[str], data: bytes, folder: Path, more: Optional[Dict[str, str]] = None) -> Ran:
    """Run a command with standard input in a folder."""
    environment = {**os.environ, **(more or {})}
    run = subprocess.run(
        words, input=data, capture_output=True, cwd=folder, env=environment, timeout=60
    )
    return Ran(run.returncode, run.stdout.decode(), run.stderr.decode())


@contextmanager
def room(program: Optional[str]) -> Iterator[Room]:
    """A room that is removed afterwards."""
    with tempfile.TemporaryDirectory() as folder:
        yield Room(Path(folder), program)


def check_good(checks: Checks, name: str, result: Ran, output: str) -> None:
    """Check status 0, the output and no message."""
    checks.equal(f"runlog, {name}", result, Ran(0, output, ""))


def check_bad(checks: Checks, name: str, result: Ran, status: int, parts: List[str]) -> None:
    """Check a status, no output, and a message that has some parts in it."""
    checks.equal(f"runlog, {name}: status and output", result[:2], (status, ""))
    said = result.messages
    good = all(part in said for part in parts) and said.startswith("runlog: ")
    checks.true(f"runlog, {name}: message", good and "Traceback" not in said, repr(said))


def test_inputs(checks: Checks, program: Optional[str]) -> None:
    """A file of bytes, a text and standard input."""
    with room(program) as here:
        check_good(checks, "bytes", here.run([here.file("b.log", RUN_B_INPUT)]), RUN_B_OUTPUT)
        check_good(checks, "a text", here.run([str(RUN_B_TEXT)]), RUN_B_OUTPUT)
        check_good(checks, "standard input", here.run(["-"], RUN_B_INPUT), RUN_B_OUTPUT)
        check_good(checks, "an empty file", here.run([here.file("empty", b"")]), "")
        check_good(checks, "an empty text", here.run([here.file("empty.txt", b"# none\n")]), "")
        story = "".join(f"{line}\n" for line in model_lines(assemble(STORY.read_bytes())))
        check_good(checks, "the story", here.run([str(STORY)]), story)


def shown_in_order(lines: List[str], records: List[bytes], answers: List[str]) -> Optional[str]:
    """The first record that has no line with its answer, after the line of the one before."""
    left = iter(lines)
    for record, answer in zip(records, answers):
        text = record_text(record)
        if not any(line.strip("* ").startswith(f"{answer} ") and text in line for line in left):
            return f"{text}: {answer}"
    return None


def check_shown(checks: Checks, name: str, result: Ran, log: bytes, answers: List[str]) -> None:
    """Check that each record stands beside its answer."""
    checks.equal(f"runlog, {name}: status and messages", (result.status, result.messages), (0, ""))
    lost = shown_in_order(result.output.splitlines(), split_records(log), answers)
    checks.equal(f"runlog, {name}: first record not shown", lost, None)


def test_demonstration(checks: Checks, program: Optional[str]) -> None:
    """Without argument: the story, with the answers of the program."""
    log = assemble(STORY.read_bytes())
    with room(program) as here:
        result = here.run([])
        check_shown(checks, "demonstration", result, log, model_lines(log))
        stopped = [line for line in result.output.splitlines() if line.startswith("* inhibit 0")]
        checks.equal("runlog, demonstration: stopped", len(stopped), 2)
        after = result.output.partition("Try next:")[2]
        for text in sorted((ROOT / "logs").glob("*.log.txt")):
            offered = f"logs/{text.name}" in after
            checks.true(f"runlog, demonstration: offers {text.name} next", offered, after)
        wrong = make_program(here.folder / "wrong", FAULTS["follows one link"])
        result = Room(here.folder, wrong).run([])
        answers = model_lines(log)
        for number, other in ONE_LINK.items():
            answers[number - 1] = other
        check_shown(checks, "demonstration of a wrong program", result, log, answers)


def test_show(checks: Checks, program: Optional[str]) -> None:
    """Each record of any log beside its answer."""
    with room(program) as here:
        answers = RUN_B_OUTPUT.splitlines()
        for name in (here.file("b.log", RUN_B_INPUT), str(RUN_B_TEXT)):
            check_shown(checks, f"--show {name}", here.run(["--show", name]), RUN_B_INPUT, answers)
        log = assemble(CALLBACKS.read_bytes())
        result = here.run(["--show", str(CALLBACKS)])
        check_shown(checks, "--show callbacks", result, log, model_lines(log))
        for part in ("unmap 0 container=24 read", "unmap 0 container=24 both", "* inhibit 0"):
            checks.true(f"runlog, --show callbacks: {part}", part in result.output, result.output)
        split = here.file("split.txt", b"raw 10 00\nraw 05 01 00 00 00 00\n")
        start = bytes.fromhex("10 0005 0100000000")
        result = here.run(["--show", split])
        check_shown(checks, "--show of a split record", result, start, ["allow 0"])


def test_help(checks: Checks, program: Optional[str]) -> None:
    """--help says what goes in, what comes out, the limits and the statuses."""
    with room(program) as here:
        for words in (["--help"], ["-h"]):
            result = here.run(words)
            checks.equal(f"runlog {words}: status", (result.status, result.messages), (0, ""))
            parts = ["tag 10 hex", "allow", "inhibit", "modify", "rule", "refused", "65,536"]
            parts += ["cut short", "broken already", "32 rules", "exit status", ".txt", "logtool"]
            parts += ["count at 255", "255 mappings for reading", "0 read or 1 both"]
            parts += ["allow GAINED", "modify RULE SUBSTITUTE GAINED", "gained an item"]
            for part in parts:
                checks.true(f"runlog {words}: says {part}", part in result.output)
            listed = re.findall(r"^ {4}([ \d]\d)  \w", result.output, re.M)
            places = [f"{number:>2}" for number in RECORD_REFUSALS]
            checks.equal(f"runlog {words}: refusals by place", listed, places)


def test_bad_words(checks: Checks, program: Optional[str]) -> None:
    """Arguments and files that cannot be used."""
    with room(program) as here:
        log = here.file("b.log", RUN_B_INPUT)
        check_bad(checks, "two files", here.run([log, log]), 2, ["give one FILE", "--help"])
        check_bad(checks, "unknown option", here.run(["--fast"]), 2, ["--fast", "--help"])
        read = "give a file that can be read"
        check_bad(checks, "no such file", here.run(["no.log"]), 2, ["'no.log'", "No such", read])
        check_bad(checks, "no such text", here.run(["no.txt"]), 2, ["'no.txt'", "No such", read])
        check_bad(checks, "a folder", here.run(["/"]), 2, ["'/'", read])
        bad = here.file("bad.txt", b"start 0\n# fine\nopen 0 nam=5 descriptor=1\n")
        parts = ["bad.txt", "line 3", "found 'nam=5'", "expected only: open PROCESS name=NAME"]
        check_bad(checks, "a bad text", here.run([bad]), 2, parts)
        check_bad(checks, "a bad text, --show", here.run(["--show", bad]), 2, parts)


def test_too_long(checks: Checks, program: Optional[str]) -> None:
    """A log that is too long: the program's line, and a message with both lengths."""
    with room(program) as here:
        text = b"start 0\n" * (LOG_LIMIT // 8 + 1)
        files = {
            here.file("long.log", bytes(LOG_LIMIT + 1)): "65,537 bytes",
            here.file("longer.log", bytes(3 * LOG_LIMIT)): "196,608 bytes",
            here.file("long.txt", text): "65,544 bytes",
        }
        for name, size in files.items():
            for words in ([name], ["--show", name]):
                result = here.run(words)
                checks.equal(f"runlog {words}", result[:2], (1, "log too long\n"))
                good = all(part in result.messages for part in (name, size, "at most 65,536"))
                checks.true(f"runlog {words}: message", good, result.messages)
        result = here.run(["-"], bytes(LOG_LIMIT + 1))
        checks.equal("runlog - with too much", result[:2], (1, "log too long\n"))
        good = "more than 65,536 bytes" in result.messages
        checks.true("runlog - with too much: message", good, result.messages)
        exact = here.run([here.file("exact.log", b"\x00\xff\xfd" + bytes(LOG_LIMIT - 3))])
        check_good(checks, "the largest log", exact, "refused 2\n")


def test_bad_program(checks: Checks, program: Optional[str]) -> None:
    """A program that is not there, fails, or leaves out answers."""
    with tempfile.TemporaryDirectory() as folder:
        here = Room(Path(folder), "./none")
        check_bad(checks, "no program", here.run([str(RUN_B_TEXT)]), 3, ["cannot run", "none"])
        fails = here.folder / "fails"
        fails.write_text("#!/bin/sh\nexit 7\n")
        fails.chmod(0o755)
        for words in ([str(RUN_B_TEXT)], []):
            result = Room(here.folder, "./fails").run(words)
            check_bad(checks, f"a program that fails, {words}", result, 3, ["status 7"])
        fails.write_text("#!/bin/sh\necho allow 0\n")
        result = Room(here.folder, "./fails").run([])
        check_bad(checks, "a program that leaves out answers", result, 3, ["1 line for 30 records"])


def test_closed_output(checks: Checks, program: Optional[str]) -> None:
    """Output that nobody reads gives no message."""
    with room(program) as here:
        for words in ([], ["--help"], ["--show", str(STORY)], [str(STORY)]):
            reader, writer = os.pipe()
            os.close(reader)
            whole = [str(COMMAND), *here.chosen, *words]
            run = subprocess.run(whole, stdout=writer, stderr=subprocess.PIPE, timeout=60)
            os.close(writer)
            checks.true(f"runlog {words}, closed output", b"Traceback" not in run.stderr, str(run))


# Set-up and building, in a copy of the parts of the repository that the command uses.


class Copy:
    """A copy of the repository with stand-ins for rt and the program."""

    def __init__(self, folder: Path) -> None:
        self.root = folder / "copy"
        self.program = self.root / "crates" / "runlog" / "out" / "runlog"
        self.calls = folder / "calls"
        self.bin = folder / "bin"
        self.root.mkdir()
        self.bin.mkdir()
        for name in COPIED:
            copy = shutil.copytree if (ROOT / name).is_dir() else shutil.copy
            copy(str(ROOT / name), str(self.root / name))
        (self.bin / "rt").write_text(RT)
        (self.bin / "rt").chmod(0o755)
        (self.root / "crates" / "runlog" / "src").mkdir(parents=True)
        (self.root / "crates" / "runlog" / "src" / "main.rt").write_text("// the program\n")
        self.standin = make_program(folder / "standin")

    def run(self, fails: str = "") -> Ran:
        """Run the command of the copy on run B."""
        more = {"PATH": f"{self.bin}:{os.environ['PATH']}", "CALLS": str(self.calls)}
        more.update({"STANDIN": self.standin, "FAILS": fails})
        return ran([str(self.root / "runlog"), "-"], RUN_B_INPUT, self.root.parent, more)

    def called(self) -> List[str]:
        """The arguments of each call of rt."""
        return self.calls.read_text().splitlines() if self.calls.exists() else []


def test_building(checks: Checks, program: Optional[str]) -> None:
    """The program is built if it is missing or older than its sources, and not otherwise."""
    with tempfile.TemporaryDirectory() as folder:
        copy = Copy(Path(folder))
        failed = copy.run(fails="yes")
        parts = ["building", "minutes", "rt: runlog is being proved", "status 1", "again"]
        check_bad(checks, "a build that fails", failed, 3, parts)
        built = copy.run()
        checks.equal("runlog, built first", built[:2], (0, RUN_B_OUTPUT))
        said = "building" in built.messages and "some minutes" in built.messages
        checks.true("runlog, built first: message", said, built.messages)
        checks.equal("runlog, built first: rt", copy.called(), ["run"] * 2)
        check_good(checks, "built already", copy.run(), RUN_B_OUTPUT)
        checks.equal("runlog, built already: rt", len(copy.called()), 2)
        os.utime(copy.program, (0, 0))
        checks.equal("runlog, an older program", copy.run()[:2], (0, RUN_B_OUTPUT))
        checks.equal("runlog, an older program: rt", len(copy.called()), 3)
        check_good(checks, "built again", copy.run(), RUN_B_OUTPUT)


def test_no_python(checks: Checks, program: Optional[str]) -> None:
    """Without python3 it is installed; if that fails, a message says so."""
    with tempfile.TemporaryDirectory() as folder:
        for name in ("bash", "env", "readlink", "dirname", "mktemp", "tail", "rm"):
            (Path(folder) / name).symlink_to(shutil.which(name) or name)
        (Path(folder) / "apt-get").write_text("#!/bin/sh\necho no packages\nexit 1\n")
        (Path(folder) / "apt-get").chmod(0o755)
        words = [str(Path(folder) / "bash"), str(COMMAND), str(RUN_B_TEXT)]
        result = ran(words, b"", Path(folder), {"PATH": folder})
        parts = ["installing python3", "no packages", "python3 is missing: install it"]
        check_bad(checks, "no python3", result, 3, parts)
