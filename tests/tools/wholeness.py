"""Nothing is lost without a word: full disks, files that are replaced, inputs without an end."""

import os
import stat
import subprocess
import tempfile
from pathlib import Path
from unittest import mock

from model.logfiles import BadInput, write_file
from tests.tools.commands import UNBUFFERED, Ran, command_words, environment, run
from tests.tools.session import LOGS, Session, story_log

STORY = LOGS / "rowers.log.txt"
NOT_WRITTEN = 5
OLD = b"the old picture\n"

# Every command that writes to standard output; {log} is a log as bytes.
WRITING = [
    "runlog",
    f"runlog {STORY}",
    f"runlog --show {STORY}",
    "runlog --help",
    f"logtool assemble {STORY}",
    "logtool disassemble {log}",
    f"logtool show {STORY}",
    f"logtool explain {STORY}",
    f"logtool explain {STORY} --brief --model-only",
    f"logtool explain {STORY} --way 26,1",
    "logtool --help",
    "logtool draw --help",
    f"modelrun answers {STORY}",
    f"modelrun state {STORY}",
    f"modelrun items {STORY} 26",
    f"modelrun holders {STORY} 1",
    "modelrun generate",
    "modelrun generate --hex",
    "modelrun --help",
    "modelrun holders --help",
]

# Commands that write a file; its name follows.
REPLACING = [
    (f"logtool draw {STORY} -o", "a.svg"),
    (f"logtool draw {STORY} -o", "a.html"),
    (f"logtool draw {STORY} -o", "a.dot"),
    (f"logtool disassemble {STORY} -o", "a.txt"),
    (f"logtool assemble {STORY} -o", "a.log"),
]

# Commands whose input has no end, and what they say of it.
ENDLESS = [
    ("logtool disassemble /dev/zero", 2, "found more than 4,194,304 bytes"),
    ("logtool disassemble /dev/full", 2, "found more than 4,194,304 bytes"),
    ("logtool assemble /dev/zero", 2, "found more than 4,194,304 bytes"),
    ("logtool assemble --text /dev/zero", 2, "found more than 4,194,304 bytes"),
    ("logtool show /dev/zero", 2, "found more than 65,536 bytes"),
    ("logtool explain /dev/zero --model-only", 2, "found more than 65,536 bytes"),
    ("logtool draw /dev/zero -o /dev/null.svg", 2, "found more than 65,536 bytes"),
    (f"logtool explain {STORY} --names /dev/zero", 2, "/dev/zero: found more than 4,194,304"),
    ("modelrun state /dev/zero", 2, "found more than 65,536 bytes"),
    ("modelrun holders --text /dev/zero 1", 2, "found more than 4,194,304 bytes"),
    ("runlog /dev/zero", 1, "more than 65,536 bytes"),
    ("runlog --text /dev/zero", 2, "found more than 4,194,304 bytes"),
]
MEMORY = 1 << 30  # bytes that reading such an input may take


def check_lost(session: Session, name: str, ran: Ran) -> None:
    """A command whose output was not written whole says so, and has another status than 0."""
    session.checks.equal(f"{name}: status", ran.status, NOT_WRITTEN)
    said = "not written" in ran.message and "make room" in ran.message
    good = said and "Traceback" not in ran.message and ran.message.count("\n") == 1
    session.checks.true(f"{name}: message", good, ran.message)


def test_full_output(session: Session) -> None:
    """A full disk, from the first byte on and at the last one, however Python writes."""
    with tempfile.TemporaryDirectory() as folder:
        out, log = Path(folder) / "out", Path(folder) / "a.log"
        log.write_bytes(story_log("rowers"))
        for words in (words.format(log=log) for words in WRITING):
            whole = run(session, words)
            session.checks.equal(f"{words}: status and message", whole[::2], (0, ""))
            for unbuffered, more in UNBUFFERED.items():
                name = f"{words}, unbuffered {unbuffered}"
                with open("/dev/full", "wb") as full:
                    ran = run(session, words, stdout=full, env=environment(more))
                check_lost(session, f"{name}, a full disk", ran)
                most = len(whole.output) - 1
                with open(out, "wb") as file:
                    ran = run(session, words, stdout=file, env=environment(more), most=most)
                check_lost(session, f"{name}, one byte too few", ran)
                session.checks.equal(f"{name}: bytes there", out.stat().st_size, most)


def test_statuses_without_messages(session: Session) -> None:
    """Where standard error cannot be written either, the status still tells."""
    for words, status in (
        (f"runlog {STORY}", NOT_WRITTEN),
        (f"logtool show {STORY}", NOT_WRITTEN),
        ("runlog no-such-file", 2),
        ("logtool show no-such-file", 2),
        ("modelrun state no-such-file", 2),
        (f"runlog {STORY} --program no-such-program", 3),
    ):
        with open("/dev/full", "wb") as full:
            for unbuffered, more in UNBUFFERED.items():
                streams = {"stdout": full, "stderr": full, "env": environment(more)}
                ran = subprocess.run(command_words(session, words), timeout=60, **streams)
                name = f"{words}, all full, unbuffered {unbuffered}"
                session.checks.equal(name, ran.returncode, status)
                streams["preexec_fn"] = lambda: os.close(2)
                ran = subprocess.run(command_words(session, words), timeout=60, **streams)
                session.checks.equal(f"{name}, no standard error", ran.returncode, status)


def test_program_says_so(session: Session) -> None:
    """The program has no status; a message says that answers are lost, once."""
    if session.program is None:
        session.say("no program: what it says of lost answers is not tried")
        return
    for log in (story_log("rowers"), story_log("rowers") * 50, bytes(65537)):
        with open("/dev/full", "wb") as full:
            ran = subprocess.run(
                [session.program], input=log, stdout=full, stderr=subprocess.PIPE, timeout=60
            )
        said = ran.stderr.decode()
        wanted = "runlog: standard output was not written whole: answers are lost\n"
        session.checks.equal(f"the program on {len(log)} bytes, a full disk", said, wanted)


def test_old_files_stay(session: Session) -> None:
    """A file that cannot be written whole leaves the old one, and nothing beside it."""
    for words, name in REPLACING:
        with tempfile.TemporaryDirectory() as folder:
            path = Path(folder) / name
            path.write_bytes(OLD)
            ran = run(session, f"{words} {path}", most=100)
            check_lost(session, f"{words} {name}", ran)
            good = "the old file is as it was" in ran.message
            session.checks.true(f"{words} {name}: the old file is named", good, ran.message)
            left = {file.name: file.read_bytes() for file in Path(folder).iterdir()}
            session.checks.equal(f"{words} {name}: files", left, {name: OLD})
            ran = run(session, f"{words} {folder}/new{path.suffix}", most=100)
            check_lost(session, f"{words} new", ran)
            session.checks.equal(f"{words}: no new file", os.listdir(folder), [name])


def test_new_files(session: Session) -> None:
    """A file is replaced with its rights; a link stays a link, a device a device."""
    words, name = REPLACING[0]
    with tempfile.TemporaryDirectory() as folder:
        path, link = Path(folder) / name, Path(folder) / "link.svg"
        path.write_bytes(OLD)
        path.chmod(0o640)
        link.symlink_to(name)
        ran = run(session, f"{words} {link}")
        session.checks.equal("draw -o LINK", ran, Ran(0, b"", ""))
        good = link.is_symlink() and path.read_bytes().startswith(b"<svg")
        session.checks.true("draw -o LINK: the file behind it is written", good)
        session.checks.equal("draw -o LINK: rights", stat.S_IMODE(path.stat().st_mode), 0o640)
        run(session, f"{words} {folder}/new.svg")
        plain = Path(folder) / "plain"
        plain.write_bytes(b"")
        rights = [stat.S_IMODE(p.stat().st_mode) for p in (Path(folder) / "new.svg", plain)]
        session.checks.equal("draw -o NEW: rights", rights[0], rights[1])
        left = {"a.svg", "link.svg", "new.svg", "plain"}
        session.checks.equal("draw: files", set(os.listdir(folder)), left)
        device = Path(folder) / "null.svg"
        device.symlink_to("/dev/null")
        session.checks.equal("draw -o DEVICE", run(session, f"{words} {device}").status, 0)
        good = stat.S_ISCHR(os.stat("/dev/null").st_mode)
        session.checks.true("draw -o DEVICE: a device still", good)
        ran = run(session, f"logtool assemble {STORY} -o /dev/full")
        check_lost(session, "assemble -o /dev/full", ran)


def message_of(path: str) -> str:
    """What is said of a place that cannot be written."""
    try:
        write_file(path, b"new")
    except BadInput as error:
        return str(error)
    return ""


def test_inputs_stay(session: Session) -> None:
    """The input is not replaced, by whatever name, nor a file that must not be written."""
    with tempfile.TemporaryDirectory() as folder:
        path = Path(folder) / "a.txt"
        path.write_bytes(STORY.read_bytes())
        for source in ("-", str(path)):
            with open(path, "rb") as file:
                ran = run(session, f"logtool assemble {source} -o {path}", stdin=file)
            good = ran.status == 2 and "the input itself" in ran.message
            session.checks.true(f"assemble {source} -o the same", good, str(ran))
        session.checks.true("the input stays", path.read_bytes() == STORY.read_bytes())
        with mock.patch("os.access", return_value=False):
            message = message_of(str(path))
        wanted = f"'{path}': found: Permission denied; expected a place to write after -o"
        session.checks.equal("a file without the right to write", message, wanted)
        session.checks.true("it stays", path.read_bytes() == STORY.read_bytes())
        session.checks.equal("files", os.listdir(folder), ["a.txt"])
        for name in ("", f"{folder}/no/a", folder, f"{path}/a", f"{folder}/{'a' * 300}"):
            good = message_of(name).startswith(f"'{name}': found: ")
            session.checks.true(f"-o '{name[:60]}'", good, message_of(name))


def test_other_names_of_standard_output(session: Session) -> None:
    """-o /dev/stdout adds to what stands there, as standard output does."""
    with tempfile.TemporaryDirectory() as folder:
        path = Path(folder) / "all"
        for words in ("/dev/stdout", "-", "/dev/fd/1"):
            path.write_bytes(OLD)
            with open(path, "ab") as file:
                ran = run(session, f"logtool assemble {STORY} -o {words}", stdout=file)
            session.checks.equal(f"-o {words}", ran.status, 0)
            good = path.read_bytes() == OLD + story_log("rowers")
            session.checks.true(f"-o {words}: the old content is there", good)


def test_endless_inputs(session: Session) -> None:
    """Inputs that do not end are read up to a limit."""
    for words, status, part in ENDLESS:
        ran = run(session, words, memory=MEMORY)
        session.checks.equal(f"{words}: status", ran.status, status)
        good = part in ran.message and "Traceback" not in ran.message
        session.checks.true(f"{words}: message", good, ran.message)
    with subprocess.Popen(["yes"], stdout=subprocess.PIPE) as endless:
        ran = run(session, "runlog -", stdin=endless.stdout, memory=MEMORY)
        endless.kill()
    good = ran.status == 2 and "standard input: found more than 4,194,304 bytes" in ran.message
    session.checks.true("runlog -, an endless text", good, str(ran))


def test_many_lines(session: Session) -> None:
    """The longest output there is comes whole: a line for each record of a log of 65,536 bytes."""
    log = bytes(3) * 21845 + b"\0"
    ran = run(session, "runlog -", input=log)
    wanted = [b"refused 2"] * 21845 + [b"refused 1"]
    session.checks.true("runlog, the most lines", ran.output.splitlines() == wanted, ran.message)
