"""What commands read and write: logs as bytes or as readable text, and output that is whole.

Every command on logs goes by this, so that all of them take the same inputs, and
so that none ends with status 0 where its output was not written whole.
"""

import argparse
import errno
import io
import os
import signal
import stat
import sys
import tempfile
from contextlib import contextmanager, suppress
from typing import Any, BinaryIO, Callable, Iterator, List, NamedTuple, Optional, TextIO

from model.limits import HEADER_LENGTH, LOG_LIMIT
from model.logtext import BadLine, assemble, counted, split_records
from model.records import read_frame, stated_length

STANDARD = "-"
INPUT_LIMIT = 64 * LOG_LIMIT  # bytes of any input: a text is longer than its log

# Exit statuses that commands share.
FAULTY_LOG = 1
BAD_INPUT = 2
NOT_WRITTEN = 5
INTERRUPTED = 128 + signal.SIGINT
BROKEN_PIPE = 128 + signal.SIGPIPE
NOT_WRITTEN_HELP = f"  {NOT_WRITTEN}  the output was not written whole: a full disk, or the like\n"

TEXT = "text"
BYTES = "bytes"
FORMS_HELP = """A log is bytes or readable text. The first two bytes that are not blank tell which:
a text has no control byte there, and every record of a known tag begins with one.
The name of the file tells nothing. --text or --bytes settles it.
"""

BLANKS = b" \t\n\v\f\r"
CONTROLS = frozenset({*range(32), 127} - {*BLANKS})
UTF_16_MARKS = (b"\xff\xfe", b"\xfe\xff")

# What the system says where a file cannot be written whole.
FULL = (errno.ENOSPC, errno.EDQUOT, errno.EFBIG, errno.EIO)

Say = Callable[[str], None]


class BadInput(Exception):
    """Input or output that cannot be used; the message says what to do."""


class NotWritten(Exception):
    """Output that was not written whole; the message says where."""


class Log(NamedTuple):
    """A log: of one that is too long to be run perhaps only its front."""

    data: bytes
    size: str  # in words
    text: Optional[bytes] = None  # the readable text that it comes from

    @property
    def too_long(self) -> bool:
        """Whether the program answers 'log too long'."""
        return len(self.data) > LOG_LIMIT


def drop(stream: TextIO) -> None:
    """Keep the exit from writing again to a stream that cannot be written."""
    os.dup2(os.open(os.devnull, os.O_WRONLY), stream.fileno())


def speaker(command: str) -> Say:
    """How a command says something: on standard error, if that can be written."""

    def say(message: str) -> None:
        try:
            if sys.stderr is not None:
                print(f"{command}: {message}", file=sys.stderr, flush=True)
        except OSError:  # the status has to tell it alone
            drop(sys.stderr)

    return say


# Inputs.


def shown_name(path: str) -> str:
    """An input's name in messages and pictures."""
    return "standard input" if path == STANDARD else path


@contextmanager
def opened(path: str) -> Iterator[BinaryIO]:
    """A file or standard input, to read its bytes."""
    try:
        if path != STANDARD:
            with open(path, "rb") as file:
                yield file
        elif sys.stdin is None:
            raise OSError(None, "it is closed")
        else:
            yield sys.stdin.buffer
    except (OSError, ValueError) as error:
        reason = getattr(error, "strerror", None) or error
        advice = "give a file that can be read"
        if path != STANDARD:
            path, advice = f"'{path}'", f"{advice}, or - for standard input"
        raise BadInput(f"cannot read {shown_name(path)}: {reason}; {advice}") from error


def read_on(file: BinaryIO, path: str, front: bytes) -> bytes:
    """All bytes of an input of which the front is read; there is a limit, as some never end."""
    data = front + file.read(INPUT_LIMIT + 1 - len(front))
    if len(data) <= INPUT_LIMIT:
        return data
    found = f"found more than {INPUT_LIMIT:,} bytes"
    raise BadInput(f"{shown_name(path)}: {found}, and no input may be longer; give a shorter one")


def read_bytes(path: str) -> bytes:
    """All bytes of an input."""
    with opened(path) as file:
        return read_on(file, path, b"")


def is_text(front: bytes) -> bool:
    """Whether the front of an input is that of a text, and not that of a log's bytes."""
    return front.startswith(UTF_16_MARKS) or CONTROLS.isdisjoint(front.lstrip(BLANKS)[:2])


def size_of(file: BinaryIO, data: bytes) -> str:
    """How many bytes an input has; one that is too long and goes by once is not read to its end."""
    if len(data) <= LOG_LIMIT:
        return f"{len(data):,} bytes"
    end = file.seek(0, os.SEEK_END) if file.seekable() else 0
    return f"{end:,} bytes" if end > LOG_LIMIT else f"more than {LOG_LIMIT:,} bytes"


def log_of_text(path: str, text: bytes, form: str) -> Log:
    """The log that a readable text stands for."""
    name = shown_name(path)
    other = "" if form == TEXT else ", or add --bytes if these are the bytes of a log"
    if text.startswith(UTF_16_MARKS):
        raise BadInput(f"{name}: found a text in UTF-16, expected UTF-8; save it as UTF-8{other}")
    try:
        data = assemble(text)
    except BadLine as error:
        advice = "correct the line (tools/logtool --help has the grammar)"
        raise BadInput(f"{name}, {error}; {advice}{other}") from error
    return Log(data, f"{len(data):,} bytes as a log", text)


def read_log(path: str, form: str = "", whole: bool = False) -> Log:
    """The log of a file or of standard input, in this form, or in the one that stands there.

    Of bytes no more are read than show that the log is too long, unless all are wanted.
    """
    with opened(path) as file:
        data = file.read(LOG_LIMIT + 1)
        text = form == TEXT or (form != BYTES and is_text(data))
        if len(data) > LOG_LIMIT and (text or whole):
            data = read_on(file, path, data)
        size = size_of(file, data)
    return log_of_text(path, data, form) if text else Log(data, size)


def too_long(path: str) -> str:
    """What is said of a log that is too long to be run."""
    found = f"found more than {LOG_LIMIT:,} bytes, expected at most that many"
    return f"{shown_name(path)}: {found}; a longer log gets no answers: keep its first records only"


def cut_short(path: str, log: bytes) -> str:
    """What is said of a log whose last record is not whole; nothing if it is."""
    records = split_records(log)
    if not records or read_frame(records[-1]) is not None:
        return ""
    last = records[-1]
    least = "at least " if len(last) < HEADER_LENGTH else ""
    whole = f"expected {least}{stated_length(last)}"
    found = f"found {counted(len(last), 'byte')} of record {len(records)}, {whole}"
    return f"{shown_name(path)}: {found}; the log is cut short: copy it again, whole"


def read_runnable(path: str, form: str) -> bytes:
    """The bytes of a log that is not too long to be run."""
    log = read_log(path, form)
    if log.too_long:
        raise BadInput(too_long(path))
    return log.data


def log_status(path: str, log: bytes, say: Say) -> int:
    """The status of a log that was dealt with; it is said if the log is cut short or too long."""
    message = too_long(path) if len(log) > LOG_LIMIT else cut_short(path, log)
    if not message:
        return 0
    sys.stdout.flush()
    say(message)
    return FAULTY_LOG


# The command line.


class Parser(argparse.ArgumentParser):
    """A parser whose help is written whole, or an error says that it was not."""

    def __init__(self, **given: Any) -> None:
        layout = argparse.RawDescriptionHelpFormatter
        super().__init__(**{"allow_abbrev": False, "formatter_class": layout, **given})

    def print_help(self, file: Any = None) -> None:
        """Write the help; the method of the library passes over errors."""
        (file or sys.stdout).write(self.format_help())


def add_form(parser: argparse.ArgumentParser) -> None:
    """The options --text and --bytes."""
    group = parser.add_mutually_exclusive_group()
    for form, meaning in ((TEXT, "readable text"), (BYTES, "the bytes of a log")):
        group.add_argument(
            f"--{form}",
            dest="form",
            action="store_const",
            const=form,
            default="",
            help=f"the input is {meaning}, whatever it looks like",
        )


# Outputs.


def same_file(path: str, source: str) -> bool:
    """Whether a path leads to the file that is read."""
    try:
        read = os.fstat(sys.stdin.fileno()) if source == STANDARD else os.stat(source)
        return stat.S_ISREG(read.st_mode) and os.path.samestat(os.stat(path), read)
    except (OSError, ValueError, AttributeError):
        return False


def is_standard_output(path: str) -> bool:
    """Whether a path is standard output by another name, such as /dev/stdout."""
    try:
        return os.path.samestat(os.stat(path), os.fstat(sys.stdout.fileno()))
    except (OSError, ValueError):
        return False


def take_rights(beside: str, path: str) -> None:
    """Give a file the owner and the rights of the old one, or the rights that a new one gets."""
    if os.path.exists(path):
        old = os.stat(path)
        with suppress(PermissionError):  # only the system's owner may give a file away
            os.chown(beside, old.st_uid, old.st_gid)
        os.chmod(beside, stat.S_IMODE(old.st_mode))
        return
    mask = os.umask(0)
    os.umask(mask)
    os.chmod(beside, 0o666 & ~mask)


def replace_file(path: str, data: bytes) -> None:
    """Write a file beside the old one, which stays as it is until the new one is whole."""
    if os.path.exists(path) and not os.access(path, os.W_OK):
        raise PermissionError(errno.EACCES, os.strerror(errno.EACCES))
    target = os.path.realpath(path)
    handle, beside = tempfile.mkstemp(prefix=".new-", dir=os.path.dirname(target))
    try:
        with open(handle, "wb") as file:
            file.write(data)
            file.flush()
            os.fsync(file.fileno())
        take_rights(beside, path)
        os.replace(beside, target)
    except BaseException:
        os.unlink(beside)
        raise


def write_file(path: str, data: bytes) -> None:
    """Write to a file: whole, or not at all; to a pipe or a device as it is."""
    try:
        if path and (os.path.isfile(path) or not os.path.exists(path)):
            replace_file(path, data)
            return
        with open(path, "wb") as file:
            file.write(data)
    except (OSError, ValueError) as error:
        found = getattr(error, "strerror", None) or error
        if getattr(error, "errno", None) not in FULL:
            expected = "expected a place to write after -o"
            raise BadInput(f"'{path}': found: {found}; {expected}") from error
        kept = "; the old file is as it was" if os.path.isfile(path) else ""
        advice = "make room, or name another place after -o"
        raise NotWritten(f"'{path}' was not written: {found}{kept}; {advice}") from error


def prepare_output() -> None:
    """Let standard output take every character, and have a buffer.

    Without a buffer, the rest of what is written in part is lost.
    """
    like = {"encoding": sys.stdout.encoding, "errors": "backslashreplace"}
    if isinstance(sys.stdout.buffer, io.RawIOBase):
        sys.stdout = open(sys.stdout.fileno(), "w", closefd=False, **like)
    else:
        sys.stdout.reconfigure(**like)


def status_of(run: Callable[[List[str]], int], words: List[str], say: Say) -> int:
    """The exit status of a command, with what it says of inputs and outputs."""
    try:
        return run(words)
    except BadInput as error:
        say(str(error))
        return BAD_INPUT
    except NotWritten as error:
        say(str(error))
        return NOT_WRITTEN
    except SystemExit as end:  # of the parser: --help, or words that cannot be used
        return end.code if isinstance(end.code, int) else BAD_INPUT


def run_command(run: Callable[[List[str]], int], words: List[str], say: Say) -> int:
    """The exit status of a command; not 0 if standard output was not written whole.

    Of a pipe whose reader has left nothing is said.
    """
    if sys.stdout is None:
        say("standard output is closed; open it")
        return BAD_INPUT
    prepare_output()
    try:
        status = status_of(run, words, say)
        sys.stdout.flush()
        return status
    except BrokenPipeError:
        drop(sys.stdout)
        return BROKEN_PIPE
    except OSError as error:
        drop(sys.stdout)
        advice = "what is there is not whole: make room or choose another place, and run it again"
        say(f"standard output was not written whole: {error.strerror}; {advice}")
        return NOT_WRITTEN
    except KeyboardInterrupt:
        return INTERRUPTED
