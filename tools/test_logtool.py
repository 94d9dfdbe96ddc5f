#!/usr/bin/env python3
"""Tests of logtool and of the logs: python3 tools/test_logtool.py [--seed N]."""

import argparse
import glob
import io
import os
import pty
import subprocess
import sys
import tempfile
from functools import lru_cache
from importlib.machinery import SourceFileLoader
from importlib.util import module_from_spec, spec_from_loader
from pathlib import Path
from types import ModuleType
from typing import Iterable, List, NamedTuple, Tuple
from unittest import mock

ROOT = Path(__file__).resolve().parents[1]
sys.path.insert(0, str(ROOT))

from model import limits, logtext  # noqa: E402
from model.checks import Checks, Options  # noqa: E402
from model.choices import Choices  # noqa: E402
from model.faults import EDGES  # noqa: E402
from model.generate import MIXES, generate_records  # noqa: E402
from model.records import Call, frame_bytes  # noqa: E402
from model.test_runs import RUN_B_INPUT, RUN_B_OUTPUT  # noqa: E402
from model.tracker import EFFECTS, State, Tracker  # noqa: E402

DEFAULT_SEED = 20260
LOGTOOL = [sys.executable, os.path.join(ROOT, "tools", "logtool")]
RUN_B_FAULT = "found 2 bytes of record 9, expected at least 3; the log is cut short"
TOO_LONG = "found more than 65,536 bytes"
COMMANDS = {  # each with the options that it cannot do without here
    "assemble": [],
    "disassemble": [],
    "show": [],
    "explain": ["--model-only"],
    "draw": ["-o", "none.svg"],
}
LOGS = sorted(glob.glob(os.path.join(ROOT, "logs", "*.log.txt")))

# A text and its bytes in hex, which go both ways.
FORM_PAIRS = [
    ("start 0", "10 0005 01 00 00 00 00"),
    ("start 16", "10 0005 01 10 00 00 00"),
    ("open 0 name=5 descriptor=1", "10 0005 02 00 05 01 00"),
    ("create 0 name=5 descriptor=0 container=24", "10 0005 03 00 05 00 18"),
    ("create 15 name=255 descriptor=255 container=255", "10 0005 03 0f ff ff ff"),
    ("pipe 0 descriptors=3,4 container=25", "10 0005 04 00 03 04 19"),
    ("device 0 descriptor=1 device=panel", "10 0005 05 00 01 01 00"),
    ("device 0 descriptor=1 device=8", "10 0005 05 00 01 08 00"),
    ("dup 0 from=0 to=3", "10 0005 06 00 00 03 00"),
    ("close 0 descriptor=1", "10 0005 07 00 01 00 00"),
    ("read 0 descriptor=1", "10 0005 08 00 01 00 00"),
    ("write 0 descriptor=1", "10 0005 09 00 01 00 00"),
    ("truncate 0 descriptor=1", "10 0005 0a 00 01 00 00"),
    ("map-read 0 descriptor=1", "10 0005 0b 00 01 00 00"),
    ("map-both 0 descriptor=1", "10 0005 0c 00 01 00 00"),
    ("unmap 0 container=24 read", "10 0005 0d 00 18 00 00"),
    ("unmap 0 container=24 both", "10 0005 0d 00 18 01 00"),
    ("unmap 15 container=panel sort=2", "10 0005 0d 0f 01 02 00"),
    ("unmap 0 container=24 sort=255", "10 0005 0d 00 18 ff 00"),
    ("unlink 0 name=5", "10 0005 0e 00 05 00 00"),
    ("rename 0 from=5 to=6", "10 0005 0f 00 05 06 00"),
    ("link 0 from=5 to=6", "10 0005 10 00 05 06 00"),
    ("fork 0 child=1", "10 0005 11 00 01 00 00"),
    ("exit 0", "10 0005 12 00 00 00 00"),
    ("label container=24 item=1", "10 0005 13 00 18 01 00"),
    ("label container=process0 item=1", "10 0005 13 00 08 01 00"),
    ("forbid item=1 in=panel,port,24-30 inhibit", "11 000b 01 000000007f00000a 00 00"),
    ("forbid item=1 in=radio,port,24-26 inhibit", "11 000b 01 000000000700000c 00 00"),
    ("forbid item=1 in=panel divert=port", "11 000b 01 0000000000000002 01 03"),
    ("forbid item=255 in=none divert=255", "11 000b ff 0000000000000000 01 ff"),
    ("separate items=1,2 inhibit", "12 0004 01 02 00 00"),
    ("separate items=1,1 divert=process15", "12 0004 01 01 01 17"),
    ("confine item=1 to=process0,24 inhibit", "13 000b 01 0000000001000100 00 00"),
    ("confine item=1 to=0-63 divert=24", "13 000b 01 ffffffffffffffff 01 18"),
    ("raw 10  # cut short", "10"),
    ("raw 10 00  # cut short", "10 00"),
    ("raw 10 0005 0100  # cut short", "10 0005 0100"),
    ("raw 14 0000  # unknown tag 14 hex", "14 0000"),
    ("raw 10 0000  # length 0, not 5", "10 0000"),
    ("raw 11 000a 00000000000000000000  # length 10, not 11", "11 000a 00000000000000000000"),
    ("raw 10 0005 1400000000  # unknown kind 20", "10 0005 14 00 00 00 00"),
    ("raw 10 0005 0100000001  # start with an unused field of 1", "10 0005 01 00 00 00 01"),
    ("raw 10 0005 1301180100  # label with an unused field of 1", "10 0005 13 01 18 01 00"),
    ("raw 12 0004 01020003  # separate with action 0, substitute 3", "12 0004 01 02 00 03"),
    ("raw 12 0004 01020200  # separate with action 2, substitute 0", "12 0004 01 02 02 00"),
]

# Other ways to say the same bytes.
OTHER_TEXTS = [
    ("", ""),
    ("# only a comment\n\n   \n", ""),
    ("\ufeffexit 0", "10 0005 12 00 00 00 00"),
    ("\texit   0\r\n", "10 0005 12 00 00 00 00"),
    ("# a comment\rexit 0\r", "10 0005 12 00 00 00 00"),
    ("open descriptor=1 name=5 0 # any order", "10 0005 02 00 05 01 00"),
    ("device 0 descriptor=1 device=1", "10 0005 05 00 01 01 00"),
    ("unmap read container=24 3", "10 0005 0d 03 18 00 00"),
    ("unmap both 3 container=24", "10 0005 0d 03 18 01 00"),
    ("unmap sort=0 3 container=24", "10 0005 0d 03 18 00 00"),
    ("unmap 3 container=24 sort=1", "10 0005 0d 03 18 01 00"),
    ("label container=radio item=1", "10 0005 13 00 02 01 00"),
    ("forbid inhibit in=30,24-29,1,3,process0,1 item=1", "11 000b 01 000000007f00010a 00 00"),
    ("raw 10 00 05\nraw 01", "10 0005 01"),
    ("raw 10000501 0000 00 00", "10 0005 01 00 00 00 00"),
    ("raw aB\nexit 0\nraw Ff", "ab 10 0005 12 00 00 00 00 ff"),
]

# A text and what its message must say.
BAD_TEXTS = [
    ("start 0\nopne 0", ["line 2", "'opne'", "open, create"]),
    ("Start 0", ["line 1", "'Start'", "start, open"]),
    ("open 0 name=5", ["'open 0 name=5'", "descriptor=DESCRIPTOR too"]),
    ("start", ["'start'", "PROCESS too: start PROCESS"]),
    ("separate items=1,2", ["(inhibit | divert=CONTAINER) too"]),
    ("separate items=1,2 inhibit divert=3", ["'divert=3'", "only: separate"]),
    ("exit 0 1", ["'1'", "only: exit PROCESS"]),
    (
        "unmap 0 container=24",
        ["'unmap 0 container=24'", "(read | both | sort=SORT) too, the sort of mapping that ends"],
    ),
    ("unmap 0 container=24 write", ["'write'", "only: unmap PROCESS container=CONTAINER (read"]),
    ("unmap 0 container=24 read both", ["'both'", "only: unmap PROCESS"]),
    ("unmap 0 container=24 read sort=0", ["'sort=0'", "only: unmap PROCESS"]),
    ("unmap read container=24", ["'unmap read container=24'", "PROCESS too: unmap PROCESS"]),
    ("unmap 0 container=24 sort=256", ["'sort=256'", "from 0 to 255"]),
    ("unmap 0 container=24 sort=both", ["'sort=both'", "from 0 to 255"]),
    ("open 0 name=5 name=6 descriptor=1", ["'name=6'", "only: open PROCESS"]),
    ("open 0 nam=5 descriptor=1", ["'nam=5'", "only: open PROCESS name=NAME"]),
    ("start 256", ["'256'", "from 0 to 255"]),
    ("start -1", ["'-1'", "from 0 to 255"]),
    ("start " + "9" * 5000, ["999...'", "from 0 to 255"]),
    ("start \u0661", ["from 0 to 255"]),
    ("open 0 name=x descriptor=1", ["'name=x'", "from 0 to 255"]),
    ("open 0 name= descriptor=1", ["'name='", "from 0 to 255"]),
    ("device 0 descriptor=1 device=process0", ["'device=process0'", "panel, radio or port"]),
    ("label container=process16 item=1", ["'container=process16'", "process0 to process15"]),
    ("pipe 0 descriptors=3 container=24", ["'descriptors=3'", "two numbers"]),
    ("pipe 0 descriptors=3,4,5 container=24", ["'descriptors=3,4,5'", "two numbers"]),
    ("forbid item=1 in=64 inhibit", ["'in=64'", "from 0 to 63"]),
    ("forbid item=1 in= inhibit", ["'in='", "from 0 to 63"]),
    ("forbid item=1 in=30-24 inhibit", ["'in=30-24'", "24-30"]),
    ("forbid item=1 in=1,none inhibit", ["'in=1,none'", "from 0 to 63"]),
    ("raw", ["'raw'", "hex bytes after it"]),
    ("raw 1", ["'1'", "hex digits, two a byte"]),
    ("\n\nraw 10 0g", ["line 3", "'0g'", "hex digits, two a byte"]),
]


# Text and bytes.


def test_forms_go_both_ways(checks: Checks, options: Options) -> None:
    for text, digits in FORM_PAIRS:
        data = bytes.fromhex(digits)
        checks.equal(f"assemble {text!r}", logtext.assemble(text.encode()), data)
        checks.equal(f"disassemble {digits}", logtext.disassemble(data).decode(), text + "\n")


def test_every_form_is_tried(checks: Checks, options: Options) -> None:
    tried = {text.split()[0] for text, _ in FORM_PAIRS}
    checks.equal("words", tried - {logtext.RAW}, set(logtext.FORM_OF_WORD))
    kinds = {form.lead[0] for form in logtext.FORMS if form.tag == limits.CALL_TAG}
    checks.equal("kinds", kinds, set(limits.KINDS))
    for form in logtext.FORMS:
        checks.equal(f"length of {form.word}", form.length, limits.VALUE_LENGTHS[form.tag])


def test_other_texts(checks: Checks, options: Options) -> None:
    for text, digits in OTHER_TEXTS:
        checks.equal(f"assemble {text!r}", logtext.assemble(text.encode()), bytes.fromhex(digits))


def message_of(text: bytes) -> str:
    """The message about a text that cannot be assembled."""
    try:
        return f"no message, but {logtext.assemble(text)!r}"
    except logtext.BadLine as error:
        return str(error)


def test_messages(checks: Checks, options: Options) -> None:
    for text, parts in BAD_TEXTS:
        message = message_of(text.encode())
        wanted = ["line ", "found ", "expected ", *parts]
        fits = len(message) < 300 and all(part in message for part in wanted)
        checks.true(f"message for {text[:50]!r}", fits, message)
    message = message_of(b"start 0\nstart \xff # not UTF-8")
    checks.equal("message", message, "line 2: found byte ff hex, expected text in UTF-8")


# The round trip.


def round_trip_fault(log: bytes) -> bool:
    """Whether bytes, text, bytes and text again do not agree."""
    text = logtext.disassemble(log)
    again = logtext.assemble(text)
    return again != log or logtext.disassemble(again) != text


def check_round_trips(checks: Checks, name: str, logs: Iterable[bytes]) -> None:
    """Check that every log comes back the same."""
    faults = [log.hex() for log in logs if round_trip_fault(log)]
    checks.true(name, not faults, f"{len(faults)} faults, the first {faults[:1]}")


def near_record(choices: Choices) -> bytes:
    """A record with a tag, length and values near the right ones."""
    tag = choices.pick([*limits.VALUE_LENGTHS] * 4 + [*range(0x0E, 0x1D)])
    length = limits.VALUE_LENGTHS.get(tag, 5)
    values = [0, 0, 0, 1, choices.below(24), choices.below(256)]
    data = frame_bytes(tag, bytes(choices.pick(values) for _ in range(length)))
    if choices.chance(0.1):
        data = data[:2] + bytes([choices.below(14)]) + data[3:]
    return data


def test_random_bytes(checks: Checks, options: Options) -> None:
    for case in range(options.cases):
        seed = options.seed + case
        choices = Choices(seed)
        logs = [choices.data(choices.below(60)) for _ in range(100)]
        for _ in range(100):
            logs.append(b"".join(near_record(choices) for _ in range(choices.below(9))))
        logs.append(choices.data(3000))
        check_round_trips(checks, f"random bytes, seed {seed}", logs)


def test_generated_logs(checks: Checks, options: Options) -> None:
    for mix in MIXES:
        for seed in range(options.seed, options.seed + 5):
            log = b"".join(generate_records(seed, 150, mix))
            check_round_trips(checks, f"log of seed {seed}, mix {mix}", [log])
            records = logtext.split_records(log)
            checks.equal("records joined", b"".join(records), log)
            checks.equal("a record an answer", len(records), len(Tracker().run_log(log)))


def test_single_bytes_changed(checks: Checks, options: Options) -> None:
    values = {*EDGES, *range(32)}
    for text, digits in FORM_PAIRS:
        data = bytes.fromhex(digits)
        changed = (
            data[:place] + bytes([value]) + data[place + 1 :]
            for place in range(len(data))
            for value in values
        )
        check_round_trips(checks, f"one byte changed in {text!r}", changed)
    check_round_trips(checks, "run B cut", (RUN_B_INPUT[:end] for end in range(len(RUN_B_INPUT))))
    check_round_trips(checks, "longest value", [frame_bytes(0xFF, bytes(65535)) + b"\x10"])


def random_line(choices: Choices) -> str:
    """A line of words that partly belong together."""
    text, _ = choices.pick(FORM_PAIRS)
    words = text.split("#")[0].split()
    while choices.chance(0.5):
        place = choices.below(len(words) + 1)
        other = choices.pick(choices.pick(FORM_PAIRS)[0].split())
        odd = choices.pick(["=", "-", ",", "0-", "in=-", "\u00b2", "\x00", "#", "none", "0x1"])
        words[place : place + choices.below(2)] = [choices.pick([other, odd])]
    return " ".join(words)


def test_random_texts(checks: Checks, options: Options) -> None:
    choices = Choices(options.seed)
    logs = []
    for _ in range(3000):
        text = random_line(choices).encode()
        try:
            logs.append(logtext.assemble(text))
        except logtext.BadLine:
            pass
    checks.true("some texts are good, some bad", 500 < len(logs) < 2500, str(len(logs)))
    check_round_trips(checks, f"random texts, seed {options.seed}", logs)


# The command line.


@lru_cache(maxsize=None)
def load_logtool() -> ModuleType:
    """The command line as a module, to run it many times in this process."""
    loader = SourceFileLoader("logtool", LOGTOOL[1])
    module = module_from_spec(spec_from_loader("logtool", loader))
    loader.exec_module(module)
    return module


class Result(NamedTuple):
    """What a command leaves."""

    status: int
    output: bytes
    message: str


def command(words: List[str], data: bytes = b"") -> Result:
    """Run logtool in this process with standard input."""
    given, output, errors = io.TextIOWrapper(io.BytesIO(data)), io.BytesIO(), io.StringIO()
    stdout = io.TextIOWrapper(output, encoding="utf-8", write_through=True)
    with mock.patch.multiple(sys, stdin=given, stdout=stdout, stderr=errors):
        try:
            status = load_logtool().main(words)
        except SystemExit as end:
            status = end.code
    return Result(status, output.getvalue(), errors.getvalue())


def check_output(
    checks: Checks, words: List[str], data: bytes, expected: bytes, fault: str = ""
) -> None:
    """Check the output of a command that goes well, on a log without a fault or with this one."""
    result = command(words, data)
    name = "logtool " + " ".join(words)
    checks.equal(f"{name}: output", result.output, expected)
    checks.equal(f"{name}: status", result.status, 1 if fault else 0)
    fits = fault in result.message if fault else not result.message
    checks.true(f"{name}: errors", fits, result.message)


def check_bad(checks: Checks, words: List[str], parts: List[str], data: bytes = b"") -> None:
    """Check status 2, no output, and a message with these parts."""
    result = command(words, data)
    name = "logtool " + " ".join(words)
    checks.equal(f"{name}: status", result.status, 2)
    checks.equal(f"{name}: output", result.output, b"")
    fits = all(part in result.message for part in parts)
    checks.true(f"{name}: message", fits, result.message)


def test_standard_input_and_output(checks: Checks, options: Options) -> None:
    text = logtext.disassemble(RUN_B_INPUT)
    check_output(checks, ["assemble", "-"], text, RUN_B_INPUT, RUN_B_FAULT)
    check_output(checks, ["assemble", "-", "-o", "-"], text, RUN_B_INPUT, RUN_B_FAULT)
    check_output(checks, ["disassemble", "-"], RUN_B_INPUT, text, RUN_B_FAULT)
    whole = RUN_B_INPUT[:-2]
    check_output(checks, ["assemble", "-"], logtext.disassemble(whole), whole)
    check_output(checks, ["disassemble", "-"], whole, logtext.disassemble(whole))
    for words in (["assemble", "-"], ["disassemble", "-"], ["show", "-"]):
        check_output(checks, words, b"", b"")
    long = bytes(limits.LOG_LIMIT + 1)
    check_output(checks, ["assemble", "-"], logtext.disassemble(long), long, TOO_LONG)
    check_output(checks, ["disassemble", "-"], long, logtext.disassemble(long), TOO_LONG)


def test_files(checks: Checks, options: Options) -> None:
    with tempfile.TemporaryDirectory() as place:
        log, text, bad = (os.path.join(place, name) for name in ("a.log", "a.txt", "bad.txt"))
        for path, data in ((log, RUN_B_INPUT), (bad, b"start 0\n\nopne 0\n")):
            with open(path, "wb") as file:
                file.write(data)
        check_output(checks, ["disassemble", log, "-o", text], b"", b"", RUN_B_FAULT)
        check_output(checks, ["assemble", text], b"", RUN_B_INPUT, RUN_B_FAULT)
        out = os.path.join(place, "out")
        check_bad(checks, ["assemble", bad, "-o", out], [f"{bad}, line 3: found 'opne'"])
        for name in ("show", "explain", "draw"):
            parts = [f"{bad}, line 3: found 'opne', expected one of: start, open"]
            check_bad(checks, [name, bad, *COMMANDS[name]], parts)
        checks.true("nothing written after an error", not os.path.exists(out))
        check_bad(checks, ["disassemble", log, "-o", log], [log, "the input itself"])
        check_bad(checks, ["disassemble", log, "-o", place], [place, "expected a place to write"])
        check_bad(checks, ["assemble", place], [place, "give a file that can be read"])
        check_bad(checks, ["draw", log, "-o", out], [out, "ends in .svg, .html, .dot"])


def test_bad_commands(checks: Checks, options: Options) -> None:
    check_bad(checks, [], ["COMMAND"])
    check_bad(checks, ["unknown"], ["assemble"])
    check_bad(checks, ["assemble"], ["FILE"])
    for name, more in COMMANDS.items():
        words = [name, "no-directory/file", *more]
        parts = ["no-directory/file", "No such file", "give a file that can be read"]
        check_bad(checks, words, parts)
        words = [name, str(ROOT), *more]
        parts = [str(ROOT), "Is a directory", "give a file that can be read"]
        check_bad(checks, words, parts)
    check_bad(checks, ["assemble", "-"], ["standard input, line 1: found 'x'"], b"x\n")
    for name in ("show", "explain", "draw"):
        parts = ["standard input", TOO_LONG, "expected at most", "keep its first records only"]
        check_bad(checks, [name, "-", *COMMANDS[name]], parts, bytes(limits.LOG_LIMIT + 1))


def test_terminal_gets_no_bytes(checks: Checks, options: Options) -> None:
    master, slave = pty.openpty()
    try:
        result = subprocess.run(
            LOGTOOL + ["assemble", LOGS[0]], stdout=slave, stderr=subprocess.PIPE, timeout=60
        )
    finally:
        os.close(slave)
        os.close(master)
    message = result.stderr.decode()
    checks.equal("terminal: status", result.returncode, 2)
    checks.true("terminal: message", "found a terminal" in message and "-o OUT" in message, message)


def test_own_process(checks: Checks, options: Options) -> None:
    for words, status in ((["disassemble", "-"], 0), (["show", "no-directory/file"], 2)):
        result = subprocess.run(
            LOGTOOL + words, input=b"\x10\x00\x00", capture_output=True, timeout=60
        )
        checks.equal(f"own process {words}: status", result.returncode, status)
        checks.equal(f"own process {words}: messages", result.stderr.count(b"\n"), int(status > 0))


def test_closed_output(checks: Checks, options: Options) -> None:
    for words in (["assemble", LOGS[0]], ["--help"]):
        reader, writer = os.pipe()
        os.close(reader)
        result = subprocess.run(LOGTOOL + words, stdout=writer, stderr=subprocess.PIPE, timeout=60)
        os.close(writer)
        checks.equal(f"closed output: {words}", result.stderr, b"")


def test_help(checks: Checks, options: Options) -> None:
    for name in ("", *COMMANDS):
        result = command([*filter(None, [name]), "--help"])
        text = result.output.decode()
        checks.equal(f"{name} --help: status", result.status, 0)
        checks.true(f"{name} --help: examples", f"  tools/logtool {name}" in text, text)
        told = "how many containers gained" in text
        checks.equal(f"{name} --help: the number", told, name in ("show", "explain"))
    shapes = command(["--help"]).output.decode()
    for form in logtext.FORMS:
        checks.true(f"--help: {form.word}", f"\n  {form.shape}\n" in shapes)


def test_show(checks: Checks, options: Options) -> None:
    expected = (
        "1  allow 0                         start 0\n"
        "2  allow 0                         create 0 name=5 descriptor=0 container=24\n"
        "3  allow 1                         label container=24 item=1\n"
        "4  rule 0                          forbid item=1 in=panel divert=port\n"
        "5  allow 0                         device 0 descriptor=1 device=panel\n"
        "6  allow 1                         read 0 descriptor=0\n"
        "7  modify 0 3 1                    write 0 descriptor=1\n"
        "8  refused 14 (descriptor closed)  write 0 descriptor=2\n"
        "9  refused 1 (cut short)           raw 10 00  # cut short\n"
    )
    check_output(checks, ["show", "-"], RUN_B_INPUT, expected.encode(), RUN_B_FAULT)
    text_file = os.path.join(ROOT, "logs", "run-b.log.txt")
    check_output(checks, ["show", text_file], b"", expected.encode(), RUN_B_FAULT)
    long = frame_bytes(0xFF, bytes(5000))
    shown = f"1  refused 2 (unknown tag)  raw ff 1388 {'00' * 16}...  # unknown tag ff hex\n"
    check_output(checks, ["show", "-"], long, shown.encode())


def state_after(log: bytes) -> State:
    """The state after a log."""
    tracker = Tracker()
    tracker.run_log(log)
    return tracker.state


# The logs.


def read_file(path: str) -> bytes:
    """The bytes of a file."""
    with open(path, "rb") as file:
        return file.read()


def named_log(name: str) -> bytes:
    """The bytes of a log of logs/."""
    return logtext.assemble(read_file(os.path.join(ROOT, "logs", f"{name}.log.txt")))


def answer_lines(log: bytes) -> List[str]:
    """The model's answers to a log."""
    return [str(answer) for answer in Tracker().run_log(log)]


def test_logs_get_their_answers(checks: Checks, options: Options) -> None:
    names = [os.path.basename(path)[: -len(".log.txt")] for path in LOGS]
    checks.equal("logs", names, ["callbacks", "evaluation", "rowers", "run-b"])
    for name in names:
        expected = read_file(os.path.join(ROOT, "logs", f"{name}.expected")).decode()
        renew = f"tools/logtool assemble logs/{name}.log.txt | model/modelrun answers -"
        answers = "".join(line + "\n" for line in answer_lines(named_log(name)))
        checks.true(f"answers to {name}", answers == expected, f"see what is right: {renew}")
        check_round_trips(checks, f"round trip of {name}", [named_log(name)])


def test_run_b(checks: Checks, options: Options) -> None:
    checks.equal("run B: bytes", named_log("run-b"), RUN_B_INPUT)
    checks.equal("run B: answers", answer_lines(named_log("run-b")), RUN_B_OUTPUT.splitlines())


def stopped(name: str) -> List[Tuple[str, str]]:
    """The inhibited records of a log, with their answers."""
    log = named_log(name)
    texts = [logtext.record_text(record) for record in logtext.split_records(log)]
    return [pair for pair in zip(texts, answer_lines(log)) if pair[1].startswith("inhibit")]


def next_only(state: State, container: int) -> set:
    """A wrong reach: the first link only."""
    return {container} | {target for source, target in state.links if source == container}


def test_rowers(checks: Checks, options: Options) -> None:
    label = ("label container=24 item=2", "inhibit 0")
    write = ("write 1 descriptor=1", "inhibit 0")
    checks.equal("rowers: stopped", stopped("rowers"), [label, write])
    held = state_after(named_log("rowers")).items
    checks.equal("rowers: the two files", (held[26], held[27]), ({1}, {2}))
    with mock.patch.object(State, "reach", next_only):
        checks.equal("rowers: first link only", stopped("rowers"), [label])


def unmap_all(state: State, call: Call) -> None:
    """A wrong unmap: the first one ends every mapping."""
    for sort in limits.MAP_SORTS:
        state.mappings.pop((call.process, call.a, sort), None)


def test_callbacks(checks: Checks, options: Options) -> None:
    write = ("write 0 descriptor=1", "inhibit 0")
    checks.equal("callbacks: stopped", stopped("callbacks"), [write])
    state = state_after(named_log("callbacks"))
    held = [state.items[container] for container in (24, 25, 26, 8)]
    checks.equal("callbacks: what is held", held, [{1}, {1}, {2}, {2}])
    checks.equal("callbacks: mappings", state.mappings, {})
    with mock.patch.dict(EFFECTS, {limits.Kind.UNMAP: unmap_all}):
        checks.equal("callbacks: the first unmap ends all", stopped("callbacks"), [])
    shown = command(["show", os.path.join(ROOT, "logs", "callbacks.log.txt")]).output.decode()
    for line in (
        " 9  allow 0                        unmap 0 container=24 read\n",
        "10  allow 2                        label container=24 item=2\n",
        "14  allow 0                        unmap 0 container=24 both\n",
        "15  refused 16 (no link to unmap)  unmap 0 container=24 both\n",
    ):
        checks.true(f"callbacks: shows {line.strip()}", line in shown, shown)


def test_evaluation(checks: Checks, options: Options) -> None:
    upload, copy, append = (f"write 1 descriptor={descriptor}" for descriptor in (3, 4, 1))
    denials = [(upload, "inhibit 0"), (copy, "inhibit 1"), (append, "inhibit 2")]
    checks.equal("evaluation: denials", stopped("evaluation"), denials)
    state = state_after(named_log("evaluation"))
    held = {name: set(state.items[container]) for name, container in state.names.items()}
    expected = {0: {1}, 1: {2}, 2: {3}, 4: {1}, 5: {1}, 6: {1}, 7: set()}
    checks.equal("evaluation: what the files hold", held, expected)
    checks.equal("evaluation: network", state.items[0], set())


def main() -> int:
    """Run the tests and print the counts."""
    parser = argparse.ArgumentParser(description="Test logtool and the logs.", allow_abbrev=False)
    parser.add_argument("--seed", type=int, default=DEFAULT_SEED, help="seed of the first case")
    parser.add_argument("--cases", type=int, default=20, help="cases of the test of random bytes")
    arguments = parser.parse_args()
    options = Options(arguments.seed, arguments.cases)
    print(f"seeds from {options.seed}, {options.cases} cases of random bytes")
    checks = Checks()
    for name, test in list(globals().items()):
        if name.startswith("test_"):
            checks.run(test, options)
    print(f"{checks.passed} passed, {checks.failed} failed")
    return 1 if checks.failed else 0


if __name__ == "__main__":
    sys.exit(main())
