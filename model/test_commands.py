"""The command line of the model."""

import os
import subprocess
import sys
import tempfile
from typing import List, Optional

from model.checks import Checks, Options
from model.generate import generate_records
from model.limits import LOG_LIMIT
from model.logtext import disassemble
from model.test_runs import RUN_B_INPUT, RUN_B_OUTPUT

HERE = os.path.dirname(os.path.abspath(__file__))
COMMAND = [sys.executable, os.path.join(HERE, "modelrun")]
STORY = os.path.join(os.path.dirname(HERE), "logs", "rowers.log.txt")


def command(words: List[str], data: bytes = b"") -> subprocess.CompletedProcess:
    """Run the command line with standard input."""
    return subprocess.run(COMMAND + words, input=data, capture_output=True, timeout=60)


def check_output(
    checks: Checks, words: List[str], data: bytes, expected: bytes, status: int = 0
) -> None:
    """Check output and exit status."""
    result = command(words, data)
    name = "modelrun " + " ".join(words)
    checks.equal(f"{name}: output", result.stdout, expected)
    checks.equal(f"{name}: status", result.returncode, status)


def test_answers(checks: Checks, options: Options) -> None:
    check_output(checks, ["answers", "-"], RUN_B_INPUT, RUN_B_OUTPUT.encode())
    check_output(checks, ["answers", "-"], b"", b"")
    unknown = b"\x00\x00\x00"
    longest = unknown * (LOG_LIMIT // 3) + b"\x00"
    lines = b"refused 2\n" * (LOG_LIMIT // 3) + b"refused 1\n"
    check_output(checks, ["answers", "-"], longest, lines)
    check_output(checks, ["answers", "-"], longest + b"\x00", b"log too long\n")
    with tempfile.NamedTemporaryFile() as file:
        file.write(RUN_B_INPUT)
        file.flush()
        result = command(["answers", file.name])
        checks.equal("modelrun answers FILE", result.stdout.decode(), RUN_B_OUTPUT)


def test_state_and_queries(checks: Checks, options: Options) -> None:
    state = (
        "live processes: 0\ncontainer 3 holds: 1\ncontainer 8 holds: 1\ncontainer 24 holds: 1\n"
        "name 5 -> 24\nprocess 0 descriptor 0 -> 24\nprocess 0 descriptor 1 -> 1\n"
        "rule 0: item 1 not in: 1; divert to 3\n"
    )
    for log, status in ((RUN_B_INPUT, 1), (RUN_B_INPUT[:-2], 0)):  # cut short, and whole
        check_output(checks, ["state", "-"], log, state.encode(), status)
        check_output(checks, ["items", "-", "24"], log, b"0000000000000002 1\n", status)
        check_output(checks, ["items", "-", "25"], log, b"0000000000000000\n", status)
        check_output(checks, ["holders", "-", "1"], log, b"3 3 8 24\n", status)


def test_mappings_shown(checks: Checks, options: Options) -> None:
    text = (
        b"start 0\ndevice 0 descriptor=0 device=panel\ncreate 0 name=1 descriptor=1 container=24\n"
        b"map-read 0 descriptor=1\nmap-both 0 descriptor=0\nmap-read 0 descriptor=1\n"
        b"map-both 0 descriptor=1\nunmap 0 container=24 both\n"
    )
    shown = command(["state", "-"], text).stdout.decode().splitlines()
    lines = [line for line in shown if "link" in line or "maps" in line]
    expected = ["link 1 -> 8", "link 8 -> 1", "link 24 -> 8"]
    expected += ["process 0 maps 1: read 0, both 1", "process 0 maps 24: read 2, both 0"]
    checks.equal("modelrun state: mappings", lines, expected)


def test_texts(checks: Checks, options: Options) -> None:
    text = disassemble(RUN_B_INPUT)
    check_output(checks, ["answers", "-"], text, RUN_B_OUTPUT.encode())
    check_output(checks, ["items", "-", "24"], text, b"0000000000000002 1\n", 1)
    check_output(checks, ["holders", "-", "1"], text, b"3 3 8 24\n", 1)
    check_output(checks, ["holders", "-", "1", "--text"], text, b"3 3 8 24\n", 1)
    check_output(checks, ["holders", "-", "1", "--bytes"], text, b"0\n", 1)
    check_output(checks, ["holders", STORY, "1"], b"", b"1 26\n")
    states = [command(["state", "-"], log).stdout for log in (text, RUN_B_INPUT)]
    checks.equal("modelrun state: text and bytes", states[0], states[1])
    check_bad(checks, ["state", "-"], "standard input, line 1: found 'x'", b"x\n")
    check_bad(checks, ["state", "-", "--text"], "standard input, line 1", RUN_B_INPUT)


def test_generate(checks: Checks, options: Options) -> None:
    for mix in ("deep", "mixed", "hostile"):
        words = ["generate", "--seed", "7", "--records", "40", "--mix", mix]
        records = generate_records(7, 40, mix)
        check_output(checks, words, b"", b"".join(records))
        lines = "".join(record.hex() + "\n" for record in records)
        check_output(checks, [*words, "--hex"], b"", lines.encode())


def check_bad(checks: Checks, words: List[str], part: str, data: bytes = b"") -> None:
    """Check status 2, no output, and a message that has a part in it."""
    result = command(words, data)
    name = "modelrun " + " ".join(words)
    message = result.stderr.decode()
    checks.equal(f"{name}: status", result.returncode, 2)
    checks.equal(f"{name}: output", result.stdout, b"")
    checks.true(f"{name}: message", part in message and "Traceback" not in message, message)


def test_bad_input(checks: Checks, options: Options) -> None:
    check_bad(checks, [], "COMMAND")
    check_bad(checks, ["unknown"], "answers")
    check_bad(checks, ["answers"], "FILE")
    check_bad(checks, ["answers", "/nonexistent/log"], "give a file that can be read")
    check_bad(checks, ["answers", "/"], "give a file that can be read")
    check_bad(checks, ["answers", "a\0b".replace("\0", "\x01")], "give a file that can be read")
    check_bad(checks, ["items", "-", "64"], "from 0 to 63")
    check_bad(checks, ["items", "-", "x"], "from 0 to 63")
    check_bad(checks, ["holders", "-", "-1"], "")
    check_bad(checks, ["holders", "-", "9" * 5000], "from 0 to 63")
    check_bad(checks, ["state", "-"], "found more than 65,536 bytes", bytes(LOG_LIMIT + 1))
    check_bad(checks, ["generate", "--seed", "-1"], "from 0 to")
    check_bad(checks, ["generate", "--records", "100001"], "from 0 to 100000")
    check_bad(checks, ["generate", "--mix", "other"], "hostile")


def run_with_closed_output(words: List[str]) -> Optional[str]:
    """Run a command whose output nobody reads; its error output."""
    reader, writer = os.pipe()
    os.close(reader)
    result = subprocess.run(COMMAND + words, stdout=writer, stderr=subprocess.PIPE, timeout=60)
    os.close(writer)
    return result.stderr.decode()


def test_closed_output(checks: Checks, options: Options) -> None:
    for words in (["generate", "--hex"], ["generate"], ["--help"]):
        checks.equal(f"closed output: {words}", run_with_closed_output(words), "")
    result = command(["--help"])
    checks.equal("--help: status", result.returncode, 0)
    checks.true("--help: names the commands", b"generate" in result.stdout)
