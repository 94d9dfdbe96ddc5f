"""The proved log program, crates/runlog/out/runlog: found, built if need be, and run on a log."""

import os
import shutil
import subprocess
import sys
from pathlib import Path
from typing import List, Optional

from model import ROOT
from model.limits import LOG_LIMIT
from model.logfiles import Say
from model.logtext import counted, split_records

CRATE = ROOT / "crates" / "runlog"
PROGRAM = CRATE / "out" / "runlog"
BUILD = ["rt", "run"]  # in the crate's folder; it runs the program too, here on nothing
SOURCES = ("src", "specs", "proofs")  # of a crate
NO_PROGRAM = 3  # the exit status


class Failure(Exception):
    """What went wrong and what to do about it, with the exit status."""

    def __init__(self, status: int, message: str) -> None:
        super().__init__(message)
        self.status = status


def is_outdated(program: Path) -> bool:
    """Whether a file that the program may depend on is newer than it."""
    built = program.stat().st_mtime
    files = (file for part in SOURCES for file in ROOT.glob(f"crates/*/{part}/**/*"))
    return any(file.is_file() and file.stat().st_mtime > built for file in files)


def build(say: Say) -> None:
    """Prove and build the program; what rt reports goes to standard error."""
    command = " ".join(BUILD)
    where = f"{command} in crates/runlog"
    say(f"building the program ({where}): its proofs are checked, which may take some minutes")
    with subprocess.Popen(
        BUILD,
        cwd=CRATE,
        stdin=subprocess.DEVNULL,
        stdout=subprocess.PIPE,
        stderr=subprocess.STDOUT,
    ) as run:
        for line in run.stdout or []:
            if line.startswith(b"rt: ") or b"error" in line:
                sys.stderr.write(line.decode(errors="replace"))
                sys.stderr.flush()
    if run.returncode != 0 or not PROGRAM.is_file():
        again = f"correct what it reports ({where} says all of it) and run the command again"
        raise Failure(NO_PROGRAM, f"{command} ended with status {run.returncode}; {again}")
    os.utime(PROGRAM)  # rt leaves a program as it is if nothing in its sources differs


def ready_program(chosen: Optional[str], say: Say) -> Path:
    """The program to run: the chosen one, or the repository's, built if need be."""
    if chosen is not None:
        return Path(chosen).absolute()
    found = PROGRAM.is_file()
    if found and not is_outdated(PROGRAM):
        return PROGRAM
    if shutil.which(BUILD[0]):
        build(say)
    elif found:
        say("the command rt is missing: the program is run as it is, older than files of crates/")
    else:
        advice = "install the Rattle kit, and put its bin/ on the PATH"
        raise Failure(NO_PROGRAM, f"no program is built, and the command rt is missing: {advice}")
    return PROGRAM


def run_program(program: Path, log: bytes) -> bytes:
    """What the program writes for a log."""
    try:
        run = subprocess.run([str(program)], input=log, stdout=subprocess.PIPE)
    except OSError as error:
        raise Failure(NO_PROGRAM, f"cannot run '{program}': {error.strerror}") from error
    if run.returncode < 0:
        raise Failure(NO_PROGRAM, f"'{program}' was ended by signal {-run.returncode}")
    if run.returncode > 0 and len(log) <= LOG_LIMIT:
        raise Failure(NO_PROGRAM, f"'{program}' ended with status {run.returncode}")
    return run.stdout


def answers_in(program: Path, log: bytes, output: bytes) -> List[str]:
    """The lines that the program wrote, which are one for each record."""
    lines = output.decode("ascii", "replace").splitlines()
    count = 1 if len(log) > LOG_LIMIT else len(split_records(log))
    if output and not output.endswith(b"\n"):
        raise Failure(NO_PROGRAM, f"'{program}' did not write its last line to the end")
    if len(lines) != count:
        wrote = f"wrote {counted(len(lines), 'line')} for {counted(count, 'record')}"
        raise Failure(NO_PROGRAM, f"'{program}' {wrote}")
    return lines


def answers_of(program: Path, log: bytes) -> List[str]:
    """The program's answers to the records of a log."""
    return answers_in(program, log, run_program(program, log))
