"""What the tests of the tools share: paths, counts, progress, and logtool in this process."""

import io
import sys
import time
from importlib.machinery import SourceFileLoader
from importlib.util import module_from_spec, spec_from_loader
from types import ModuleType
from typing import List, NamedTuple, Optional, Tuple
from unittest import mock

from model import ROOT
from model.checks import Checks
from model.logfiles import run_command
from model.logtext import assemble
from tools.names import Own, read_names
from tools.provenance import Step, steps_of

LOGS = ROOT / "logs"
STORIES = ("rowers", "evaluation", "callbacks", "run-b")


class Session(NamedTuple):
    """The counts, and what the command line says."""

    checks: Checks
    seed: int
    logs: int
    began: float
    program: Optional[str]  # the built program, or None
    standin: str  # a program that answers as the model

    def say(self, text: str) -> None:
        """A line with the time since the start."""
        print(f"[{time.monotonic() - self.began:4.0f} s] {text}", flush=True)

    @property
    def runnable(self) -> str:
        """The program to run beside the model."""
        return self.program or self.standin


def story_log(name: str) -> bytes:
    """The bytes of a log of logs/."""
    return assemble((LOGS / f"{name}.log.txt").read_bytes())


def story_names(name: str) -> Own:
    """The own names of a log of logs/."""
    return read_names((LOGS / f"{name}.names.txt").read_bytes())


def story_steps(name: str) -> List[Step]:
    """The steps of a log of logs/."""
    return list(steps_of(story_log(name)))


# The command line.


class Result(NamedTuple):
    """What a command leaves."""

    status: int
    output: str
    message: str


def load_command(name: str, path: str) -> ModuleType:
    """A command line as a module."""
    loader = SourceFileLoader(f"{name}_command", str(ROOT / path))
    module = module_from_spec(spec_from_loader(f"{name}_command", loader))
    loader.exec_module(module)
    return module


COMMANDS = {
    "runlog": load_command("runlog", "tools/runlog.py"),
    "logtool": load_command("logtool", "tools/logtool"),
    "modelrun": load_command("modelrun", "model/modelrun"),
}


def in_process(name: str, words: List[str], data: bytes = b"") -> Tuple[int, bytes, str]:
    """Run a command in this process with standard input: its status, output and messages."""
    given, output, errors = io.TextIOWrapper(io.BytesIO(data)), io.BytesIO(), io.StringIO()
    stdout = io.TextIOWrapper(output, encoding="utf-8", write_through=True)
    command = COMMANDS[name]
    with mock.patch.multiple(sys, stdin=given, stdout=stdout, stderr=errors):
        status = run_command(command.run, words, command.say)
    return status, output.getvalue(), errors.getvalue()


def logtool(*words: str, data: bytes = b"") -> Result:
    """Run logtool in this process with standard input."""
    status, output, message = in_process("logtool", list(words), data)
    return Result(status, output.decode(), message)
