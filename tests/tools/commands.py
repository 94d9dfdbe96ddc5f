"""The commands on logs, as processes of their own and in this one: runlog, logtool, modelrun."""

import os
import resource
import subprocess
import sys
from typing import Any, Dict, List, NamedTuple, Optional

from model import ROOT
from tests.tools.session import Session, in_process

SECONDS = 60
NAMELESS = "--names /dev/null"
UNBUFFERED = {"0": {}, "1": {"PYTHONUNBUFFERED": "1"}}  # how Python writes to standard output


class Ran(NamedTuple):
    """What a command left."""

    status: int
    output: bytes
    message: str


PATHS = {
    "runlog": [str(ROOT / "runlog")],
    "logtool": [sys.executable, str(ROOT / "tools" / "logtool")],
    "modelrun": [sys.executable, str(ROOT / "model" / "modelrun")],
}


def split_words(session: Session, words: str) -> List[str]:
    """The words of a command; the program at hand is run, so that none is built."""
    found = words.split()
    chosen = ["--program", session.runnable]
    if found[0] == "runlog":
        return [found[0], *chosen, *found[1:]]
    return [*found, *chosen] if found[1:2] == ["explain"] else found


def command_words(session: Session, words: str) -> List[str]:
    """A command with its path."""
    name, *rest = split_words(session, words)
    return [*PATHS[name], *rest]


def inside(session: Session, words: str, data: bytes = b"") -> Ran:
    """Run a command in this process, which is quicker."""
    name, *rest = split_words(session, words)
    return Ran(*in_process(name, rest, data))


def environment(more: Optional[Dict[str, str]] = None) -> Dict[str, str]:
    """The environment of a command, in which Python is told nothing but this."""
    kept = {name: text for name, text in os.environ.items() if not name.startswith("PYTHON")}
    return {**kept, "PYTHONDONTWRITEBYTECODE": "1", **(more or {})}


def run(session: Session, words: str, **given: Any) -> Ran:
    """Run a command; a limit is on the bytes of each file that it writes, or on its memory."""
    most, memory = given.pop("most", None), given.pop("memory", None)

    def set_limits() -> None:
        for sort, limit in ((resource.RLIMIT_FSIZE, most), (resource.RLIMIT_AS, memory)):
            if limit is not None:
                resource.setrlimit(sort, (limit, limit))

    streams = {"stdout": subprocess.PIPE, "stderr": subprocess.PIPE, "env": environment()}
    chosen = {**streams, "preexec_fn": set_limits, "timeout": SECONDS, **given}
    made = subprocess.run(command_words(session, words), **chosen)
    return Ran(made.returncode, made.stdout or b"", made.stderr.decode())
