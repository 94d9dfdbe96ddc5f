"""A tester's own names for containers, items, names and processes, read from a text."""

import os
from typing import Dict, Tuple

from model.limits import CONTAINERS, ITEMS, NAMES, PROCESSES, process_container
from model.logfiles import STANDARD, BadInput, read_bytes, shown_name
from model.logtext import CONTAINER_NAMES, NO_NAMES, BadLine, Unfit, read_number, text_lines

LONGEST = 60  # characters of an own name
ENDING = ".names.txt"
SHAPE = "a line such as: container 24 = beat buffer"

# What may have a name: the numbers, and the words that may stand for them.
SORTS = {
    "container": (CONTAINERS, CONTAINER_NAMES),
    "item": (ITEMS, NO_NAMES),
    "name": (NAMES, NO_NAMES),
    "process": (PROCESSES, NO_NAMES),
}

# The sort and the number to the name; a process is its container.
Own = Dict[Tuple[str, int], str]
NO_OWN: Own = {}

NAMES_HELP = """The names: a text with lines such as

  container 24 = beat buffer      # a device, a file, a pipe or a process
  process 0 = radio driver
  item 3 = strap 3 intervals
  name 5 = coach's file

'#' begins a comment. Blank lines are allowed. Without --names, the file
NAME.names.txt is used if it lies beside the log NAME.log or NAME.log.txt;
--names /dev/null uses none.
"""


def beside(path: str) -> str:
    """Where the names of a log lie if nothing else is said."""
    for ending in (".txt", ".log"):
        if path.endswith(ending) and os.path.basename(path) != ending:
            path = path[: -len(ending)]
    return path + ENDING


def read_key(head: str) -> Tuple[str, int]:
    """The sort and the number before the sign '='."""
    words = head.split()
    if len(words) != 2 or words[0] not in SORTS:
        raise Unfit(head.strip(), f"{' or '.join(SORTS)} and one number before '='")
    numbers, stands_for = SORTS[words[0]]
    number = read_number(words[1], words[1], stands_for, numbers)
    return ("container", process_container(number)) if words[0] == "process" else (words[0], number)


def read_own_name(text: str) -> str:
    """The name after the sign '='."""
    own = " ".join(text.split())
    if not own or not own.isprintable() or len(own) > LONGEST:
        raise Unfit(own, f"a name of 1 to {LONGEST} characters after '='")
    return own


def read_names(text: bytes) -> Own:
    """The names that a text in UTF-8 gives."""
    own: Own = {}
    lines: Dict[Tuple[str, int], int] = {}
    for number, line in enumerate(text_lines(text), 1):
        try:
            said = line.decode("utf-8-sig" if number == 1 else "utf-8").partition("#")[0]
            if not said.strip():
                continue
            head, sign, tail = said.partition("=")
            if not sign:
                raise Unfit(said.strip(), SHAPE)
            key = read_key(head)
            if key in own:
                raise Unfit(head.strip(), f"one name each; line {lines[key]} has one already")
            own[key], lines[key] = read_own_name(tail), number
        except UnicodeDecodeError as error:
            found = f"byte {line[error.start]:02x} hex"
            raise BadLine(f"line {number}: found {found}, expected text in UTF-8") from error
        except Unfit as error:
            raise BadLine(f"line {number}: {error}") from error
    return own


def read_own_names(chosen: str, log: str) -> Own:
    """The names of the option --names, or those beside the log, if there are any."""
    path = chosen or ("" if log == STANDARD else beside(log))
    if not path or (not chosen and not os.path.exists(path)):
        return NO_OWN
    if chosen == STANDARD and log == STANDARD:
        raise BadInput("--names -: found standard input twice, expected a file of names")
    other = "" if chosen else "; --names /dev/null uses no names"
    try:
        return read_names(read_bytes(path))
    except BadLine as error:
        raise BadInput(f"{shown_name(path)}, {error}; correct the line{other}") from error
    except BadInput as error:
        raise BadInput(f"{error}{other}") from error
