"""A log program beside the separate model, on one log."""

import subprocess
from collections import Counter
from typing import List, Optional

from model.limits import LOG_LIMIT
from model.tracker import Tracker

SECONDS = 10  # for one log
MOST_HANGS = 3  # logs on which a program may hang before no more are run
TOO_LONG = "log too long"


def text_of(lines: List[str]) -> bytes:
    """Lines as a program writes them."""
    return "".join(f"{line}\n" for line in lines).encode()


def lines_of(output: bytes) -> List[str]:
    """The lines of an output; a last one without its end is marked."""
    *lines, rest = output.decode("ascii", "backslashreplace").split("\n")
    return [*lines, f"{rest} (without a line end)"] if rest else lines


def model_lines(log: bytes) -> List[str]:
    """The lines that the model asks for."""
    if len(log) > LOG_LIMIT:
        return [TOO_LONG]
    return [str(answer) for answer in Tracker().run_log(log)]


hangs: Counter = Counter()  # by program


def program_output(program: str, log: bytes) -> bytes:
    """What a program writes for a log; a line in brackets says how it failed."""
    if hangs[program] >= MOST_HANGS:
        return text_of([f"(not run: the program did not end on {MOST_HANGS} logs before)"])
    try:
        run = subprocess.run([program], input=log, capture_output=True, timeout=SECONDS)
    except subprocess.TimeoutExpired:
        hangs[program] += 1
        return text_of([f"(the program did not end in {SECONDS} s)"])
    except OSError as error:
        return text_of([f"(the program cannot be run: {error.strerror})"])
    if run.stderr or (run.returncode != 0 and len(log) <= LOG_LIMIT):
        said = run.stderr.decode(errors="replace").strip()
        end = text_of([f"(the program ended with status {run.returncode} and said '{said}')"])
        return run.stdout + end
    return run.stdout


def difference(output: bytes, wanted: List[str]) -> Optional[str]:
    """The first difference of an output from the wanted lines, in words, or None."""
    if output == text_of(wanted):
        return None
    got = lines_of(output)
    for number, (one, two) in enumerate(zip(got, wanted), 1):
        if one != two:
            return f"line {number}: program '{one}', wanted '{two}'"
    more = "more" if len(got) > len(wanted) else "fewer"
    last = f", the last one '{got[-1]}'" if got else ""
    return f"{more} lines than wanted: {len(got)} in place of {len(wanted)}{last}"


def fault_in(program: str, log: bytes) -> Optional[str]:
    """How the program differs from the model on a log, or None."""
    return difference(program_output(program, log), model_lines(log))
