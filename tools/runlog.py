"""The command ./runlog: a log in, the program's answers out.

The answers are those of the program, crates/runlog/out/runlog, in every case. The
model is used for the limits and the form of records only.
"""

import argparse
import shutil
import sys
import textwrap
from collections import Counter
from pathlib import Path
from typing import List, NamedTuple, NoReturn

sys.dont_write_bytecode = True
ROOT = Path(__file__).resolve().parents[1]
sys.path.insert(0, str(ROOT))

from model.limits import LOG_LIMIT  # noqa: E402
from model.logfiles import BAD_INPUT, FORMS_HELP, NOT_WRITTEN_HELP, STANDARD, Log  # noqa: E402
from model.logfiles import Parser, add_form, read_log, run_command, speaker  # noqa: E402
from model.logtext import REFUSAL_WORDS, assemble_line, record_text, split_records  # noqa: E402
from model.logtext import text_lines  # noqa: E402
from tools.program import Failure, answers_in, answers_of, ready_program, run_program  # noqa: E402

STORY = ROOT / "logs" / "rowers.log.txt"
SHOWN_BYTES = 16  # of a raw value in --show
ANSWER_WIDTH = 11
RECORD_WIDTH = 43
WIDEST = 120

TOO_LONG = 1

DESCRIPTION = "Run a log and print what each record gets. Without FILE: a demonstration."
REFUSAL_LINES = "\n".join(f"    {number:>2}  {word}" for number, word in REFUSAL_WORDS.items())
EPILOG = f"""what goes in:
  A log is a row of records: one tag byte, two bytes of length (high byte first),
  the value. At most {LOG_LIMIT:,} bytes.
  tag 10 hex, length 5    a call: kind (1 to 19), process, a, b, c, a byte each
  tag 11 hex, length 11   a rule: an item, eight bytes of a container set (high byte
                          first, bit i is container i), action, substitute. It is
                          broken when a container of the set holds the item
  tag 12 hex, length 4    a rule: two items, action, substitute. It is broken when
                          one container holds both
  tag 13 hex, length 11   a rule as 11 hex, broken when a container outside the set
                          holds the item
  Action 0 inhibits, with substitute 0. Action 1 diverts a write to the substitute.
  Field b of unmap (kind 13) is the sort of mapping that ends, 0 read or 1 both.
  Logs are easier to write as text: logs/ has some, and tools/logtool --help has the
  grammar, with a line for each kind of call. README.md leads to everything else.

{FORMS_HELP}
what comes out, a line for each record:
  allow GAINED     the call is done
  inhibit RULE     nothing is done: the call would break this rule
  modify RULE SUBSTITUTE GAINED
                   the write would break this rule and goes to the substitute
  rule NUMBER      the rule is loaded and has this number
  refused NUMBER   nothing is done, for the first of these that applies:
{REFUSAL_LINES}
  GAINED is how many containers gained an item that they lacked; of modify, by the
  write to the substitute. A forked child gains if its parent holds anything.
  After 'refused 1' reading ends. An empty log gives no line. For a log of more than
  {LOG_LIMIT:,} bytes there is one line, 'log too long'.

limits:
  containers 0 to 63 (devices 0 to 7, processes 8 to 23, files and pipes 24 to 63),
  items 0 to 63, processes 0 to 15, names 0 to 127, descriptors 0 to 31 in each
  process, 32 rules, and for each process and container 255 mappings for reading and
  255 both ways

exit status:
  0  the log was run, whatever the answers are
  1  the log is too long
  2  the command line, the file or the text cannot be used
  3  the program is missing and could not be built, or it failed
{NOT_WRITTEN_HELP}
examples:
  ./runlog
  ./runlog logs/run-b.log.txt
  ./runlog --show logs/evaluation.log.txt
  tools/logtool assemble logs/run-b.log.txt | ./runlog -
"""

WORDS = """Each record goes to the program, and the program's answer stands in front of it:
allow 1: the call is done, and 1 container gained an item that it lacked.
rule 0: the rule is loaded, as number 0.
inhibit 0: the call is not done, because rule 0 would be broken. These are marked with *."""

NEXT = """Try next:
  ./runlog logs/rowers.log.txt              the same log, the program's lines alone
  ./runlog --show logs/run-b.log.txt        a write that a rule diverts, and two refusals
  ./runlog --show logs/evaluation.log.txt   copies, a move, an upload and a combination
  ./runlog --show logs/callbacks.log.txt    a buffer mapped twice and unmapped once: its link stays
  tools/logtool explain logs/rowers.log.txt --only inhibit
                                            why these records are stopped, in words
  tools/logtool draw logs/rowers.log.txt -o /tmp/rowers.html
                                            a page for a browser that steps through the log
  ./runlog --help                           what goes in and what comes out"""


say = speaker("runlog")


# Answers beside their records.


class Row(NamedTuple):
    """A line of a text: a record with its comment, or a comment alone."""

    record: bytes
    comment: str


def rows_of(log: Log) -> List[Row]:
    """The rows of a log; without comments if the text's lines are not its records."""
    records = split_records(log.data)
    if log.text is not None:
        rows = []
        for line in text_lines(log.text.rstrip()) if log.text.strip() else []:
            said = line.decode("utf-8-sig")
            comment = said.partition("#")[2].removeprefix(" ").rstrip()
            rows.append(Row(assemble_line(said), comment))
        if [row.record for row in rows if row.record] == records:
            return rows
    return [Row(record, "") for record in records]


def line_width() -> int:
    """How wide lines may be."""
    return min(WIDEST, shutil.get_terminal_size((WIDEST, 24)).columns)


def answer_text(answer: str) -> str:
    """An answer, a refusal with the bench's word."""
    word, _, number = answer.partition(" ")
    if word == "refused" and number.isdigit() and int(number) in REFUSAL_WORDS:
        return f"{answer} ({REFUSAL_WORDS[int(number)]})"
    return answer


def record_lines(answer: str, row: Row, answers: int) -> List[str]:
    """A record with its answer in front and its comment behind, in lines of the width."""
    mark = "*" if answer.startswith("inhibit") else " "
    front = f"{mark} {answer_text(answer):<{answers}}  {record_text(row.record, SHOWN_BYTES)}"
    if not row.comment:
        return [front]
    column = answers + RECORD_WIDTH + 5
    width = max(30, line_width() - column)
    first, *rest = textwrap.wrap(row.comment, width)
    return [f"{front:<{column - 1}} {first}", *(" " * column + line for line in rest)]


def show(rows: List[Row], answers: List[str]) -> None:
    """Print records beside their answers, with the comments between and behind them."""
    left = iter(answers)
    width = max([ANSWER_WIDTH, *(len(answer_text(answer)) for answer in answers)])
    for row in rows:
        if row.record:
            print("\n".join(record_lines(next(left), row, width)))
        else:
            print(row.comment)


def show_log(program: Path, log: Log) -> None:
    """Each record beside its answer."""
    answers = answers_of(program, log.data)
    if log.too_long:
        print(answers[0])
        return
    show(rows_of(log), answers)


# The demonstration.


def head_text(head: bytes) -> str:
    """The comment at the head of a text, up to where it speaks of the answers."""
    lines = head.partition(b"# Answers:")[0].decode().splitlines()
    return "\n".join(line[2:] for line in lines)


def demonstrate(program: Path) -> None:
    """The story of the two rowers, with the program's answers."""
    log = read_log(str(STORY))
    head, _, body = (log.text or b"").partition(b"\n\n")
    answers = answers_of(program, log.data)
    print(f"A demonstration: the log {STORY.relative_to(ROOT)}.\n\n{head_text(head)}\n\n{WORDS}\n")
    show(rows_of(log._replace(text=body)), answers)
    words = Counter(answer.split()[0] for answer in answers)
    counts = ", ".join(f"{count} {word}" for word, count in words.items())
    print(f"\n{len(answers)} records: {counts}.\n\n{NEXT}")


# The command line.


class RunlogParser(Parser):
    """A parser whose errors say what to do."""

    def error(self, message: str) -> NoReturn:
        """Say what is wrong with the command line, and end."""
        say(f"{message}; give one FILE, - for standard input, or nothing: ./runlog --help")
        sys.exit(BAD_INPUT)


def make_parser() -> Parser:
    """The parser of the command line."""
    parser = RunlogParser(prog="./runlog", description=DESCRIPTION, epilog=EPILOG)
    file_help = "a log, bytes or readable text; - is standard input"
    parser.add_argument("file", metavar="FILE", nargs="?", help=file_help)
    add_form(parser)
    parser.add_argument("--show", action="store_true", help="print each record beside its answer")
    program_help = "run this program, and build none; if not given: crates/runlog/out/runlog"
    parser.add_argument("--program", metavar="PATH", help=program_help)
    return parser


def run_log(program: Path, log: Log) -> None:
    """What the program writes, as it is; an error if that is not a line for each record."""
    output = run_program(program, log.data)
    sys.stdout.buffer.write(output)
    answers_in(program, log.data, output)


def run_file(arguments: argparse.Namespace) -> int:
    """Run the log of a file or of standard input; the exit status."""
    log = read_log(arguments.file, arguments.form)
    log = log._replace(data=log.data[: LOG_LIMIT + 1])
    program = ready_program(arguments.program, say)
    (show_log if arguments.show else run_log)(program, log)
    if not log.too_long:
        return 0
    sys.stdout.flush()
    name = "standard input" if arguments.file == STANDARD else f"'{arguments.file}'"
    say(f"{name} has {log.size}; a log has at most {LOG_LIMIT:,}: give a shorter one")
    return TOO_LONG


def run(words: List[str]) -> int:
    """Do what the command line says; the exit status."""
    arguments = make_parser().parse_args(words)
    try:
        if arguments.file is not None:
            return run_file(arguments)
        demonstrate(ready_program(arguments.program, say))
        return 0
    except Failure as failure:
        say(str(failure))
        return failure.status


if __name__ == "__main__":
    sys.exit(run_command(run, sys.argv[1:], say))
