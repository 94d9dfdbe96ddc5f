"""Logs as text, one line a record, to bytes and back.

FORMS is the grammar. A form has a word, a tag, the bytes that its value begins
with and the parts that follow them. A new sort of record is a new form there.
Bytes that no form fits are written as a raw line.
"""

import re
from typing import Callable, Dict, Iterable, List, NamedTuple, Optional, Tuple

from model import limits
from model.limits import CALL_TAG, CONFINE_TAG, FORBID_TAG, SEPARATE_TAG, Kind, MapSort, Refusal
from model.records import frame_bytes, read_frame

BYTE = range(0, 256)
RAW = "raw"
EMPTY_SET = "none"
SHOWN = 60  # characters of a word in a message

# The bench's words, in the order of the tests: document 01, the table of refusals; document 02,
# Paper 2, for 14 to 16, and Paper 4 for 17.
REFUSAL_WORDS = {
    Refusal.CUT_SHORT: "cut short",
    Refusal.UNKNOWN_TAG: "unknown tag",
    Refusal.WRONG_LENGTH: "wrong length",
    Refusal.UNKNOWN_KIND: "unknown kind",
    Refusal.OUT_OF_RANGE: "out of range",
    Refusal.DEAD_PROCESS: "dead process",
    Refusal.TAKEN: "taken",
    Refusal.MISSING: "missing",
    Refusal.DESCRIPTOR_CLOSED: "descriptor closed",
    Refusal.NAME_UNBOUND: "name unbound",
    Refusal.NO_LINK: "no link to unmap",
    Refusal.SAME_TWICE: "same twice",
    Refusal.NO_FILE: "no file",
    Refusal.COUNT_FULL: "count at 255",
    Refusal.RULES_FULL: "rules full",
    Refusal.BROKEN_ALREADY: "broken already",
}


class Unfit(Exception):
    """Text that is no record: what was found and what was expected."""

    def __init__(self, found: str, expected: str) -> None:
        short = found if len(found) <= SHOWN else found[:SHOWN] + "..."
        super().__init__(f"found {short!r}, expected {expected}")


class BadLine(Exception):
    """The same, with the number of the line."""


class NoForm(Exception):
    """Bytes that no form fits; the message says why."""


class Names(NamedTuple):
    """Words that may stand for numbers."""

    numbers: Dict[str, int]
    hint: str

    def word(self, number: int) -> str:
        """The word for a number, or its digits."""
        return next((word for word, n in self.numbers.items() if n == number), str(number))


NO_NAMES = Names({}, "")
DEVICE_NAMES = Names(
    {"network": 0, "panel": 1, "radio": 2, "port": 3}, ", or network, panel, radio or port"
)
CONTAINER_NAMES = Names(
    {
        **DEVICE_NAMES.numbers,
        **{f"process{p}": limits.process_container(p) for p in limits.PROCESSES},
    },
    ", or network, panel, radio, port, or process0 to process15",
)


class Part(NamedTuple):
    """Some bytes of a record's value and the word that says them."""

    keys: Tuple[str, ...]  # what the word may begin with; none: the bytes are not said
    shape: str  # the word as help and messages show it
    size: int
    read: Callable[[str, str], bytes]  # from the key and the rest of the word
    write: Callable[[bytes], str]
    meaning: str = ""  # what is said where it is left out


class Form(NamedTuple):
    """A sort of record."""

    word: str
    tag: int
    lead: bytes
    parts: Tuple[Part, ...]

    @property
    def length(self) -> int:
        """The length of the value."""
        return len(self.lead) + sum(part.size for part in self.parts)

    @property
    def shape(self) -> str:
        """The line as help and messages show it."""
        return " ".join([self.word, *(part.shape for part in self.parts if part.shape)])


# Numbers and sets.


def counted(count: int, word: str) -> str:
    """How many of something: 1 record, 2 records."""
    return f"{count} {word}{'' if count == 1 else 's'}"


def read_number(word: str, text: str, names: Names = NO_NAMES, allowed: range = BYTE) -> int:
    """The number that a text says; the whole word is for the message."""
    if text in names.numbers:
        return names.numbers[text]
    if re.fullmatch("[0-9]{1,3}", text) and int(text) in allowed:
        return int(text)
    raise Unfit(word, f"a number from 0 to {allowed.stop - 1}{names.hint}")


def read_run(word: str, text: str) -> Iterable[int]:
    """One container, or the containers from a low to a high number."""
    low, dash, high = text.partition("-")
    first = read_number(word, low, CONTAINER_NAMES, limits.CONTAINERS)
    last = read_number(word, high, NO_NAMES, limits.CONTAINERS) if dash else first
    if last < first:
        raise Unfit(word, f"the lower number first, as in {last}-{first}")
    return range(first, last + 1)


def set_text(
    numbers: Iterable[int], names: Names = NO_NAMES, comma: str = ",", dash: str = "-"
) -> str:
    """A set of numbers, runs of three and more as low-high."""
    runs: List[List[int]] = []
    for number in sorted(numbers):
        if runs and runs[-1][-1] == number - 1:
            runs[-1].append(number)
        else:
            runs.append([number])
    words: List[str] = []
    for run in runs:
        words += [f"{run[0]}{dash}{run[-1]}"] if len(run) > 2 else map(names.word, run)
    return comma.join(words) or EMPTY_SET


# Parts.


def number_part(key: str, meaning: str, names: Names = NO_NAMES) -> Part:
    """One byte."""
    return Part(
        (key,),
        key + meaning,
        1,
        lambda _, text: bytes([read_number(key + text, text, names)]),
        lambda data: key + names.word(data[0]),
    )


def pair_part(key: str, meaning: str) -> Part:
    """Two bytes with a comma between."""

    def read(_: str, text: str) -> bytes:
        words = text.split(",")
        if len(words) != 2:
            raise Unfit(key + text, f"two numbers with a comma between, as in {key}3,4")
        return bytes(read_number(key + text, word) for word in words)

    def write(data: bytes) -> str:
        return key + ",".join(map(str, data))

    return Part((key,), f"{key}{meaning},{meaning}", 2, read, write)


def set_part(key: str) -> Part:
    """A container set."""

    def read(_: str, text: str) -> bytes:
        runs = [] if text == EMPTY_SET else [read_run(key + text, run) for run in text.split(",")]
        members = {container for run in runs for container in run}
        return sum(1 << container for container in members).to_bytes(limits.SET_BYTES, "big")

    def write(data: bytes) -> str:
        bits = int.from_bytes(data, "big")
        return key + set_text((c for c in limits.CONTAINERS if bits >> c & 1), CONTAINER_NAMES)

    return Part((key,), f"{key}SET", limits.SET_BYTES, read, write)


def action_part() -> Part:
    """The action of a rule and its substitute."""
    inhibit, divert = "inhibit", "divert="

    def read(key: str, text: str) -> bytes:
        if key == inhibit:
            return bytes([limits.INHIBIT_ACTION, 0])
        return bytes([limits.DIVERT_ACTION, read_number(key + text, text, CONTAINER_NAMES)])

    def write(data: bytes) -> str:
        action, substitute = data
        if action == limits.DIVERT_ACTION:
            return divert + CONTAINER_NAMES.word(substitute)
        if action == limits.INHIBIT_ACTION and substitute == 0:
            return inhibit
        raise NoForm(f"action {action}, substitute {substitute}")

    return Part((inhibit, divert), f"({inhibit} | {divert}CONTAINER)", 2, read, write)


def sort_part() -> Part:
    """The sort of mapping that an unmap ends: a word, or the number of an unknown one."""
    key = "sort="
    words = Names({"read": MapSort.MAPPED_READ, "both": MapSort.MAPPED_BOTH}, "")

    def read(word: str, text: str) -> bytes:
        return bytes([words.numbers[word] if word != key else read_number(key + text, text)])

    def write(data: bytes) -> str:
        word = words.word(data[0])
        return word if word in words.numbers else key + word

    keys = (key, *words.numbers)
    shape = f"({' | '.join(words.numbers)} | {key}SORT)"
    return Part(keys, shape, 1, read, write, ", the sort of mapping that ends")


def unused_part() -> Part:
    """A byte that must be 0 and is not said."""

    def write(data: bytes) -> str:
        if data[0]:
            raise NoForm(f"an unused field of {data[0]}")
        return ""

    return Part((), "", 1, lambda key, text: bytes(1), write)


# Forms.

NAME = number_part("name=", "NAME")
FROM_NAME = number_part("from=", "NAME")
TO_NAME = number_part("to=", "NAME")
DESCRIPTOR = number_part("descriptor=", "DESCRIPTOR")
FROM_DESCRIPTOR = number_part("from=", "DESCRIPTOR")
TO_DESCRIPTOR = number_part("to=", "DESCRIPTOR")
DESCRIPTOR_PAIR = pair_part("descriptors=", "DESCRIPTOR")
DEVICE = number_part("device=", "DEVICE", DEVICE_NAMES)
CONTAINER = number_part("container=", "CONTAINER", CONTAINER_NAMES)
ITEM = number_part("item=", "ITEM")
ITEM_PAIR = pair_part("items=", "ITEM")
PROCESS = number_part("", "PROCESS")
CHILD = number_part("child=", "PROCESS")
UNUSED = unused_part()
SORT = sort_part()
ACTION = action_part()


def call_form(word: str, kind: int, process: Part, *fields: Part) -> Form:
    """The form of a call; the bytes after the fields are unused."""
    free = limits.VALUE_LENGTHS[CALL_TAG] - 1 - sum(part.size for part in (process, *fields))
    return Form(word, CALL_TAG, bytes([kind]), (process, *fields, *[UNUSED] * free))


FORMS = (
    call_form("start", Kind.START, PROCESS),
    call_form("open", Kind.OPEN, PROCESS, NAME, DESCRIPTOR),
    call_form("create", Kind.CREATE, PROCESS, NAME, DESCRIPTOR, CONTAINER),
    call_form("pipe", Kind.PIPE, PROCESS, DESCRIPTOR_PAIR, CONTAINER),
    call_form("device", Kind.DEVICE, PROCESS, DESCRIPTOR, DEVICE),
    call_form("dup", Kind.DUP, PROCESS, FROM_DESCRIPTOR, TO_DESCRIPTOR),
    call_form("close", Kind.CLOSE, PROCESS, DESCRIPTOR),
    call_form("read", Kind.READ, PROCESS, DESCRIPTOR),
    call_form("write", Kind.WRITE, PROCESS, DESCRIPTOR),
    call_form("truncate", Kind.TRUNCATE, PROCESS, DESCRIPTOR),
    call_form("map-read", Kind.MAP_READ, PROCESS, DESCRIPTOR),
    call_form("map-both", Kind.MAP_BOTH, PROCESS, DESCRIPTOR),
    call_form("unmap", Kind.UNMAP, PROCESS, CONTAINER, SORT),
    call_form("unlink", Kind.UNLINK, PROCESS, NAME),
    call_form("rename", Kind.RENAME, PROCESS, FROM_NAME, TO_NAME),
    call_form("link", Kind.LINK, PROCESS, FROM_NAME, TO_NAME),
    call_form("fork", Kind.FORK, PROCESS, CHILD),
    call_form("exit", Kind.EXIT, PROCESS),
    call_form("label", Kind.LABEL, UNUSED, CONTAINER, ITEM),
    Form("forbid", FORBID_TAG, b"", (ITEM, set_part("in="), ACTION)),
    Form("separate", SEPARATE_TAG, b"", (ITEM_PAIR, ACTION)),
    Form("confine", CONFINE_TAG, b"", (ITEM, set_part("to="), ACTION)),
)
FORM_OF_WORD = {form.word: form for form in FORMS}
RAW_SHAPE = f"{RAW} HEX ..."


# Text to bytes.


def begins(word: str, key: str) -> bool:
    """Whether a word is said with this key; the empty key is for words without '='."""
    if key == "":
        return "=" not in word
    return word.startswith(key) if key.endswith("=") else word == key


def read_parts(form: Form, words: List[str]) -> bytes:
    """The bytes after the lead; words come in any order, and the empty key fits none of another."""
    said: Dict[int, bytes] = {}
    for word in words:
        places = [
            (index, key)
            for index, part in enumerate(form.parts)
            for key in part.keys
            if begins(word, key) and index not in said
        ]
        if not places:
            raise Unfit(word, f"only: {form.shape}")
        index, key = next((place for place in places if place[1]), places[0])
        said[index] = form.parts[index].read(key, word[len(key) :])
    for index, part in enumerate(form.parts):
        if not part.keys:
            said[index] = part.read("", "")
        if index not in said:
            whole = " ".join([form.word, *words])
            raise Unfit(whole, f"{part.shape} too{part.meaning}: {form.shape}")
    return b"".join(said[index] for index in range(len(form.parts)))


def read_raw(words: List[str]) -> bytes:
    """The bytes of a raw line."""
    if not words:
        raise Unfit(RAW, f"hex bytes after it, as in {RAW} 10 0005 0100000000")
    for word in words:
        if not re.fullmatch("([0-9A-Fa-f]{2})+", word):
            raise Unfit(word, "hex digits, two a byte")
    return bytes.fromhex("".join(words))


def assemble_line(line: str) -> bytes:
    """The bytes of a line; none for a comment or a blank line."""
    words = line.partition("#")[0].split()
    if not words:
        return b""
    if words[0] == RAW:
        return read_raw(words[1:])
    if words[0] not in FORM_OF_WORD:
        raise Unfit(words[0], f"one of: {', '.join([*FORM_OF_WORD, RAW])}")
    form = FORM_OF_WORD[words[0]]
    return frame_bytes(form.tag, form.lead + read_parts(form, words[1:]))


def text_lines(text: bytes) -> List[bytes]:
    """The lines of a text, whatever they end with."""
    return re.split(b"\r\n|\n|\r", text)


def assemble(text: bytes) -> bytes:
    """The log that a text in UTF-8 says."""
    records = []
    for number, line in enumerate(text_lines(text), 1):
        try:
            records.append(assemble_line(line.decode("utf-8-sig" if number == 1 else "utf-8")))
        except UnicodeDecodeError as error:
            found = f"byte {line[error.start]:02x} hex"
            raise BadLine(f"line {number}: found {found}, expected text in UTF-8") from error
        except Unfit as error:
            raise BadLine(f"line {number}: {error}") from error
    return b"".join(records)


# Bytes to text.


def split_records(log: bytes) -> List[bytes]:
    """The records of a log, each whole; the last may be cut short."""
    records = []
    position = 0
    while position < len(log):
        frame = read_frame(log, position)
        end = frame.end if frame else len(log)
        records.append(log[position:end])
        position = end
    return records


def find_form(tag: int, value: bytes) -> Form:
    """The form of a tag and a value."""
    forms = [form for form in FORMS if form.tag == tag]
    if not forms:
        raise NoForm(f"unknown tag {tag:02x} hex")
    if len(value) != forms[0].length:
        raise NoForm(f"length {len(value)}, not {forms[0].length}")
    for form in forms:
        if value.startswith(form.lead):
            return form
    raise NoForm(f"unknown kind {value[0]}")


def form_text(record: bytes) -> str:
    """A record in the words of its form."""
    frame = read_frame(record)
    if frame is None:
        raise NoForm("cut short")
    form = find_form(frame.tag, frame.value)
    words = [form.word]
    position = len(form.lead)
    for part in form.parts:
        data = frame.value[position : position + part.size]
        try:
            words.append(part.write(data))
        except NoForm as reason:
            raise NoForm(f"{form.word} with {reason}") from reason
        position += part.size
    return " ".join(filter(None, words))


def raw_text(record: bytes, reason: str, shown: Optional[int]) -> str:
    """A record as a raw line: tag, length, value, and why it is raw."""
    tag, length, value = record[:1], record[1:3], record[3:]
    dots = "..." if shown is not None and len(value) > shown else ""
    digits = f"{tag.hex()} {length.hex()} {value[:shown].hex()}".rstrip()
    return f"{RAW} {digits}{dots}  # {reason}"


def record_text(record: bytes, shown: Optional[int] = None) -> str:
    """A record as a line; of a raw value only the first bytes, if a number is given."""
    try:
        return form_text(record)
    except NoForm as reason:
        return raw_text(record, str(reason), shown)


def disassemble(log: bytes) -> bytes:
    """A text that gives the log again."""
    return "".join(record_text(record) + "\n" for record in split_records(log)).encode()
