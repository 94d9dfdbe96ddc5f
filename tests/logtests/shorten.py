"""A log on which a program differs from the model, cut down to the few records that matter."""

import time
from itertools import zip_longest
from typing import Callable, Iterable, Iterator, List, Optional, Tuple

from model.limits import CALL_TAG, FILES, HEADER_LENGTH, KINDS, LOG_LIMIT, PROCESS_CONTAINERS
from model.limits import SEPARATE_TAG, VALUE_LENGTHS
from model.logtext import record_text, split_records
from model.proposals import ROLES
from model.records import read_frame
from tests.logtests.compare import TOO_LONG, fault_in, lines_of, model_lines, program_output

Records = List[bytes]
SECONDS = 60  # for cutting down one log
SHOWN_BYTES = 300  # of a raw value
NOTHING = "(no line)"


class Shortener:
    """Keeps the shortest and simplest log found so far on which the program differs."""

    def __init__(self, log: bytes, fails: Callable[[bytes], bool]) -> None:
        self.records = split_records(log)
        self.fails = fails
        self.until = time.monotonic() + SECONDS

    def run(self) -> bytes:
        """Take records out and make numbers smaller, until no record goes or time is up."""
        count = len(self.records) + 1
        while len(self.records) < count and time.monotonic() < self.until:
            count = len(self.records)
            self._keep(accepted(self.records))
            self._take_out()
            self._simplify()
        return b"".join(self.records)

    def _keep(self, records: Records) -> bool:
        """Take over the records if the program still differs on them."""
        if time.monotonic() > self.until or not self.fails(b"".join(records)):
            return False
        self.records = records
        return True

    def _take_out(self) -> None:
        """Leave out runs of records, from the end, in halving sizes."""
        size = len(self.records)
        while size >= 1:
            end = len(self.records)
            while end > 0:
                start = max(0, end - size)
                self._keep(self.records[:start] + self.records[end:])
                end = start
            size //= 2

    def _simplify(self) -> None:
        """Renumber what fields name, then clear single bytes."""
        for role in ("process", "file", "name", "descriptor", "item"):
            for old in sorted(numbers_of(self.records, role), reverse=True):
                for new in smaller(role, old, numbers_of(self.records, role)):
                    if self._keep([renumbered(r, role, old, new) for r in self.records]):
                        break
        for place in range(len(self.records)):
            self._first_kept(place, single_sets(self.records[place]))
            for at in range(HEADER_LENGTH, len(self.records[place])):
                self._first_kept(place, zero_at(self.records[place], at))

    def _first_kept(self, place: int, changed: Iterable[bytes]) -> None:
        """Put the first record on which the program still differs in place of one."""
        for record in changed:
            if self._keep([*self.records[:place], record, *self.records[place + 1 :]]):
                return


def accepted(records: Records) -> Records:
    """The records that the model doesn't refuse or inhibit, and the last one."""
    answers = model_lines(b"".join(records))
    done = [not answer.startswith(("refused", "inhibit")) for answer in answers]
    return [record for record, kept in zip(records, done[:-1]) if kept] + records[-1:]


# What the bytes of a record name.


def frame_is_right(record: bytes) -> bool:
    """Whether a record has a known tag and its length."""
    frame = read_frame(record)
    return frame is not None and VALUE_LENGTHS.get(frame.tag) == len(frame.value)


def roles_of(record: bytes) -> List[Tuple[int, str]]:
    """The places of the bytes that name something, each with what it names."""
    if not frame_is_right(record):
        return []
    last = len(record) - 1
    if record[0] == SEPARATE_TAG:
        return [(HEADER_LENGTH, "item"), (HEADER_LENGTH + 1, "item"), (last, "container")]
    if record[0] != CALL_TAG:
        return [(HEADER_LENGTH, "item"), (last, "container")]
    kind = record[HEADER_LENGTH]
    if kind not in KINDS:
        return []
    words = [role.split()[-1] for role in ROLES[kind]]
    return [(HEADER_LENGTH + 1 + index, word) for index, word in enumerate(words)]


def as_named(role: str, word: str, number: int) -> Optional[int]:
    """The number of a process, file, .. that a byte of some sort names, or None."""
    if word == role:
        return number
    if word == "container" and role == "file" and number in FILES:
        return number
    if word == "container" and role == "process" and number in PROCESS_CONTAINERS:
        return number - PROCESS_CONTAINERS.start
    return None


def numbers_of(records: Records, role: str) -> List[int]:
    """The numbers that have a role in some record's fields."""
    found = set()
    for record in records:
        for place, word in roles_of(record):
            number = as_named(role, word, record[place])
            if number is not None:
                found.add(number)
    return sorted(found)


def smaller(role: str, old: int, taken: Iterable[int]) -> List[int]:
    """Smaller numbers that are not taken, the smallest first, a few of them."""
    start = FILES.start if role == "file" else 0
    return [number for number in range(start, old) if number not in taken][:2]


def renumbered(record: bytes, role: str, old: int, new: int) -> bytes:
    """The record with a number of one role in place of another; sets go along."""
    changed = bytearray(record)
    for place, word in roles_of(record):
        if as_named(role, word, record[place]) == old:
            changed[place] += new - old
    if role in ("process", "file") and frame_is_right(record) and has_set(record):
        shift = PROCESS_CONTAINERS.start if role == "process" else 0
        changed[HEADER_LENGTH + 1 : -2] = exchanged(record, old + shift, new + shift)
    return bytes(changed)


def has_set(record: bytes) -> bool:
    """Whether a record of the right length has a container set."""
    return record[0] not in (CALL_TAG, SEPARATE_TAG)


def exchanged(record: bytes, old: int, new: int) -> bytes:
    """The container set of a record with two containers exchanged."""
    data = record[HEADER_LENGTH + 1 : -2]
    bits = int.from_bytes(data, "big")
    if old < 8 * len(data) and (bits >> old ^ bits >> new) & 1:
        bits ^= 1 << old | 1 << new
    return bits.to_bytes(len(data), "big")


def single_sets(record: bytes) -> Iterator[bytes]:
    """The rule with one container of its set alone."""
    if not frame_is_right(record) or not has_set(record):
        return
    front, data, back = record[: HEADER_LENGTH + 1], record[HEADER_LENGTH + 1 : -2], record[-2:]
    bits = int.from_bytes(data, "big")
    members = [member for member in range(8 * len(data)) if bits >> member & 1]
    if len(members) > 1:
        yield from (front + (1 << m).to_bytes(len(data), "big") + back for m in members)


def zero_at(record: bytes, place: int) -> Iterator[bytes]:
    """The record with 0 in place of a byte."""
    if record[place]:
        yield record[:place] + bytes(1) + record[place + 1 :]


# The report.


def cut_after_difference(program: str, log: bytes) -> bytes:
    """The log up to the record whose answer differs first."""
    lines = zip(lines_of(program_output(program, log)), model_lines(log))
    same = next((at for at, (one, two) in enumerate(lines) if one != two), None)
    short = log if same is None else b"".join(split_records(log)[: same + 1])
    return short if fault_in(program, short) else log


def shortened(program: str, log: bytes) -> bytes:
    """A short log on which the program differs from the model."""
    if len(log) > LOG_LIMIT:
        return log
    start = cut_after_difference(program, log)
    return Shortener(start, lambda data: fault_in(program, data) is not None).run()


def report(program: str, log: bytes) -> str:
    """A log as readable text, a line a record, with what program and model say of each."""
    records = split_records(log)
    got, wanted = lines_of(program_output(program, log)), model_lines(log)
    if wanted == [TOO_LONG]:
        return f"program: {got}, model: {wanted}"
    texts = [record_text(record, SHOWN_BYTES) for record in records]
    width = max(map(len, texts), default=0)
    lines = []
    for text, one, two in zip_longest(texts, got, wanted, fillvalue=""):
        said = two if one == two else f"program: {one or NOTHING}; model: {two or NOTHING}"
        lines.append(f"    {text:<{width}}  # {said}".rstrip())
    return "\n".join(lines)


def short_report(program: str, log: bytes) -> str:
    """The report on the log cut down."""
    short = shortened(program, log)
    counts = f"{len(split_records(short))} of {len(split_records(log))} records"
    return f"cut down to {counts}:\n{report(program, short)}"
