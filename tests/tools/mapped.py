"""What is said of mappings in words, beside a ledger of them that goes by the records alone."""

import re
from collections import Counter
from typing import Dict, Iterator, List, NamedTuple, Optional, Set, Tuple

from model.limits import Kind, process_container
from model.records import Call
from tools.explain import Explanation
from tools.provenance import Step

Pair = Tuple[int, int]  # a process and a container

SORT_WORDS = ("for reading", "both ways")
COUNTS = {"once": 1, "twice": 2}
PAIR = re.compile(r"process (\d+) (?:still |no longer )?maps \w+ (\d+)")
SORT = re.compile(r"(for reading|both ways) (once|twice|\d+ times): (.*?)(?=, and both ways|$)")
RUN = re.compile(r"(this record|\d+)(?: to (\d+))?(?: \((\d+) of them\))?")


class Row(NamedTuple):
    """A mapping, and the record that made it."""

    process: int
    container: int
    sort: int
    record: int


class Ledger:
    """The mappings after each record of a log. Of those of one sort the latest ends first."""

    def __init__(self) -> None:
        self.rows: List[Row] = []
        self.ended: Optional[Row] = None  # by the last record, if that is an unmap
        self.changed: Set[Pair] = set()  # by the last record

    def follow(self, step: Step) -> None:
        """Take in the next record."""
        rows, self.ended = Counter(self.rows), None
        if isinstance(step.record, Call) and step.answer.word == "allow":
            self._done(step, step.record)
        now = Counter(self.rows)
        self.changed = {row[:2] for row in [*(rows - now), *(now - rows)]}

    def _done(self, step: Step, call: Call) -> None:
        own = [row for row in self.rows if row.process == call.process]
        if call.kind in (Kind.MAP_READ, Kind.MAP_BOTH):
            container = step.before.state.descriptors[call.process, call.a]
            sort = 1 if call.kind == Kind.MAP_BOTH else 0
            self.rows.append(Row(call.process, container, sort, step.number))
        elif call.kind == Kind.UNMAP:
            self.ended = [row for row in own if row[1:3] == (call.a, call.b)][-1]
            self.rows.reverse()
            self.rows.remove(self.ended)
            self.rows.reverse()
        elif call.kind == Kind.FORK:
            self.rows += [row._replace(process=call.a, record=step.number) for row in own]
        elif call.kind == Kind.EXIT:
            self.rows = [row for row in self.rows if row.process != call.process]

    def records(self) -> Dict[Tuple[int, int, int], Tuple[int, ...]]:
        """The records that made the mappings of each pair and sort, the latest last."""
        found: Dict[Tuple[int, int, int], Tuple[int, ...]] = {}
        for row in self.rows:
            found[row[:3]] = (*found.get(row[:3], ()), row.record)
        return found


def read_records(text: str, count: int, present: int) -> Counter:
    """The records that a row of them names, each as often as it made a mapping."""
    found: Counter = Counter()
    for first, last, many in RUN.findall(text):
        start = present if first == "this record" else int(first)
        found.update({record: int(many or 1) for record in range(start, int(last or start) + 1)})
    return Counter({record: count for record in found}) if len(found) == 1 else found


def read_line(line: str, present: int) -> Dict[int, Counter]:
    """The records of each sort that a line on a pair's mappings names."""
    found = {}
    for words, often, records in SORT.findall(line):
        count = COUNTS.get(often) or int(often.split()[0])
        found[SORT_WORDS.index(words)] = read_records(records, count, present)
    return found


def line_fault(line: str, ledger: Ledger, present: int) -> str:
    """What is wrong with a line on the mappings of a pair."""
    pair = tuple(map(int, PAIR.search(line).groups()))
    wanted = {key[2]: Counter(made) for key, made in ledger.records().items() if key[:2] == pair}
    if ("no longer" in line) == bool(wanted) or read_line(line, present) != wanted:
        return f"'{line}' for {wanted}"
    return ""


def change_faults(step: Step, said: Explanation, ledger: Ledger) -> Iterator[str]:
    """Whether the changes of mappings are said, each with the records that made those left."""
    lines = [line for line in said.changes if PAIR.search(line)]
    pairs = {tuple(map(int, PAIR.search(line).groups())) for line in lines}
    if pairs != ledger.changed or len(lines) != len(pairs):
        yield f"{lines} for {ledger.changed}"
    yield from filter(None, (line_fault(line, ledger, step.number) for line in lines))
    ended = [line for line in said.changes if line.startswith("a mapping ")]
    row = ledger.ended
    wanted = [f"a mapping {SORT_WORDS[row.sort]} ended: that of record {row.record}"] if row else []
    if ended != wanted:
        yield f"{ended} for {wanted}"


def stay_faults(step: Step, said: Explanation, ledger: Ledger) -> Iterator[str]:
    """Whether the links that an unmap leaves are said to stay."""
    lines = [line for line in said.changes if line.startswith("link stays: ")]
    row = ledger.ended
    sorts = {one.sort for one in ledger.rows if row and one[:2] == row[:2]}
    if len(lines) != bool(sorts) + (1 in sorts):
        yield f"{lines} for the sorts {sorts}"
    if row and (1 in sorts) != ((process_container(row[0]), row[1]) in step.after.state.links):
        yield f"links {step.after.state.links} for the sorts {sorts}"


def refusal_faults(step: Step, said: Explanation, ledger: Ledger) -> Iterator[str]:
    """Whether a call refused for its mappings is told of those that there are."""
    call, number = step.record, step.answer.numbers[0]
    if number not in (16, 17):
        return
    container = call.a if number == 16 else step.before.state.descriptors[call.process, call.a]
    lines = [text for _, text in said.why if PAIR.search(text) and SORT.search(text)]
    there = any(row[:2] == (call.process, container) for row in ledger.rows)
    if len(lines) != there:
        yield f"{lines} for process {call.process} and container {container}"
    yield from filter(None, (line_fault(line, ledger, 0) for line in lines))


def mapping_faults(step: Step, said: Explanation, ledger: Ledger) -> Iterator[str]:
    """What is wrong with what is said of mappings; the ledger follows the step."""
    ledger.follow(step)
    if step.after.made != ledger.records():
        yield f"record {step.number}: the records {step.after.made}"
    counts = {key: len(made) for key, made in ledger.records().items()}
    if step.after.state.mappings != counts:
        yield f"record {step.number}: the counts {step.after.state.mappings}"
    faults = [*change_faults(step, said, ledger), *stay_faults(step, said, ledger)]
    if step.answer.word == "refused":
        faults += refusal_faults(step, said, ledger)
    yield from (f"record {step.number}: {fault}" for fault in faults)
