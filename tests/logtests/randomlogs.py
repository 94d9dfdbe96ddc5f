"""Random logs with rule tables of every size, random bytes, and counts of what they got."""

import itertools
from collections import Counter
from typing import Callable, List, NamedTuple, Optional, Tuple

from model.choices import Choices
from model.generate import MIXES, Generator
from model.limits import CALL_TAG, CONTAINERS, DEVICES, ITEMS, LOG_LIMIT, RULE_LIMIT, VALUE_LENGTHS
from model.limits import Kind, process_container
from model.logtext import split_records
from model.records import Call, Rule, encode, forbid, frame_bytes, read_frame
from model.tally import MANY
from model.tracker import forbids, frame_refusals
from tests.logtests.compare import difference, model_lines, program_output

# Answers show only what rules judge. So rules are also used to see who holds an item: one against
# a single holder is refused as broken already, and one against all others is loaded.
RECORDS = 180  # of a random log, before its tail
LONG_RECORDS = 480  # of a log in which a count of mappings climbs to its limit
LONG_EVERY = 20  # logs, one of which is long
AIMED = 0.08  # how often a write that breaks a loaded rule is planned
PROBED = 0.06  # how often a rule asks for a holder
TAIL = 30  # records at the end that ask for holders, about so many
TAIL_LABELS = 3  # new items, whose holders are what links lead to
TAIL_HOLDERS = 5  # single holders of an item
LONGEST_BYTES = 2000  # of a string of random bytes
LARGEST_RECORDS = 2000  # of the largest log, before they come again
CALL_LENGTH = len(frame_bytes(CALL_TAG, bytes(VALUE_LENGTHS[CALL_TAG])))


class LogGenerator(Generator):
    """Records of every sort; `first` rules come first, and no more are loaded than `most`.

    If it is to be long, a count of mappings climbs to its limit.
    """

    def __init__(self, seed: int, mix: str, first: int, most: int, length: int = 0) -> None:
        super().__init__(seed, mix, length)
        self.first = first
        self.most = most

    def _proposal(self) -> Optional[bytes]:
        if len(self.tracker.state.rules) < self.first:
            rule = self.proposer.rule()
            return encode(rule) if rule else None
        if not self.planned and self.choices.chance(AIMED):
            self.planned += map(encode, self._aimed_write())
        if self.choices.chance(PROBED):
            return self._held_probe()
        data = super()._proposal()
        return None if data and self._one_too_many(data) else data

    def _aimed_write(self) -> List[Call]:
        """Calls that lead to a write which breaks a loaded rule, for a rule of one item.

        The item gets over links to where the rule forbids it, or else to a device.
        """
        state = self.proposer.state
        rules = [rule for rule in state.rules if len(rule.items) == 1]
        live = self.proposer.live()
        if not rules or not live:
            return []
        rule = self.choices.pick(rules)
        far = self._far_descriptors(rule)
        if far:
            process, descriptor = self.choices.pick(far)
            label = Call(Kind.LABEL, 0, process_container(process), rule.items[0])
            return [label, Call(Kind.WRITE, process, descriptor)]
        process = self.choices.pick(live)
        closed = self.proposer.closed(process)
        forbidden = [c for c in DEVICES if forbids(rule, c, rule.items[0])]
        if not closed or not forbidden:
            return []
        descriptor = self.choices.near(closed)
        return [
            Call(Kind.LABEL, 0, process_container(process), rule.items[0]),
            Call(Kind.DEVICE, process, descriptor, self.choices.pick(forbidden)),
            Call(Kind.WRITE, process, descriptor),
        ]

    def _far_descriptors(self, rule: Rule) -> List[Tuple[int, int]]:
        """Processes and descriptors by which an item gets over links to where a rule forbids it.

        The rule is broken neither in the process nor in the container that is written to.
        """
        state, item = self.proposer.state, rule.items[0]

        def breaks(container: int) -> bool:
            return any(forbids(rule, c, item) for c in state.reach(container))

        givers = {source for source, _ in state.links}
        far = {c for c in givers if not forbids(rule, c, item) and breaks(c)}
        keys = sorted(key for key, target in state.descriptors.items() if target in far)
        return [key for key in keys if not breaks(process_container(key[0]))]

    def _held_probe(self) -> Optional[bytes]:
        """A rule against one container's item: refused only because the item is there."""
        items = self.tracker.state.items
        holding = sorted(container for container in items if items[container])
        if not holding:
            return None
        container = self.choices.pick(holding)
        return encode(forbid(self.choices.pick(sorted(items[container])), [container]))

    def tail(self) -> List[bytes]:
        """Labels of new items, then rules that show who holds them, and some other items."""
        state = self.tracker.state
        held = sorted(set().union(*state.items.values()))
        new = [item for item in ITEMS if item not in held]
        used = sorted(state.used())
        labels = [Call(Kind.LABEL, 0, self.choices.pick(used), item) for item in new[:TAIL_LABELS]]
        records = [self._answered(encode(label)) for label in labels]
        shown = [*new[:TAIL_LABELS], *held]
        while shown and len(records) < TAIL:
            records += self._holder_probes(shown.pop(0))
        return records

    def _holder_probes(self, item: int) -> List[bytes]:
        """Rules against some holders of an item, one at a time, and one against all others."""
        holders = self.tracker.state.holders(item)
        some = {self.choices.pick(holders) for _ in range(TAIL_HOLDERS)} if holders else set()
        others = [container for container in CONTAINERS if container not in holders]
        probes = [encode(forbid(item, [holder])) for holder in sorted(some)]
        probes.append(encode(forbid(item, others)))
        return [self._answered(probe) for probe in probes if not self._one_too_many(probe)]

    def _answered(self, record: bytes) -> bytes:
        """The record, once the state has followed it."""
        self.tracker.answer_record(record)
        return record

    def _one_too_many(self, data: bytes) -> bool:
        """Whether a rule would be loaded beyond the most that this log loads."""
        state = self.tracker.state
        if data[0] == CALL_TAG or not self.most <= len(state.rules) < RULE_LIMIT:
            return False
        return not frame_refusals(state, read_frame(data))


def log_generator(seed: int, length: int = 0) -> LogGenerator:
    """The generator of a seed: mix and rules go by the seed too."""
    choices = Choices(seed)
    most = choices.weighted([(RULE_LIMIT, 4), (choices.below(RULE_LIMIT + 1), 4), (0, 1)])
    first = choices.pick([0, choices.below(most + 1)])
    return LogGenerator(seed, list(MIXES)[seed % len(MIXES)], first, most, length)


def random_log(seed: int) -> bytes:
    """The log of a seed; the last record may be cut short."""
    count = RECORDS if seed % LONG_EVERY else LONG_RECORDS
    generator = log_generator(seed, count)
    records = [generator.record() for _ in range(count)]
    if len(generator.tracker.state.rules) < RULE_LIMIT:
        records += generator.tail()
    if generator.choices.chance(generator.mix.cut):
        records.append(generator.cut_record())
    return b"".join(records)


# The largest logs.


def padded(log: bytes) -> bytes:
    """A log with a record of unknown tag behind it, so that it has the most bytes."""
    return log + frame_bytes(0, bytes(LOG_LIMIT - len(log) - len(frame_bytes(0, b""))))


def largest_log(seed: int) -> bytes:
    """A full rule table, then records of every sort, the same again and again."""
    generator = LogGenerator(seed, "deep", RULE_LIMIT, RULE_LIMIT)
    records = [generator.record() for _ in range(LARGEST_RECORDS)]
    log = b""
    for record in itertools.cycle(records):
        if len(log) + len(record) > LOG_LIMIT - len(frame_bytes(0, b"")):
            return padded(log)
        log += record
    return log


def largest_calls(seed: int) -> bytes:
    """Calls alone, as many as a log may have."""
    generator = LogGenerator(seed, "deep", 0, 0)
    calls: List[bytes] = []
    while len(calls) < LOG_LIMIT // CALL_LENGTH:
        record = generator.record()
        if record[0] == CALL_TAG and len(record) == CALL_LENGTH:
            calls.append(record)
    return b"".join(calls)


# Random bytes.


def noise(choices: Choices) -> bytes:
    """Bytes without any form."""
    return choices.data(choices.below(LONGEST_BYTES + 1))


def short_records(choices: Choices) -> bytes:
    """Known and other tags with short lengths; values of that length, or of another."""
    data = b""
    for _ in range(choices.below(120)):
        tag = choices.pick([*VALUE_LENGTHS, choices.below(256)])
        length = choices.pick([VALUE_LENGTHS.get(tag, 0), choices.below(16)])
        size = length if choices.chance(0.9) else choices.below(16)
        data += bytes([tag, 0, length]) + choices.data(size)
    return data


def small_values(choices: Choices) -> bytes:
    """Records of the right length whose values are small numbers."""
    data = b""
    for _ in range(choices.below(200)):
        tag = choices.pick([CALL_TAG, CALL_TAG, *VALUE_LENGTHS])
        value = bytes(choices.below(choices.pick([2, 4, 32])) for _ in range(VALUE_LENGTHS[tag]))
        data += frame_bytes(tag, value)
    return data


def edited_log(choices: Choices) -> bytes:
    """A random log with bytes changed, put in or left out."""
    data = bytearray(random_log(choices.below(1000))[:LONGEST_BYTES])
    for _ in range(choices.pick([1, 2, 5, 20])):
        at = choices.below(len(data))
        new = choices.data(choices.pick([0, 1, 1, 2]))
        data[at : at + choices.pick([0, 1, 1, 2])] = new
    return bytes(data)


def random_bytes(seed: int) -> bytes:
    """The string of a seed, at most so many bytes."""
    makers: List[Callable[[Choices], bytes]] = [noise, short_records, small_values, edited_log]
    return makers[seed % len(makers)](Choices(seed))[:LONGEST_BYTES]


# What a log got.


class Result(NamedTuple):
    """The comparison of one log."""

    seed: int
    fault: Optional[str]
    counts: Counter


def many(answer: str) -> str:
    """How many containers gained by a call, in words."""
    return MANY[min(int(answer.split()[-1]), 2)]


def counts_of(log: bytes, answers: List[str]) -> Counter:
    """What the records got: words, refusals, kinds done, sorts unmapped, gains, rules by tag."""
    counts: Counter = Counter(records=len(answers))
    for record, answer in zip(split_records(log), answers):
        word = answer.split()[0]
        counts[word] += 1
        if word == "refused":
            counts[answer] += 1
        elif word == "rule":
            counts[f"rule of tag {record[0]:02x}"] += 1
        elif word == "allow":
            counts[f"kind {record[3]}"] += 1
            if record[3] == Kind.UNMAP:
                counts[f"unmap of sort {record[6]}"] += 1
            if record[3] == Kind.FORK:
                counts[f"fork, {many(answer)}"] += 1
        if word in ("allow", "modify"):
            counts[f"{word}, {many(answer)}"] += 1
    counts[f"table of {counts['rule']}"] += 1
    return counts


def compared_log(program: str, seed: int) -> Result:
    """The program beside the model on the random log of a seed."""
    log = random_log(seed)
    wanted = model_lines(log)
    return Result(seed, difference(program_output(program, log), wanted), counts_of(log, wanted))


def compared_bytes(program: str, seed: int) -> Result:
    """The same on random bytes."""
    data = random_bytes(seed)
    wanted = model_lines(data)
    fault = difference(program_output(program, data), wanted)
    return Result(seed, fault, Counter(answer.split()[0] for answer in wanted))
