"""Counts of what happens in logs."""

from collections import Counter
from itertools import combinations
from typing import List, Set

from model.limits import CALL_TAG, COUNT_LIMIT, DIVERT_ACTION, FILES, MAP_SORTS, Kind, Refusal
from model.limits import by_place
from model.records import Call, decode_call, decode_rule, read_frame
from model.tracker import MAPPED_SORTS, Answer, State, Tracker, broken_rules, divert_obstacle
from model.tracker import frame_refusals, gains, work_out

MANY = ("none gains", "one gains", "several gain")  # containers, by a call
GAIN_IN_BOTH = "map both, a container in both reaches gains"


class Tally:
    """Counts over any number of logs."""

    def __init__(self) -> None:
        self.records = 0
        self.words: Counter = Counter()
        self.refusals: Counter = Counter()
        self.refused_together: Counter = Counter()  # pairs of refusals of one record, by place
        self.done_kinds: Counter = Counter()
        self.rules: Counter = Counter()  # tag and action
        self.events: Counter = Counter()
        self.longest_reach = 0  # links between two ends, the shortest way
        self.longest_gift = 0  # links that an item passed in one call

    def add_log(self, records: List[bytes]) -> None:
        """Run a log in a fresh tracker and count."""
        tracker = Tracker()
        exited_mapped: Set[int] = set()
        for data in records:
            before = tracker.state
            answer, _ = tracker.answer_record(data)
            self._count_answer(answer, data, before)
            frame = read_frame(data)
            if answer.word == "refused":
                self._count_refused(answer, data, before)
            if frame is None or answer.word == "refused":
                continue
            if frame.tag != CALL_TAG:
                rule = decode_rule(frame.tag, frame.value)
                self.rules[frame.tag, rule.action] += 1
                continue
            call = decode_call(frame.value)
            if answer.word == "inhibit":
                self._count_inhibited(call, answer, before)
            else:
                self._count_done(call, before, tracker.state, exited_mapped)
                self._count_gains(call, answer, before, tracker.state)

    def _count_answer(self, answer: Answer, data: bytes, before: State) -> None:
        self.records += 1
        self.words[answer.word] += 1
        if answer.word != "refused":
            return
        self.refusals[answer.numbers[0]] += 1
        applying = by_place(frame_refusals(before, read_frame(data)))
        self.refused_together.update(combinations(applying, 2))

    def _count_refused(self, answer: Answer, data: bytes, before: State) -> None:
        """Count how the tests of mappings fail."""
        frame = read_frame(data)
        refusal = answer.numbers[0]
        tested = (Refusal.OUT_OF_RANGE, Refusal.NO_LINK, Refusal.COUNT_FULL)
        if frame is None or frame.tag != CALL_TAG or refusal not in tested:
            return
        call = decode_call(frame.value)
        if refusal == Refusal.OUT_OF_RANGE and call.kind == Kind.UNMAP and call.b not in MAP_SORTS:
            self.events["unmap: unknown sort"] += 1
        if refusal == Refusal.NO_LINK:
            others = [s for s in MAP_SORTS if before.count(call.process, call.a, s)]
            self.events["unmap: the other sort" if others else "unmap: no mapping at all"] += 1
        if refusal == Refusal.COUNT_FULL:
            self.events[f"count full, kind {call.kind}"] += 1

    def _count_inhibited(self, call: Call, answer: Answer, before: State) -> None:
        rule = before.rules[answer.numbers[0]]
        obstacle = divert_obstacle(before, call, rule)
        self.events[f"inhibit: {obstacle}"] += 1
        broken = broken_rules(work_out(before, call))
        if rule.action != DIVERT_ACTION and any(
            before.rules[number].action == DIVERT_ACTION for number in broken
        ):
            self.events["inhibit: a higher broken rule diverts"] += 1
        if len(broken) > 1:
            self.events["inhibit: several rules broken"] += 1

    def _count_done(self, call: Call, before: State, after: State, exited: Set[int]) -> None:
        self.done_kinds[call.kind] += 1
        self._count_emptied(call, before, after)
        self._count_processes(call, before, exited)
        self._count_mappings(call, before, after)
        gained = set(gains(before, after))
        if gained and call.kind != Kind.FORK:
            self._count_gift(before, gained)
        if after.links != before.links:
            for source in {source for source, _ in after.links}:
                longest = max(after.distances(source).values())
                self.longest_reach = max(self.longest_reach, longest)

    def _count_emptied(self, call: Call, before: State, after: State) -> None:
        emptied = [c for c in FILES if before.items[c] and not after.items[c]]
        if emptied:
            self.events[f"emptied by kind {call.kind}"] += 1
        if call.kind == Kind.TRUNCATE and before == after:
            container = before.descriptors[call.process, call.a]
            if before.items[container]:
                self.events["truncate kept items"] += 1

    def _count_processes(self, call: Call, before: State, exited: Set[int]) -> None:
        counts = [count for key, count in before.mappings.items() if key[0] == call.process]
        if call.kind == Kind.FORK and counts:
            self.events["fork of a mapped process"] += 1
        if call.kind == Kind.EXIT and counts:
            exited.add(call.process)
        if call.kind == Kind.START and call.process in exited:
            self.events["start again after a mapped exit"] += 1
        if call.kind in (Kind.FORK, Kind.EXIT) and max(counts, default=0) > 1:
            self.events[f"mapped twice before kind {call.kind}"] += 1
        if call.kind in (Kind.FORK, Kind.EXIT) and COUNT_LIMIT in counts:
            self.events[f"count full before kind {call.kind}"] += 1

    def _count_mappings(self, call: Call, before: State, after: State) -> None:
        """Count how mappings are made and ended beside others of the same container."""
        if call.kind in MAPPED_SORTS:
            container = before.descriptors[call.process, call.a]
            self._count_sorts("mapped", MAPPED_SORTS[call.kind], call.process, container, before)
        if call.kind == Kind.UNMAP:
            self._count_sorts("unmapped", call.b, call.process, call.a, after)
            if before.count(call.process, call.a, call.b) == COUNT_LIMIT:
                self.events["unmapped, the count full"] += 1

    def _count_sorts(self, done: str, sort: int, process: int, container: int, by: State) -> None:
        """Count which other mappings of the pair there are."""
        there = [s for s in MAP_SORTS if by.count(process, container, s)]
        same = "with the same sort" if sort in there else "without the same sort"
        other = "beside the other" if {*there} - {sort} else "alone"
        self.events[f"{done}, sort {sort}, {same}, {other}"] += 1

    def _count_gains(self, call: Call, answer: Answer, before: State, after: State) -> None:
        """Count how far calls spread: document 02, Paper 5."""
        gained = gains(before, after)
        self.events[f"{answer.word}, {MANY[min(len(gained), 2)]}"] += 1
        if call.kind == Kind.FORK:
            self.events[f"fork, {MANY[min(len(gained), 2)]}"] += 1
        if max(map(len, gained.values()), default=0) > 1:
            self.events["one container gains several items"] += 1
        if len({*gained.values()}) > 1:
            self.events["containers gain different items"] += 1
        if answer.word == "modify" and len(gains(before, work_out(before, call))) != len(gained):
            self.events["modify, the stopped write would have reached more or fewer"] += 1
        if call.kind == Kind.MAP_BOTH:
            container = before.descriptors[call.process, call.a]
            both = before.reach(call.caller) & before.reach(container)
            self.events["map both, a container in both reaches"] += bool(both)
            self.events[GAIN_IN_BOTH] += not both.isdisjoint(gained)
            self.events["map both, both ends gain"] += {call.caller, container} <= {*gained}

    def _count_gift(self, before: State, gained: Set[int]) -> None:
        """Count the links from the container given to, the nearest gainer."""
        lengths = []
        for source in gained:
            distances = before.distances(source)
            if gained <= set(distances):
                lengths.append(max(distances[container] for container in gained))
        self.longest_gift = max(self.longest_gift, *lengths, 0)

    def accepted_share(self) -> float:
        """The share of records that are not refused."""
        return 1 - self.words["refused"] / self.records

    def done_share(self) -> float:
        """The share of records that were allowed, modified or loaded."""
        return self.accepted_share() - self.words["inhibit"] / self.records
