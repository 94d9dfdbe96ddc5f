"""Random logs and step lists that follow the state they lead to.

The same seed, number and mix give the same log. In a long log one count of mappings climbs
to its limit.
"""

from typing import List, NamedTuple, Optional

from model.choices import Choices
from model.contents import MemoryStep, RecordStep, Step
from model.faults import FaultMaker
from model.limits import CONTAINERS, Kind
from model.plans import Climber, Planner
from model.proposals import Proposer
from model.records import encode
from model.tracker import Tracker

# How often a sound call is of each kind.
KIND_WEIGHTS = [
    (Kind.START, 5),
    (Kind.OPEN, 8),
    (Kind.CREATE, 6),
    (Kind.PIPE, 3),
    (Kind.DEVICE, 5),
    (Kind.DUP, 4),
    (Kind.CLOSE, 6),
    (Kind.READ, 10),
    (Kind.WRITE, 10),
    (Kind.TRUNCATE, 5),
    (Kind.MAP_READ, 5),
    (Kind.MAP_BOTH, 5),
    (Kind.UNMAP, 5),
    (Kind.UNLINK, 3),
    (Kind.RENAME, 4),
    (Kind.LINK, 3),
    (Kind.FORK, 2),
    (Kind.EXIT, 2),
    (Kind.LABEL, 5),
]


LONG_LOG = 400  # records or steps from which on a count of mappings climbs to its limit
CLIMBS = 0.96  # how often the next record is one of the climb, while there is one


class Mix(NamedTuple):
    """How often each sort of record comes, and how often a log ends cut short."""

    call: float
    rule: float
    plan: float
    fill: float
    fault: float
    mutated: float
    noise: float
    cut: float


MIXES = {
    "deep": Mix(call=60, rule=3, plan=8, fill=0.1, fault=9, mutated=3, noise=1, cut=0.1),
    "mixed": Mix(call=50, rule=4, plan=6, fill=0.4, fault=45, mutated=10, noise=5, cut=0.3),
    "hostile": Mix(call=25, rule=3, plan=3, fill=0.3, fault=55, mutated=15, noise=25, cut=0.6),
}


class Generator:
    """Makes one record after the other and keeps the state they lead to."""

    def __init__(self, seed: int, mix: str, length: int = 0) -> None:
        self.mix = MIXES[mix]
        self.choices = Choices(seed)
        self.tracker = Tracker()
        self.proposer = Proposer(self.choices, self.tracker)
        self.planner = Planner(self.choices, self.proposer)
        self.faults = FaultMaker(self.choices, self.proposer)
        self.climber = Climber(self.choices, self.proposer) if length >= LONG_LOG else None
        self.planned: List[bytes] = []

    def record(self) -> bytes:
        """The next record, whole; the state follows it."""
        data = None
        while data is None:
            data = self._proposal()
        self.tracker.answer_record(data)
        return data

    def cut_record(self) -> bytes:
        """A record that runs past the end."""
        return self.faults.cut(self._sound_record())

    def _proposal(self) -> Optional[bytes]:
        climb = self.climber.calls() if self.climber and self.choices.chance(CLIMBS) else []
        if climb:
            first, *rest = map(encode, climb)
            self.planned[:0] = rest
            return first
        if self.planned and self.choices.chance(0.85):
            return self.planned.pop(0)
        sort = self.choices.weighted(list(zip(Mix._fields[:-1], self.mix)))
        if sort in ("plan", "fill"):
            plan = self.planner.plan() if sort == "plan" else self.planner.fill_rules()
            self.planned += [encode(record) for record in plan]
            return None
        if sort == "fault":
            return self.faults.fault()
        if sort == "noise":
            return self.faults.noise()
        if sort == "rule":
            rule = self.proposer.rule()
            return encode(rule) if rule else None
        sound = self._sound_record()
        return self.faults.mutated(sound) if sort == "mutated" else sound

    def _sound_record(self) -> bytes:
        call = None
        while call is None:
            call = self.proposer.call(self.choices.weighted(KIND_WEIGHTS))
        return encode(call)


def generate_records(seed: int, count: int, mix: str) -> List[bytes]:
    """The records of a random log; the last may be cut short."""
    generator = Generator(seed, mix, count)
    records = [generator.record() for _ in range(count)]
    if records and generator.choices.chance(generator.mix.cut):
        records[-1] = generator.cut_record()
    return records


def generate_steps(seed: int, count: int, mix: str) -> List[Step]:
    """A random list of records and memory steps over several logs."""
    generator = Generator(seed, mix, count)
    choices = generator.choices
    steps: List[Step] = []
    while len(steps) < count:
        if choices.chance(0.35):
            share = choices.pick([0.05, 0.5, 1.0])
            steps.append(MemoryStep(tuple(choices.some(CONTAINERS, share))))
        elif choices.chance(0.02):
            steps.append(RecordStep(generator.cut_record()))
        else:
            steps.append(RecordStep(generator.record()))
    return steps
