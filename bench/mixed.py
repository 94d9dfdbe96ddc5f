"""Random logs: the mean of a record, the largest record, and the functions that take the most."""

from collections import Counter
from typing import Dict, List, NamedTuple, Tuple

from bench.counting import instructions_by_function, row, rule_of, say, traced_costs
from bench.logcases import CONFINING, DIVERTED, MIX_NAMES, PLACES, RECORDS, SEEDS, TABLE_SIZES
from bench.logcases import LogCase, call_cases, mixed_log, stopped_cases
from bench.programs import BASELINE, IDLE, PROVED, Pair, Program, both, counted, log_before
from bench.programs import log_cost
from model.limits import Kind
from model.logtext import record_text, split_records

TRACED_RULES = TABLE_SIZES[-1]  # of the logs whose every record is looked at
TRACED_TOP = 3  # records of a traced log that are measured exactly
SHOWN_BYTES = 12  # of a raw value
PROFILED = "mixed"
SHOWN_SHARE = 0.005  # of a function
COPYING = "`memcpy` of the C library"


class Mean(NamedTuple):
    """Random logs of one mix and one number of rules."""

    total: Pair  # instructions
    refused: int
    records: int

    @property
    def mean(self) -> Pair:
        """Of a record."""
        return Pair(*(round(count / self.records) for count in self.total))


def joined(means: List[Mean]) -> Mean:
    """Several as one."""
    total = Pair(sum(m.total.proved for m in means), sum(m.total.baseline for m in means))
    return Mean(total, sum(m.refused for m in means), sum(m.records for m in means))


def measured_mean(mix: str, rules: int) -> Mean:
    """The logs of all seeds."""
    means = []
    for seed in SEEDS:
        log = mixed_log(seed, mix, rules)
        total = both(lambda program: log_cost(program, log.data, log.answers))
        means.append(Mean(total, log.refused, len(log.answers)))
    return joined(means)


class Largest(NamedTuple):
    """A record of a random log that takes many instructions."""

    mix: str
    number: int  # from 1
    text: str
    answer: str
    cost: int


def largest_of(program: Program, mix: str) -> List[Largest]:
    """The largest records of a traced log, each measured by the difference of two runs."""
    log = mixed_log(SEEDS[0], mix, TRACED_RULES)
    records = [IDLE, *split_records(log.data)]
    about = traced_costs(program.path, b"".join(records), len(records))
    places = sorted(range(1, len(about)), key=lambda k: -about[k])[:TRACED_TOP]
    found = []
    for k in places:
        cost = prefix_cost(program, records, k)
        text = record_text(records[k], SHOWN_BYTES)
        found.append(Largest(mix, k, text, log.answers[k - 1], cost))
    return found


def prefix_cost(program: Program, records: List[bytes], k: int) -> int:
    """A log that ends with a record less the log that ends before it."""
    ends = (b"".join(records[:end]) for end in (k + 1, k))
    with_record, without = (counted(program, log)[0] for log in ends)
    return with_record - without


# Functions.


def parts_of(program: Program, log: bytes, start: bytes) -> Counter:
    """The instructions by function that a log takes more than the start of it."""
    counts = instructions_by_function(program.path, log)
    counts.subtract(instructions_by_function(program.path, start))
    parts: Counter = Counter()
    for function, count in counts.items():
        copies = function.startswith(("__memcpy", "__memmove"))
        parts[COPYING if copies else f"`{function}`"] += count
    return parts


def record_parts(program: Program, case: LogCase) -> Counter:
    """The instructions of a record by function."""
    return parts_of(program, log_before(case) + case.record, log_before(case))


Profile = Dict[str, Tuple[Counter, int]]  # instructions by function and how many records


def profile_of(program: Program) -> Profile:
    """A random log and some records by function."""
    log = mixed_log(SEEDS[0], PROFILED, TRACED_RULES)
    starts = [call_cases(rules, "worst", Kind.START)[0] for rules in ([], CONFINING)]
    diverted = stopped_cases(PLACES["worst"][0])[DIVERTED]
    return {
        f"Random log, {PROFILED}, {TRACED_RULES} rules": (
            parts_of(program, IDLE + log.data, IDLE),
            RECORDS,
        ),
        "Start, 0 rules": (record_parts(program, starts[0]), 1),
        "Start, 32 rules": (record_parts(program, starts[1]), 1),
        "Diverted write, 32 rules": (record_parts(program, diverted), 1),
    }


class Mixed(NamedTuple):
    """All that is measured on random logs."""

    means: Dict[Tuple[str, int], Mean]  # by mix and number of rules
    largest: Dict[str, List[Largest]]  # by program
    profiles: Dict[str, Profile]  # by program

    def of_mix(self, mix: str) -> Mean:
        """All logs of a mix."""
        return joined([mean for (name, _), mean in self.means.items() if name == mix])

    @property
    def all(self) -> Mean:
        """All logs."""
        return joined(list(self.means.values()))

    @property
    def dearest(self) -> Pair:
        """The largest mean of one mix and one number of rules, by program."""
        means = [mean.mean for mean in self.means.values()]
        return Pair(max(m.proved for m in means), max(m.baseline for m in means))


def measured_mixed() -> Mixed:
    """Measure everything on random logs; some minutes."""
    means = {}
    for mix in MIX_NAMES:
        for rules in TABLE_SIZES:
            means[mix, rules] = measured_mean(mix, rules)
        say(f"measured random logs of the mix {mix}")
    largest: Dict[str, List[Largest]] = {}
    for program in (PROVED, BASELINE):
        largest[program.name] = [one for mix in MIX_NAMES for one in largest_of(program, mix)]
        say(f"traced every record of {len(MIX_NAMES)} random logs in the {program.name}")
    profiles = {program.name: profile_of(program) for program in (PROVED, BASELINE)}
    say("measured functions")
    return Mixed(means, largest, profiles)


# Tables.


def mean_row(mix: str, rules: object, mean: Mean) -> str:
    """The mean of a record over some logs."""
    share = round(100 * mean.refused / mean.records)
    return row(mix, rules, mean.records, share, *mean.mean.cells)


def mean_table(found: Mixed) -> List[str]:
    """A row for each mix and number of rules, for each mix, and for all."""
    heads = ("Mix", "Rules", "Records", "Refused, of 100", "Program", "Baseline", "Ratio")
    lines = [row(*heads), rule_of("lrrrrrr")]
    lines += [mean_row(mix, rules, mean) for (mix, rules), mean in found.means.items()]
    lines += [mean_row(mix, "all", found.of_mix(mix)) for mix in MIX_NAMES]
    return lines + [mean_row("all", "all", found.all)]


def largest_table(found: Mixed) -> List[str]:
    """The largest records of random logs."""
    heads = ("Program", "Mix", "Record", "Number", "Answer", "Instructions")
    lines = [row(*heads), rule_of("lllrlr")]
    for name, records in found.largest.items():
        for one in sorted(records, key=lambda one: -one.cost)[:TRACED_TOP]:
            lines.append(row(name, one.mix, f"`{one.text}`", one.number, one.answer, one.cost))
    return lines


def profile_table(profile: Profile) -> List[str]:
    """Instructions of a record by function, and shares of the random log."""
    whole, _ = next(iter(profile.values()))
    total = sum(whole.values())
    shown = [
        name
        for name, _ in whole.most_common()
        if any(counts[name] > SHOWN_SHARE * sum(counts.values()) for counts, _ in profile.values())
    ]
    heads = ("Function", "Share of the random log", *profile)
    lines = [row(*heads), rule_of("lr" + "r" * len(profile))]
    for name in shown:
        counts = (round(parts[name] / records) for parts, records in profile.values())
        lines.append(row(name, f"{100 * whole[name] / total:.1f}%", *counts))
    return lines
