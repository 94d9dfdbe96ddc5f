"""What single records cost: calls, rules, refusals and stopped writes; and how it grows."""

from typing import Dict, List, NamedTuple, Tuple

from bench.counting import row, rule_of, say
from bench.logcases import CONFINING, DIVERTED, INHIBITED, MAPPINGS, PARTED, PARTED_DIVERTED
from bench.logcases import PARTED_INHIBITED, PLACES, RULE_TABLES, SEEDS, LogCase
from bench.logcases import call_cases, gaining_write, growing_log, other_cases, write_case
from bench.programs import Pair, both, costs, log_cost
from bench.states import D_FIRST, GIVER, KIND_NAMES, N_FIRST, link_of_chain, mapped_only
from model.limits import FILES, PROCESSES, Kind, process_container
from model.records import Call, encode

STATES = ("small", "worst")
RULE_COUNTS = (0, 32)
PAIR = ("Program", "Baseline", "Ratio")
MIX = "mixed"  # the mix of the log that grows
LOG_RULES = 8
# Writes that are judged by 32 rules, and how often each is worked out.
JUDGED = {INHIBITED: 1, DIVERTED: 2, PARTED: 1, PARTED_INHIBITED: 1, PARTED_DIVERTED: 2}


class Costs(NamedTuple):
    """Instructions of single records."""

    calls: Dict[Tuple[str, int, int], Pair]  # by state, number of rules and kind
    mappings: Dict[str, Pair]  # calls on mappings, by name
    judging: Dict[Tuple[str, str], Pair]  # a write with 32 rules, by state and table of rules
    others: Dict[Tuple[str, str], Pair]  # by state and name
    writes: Dict[str, Pair]  # the write of the stopped ones, with no rules
    growth: Dict[str, Dict[Tuple[str, int], Pair]]  # by what grows; record and size

    def named(self) -> Dict[str, Pair]:
        """Every record measured, by what it is."""
        named = {
            f"{KIND_NAMES[kind]}, {state} state, {rules} rules": pair
            for (state, rules, kind), pair in self.calls.items()
        }
        named.update({f"{name}, small state": pair for name, pair in self.mappings.items()})
        for (state, name), pair in self.others.items():
            named[f"{name}, {state} state"] = pair
        for (state, name), pair in self.judging.items():
            named[f"write, {state} state, 32 rules: {name}"] = pair
        return named


# How a record grows with the state.


def crowd(size: int) -> List[Call]:
    """So many live processes, each with a descriptor to one file."""
    calls = [Call(Kind.START, process) for process in range(size)]
    calls.append(Call(Kind.CREATE, 0, N_FIRST, D_FIRST, FILES[0]))
    return calls + [Call(Kind.OPEN, process, N_FIRST, D_FIRST) for process in range(1, size)]


def crowd_cases(size: int) -> Dict[str, LogCase]:
    """Records among so many processes."""
    before = [*crowd(size), Call(Kind.LABEL, 0, process_container(0), 0)]
    measured = {
        "write": Call(Kind.WRITE, 0, D_FIRST),
        "create": Call(Kind.CREATE, 0, 1, 1, FILES[1]),
        "exit": Call(Kind.EXIT, 0),
    }
    return {name: LogCase([], before, encode(call), "allow") for name, call in measured.items()}


def chain_cases(links: int) -> Dict[str, LogCase]:
    """Labels of the first of a chain of so many links: process, file, process and so on."""
    processes = PROCESSES[: -links // 2 - 2 : -1]
    before = [Call(Kind.START, process) for process in processes]
    for giver, receiver in zip(processes, processes[1:]):
        before += link_of_chain(giver, receiver)
    label = Call(Kind.LABEL, 0, process_container(GIVER), 0)
    return {
        "label, a new item": LogCase([], before, encode(label), "allow"),
        "label, the same again": LogCase([], [*before, label], encode(label), "allow"),
    }


def table_cases(size: int) -> Dict[str, LogCase]:
    """Records of the small state with so many rules."""
    rules = RULE_TABLES["the three in turn"][:size]
    return {
        "start": call_cases(rules, "small", Kind.START)[0],
        "write, an item gained": gaining_write(rules),
    }


def mapped_cases(size: int) -> Dict[str, LogCase]:
    """Records of a process that maps so many files both ways, with no descriptor and no name."""
    before = [Call(Kind.START, 0), Call(Kind.LABEL, 0, process_container(0), 0)]
    for file in FILES[:size]:
        before += mapped_only(0, file, Kind.MAP_BOTH)
    measured = {"fork": Call(Kind.FORK, 0, 1), "exit": Call(Kind.EXIT, 0)}
    return {name: LogCase([], before, encode(call), "allow") for name, call in measured.items()}


GROWING = {
    "Live processes": (crowd_cases, (1, 2, 4, 8, 16)),
    "Links of a chain": (chain_cases, (0, 2, 4, 8, 16, 30)),
    "Rules": (table_cases, (0, 1, 2, 4, 8, 16, 32)),
    "Files mapped": (mapped_cases, (0, 1, 2, 4, 8, 16, 32)),
}
LOG_LENGTH = "Records of a log"
LENGTHS = (500, 1000, 2000, 4000)


def measured_growth() -> Dict[str, Dict[Tuple[str, int], Pair]]:
    """Records in states of rising size, and the mean of a record in logs of rising length."""
    growth = {
        what: {
            (name, size): costs([case]) for size in sizes for name, case in cases(size).items()
        }
        for what, (cases, sizes) in GROWING.items()
    }
    growth[LOG_LENGTH] = {}
    for length in LENGTHS:
        log = growing_log(SEEDS[0], MIX, LOG_RULES, LENGTHS[-1], length)
        total = both(lambda program: log_cost(program, log.data, log.answers))
        growth[LOG_LENGTH]["mean of a record", length] = Pair(*(round(n / length) for n in total))
    return growth


def measured_costs() -> Costs:
    """Measure everything about single records; some minutes."""
    found = Costs({}, {}, {}, {}, {}, {})
    for kind, name in KIND_NAMES.items():
        for state in STATES:
            for rules in ([], CONFINING):
                found.calls[state, len(rules), kind] = costs(call_cases(rules, state, kind))
        say(f"measured {name} in both programs")
    found.mappings.update({name: costs([case]) for name, case in MAPPINGS.items()})
    say("measured mappings")
    for state, places in PLACES.items():
        for table, rules in RULE_TABLES.items():
            found.judging[state, table] = costs(call_cases(rules, state, Kind.WRITE))
        for name in other_cases(places[0]):
            found.others[state, name] = costs([other_cases(place)[name] for place in places])
        found.writes[state] = costs([write_case(place) for place in places])
        say(f"measured rules, refusals and stopped writes in the {state} state")
    found.growth.update(measured_growth())
    say("measured growing states and logs")
    return found


# Tables.


def call_table(found: Costs, state: str) -> List[str]:
    """A row for each kind of call."""
    heads = [f"{head}, {rules} rules" for rules in RULE_COUNTS for head in PAIR]
    lines = [row("Kind", "Call", *heads), rule_of("rl" + 6 * "r")]
    for kind, name in KIND_NAMES.items():
        cells = [cell for rules in RULE_COUNTS for cell in found.calls[state, rules, kind].cells]
        lines.append(row(kind, name, *cells))
    return lines


def mapping_table(found: Costs) -> List[str]:
    """A row for each call on mappings."""
    lines = [row("Call", *PAIR), rule_of("lrrr")]
    return lines + [row(name, *pair.cells) for name, pair in found.mappings.items()]


def less(one: Pair, other: Pair, times: int = 1) -> Pair:
    """The first less so many times the other."""
    return Pair(one.proved - times * other.proved, one.baseline - times * other.baseline)


def beside_writes(found: Costs, state: str, name: str) -> Pair:
    """A judged write beside the same writes with no rules: one, or two if it is diverted."""
    return less(found.others[state, name], found.writes[state], JUDGED[name])


def judging_of(found: Costs, state: str, table: str) -> Pair:
    """What a full table adds to the write of the judging table."""
    return less(found.judging[state, table], found.calls[state, 0, Kind.WRITE])


def judging_table(found: Costs) -> List[str]:
    """What each full table of rules adds to a write."""
    heads = [f"{name}, {state} state" for state in STATES for name in PAIR[:2]]
    lines = [row("32 rules", *heads), rule_of("l" + 4 * "r")]
    for table in RULE_TABLES:
        lines.append(row(table, *(n for state in STATES for n in judging_of(found, state, table))))
    return lines


def other_table(found: Costs) -> List[str]:
    """A row for each record that is not an allowed call."""
    heads = [f"{head}, {state} state" for state in STATES for head in PAIR]
    lines = [row("Record", "Answer", "Rules before it", *heads), rule_of("ll" + 7 * "r")]
    for name, case in other_cases(PLACES["small"][0]).items():
        cells = [cell for state in STATES for cell in found.others[state, name].cells]
        answer = "modify" if case.answer.startswith("modify") else case.answer
        lines.append(row(name, answer, len(case.rules), *cells))
    return lines


def growth_table(what: str, figures: Dict[Tuple[str, int], Pair]) -> List[str]:
    """A row for each size, with each record beside the baseline."""
    names = list(dict.fromkeys(name for name, _ in figures))
    sizes = list(dict.fromkeys(size for _, size in figures))
    heads = [f"{name}: {head.lower()}" for name in names for head in PAIR]
    lines = [row(what, *heads), rule_of("r" + len(heads) * "r")]
    for size in sizes:
        lines.append(row(size, *(cell for name in names for cell in figures[name, size].cells)))
    return lines


def growth_lines(found: Costs) -> List[str]:
    """A table for each thing that grows."""
    lines: List[str] = []
    for what, figures in found.growth.items():
        lines += ["", *growth_table(what, figures)]
    return lines[1:]


def more_or_fewer(number: int) -> str:
    """How many instructions something takes beside something else."""
    return f"{number:,} more" if number >= 0 else f"{-number:,} fewer"


def stopped_text(found: Costs) -> str:
    """The stopped writes beside the same writes with no rules, which give what they are to give."""
    inhibited, diverted = (
        [more_or_fewer(beside_writes(found, state, name).proved) for state in STATES]
        for name in (INHIBITED, DIVERTED)
    )
    return (
        "Beside the same write with 0 rules, an inhibited write takes "
        f"{' (small state) and '.join(inhibited)} (worst state) instructions in the program; beside "
        f"two of them, a diverted write takes {' and '.join(diverted)}."
    )


def judgings(found: Costs) -> Dict[str, Pair]:
    """What judging takes, by record."""
    judged = {}
    for state in STATES:
        for kind, name in KIND_NAMES.items():
            ruled, plain = (found.calls[state, rules, kind] for rules in (32, 0))
            judged[f"{name}, {state} state"] = less(ruled, plain)
        for table in RULE_TABLES:
            judged[f"write, {state} state, {table}"] = judging_of(found, state, table)
        for name in JUDGED:
            judged[f"{name}, {state} state"] = beside_writes(found, state, name)
    return judged
