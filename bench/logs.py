"""The log program beside the baseline: the parts of docs/BENCH.md, and the goals."""

from typing import Dict, List, NamedTuple, Tuple

from bench.costs import STATES, Costs, call_table, growth_lines, judging_table, judgings
from bench.costs import mapping_table, measured_costs, other_table, stopped_text
from bench.counting import Report, prose, row, rule_of, say
from bench.machine import Machine, box_table, box_text, measured_machine, own_heap, own_stack
from bench.machine import size_table, wall_table
from bench.mixed import Mixed, largest_table, mean_table, measured_mixed, profile_table
from bench.programs import BASELINE, PROVED, Pair, build_baseline, most

MOST_MEAN = 550  # instructions of a record, over the random logs
MOST_RECORD = 10_000  # instructions of any record found
MOST_JUDGING = 4000  # instructions, beside the record's own
GOAL_MIX = "mixed"


class Figures(NamedTuple):
    """All that is measured."""

    costs: Costs
    mixed: Mixed
    machine: Machine

    def largest(self) -> Dict[str, Tuple[int, str]]:
        """The largest record of each program, and which it is."""
        named = self.costs.named()
        found = {}
        for place, program in enumerate((PROVED, BASELINE)):
            records = [(pair[place], name) for name, pair in named.items()]
            records += [
                (one.cost, f"{one.text}, mix {one.mix}") for one in self.mixed.largest[program.name]
            ]
            found[program.name] = max(records)
        return found

    def largest_pair(self) -> Pair:
        """The largest record of each program."""
        found = self.largest()
        return Pair(found[PROVED.name][0], found[BASELINE.name][0])


class Goal(NamedTuple):
    """A limit on a figure of the program."""

    name: str
    figure: int
    limit: int

    @property
    def met(self) -> bool:
        """Whether the figure is at most the limit."""
        return self.figure <= self.limit

    @property
    def words(self) -> str:
        """The limit, and whether it is met."""
        return f"at most {self.limit:,}: {'met' if self.met else '**missed**'}"


def goals(figures: Figures) -> List[Goal]:
    """What the program must reach."""
    judged = judgings(figures.costs)
    dearest = max(judged, key=lambda name: judged[name].proved)
    count, name = figures.largest()[PROVED.name]
    return [
        Goal("the mean of a record, all random logs", figures.mixed.all.mean.proved, MOST_MEAN),
        Goal(
            f"the mean of a record, random logs of the mix {GOAL_MIX}",
            figures.mixed.of_mix(GOAL_MIX).mean.proved,
            MOST_MEAN,
        ),
        Goal(f"the largest record ({name})", count, MOST_RECORD),
        Goal(f"judging by 32 rules ({dearest})", judged[dearest].proved, MOST_JUDGING - 1),
    ]


def broken_goals(found: List[Goal]) -> List[str]:
    """The goals that are missed, in words."""
    return [
        f"{goal.name}: {goal.figure:,} instructions, more than {goal.limit:,}"
        for goal in found
        if not goal.met
    ]


# The parts of the document.


def headline(figures: Figures) -> List[str]:
    """The table at the head of the document."""
    machine, mixed = figures.machine, figures.mixed
    words = [goal.words for goal in goals(figures)] + 3 * [""]
    stack = Pair(*(own_stack(machine, p) + own_heap(machine, p) for p in (PROVED, BASELINE)))
    pairs = {
        "Instructions of a record, mean of all random logs": mixed.all.mean,
        f"Instructions of a record, mean of the mix {GOAL_MIX}": mixed.of_mix(GOAL_MIX).mean,
        "Instructions of the largest record found": figures.largest_pair(),
        "Instructions of judging by 32 rules, most": most(list(judgings(figures.costs).values())),
        "Bytes of stack and heap, peak, without input and answers": stack,
        "Bytes of state": machine.state,
        "Bytes of own code": machine.code,
    }
    lines = [row("", "Goal", "Program", "Baseline", "Ratio"), rule_of("llrrr")]
    lines += [row(name, goal, *pair.cells) for (name, pair), goal in zip(pairs.items(), words)]
    wall = span([ratio.own for ratio in machine.wall.values()], 1)
    model = span([ratio.model for ratio in machine.wall.values()], 0)
    lines.append(row("Wall time of a log, start taken off", "", "", "", wall))
    said = f"The model in Python takes {model} times the program's wall time."
    return [*lines, "", *prose(f"{said} {largest_text(figures)}")]


def span(values: List[float], digits: int) -> str:
    """Least and most in words."""
    ends = dict.fromkeys(f"{value:,.{digits}f}" for value in (min(values), max(values)))
    return " to ".join(ends)


def largest_text(figures: Figures) -> str:
    """Which records are the largest."""
    found = figures.largest()
    said = [f"in the {name}: {record} ({count:,})" for name, (count, record) in found.items()]
    return f"The largest record found is {'; '.join(said)}."


def record_lines(figures: Figures) -> List[str]:
    """The tables of single records."""
    lines: List[str] = []
    for state in STATES:
        lines += [f"Calls that are allowed, {state} state:", ""]
        lines += [*call_table(figures.costs, state), ""]
    return [
        *lines,
        "Mappings of one file, small state, 0 rules:",
        "",
        *mapping_table(figures.costs),
        "",
        "What 32 rules add to a write, by the rules' tags:",
        "",
        *judging_table(figures.costs),
        "",
        "Other records:",
        "",
        *other_table(figures.costs),
        "",
        *prose(stopped_text(figures.costs)),
    ]


def profile_lines(figures: Figures) -> List[str]:
    """The functions of both programs."""
    lines: List[str] = []
    for name, profile in figures.mixed.profiles.items():
        lines += ["", f"The {name}:", "", *profile_table(profile)]
    return lines[1:]


def box_part(figures: Figures) -> List[str]:
    """The figures beside the box."""
    means = {
        "mean of all random logs": figures.mixed.all.mean,
        "largest mean of a sort of random logs": figures.mixed.dearest,
    }
    table = box_table(figures.machine, means, figures.largest_pair())
    return [*prose(box_text()), "", *table]


def report() -> Report:
    """Measure, and check the goals."""
    build_baseline()
    say("built the baseline")
    figures = Figures(measured_costs(), measured_mixed(), measured_machine())
    parts = {
        "headline": headline(figures),
        "records": record_lines(figures),
        "growth": growth_lines(figures.costs),
        "random logs": mean_table(figures.mixed),
        "largest records": largest_table(figures.mixed),
        "functions": profile_lines(figures),
        "time and sizes": [*wall_table(figures.machine), "", *size_table(figures.machine)],
        "box": box_part(figures),
    }
    return Report(parts, broken_goals(goals(figures)))
