"""Programs with a planted fault, made from the model: the shortcuts that document 01 names.

Some answer as before a paper of document 02, or follow one wrongly.
"""

import compileall
import shutil
import sys
from pathlib import Path
from typing import Dict

from model import ROOT

# The lines that replace a part of the model.
FAULTS: Dict[str, str] = {
    "follows one link": """
def reach(state, container):
    return {c for c, links in state.distances(container).items() if links <= 1}
tracker.State.reach = reach
""",
    "follows three links": """
def reach(state, container):
    return {c for c, links in state.distances(container).items() if links <= 3}
tracker.State.reach = reach
""",
    "empties a truncated file that is mapped": """
def truncate(state, call):
    state.items[state.descriptors[call.process, call.a]] = frozenset()
tracker.EFFECTS[Kind.TRUNCATE] = truncate
""",
    "tests rules against the written container only": """
right_work_out = tracker.work_out
right_broken_rules = tracker.broken_rules
def judge_written(state, call):
    after = right_work_out(state, call)
    if call.kind == Kind.WRITE:
        seen = state.copy()
        written = state.descriptors[call.process, call.a]
        seen.items[written] = after.items[written]
        if not right_broken_rules(seen):
            return tracker.allowed(state, after), after
    return right_judge(state, call)
right_judge = tracker.judge
tracker.judge = judge_written
""",
    "reports the last broken rule": """
right_broken_rules = tracker.broken_rules
tracker.broken_rules = lambda state: right_broken_rules(state)[::-1]
""",
    "diverts without judging": """
right_obstacle = tracker.divert_obstacle
def divert_obstacle(state, call, rule):
    found = right_obstacle(state, call, rule)
    return None if found == "diverted write breaks a rule" else found
tracker.divert_obstacle = divert_obstacle
""",
    "leaves a dead process's links": """
right_exit = tracker.EFFECTS[Kind.EXIT]
def exit_process(state, call):
    mappings = state.mappings
    right_exit(state, call)
    state.mappings = mappings
tracker.EFFECTS[Kind.EXIT] = exit_process
""",
    "lays the links of a map both that is inhibited": """
right_judge = tracker.judge
def judge_linked(state, call):
    answer, after = right_judge(state, call)
    if call.kind == Kind.MAP_BOTH and answer.word == "inhibit":
        after = state.copy()
        container = state.descriptors[call.process, call.a]
        after.mappings[call.process, container, MapSort.MAPPED_BOTH] = 1
    return answer, after
tracker.judge = judge_linked
""",
    "answers 8 whatever is missing": """
tracker.LACKED = dict.fromkeys(tracker.LACKED, Refusal.MISSING)
""",
    "answers what is missing before what is taken": """
right_first = tracker.first_refusal
def first_refusal(numbers):
    missing = numbers & set(tracker.LACKED.values())
    later = numbers - {Refusal.TAKEN} if missing else numbers
    return right_first(later)
tracker.first_refusal = first_refusal
""",
    "ends every mapping at the first unmap": """
def unmap(state, call):
    for sort in MapSort:
        state.mappings.pop((call.process, call.a, sort), None)
tracker.EFFECTS[Kind.UNMAP] = unmap
""",
    "keeps one count for both sorts": """
right_map = tracker._raise_count
def raise_count(state, call):
    right_map(state, call)
    container = state.descriptors[call.process, call.a]
    keys = [(call.process, container, sort) for sort in MapSort]
    if keys[1] in state.mappings:
        state.mappings[keys[1]] += state.mappings.pop(keys[0], 0)
def unmap(state, call):
    keys = [(call.process, call.a, sort) for sort in MapSort]
    right_unmap(state, call._replace(b=int(keys[1] in state.mappings)))
def is_there(state, call, thing, number):
    sorts = MapSort if thing == tracker.MAPPING else [call.b]
    return any(right_there(state, call._replace(b=sort), thing, number) for sort in sorts)
right_unmap, right_there = tracker.EFFECTS[Kind.UNMAP], tracker.is_there
tracker._raise_count, tracker.is_there = raise_count, is_there
tracker.EFFECTS[Kind.UNMAP] = unmap
""",
    "counts mappings on from 255 to 0": """
right_map = tracker._raise_count
def raise_count(state, call):
    right_map(state, call)
    state.mappings = {key: count for key, count in state.mappings.items() if count < 256}
tracker._raise_count, tracker.COUNT_LIMIT = raise_count, 256
""",
    "counts a two-way mapping as one for reading too": """
right_map = tracker._raise_count
def raise_count(state, call):
    right_map(state, call)
    if call.kind == Kind.MAP_BOTH:
        key = (call.process, state.descriptors[call.process, call.a], MapSort.MAPPED_READ)
        state.mappings[key] = min(255, state.mappings.get(key, 0) + 1)
tracker._raise_count = raise_count
""",
    "forks without mappings": """
right_fork = tracker.EFFECTS[Kind.FORK]
def fork(state, call):
    mappings = dict(state.mappings)
    right_fork(state, call)
    state.mappings = mappings
tracker.EFFECTS[Kind.FORK] = fork
""",
    "forks with one mapping of each": """
right_fork = tracker.EFFECTS[Kind.FORK]
def fork(state, call):
    right_fork(state, call)
    for key in state.mappings:
        if key[0] == call.a:
            state.mappings[key] = 1
tracker.EFFECTS[Kind.FORK] = fork
""",
    "looks for the other sort to unmap": """
right_there = tracker.is_there
def is_there(state, call, thing, number):
    return right_there(state, call._replace(b=1 - call.b), thing, number)
def unmap(state, call):
    right_unmap(state, call._replace(b=1 - call.b))
right_unmap = tracker.EFFECTS[Kind.UNMAP]
tracker.is_there = is_there
tracker.EFFECTS[Kind.UNMAP] = unmap
""",
    "unmaps where the other sort is mapped": """
right_there, right_unmap = tracker.is_there, tracker.EFFECTS[Kind.UNMAP]
def is_there(state, call, thing, number):
    sorts = MapSort if thing == tracker.MAPPING else [call.b]
    return any(right_there(state, call._replace(b=sort), thing, number) for sort in sorts)
def unmap(state, call):
    if (call.process, call.a, call.b) in state.mappings:
        right_unmap(state, call)
tracker.is_there = is_there
tracker.EFFECTS[Kind.UNMAP] = unmap
""",
    "answers 17 before 5": """
right_first = tracker.first_refusal
def first_refusal(numbers):
    full = Refusal.COUNT_FULL
    return full if full in numbers else right_first(numbers)
tracker.first_refusal = first_refusal
""",
    "answers as before Paper 5": """
tracker.allowed = lambda before, after: tracker.Answer("allow")
tracker.modified = lambda n, rule, *states: tracker.Answer("modify", (n, rule.substitute))
""",
    "tells a number in inhibit": """
right_judge = tracker.judge
def judge(state, call):
    answer, after = right_judge(state, call)
    if answer.word == "inhibit":
        answer = answer._replace(numbers=(*answer.numbers, 0))
    return answer, after
tracker.judge = judge
""",
}

# Programs that tell another number of the containers that gained: document 02, Paper 5. What would
# be counted twice in map both is no fault of a log: what lies in both reaches gains nothing there.
TELLING = """
right_judge = tracker.judge
def judge(state, call):
    answer, after = right_judge(state, call)
    if answer.word in ("allow", "modify"):
        told = count(state, call, answer, after)
        answer = answer._replace(numbers=(*answer.numbers[:-1], int(told)))
    return answer, after
tracker.judge = judge
def targets(state, call, answer):
    there = state.descriptors.get((call.process, call.a))
    if answer.word == "modify":
        return [answer.numbers[1]]
    if call.kind in (Kind.READ, Kind.MAP_READ):
        return [call.caller]
    known = {Kind.WRITE: [there], Kind.MAP_BOTH: [call.caller, there], Kind.LABEL: [call.a]}
    return known.get(call.kind, [])
def gained(state, after):
    return tracker.gains(state, after)
def count(state, call, answer, after):
    return """
TOLD: Dict[str, str] = {
    "counts items": "sum(map(len, gained(state, after).values()))",
    "counts the whole reach": "len(set().union(*map(state.reach, targets(state, call, answer))))",
    "counts what changed": "sum(state.items[c] != after.items[c] for c in state.items)",
    "counts one container at most": "bool(gained(state, after))",
    "leaves out the receiver": "len({*gained(state, after)} - {*targets(state, call, answer)})",
    "counts what held nothing before": "sum(not state.items[c] for c in gained(state, after))",
    "tells 0 for a fork": "call.kind != Kind.FORK and len(gained(state, after))",
    "tells 1 for every fork": "call.kind == Kind.FORK or len(gained(state, after))",
    "tells the gain of a stopped write": "len(gained(state, tracker.work_out(state, call)))",
    "tells 0 for a diverted write": "answer.word == 'allow' and len(gained(state, after))",
}
FAULTS.update({name: f"{TELLING}{told}\n" for name, told in TOLD.items()})

PROGRAM = """#!{python} -S
import sys
sys.path.insert(0, {folder!r})
from model import tracker
from model.limits import LOG_LIMIT, Kind, MapSort, Refusal
{fault}
log = sys.stdin.buffer.read(LOG_LIMIT + 1)
if len(log) > LOG_LIMIT:
    print("log too long")
else:
    print("".join(f"{{answer}}\\n" for answer in tracker.Tracker().run_log(log)), end="")
"""


def copy_model(folder: Path) -> None:
    """A copy of the model, compiled once, so that a program over it starts quickly."""
    if not folder.is_dir():
        folder.mkdir()
        (folder / "__init__.py").touch()
        for name in ("limits.py", "records.py", "tracker.py"):
            shutil.copy(ROOT / "model" / name, folder)
        compileall.compile_dir(str(folder), quiet=1)


def make_program(path: Path, fault: str = "") -> str:
    """Write a program that answers as the model, but for a fault."""
    copy_model(path.parent / "model")
    path.write_text(PROGRAM.format(python=sys.executable, folder=str(path.parent), fault=fault))
    path.chmod(0o755)
    return str(path)
