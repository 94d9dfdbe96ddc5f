"""The runs of document 01, those of Paper 1 of document 02, and the effects of single calls.

Run B is that of Paper 5: `allow` and `modify` end with how many containers gained an item. Its last
line but one is that of Paper 2. Run H is that of Paper 4: its unmap has b = 1.
"""

from typing import Dict, List, Set, Tuple, Union

from model.checks import Checks, Options
from model.limits import CONTAINERS, Kind, MapSort, Refusal
from model.records import Call, Rule, confine, encode, forbid, separate
from model.tracker import State, Tracker, refused

RUN_B_INPUT = bytes.fromhex(
    "10 0005 0100000000 10 0005 0300050018 10 0005 1300180100"
    "11 000B 01 0000000000000002 01 03 10 0005 0500010100"
    "10 0005 0800000000 10 0005 0900010000 10 0005 0900020000 10 00"
)
RUN_B_OUTPUT = (
    "allow 0\nallow 0\nallow 1\nrule 0\nallow 0\nallow 1\nmodify 0 3 1\nrefused 14\nrefused 1\n"
)

Records = List[Union[Call, Rule]]


def run(records: Records) -> Tuple[Tracker, List[str]]:
    """Run records in a fresh tracker; its answers as lines."""
    tracker = Tracker()
    return tracker, more(tracker, records)


def more(tracker: Tracker, records: Records) -> List[str]:
    """Run further records in a tracker."""
    return [str(answer) for answer in tracker.run_log(b"".join(map(encode, records)))]


def holdings(tracker: Tracker) -> Dict[int, Set[int]]:
    """The items of each container that holds any, by the items query."""
    found = {}
    for container in CONTAINERS:
        bits = tracker.query_items(container)
        if bits:
            found[container] = {item for item in range(64) if bits >> item & 1}
    return found


def allows(records: Records) -> Tracker:
    """A tracker after records that are all allowed or loaded."""
    tracker, answers = run(records)
    for record, answer in zip(records, answers):
        if answer.split()[0] not in ("allow", "rule"):
            raise AssertionError(f"{record} gets {answer}")
    return tracker


def test_run_a_empty_log(checks: Checks, options: Options) -> None:
    tracker = Tracker()
    checks.equal("run A: answers", tracker.run_log(b""), [])
    checks.equal("run A: state", tracker.state, State())


def test_run_b_program(checks: Checks, options: Options) -> None:
    tracker = Tracker()
    lines = "".join(f"{answer}\n" for answer in tracker.run_log(RUN_B_INPUT))
    checks.equal("run B: output", lines, RUN_B_OUTPUT)
    checks.equal("run B: holdings", holdings(tracker), {24: {1}, 8: {1}, 3: {1}})


def test_run_c_start_twice(checks: Checks, options: Options) -> None:
    tracker, answers = run([Call(Kind.START, 0), Call(Kind.START, 0)])
    checks.equal("run C: answers", answers, ["allow 0", "refused 7"])
    checks.equal("run C: live", tracker.state.live, {0})
    checks.equal("run C: holdings", holdings(tracker), {})


def test_run_d_last_process(checks: Checks, options: Options) -> None:
    tracker, answers = run([Call(Kind.START, 15), Call(Kind.START, 16)])
    checks.equal("run D: answers", answers, ["allow 0", "refused 5"])
    checks.equal("run D: live", tracker.state.live, {15})
    checks.equal("run D: holdings", holdings(tracker), {})


def test_run_e_create_range(checks: Checks, options: Options) -> None:
    expected = {23: "refused 5", 64: "refused 5", 24: "allow 0", 63: "allow 0"}
    for container, answer in expected.items():
        tracker, answers = run([Call(Kind.START, 0), Call(Kind.CREATE, 0, 0, 0, container)])
        checks.equal(f"run E: create with {container}", answers[1], answer)
        bound = {0: container} if answer == "allow 0" else {}
        checks.equal(f"run E: names after {container}", tracker.state.names, bound)
        checks.equal(f"run E: holdings after {container}", holdings(tracker), {})


def test_run_f_pipe_same_twice(checks: Checks, options: Options) -> None:
    pipe = Call(Kind.PIPE, 0, 3, 3, 24)
    tracker, answers = run([Call(Kind.START, 0), pipe])
    checks.equal("run F: container free", answers[1], "refused 9")
    checks.equal("run F: nothing opened", tracker.state.descriptors, {})
    tracker, answers = run([Call(Kind.START, 0), Call(Kind.CREATE, 0, 0, 0, 24), pipe])
    checks.equal("run F: container in use", answers[2], "refused 7")
    checks.equal("run F: nothing more opened", tracker.state.descriptors, {(0, 0): 24})


RUN_G = [
    Call(Kind.START, 0),
    Call(Kind.START, 1),
    Call(Kind.CREATE, 0, 0, 0, 24),
    Call(Kind.OPEN, 1, 0, 0),
    Call(Kind.MAP_BOTH, 0, 0),
    Call(Kind.MAP_READ, 1, 0),
    Call(Kind.CREATE, 0, 1, 1, 25),
    Call(Kind.LABEL, 0, 25, 2),
    Call(Kind.READ, 0, 1),
]


def test_run_g_two_links(checks: Checks, options: Options) -> None:
    tracker, answers = run(RUN_G)
    gained = [0, 0, 0, 0, 0, 0, 0, 1, 3]  # the label alone, then the read over both links
    checks.equal("run G: answers", answers, [f"allow {count}" for count in gained])
    checks.equal("run G: holdings", holdings(tracker), {8: {2}, 9: {2}, 24: {2}, 25: {2}})
    checks.equal("run G: links", tracker.state.links, {(8, 24), (24, 8), (24, 9)})


def test_run_h_truncate(checks: Checks, options: Options) -> None:
    tracker = allows(RUN_G)
    before = tracker.state
    checks.equal("run H: truncate mapped", more(tracker, [Call(Kind.TRUNCATE, 0, 0)]), ["allow 0"])
    checks.equal("run H: nothing changes", tracker.state, before)
    unmap = Call(Kind.UNMAP, 0, 24, 1)
    answers = more(tracker, [unmap, Call(Kind.TRUNCATE, 0, 0)])
    checks.equal("run H: unmap, truncate", answers, ["allow 0", "allow 0"])
    checks.equal("run H: holdings", holdings(tracker), {8: {2}, 9: {2}, 25: {2}})


def test_run_i_end_of_use(checks: Checks, options: Options) -> None:
    create = Call(Kind.CREATE, 0, 5, 0, 24)
    used = [Call(Kind.START, 0), create, Call(Kind.LABEL, 0, 24, 1), Call(Kind.CLOSE, 0, 0)]
    tracker = allows(used)
    checks.equal("run I: after close", holdings(tracker), {24: {1}})
    checks.equal("run I: unlink", more(tracker, [Call(Kind.UNLINK, 0, 5)]), ["allow 0"])
    checks.equal("run I: after unlink", holdings(tracker), {})
    checks.equal("run I: create again", more(tracker, [create]), ["allow 0"])
    checks.equal("run I: new file is empty", holdings(tracker), {})


LABELLED = [Call(Kind.START, 0), Call(Kind.CREATE, 0, 5, 0, 24), Call(Kind.LABEL, 0, 24, 1)]


def test_run_j_rename_same(checks: Checks, options: Options) -> None:
    tracker = allows(LABELLED)
    before = tracker.state.copy()
    checks.equal("run J: answer", more(tracker, [Call(Kind.RENAME, 0, 5, 5)]), ["allow 0"])
    checks.equal("run J: whole state", tracker.state, before)


def test_run_k_rule_refused(checks: Checks, options: Options) -> None:
    rule = forbid(1, [24])
    tracker = allows(LABELLED)
    checks.equal("run K: broken already", more(tracker, [rule]), ["refused 12"])
    loaded = more(tracker, [forbid(2, [24])] * 32)
    checks.equal("run K: 32 rules", loaded, [f"rule {number}" for number in range(32)])
    checks.equal("run K: rules full", more(tracker, [rule]), ["refused 11"])
    checks.equal("run K: rules held", len(tracker.state.rules), 32)
    checks.equal("run K: holdings", holdings(tracker), {24: {1}})


def test_run_l_separate(checks: Checks, options: Options) -> None:
    tracker = allows(
        [
            separate(1, 2),
            Call(Kind.START, 0),
            Call(Kind.CREATE, 0, 0, 0, 24),
            Call(Kind.LABEL, 0, 8, 1),
            Call(Kind.LABEL, 0, 24, 2),
        ]
    )
    before = tracker.state.copy()
    checks.equal("run L: answer", more(tracker, [Call(Kind.READ, 0, 0)]), ["inhibit 0"])
    checks.equal("run L: nothing changes", tracker.state, before)
    checks.equal("run L: holdings", holdings(tracker), {8: {1}, 24: {2}})


def test_run_m_substitute_unused(checks: Checks, options: Options) -> None:
    calls = [Call(Kind.START, 0), Call(Kind.LABEL, 0, 8, 1), Call(Kind.DEVICE, 0, 0, 1)]
    tracker = allows([forbid(1, [1], 1, 24), *calls])
    checks.equal("run M: answer", more(tracker, [Call(Kind.WRITE, 0, 0)]), ["inhibit 0"])
    checks.equal("run M: holdings", holdings(tracker), {8: {1}})


def test_run_n_fork(checks: Checks, options: Options) -> None:
    tracker = allows([confine(1, [24, 8]), Call(Kind.START, 0), Call(Kind.LABEL, 0, 8, 1)])
    checks.equal("run N: answer", more(tracker, [Call(Kind.FORK, 0, 1)]), ["inhibit 0"])
    checks.equal("run N: live", tracker.state.live, {0})
    checks.equal("run N: holdings", holdings(tracker), {8: {1}})


# Document 02, Paper 1: item 1 comes to 63, then to 24, to process 15 and last to device 0.
FALLING = [
    Call(Kind.START, 15),
    Call(Kind.CREATE, 15, 0, 0, 63),
    Call(Kind.CREATE, 15, 1, 1, 24),
    Call(Kind.LABEL, 0, 63, 1),
    Call(Kind.LABEL, 0, 24, 1),
    Call(Kind.READ, 15, 1),
    Call(Kind.LABEL, 0, 0, 1),
]


def test_holders_rise(checks: Checks, options: Options) -> None:
    short = refused(Refusal.SLICE_SHORT)
    for records, item, lent, reply, after in (
        (FALLING, 1, [100, 101, 102, 103, 104, 105], 4, [0, 23, 24, 63, 104, 105]),
        (RUN_G, 2, [100, 101, 102, 103], 4, [8, 9, 24, 25]),
        (RUN_G, 2, [100, 101, 102], short, [100, 101, 102]),
        (RUN_G, 63, [], 0, []),
        (RUN_G, 64, [], refused(Refusal.OUT_OF_RANGE), []),
    ):
        what = f"holders of item {item} in {len(lent)} elements"
        checks.equal(f"{what}: reply", allows(records).query_holders(item, lent), reply)
        checks.equal(f"{what}: slice", lent, after)


def test_fork_copies(checks: Checks, options: Options) -> None:
    tracker = allows(RUN_G + [Call(Kind.FORK, 0, 15), Call(Kind.FORK, 1, 2)])
    expected = {(8, 24), (24, 8), (24, 9), (23, 24), (24, 23), (24, 10)}
    checks.equal("fork: links both ways", tracker.state.links, expected)
    counts = {(0, 24, 1): 1, (1, 24, 0): 1, (15, 24, 1): 1, (2, 24, 0): 1}
    checks.equal("fork: mappings", tracker.state.mappings, counts)
    child = {d: c for (p, d), c in tracker.state.descriptors.items() if p == 15}
    checks.equal("fork: descriptors", child, {0: 24, 1: 25})
    more(tracker, [Call(Kind.LABEL, 0, 23, 7)])
    checks.equal("fork: a gift to the child", tracker.state.holders(7), [8, 9, 10, 23, 24])


def test_exit_and_reuse(checks: Checks, options: Options) -> None:
    tracker = allows(RUN_G + [Call(Kind.EXIT, 1), Call(Kind.START, 1), Call(Kind.LABEL, 0, 24, 9)])
    checks.equal("exit: no link is left", tracker.state.links, {(8, 24), (24, 8)})
    checks.equal("exit: next process is not fed", tracker.state.holders(9), [8, 24])
    checks.equal("exit: next process is empty", tracker.query_items(9), 0)
    checks.true("exit: descriptors closed", (1, 0) not in tracker.state.descriptors)
    more(tracker, [Call(Kind.UNLINK, 0, 0), Call(Kind.UNLINK, 0, 1), Call(Kind.EXIT, 0)])
    checks.equal("exit: ended uses are emptied", holdings(tracker), {})


def test_rename_and_link(checks: Checks, options: Options) -> None:
    files = [Call(Kind.START, 0), Call(Kind.CREATE, 0, 0, 0, 24), Call(Kind.CREATE, 0, 1, 1, 25)]
    files += [Call(Kind.LABEL, 0, 25, 1), Call(Kind.CLOSE, 0, 1)]
    tracker = allows(files + [Call(Kind.RENAME, 0, 0, 1)])
    checks.equal("rename: names", tracker.state.names, {1: 24})
    checks.equal("rename: old file is emptied", holdings(tracker), {})
    tracker = allows(files + [Call(Kind.LINK, 0, 1, 9), Call(Kind.RENAME, 0, 0, 1)])
    checks.equal("rename: another name keeps it", holdings(tracker), {25: {1}})
    more(tracker, [Call(Kind.LINK, 0, 9, 2), Call(Kind.RENAME, 0, 9, 2)])
    checks.equal("rename: both led to one file", tracker.state.names, {1: 24, 2: 25})
    checks.equal("rename: and it keeps its item", holdings(tracker), {25: {1}})


def test_mapping(checks: Checks, options: Options) -> None:
    tracker = allows(RUN_G)
    before = tracker.state
    more(tracker, [Call(Kind.MAP_BOTH, 0, 0), Call(Kind.MAP_READ, 0, 0)])
    checks.equal("mapping again adds no link", tracker.state.links, before.links)
    counts = {(0, 24, 1): 2, (0, 24, 0): 1, (1, 24, 0): 1}
    checks.equal("mapping again raises counts", tracker.state.mappings, counts)
    more(tracker, [Call(Kind.CLOSE, 0, 0), Call(Kind.CLOSE, 1, 0), Call(Kind.UNLINK, 0, 0)])
    checks.equal("closed: links stay", tracker.state.links, before.links)
    checks.equal("closed: the mapped file keeps", holdings(tracker), holdings(allows(RUN_G)))
    both, read = MapSort.MAPPED_BOTH, MapSort.MAPPED_READ
    for unmap, left in (
        (Call(Kind.UNMAP, 0, 24, both), {(8, 24), (24, 8), (24, 9)}),
        (Call(Kind.UNMAP, 0, 24, both), {(24, 8), (24, 9)}),
        (Call(Kind.UNMAP, 1, 24, read), {(24, 8)}),
    ):
        checks.equal(f"{unmap}: answer", more(tracker, [unmap]), ["allow 0"])
        checks.equal(f"{unmap}: links", tracker.state.links, left)
    checks.equal("a mapped file keeps", holdings(tracker), holdings(allows(RUN_G)))
    more(tracker, [Call(Kind.UNMAP, 0, 24, read)])
    checks.equal("last unmap empties", holdings(tracker), {8: {2}, 9: {2}, 25: {2}})


def test_map_both_gives_both(checks: Checks, options: Options) -> None:
    records = [Call(Kind.START, 0), Call(Kind.DEVICE, 0, 0, 2)]
    tracker = allows(records + [Call(Kind.LABEL, 0, 8, 1), Call(Kind.LABEL, 0, 2, 3)])
    more(tracker, [Call(Kind.MAP_BOTH, 0, 0), Call(Kind.LABEL, 0, 2, 4)])
    checks.equal("map both: a device", holdings(tracker), {2: {1, 3, 4}, 8: {1, 3, 4}})


def test_truncate_read_mapped(checks: Checks, options: Options) -> None:
    records = [Call(Kind.START, 0), Call(Kind.PIPE, 0, 0, 1, 24), Call(Kind.LABEL, 0, 24, 1)]
    tracker = allows(records + [Call(Kind.MAP_READ, 0, 0), Call(Kind.TRUNCATE, 0, 1)])
    checks.equal("truncate: read mapping", holdings(tracker), {8: {1}})
    tracker = allows(records + [Call(Kind.START, 1), Call(Kind.TRUNCATE, 0, 0)])
    checks.equal("truncate: not mapped", holdings(tracker), {})


def test_dup_keeps_in_use(checks: Checks, options: Options) -> None:
    records = [Call(Kind.START, 0), Call(Kind.PIPE, 0, 0, 1, 24), Call(Kind.LABEL, 0, 24, 1)]
    records += [Call(Kind.DUP, 0, 1, 31), Call(Kind.CLOSE, 0, 0), Call(Kind.CLOSE, 0, 1)]
    tracker = allows(records)
    checks.equal("dup: the pipe stays", holdings(tracker), {24: {1}})
    more(tracker, [Call(Kind.CLOSE, 0, 31)])
    checks.equal("dup: the last close empties", holdings(tracker), {})


def test_lowest_rule_decides(checks: Checks, options: Options) -> None:
    start = [Call(Kind.START, 0), Call(Kind.LABEL, 0, 8, 1), Call(Kind.DEVICE, 0, 0, 1)]
    write = Call(Kind.WRITE, 0, 0)
    cases = [
        ("diverted", [forbid(1, [1], 1, 3)], "modify 0 3 1"),
        ("lowest inhibits", [forbid(1, [1]), forbid(1, [1], 1, 3)], "inhibit 0"),
        ("lowest diverts", [forbid(5, [1]), forbid(1, [1], 1, 3), forbid(1, [1])], "modify 1 3 1"),
        ("to a forbidden one", [forbid(1, [1], 1, 3), forbid(1, [3])], "inhibit 0"),
        ("to the same", [forbid(1, [1], 1, 1)], "inhibit 0"),
        ("confine diverts", [confine(1, [8, 4], 1, 4)], "modify 0 4 1"),
        ("confine keeps", [confine(1, [8, 1])], "allow 1"),
    ]
    for name, rules, answer in cases:
        tracker = allows([*start, *rules])
        checks.equal(f"verdict: {name}", more(tracker, [write]), [answer])


def test_rules_see_whole_reach(checks: Checks, options: Options) -> None:
    records = [Call(Kind.START, 0), Call(Kind.START, 1), Call(Kind.CREATE, 0, 0, 0, 24)]
    records += [Call(Kind.OPEN, 1, 0, 0), Call(Kind.MAP_READ, 1, 0), Call(Kind.LABEL, 0, 8, 1)]
    write = Call(Kind.WRITE, 0, 0)
    tracker = allows(records + [forbid(1, [9])])
    checks.equal("reach: written file feeds 9", more(tracker, [write]), ["inhibit 0"])
    device = [Call(Kind.DEVICE, 0, 1, 1), forbid(1, [1], 1, 24), forbid(1, [9])]
    tracker = allows(records + device)
    answers = more(tracker, [Call(Kind.WRITE, 0, 1)])
    checks.equal("reach: substitute feeds 9", answers, ["inhibit 0"])
    tracker = allows(records + device[:2])
    checks.equal("reach: diverted", more(tracker, [Call(Kind.WRITE, 0, 1)]), ["modify 0 24 2"])
    checks.equal("reach: its gift", tracker.state.holders(1), [8, 9, 24])


def test_only_writes_divert(checks: Checks, options: Options) -> None:
    rules = [forbid(1, [8, 9], 1, 3)]
    records = [Call(Kind.START, 0), Call(Kind.CREATE, 0, 0, 0, 24), Call(Kind.LABEL, 0, 24, 1)]
    calls = [Call(kind, 0, 0) for kind in (Kind.READ, Kind.MAP_READ, Kind.MAP_BOTH)]
    for call in [*calls, Call(Kind.LABEL, 0, 8, 1)]:
        tracker = allows(records + rules)
        checks.equal(f"kind {call.kind} is inhibited", more(tracker, [call]), ["inhibit 0"])
    tracker = allows([Call(Kind.START, 0), Call(Kind.LABEL, 0, 8, 1), forbid(1, [9], 1, 3)])
    checks.equal("fork is inhibited", more(tracker, [Call(Kind.FORK, 0, 1)]), ["inhibit 0"])
