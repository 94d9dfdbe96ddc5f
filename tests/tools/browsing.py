"""The page in a browser: buttons, keys, slider and list, on short, empty and long logs."""

import html
import json
import os
import re
import shutil
import signal
import subprocess
import tempfile
from pathlib import Path
from typing import Any, Dict, List, Optional, Set, Tuple

from model.generate import generate_records
from tests.tools.drawing import crowded_log
from tests.tools.session import STORIES, Session, story_names, story_steps
from tools.explain import explain
from tools.names import NO_OWN, Own
from tools.page import html_text
from tools.provenance import Step, steps_of
from tools.scene import pair_of
from tools.views import View, views_of

BROWSERS = ("chromium", "chromium-browser", "google-chrome")
QUICK = "-o Acquire::Retries=0 -o Acquire::http::Timeout=15 -o Acquire::https::Timeout=15"
INSTALL = f"apt-get {QUICK} update && apt-get {QUICK} install -y chromium"
INSTALL_SECONDS = 300
SECONDS = 120  # for a page
ACTING = Path(__file__).resolve().parent / "acting.js"
CATCH = (
    '<script>window.faults = []; addEventListener("error", e => faults.push(e.message));</script>'
)
LONG_RECORDS = 2000
LARGEST_PAGE = 4_000_000  # bytes, of so many records
SLOWEST = 0.1  # seconds for a step

Action = Tuple[str, Any]


# The browser.


def installed() -> Optional[str]:
    """The browser, if it is there."""
    return next(filter(None, map(shutil.which, BROWSERS)), None)


def find_browser(session: Session) -> Optional[str]:
    """The browser, installed if it is missing; None if it cannot be had."""
    if installed() or not shutil.which("apt-get"):
        return installed()
    session.say("installing chromium")
    quiet = {"stdout": subprocess.DEVNULL, "stderr": subprocess.DEVNULL}
    install = subprocess.Popen(["sh", "-c", INSTALL], start_new_session=True, **quiet)
    try:
        install.wait(INSTALL_SECONDS)
    except subprocess.TimeoutExpired:
        session.say(f"installing chromium took more than {INSTALL_SECONDS} s")
        os.killpg(install.pid, signal.SIGTERM)
        install.wait()
    return installed()


def dumped(browser: str, path: Path, mark: str = "") -> str:
    """The page as the browser has it once its scripts have run."""
    words = [browser, "--headless", "--no-sandbox", "--disable-gpu", "--disable-dev-shm-usage"]
    words += [f"--user-data-dir={path.parent / 'profile'}", "--window-size=1366,800", "--dump-dom"]
    url = path.as_uri() + mark
    run = subprocess.run([*words, url], capture_output=True, timeout=SECONDS)
    return run.stdout.decode(errors="replace")


def acted(
    browser: str, page: str, actions: List[Action], mark: str = "", noting: bool = True
) -> Any:
    """What the page shows after each action, or after the last."""
    given = f"const actions = {json.dumps(actions)}, noting = {json.dumps(noting)};"
    script = f"<script>{given}</script><script>{ACTING.read_text()}</script></body>"
    text = page.replace("<head>", f"<head>{CATCH}").replace("</body>", script)
    with tempfile.TemporaryDirectory() as folder:
        path = Path(folder) / "page.html"
        path.write_text(text)
        shown = dumped(browser, path, mark)
    found = re.search('<pre id="noted">(.*?)</pre>', shown, re.DOTALL)
    return json.loads(html.unescape(found[1])) if found else {"noted": [], "faults": [shown[-300:]]}


# What the page must show.


def gained_in(view: View) -> Set[str]:
    """The boxes of the containers that hold an item after a record and lacked it before."""
    if view.step is None:
        return set()
    before, after = view.step.before.state.items, view.step.after.state.items
    return {f"container-{container}" for container in after if after[container] - before[container]}


def expected(steps: List[Step], views: List[View], own: Own, here: int) -> Dict[str, Any]:
    """What the page must show after a record."""
    last = len(steps)
    view = views[here]
    pairs = {pair_of(link) for link in view.links()}
    groups = {f"container-{container}" for container in view.shown()}
    groups.update(f"link-{process}-{other}" for process, other in pairs)
    groups.update(f"label-{process}-{other}" for process, other in view.labels())
    groups.update(f"move-{giver}-{target}" for giver, target in view.moves())
    shown: Dict[str, Any] = {
        "count": f"record {here} of {last}",
        "slider": here,
        "marked": [here] if here else [],
        "hash": f"#{here}",
        "groups": groups,
        "disabled": {
            *(["first", "back"] if here == 0 else []),
            *(["next", "last"] if here == last else []),
        },
        "record": "",
        "answer": "",
        "changes": "",
        "gains": "",
        "tinted": gained_in(view),
    }
    if not any(step.answer.word not in ("allow", "rule") for step in steps[here:]):
        shown["disabled"].add("stop")
    if here:
        said = explain(steps[here - 1], own)
        shown.update(record=said.record, answer=f"{said.answer}: {said.meaning}")
        shown["changes"] = "".join(line for line in said.changes if " gained " not in line)
        shown["gains"] = "".join(line for line in said.changes if " gained " in line)
    return shown


def landing(steps: List[Step], here: int, action: Action) -> int:
    """The record that an action leads to."""
    deed, value = action
    last = len(steps)
    if deed in ("slide", "list"):
        return int(value)
    stops = [step.number for step in steps[here:] if step.answer.word not in ("allow", "rule")]
    moves = {
        "first": 0,
        "back": max(0, here - 1),
        "next": min(last, here + 1),
        "last": last,
        "stop": stops[0] if stops else here,
    }
    keys = {"Home": "first", "ArrowLeft": "back", "ArrowRight": "next", "End": "last", "n": "stop"}
    keys.update({"ArrowUp": "back", "ArrowDown": "next"})
    return moves.get(keys.get(value, value), here) if deed in ("click", "key") else here


def check_page(
    session: Session,
    browser: str,
    name: str,
    steps: List[Step],
    own: Own,
    actions: List[Action],
    at: int,
) -> None:
    """Check what the page shows after each action."""
    views = views_of(steps)
    result = acted(browser, html_text(steps, at, name, own), actions)
    session.checks.equal(f"{name}: faults of the page", result["faults"], [])
    session.checks.equal(f"{name}: all actions are done", len(result["noted"]), len(actions))
    here = at
    for action, shown in zip(actions, result["noted"]):
        here = landing(steps, here, action)
        wanted = expected(steps, views, own, here)
        found = {key: shown[key] for key in wanted}
        found.update({key: {*shown[key]} for key in ("groups", "disabled", "tinted")})
        wrong = {key: (found[key], wanted[key]) for key in wanted if found[key] != wanted[key]}
        title = f"{name}: {action[0]} {action[1]}"
        session.checks.true(f"{title}: shows record {here}", not wrong, f"got and expected {wrong}")
        session.checks.equal(f"{title}: texts that do not fit", shown["wide"], [])


SEE: Action = ("see", "")


def test_pages(session: Session) -> None:
    """The page works in a browser."""
    browser = find_browser(session)
    if browser is None:
        session.say("NO BROWSER: chromium is missing and could not be installed.")
        session.say("NO BROWSER: the checks of the page in a browser are LEFT OUT and not counted.")
        return
    for name in STORIES:
        steps, own = story_steps(name), story_names(name)
        every = [("key", "Home"), *[("key", "ArrowRight")] * (len(steps) + 1), ("key", "ArrowLeft")]
        check_page(session, browser, f"{name} by keys", steps, own, [SEE, *every], 1)
    steps, own = story_steps("rowers"), story_names("rowers")
    clicks = [
        ("click", name)
        for name in ("next", "next", "back", "last", "next", "back", "first", "back")
    ]
    others = [
        ("click", "stop"),
        ("key", "n"),
        ("key", "n"),
        ("slide", 17),
        ("list", 28),
        ("slide", 0),
    ]
    others += [("list", 1), ("key", "ArrowDown"), ("key", "ArrowUp"), ("key", "End"), ("key", "x")]
    check_page(session, browser, "rowers by clicks", steps, own, [SEE, *clicks, *others], 28)
    keys = [("key", key) for key in ("ArrowRight", "ArrowLeft", "End", "Home", "n")]
    check_page(
        session, browser, "empty", [], NO_OWN, [SEE, *keys, ("click", "last"), ("slide", 0)], 0
    )
    crowded = list(steps_of(crowded_log()))
    check_page(session, browser, "crowded", crowded, NO_OWN, [("key", "End"), ("slide", 300)], 0)
    check_opening(session, browser, steps, own)
    check_long(session, browser)


def check_opening(session: Session, browser: str, steps: List[Step], own: Own) -> None:
    """The address may name the record; any other ending does no harm."""
    page = html_text(steps, 3, "rowers", own)
    for mark, wanted in (("#28", 28), ("", 3), ("#999", 30), ("#x", 3), ("#0", 0)):
        result = acted(browser, page, [SEE], mark)
        found = [shown["count"] for shown in result["noted"]]
        session.checks.equal(f"rowers.html{mark}", found, [f"record {wanted} of 30"])
    session.checks.true(
        "a page asks for nothing", not re.search("https?:|src=|@import|url\\(", page)
    )


def check_long(session: Session, browser: str) -> None:
    """A page of thousands of records is small and quick."""
    steps = list(steps_of(b"".join(generate_records(session.seed, LONG_RECORDS, "deep"))))
    page = html_text(steps, 1, "long", NO_OWN)
    size = len(page.encode())
    session.say(f"page of {len(steps)} records: {size:,} bytes")
    session.checks.true("long: size", size < LARGEST_PAGE, f"{size:,} bytes")
    actions = [("key", "End"), *[("key", "ArrowLeft")] * 50, ("slide", 1000)]
    result = acted(browser, page, actions, noting=False)
    shown = [note["count"] for note in result["noted"]]
    session.checks.equal("long: shows", shown, [f"record 1000 of {len(steps)}"])
    step = result.get("took", 1e9) / 1000 / len(actions)
    session.say(f"a step of it: {step * 1000:.0f} ms")
    session.checks.true("long: a step", step < SLOWEST, f"{step:.3f} s")
