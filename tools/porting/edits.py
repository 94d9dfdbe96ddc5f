#!/usr/bin/env python3
"""Turns the texts of the wrong programs (tests/wrong-programs) to the newer Rattle's spelling.

usage: tools/porting/edits.py make ROOT MADE.json     before the kit's port.py and names.py run on ROOT: writes beside each file that an
                                                      edit changes a variant with the edit made (specs/NameZvN.antt, src/name_zvN.rt), and
                                                      in MADE.json which variant is whose
       tools/porting/edits.py turn ROOT MADE.json TO  after they ran: writes into the checkout TO each edit whose text no longer does the
                                                      same, by what a variant and its file differ in, and prints what is left by hand
       tools/porting/edits.py look ROOT MADE.json TO  prints each edit of TO that does not make of TO's files what its variant has
       tools/porting/edits.py names TO BASE EDIT..    writes into edits of TO (CRATE/NAME) the line 'names:', by what `rattle check
                                                      --generated DIR --old-names` tells of the crate without and with the edit; BASE
                                                      is what tests/wrong-programs/run --work BASE left

The first comment line, the file names and the order of an edit stay.
"""

import difflib
import importlib.machinery
import importlib.util
import json
import re
import shutil
import subprocess
import sys
import tempfile
from pathlib import Path
from typing import Dict, List, NamedTuple, Optional, Tuple

EDITS = "tests/wrong-programs"
TOKEN = re.compile(r"\s+|◌[^\s\w◌,{}]+◌?|[\w·◌'«»-]+(?:\.\w+)*|\)(?:\.\w+)*|.", re.S)


class Change(NamedTuple):
    file: str
    after: str
    old: str
    new: str


def changes_of(text: str) -> List[Change]:
    found, file, after, old = [], "", "", ""
    for line in text.splitlines():
        word, _, rest = line.partition(":")
        rest = rest[1:] if rest.startswith(" ") else rest
        if word == "file":
            file = rest
        elif word == "after":
            after = rest
        elif word == "old":
            old = rest
        elif word == "new":
            found.append(Change(file, after, old, rest))
            after = ""
    return found


def made(text: str, change: Change) -> Optional[str]:
    """The text with one replacement made, if it can be."""
    front = ""
    if change.after:
        if text.count(change.after) != 1:
            return None
        at = text.index(change.after) + len(change.after)
        front, text = text[:at], text[at:]
    elif text.count(change.old) != 1:
        return None
    return front + text.replace(change.old, change.new, 1) if change.old in text else None


def all_made(crate: Path, changes: List[Change]) -> Optional[Dict[str, str]]:
    files: Dict[str, str] = {}
    for change in changes:
        after = made(files.get(change.file, (crate / change.file).read_text()), change)
        if after is None:
            return None
        files[change.file] = after
    return files


def make(root: Path, listed: Path) -> None:
    found: Dict[str, Dict[str, str]] = {}
    number = 0
    for edit in sorted((root / EDITS).glob("*/*.edit")):
        crate = root / "crates" / edit.parent.name
        for file, text in (all_made(crate, changes_of(edit.read_text())) or {}).items():
            number += 1
            path = crate / file
            name = f"{path.stem}Zv{number}" if path.suffix == ".antt" else f"{path.stem}_zv{number}"
            variant = path.with_name(name + path.suffix)
            variant.write_text(text)
            found.setdefault(str(edit.relative_to(root)), {})[file] = str(variant.relative_to(root))
    listed.write_text(json.dumps(found, indent=1))


def plain(line: str) -> str:
    """A line as one text whatever its layout."""
    line = re.sub(r"\s+", " ", line).strip()
    return re.sub(r",? \}", " }", line)


def hunks(before: str, after: str) -> List[Tuple[str, str]]:
    """The lines that differ, those of a hunk as one."""
    one, two = before.splitlines(), after.splitlines()
    found = []
    for kind, a, b, c, d in difflib.SequenceMatcher(None, one, two, autojunk=False).get_opcodes():
        if kind == "equal":
            continue
        if b - a == d - c:
            found += [(one[a + n], two[c + n]) for n in range(b - a)]
        else:
            found.append(("\n".join(one[a:b]), "\n".join(two[c:d])))
    return [(x, y) for x, y in found if plain(x) != plain(y)]


def differences(before: str, after: str) -> List[Tuple[str, str]]:
    """What differs word by word, whatever the layout, with the word before it."""
    words = [re.findall(r"[\w·◌'«»]+|[^\s\w]", re.sub(r",\s*([})])", r"\1", text)) for text in (before, after)]
    found = []
    for kind, a, b, c, d in difflib.SequenceMatcher(None, *words, autojunk=False).get_opcodes():
        if kind != "equal":
            found.append((" ".join(words[0][a:b]), " ".join(words[1][c:d])))
    return found


def words_in(text: str) -> List[str]:
    return re.findall(r"[\w·]+|[^\w\s(){}\[\],;.]", text)


def balanced(text: str) -> bool:
    """Whether each bracket of a text is closed in it."""
    open_ones = ""
    for mark in re.findall(r"[(){}\[\]]", text):
        if mark in "({[":
            open_ones += mark
        elif open_ones[-1:] + mark in ("()", "{}", "[]"):
            open_ones = open_ones[:-1]
        else:
            return False
    return not open_ones


def smallest(text: str, old: str, new: str, after: str, length: int) -> Optional[Tuple[str, str]]:
    """The shortest part of a line around its difference that stands once (or first behind `after`), of so many words if it can be."""
    one, two = TOKEN.findall(old), TOKEN.findall(new)
    start = 0
    while start < min(len(one), len(two)) and one[start] == two[start]:
        start += 1
    end = 0
    while end < min(len(one), len(two)) - start and one[-1 - end] == two[-1 - end]:
        end += 1

    def stands(left: int, right: int) -> bool:
        was = "".join(one[left : len(one) - right])
        if not was.strip() or was.strip() != was:
            return False
        if not after:
            return text.count(was) == 1
        behind = text[text.index(after) + len(after) :]
        return behind.find(was) >= 0 and behind.find(was) == behind.find(old) + len("".join(one[:left]))

    best = None
    for left in range(start + 1):
        for right in range(end + 1):
            was, now = "".join(one[left : len(one) - right]), "".join(two[left : len(two) - right])
            if stands(left, right) and now.strip() == now:
                lacks = max(0, length - len(words_in(was)))
                score = (not (balanced(was) and balanced(now)), 3 * lacks + len(words_in(was)), len(was))
                if best is None or score < best[0]:
                    best = score, was, now
    return best and best[1:]


def fitting_after(text: str, old: str, near: int) -> str:
    """The nearest line above a place that stands once and behind which the old text is the first."""
    above = text[:near].splitlines()
    heads = [line for line in above if re.match(r"\s*(pub )?(extern \"C\" )?fn |[^\s-]", line)]
    for line in [*reversed(heads), *reversed(above)]:
        it = line.strip().partition("(")[0] if re.match(r"\s*(pub )?(extern \"C\" )?fn ", line) else line.strip()
        it = it + "(" if re.match(r"\s*(pub )?(extern \"C\" )?fn ", line) else it
        if it and text.count(it) == 1 and text.index(it) < near:
            at = text.index(it) + len(it)
            if text[at:].find(old) == near - at:
                return it
    return ""


def turned(base: str, variant: str, file: str, own: List[Change]) -> Optional[List[Change]]:
    """Replacements that make the variant of the base."""
    found, text = [], base
    afters = {change.after for change in own if change.after}
    for old, new in hunks(base, variant):
        if "\n" in old or not old:
            return None
        if "\n" in new:
            new = re.match(r"\s*", old)[0] + re.sub(r",? \}", " }", re.sub(r"\s+", " ", new)).strip()
        places = [m.start() for m in re.finditer(f"^{re.escape(old)}$", text, re.M)]
        if not places:
            return None
        near = places[0]
        if len(places) > 1:
            # where the variant's line is, by the lines before it
            front = variant.partition(f"\n{new}\n")[0]
            near = min(places, key=lambda at: abs(at - len(front)))
        kept = next((it for it in own if it not in found and made(text, it) == text.replace(old, new, 1) != text), None)
        if kept:
            text = made(text, kept)
            found.append(kept)
            continue
        after = ""
        kin = max(own, key=lambda it: difflib.SequenceMatcher(None, it.old + it.new, old + new, autojunk=False).ratio())
        length = len(words_in(kin.old))
        pair = smallest(text, old, new, "", length)
        if not pair:
            after = next((it for it in sorted(afters) if text.count(it) == 1 and text[text.index(it) :].find(old) == near - text.index(it)), "")
            after = after or fitting_after(text, old, near)
            pair = after and smallest(text, old, new, after, length)
        if not pair:
            return None
        change = Change(file, after, *pair)
        text = made(text, change)
        found.append(change)
    return found


def same(files: Optional[Dict[str, str]], crate: Path, wanted: Dict[str, List[Tuple[str, str]]]) -> bool:
    if files is None or set(files) != set(wanted):
        return False
    return all(differences((crate / file).read_text(), files[file]) == wanted[file] for file in wanted)


def written(comment: List[str], changes: List[Change]) -> str:
    lines, file = list(comment), ""
    for change in changes:
        if change.file != file:
            lines.append(f"file: {change.file}")
            file = change.file
        if change.after:
            lines.append(f"after: {change.after}")
        lines += [f"old: {change.old}", f"new: {change.new}".rstrip()]
    return "\n".join(lines) + "\n"


def turn(root: Path, listed: Path, to: Path, write: bool) -> int:
    stays = by_script = left = 0
    for name, variants in json.loads(listed.read_text()).items():
        crate, own_crate = root / "crates" / Path(name).parent.name, to / "crates" / Path(name).parent.name
        wanted = {file: differences((crate / file).read_text(), (root / variant).read_text()) for file, variant in variants.items()}
        text = (to / name).read_text()
        if same(all_made(own_crate, changes_of(text)), own_crate, wanted):
            stays += 1
            continue
        if not write:
            print(f"{name}: it does not make what its variant has")
            left += 1
            continue
        own = changes_of((root / name).read_text())
        order = list(dict.fromkeys(change.file for change in own))
        found: Optional[List[Change]] = []
        for file in order:
            part = turned((crate / file).read_text(), (root / variants[file]).read_text(), file, [it for it in own if it.file == file])
            if part is None:
                found = None
                break
            found += part
        comment = [line for line in text.splitlines() if line.startswith("#")]
        if found is None or len(found) != len(own) or not same(all_made(own_crate, found), own_crate, wanted):
            print(f"by hand: {name}: " + ("no pair of lines" if found is None else f"{len(own)} replacements were, {len(found)} are"))
            left += 1
            continue
        (to / name).write_text(written(comment, found))
        by_script += 1
    print(f"as they were {stays}, turned {by_script}, left {left}")
    return 1 if left else 0


def told_names(run, base: Path, crate: str, files: Dict[str, str]) -> Dict[str, dict]:
    """What the prover calls the places of each function of a crate with these files."""
    with tempfile.TemporaryDirectory() as folder:
        room = Path(folder)
        for part in run.PARTS:
            if (base / "crates" / crate / part).is_dir():
                shutil.copytree(base / "crates" / crate / part, room / part)
        for name, text in files.items():
            (room / name).write_text(text)
        words = run.check_words(base, crate)
        words = [it for n, it in enumerate(words) if "--incremental" not in (it, words[n - 1]) and "--jobs" not in (it, words[n - 1])]
        said = subprocess.run([*words, "--generated", f"{room}/made", "--old-names"], cwd=room, capture_output=True, text=True)
        made_names = room / "made/names.json"
        if not made_names.is_file():
            raise SystemExit(said.stdout + said.stderr)
        return json.loads(made_names.read_text())


def pairs_of(one: dict, two: dict) -> Dict[str, str]:
    """The names of a function's places and goals that differ, by the names that both had in the older prover."""
    found: Dict[str, str] = {}

    def by_place(names: dict) -> Dict[Tuple[str, str], str]:
        told = {("need", old): new for old, new in names["needs"]}
        for (old, _, field, *_), new in zip(names["places"], names["places_by_name"]):
            told["place", old] = new
            told["field", old] = field[1]
        for ((old, new), *_) in names["loops"]:
            told["loop", old] = new
        return told

    before, after = by_place(one), by_place(two)
    for key, old in before.items():
        new = after.get(key, old)
        if new == old:
            continue
        found[old] = new
        if key[0] == "field" and old.startswith("if-") and new.startswith("if-"):
            found.update({f"{word}-{old[3:]}": f"{word}-{new[3:]}" for word in ("then", "else")})
        if key[0] == "loop":
            found.update({f"{word}-{old}": f"{word}-{new}" for word in ("invariant", "decreases")})
    return found


def write_names(to: Path, base: Path, edits: List[str]) -> int:
    loader = importlib.machinery.SourceFileLoader("run", str(to / EDITS / "run"))
    sys.path.insert(0, str(to / EDITS))
    run = importlib.util.module_from_spec(importlib.util.spec_from_loader("run", loader))
    sys.modules["run"] = run
    loader.exec_module(run)
    own: Dict[str, Dict[str, dict]] = {}
    for name in edits:
        crate, path = name.split("/")[0], to / EDITS / f"{name}.edit"
        folder = to / "crates" / crate
        files = run.edited(folder, run.changes_of(path))
        steps = run.Crate(folder, run.uses_of()[crate]).function_of(files)
        if not steps:
            print(f"{name}: it changes not the body of one function")
            continue
        if crate not in own:
            own[crate] = told_names(run, base, crate, {})
        module = f"Rattle-{crate}-proofs.{'.'.join(steps)}.Lts"
        told = told_names(run, base, crate, files)
        if module not in told or module not in own[crate]:
            print(f"{name}: no names of {module}")
            continue
        pairs = pairs_of(own[crate][module], told[module])
        cited = "\n".join(file.read_text() for file in (folder / "proofs" / "/".join(steps)).glob("*.antt"))
        words = set(re.findall(run.NAME, cited))
        pairs = {old: new for old, new in pairs.items() if old in words}
        same_row = [it[0] for it in own[crate][module]["places"]] == [it[0] for it in told[module]["places"]]
        print(f"{name}: {pairs}{'' if same_row else ' (another row of places)'}")
        lines = [line for line in path.read_text().splitlines() if not line.startswith("names:")]
        if pairs:
            lines.append("names: " + ", ".join(f"{old} {new}" for old, new in pairs.items()))
        path.write_text("\n".join(lines) + "\n")
    return 0


def main() -> int:
    word, *paths = sys.argv[1:] or [""]
    if word == "make" and len(paths) == 2:
        make(Path(paths[0]), Path(paths[1]))
        return 0
    if word in ("turn", "look") and len(paths) == 3:
        return turn(Path(paths[0]), Path(paths[1]), Path(paths[2]), word == "turn")
    if word == "names" and len(paths) > 2:
        return write_names(Path(paths[0]).resolve(), Path(paths[1]).resolve(), paths[2:])
    print(__doc__, file=sys.stderr)
    return 2


if __name__ == "__main__":
    sys.exit(main())
