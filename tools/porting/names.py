#!/usr/bin/env python3
"""Brings the repository's own definitions and lemmas to the names of the newer Rattle.

usage: tools/porting/names.py [ROOT]         after the kit's port.py: rewrites crates/**/*.antt and *.rt of ROOT in place
       tools/porting/names.py --list [ROOT]  prints each name and what it becomes, and changes nothing

Words are in snake case, types and facts in camel case. A dash between words becomes an underscore. Functions of src/,
their parameters, strings and what a file is called keep their names, and so do names that a proof of one function
takes from what the prover generates for it (their type begins with `tie.`).
"""

import json
import re
import sys
from pathlib import Path
from typing import Dict, List, Set

DECLARED = re.compile(r"^(?:unfoldable |pub |abbrev )*(?:data |record )?(?P<name>[^\s:(){}\[\].,;]+) (?:[({].*?[)}] )*: (?P<type>.*)$")
INSIDE = re.compile(r"^\s+(?:pub |abbrev |unfoldable )*(?P<name>[^\s:(){}\[\].,;]+) : (?P<type>.*)$")
TOKEN = re.compile(r"[^\s(){}\[\];,.`\"@]+")
GENERATED = re.compile(r"^(returns(-\d+)?|invariant-.*|decreases-.*|loop-.*|.*-requires(-\d+)?|slice-.*|in-[lr]|[A-Z].*|.*◌.*)$")
# Names of a kind that the rule gives another spelling: facts are types.
BY_HAND = {"inBytes": "InBytes", "ofBytes": "OfBytes", "of_bytes": "OfBytes"}


def snake(name: str) -> str:
    """The name with words in snake case."""
    return re.sub(r"(?<=[a-z0-9])([A-Z])", lambda m: "_" + m.group(1).lower(), name).replace("-", "_")


def declared(text: str) -> Set[str]:
    """The names that a file declares: definitions, lemmas, constructors, fields, and lemmas in a module or a `where`."""
    found = set()
    for line in text.splitlines():
        match = DECLARED.match(line) or INSIDE.match(line)
        if match and not match["type"].startswith("tie."):
            found.add(match["name"])
    return found


def renamed(names: Set[str], tokens: Set[str]) -> Dict[str, str]:
    """What each name becomes, where that is another. A lemma whose name something else has ends in `_lem`."""
    table = {}
    spelled = [n for n in sorted(names) if n not in BY_HAND and re.fullmatch(r"[a-z][A-Za-z0-9'_-]*", n) and not GENERATED.match(n) and snake(n) != n]
    for name in spelled:
        if "-" not in name:
            table[name] = snake(name)
            if snake(name) in names:
                table[snake(name)] = snake(name) + "_lem"
    taken = tokens | set(table.values())
    for name in spelled:
        if "-" in name:
            table[name] = snake(name) + ("_lem" if snake(name) in taken else "")
    for name in names & set(BY_HAND):
        table[name] = BY_HAND[name]
    return table


def rewrite(text: str, table: Dict[str, str]) -> str:
    """The text with each whole name replaced; a comment and code are read alike, a string is left."""
    return TOKEN.sub(lambda m: table.get(m[0], m[0]), text)


def clashes(table: Dict[str, str], tokens: Set[str]) -> List[str]:
    """New names that stood in the repository before, or that two names share."""
    seen: Dict[str, str] = {}
    told = []
    for old, new in table.items():
        if new in tokens:
            told.append(f"{old}: {new} stands in the repository")
        if new in seen:
            told.append(f"{old} and {seen[new]}: {new}")
        seen[new] = old
    return told


def main(argv: List[str]) -> int:
    only_list = "--list" in argv
    rest = [word for word in argv if word != "--list"]
    root = Path(rest[0] if rest else ".")
    files = sorted(p for p in (root / "crates").glob("*/*/**/*") if p.suffix in (".antt", ".rt") and "out" not in p.parts)
    texts = {p: p.read_text() for p in files}
    table_file = Path(__file__).with_name("names.json")
    if table_file.is_file():
        table = json.loads(table_file.read_text())
    else:
        names = {name for p, text in texts.items() if p.suffix == ".antt" for name in declared(text)}
        tokens = {m[0] for text in texts.values() for m in TOKEN.finditer(text)}
        table = renamed(names, tokens)
        for line in clashes(table, tokens):
            print(f"look: {line}")
        if not only_list:
            table_file.write_text(json.dumps(table, indent=0, sort_keys=True) + "\n")
    if only_list:
        print("\n".join(f"{old} {new}" for old, new in sorted(table.items())))
        return 0
    changed = 0
    for path, text in texts.items():
        new = rewrite(text, table)
        if new != text:
            path.write_text(new)
            changed += 1
    print(f"{len(table)} names; {changed} of {len(files)} files changed")
    return 0


if __name__ == "__main__":
    raise SystemExit(main(sys.argv[1:]))
