"""Which edits one check can refuse together, and which refusal is whose.

A function's proof goes by its own body and by the contracts of what it calls. So where each edit changes the
body of one function, and none of these functions reaches another, by calls or by what its proof cites, each is
refused at its own proof, in the words that it gets alone. Every other edit is tried alone: one of a contract,
of a constant or a type, of specs/, of two functions, of a function that reaches itself, or one that adds a call.
"""

import re
from pathlib import Path
from typing import Dict, List, NamedTuple, Optional, Set, Tuple

Steps = Tuple[str, ...]  # the modules that lead to a function or a proof file, and its name
# The layout is that of rt fmt: a function starts a line, and its body's braces stand below the start.
HEADER = re.compile(r'^(?P<indent>|    )(?:pub(?:\(crate\))? )?(?:extern "C" )?fn (?P<name>\w+)', re.M)
# A block of methods, a trait's declarations, or a block's end. A trait is no owner: what it declares has no body.
OWNER = re.compile(r"^(?:impl(?:<[^>]*>)? (?:(?P<trait>[\w:]+)(?:<(?P<of>[\w<>:', ]+)>)? for )?(?P<type>\w+)(?:<.*>)? \{|(?:pub )?trait .* \{|\})$", re.M)


class Function(NamedTuple):
    """A function in a file's text: all of it is text[start:end], its body text[body:end]."""

    steps: Steps
    start: int
    body: int
    end: int


def modules_of(file: str) -> Steps:
    """The modules that lead to a file of src/."""
    steps = Path(file).with_suffix("").parts[1:]
    return steps[:-1] if steps[-1] in ("lib", "main", "mod") else steps


def owner_of(text: str, at: int) -> str:
    """The block that a method stands in, under the name that its proofs have: the type's, then the trait's with what it is of."""
    last = [*OWNER.finditer(text, 0, at)][-1:]
    if not last or not last[0]["type"]:
        return ""
    words = [last[0]["type"], (last[0]["trait"] or "").split("::")[-1], *re.findall(r"\w+", last[0]["of"] or "")]
    return "".join(word[:1].upper() + word[1:] for word in words)


def functions_in(text: str, file: str) -> List[Function]:
    """The functions of a file of src/, but for those that are not laid out as expected."""
    modules, found = modules_of(file), []
    for header in HEADER.finditer(text):
        indent, owner = header["indent"], modules
        if indent:
            block = owner_of(text, header.start())
            if not block:
                continue
            owner = (*modules, block)
        opened = re.compile(rf"^{indent}(?:\{{|(?:fn|pub|\)).* \{{)(?=\}}?$)", re.M).search(text, header.start())
        closed = opened and re.compile(rf"(?:^{indent}|\{{)\}}$", re.M).search(text, opened.end() - 1)
        if closed and not HEADER.search(text, header.end(), closed.start()):
            found.append(Function((*owner, header["name"]), header.start(), opened.end(), closed.end()))
    return found


def function_changed(before: str, after: str, file: str) -> Optional[Function]:
    """The function, as it was, whose body is all that differs."""
    for one in functions_in(before, file):
        front, back = before[: one.body], before[one.end - 1 :]
        if len(front) + len(back) <= len(after) and after.startswith(front) and after.endswith(back):
            return one
    return None


def names_from(libraries: Set[str], text: str) -> Set[str]:
    """The libraries, and the names that a file has from them."""
    paths = [path.split("::") for path in re.findall(r"^use ((?:\w+::)+\w+);$", text, re.M)]
    return libraries | {path[-1] for path in paths if path[0] in libraries}


# A call as rt fmt lays it out, with what stands before the name: a module or a type, or a dot.
CALL = re.compile(r"(?:(\w+)::|(\.))?\b(\w+)(?:::<[^<>()]*>)?\(")


class Crate:
    """A crate as it is: its functions, and what each reaches."""

    def __init__(self, folder: Path, libraries: List[str]):
        files = sorted((folder / "src").rglob("*.rt"))
        self.texts = {str(file.relative_to(folder)): file.read_text() for file in files}
        functions = {file: functions_in(text, file) for file, text in self.texts.items()}
        self.uses: Dict[Steps, Set[Steps]] = {one.steps: set() for each in functions.values() for one in each}
        modules = {step for file in self.texts for step in modules_of(file)}
        self.outside = {file: names_from({"std", *libraries} - modules, text) for file, text in self.texts.items()}
        # a function that was not found, a name for a name, or code in a contract: nothing is certain
        code = [re.sub(r"^ *//.*", "", text, flags=re.M) for text in self.texts.values()]
        code = [re.sub(r"^(?:pub )?trait [^\n]* \{$.*?^\}$", "", text, flags=re.M | re.S) for text in code]
        found = sum(len(re.findall(r"\bfn \w", text)) for text in code)
        self.certain = found == len(self.uses) and not any(re.search(r"^use .* as |⟦", text, re.M) for text in code)
        for file, each in functions.items():
            for one in each:
                self.uses[one.steps] = self.called(self.texts[file][one.start : one.end], file)
        self.add_proofs(folder)

    def called(self, text: str, file: str) -> Set[Steps]:
        """The functions that a function's text calls; where several may be meant, all of that name."""
        found: Set[Steps] = set()
        text, outside = re.sub(r"^ *//.*", "", text, flags=re.M), self.outside[file]
        for owner, dot, name in CALL.findall(text[text.index("fn ") + 3 :].partition("(")[2]):
            named = {steps for steps in self.uses if steps[-1] == name}
            if dot:
                found |= {steps for steps in named if steps[-2:-1] and steps[-2][0].isupper()}
            elif (owner or name) not in outside:
                found |= {steps for steps in named if steps[-2:-1] == (owner,)} or named
        return found

    def add_proofs(self, folder: Path) -> None:
        """What the files of proofs/ cite: a function's proofs count as its own, any other file as a step between."""
        files = {file.relative_to(folder / "proofs").with_suffix("").parts: file for file in (folder / "proofs").rglob("*.antt")}
        for steps in files:
            if not self.owner(steps):
                self.uses[steps] = set()
        for steps, file in files.items():
            for cited in re.findall(rf"Rattle\.{folder.name}\.proofs\.([\w.+-]+)", file.read_text()):
                owner, other = self.owner(steps), self.owner(tuple(cited.split(".")))
                if other and other != owner:
                    self.uses[owner].add(other)

    def owner(self, steps: Steps) -> Optional[Steps]:
        """The function or the proof file that a module belongs to."""
        return next((steps[:n] for n in range(len(steps), 0, -1) if steps[:n] in self.uses), None)

    def reached(self, steps: Steps) -> Set[Steps]:
        """What a function reaches, itself only where it does so by another or by its own name."""
        found: Set[Steps] = set()
        todo = list(self.uses[steps])
        while todo:
            one = todo.pop()
            if one not in found:
                found.add(one)
                todo += self.uses[one]
        return found

    def function_of(self, edited: Dict[str, str]) -> Optional[Steps]:
        """The function whose body is all that an edit changes."""
        (file, after), *more = edited.items()
        one = function_changed(self.texts[file], after, file) if not more and file in self.texts else None
        return one.steps if one else None

    def functions_of(self, edited: Dict[str, str]) -> List[Steps]:
        """The functions that an edit changes."""
        changed = []
        for file, after in edited.items():
            if file in self.texts:
                now = {one.steps: after[one.start : one.end] for one in functions_in(after, file)}
                before = self.texts[file]
                changed += [one.steps for one in functions_in(before, file) if now.get(one.steps) != before[one.start : one.end]]
        return changed

    def body_of(self, edited: Dict[str, str]) -> Optional[Steps]:
        """The function whose body is all that an edit changes, where it may be tried beside others."""
        (file, after), *more = edited.items()
        one = function_changed(self.texts[file], after, file) if self.certain and not more and file in self.texts else None
        if not one or one.steps in self.reached(one.steps):
            return None
        end = len(after) - len(self.texts[file]) + one.end
        return one.steps if self.called(after[one.start : end], file) <= self.uses[one.steps] else None

    def together(self, one: Steps, other: Steps) -> bool:
        """Whether neither of two functions has to do with the other."""
        beside = one[: len(other)] != other and other[: len(one)] != one
        return beside and one not in self.reached(other) and other not in self.reached(one)

    def fits(self, steps: Optional[Steps], room: List[Optional[Steps]]) -> bool:
        """Whether an edit of a function's body may go into a room with others."""
        return steps is not None and all(one is not None and self.together(steps, one) for one in room)

    def merged(self, edits: List[Dict[str, str]]) -> Dict[str, str]:
        """The files that have the changed body of each edit."""
        files = {name: text for edited in edits for name, text in edited.items() if name not in self.texts}
        for name, before in self.texts.items():
            at, text = 0, ""
            bodies = {}
            for after in (edited[name] for edited in edits if name in edited):
                one = function_changed(before, after, name)
                bodies[one] = after[one.body : len(after) - (len(before) - one.end)]
            for one in sorted(bodies, key=lambda function: function.body):
                text += before[at : one.body] + bodies[one]
                at = one.end
            if bodies:
                files[name] = text + before[at:]
        return files


# A line that refuses something: an error, a goal that is not proved, or a function that lacks its answers.
REFUSED = re.compile(r"^(\./|src/|specs/|proofs/)\S+: error|^note: \S+: it is not proved that|^fn \S+: no proof: expected answers")
# It only rests on what was refused elsewhere.
FOLLOWS = re.compile(r"was not admitted|: error: \d+ declarations? that depends? on|no proof: it calls")
# A name went missing, or the prover came to a limit of its own, so no fact was tried.
NAMES = re.compile(r"can be named from here|is not in scope|has no field|has no `|is no name|but its type has room for|ran out of")
# The edited text itself, or one that it does not go with.
OWN_TEXT = re.compile(r"^(\./)?(src|specs)/\S+: error")


def refusals(said: List[str]) -> List[str]:
    """The lines that refuse something, but for those that only follow."""
    return [line for line in said if REFUSED.match(line) and not FOLLOWS.search(line)]


def refusal_of_a_fact(said: List[str]) -> Tuple[str, str]:
    """The first line that refuses something, if it is of a fact, or else the line that does not show one."""
    found = refusals(said)
    own_text = next((line for line in found if OWN_TEXT.match(line)), "")
    if own_text or not found:
        return "", own_text
    nameless = [line for line in found if NAMES.search(line)]
    # where a name went missing, an answer may be lost, and a goal that has none shows nothing
    if found[0] not in nameless and (": error" in found[0] or not nameless):
        return found[0], ""
    return "", nameless[0]


def own_lines(said: List[str], crate: str, steps: Steps, files: Dict[str, str]) -> List[str]:
    """The lines that refuse a function, in their order: of its proof files, of its goals by the lines of its text, and its own."""
    folder, line_of = f"./proofs/{'/'.join(steps)}/", f"fn {crate}::{'::'.join(steps)}: "
    ranges = {name: (text.count("\n", 0, one.start) + 1, text.count("\n", 0, one.end) + 1) for name, text in files.items() if name.startswith("src/") for one in functions_in(text, name) if one.steps == steps}
    found = []
    for line in refusals(said):
        at = re.match(r"note: (\S+?):(\d+):\d+: ", line)
        inside = at and at[1] in ranges and ranges[at[1]][0] <= int(at[2]) <= ranges[at[1]][1]
        if inside or line.startswith((folder, line_of)):
            found.append(line)
    return found
