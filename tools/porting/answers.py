#!/usr/bin/env python3
"""Turns the Proof.antt files of a crate, which walk a function's places, to Invariants.antt and Answers.antt.

usage: tools/porting/answers.py CRATE NAMES.json [FUNCTION..]

NAMES.json is what `rattle check --generated DIR --old-names` writes. What a file keeps by hand is marked LOOK.
"""

import json
import re
import sys
from pathlib import Path

ID = r"[^\s(){}\[\];,.`\"=λ→]+"
PLACED = re.compile(r"(?:\((\S+) : tie\.(\S+?)(?: [^)]*)?\)|tie\.(\S+)(?: invariant\S* decreases\S*)*)(?: →| (?=\())\s*(.*)", re.S)
FIELDS = {"inv": "invariant", "taken": "true", "left": "false", "came": "branch", "pre": "requires"}


def norm(s):
    s = s.replace("-", "_").lower()
    return s[:-4] if s.endswith("_lem") else s


def split_items(text):
    """Top-level declarations, each with the comment above it."""
    items, cur = [], []
    for line in text.splitlines():
        starts = bool(line) and not line[0].isspace()
        if starts and cur and not (cur[-1].startswith("--")) and not same_decl(cur, line):
            items.append("\n".join(cur).rstrip("\n"))
            cur = []
        cur.append(line)
    if cur:
        items.append("\n".join(cur).rstrip("\n"))
    return [i for i in items if i.strip()]


def same_decl(cur, line):
    head = next((l for l in cur if l and not l.startswith("--")), "")
    if head.startswith("use ") or head.startswith("module ") or line.startswith(("use ", "module ", "--", "pub ", "abbrev ")):
        return False
    name = re.sub(r"^(pub |abbrev |unfoldable )*", "", head).split(" ")[0]
    return line.startswith("unfolding ") or line.split(" ")[0] == name or line.startswith(")") or line.startswith("}")


def split_args(s):
    out, i = [], 0
    while i < len(s):
        if s[i].isspace():
            i += 1
            continue
        if s[i] == "(":
            d, j = 0, i
            while True:
                d += (s[j] == "(") - (s[j] == ")")
                j += 1
                if d == 0:
                    break
        else:
            j = i
            while j < len(s) and not s[j].isspace():
                j += 1
        out.append(s[i:j])
        i = j
    return out


class Fn:
    def __init__(self, path, data, module):
        self.path, self.data, self.module = path, data, module
        self.places = {p[0]: p for p in data["places"]}
        new = data["places_by_name"]
        self.newplace = {norm(p[0]): n for p, n in zip(data["places"], new)}
        self.byname = {norm(p[0]): p for p in data["places"]}
        self.steps = {}
        for p in data["places"]:
            if p[2][0]:
                self.steps.setdefault(norm(p[2][0]), p[2][1])
        self.extra = {}
        for p in data["places"]:
            for a, b in p[4]:
                self.extra[a] = b
        self.needs = data["needs"]
        self.helpers = {}  # name -> "place" for a name of a place; or the place that its first argument is at
        self.items = {}
        self.looks = []

    def chain(self, place):
        """The steps on the way to a place, the last first."""
        steps = {}
        while place is not None:
            p = self.byname.get(norm(place))
            if p is None:
                break
            if p[2][0]:
                steps.setdefault(norm(p[2][0]), p[2][1])
            for a, b in p[4]:
                steps.setdefault(norm(a), b)
            place = p[1]
        return steps

    # ---- terms
    def term(self, text, env, need, place=None):
        if need is not None:
            place = next((a[0] for (o, n), a in zip(self.needs, self.data["asked_at"]) if n == need), place)
        steps = {**self.steps, **self.chain(place)}
        text = self.lets(text, env)
        changed = True
        while changed:
            changed = False
            for h, kind in self.helpers.items():
                if kind != "place":
                    continue
                pat = re.compile(rf"\({re.escape(h)} ({ID}(?:\.before)*)\)|(?<![\w.'-]){re.escape(h)} ({ID}(?:\.before)*)(?![\w'.-])")
                def rep(m):
                    arg = m.group(1) or m.group(2)
                    return "c" if arg.split(".")[0] in env else m.group(0)
                t = pat.sub(rep, text)
                if t != text:
                    text, changed = t, True
                    env.setdefault("c", True)
        for h, kind in self.helpers.items():
            if kind == "place" or kind is None:
                continue
            pat = re.compile(rf"(?<![\w.'-])({re.escape(h)}) (\({ID}(?:\.before)*\)|{ID}(?:\.before)*)(?![\w'.-])")
            def rep2(m):
                if m.group(2).strip("()").split(".")[0] not in env:
                    return m.group(0)
                place = self.newplace.get(norm(kind), kind)
                if need is None:
                    return f"{m.group(1)} c"
                at = self.at(need)
                if at == place:
                    return f"{m.group(1)} c"
                return f"{m.group(1)} (goal.at.{need} c).{place}"
            text = pat.sub(rep2, text)
        pat = re.compile(rf"(?<![\w.'-])({ID})((?:\.(?:{ID}))+)")
        def rep3(m):
            if m.group(1) not in env:
                return m.group(0)
            fields = m.group(2)[1:].split(".")
            while fields and fields[0] == "before":
                fields = fields[1:]
            if not fields:
                return "c"
            f = fields[0]
            if norm(f) in steps:
                fields[0] = steps[norm(f)]
            told = fields[0] if fields[0] == "args" or (len(fields) > 1 and fields[1] in ("taken", "left") and not re.match(r"if-|loop\S*-test", fields[0])) else None
            if told is None:
                fields = [FIELDS.get(x, x) for x in fields]
            return "c." + ".".join(fields)
        text = pat.sub(rep3, text)
        for a in [a for a in env if a != "c"]:
            text = re.sub(rf"(?<![\w.'-]){re.escape(a)}(?![\w'.-])", "c", text)
        return text

    def lets(self, text, env):
        place = rf"{ID}(?:\.before)*"
        pos = 0
        while True:
            m = re.compile(rf"let ({ID})(?: : tie\.[^=]*)? = ").search(text, pos)
            if not m:
                return text
            end = text.find(" in", m.end())
            expr = text[m.end():end].strip()
            e = re.match(rf"^\(?(?:({ID}) )?({ID})((?:\.before)*)\)?((?:\.before)*)$", expr)
            if e and e.group(2) in env and (e.group(1) is None or self.helpers.get(e.group(1)) == "place"):
                env[m.group(1)] = True
                cut = text[end + 3:]
                text = text[:m.start()] + cut.lstrip(" \n")
                pos = m.start()
            else:
                pos = m.end()

    def at(self, need):
        for (o, n), (po, pn) in zip(self.needs, self.data["asked_at"]):
            if n == need:
                return pn
        return None

    # ---- the file
    def convert(self):
        text = self.path.read_text()
        items = split_items(text)
        head, uses, decls = [], [], []
        for it in items:
            lines = it.splitlines()
            body = [l for l in lines if not l.startswith("--")]
            if body and body[0].startswith("use "):
                head += [l for l in lines if l.startswith("--")]
                uses += body
            else:
                decls.append(it)
        uses = [u for u in uses if not re.search(r"\.(Statement|Tie)(\.| as )", u)]
        spec = decls[-1]
        m = re.search(r"tie\.spec\s+(.*)\)\s*$", spec, re.S)
        simple = re.search(r"tie\.close\s*\(?\s*tie\.spec\)?\s*$", spec, re.S)
        if not m and not simple:
            raise ValueError("no tie.spec")
        args = split_args(m.group(1)) if m else []
        self.unf = [l for l in spec.splitlines() if l.startswith("unfolding")]
        named, out, inv_out = {}, [], []
        self.invs = {}
        for it in decls[:-1]:
            self.note(it)
        lead = 0
        while lead < len(args) and re.match(r"(invariant|decreases)-", self.kind_of(args[lead]) or ""):
            lead += 1
        for a in args[:lead]:
            inv_out.append(self.invariant(a))
        rest = args[lead:]
        assign = self.assign(rest)
        done = set()
        for it in decls[:-1]:
            t = self.decl(it, rest, assign, done)
            if t:
                out.append(t)
        for need, arg in assign:
            if arg in self.items and self.items[arg]["need"]:
                continue
            if re.match(r"^\(λ c( κs)?\. search rules\)$", arg) or arg == "_":
                continue
            lam = re.match(rf"^\(λ ({ID})((?: {ID})*)\. (.*)\)$", arg, re.S)
            if need is None:
                self.looks.append(f"an answer of no goal: {arg}")
                out.append("-- LOOK: " + arg.replace("\n", "\n-- "))
                continue
            if lam and lam.group(3) == "search rules":
                continue
            if lam:
                extra = "".join(" " + a for a in lam.group(2).split() if a not in ("κs", "κ"))
                out.append(f"pub {need} : goal.{need}\n" + "".join(u + "\n" for u in self.unf) + f"{need} c{extra} = " + self.term(lam.group(3), {lam.group(1): True, "c": True}, need))
            else:
                out.append(f"pub {need} : goal.{need}\n{need} c = {arg} c -- LOOK")
        text = "\n\n".join(out)
        folder = self.path.parent
        mod = self.module
        ctx = sorted({n for n in self.newplace.values() if n not in ("Untold",) and re.search(rf"(?<![\w.'-]){re.escape(n)}(?![\w'-])", re.sub(r"\(goal\.at\.\S+ \w+\)\.\S+", "", text))})
        if inv_out:
            (folder / "Invariants.antt").write_text("\n".join(uses) + f"\nuse {mod}.Given as goal\n\n" + "\n\n".join(inv_out) + "\n")
        if out:
            g = f"use {mod}.Goals as goal\n" + (f"use {mod}.Goals.{{{', '.join(ctx)}}}\n" if ctx else "")
            (folder / "Answers.antt").write_text("\n".join(head + uses) + "\n" + g + "\n" + text + "\n")
        elif head:
            pass
        self.path.unlink()
        return self.looks



    def note(self, it):
        """Learn what a declaration is."""
        lines = [l for l in it.splitlines() if not l.startswith("--")]
        if lines[0].startswith("module _"):
            m = re.match(r"module _ \((\w+) : tie\.(\S+?)(?: [^)]*)?\)", lines[0])
            for l in lines[1:]:
                s = re.match(rf"  (?:pub |abbrev )*({ID}) : (.*)$", l)
                if s and m:
                    t = s.group(2)
                    self.helpers[s.group(1)] = "place" if t.startswith("tie.") and not t.startswith("tie.Need") else m.group(2)
            return
        sig = re.match(rf"(?:pub |abbrev )*({ID}) : (.*)$", lines[0])
        if not sig:
            return
        name, t = sig.group(1), sig.group(2)
        need = re.match(r"tie\.Need-(\S+)", t)
        inv = re.match(r"tie\.((?:invariant|decreases)-\S+)", t)
        self.items[name] = {"need": need.group(1) if need else None, "inv": inv.group(1) if inv else None, "text": it}
        m = PLACED.match(t)
        if m:
            self.helpers[name] = "place" if m.group(4).startswith("tie.") else (m.group(2) or m.group(3))

    def kind_of(self, arg):
        it = self.items.get(arg)
        return it and it["inv"]

    def assign(self, rest):
        olds = [norm(o) for o, n in self.needs]
        news = [n for o, n in self.needs]
        res = [None] * len(rest)
        if len(rest) == len(news):
            return list(zip(news, rest))
        fixed = []
        for i, a in enumerate(rest):
            it = self.items.get(a)
            if it and it["need"] and norm(it["need"]) in olds:
                fixed.append((i, olds.index(norm(it["need"]))))
        fixed = [(-1, -1)] + fixed + [(len(rest), len(news))]
        for (i0, j0), (i1, j1) in zip(fixed, fixed[1:]):
            if i1 - i0 == j1 - j0:
                for k in range(i0 + 1, i1):
                    res[k] = news[j0 + k - i0]
            if i1 < len(rest):
                res[i1] = news[j1]
        return list(zip(res, rest))

    def invariant(self, name):
        it = self.items[name]
        lines = [l for l in it["text"].splitlines() if not l.startswith("--")]
        comment = [l for l in it["text"].splitlines() if l.startswith("--")]
        kind = it["inv"]
        word, loop = kind.split("-", 1)
        (old, new), vars_ = next(((l[0], l[1]) for l in self.data["loops"] if norm(l[0][0]) == norm(loop)), ((loop, loop), []))
        li = [norm(l[0][0]) for l in self.data["loops"]].index(norm(loop))
        changed = self.data["changed"][li]
        unf = [l for l in lines[1:] if l.startswith("unfolding")]
        body = "\n".join(l for l in lines[1:] if not l.startswith("unfolding"))
        m = re.match(rf"{re.escape(name)}((?: {ID})*) =\s*(.*)$", body, re.S)
        params, term = m.group(1).split(), m.group(2)
        want = len(vars_) + sum(changed)
        if len(params) != want:
            self.looks.append(f"{name}: {len(params)} parameters, {want} expected of {vars_} {changed}")
        sub = {}
        k = 0
        for v, ch in zip(vars_, changed):
            if k < len(params):
                sub[params[k]] = f"l.initial.{v}" if ch else f"l.{v}"
            k += 1
        for v, ch in zip(vars_, changed):
            if ch:
                if k < len(params):
                    sub[params[k]] = f"l.{v}"
                k += 1
        term = re.sub(rf"(?<![\w.'-]){ID}", lambda m: sub.get(m.group(0), m.group(0)) if m.group(0) in sub else m.group(0), term)
        n = f"{word}-{new}"
        return "\n".join(comment + [f"abbrev pub {n} : goal.{n}"] + unf + [f"{n} l = {term}"])

    def decl(self, it, rest, assign, done):
        lines = it.splitlines()
        comment = [l for l in lines if l.startswith("--")]
        body = [l for l in lines if not l.startswith("--")]
        if body[0].startswith("module _"):
            m = re.match(r"module _ \((\w+) : tie\.(\S+?)(?: [^)]*)?\)( .*)?where", body[0])
            if not m:
                return it
            place = self.newplace.get(norm(m.group(2)), m.group(2))
            subs, cur = [], []
            for l in body[1:]:
                if re.match(rf"  (?:pub |abbrev )*({ID}) : ", l) and cur:
                    subs.append(cur)
                    cur = []
                cur.append(l)
            if cur:
                subs.append(cur)
            kept = []
            own = [h.group(1) for s in subs for l in s for h in [re.match(rf"  (?:pub |abbrev )*({ID}) : tie\.", l)] if h]
            for s in subs:
                n = re.match(rf"  (?:pub |abbrev )*({ID}) : ", next((l for l in s if l.strip() and not l.strip().startswith("--")), ""))
                if n and self.helpers.get(n.group(1)) == "place":
                    continue
                env = {m.group(1): True, "c": True, **{h: True for h in own}}
                kept.append(self.term("\n".join(s), env, None, m.group(2)))
            if not kept:
                return ""
            return "\n".join(comment + [f"module _ (c : {place}){m.group(3) or ' '}where".replace("  ", " ")] + kept)
        sig = re.match(rf"(?:pub |abbrev )*({ID}) : (.*)$", body[0])
        if not sig:
            return it
        name, t = sig.group(1), sig.group(2)
        info = self.items[name]
        if info["inv"]:
            return ""
        if info["need"]:
            need = next((n for n, a in assign if a == name), None)
            if need is None:
                self.looks.append(f"{name} answers {info['need']}, which is no goal")
                need = info["need"]
            rest_lines = "\n".join(body[1:])
            unf = [l for l in body[1:] if l.startswith("unfolding")]
            term = "\n".join(l for l in body[1:] if not l.startswith("unfolding"))
            m = re.match(rf"{re.escape(name)} (\S+)((?: {ID})*?) =(\s*)(.*)$", term, re.S)
            if not m:
                self.looks.append(f"{name}: not read")
                return it
            extra = "".join(" " + a for a in m.group(2).split() if a not in ("κs", "κ"))
            env = {m.group(1): True, "c": True}
            return "\n".join(comment + [f"pub {need} : goal.{need}"] + unf + [f"{need} c{extra} =" + m.group(3) + self.term(m.group(4), env, need)])
        if self.helpers.get(name) == "place":
            return ""
        pl = PLACED.match(t)
        if pl:
            oldplace = pl.group(2) or pl.group(3)
            place = self.newplace.get(norm(oldplace), oldplace)
            more = []
            for l in body[1:]:
                if re.match(rf"(unfolding |{re.escape(name)} )", l):
                    break
                more.append(l)
            arrow = "→ " if re.search(r"→\s*$", t[: pl.start(4)]) else ""
            newt = arrow + self.term("\n".join([pl.group(4)] + more), {pl.group(1) or "c": True, "c": True}, None, oldplace)
            body = body[:1] + body[1 + len(more):]
            unf = [l for l in body[1:] if l.startswith("unfolding")]
            term = "\n".join(l for l in body[1:] if not l.startswith("unfolding"))
            m = re.match(rf"{re.escape(name)} (\S+)((?: {ID})*?) =(\s*)(.*)$", term, re.S)
            if not m:
                self.looks.append(f"{name}: not read")
                return it
            word = "abbrev " if body[0].startswith("abbrev ") else ""
            return "\n".join(comment + [f"{word}{name} : (c : {place}) {newt}"] + unf + [f"{name} c{m.group(2)} =" + m.group(3) + self.term(m.group(4), {m.group(1): True, "c": True}, None, oldplace)])
        return it


def main(argv):
    crate, names = argv[0], json.load(open(argv[1]))
    only = set(argv[2:])
    root = Path("crates") / crate / "proofs"
    for p in sorted(root.glob("**/Proof.antt")):
        fn = ".".join(p.parent.relative_to(root).parts)
        if only and fn not in only:
            continue
        key = f"Rattle-{crate}-proofs.{fn}.Lts"
        if key not in names:
            print(f"{crate} {fn}: no names")
            continue
        try:
            looks = Fn(p, names[key], f"Rattle.{crate}.proofs.{fn}").convert()
            for l in looks:
                print(f"{crate} {fn}: LOOK {l}")
        except Exception as e:
            print(f"{crate} {fn}: left: {type(e).__name__} {e}")


main(sys.argv[1:])
