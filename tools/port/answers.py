#!/usr/bin/env python3
"""Turns the proofs of a crate that walk the code by hand into today's form: Invariants.antt and Answers.antt.

    python3 tools/port/answers.py NAME..     at the top of the repository, for crates whose dependencies are proved

It asks `rt check --generated DIR --old-names` for the old and the new name of each goal and step, and rewrites each proofs/F/Proof.antt
that ties its answers by `tie.spec`. What it can't turn is left as it was, and said. It proves nothing: `rt check` decides.
"""
import glob
import json
import os
import re
import subprocess
import sys
import tempfile

W = r"[^\s(){}.;,@\"«»\[\]]"
IDENT = re.compile(rf"(?<!{W})(?<!\.)({W}+)((?:\.{W}+)*)")
QUIET = re.compile(r'"(?:[^"\\\n]|\\.)*"|(?<![^\s(){}.;,@"«»])--[^\n]*')


class Left(Exception):
    """A proof that stays as it is, and why."""


def norm(name):
    name = re.sub(r"^(overflow|nonzero)[-_]", "", name)
    return re.sub(r"[-_]", "", name).lower()


class Names:
    """The old and new names of one function's goals and steps."""

    def __init__(self, row):
        self.row = row
        self.needs = row["needs"]
        self.at = [a[0] for a in row["asked_at"]]
        self.at_new = [a[1] for a in row["asked_at"]]
        self.parent, self.step, self.new = {}, {}, {}
        for place, new in zip(row["places"], row["places_by_name"]):
            self.parent[place[0]] = place[1]
            self.step[place[0]] = tuple(place[2])
            self.new[place[0]] = new
        self.called = {p[0]: p[3] for p in row["places"] if isinstance(p[3], str)}
        self.typed = {p[0]: t for p, t in zip(row["places"], row["typed"])}
        self.arms = {p[0]: a for p, a in zip(row["places"], row["arms"]) if a}
        self.raised = set()
        self.root = None
        self.source = ""
        self.parameters = bool(row["params"]) + 2 + 2 * len(row["loops"])
        self.by_norm = {}
        for place in self.parent:
            self.by_norm.setdefault(norm(place), place)

    def calls(self, tested):
        """Whether a test of `not` is of a name or a call: its fact speaks of what is tested, and not of its `not`. Of a field it does."""
        return not re.search(rf"!\s*{re.escape(re.sub(r'-.*', '', tested))}\s*\.", self.source)

    def place(self, written):
        return self.by_norm.get(norm(written))

    def up(self, place, steps):
        for _ in range(steps):
            place = self.parent.get(place)
            if place is None:
                return None
        return place

    def arm(self, place, name, rest):
        """The new path of a field of an arm of a match, or None: one new step may stand for several old ones."""
        best = None
        while place is not None:
            for new, step, path in self.arms.get(place, [None, 0, []])[2]:
                fits = [norm(p) for p in path] == [norm(p) for p in rest[:len(path)]]
                if norm(step) == norm(name) and fits and (best is None or len(path) > best[0]):
                    best = (len(path), [self.arms[place][0], new] + rest[len(path):])
            place = self.parent[place]
        return best[1] if best else None

    def renamed(self, place, name, tail):
        """What is after a call's field: its parameters are named today, and not numbered."""
        m = re.fullmatch(r"(auto|new)((?:\.1)*\.0)(.*)", ".".join(tail))
        while m and place is not None and not (self.step[place][0] and norm(self.step[place][0]) == norm(name)):
            place = self.parent[place]
        called = self.called.get(place) if m else None
        params = parameters(called) if called else None
        index = m[2].count(".1") if m else 0
        if not params or index >= len(params):
            return tail
        return [m[1], params[index]] + m[3].split(".")[1:]

    def here(self, place, name):
        return norm(self.step[place][0]) == norm(name)

    def field(self, place, name):
        """The new name of a field that is found at a place or above it."""
        if name in ("args", "requires", "ranges", "decreases", "well-formed"):
            return respelled(name)
        at = place
        while at is not None:
            old, new = self.step[at]
            if old and norm(old) == norm(name):
                return new
            at = self.parent[at]
        return None


def parameters(called):
    """The names of the parameters of a function of this repository, or None."""
    crate, *middle, name = called.split("::")
    for path in sorted(glob.glob(f"crates/{crate}/src/**/*.rt", recursive=True)):
        with open(path, encoding="utf-8") as f:
            text = f.read()
        if middle and os.path.basename(path) not in (middle[-1] + ".rt", "lib.rt", "mod.rt"):
            continue
        m = re.search(rf"\bfn {re.escape(name)}\s*(?:<[^>(]*>)?\(([^)]*)\)", text)
        if m:
            return re.findall(r"(?:^|,)\s*(?:mut\s+)?(\w+)\s*:", m[1])
    return None


def declarations(text):
    """The text as a head of comments and use lines, and declarations: each a list of lines that begins in the first column."""
    text = re.sub(r"(?m)^((?:pub )?use [^\n]*)\n((?:[ \t]+[^\n]*\n)+)(\}?)", lambda m: " ".join([m[1]] + m[2].split()) + " " * bool(m[3]) + m[3] + "\n" * (not m[3]), text)
    lines, head, parts, i = text.split("\n"), [], [], 0
    while i < len(lines) and (not lines[i].strip() or lines[i].startswith(("--", "use ", "pub use"))):
        head.append(lines[i])
        i += 1
    # a comment right above the first declaration belongs to it
    tail = []
    while head and (head[-1].startswith("--") or not head[-1].strip()) and any(h.startswith("use ") for h in head):
        tail.insert(0, head.pop())
    block = [t for t in tail if t.strip()]
    for line in lines[i:]:
        fresh = line and not line[0].isspace() and line[0] not in ")]}"
        if fresh and not line.startswith("--") and not line.startswith("unfolding") and block and named(block):
            if head_name(line) != named(block):
                parts.append(block)
                block = []
        elif fresh and line.startswith("--") and block and named(block):
            parts.append(block)
            block = []
        if line.strip() or block:
            block.append(line)
    if block and named(block):
        parts.append(block)
    for p in parts:
        while p and not p[-1].strip():
            p.pop()
    return head, parts


def head_name(line):
    m = re.match(rf"(?:(?:abbrev|unfoldable|opaque|pub|data|record|private)\s+)*({W}+)", line)
    return m[1] if m else None


def named(block):
    for line in block:
        if line and not line[0].isspace() and not line.startswith(("--", "unfolding")):
            return head_name(line)
    return None


def signature(block):
    """The lines of a declaration up to its first clause, and the rest."""
    name, seen = named(block), False
    for i, line in enumerate(block):
        if line and not line[0].isspace() and not line.startswith("--"):
            if seen and (line.startswith("unfolding") or head_name(line) == name):
                return block[:i], block[i:]
            seen = seen or head_name(line) == name
    return block, []


def by_tie(text):
    """The text with each place of `lts` written as one of `tie`; a name that a declaration gives to a place is written out."""
    text = re.sub(rf"(?<={W}\.loop\.)inv(?!{W})", "invariant", text)
    text = re.sub(rf"(?<=\.before\.)pre(?!{W})", "requires", text)
    place = rf"lts\.({W}+)(?:\s+\([^()]*\))?(?:\s+reads\.(?:Pre|Post))+(?:\s+(?:invariant|decreases)-{W}+)*"
    if not re.search(place, text):
        return text
    text = re.sub(place, r"tie.\1", text)
    for name, at in re.findall(rf"(?m)^(?:abbrev )?({W}+) : Type 0\n\1 =\s+tie\.({W}+)$", text):
        text = re.sub(rf"(?m)^(?:abbrev )?{re.escape(name)} : Type 0\n{re.escape(name)} =\s+tie\.{re.escape(at)}\n+", "", text)
        text = re.sub(rf"(?<=: ){re.escape(name)}(?!{W})", f"tie.{at}", text)
    for word, module in (("reads", "Reads"), ("lts", "Lts")):
        if not re.search(rf"(?<!{W})(?<!\.){word}\.", text):
            text = re.sub(rf"(?m)^use \S+\.{module} as {word}\n", "", text)
    return text


def convert(text, names, module, crate):
    text = by_tie(re.sub(rf"(?<=\.)ptr(?!{W})", "ref_ptr", text))
    own = parameters("::".join([crate] + module.split("."))) or []
    text = re.sub(rf"(?<=\.args\.)t(\d+)(?!{W})", lambda k: own[int(k[1]) - 1] if 0 < int(k[1]) <= len(own) else k[0], text)
    for name in own:
        if "_" in name:
            text = re.sub(rf"(?<=\.){name.replace('_', '-')}(?!{W})", name, text)
    head, parts = declarations(text)
    uses = [h for h in head if h.startswith(("use ", "pub use"))]
    comments = [h for h in head if h.startswith("--")]
    if not any(re.search(r"\bas tie$", u.strip()) for u in uses):
        raise Left("it is not tied")
    uses = [u for u in uses if not re.search(r"\.Statement\.\{statement\}|\.Tie as tie", u)]
    closing = [p for p in parts if any("tie.spec" in line or "tie.close" in line for line in p)]
    if len(closing) != 1:
        raise Left("it has no one closing declaration")
    parts.remove(closing[0])
    # the kinds of declarations
    needs, invs, others = {}, {}, []
    for p in parts:
        sig, _ = signature(p)
        flat = " ".join(line for line in sig if not line.startswith("--"))
        m = re.search(rf":\s*tie\.Need-({W}+)", flat)
        v = re.search(rf":\s*tie\.((?:invariant|decreases)-{W}+)", flat)
        if m and named(p) in flat.split(":")[0]:
            needs[named(p)] = (m[1], p)
        elif v:
            invs[named(p)] = (v[1], p)
        else:
            others.append(p)
    order = [n for n in re.findall(rf"{W}+", " ".join(closing[0]).split("tie.spec", 1)[1]) if n in needs or n in invs]
    wanted = [(n, needs[n][0]) for n in order if n in needs]
    match = align(wanted, names)
    inv_new, inv_rows = {}, {}
    for i, loop in enumerate(names.row["loops"]):
        inv_rows[norm(loop[0][0])] = (loop[0][1], loop[1], names.row["changed"][i])
    inv_text, ans_text, made = [], [], []
    renames = {}
    for n, (kind, p) in invs.items():
        what, loop = kind.split("-", 1)
        if norm(loop) not in inv_rows:
            if len(inv_rows) != 1:
                raise Left(f"no loop {loop}")
            loop = list(inv_rows)[0]
        new, vars_, changed = inv_rows[norm(loop)]
        renames[n] = f"{what}-{new}"
        inv_text.append(invariant(p, what, new, vars_, changed))
    helpers = {named(p): p for p in others}
    used_by_inv = set()
    frontier = " ".join(inv_text)
    grown = True
    while grown:
        grown = False
        for h, p in helpers.items():
            if h not in used_by_inv and re.search(rf"(?<!{W}){re.escape(h)}(?!{W})", frontier):
                used_by_inv.add(h)
                frontier += " ".join(p)
                grown = True
    places = set()
    for h, p in helpers.items():
        if h in used_by_inv:
            continue
        ans_text.append("\n".join(lemma(p, names, renames, places)))
        made.append(h)
    lemmas = {h: p for h, p in helpers.items() if "tie." in " ".join(signature(p)[0])}
    for n in order:
        if n not in match:
            continue
        index = match[n]
        body = answer(needs[n][1], n, names, index, renames, lemmas)
        if body:
            ans_text.append(body)
    path = f"Rattle.{crate}.proofs.{module}"
    out = {}
    inv_helpers = [pub(helpers[h]) for h in helpers if h in used_by_inv]
    if inv_text:
        out["Invariants.antt"] = "\n".join(comments + uses + [f"use {path}.Given as goal", ""] + ["\n\n".join(inv_helpers + inv_text)]) + "\n"
    if ans_text:
        more = [f"use {path}.Goals as goal"]
        for word, home in (("ap", "mathlib.Core.Path"), ("not", "mathlib.Core.Bool")):
            if "(ap not " in "".join(ans_text) and not any(re.search(rf"[{{ ]{word}[,}}]", u) for u in uses):
                more.append(f"use {home}.{{{word}}}")
        if "(opened c." in "".join(ans_text):
            more.append("use borrow.Enum.Refused.{opened}")
        if places:
            more.append(f"use {path}.Goals.{{{', '.join(sorted(places))}}}")
        if names.raised:
            more.append(f"use {path}.Lts.View.{{{', '.join(sorted(names.raised))}}}")
        wanted_helpers = [h for h in used_by_inv if re.search(rf"(?<!{W}){re.escape(h)}(?!{W})", " ".join(ans_text))]
        if wanted_helpers:
            more.append(f"use {path}.Invariants.{{{', '.join(sorted(wanted_helpers))}}}")
        if [t for t in ans_text if re.search(r": goal\.", t)]:
            out["Answers.antt"] = "\n".join(comments + uses + more + ["", "\n\n".join(ans_text)]) + "\n"
    return out


def pub(p):
    text = "\n".join(p)
    if re.search(r"(?m)^(abbrev |unfoldable |opaque )*pub ", text):
        return text
    return re.sub(r"(?m)^((?:abbrev |unfoldable |opaque )?)(?=\S+ *(?::|\())", r"\1pub ", text, count=1)


def align(wanted, names):
    """Which goal each old answer is for: by order, with answers left out that no goal asks for today."""
    goals = names.needs
    n, m = len(wanted), len(goals)
    score = [[0] * (m + 1) for _ in range(n + 1)]
    for i in range(n - 1, -1, -1):
        for j in range(m - 1, -1, -1):
            best = max(score[i + 1][j], score[i][j + 1])
            s = alike(wanted[i][1], goals[j])
            if s:
                best = max(best, score[i + 1][j + 1] + s)
            score[i][j] = best
    i = j = 0
    out = {}
    while i < n and j < m:
        s = alike(wanted[i][1], goals[j])
        if s and score[i][j] == score[i + 1][j + 1] + s:
            out[wanted[i][0]] = j
            i, j = i + 1, j + 1
        elif score[i][j] == score[i + 1][j]:
            i += 1
        else:
            j += 1
    return out


def alike(old, goal):
    a = norm(old)
    if a == norm(goal[0]) or a == norm(goal[1]):
        return 10
    cut = lambda s: re.sub(r"\d+$", "", s)
    if cut(a) == cut(norm(goal[0])):
        return 6
    return 0


def invariant(p, what, new, vars_, changed):
    sig, clauses = signature(p)
    text = "\n".join(clauses)
    m = re.match(rf"(unfolding[^\n]*\n)?({W}+)((?:\s+[^\s=]+)*)\s*=(.*)", text, re.S)
    if not m:
        raise Left("an invariant in more than one clause")
    params, body = m[3].split(), m[4]
    fields = [f"l.initial.{v}" if c else f"l.{v}" for v, c in zip(vars_, changed)] + [f"l.{v}" for v, c in zip(vars_, changed) if c]
    if len(params) != len(fields):
        raise Left(f"invariant-{new}: {len(params)} arguments for {len(fields)}")
    renamed = dict(zip(params, fields))
    renamed.pop("_", None)
    bound = set(re.findall(rf"λ ({W}+)\.", body)) | set(re.findall(rf"[({{]({W}+) :", body)) | set(re.findall(rf"\blet ({W}+)", body))
    comment = [line for line in sig if line.startswith("--")]
    name = f"{what}-{new}"
    if bound & set(renamed):
        body = re.sub(r"^\s*\n?", "", body)
        lets = "".join(f"\n    let {a} = {b} in" for a, b in renamed.items() if re.search(rf"(?<!{W}){re.escape(a)}(?!{W})", body))
        inner = "\n".join("    " + line.strip() if i == 0 else line for i, line in enumerate(body.split("\n")))
        return "\n".join(comment + [f"abbrev pub {name} : goal.{name}", f"{name} l ={lets}\n{inner}"])
    body = IDENT.sub(lambda k: renamed[k[1]] + k[2] if k[1] in renamed else k[0], body)
    return "\n".join(comment + [f"abbrev pub {name} : goal.{name}", f"{name} l ={body}"])


def resolve(names, variables, word, rest, lost):
    """A path in the new names, or None: `word` is a variable at a place."""
    place = variables[word]
    parts = rest.split(".")[1:]
    up = 0
    while up < len(parts) and parts[up] == "before":
        up += 1
    at = names.up(place, up)
    if at is None and up == len(parts):
        return None
    if up == len(parts):
        return ("place", at)
    # a place of the older kit may be gone, so that there are fewer steps: the field's name tells
    if at is None or parts[up] not in ("args", "requires", "ranges", "decreases", "well-formed") and not names.here(at, parts[up]):
        at = place
    arm = names.arm(place, parts[up], parts[up + 1:])
    if arm:
        return ("path", ".".join(["c"] + [respelled(t) for t in arm]))
    new = names.field(at, parts[up]) or names.field(names.root or at, parts[up])
    if new is None:
        lost.append(f"{word}{rest}")
        return None
    tail = [respelled(t) for t in names.renamed(at, parts[up], parts[up + 1:])]
    return ("path", ".".join(["c", new] + tail))


def respelled(field):
    return {"type-inv": "type_inv", "element-fits": "element_fits", "well-formed": "well_formed"}.get(field, field)


def paths(text, names, variables, renames, goal, lemmas, lost):
    """The text with each path through the facts in the new names; an alias of a place is a variable from there on."""
    variables = dict(variables)
    for a, path in re.findall(rf"\blet ({W}+) = ({W}+(?:\.{W}+)+\.given) in", text):
        used = re.sub(rf"\blet {re.escape(a)} = ", "", text)
        if path.split(".")[0] in variables and not re.search(rf"(?<!{W})(?<!\.){re.escape(a)}(?!{W})(?!\.[01])", used):
            text = re.sub(rf"([ \t]*)\blet {re.escape(a)} = {re.escape(path)} in[ \t]*(\n?)", lambda k: "" if k[2] else k[1], text, count=1)
            text = re.sub(rf"(?<!{W})(?<!\.){re.escape(a)}(?=\.[01])", path, text)
    # a name of what a match found, as in `let end = c.before.end in .. end.given.1`
    for a, path in re.findall(rf"\blet ({W}+) = ({W}+(?:\.before)*\.{W}+) in", text):
        used = re.sub(rf"\blet {re.escape(a)} = ", "", text)
        rests = re.findall(rf"(?<!{W})(?<!\.){re.escape(a)}(?!{W})((?:\.{W}+)*)", used)
        if path.split(".")[0] in variables and rests and all(r.startswith(".given.") for r in rests):
            text = re.sub(rf"([ \t]*)\blet {re.escape(a)} = {re.escape(path)} in[ \t]*(\n?)", lambda k: "" if k[2] else k[1], text, count=1)
            text = re.sub(rf"(?<!{W})(?<!\.){re.escape(a)}(?=\.given\.)", path, text)
    origin = {}
    aliases = re.findall(rf"\blet ({W}+) = ({W}+)((?:\.before)+) in", text)
    for a, v, rest in aliases:
        if v in variables:
            at = names.up(variables[v], rest.count(".before"))
            if at is None:
                at = variables[v]
            variables[a] = at
            origin[a] = origin.get(v, v)
            text = re.sub(rf"([ \t]*)\blet {re.escape(a)} = {re.escape(v)}{re.escape(rest)} in[ \t]*(\n?)", lambda k: "" if k[2] else k[1], text, count=1)

    # the parameters after a name of what a call gave, as in `let emit = c.before.emit in .. emit.new.0`
    for a, v, rest in re.findall(rf"\blet ({W}+) = ({W}+)((?:\.{W}+)+) in", text):
        parts = [r for r in rest.split(".")[1:] if r != "before"]
        if v in variables and len(parts) == 1:

            def named_today(m, v=v, field=parts[0]):
                return ".".join([m[1]] + names.renamed(variables[v], field, m[2].split(".")[1:]))

            text = re.sub(rf"(?<!{W})(?<!\.)({re.escape(a)})((?:\.{W}+)+)", named_today, text)

    def one(m):
        word, rest = m[1], m[2]
        if word in renames and not rest:
            return renames[word]
        if word in variables:
            rest = re.sub(r"(\.(?:if|loop)[^.]*\.branch)$", r"\1-raw", rest)
            r = resolve(names, variables, word, rest, lost) if rest else ("place", variables[word])
            if r is None:
                return m[0]
            if r[0] == "path":
                tested = re.search(r"\.if-not-([^.]*)\.(true|false)$", r[1])
                if tested and names.calls(tested[1]):
                    return f"(ap not {r[1]})"
                if re.search(r"-own\.keys\d*$", r[1]):
                    return f"(opened {r[1]})"
                return r[1]
            if r[1] == goal[1]:
                return "c"
            if goal[0]:
                return f"(goal.at.{goal[0]} c).{names.new[r[1]]}"
            word = origin.get(word, word)
            from_, steps = variables[word], 0
            while from_ != r[1]:
                from_, steps = names.parent[from_], steps + 1
            raw = "c" + ".before" * (steps + bool(names.typed[variables[word]]) if steps else 0)
            if not steps or not names.typed[r[1]] and names.parent[r[1]]:
                return raw
            names.raised.add("up-" + names.new[r[1]])
            return f"(up-{names.new[r[1]]} {'_ ' * names.parameters}{raw})"
        return m[0]

    out, at = [], 0
    for q in QUIET.finditer(text):
        out += [IDENT.sub(one, text[at:q.start()]), q[0]]
        at = q.end()
    text = "".join(out + [IDENT.sub(one, text[at:])])
    for a, tested in re.findall(rf"\blet ({W}+) = c\.if-not-({W}+) in", text):
        if names.calls(tested):
            text = re.sub(rf"(?<!{W})(?<!\.)({re.escape(a)}\.(?:true|false))(?!{W})", r"(ap not \1)", text)
    return text


def answer(p, old, names, index, renames, lemmas):
    sig, clauses = signature(p)
    new, place = names.needs[index][1], names.at[index]
    text = "\n".join(clauses)
    m = re.match(rf"((?:unfolding[^\n]*\n)*){re.escape(old)}((?:\s+[^\s=]+)*)\s*=(.*)", text, re.S)
    if not m:
        raise Left(f"{old}: an answer in more than one clause")
    unfolding, params, body = m[1], m[2].split(), m[3]
    if params and params[-1] == "κs":
        params.pop()
    if not unfolding and body.strip() in ("search rules", "search needs"):
        return ""
    if new.startswith("shape_of-"):
        return ""
    lost = []
    names.root = place
    if names.row["stem"]:
        body = measured(body)
        body = paths(body, names, {params[1]: place} if params[1:] else {}, renames, (new, place), lemmas, lost)
    else:
        body = paths(body, names, {params[0]: place} if params else {}, renames, (new, place), lemmas, lost)
    comment = [line for line in sig if line.startswith("--")]
    more = params[1:]
    head = names.row["stem"] + new
    if names.row["stem"]:
        more, params = ["c"] + more[1:], ["t"]
    if unfolding:
        unfolding = re.sub(rf"(?<!{W}){re.escape(old)}(?!{W})", head, unfolding)
    lines = comment + [f"pub {head} : goal.{head}"] + ([unfolding.rstrip("\n")] if unfolding else [])
    lines.append(" ".join([head, params[0] if names.row["stem"] else "c" if params else ""] + more).rstrip() + " =" + body)
    return "\n".join(lines)


def measured(body):
    """In a cycle the old precondition was a pair, of the measure and of what is required."""
    for name, path in re.findall(rf"\blet ({W}+) = ({W}+(?:\.before)*\.requires) in", body):
        body = re.sub(rf"(?<!{W})(?<!\.){re.escape(name)}\.0(?=[.\s)}},;])", path[: -len("requires")] + "decreases", body)
        body = re.sub(rf"(?<!{W})(?<!\.){re.escape(name)}\.1(?=[.\s)}},;])", name, body)
    body = re.sub(r"\.requires\.0(?![0-9])", ".decreases", body)
    return re.sub(r"\.requires\.1(?![0-9])", ".requires", body)


def convert_cycle(text, rows, module, crate):
    """Turns the proof of a cycle of functions: `rows` has the names of each function's goals by the function's name."""
    head, parts = declarations(text)
    uses = [h for h in head if h.startswith(("use ", "pub use"))]
    text_uses = re.sub(r"\n +", " ", "\n".join(h for h in head if not h.startswith("--")))
    member = {a: f for f, a in re.findall(rf"\.Lts-({W}+) as\s+({W}+)", text_uses)}
    if not member:
        raise Left("no function of a cycle is found")
    comments = [h for h in head if h.startswith("--")]
    keep = [u for u in text_uses.split("\n") if u.startswith(("use ", "pub use"))]
    dropped = r"\.(Reads|Kinds|Lts-" + W + r"+) as\b|\.Tie\.\{|\{\s*statement,?\s*\}|borrow\.Fn\.(PlainCycle|Kinds)\b"
    keep = [u for u in keep if not re.search(dropped, u)]
    names = {f: Names(row) for f, row in rows.items()}
    called = {}
    for row in rows.values():
        for f, ps in row["params"].items():
            called[f.split("::")[-1]] = ps
    closing = [p for p in parts if any(re.search(r"=\s*close\b", line) for line in ["\n".join(p)])]
    if len(closing) != 1:
        raise Left("it has no one closing declaration")
    parts.remove(closing[0])
    needs, invs, measures, others = {}, {}, {}, []
    for p in parts:
        sig, clauses = signature(p)
        flat = " ".join(sig)
        m = re.search(rf":\s*\({W}+\s*:\s*ℕ\)\s*→\s*({W}+)\.Need-({W}+)", flat)
        v = re.search(rf":\s*({W}+)\.((?:invariant|decreases)-{W}+)", flat)
        d = re.search(rf":\s*Measures\s+{W}+\s+({W}+)\.ps", flat)
        if m and m[1] in member:
            needs[named(p)] = (member[m[1]], m[2], p)
        elif v and v[1] in member:
            invs[named(p)] = (member[v[1]], v[2], p)
        elif d:
            kinds = re.search(rf"proofs\.(?:{W}+\.)*({W}+)\.Kinds as\s+{re.escape(d[1])}(?!{W})", text_uses)
            measures[kinds[1]] = p
        elif re.search(rf":\s*ℕ\s*→\s*(In\b|{W}+\.Claims)", flat):
            continue
        else:
            others.append(p)
    order = [n for n in re.findall(rf"{W}+", " ".join(closing[0]).split("close", 1)[1]) if n in needs]
    inv_text, ans_text = [], []
    for f, p in sorted(measures.items()):
        _, clauses = signature(p)
        m = re.match(rf"{W}+\s+{W}+\s+({W}+)\s*=(.*)", "\n".join(clauses), re.S)
        if not m or f not in called:
            raise Left(f"the measure of {f}")

        def argument(k, f=f):
            return "l." + called[f][len(re.findall(r"\.1", k[1]))]

        body = re.sub(rf"(?<!{W})(?<!\.){re.escape(m[1])}((?:\.1)*)\.0(?![0-9])", argument, m[2])
        inv_text.append(f"abbrev pub decreases-{f} : goal.decreases-{f}\ndecreases-{f} l ={body}")
    renames = {}
    for n, (f, kind, p) in invs.items():
        what, loop = kind.split("-", 1)
        found = [i for i, row in enumerate(rows[f]["loops"]) if norm(row[0][0]) == norm(loop)]
        if not found:
            raise Left(f"no loop {loop} of {f}")
        (_, new), vars_ = rows[f]["loops"][found[0]]
        made = f"{f}-{new}"
        renames[n] = f"{what}-{made}"
        inv_text.append(invariant(p, what, made, vars_, rows[f]["changed"][found[0]]))
    helpers = {named(p): p for p in others}
    used_by_inv, frontier, grown = set(), " ".join(inv_text), True
    while grown:
        grown = False
        for h, p in helpers.items():
            if h not in used_by_inv and re.search(rf"(?<!{W}){re.escape(h)}(?!{W})", frontier):
                used_by_inv.add(h)
                frontier += " ".join(p)
                grown = True
    for h, p in helpers.items():
        if any(f"{alias}." in " ".join(signature(p)[0]) for alias in member):
            raise Left(f"the lemma {h} speaks of a place")
        if h not in used_by_inv:
            ans_text.append("\n".join(p))
    for f, row in rows.items():
        wanted = [(n, needs[n][1]) for n in order if needs[n][0] == f]
        match = align(wanted, names[f])
        for n, _ in wanted:
            if n in match:
                body = answer(needs[n][2], n, names[f], match[n], renames, {})
                if body:
                    ans_text.append(body)
    path = f"Rattle.{crate}.proofs.{module}"
    out = {}
    inv_helpers = [pub(helpers[h]) for h in helpers if h in used_by_inv]
    out["Invariants.antt"] = "\n".join(comments + keep + [f"use {path}.Given as goal", ""] + ["\n\n".join(inv_helpers + inv_text)]) + "\n"
    more = [f"use {path}.Goals as goal"]
    for word, home in (("ap", "mathlib.Core.Path"), ("not", "mathlib.Core.Bool")):
        if "(ap not " in "".join(ans_text) and not any(re.search(rf"[{{ ]{word}[,}}]", u) for u in keep):
            more.append(f"use {home}.{{{word}}}")
    wanted_helpers = [h for h in used_by_inv if re.search(rf"(?<!{W}){re.escape(h)}(?!{W})", " ".join(ans_text))]
    if wanted_helpers:
        more.append(f"use {path}.Invariants.{{{', '.join(sorted(wanted_helpers))}}}")
    if [t for t in ans_text if re.search(r": goal\.", t)]:
        out["Answers.antt"] = "\n".join(comments + keep + more + ["", "\n\n".join(ans_text)]) + "\n"
    return out


def lemma(p, names, renames, places):
    sig, clauses = signature(p)
    flat = "\n".join(sig)
    if "tie." not in flat:
        return p
    variables = {}
    for var, place in re.findall(rf"\(({W}+) : tie\.({W}+)[^)]*\)", flat):
        at = names.place(place)
        if at is None:
            raise Left(f"no place {place}")
        variables[var] = at
        places.add(names.new[at])
    # a lemma whose type is an arrow from a place: the place's facts are its first parameter
    arrow = re.search(rf"(?<!{W}){re.escape(named(p))} : tie\.({W}+) →", flat)
    if arrow:
        at = names.place(arrow[1])
        if at is None:
            raise Left(f"no place {arrow[1]}")
        first = re.search(rf"(?m)^{re.escape(named(p))} ({W}+)", "\n".join(clauses))
        if first:
            variables[first[1]] = at
        places.add(names.new[at])
        flat = flat.replace(f": tie.{arrow[1]} →", f": {names.new[at]} →")

    def binder(m):
        return f"({m[1]} : {names.new[names.place(m[2])]})"

    lost = []
    names.root = None
    flat = re.sub(rf"\(({W}+) : tie\.({W}+)[^)]*\)", binder, flat)
    goal = (None, None)
    keep = lambda t: paths(t, names, variables, renames, goal, {}, lost)
    return (keep(flat) + "\n" + keep("\n".join(clauses))).split("\n")


def listed(crate):
    with tempfile.TemporaryDirectory() as d:
        r = subprocess.run(["rt", "check", "--generated", d, "--old-names"], cwd=f"crates/{crate}", capture_output=True, text=True, check=False)
        try:
            with open(os.path.join(d, "names.json"), encoding="utf-8") as f:
                return json.load(f)
        except OSError:
            print(f"{crate}: no list of names:\n" + (r.stdout + r.stderr)[-1500:])
            return None


def main(crates):
    for crate in crates:
        rows = listed(crate)
        if rows is None:
            continue
        turned = 0
        top = f"crates/{crate}/proofs"
        for path in sorted(glob.glob(top + "/**/Proof.antt", recursive=True)):
            folder = os.path.dirname(path)
            module = os.path.relpath(folder, top).replace("/", ".")
            row = rows.get(f"Rattle-{crate}-proofs.{module}.Lts")
            stem = f"Rattle-{crate}-proofs.{module}.Lts-"
            cycle = {key[len(stem):]: r for key, r in rows.items() if key.startswith(stem)}
            with open(path, encoding="utf-8") as f:
                text = f.read()
            try:
                if cycle:
                    made = convert_cycle(text, cycle, module, crate)
                elif row is None:
                    raise Left("no such function is listed")
                else:
                    its = Names(row)
                for source in glob.glob(f"crates/{crate}/src/{os.path.dirname(module.replace('.', '/'))}.rt"):
                    with open(source, encoding="utf-8") as f:
                        its.source = f.read()
                made = convert(text, its, module, crate)
            except Left as why:
                print(f"left: {path}: {why}")
                continue
            except Exception as why:  # a form that was not thought of
                print(f"left: {path}: {type(why).__name__}: {why}")
                continue
            for name, body in made.items():
                with open(os.path.join(folder, name), "w", encoding="utf-8") as f:
                    f.write(body)
            os.remove(path)
            turned += 1
        print(f"{crate}: {turned} proofs turned")


if __name__ == "__main__":
    main(sys.argv[1:])
