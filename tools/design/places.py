#!/usr/bin/env python3
"""Lists the places of the points of docs/DESIGN-PASS.md in the sources, or counts them.

    python3 tools/design/places.py [--count] [POINT..] [--at COMMIT]

A point is 1 to 8. The list is what a reader then judges: it errs on the side of too many places.
"""

import collections
import os
import re
import subprocess
import sys
import tempfile


def sources(root, ending, part):
    for folder, _, names in sorted(os.walk(os.path.join(root, "crates"))):
        if f"/{part}" not in folder + "/" or "/out/" in folder + "/":
            continue
        for name in sorted(names):
            if name.endswith(ending):
                path = os.path.join(folder, name)
                with open(path, encoding="utf-8") as f:
                    yield os.path.relpath(path, root), f.read().split("\n")


def functions(lines):
    """Yields (first line, name, head as one line, body's lines) of each function."""
    i = 0
    while i < len(lines):
        m = re.match(r"(\s*)(?:pub(?:\(\w+\))? )?(?:const )?fn (\w+)", lines[i])
        if not m:
            i += 1
            continue
        indent, j, head = m.group(1), i, []
        while j < len(lines) and lines[j].rstrip() != indent + "{" and not (
            lines[j].rstrip().endswith("{") and not lines[j].strip().startswith(("ensures", "requires", "×"))
            and "ensures" not in lines[j]
        ):
            head.append(lines[j].strip())
            j += 1
        head.append(lines[j].strip() if j < len(lines) else "")
        k = j
        while k < len(lines) and lines[k].rstrip() != indent + "}":
            k += 1
        yield i + 1, m.group(2), " ".join(head), lines[j + 1 : k]
        i = k + 1


def structs(lines, word):
    for i, line in enumerate(lines):
        m = re.match(rf"\s*(?:pub )?{word} (\w+)", line)
        if m:
            j = i
            while j < len(lines) and not lines[j].startswith("}"):
                j += 1
            yield i + 1, m.group(1), lines[i + 1 : j]


def point_1(root):
    for path, lines in sources(root, ".rt", "src"):
        for at, name, body in structs(lines, "enum"):
            bare = [l for l in body if re.match(r"\s+\w+,$", l)]
            held = [l for l in body if re.match(r"\s+\w+\(.*\),$", l)]
            if len(held) == 1 and bare or len(held) >= 1 and len(held) + len(bare) <= 3:
                yield f"{path}:{at}: enum {name}: of the shape of Option or Result"
        for at, name, body in structs(lines, "struct"):
            for l in body:
                if re.match(r"\s+(pub )?(ok|found|more|over|some|numeric): bool", l) or re.match(
                    r"\s+(pub )?(stop|outcome): u64", l
                ):
                    yield f"{path}:{at}: struct {name}: a flag beside a value: {l.strip()}"
        run = []
        for i, line in enumerate(lines + ["", "", "x"]):
            m = re.match(r"\s*(?:pub )?const (\w+): (u8|u64|usize) = (\d+);", line)
            if m:
                run.append((i + 1, m.group(1), int(m.group(3))))
            elif line.strip() and not line.strip().startswith("//"):
                numbers = [v for _, _, v in run]
                if len(run) >= 3 and all(b - a in (0, 1) for a, b in zip(numbers, numbers[1:])):
                    yield f"{path}:{run[0][0]}: numbers for kinds: {run[0][1]} .. {run[-1][1]}"
                run = []
        for at, name, head, _ in functions(lines):
            if re.search(r"-> (u8|u64|usize)\b", head):
                j = at - 2
                said = []
                while j >= 0 and lines[j].strip().startswith("//"):
                    said.insert(0, lines[j].strip("/ "))
                    j -= 1
                if re.search(r"\b0 (for|where|if) (none|there is none|nowhere)|or 0\b|0 or the outcome", " ".join(said)):
                    yield f"{path}:{at}: fn {name}: a number that stands for none"


def shape(lines):
    names = {}
    text = re.sub(r"//.*", "", "\n".join(lines))
    text = re.sub(r"\b\d[\d_a-fx]*\b", "0", text)
    text = re.sub(r"\b(u8|u16|u32|u64|usize)\b", "T", text)
    return re.sub(r"\b(?!T\b|if\b|else\b|while\b|for\b|in\b|let\b|mut\b|return\b|match\b)[A-Za-z_][\w]*", lambda m: names.setdefault(m.group(0), f"v{len(names)}"), " ".join(text.split()))


def point_2(root):
    found = collections.defaultdict(list)
    for path, lines in sources(root, ".rt", "src"):
        for at, name, _, body in functions(lines):
            if len([l for l in body if l.strip()]) >= 4:
                found[shape(body)].append(f"{path}:{at}: fn {name}")
    for places in found.values():
        if len(places) > 1:
            yield " = ".join(places)


def point_3(root):
    for path, lines in sources(root, ".rt", "src"):
        for i, line in enumerate(lines):
            m = re.match(r"(\s*)while (.*) \{$", line)
            if not m:
                continue
            j = i + 1
            while not lines[j].startswith(m.group(1) + "}"):
                j += 1
            for v in set(re.findall(r"[a-z_]\w*(?:\.\w+)?", m.group(2))):
                if any(re.match(rf"\s+{re.escape(v)} [+-]= (\d+|[A-Z_]+|step);", l) for l in lines[i + 1 : j]):
                    yield f"{path}:{i + 1}: {line.strip()}"
                    break


def point_4(root):
    for path, lines in sources(root, ".rt", "src"):
        for at, name, head, _ in functions(lines):
            if re.search(r"^(equal|same|compare|order|copy|copied|least|min|max|is_eq|display|to_\w+|from_\w+)", name):
                yield f"{path}:{at}: fn {name}"
        for i, line in enumerate(lines):
            if re.match(r"#\[derive\(Drop\)\]", line):
                yield f"{path}:{i + 1}: derives Drop alone: {lines[i + 1].strip()}"


def point_5(root):
    facts, groups = collections.defaultdict(list), collections.defaultdict(list)
    for path, lines in sources(root, ".rt", "src"):
        for at, name, head, _ in functions(lines):
            for clause in re.findall(r"requires \w*\s*\{(.*?)\}", head):
                for fact in re.split(r" × ", clause):
                    fact = " ".join(fact.strip(" ()").split())
                    facts[fact].append(f"{path}:{at}")
            names = re.findall(r"(\w+): ([^,()]+)", head.split("->")[0])
            for k in range(len(names) - 2):
                groups[", ".join(f"{a}: {b.strip()}" for a, b in names[k : k + 3])].append(f"{path}:{at}")
    for fact, places in sorted(facts.items(), key=lambda x: -len(x[1])):
        if len(places) >= 3:
            yield f"{len(places)} contracts: {fact}"
    for names, places in sorted(groups.items(), key=lambda x: -len(x[1])):
        if len(places) >= 3:
            yield f"{len(places)} functions: ({names})"


def point_6(root):
    for path, lines in sources(root, ".rt", "src"):
        for at, name, body in structs(lines, "struct"):
            text = " ".join(body)
            if re.search(r": (\[|&|Vec)", text) and re.search(r"\b(size|len|length|count): usize", text):
                yield f"{path}:{at}: struct {name}: a buffer with a length beside it"
        for at, name, head, body in functions(lines):
            text = " ".join(body)
            if re.search(r"&(mut )?\[", head) and re.search(r"\b(n|count|size|length): usize", head):
                yield f"{path}:{at}: fn {name}: a slice with a count beside it"
            if re.search(r"\[2 \* \w+( \+ 1)?\]", text):
                yield f"{path}:{at}: fn {name}: two words an entry"


def point_7(root):
    for path, lines in sources(root, ".rt", "src"):
        for at, name, _, body in functions(lines):
            text = "\n".join(body)
            arms = re.findall(r"=> \{?\s*(?:return )?[\w:]+\(", text)
            tests = re.findall(r"(?:if|else if) \(?(\w+(?:\.\w+)?) == [A-Z][\w:]*", text)
            if len(arms) >= 3:
                yield f"{path}:{at}: fn {name}: {len(arms)} arms that call"
            elif tests and max(tests.count(t) for t in set(tests)) >= 3:
                yield f"{path}:{at}: fn {name}: {len(tests)} tests of one number"


def point_8(root):
    for path, lines in sources(root, ".antt", "proofs"):
        if path.endswith("Answers.antt"):
            text = "\n".join(lines)
            bare = len(re.findall(r"= search rules\s*$", text, re.M))
            if bare:
                yield f"{path}: {bare} answers that are `search rules` alone"
            if re.search(r"branch-raw|shared_slice_known|-raw\b", text):
                yield f"{path}: names of the checker's own"


POINTS = {"1": point_1, "2": point_2, "3": point_3, "4": point_4, "5": point_5, "6": point_6, "7": point_7, "8": point_8}


def main():
    words = sys.argv[1:]
    root, kept = os.path.dirname(os.path.dirname(os.path.dirname(os.path.abspath(__file__)))), None
    if "--at" in words:
        k = words.index("--at")
        kept = tempfile.TemporaryDirectory()
        archive = subprocess.Popen(["git", "-C", root, "archive", words[k + 1], "crates"], stdout=subprocess.PIPE)
        subprocess.run(["tar", "-x", "-C", kept.name], stdin=archive.stdout, check=True)
        root = kept.name
        del words[k : k + 2]
    count = "--count" in words
    for point in [w for w in words if w in POINTS] or sorted(POINTS):
        places = list(POINTS[point](root))
        if count:
            print(f"point {point}: {len(places)}")
        else:
            print(f"---- point {point}: {len(places)} places")
            print("\n".join(places))


if __name__ == "__main__":
    main()
