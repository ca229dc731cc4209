#!/usr/bin/env python3
"""Writes the data files of the groups of vectors_front: messages and command lines with what is expected of them.

The expectations come from the model below, which says the definitions of front_places, front_messages and front_options again in
Python. For each group there is a file of cases, and a file `wrong_..` of the same cases with one expectation changed. tests/vectors.py
calls `written`, after its own groups, for the lines of crates/vectors/stdout."""
import os
import random
import struct

DATA = os.path.join(os.path.dirname(os.path.abspath(__file__)), "..", "crates", "vectors", "data")
MEANINGS = [
    "done", "filter text too long", "NUL byte in the filter text", "bad token", "misplaced token", "bad ERE or its sizes",
    "other size passed", "image or content room too small", "image bytes malformed", "image fails the check", "budget spent",
    "number out of range", "number not whole", "divisor zero", "text value too long", "record too long",
    "field number not 0 to 128, or over 128 fields", "output room too small", "FS empty or a bad ERE", "working room too small"]
COLUMNS, BEFORE_CARET = 77, 38
OPTIONS = [b"--", b"-s", b"-h", b"-V", b"-b", b"-f", b"-i", b"-o", b"--check", b"--content"]
READY, OPERANDS, REFUSED = 10, 11, 12


def shown(b):
    return bytes([b]) if b == 9 or 32 <= b <= 126 else b"\\%03o" % b


def blank(b):
    return b"\t" if b == 9 else b" " * len(shown(b))


def columns(line):
    return sum(len(shown(b)) for b in line)


def outcome_text(outcome):
    return b"%s (outcome %d)" % (MEANINGS[outcome].encode() if outcome < len(MEANINGS) else b"", outcome)


def refusal(name, text, place, outcome):
    start = text.rfind(b"\n", 0, place) + 1
    end = text.find(b"\n", place)
    before, behind = text[start:place], text[place:end if 0 <= end else len(text)]
    if COLUMNS < columns(before) + columns(behind):
        while BEFORE_CARET < columns(before):
            before = before[1:]
        while COLUMNS < columns(before) + columns(behind):
            behind = behind[:-1]
    head = b"flowawk: %s:%d:%d: " % (name, 1 + text.count(b"\n", 0, place), 1 + place - start)
    line = b"".join(map(shown, before + behind))
    return head + outcome_text(outcome) + b"\n  " + line + b"\n  " + b"".join(map(blank, before)) + b"^\n"


def summary(outcome, records, steps, size):
    return b"flowawk: %s; %d records begun, %d steps, %d bytes written\n" % (outcome_text(outcome), records, steps, size)


def options(words):
    stage, operand, given = READY, 0, [0] * 10
    for k, w in enumerate(words, 1):
        if stage < READY:
            given[stage], stage = k, READY
        elif stage == READY and w in OPTIONS:
            o = OPTIONS.index(w)
            if o == 0:
                stage = OPERANDS
            elif given[o]:
                stage, operand = REFUSED, k
            elif o < 4:
                given[o] = k
            else:
                stage = o
        elif stage == READY and len(w) >= 2 and w[:1] == b"-":
            stage, operand = REFUSED, k
        elif stage in (READY, OPERANDS):
            stage, operand = OPERANDS, operand or k
    return stage, operand, given


def action(stage, operand, given, count):
    usage, _, _, check, content, translate_text, translate_file, run_text, run_file, run_image = range(10)
    many = sum(1 for g in given if g)
    if stage < READY or stage == REFUSED:
        return usage
    if given[2]:
        return 1
    if given[3]:
        return 2
    for o, a in ((8, check), (9, content)):
        if given[o]:
            return a if many == 1 and not operand else usage
    if given[7]:
        if given[5]:
            return translate_file if many == 2 and not operand else usage
        return translate_text if many == 1 and operand and operand == count else usage
    if given[6]:
        return usage if given[5] else run_image
    return run_file if given[5] else run_text if operand else usage


def refusal_case(name, text, place, outcome, message):
    return struct.pack("<HBHH", place, outcome, len(name), len(text)) + name + text + message


def option_case(words, stage, operand, given, act):
    return struct.pack("<BBH10HH", stage, act, operand, *given, len(words)) + b"".join(w + b"\0" for w in words)


def refusals(random):
    yield b"filter", b"$2 > 1000 { print $1, }", 22, 4
    yield b"filter", b'BEGIN { x = "abc }', 12, 3
    yield b"bad.awk", b"$2 > 1000 {\n\tprint $1, $2 *\n}\n", 27, 4
    yield b"filter", b"", 0, 4
    yield b"f", b"\n", 0, 3
    yield b"f", b"\n", 1, 3
    for length in (76, 77, 78, 79, 300):
        for place in sorted({0, 1, 37, 38, 39, 40, length // 2, length - 1, length}):
            yield b"long", (b"abcdefghij" * 40)[:length], place, 5
    for _ in range(300):
        alphabet = random.choice([b"ab \t\n", b"a\x00\xff\x7f\x80\n", b"xyz", bytes(range(256))])
        text = bytes(random.choice(alphabet) for _ in range(random.choice([1, 5, 40, 90, 200])))
        name = bytes(random.choice(b"abc./") for _ in range(random.randrange(12)))
        yield name, text, random.randrange(len(text) + 1), random.randrange(24)


def command_lines(random):
    for line in (
            "", "{print}", "{print} a b", "-s {print}", "-b 5 {print}", "-f x", "-f x a", "-i x a b", "-o x {print}", "-o x {print} a",
            "-o x -f y", "-o x -f y a", "-f y -o x", "--check x", "--content x", "--check x y", "--check", "-h", "-V", "-h a", "--", "-- -s",
            "-- -s a", "-", "- a", "-x", "-ss", "--help", "-f x -f y", "-s -s", "-b 1 -b 2", "-f x -i y", "-s -b 3 -f x - a", "-b", "-f --",
            "-f -- a", "-b -s {print}", "-o x", "-i x -o y", "--check x --content y", "{print} -s", "-s -- {print} -- -s"):
        yield [w.encode() for w in line.split()]
    pool = OPTIONS + [b"-", b"", b"a", b"-x", b"{print}"]
    for _ in range(500):
        yield [random.choice(pool) for _ in range(random.randrange(7))]


def budgets(random):
    for w in (b"", b"0", b"1", b"10", b"007", b"1000000000", b"18446744073709551615", b"18446744073709551616", b"18446744073709551620",
              b"99999999999999999999", b"1844674407370955161", b"-1", b"+1", b"1 ", b" 1", b"1k", b"/", b":", b"0x10", b"1.0"):
        yield w
    for _ in range(200):
        yield bytes(random.choice(b"0123456789" * 6 + b"/:a") for _ in range(random.randrange(24)))


def frames(cases):
    return b"".join(struct.pack("<H", len(c)) + c for c in cases)


def write(name, right, wrong):
    """Writes a group's two files; the lines that the program has to write of them."""
    for n, cases in ((name, right), ("wrong_" + name, wrong)):
        with open(os.path.join(DATA, n), "wb") as f:
            f.write(frames(cases))
    return ["%s: %d of %d\n" % (name, len(right), len(right)), "wrong_%s: 0 of %d\n" % (name, len(wrong))]


def changed(case, at):
    """A case with one byte of its expectation changed."""
    return case[:at] + bytes([case[at] ^ 1]) + case[at + 1:]


def written():
    """Writes the files; the lines that the program has to write."""
    os.makedirs(DATA, exist_ok=True)
    r = random.Random(19)
    lines, right, wrong = [], [], []
    for name, text, place, outcome in refusals(r):
        message = refusal(name, text, place, outcome)
        case = refusal_case(name, text, place, outcome, message)
        right.append(case)
        wrong.append(changed(case, len(case) - 1 - r.randrange(len(message))))
    lines += write("refusals", right, wrong)
    right, wrong = [], []
    for outcome in range(21):
        for _ in range(4):
            n = [r.choice([0, 1, 9, 10, 2 ** 64 - 1, r.randrange(2 ** 64), r.randrange(10 ** 6)]) for _ in range(3)]
            message = summary(outcome, *n)
            case = struct.pack("<BQQQ", outcome, *n) + message
            right.append(case)
            wrong.append(changed(case, len(case) - 1 - r.randrange(len(message))))
    lines += write("summaries", right, wrong)
    right, wrong = [], []
    for words in command_lines(r):
        stage, operand, given = options(words)
        case = option_case(words, stage, operand, given, action(stage, operand, given, len(words)))
        right.append(case)
        wrong.append(changed(case, r.randrange(24)))
    lines += write("options", right, wrong)
    right, wrong = [], []
    for w in budgets(r):
        is_budget = w.isdigit() and int(w) < 2 ** 64
        case = struct.pack("<BQ", is_budget, int(w) if is_budget else 0) + w
        right.append(case)
        wrong.append(changed(case, r.randrange(9) if is_budget else 0))
    lines += write("budgets", right, wrong)
    return lines


if __name__ == "__main__":
    print("".join(written()), end="")
