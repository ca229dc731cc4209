#!/usr/bin/env python3
"""Writes the cases of the program `vectors`: crates/vectors/data/* and crates/vectors/stdout.

    tests/vectors.py [--reference DIR]

Each run writes the same bytes. What is expected comes from DIR/reference.py (default tests/reference)
where that has the function, and from Python's own bytes elsewhere.

A group is a function below that gives its payloads, a file data/NAME, a line of stdout, and a module of a crate vectors_... To add one,
write the function under @group, in the order of the program's `main`, and the module.

Beside data/NAME stands data/wrong_NAME: some of its cases, each with another byte in what is expected. None of them may pass.

The groups of vectors_front, which are cases on messages and command lines, are program_cases.py's.

A file is a list of frames: the payload's length, 2 bytes, and the payload. All numbers are unsigned, the low byte first. A number of
the rules, -2^53 to 2^53, is 8 bytes: what it is above -2^53. Payloads, field by field, with the bytes of each:

    limits      kind 1 (0 a size, 1 an outcome, 2 a constant made of a size), which 1, value 8
    arithmetic  operator 1 (7 to 11: + - * / %, 12 negation), left 8, right 8, outcome 1, result 8 (0 where the outcome is not 0)
    reading     outcome 1, number 8 (0 where the outcome is not 0), length of the numeric prefix 2, looks numeric 1, text
    decimal     number 8, index 2, length of its text 2, room before, room after (the same length)
    compare     order 1 (0 less, 1 equal, 2 greater), length of the first 2, first, second
    search      0, byte 1, index 2, text; or 1, found 1, index 2 (0 where not found), length of the part 2, part, text
    copies      kind 1 (0 copy, 1 copy_within, 2 fill), to 2, from 2, count 2, byte 1, room's length 2, room before, room after, source
    words       width 1 (8 or 2), index 2, number 8, room before, room after (the same length)
    match       outcome 1, found 1, start from 0 2, length 2 (both 0 where not found), length of the ERE 2, ERE, text
    split       outcome 1, count of fields 2 (0 where the outcome is not 0), length of the separator 2, separator, record
    field       outcome 1, count 2 (both as in split), k 8, start from 0 2, length 2, length of the separator 2, separator, record
    read        outcome 1, words of the room 2, words of the content 2 (0 where the outcome is not 0), content 8 each, image
    write       outcome 1, bytes of the room 2, bytes of the image 2 (0 where the outcome is not 0), image, content 8 each
    check       outcome 1, image
    operations  code 1 (28: whether a value is true), outcome 1, and values: what is in the first slot afterwards, and
                what is in three slots before, of which the operation takes the first ones
    records     outcomes 1 each (of the read, of two assignments, of getting a field), count of records read before 8,
                and values: afterwards the record, the number of fields and the field that is got; before, FS, OFS, the
                record that is read, twice the number of a field and what it is assigned, and the number of that got

    translate   outcome 1, place 2, bytes of the image room 2, bytes of the image 2 (0 where the outcome is not 0), image, text
    ways        as runs, with the text of a filter in the place of the image

    runs        outcome 1, steps 8, records 8, budget 8, bytes of the output room 2, bytes written 2, length of the image 2, the
                bytes that are written, the image, lines

A value is its kind 1 (0 unset, 1 number, 2 text, 3 text of a field), how many bytes follow 2, and these: none, 8, or
the text. What an operation that stops would change is as it was.
"""
import argparse
import itertools
import os
import random
import struct
import sys

import filter_cases
import filter_texts
import image_cases
import program_cases
import run_cases
import whole_runs

ROOT = os.path.dirname(os.path.dirname(os.path.abspath(__file__)))
BIG = 2 ** 53
GROUPS = []
ref = gen = None


def group(payloads):
    GROUPS.append(payloads)
    return payloads


def short(n):
    return struct.pack('<H', n)


def word(n):
    return struct.pack('<Q', n)


def biased(z):
    assert -BIG <= z <= BIG
    return word(z + BIG)


def outcome_of(compute):
    """The outcome and the number that a computation of the reference gives, as a payload has them."""
    try:
        return 0, biased(compute())
    except ref.Stop as stop:
        return stop.outcome, word(0)


def unique(cases):
    return list(dict.fromkeys(cases))


def signs(z):
    return [z, -z]


def around(z):
    return [z - 1, z, z + 1]


def within(numbers):
    return unique(z for z in numbers if -BIG <= z <= BIG)


def some_number(r):
    """A number of any magnitude."""
    return r.choice([1, -1]) * r.randrange(2 ** r.randrange(1, 54))


def noise(r, n):
    return bytes(r.randrange(256) for _ in range(n))


# ---------------------------------------------------------------- limits

@group
def limits():
    sizes = [ref.FILTER_TEXT, ref.TEXT, ref.RECORD, ref.FIELDS, ref.BIG, ref.USERS, ref.CONSTANTS, ref.ERES, ref.INSTRUCTIONS, ref.DEPTH,
             ref.NESTING, ref.WORKING, ref.ERE_BYTES, ref.ERE_PLACES, ref.ERE_GROUPS]
    longest = max(len(ref._text_of(('n', z))) for z in signs(BIG))
    made = [ref.BIG, 2 * ref.BIG, longest]
    tables = [sizes, list(range(20)), made]
    return [bytes([kind, which]) + word(value) for kind, table in enumerate(tables) for which, value in enumerate(table)]


# ------------------------------------------------------------ arithmetic

def arithmetic_case(code, a, b):
    if code == 12:
        outcome, result = outcome_of(lambda: ref._in_range(-ref._number_of(('n', a)))[1])
    else:
        outcome, result = outcome_of(lambda: ref._arithmetic(code, ('n', a), ('n', b))[1])
    return bytes([code]) + biased(a) + biased(b) + bytes([outcome]) + result


def divisors(n, primes):
    found = [1]
    for p in primes:
        found = unique(found + [d * p for d in found if n % (d * p) == 0])
    return found


def bound_sums(r):
    """Sums and differences on the bounds and beside them."""
    for _ in range(60):
        a = some_number(r)
        for near in around(BIG) + around(-BIG):
            yield 7, a, near - a
            yield 8, a, a - near
            yield 8, near + a, a


def bound_products(r):
    """Products on the bounds and beside them, and quotients back."""
    pairs = [(2 ** k, 2 ** (53 - k)) for k in range(54)]
    for n, primes in ((BIG - 1, (6361, 69431, 20394401)), (BIG + 1, (3, 107, 28059810762433))):
        pairs += [(d, n // d) for d in divisors(n, primes)]
    for _ in range(60):
        a = abs(some_number(r)) + 1
        pairs += [(a, BIG // a), (a, BIG // a + 1), (BIG // a, a)]
    pairs += [(2 ** k, 2 ** (64 - k)) for k in range(11, 54)]
    pairs += [(2 ** 32 + 1, 2 ** 32 - 1), (2 ** 53 - 1, 2 ** 53 - 1), (2 ** 40 + 1, 2 ** 24), (2 ** 53, 2 ** 53)]
    for p, q in pairs:
        for a, b in itertools.product(signs(p), signs(q)):
            yield 9, a, b
            yield 10, a * b, b


def quotients(r):
    """Exact quotients, and ones that are off by a little, with every sign."""
    for _ in range(120):
        b = abs(some_number(r)) + 1
        q = r.randrange(BIG // b + 1)
        for off in unique([0, 1, b - 1, r.randrange(b)]):
            for a, d in itertools.product(signs(q * b + off), signs(b)):
                yield 10, a, d
                yield 11, a, d


@group
def arithmetic():
    r = random.Random('arithmetic')
    magnitudes = [0, 1, 2, 3, 7, 10, 2 ** 11, 94906265, 94906266, 2 ** 31, 2 ** 32, 2 ** 33, 2 ** 52, 2 ** 53 - 2, 2 ** 53 - 1, 2 ** 53]
    core = unique(z for m in magnitudes for z in signs(m))
    cases = list(itertools.product((7, 8, 9, 10, 11), core, core))
    cases += [(code, a, 0) for code in (10, 11) for a in within(z for k in range(54) for n in around(2 ** k) for z in signs(n))]
    cases += [(12, a, 0) for a in within(core + [z for k in range(54) for n in around(2 ** k) for z in signs(n)])]
    cases += itertools.chain(bound_sums(r), bound_products(r), quotients(r))
    cases += [(code, some_number(r), some_number(r)) for code in (7, 8, 9, 10, 11) for _ in range(200)]
    inside = [(code, a, b) for code, a, b in cases if abs(a) <= BIG and abs(b) <= BIG]
    return [arithmetic_case(*case) for case in unique(inside)]


# --------------------------------------------------------------- reading

def reading_case(text):
    outcome, number = outcome_of(lambda: ref._number_of(('t', text)))
    prefix = ref._numeric_prefix(text.lstrip(b' \t'))
    length = prefix[0] if prefix else 0
    return bytes([outcome]) + number + short(length) + bytes([ref._looks_numeric(('f', text))]) + text


def number_texts():
    """Forms of numbers, whole and broken, without blanks."""
    yield from (b'', b'+', b'-', b'.', b'+.', b'-.', b'..', b'5', b'5.', b'.5', b'5.0', b'0.0', b'.0', b'-.0', b'+.0', b'-0', b'+0', b'0', b'00')
    yield from (b'5.5', b'-5.5', b'5..', b'.5.', b'5.0.0', b'--5', b'+-5', b'-+5', b'++5', b'5-', b'5+5', b'5-5', b'1e3', b'1E3', b'0x10', b'1_0')
    yield from (b'1,5', b'0.10', b'.00', b'.01', b'-.1', b'+.1', b'10.000', b'e5', b'x', b'inf', b'nan', b'Infinity', b'5e', b'5.e1', b'.e1', b'5f')
    sizes = [BIG // 10, BIG * 10, 10 ** 15, 10 ** 16 - 1, 10 ** 16, 10 ** 17 - 1, 10 ** 17, 2 ** 63, 2 ** 64 - 1, 2 ** 64, 2 ** 64 + 5]
    for n in around(BIG) + sizes:
        for sign, zeros, fraction in itertools.product((b'', b'-', b'+'), (0, 1, 20), (b'', b'.', b'.0', b'.1', b'.000', b'.0001', b'e1')):
            yield sign + b'0' * zeros + b'%d' % n + fraction
    # Fraction parts as long as whole ones, and nonzero digits that stand late.
    for digits in (b'9007199254740991', b'9007199254740992', b'9007199254740993', b'18446744073709551616', b'0' * 40):
        for whole in (b'', b'0', b'-7', b'9007199254740992', b'9007199254740993'):
            yield whole + b'.' + digits
            yield whole + b'.' + digits + b'0'
            yield whole + b'.000' + digits + b'x'
    for zeros in (1, 15, 16, 17, 18, 19, 20, 21, 60, 200, 400):
        for tail in (b'', b'1', b'x', b'1x', b'.1'):
            yield b'3.' + b'0' * zeros + tail
            yield b'-' + b'0' * zeros + tail
            yield b'9007199254740993.' + b'0' * zeros + tail


def long_texts(r):
    """Texts about the size of a text value, and far over it."""
    for n in (510, 511, 512, 513, 514, 1024, 5000):
        for whole in (b'0' * n, b' ' * n, b'\t' * n, b'9' * n, b'a' * n, b'.' * n, b'-' * n, b'\x00' * n):
            yield whole
        for head, fill, tail in ((b'', b'0', b'7'), (b'-', b'0', b'9007199254740992'), (b'+', b'0', b'9007199254740993'), (b'1.', b'0', b'1'),
                                 (b'1.', b'0', b''), (b'', b' ', b'12'), (b'12', b' ', b''), (b'12', b'\t', b'x'), (b'12', b' ', b'\n'),
                                 (b' 12', b'0', b' '), (b'.', b'0', b'5 ')):
            yield head + fill * (n - len(head) - len(tail)) + tail
        yield noise(r, n)


def framed_texts():
    """Forms with blanks about them, and bytes that look like blanks and are none."""
    forms = (b'', b'7', b'-7', b'+.', b'7.', b'.7', b'7.0', b'-7.5', b'9007199254740993', b'7x', b'.', b'-')
    fronts = (b'', b' ', b'\t', b' \t ', b'\n', b'\r', b'\x0b', b'\x0c', b'\x00', b'\xa0', b' \n', b'\x1f')
    for form, front, back in itertools.product(forms, fronts, fronts):
        yield front + form + back
    for b in range(256):
        yield from (bytes([b]), bytes([b, 53]), bytes([53, b]), bytes([45, b, 53]), bytes([46, b]), bytes([53, 46, b]), bytes([32, b, 32]))
    yield from (b'- 7', b'+ 7', b'7 .', b'7 7', b' 7 7 ', b'7. 5', b'1 e', b'- ', b' -', b' . ')


def soups(r):
    for n in range(1, 25):
        for _ in range(60):
            yield bytes(r.choice(b'0123456789+-. \tex') for _ in range(n))
        for _ in range(8):
            yield bytes(r.choice(b'0059.- ') for _ in range(n))
        for _ in range(8):
            yield noise(r, n)
    for _ in range(400):
        z = some_number(r)
        yield r.choice([b'', b' ', b'\t ']) + b'%d' % z + r.choice([b'', b' ', b'.', b'.0', b'.00 ', b'.5', b'a'])


@group
def reading():
    r = random.Random('reading')
    return [reading_case(text) for text in unique(itertools.chain(number_texts(), framed_texts(), long_texts(r), soups(r)))]


# --------------------------------------------------------------- decimal

def decimal_case(r, z, before, after):
    text = ref._text_of(('n', z))
    room = [r.choice([48, 45, 57, 0, 255, r.randrange(256)]) for _ in range(before + len(text) + after)]
    done = room[:before] + list(text) + room[before + len(text):]
    return biased(z) + short(before) + short(len(text)) + bytes(room) + bytes(done)


@group
def decimal():
    r = random.Random('decimal')
    powers = [10 ** k for k in range(17)] + [2 ** k for k in range(54)] + [k * 10 ** 14 for k in range(1, 91)]
    numbers = within([0] + [z for p in powers for n in around(p) for z in signs(n)] + list(range(-130, 131)))
    numbers += [some_number(r) for _ in range(300)]
    places = ((0, 0), (0, 5), (5, 0), (3, 9), (40, 40))
    cases = [decimal_case(r, z, 2, 3) for z in unique(numbers)]
    cases += [decimal_case(r, z, *place) for z in within(signs(BIG) + signs(BIG - 1) + signs(7) + [0, 10, -10, 99, 12345]) for place in places]
    cases += [decimal_case(r, -BIG, 4079, 0), decimal_case(r, BIG, 0, 4080), decimal_case(r, 0, 4095, 0)]
    return unique(cases)


# --------------------------------------------------------------- compare

def compare_case(a, b):
    less, equal, greater = (ref._compare(code, ('t', a), ('t', b))[1] for code in (15, 17, 19))
    assert less + equal + greater == 1
    return bytes([equal + 2 * greater]) + short(len(a)) + a + b


@group
def compare():
    r = random.Random('compare')
    texts = [b'', b'\x00', b'\x00\x00', b'a', b'b', b'ab', b'aba', b'abb', b'\x7f', b'\x80', b'\xff', b'\xff\xff', b'a\x80', b'a\x7f', b'a\x00',
             b'10', b'9', b' 9', b'A', b'Z', b'\x01', b'\xfe', b'ab\xff', b'b\x00']
    pairs = list(itertools.product(texts, texts))
    for n in (1, 2, 7, 8, 9, 15, 16, 17, 31, 33, 100, 511, 512, 513):
        a = noise(r, n)
        for at in unique([0, n // 2, n - 1]):
            b = a[:at] + bytes([(a[at] + r.choice([1, 127, 128, 255])) % 256]) + a[at + 1:]
            pairs += [(a, b), (b, a)]
        pairs += [(a, a), (a, a[:-1]), (a[:-1], a), (a, a + b'\x00'), (a + b'\x00', a), (a, b''), (b'', a)]
    for _ in range(800):
        a = bytes(r.choice(b'ab\x80') for _ in range(r.randrange(12)))
        b = a[:r.randrange(len(a) + 1)] + bytes(r.choice(b'ab\x80') for _ in range(r.randrange(4)))
        pairs += [(a, b)]
    return [compare_case(a, b) for a, b in unique(pairs)]


# ---------------------------------------------------------------- search

def byte_case(b, text):
    at = text.find(bytes([b]))
    return bytes([0, b]) + short(len(text) if at < 0 else at) + text


def part_case(part, text):
    at = text.find(part)
    return bytes([1, at >= 0]) + short(max(at, 0)) + short(len(part)) + part + text


@group
def search():
    r = random.Random('search')
    every = bytes(range(256))
    cases = [byte_case(b, every) for b in every] + [byte_case(b, every[::-1]) for b in every[::5]] + [byte_case(b, b'') for b in (0, 65, 255)]
    parts = (b'', b'a', b'aa', b'aab', b'ab', b'aba', b'abab', b'\x00', b'\xff', b'\x80\xff', b'aaaaab', b'baaaaa')
    texts = (b'', b'a', b'aa', b'aaa', b'aaaa', b'aaaab', b'aab', b'ab', b'ba', b'aba', b'abaab', b'aabaaab', b'abacabab', b'ababab', b'xababab',
             b'aaaaaab', b'baaaaab', b'\x00a', b'a\x00', b'\xff', b'\xff\x80\xff', b'\x80\xff', b'aaaaaaaaaaaaaaab', b'aaaabaaaaab', b'abaabaabab')
    cases += [part_case(part, text) for part in parts for text in texts]
    for _ in range(700):
        text = bytes(r.choice(b'ab') for _ in range(r.randrange(20)))
        cases += [part_case(bytes(r.choice(b'ab') for _ in range(r.randrange(6))), text), byte_case(r.choice(b'abc'), text)]
    for n in (1, 2, 16, 100, 511, 512, 513):
        text = noise(r, n)
        for k in unique([1, 2, n // 2, n - 1, n]):
            cases += [part_case(text[:k], text), part_case(text[n - k:], text), part_case(text[1:1 + k], text), part_case(text + b'x', text)]
        cases += [byte_case(text[-1], text), part_case(b'a' * n + b'b', b'a' * (n + 3) + b'b'), part_case(b'a' * n + b'c', b'a' * (n + 3) + b'b')]
    return unique(cases)


# ---------------------------------------------------------------- copies

def room_case(kind, to, start, count, byte, before, after, source=b''):
    assert len(before) == len(after)
    return bytes([kind]) + short(to) + short(start) + short(count) + bytes([byte]) + short(len(before)) + before + after + source


def copy_case(r, size, to, count):
    room, source = noise(r, size), noise(r, count)
    return room_case(0, to, 0, count, 0, room, room[:to] + source + room[to + count:], source)


def within_case(r, size, start, to, count):
    room = noise(r, size)
    return room_case(1, to, start, count, 0, room, room[:to] + room[start:start + count] + room[to + count:])


def fill_case(r, size, to, count, byte):
    room = noise(r, size)
    return room_case(2, to, 0, count, byte, room, room[:to] + bytes([byte]) * count + room[to + count:])


@group
def copies():
    r = random.Random('copies')
    cases = []
    for size in range(6):
        for count in range(size + 1):
            for to in range(size - count + 1):
                cases += [copy_case(r, size, to, count), fill_case(r, size, to, count, r.randrange(256))]
                cases += [within_case(r, size, start, to, count) for start in range(size - count + 1)]
    for size in (9, 16, 33, 64, 100):
        for count in sorted({0, 1, size // 2, size - 1, size}):
            last = size - count
            places = unique([0, min(1, last), last // 2, max(last - 1, 0), last])
            cases += [copy_case(r, size, to, count) for to in places]
            cases += [fill_case(r, size, to, count, r.choice([0, 255, 97])) for to in places]
            cases += [within_case(r, size, start, to, count) for start in places for to in places]
    for size in (511, 512, 513, 4096):
        cases += [copy_case(r, size, 0, size), copy_case(r, size, size - 3, 3), fill_case(r, size, 0, size, 255), fill_case(r, size, 3, size - 7, 0)]
        cases += [within_case(r, size, 0, 1, size - 1), within_case(r, size, 1, 0, size - 1), within_case(r, size, 0, 0, size)]
    for _ in range(800):
        size = r.randrange(1, 40)
        count = r.randrange(size + 1)
        to, start = (r.randrange(size - count + 1) for _ in range(2))
        cases += [within_case(r, size, start, to, count)]
        cases += [copy_case(r, size, to, count) if r.random() < 0.5 else fill_case(r, size, to, count, r.randrange(256))]
    return unique(cases)


# ----------------------------------------------------------------- words

def words_case(r, width, at, number, size):
    room = noise(r, size)
    return bytes([width]) + short(at) + word(number) + room + room[:at] + number.to_bytes(width, 'little') + room[at + width:]


@group
def words():
    r = random.Random('words')
    cases = []
    for width in (8, 2):
        top = 256 ** width
        numbers = [0, top - 1, top // 2, int.from_bytes(bytes(range(1, width + 1)), 'little'), int.from_bytes(b'\x80' * width, 'little')]
        numbers += [n for k in range(8 * width) for n in around(2 ** k) if n < top] + [255 * 256 ** k for k in range(width)]
        numbers += [r.randrange(top) for _ in range(100)]
        for number in unique(numbers):
            cases += [words_case(r, width, 0, number, width), words_case(r, width, 3, number, width + 7)]
        for size in (width, width + 1, width + 2, 64, 4096):
            cases += [words_case(r, width, at, r.randrange(top), size) for at in sorted({0, min(1, size - width), (size - width) // 2, size - width})]
    return unique(cases)


# ----------------------------------------------------------------- match

LONG_TEXT = b'a' * 513


def match_case(ere, text):
    outcome, start, length = ref.match(ere, text)
    found = start > 0
    return bytes([outcome, found]) + short(start - 1 if found else 0) + short(length if found else 0) + short(len(ere)) + ere + text


def refused_eres():
    """EREs that are refused, a kind in a line, with some beside them that are not."""
    return [b''] + rb'''
        | a| |a a||b () (a|) (|a) a() (()a) ()* (a||b) a|() (|) ^| |$
        ( ) (a a) ((a) (a)) (a|b a|b) )( a(b(c) (a(b)c (a] [a) (a))(b (a|b)|(
        * + ? *a +a ?a a|* a|+b (*) (*a) (+a) (?) (a|?b) |* \* [*] (\+)
        a** a*+ a+? a?? (a)*+ [a]++ .?* a*** (a*)** (a*)* ((a+)?)* a*(b)+* a+|b??
        ^* $+ ^? a$* (^*) ^+a a|$? (^)* ($)? (^|$)+ ^a* \^* [$]+
        { } a{ a} a{2} a{1,2} {a} \{ \} [{}] a|{ ({) a\{2\}
        \ a\ [\ [\] [a\] (\) \d \- \1 \0 \x41 [\-] [\d] [a\-z] \\\
        [ [a [^ [] [^] []a [^]a [a- [a-b [^a [- [-- [a[ a[ ([)] [a|b ] a]
        [b-a] [z-a] [~-!] [a-\n] [^b-a] [--+] []--] [a-] [a-a] [xb-a] [\]-a]
        [a-b-c] [a-c-e] [+----] [a-c-] [a-c--] [^a-b-c] [--a-z] [-a-c-e] [a-b- [a-b-] [a-bc-d]
        [[:alpha:]] [[.a.]] [[=a=]] [a[:] [[:] [[=] [[.] [^[:] [!-[:] [a-[.] [[ [[: [][:]
        [:a] [:alpha:] [[] [[a] [\[:] [\[.] [[-a] [[-:] [.[] [=] [a[] [[\:]
    '''.split()


def anchored_eres():
    """EREs with anchors in groups, in repetitions, and behind or before other bytes."""
    return rb'''
        ^ $ ^$ $^ ^^ $$ ^a a$ ^a$ a^ $a a^b a$b ^^a$$ ^. .$ ^.$ ^b* b*$
        (^) ($) (^)* (^)+ (^)? ($)* ($)+ (^)*a a(^)* a($)* a($)*b a(^)?b (^$)* (^$)+ (^|$)
        (^a)* (^a)+ (^a)+b (^a)*b (a$)* (a$)+ (a$)?b (a|^)* (a|^b)* (^a|b)* (^|a)+b (b|$)+ (^b*)*
        a*^b (a|^)b (^|b)a$ (a$|b)* ^(a|b)*$ (^|$)a a(^|$) ($|a)+ ((^a)|b)+ (^(^a)) ((^)a($)) x*^
        (a(^b)?)+ (a($b)?)+ ^a|b$ ^a|^b (^a|^b)b (a|b$)+ ($a)*b (b^)*a [^]^] (^|a)(^|b) (a|$)(b|$)
    '''.split()


def chosen_eres():
    """EREs whose longest match is not the first that a reader thinks of, and EREs with an empty match."""
    return rb'''
        ab|abc abc|ab a|ab|abc (a|ab)(c|bcd) (a|ab)(bc|c)? (ab|a)(bc)? (a|b|ab)* (a|ab|b)*c (aa|a)*b b|bc|bca
        a* a? (a|b)* (a*)* (a*)+ (a?)* (a*|b)* (a|b*)+ (a*b*)* x* (x*) x? x*y* (x|y)* a*b?
        a*b* b*a .* .*b .? (.b)* (a.)+ a.*b [^a]* (a+b+)+ ((a|b)(a|b))* (a(b(a)?)?)? (a+)(a+) a+a+b
        bc|x c|d|x (b|c)+ a\nb [a\n]+ a.b (a|b)?(a|b)?b ((a*)b)* (b*(a))+ a|b* (ab*|b)*a x(a|b)+
    '''.split()


def bracket_eres():
    """Brackets whose bytes take care."""
    yield from rb'''
        []a] [^]a] [a-] [-a] [+--] [^\n] [^-a] [^a-] [--a] [---] [+--c] []-a] [^]-a] [a^] [^^]
        [\^a] [.] [*] [a-c] [^a-c] [a-cx-z] [\]] [\n-\r] [!-~] [\\] [/] [\/] [$] [()|] [\a-\b]
        []] []-] [-] [^-] [--] [a-c-] [!--] [%--] [[-a] [?-@] [\[-\]] [aa] [a-za-z] [b-da-c]
    '''.split()
    yield from (b'[\x00-\xff]', b'[^\x00-\xff]', b'[\x80-\xff]', b'[\x00]', b'[^\xff]', b'[\x7f-\x80]', b'[\xbf-\xc0]', b'[@-\x7f]', b'[\xc0-\xff]',
                b'[^@-\xbf]', b'[\x80-\x7f]', b'[\xff-\x00]')


def byte_cases():
    """Each byte as the text, as the ERE, and behind a backslash; and brackets on bytes."""
    for b in range(256):
        text, meant = bytes([b]), bytes([ref.ERE_ESCAPES.get(b, b)])
        yield from ((b'.', text), (b'[^a]', text), (text, text), (b'\\' + text, meant), (b'[\\' + text + b']', meant))
    every = bytes(range(256))
    for ere in bracket_eres():
        yield from ((ere, every), (ere + b'+', every[::-1]))
        yield from ((ere, bytes([b])) for b in b'\x00\n+,-[\\]^abcd\xff')


def sized_eres():
    """EREs with as many places, groups and bytes as there may be, and with one more."""
    for n in (127, 128, 129):
        yield from (b'a' * n, b'.' * n, b'\\.' * n, b'a?' * n, b'a*' * n, b'(a)' * n, b'^' * n, b'$' * n, b'(' + b'a' * n + b')*')
        yield from (b'^' + b'a' * (n - 1), b'a' * (n - 1) + b'$', b'(^)?' * (n - 1) + b'a', b'a|' * (n - 1) + b'a', b'b?' * (n - 1) + b'a+')
        yield from (b'(' + b'a|' * (n - 1) + b'b)*', b'(a|b)' * (n // 2) + b'c?' * (n % 2), b'[ab]' * (n - 3) + b'aaa', b'a' * 64 + b'b?' * (n - 64))
    for n in (15, 16, 17):
        up, down = b'(' * n, b')' * n
        yield from (up, up + b'a' + down, up + b'a' + b')*' * n, up + b'a' + down[1:], up + b'a' + down + b')', up + b'^' + b')?' * n + b'a')
        yield from (b'(a' * n + down, b'(a|' * n + b'b' + down, b'((a)' * n + down, b'(a|' * n + b'^' + down, up[1:] + b'(a)(b)' + down[1:])
        yield b'(a)b' + up + b'a' + b')+' * n
    for n in (511, 512, 513):
        yield from (b'a' * n, b'(' * n, b'[' + b'a' * (n - 2) + b']', b'[^' + b'a' * (n - 3) + b']', b'[' + b'a' * (n - 1))
        yield from (b'(a)*' * 127 + b'[b]*b'[:n - 508], b'[ab]' * 127 + b'[ab]c'[:n - 508])
        yield from (b'[ab]' * 126 + b'[' + b'b' * (n - 506) + b']', b'a|[b-' + b'c' * (n - 6) + b']')


def sized_cases():
    for ere in sized_eres():
        yield from ((ere, text) for text in (b'', b'bab', b'a' * 127, b'b' + b'a' * 128))
    longest = (b'a' * 512, LONG_TEXT, b'x' * 511 + b'a', b'ab' * 256, b'x' * 513, noise(random.Random('long'), 512))
    for ere in rb'a* b ^ $ a$ .* [^a] x*$ (a|b)*c a*a*a*b (a*)*$ (ab)+$ (a|ab|b)* .a$'.split() + [b'a' * 128]:
        yield from ((ere, text) for text in longest)
    for ere in (b'', b'(', b'a**', b'[b-a]', b'\\d', b'a' * 129, b'(' * 17 + b'a' + b')' * 17):
        yield ere, LONG_TEXT


def some_ere(r, d):
    """An ERE of few different bytes."""
    k = r.randrange(10) if d else r.randrange(3)
    if k < 3:
        return r.choice([b'a', b'b', b'a', b'b', b'c', b'.', b'^', b'$', b'[^a]', b'[ab]', b'[b-c]', b'\\.', b'a*', b'b+', b'c?'])
    if k < 6:
        return some_ere(r, d - 1) + some_ere(r, d - 1)
    if k < 8:
        return b'(' + some_ere(r, d - 1) + b'|' + some_ere(r, d - 1) + b')' + r.choice([b'', b'*', b'+', b'?'])
    return b'(' + some_ere(r, d - 1) + b')' + r.choice([b'*', b'+', b'?'])


def damaged(r, ere):
    """An ERE with a sign put in, or in place of a byte, or with a byte left out."""
    at = r.randrange(len(ere) + 1)
    return ere[:at] + r.choice([b'', b'(', b')', b'|', b'*', b'+', b'?', b'[', b']', b'-', b'\\', b'{', b'^', b'$']) + ere[at + r.randrange(2):]


def some_bracket(r):
    parts = (b'a', b'b', b'c', b'a-c', b'-', b'-', b']', b'[', b'^', b'\\]', b'\\n', b'0-9', b'+--', b'c-a', b':', b'.', b'\\\\', b'b-', b'-b')
    return b'[' + r.choice([b'', b'^']) + b''.join(r.choice(parts) for _ in range(r.randrange(1, 5))) + r.choice([b']', b']', b']*', b']+b', b''])


def sample(r, tree):
    """A text of a tree's language, but for its anchors. Trees are as the reference has them."""
    kind = tree[0]
    if kind == 'set':
        return bytes([r.choice(sorted(tree[1]))]) if tree[1] else b''
    if kind in ('bol', 'eol'):
        return b''
    if kind == 'alt':
        return sample(r, r.choice(tree[1]))
    if kind == 'cat':
        return b''.join(sample(r, part) for part in tree[1])
    times = {'star': r.randrange(3), 'plus': r.randrange(1, 3), 'opt': r.randrange(2)}[kind]
    return b''.join(sample(r, tree[1]) for _ in range(times))


def some_text(r, ere):
    """A text with one of the ERE's language in it, or any of few different bytes."""
    tree = ref._ere_node(ere)
    edge = [bytes(r.choice(b'abc') for _ in range(r.randrange(4))) for _ in range(2)]
    if tree is None or r.random() < 0.4:
        return edge[0] + bytes(r.choice(b'abc.\n]-') for _ in range(r.randrange(6))) + edge[1]
    return r.choice([edge[0], b'']) + sample(r, tree)[:60] + r.choice([edge[1], b''])


def random_cases(r):
    for _ in range(1000):
        ere = some_ere(r, r.randrange(2, 6))
        yield ere, some_text(r, ere)
    for _ in range(300):
        ere = damaged(r, some_ere(r, r.randrange(1, 5)))
        yield ere, some_text(r, ere)
    for _ in range(300):
        ere = some_bracket(r)
        yield ere, some_text(r, ere)
    for _ in range(150):
        yield bytes(r.choice(b'ab.()|*+?^$[]-\\') for _ in range(r.randrange(1, 9))), bytes(r.choice(b'ab-') for _ in range(r.randrange(5)))


@group
def match():
    r = random.Random('match')
    texts = (b'', b'a', b'ba', b'aab', b'bba', b'abab', b'xabx', b'a\nb', b'bcaabcd')
    cases = [(ere, text) for ere in refused_eres() for text in (b'', b'ab', b':[a-b\\*')]
    cases += [(ere, text) for ere in anchored_eres() + chosen_eres() for text in texts]
    cases += itertools.chain(byte_cases(), sized_cases(), random_cases(r))
    return [match_case(ere, text) for ere, text in unique(cases)]


# ------------------------------------------------------- split and field

SIGNS = b'.[]()*+?{}|^$\\/-'
LARGE = (130, 255, 256, 512, 513, 2 ** 16, 2 ** 31, 2 ** 32, 2 ** 32 + 1, BIG, 2 ** 63, 2 ** 63 + 1, 2 ** 64 - 128, 2 ** 64 - 1)


def split_head(separator, record):
    outcome, spans = ref.split_spans(record, separator)
    return bytes([outcome]) + short(len(spans))


def split_case(separator, record):
    return split_head(separator, record) + short(len(separator)) + separator + record


def field_case(separator, record, k):
    start, length = ref.field(record, separator, k)
    return split_head(separator, record) + word(k) + short(start) + short(length) + short(len(separator)) + separator + record


def texts_over(letters, most):
    """All texts of at most so many of the letters."""
    return [b''.join(text) for n in range(most + 1) for text in itertools.product(letters, repeat=n)]


def empty_separators():
    """EREs that match the empty text, which separates nothing."""
    return rb'x* a* a? (a|x)* x*a* (a*)+ x*|, ,*|a (^)* ($)* (^|$)+ (a|^)* .* (a|)'.split()


def anchored_separators():
    return rb'^a a$ ^,|, ,|a$ ^^ $$ ^$ ^a|x (^a)+ a^ $a ^. .$ (^|,)a a(,|$) ^a* a*$ ^,* ,*$ (a|^)x ^,a ,a$ ^a|a$ (^,|a$)+ ^.* (,|^)(,|a)'.split()


def other_separators():
    """EREs that take care of length, of blanks or of what a single byte would mean."""
    yield from rb',+ ,, ,a ax|axa axa|ax (a|ax)(x|xaa) .. ... .+ \. \n \t+ \| [,;]+ [,] [.] [^a] [^,]+ [a-x] (,) ,|a (a|,)(x|,) (ax)+ a*x ,?a'.split()
    yield from (b', *', b'  ', b' +', b'[ ]', b'[ \t]+', b' |\t', b',[ \t]*|[ \t]+', b'( )', b' ,', b', ', b'a\nx', b',\x00', b'[\x00-\xff]', b'[\x80-\xff]+')


def separators():
    return empty_separators() + anchored_separators() + list(other_separators())


def short_splits():
    """Every short record of few different bytes: leading, trailing and adjacent separators, and none."""
    yield from ((b' ', record) for record in texts_over((b'a', b' ', b'\t', b'\n'), 5))
    yield from ((separator, record) for separator in (b',', b'\t', b'\n', b'a') for record in texts_over((b'a', b',', b'\n', b'\t'), 3))
    yield from ((b',', record) for record in texts_over((b'ab', b','), 7))
    yield from ((separator, record) for separator in separators() for record in texts_over((b'a', b'x', b','), 3))
    yield from ((separator, record) for separator in (b'x*', b'a*', b'^a', b'a$', b'^,|,', b'ax|axa') for record in texts_over((b'a', b'x', b','), 5))
    yield from ((separator, record) for separator in other_separators() for record in texts_over((b'a', b' ', b', ', b'\t'), 3))
    yield from ((bytes([b]), record) for b in SIGNS for record in texts_over((b'q', bytes([b]), b'aa', b'\\'), 3))


def byte_splits():
    """Each byte as the separator, and in a record that others separate."""
    every = bytes(range(256))
    for b in every:
        one = bytes([b])
        yield from ((one, every), (one, one), (one, b'q' + one + one + b'zz' + one), (one, b''), (one, noise(random.Random(b), 40)))
        yield from ((b' ', b'q' + one + b'q'), (b' ', one), (b'[ \t]', one + b' ' + one), (b',', one + b',' + one), (b'q' + one, b'aq' + one + b'q' + one))
    for separator in bracket_eres():
        yield from ((separator, b'a-b]c^d[e\\f+g,h'), (separator + b'+', every[:128]))
    yield from ((separator, every[at:at + 100]) for separator in separators() for at in (0, 78, 156))


MADE = ((b' ', b' '), (b' ', b'\t'), (b' ', b' \t'), (b',', b','), (b'|', b'|'), (b'.', b'.'), (b'\n', b'\n'), (b'\x00', b'\x00'), (b'\xff', b'\xff'),
        (b', *', b', '), (b', *', b','), (b'x*', b'x'), (b'x*', b'xx'), (b'^,|,', b','), (b'a$|,', b','), (b'[,;]', b';'), (b'ax|axa', b'ax'),
        (b'ax|axa', b'axa'), (b'\\.', b'.'), (b' |\t', b' '), (b'..', b'  '), (b',|$', b','), (b'(,|;)(,|;)', b',;'))


def many_splits():
    """Records of as many fields as there may be, and of one or two more or less."""
    for separator, text in MADE:
        for n in (126, 127, 128, 129, 130):
            yield from ((separator, record) for record in (text * n, (b'q' + text) * n, (text + b'q') * n, (b'q' + text) * n + b'q', text * n + b'q'))


def long_splits(r):
    """Records as long as they may be, longer, and far too long."""
    mixes = [(b'%d,' % n) * 200 for n in (1, 12, 12345)] + [b'a, b' * 150, b'a\t b ' * 110, b'xa' * 300, b'a' * 63 + b' ']
    for n in (511, 512, 513):
        records = [letter * n for letter in (b'a', b' ', b',', b'\x00')] + [(mix * 80)[:n] for mix in mixes]
        records += [edge + b'b' * (n - 2) + edge for edge in (b'a', b',', b' ', b'x')] + [noise(r, n), b'b' * (n - 1) + b',']
        for separator in (b' ', b',', b'a', b', *', b'x*', b'^a', b'a$', b'[ab]+', b'', b'((', b'^,|,'):
            yield from ((separator, record) for record in records)
    yield from itertools.product((b' ', b',', b', *', b'(('), (b'a' * 514, b' ' * 1024, b',' * 1024, b'a ' * 2500, noise(r, 5000)))


def sized_separators():
    """Separators as long as an ERE may be and longer, and with as many places or groups and one more."""
    for n in (2, 511, 512, 513, 600, 5000):
        yield from (b'[' + b',' * (n - 2) + b']', b'a' * n, b',' * n, b'(' * n, b' ' * n, b'[' + b'a' * (n - 1))
    for n in (127, 128, 129):
        yield from (b',' * n, b'a?' * (n - 1) + b',', b',|' * (n - 1) + b'a', b'(,)*' * n, b'^' * (n - 1) + b'a')
    for n in (15, 16, 17):
        yield b'(' * n + b',' + b')' * n


def refused_splits():
    """Every pair of a record and a separator that are in order or not: 15, before 18, before 16."""
    records = (b'', b'a', b'a,b', b' ', b',' * 127, b',' * 128, b',' * 512, b',' * 513, b'a ' * 128, b'a ' * 129, b'a' * 512, b'a' * 513, b'aa,' * 170)
    bad = (b'', b'((', b'a**', b'[b-a]', b'\\d', b'\\,', b'a{2}', b'()', b',|', b'|,', b'[[:blank:]]', b', **', b'^*', b'a)', b'[,', b',\\')
    yield from itertools.product(bad + (b' ', b',', b', *', b',+', b'x*', b'^,|,'), records)
    yield from itertools.product(sized_separators(), (b'', b'a,b', b',' * 130, b',' * 513, b'a' * 300 + b',' * 100 + b'a' * 112))
    yield from itertools.product(refused_eres(), (b'', b'ab', b':[a-b\\*()'))


def some_record(r, separator):
    """A record with texts of the separator's language in it, and other bytes."""
    tree = ref._ere_node(separator) if len(separator) > 1 else None
    parts = [bytes(r.choice(b'abc., \t\n') for _ in range(r.randrange(4))) for _ in range(r.randrange(9))]
    if tree is None:
        return (separator if r.random() < 0.5 else b' ').join(parts)[:512]
    return b''.join(part + sample(r, tree)[:40] * r.choice([0, 1, 1, 2]) for part in parts)[:512]


def random_splits(r):
    for _ in range(900):
        separator = some_ere(r, r.randrange(1, 5))
        yield separator, some_record(r, separator)
    for _ in range(200):
        separator = r.choice([damaged(r, some_ere(r, 2)), some_bracket(r)])
        yield separator, some_record(r, separator)
    for _ in range(400):
        separator = r.choice([b' ', b' ', b',', b'.', b'a', b'\t', b'\n', noise(r, 1)])
        yield separator, some_record(r, separator)


def splits():
    r = random.Random('split')
    return unique(itertools.chain(short_splits(), byte_splits(), many_splits(), long_splits(r), refused_splits(), random_splits(r)))


@group
def split():
    return [split_case(separator, record) for separator, record in splits()]


def near(count):
    """Numbers about a count of fields and about the most that there are."""
    return unique(k for k in (0, 1, count - 1, count, count + 1, 128, 129) if k >= 0)


def field_numbers(r):
    """Each kind of separator and of refusal with numbers that are small, about the count, and large."""
    kinds = ((many_splits(), 80), (refused_splits(), 150), (short_splits(), 300), (long_splits(r), 60), (byte_splits(), 100), (random_splits(r), 300))
    pairs = [pair for made, count in kinds for pair in r.sample(unique(made), count)]
    for separator, record in pairs:
        count = len(ref.split_spans(record, separator)[1])
        yield from ((separator, record, k) for k in near(count) + [r.choice(LARGE)])


def every_field():
    """All fields of records with as many as there may be, some of such records with one more, and all of some short records."""
    yield from ((separator, (b'q' + text) * 127 + b'qq', k) for separator, text in ((b' ', b'\t'), (b',', b','), (b', *', b', ')) for k in range(131))
    yield from ((separator, (b'q' + text) * n, k) for separator, text in MADE for n in (127, 128) for k in (0, 1, 2, 77, 127, 128, 129))
    short_ones = ((b' ', b'  a \tb '), (b',', b',a,'), (b', *', b'a,  b,c'), (b'x*', b'xaxxa'), (b'^,|,', b',,a,'), (b' ', b''), (b'', b'a'), (b',', b''))
    yield from ((separator, record, k) for separator, record in short_ones for k in (*range(8), *LARGE))


@group
def field():
    r = random.Random('field')
    return [field_case(*case) for case in unique(itertools.chain(field_numbers(r), every_field()))]


# ------------------------------------------------- read, write and check

def rooms(r, n):
    """Rooms for n elements: just enough, one too small, and another."""
    return unique(k for k in (n, n - 1, r.choice([0, n // 2, n + 1, n + 40])) if k >= 0)


def read_case(image, room):
    outcome, content = ref.read_image(image, room)
    return bytes([outcome]) + short(room) + short(len(content)) + b''.join(map(word, content)) + image


def write_case(content, room):
    outcome, image = ref.write_image(content, room)
    return bytes([outcome]) + short(room) + short(len(image)) + image + b''.join(map(word, content))


def drawn_images(r, count):
    """Images of the reference's translator, images at the limits, and both damaged."""
    yield from (image_cases.translated(r, ref, gen) for _ in range(count // 4))
    yield from (gen.image(r, ref.translate) for _ in range(count))


def short_images(r, drawn, most):
    """Images of which a few are long: a word of content has eight bytes here."""
    made = unique(itertools.chain(image_cases.formed_images(), image_cases.checked_images(), drawn_images(r, drawn)))
    longer = [image for image in made if len(image) >= 300]
    return [image for image in made if len(image) < 300] + r.sample(longer, most)


def contents(r):
    """The contents of images, and those damaged."""
    yield from map(tuple, image_cases.formed_contents(ref))
    for image in short_images(r, 250, 6):
        outcome, content = ref.read_image(image)
        if outcome == 0:
            yield tuple(content)
            yield tuple(image_cases.damaged_words(r, content))


@group
def read():
    r = random.Random('read')
    return [read_case(image, room) for image in short_images(r, 600, 12) for room in rooms(r, len(ref.read_image(image)[1]))]


@group
def write():
    r = random.Random('write')
    return [write_case(content, room) for content in unique(contents(r)) for room in rooms(r, len(ref.write_image(content)[1]))]


@group
def check():
    r = random.Random('check')
    made = unique(itertools.chain(image_cases.formed_images(), image_cases.checked_images(), drawn_images(r, 1500)))
    return [bytes([ref.check(image)]) + image for image in made]


# ------------------------------------------------- operations and records

def packed(v):
    """A value of the reference, as a payload has it."""
    content = biased(v[1]) if v[0] == 'n' else ref._text_of(v)
    return bytes(['untf'.index(v[0])]) + short(len(content)) + content


def attempt(action, otherwise):
    """The outcome of an action of the reference, and its value, or another where it stops."""
    try:
        return 0, action()
    except ref.Stop as stop:
        return stop.outcome, otherwise


def empty_run(lines):
    return ref._Run((0, [], [], [[], [], []]), lines, 0)


def are_values(some):
    return all(len(ref._text_of(v)) <= ref.TEXT for v in some)


def operation_case(code, before):
    assert are_values(before)
    taken = before[:ref._effect(code, None)[0]]
    if code == 28:
        outcome, after = attempt(lambda: ('n', int(ref._truth(*taken))), before[0])
    else:
        outcome, after = attempt(lambda: empty_run(b'').perform(code, None, taken), before[0])
    return bytes([code, outcome]) + b''.join(map(packed, (after, *before)))


def record_case(fs, ofs, count, record, k, value, k2, value2, got):
    assert are_values((fs, ofs, k, value, k2, value2, got)) and b'\n' not in record
    run = empty_run(record)
    run.vars[2:4], run.records = [fs, ofs], count
    outcomes = [attempt(run.read_record, None)[0]]
    outcomes += [attempt(lambda: run.set_field(*pair), None)[0] for pair in ((k, value), (k2, value2))]
    outcome, field_value = attempt(lambda: run.perform(4, None, [got]), got)
    after = [('f', run.record), ('n', len(run.fields)), field_value]
    before = [fs, ofs, ('f', record), k, value, k2, value2, got]
    return bytes(outcomes + [outcome]) + word(count) + b''.join(map(packed, after + before))


@group
def operations():
    return [operation_case(*case) for case in unique(run_cases.operations(random.Random('operations')))]


@group
def records():
    return [record_case(*case) for case in unique(run_cases.records(random.Random('records')))]


def run_case(image, lines, room, budget):
    outcome, steps, records, out = ref.run(image, lines, room, min(budget, 10 ** 6))
    return (bytes([outcome]) + word(steps) + word(records) + word(budget) + short(room) + short(len(out)) + short(len(image)) + out + image + lines)


@group
def runs():
    """Runs of filters, and of images that no translator writes: every outcome of a run, budgets and output rooms at the edges of what it needs; many EREs, with
    automata and without."""
    r = random.Random('runs')
    cases = []
    while len(cases) < 3000:
        image, lines, room, work, budget = whole_runs.draw(r, gen, ref)
        if work >= 49152:
            cases.append((image, lines, min(room, 4096), budget))
    r = random.Random('EREs of runs')
    for _ in range(60):
        image, lines, room, work, budget = whole_runs.draw_eres(r, ref)
        cases.append((image, lines, 4096, budget))
    return [p for p in (run_case(*case) for case in unique(cases)) if len(p) <= 4096]


@group
def translate():
    """Translations: each rule of the grammar, each refusal with its place, sizes at and over their bounds, image rooms too small and just enough."""
    r = random.Random('translate')
    texts = [text for text, _ in filter_cases.hand_made()]
    texts += [size(r, more).encode('latin1') for size in filter_texts.SIZES for more in (-1, 0, 1)]
    texts += [filter_texts.draw(r, gen) for _ in range(1500)]
    return [translate_case(r, text) for text in unique(texts)]


def translate_case(r, text):
    outcome, place, image = ref.translate(text)
    room = r.choice([0, 50, 300])
    if outcome == 0:
        room = min(16384, r.choice([4096, place, place, place + 1, max(0, place - 1), 0]))
    if outcome == 0 and room < place:
        outcome, place, image = 7, len(text), b''
    return bytes([outcome]) + struct.pack('<HHH', place, room, len(image)) + image + text


@group
def ways():
    """Whole ways: filters that are translated and run."""
    r = random.Random('ways')
    cases = []
    while len(cases) < 1500:
        text = r.choice(whole_runs.FILTERS) if r.random() < .3 else filter_texts.draw(r, gen)
        outcome, place, image = ref.translate(text)
        if outcome == 0 and place <= 16384:
            cases.append((text, image, whole_runs.lines(r, gen), r.choice([0, 40, 400, 4000]), r.choice([0, 5, 60, 2000])))
    return [p for p in (way_case(*case) for case in unique(cases)) if len(p) <= 4096]


def way_case(text, image, lines, room, budget):
    outcome, steps, records, out = ref.run(image, lines, room, budget)
    return bytes([outcome]) + struct.pack('<QQQHHH', steps, records, budget, room, len(out), len(text)) + out + text + lines


# ---------------------------------------------------- wrong expectations

# for each group, where a payload has what is expected
EXPECTED = {
    'limits': lambda p: range(2, 10),
    'arithmetic': lambda p: range(17, 18 if p[17] else 26),
    'reading': lambda p: [0, *range(9 if p[0] else 1, 12)],
    'decimal': lambda p: range(12 + (len(p) - 12) // 2, len(p)),
    'compare': lambda p: [0],
    'search': lambda p: [1, 2, 3] if p[0] else [2, 3],
    'copies': lambda p: range(10 + two(p, 8), 10 + 2 * two(p, 8)),
    'words': lambda p: range(11 + (len(p) - 11) // 2, len(p)),
    'match': lambda p: range(6),
    'split': lambda p: range(3),
    'field': lambda p: [0, 1, 2, *range(11, 15)],
    'read': lambda p: [0, *range(5, 5 + 8 * two(p, 3))],
    'write': lambda p: [0, *range(5, 5 + two(p, 3))],
    'check': lambda p: [0],
    'operations': lambda p: range(1, values_end(p, 2, 1)),
    'records': lambda p: [*range(4), *range(12, values_end(p, 12, 3))],
    'translate': lambda p: [*range(3), *range(7, 7 + two(p, 5))],
    'ways': lambda p: [*range(17), 27, 28, *range(31, 31 + two(p, 27))],
    'runs': lambda p: [*range(17), 27, 28, *range(31, 31 + two(p, 27))],
}


def two(p, at):
    return struct.unpack_from('<H', p, at)[0]


def values_end(p, at, n):
    """Where the n values from an index on end."""
    return at if n == 0 else values_end(p, at + 3 + two(p, at + 1), n - 1)


def changed(r, name, payload):
    """The payload, with another byte where it says what is expected."""
    at = r.choice(list(EXPECTED[name](payload)))
    return payload[:at] + bytes([(payload[at] + r.randrange(1, 256)) % 256]) + payload[at + 1:]


def wrong(name, cases):
    """Cases that must not pass: so each judge is seen to refuse."""
    r = random.Random('wrong ' + name)
    some = [p for p in cases if len(p) < 600 and EXPECTED[name](p)]
    return [changed(r, name, p) for p in r.sample(some, min(len(some), 60))]


# ----------------------------------------------------------------- files

def main():
    global ref, gen
    parser = argparse.ArgumentParser(description=__doc__.split('\n')[0])
    parser.add_argument('--reference', default=os.path.join(ROOT, 'tests', 'reference'), help='the folder of reference.py')
    folder = parser.parse_args().reference
    sys.path.insert(0, folder)
    sys.dont_write_bytecode = True
    if hasattr(sys, 'set_int_max_str_digits'):
        sys.set_int_max_str_digits(0)  # the long texts have thousands of digits
    import gen as generator
    import reference
    ref, gen = reference, generator
    crate = os.path.join(ROOT, 'crates', 'vectors')
    os.makedirs(os.path.join(crate, 'data'), exist_ok=True)
    lines = []
    for payloads in GROUPS:
        name, cases = payloads.__name__, payloads()
        for file, made, passed in ((name, cases, len(cases)), ('wrong_' + name, wrong(name, cases), 0)):
            with open(os.path.join(crate, 'data', file), 'wb') as f:
                f.writelines(short(len(p)) + p for p in made)
            lines.append('%s: %d of %d\n' % (file, passed, len(made)))
    lines += program_cases.written()
    with open(os.path.join(crate, 'stdout'), 'w') as f:
        f.writelines(lines)
    sys.stdout.writelines(lines)


if __name__ == '__main__':
    main()
