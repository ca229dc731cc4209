"""Images and contents for tests: made by hand, each rule of their form and of the check kept and broken alone, and drawn at random.

`ref` and `gen` are the modules reference.py and gen.py; the functions that need them take them.
"""
BIG = 2 ** 53
EMPTY = bytes([1, 0, 0, 0, 0, 0, 0])
SMALL = bytes([1, 2, 2, 0, 200, 1, 1, 2, 0, 255, 1, 1, 97, 1, 0, 0, 2, 1, 0, 1, 29, 1, 1, 1, 31, 0])
END = (0, 0)


def number(n):
    """A number's groups, however great it is."""
    out = []
    while n >= 128:
        out.append(n % 128 + 128)
        n //= 128
    return bytes(out + [n])


# ---- form

def formed_images():
    """Images' bytes, well-formed and malformed."""
    yield from (EMPTY, SMALL, b'', EMPTY + b'\0', SMALL + b'\0', EMPTY * 2)
    yield from (SMALL[:i] for i in range(1, len(SMALL)))
    # the count of user variables, in each form of coding; behind 2^53 stand a number over it and one of nine groups
    for n in (0, 1, 127, 128, 129, 16383, 16384, 2 ** 49 - 1, 2 ** 49, BIG - 1, BIG, BIG + 1, 2 ** 56, 2 ** 56 - 1, 2 ** 63):
        yield EMPTY[:1] + number(n) + EMPTY[2:]
    for needless in (b'\x80\0', b'\x81\0', b'\x81\x80\0', b'\xff\x80\x80\0', number(BIG)[:-1] + bytes([number(BIG)[-1] + 128, 0])):
        yield EMPTY[:1] + needless + EMPTY[2:]
    # the edition: 0, 2, 128, 1 with a needless group
    for edition in (b'\0', b'\2', b'\x80\1', b'\x81\0'):
        yield edition + EMPTY[1:]
    # the kinds
    for constant in (b'\0\5', b'\0' + number(BIG), b'\1\0', b'\1\1\0', b'\1\1\xff', b'\1\2a', b'\2\0', b'\2\1a', b'\x80\0\5', b'\x81\0\0', b'\x7f\0'):
        yield b'\1\0\1' + constant + b'\0\0\0\0'
    # each code, with no operand and with one
    for code in list(range(34)) + [127, 128, BIG]:
        for operand in (b'', b'\7'):
            yield b'\1\0\0\0\1' + number(code) + b'\0' + operand + b'\0\0'
    # counts that go past the end
    for count in (1, 2, 128, BIG):
        yield EMPTY[:2] + number(count) + EMPTY[3:]
        yield EMPTY[:6] + number(count)
    # EREs and texts are not read: any bytes
    yield b'\1\0\0\3\0\1(\2\0\xff\0\0\0'


def formed_contents(ref):
    """Contents' words, that some reading gives and that none does."""
    small = ref.read_image(SMALL)[1]
    empty = list(EMPTY)
    yield from ([], empty, small, small + [0], empty + [1])
    yield from (small[:i] for i in range(1, len(small)))
    yield from ([1, n] + empty[2:] for n in (127, 128, 255, 256, BIG, BIG + 1, 2 ** 64 - 1))
    yield from ([n] + empty[1:] for n in (0, 2, 129))
    # a text byte, 255 and 256, in a constant and in an ERE; a number is not held to 255
    for b in (0, 127, 128, 255, 256, BIG, 2 ** 64 - 1):
        yield [1, 0, 1, 1, 1, b, 0, 0, 0, 0]
        yield [1, 0, 0, 1, 1, b, 0, 0, 0]
        yield [1, 0, 1, 0, b, 0, 0, 0, 0]


def damaged_words(r, content):
    content = list(content)
    for _ in range(r.randrange(1, 3)):
        i, v = r.randrange(len(content) + 1), r.choice([0, 1, 2, 27, 29, 31, 32, 127, 128, 255, 256, BIG, BIG + 1, 2 ** 64 - 1])
        content[i:i + r.randrange(2)] = [[v], [], [v]][r.randrange(3)]
    return content


# ---- the check

def assembled(users, constants, eres, sections):
    """An image's bytes. A constant is a number or bytes, an instruction its numbers."""
    out = number(1) + number(users) + number(len(constants))
    for c in constants:
        out += b'\1' + number(len(c)) + c if isinstance(c, bytes) else b'\0' + number(c)
    out += number(len(eres)) + b''.join(number(len(e)) + e for e in eres)
    return out + b''.join(number(len(s)) + b''.join(number(n) for i in s for n in i) for s in sections)


def sections_with(code, which):
    """The code as one of the sections; the others are a lone 0."""
    return [list(code) if s == which else [END] for s in range(3)]


def pushed(n):
    """n constants on each other."""
    return [(1, d, 0) for d in range(n)]


def operand_cases():
    """For each code that takes operands: as many as it needs, and one fewer."""
    taken = {3: 1, 4: 1, 5: 2, 6: 1, 22: 1, 23: 1, 24: 1, 25: 2, 26: 3, 28: 1}
    taken.update({c: 2 for c in (7, 8, 9, 10, 11, 15, 16, 17, 18, 19, 20, 21)})
    taken.update({c: 1 for c in (12, 13, 14)})
    for code, n in taken.items():
        named = {3: (7,), 22: (0,), 23: (0,)}.get(code, ())
        left = 0 if code in (6, 28) else 1
        for m in (n, n - 1):
            head = pushed(m)
            after = m - n + left
            here = len(head)
            tail = [(6, after)] if after > 0 else []
            body = head + [(code, m) + (named or ((here + 1,) if code == 28 else ()))] + tail + [END]
            yield body
    for n, m in ((1, 1), (2, 2), (1, 0), (2, 1), (0, 0), (32, 32), (33, 32), (3, 5)):
        yield pushed(m) + [(29, m, n)] + [(6, d) for d in range(m - n, 0, -1)] + [END]


def flow_cases():
    """Jumps, ends and depths, each kept and broken alone."""
    yield from ([END], [], [END, END], [(6, 0)], [(27, 0, 0), END], [(27, 0, 1), END], [(27, 0, 2), END], [(27, 0, 3), END])
    yield from ([(27, 0, 0)], [(0, 1)], [(30, 0), END], [(31, 0), END], [(30, 1), END], [(31, 1), END], [(30, 0)], [(31, 0)])
    yield from ([(1, 1, 0), (6, 2), END], [(1, 0, 0), (6, 1), (0, 1)], [(1, 0, 0), END], [(1, 0, 0), (0, 1)])
    # a jump over a push, forwards and backwards
    yield [(1, 0, 0), (27, 1, 2), (6, 1), END]
    yield [(1, 0, 0), (27, 1, 3), (6, 1), END]
    yield [(1, 0, 0), (27, 1, 0), (6, 1), END]
    # each successor of a branch
    for target in range(6):
        yield [(1, 0, 0), (28, 1, target), (1, 0, 0), (6, 1), END]
        yield [(1, 0, 0), (1, 1, 0), (28, 2, target), (6, 1), END]
    for depth in (0, 1, 2):
        yield [(1, 0, 0), (28, 1, 2), (6, depth), END]
        yield [(1, 0, 0), (6, depth), END]
        yield [(27, 0, 2), (31, depth), END]
        yield [(27, 0, 2), (30, depth), END]
        yield [(27, 0, 2), (6, depth), END]
    # unreachable instructions are judged too
    yield [(27, 0, 3), (1, 0, 0), (6, 1), END]
    yield [(27, 0, 3), (1, 0, 0), (6, 2), END]
    yield [(27, 0, 2), (1, 0, 9), END]
    for n in (31, 32, 33):
        yield pushed(n) + [(6, d) for d in range(n, 0, -1)] + [END]


def named_cases():
    """What a number names: there, and one too many."""
    for n in (0, 1, 2, 3):
        yield [(1, 0, n), (6, 1), END]
        yield [(1, 0, 0), (22, 1, n), (6, 1), END]
        yield [(1, 0, 0), (23, 1, n), (6, 1), END]
    for v in range(12):
        yield [(2, 0, v), (6, 1), END]
        yield [(1, 0, 0), (3, 1, v), (6, 1), END]
    for v in (127, 128, BIG):
        yield [(2, 0, v), (6, 1), END]
        yield [(1, 0, v), (6, 1), END]
        yield [(27, 0, v), END]
        yield [(29, 0, v), END]
        yield [(1, v, 0), END]


def size_cases():
    """Whole images about the limits."""
    lone = [[END]] * 3
    yield from (assembled(n, [], [], lone) for n in (24, 25, 26, BIG))
    yield from (assembled(0, [0] * n, [], lone) for n in (63, 64, 65))
    yield from (assembled(0, [b'x' * n], [], lone) for n in (0, 511, 512, 513))
    yield from (assembled(0, [0, b'x' * n, 7], [], lone) for n in (512, 513))
    yield from (assembled(0, [], [b'a'] * n, lone) for n in (15, 16, 17))
    eres = (b'', b'(', b'a**', b'[b-a]', b'a|', b'(a)', b'a' * 128, b'a' * 129, b'[' + b'a' * 510 + b']', b'[' + b'a' * 511 + b']', b'(' * 16 + b'a' + b')' * 16, b'(' * 17 + b'a' + b')' * 17)
    yield from (assembled(0, [], [e], lone) for e in eres)
    yield from (assembled(0, [], [b'a', e, b'b'], lone) for e in eres[:5])
    for which in range(3):
        for n in (1023, 1024, 1025):
            yield assembled(0, [0], [], sections_with([(27, 0, min(i + 1, n - 1)) for i in range(n - 1)] + [END], which))
            yield assembled(0, [0], [], sections_with([(27, 0, 0)] * (n - 1) + [END], which))


def checked_images():
    """Images that read: each rule of the check kept and broken alone, in each section."""
    for which in range(3):
        for code in (*flow_cases(), *named_cases(), *operand_cases()):
            yield assembled(2, [5, b'ab'], [b'a+', b'b'], sections_with(code, which))
    yield from size_cases()


# ---- at random

def translated(r, ref, gen):
    """The image of a program of the generator."""
    while True:
        outcome, _, image = ref.translate(gen.program(r))
        if outcome == 0:
            return image
