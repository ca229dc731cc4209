"""Cases on the operations of a run: operations with their operands, and records with assignments to their fields.

A value is one of the reference: ('u',), ('n', number), ('t', text) or ('f', text of a field).
"""
import itertools

BIG = 2 ** 53
UNSET = ('u',)
NUMBERS = (0, 1, -1, 2, 7, 12, BIG - 1, BIG, -BIG)
TEXTS = (b'', b'0', b'7', b'-7', b' 12 ', b'+.0', b'4.00', b'1.5', b'12x', b'x', b'.', b' ', b'9007199254740992',
         b'9007199254740993', b'-9007199254740993', b'9007199254740993.5', b'0x10', b'abcabd', b'bd', b'\x00\xff')
VALUES = [UNSET] + [('n', z) for z in NUMBERS] + [(kind, text) for text in TEXTS for kind in 'tf']

# a value of each kind, and the two stops that a number may have
FEW = [UNSET, ('n', 7), ('t', b'7'), ('f', b' 7.0'), ('f', b'9007199254740993'), ('f', b'-1.5')]

UNARY = (12, 13, 14, 24, 28)
BINARY = (*range(7, 12), *range(15, 22), 25)


# ---- operations: a code, and the values of three slots, of which it takes the first ones

def sized_joins():
    """Texts that have 512 bytes together, more, and less."""
    sizes = ((0, 512), (1, 511), (1, 512), (256, 256), (256, 257), (511, 1), (512, 0), (512, 1), (512, 512), (17, 496))
    for n, m in sizes:
        yield from (((left, b'a' * n), (right, b'\xff' * m)) for left in 'tf' for right in 'tf')
    for n in (494, 495, 496):
        yield from ((('n', -BIG), ('t', b'q' * n)), (('f', b'q' * n), ('n', -BIG)))


def drawn_places(r):
    """A text, and a part that is in it or is not."""
    for _ in range(90):
        text = bytes(r.choice(b'ab') for _ in range(r.randrange(20)))
        part = bytes(r.choice(b'ab') for _ in range(r.randrange(5)))
        yield (r.choice('tf'), text), (r.choice('tf'), part)
    for at in (0, 1, 15, 16, 255, 494, 495, 496, 508, 509, 510):
        yield ('t', b'a' * at + b'bc' + b'a' * (510 - at)), ('f', b'bc')
    yield from ((('n', -120), ('n', 20)), (('n', BIG), ('t', b'992')), (('t', b'992'), ('n', BIG)))
    yield ('t', b'a' * 512), ('t', b'a' * 512)


def drawn_parts(r):
    """A text, a position and a count."""
    texts = [UNSET, ('n', -1234567), ('t', b''), ('t', b'hello'), ('f', b'12345'), ('t', bytes(range(1, 256)) * 2)]
    numbers = [UNSET, ('t', b'2'), ('f', b' 3x'), ('f', b'1.5'), ('t', b'9007199254740993'), ('t', b'')]
    numbers += [('n', z) for z in (-BIG, 1 - BIG, -3, -1, 0, 1, 2, 3, 4, 5, 6, 255, 511, 512, 513, BIG - 1, BIG)]
    return r.sample(list(itertools.product(texts + [('f', b'z' * 512)], numbers, numbers)), 300)


def operations(r):
    pairs = list(itertools.product(VALUES, VALUES))
    taken = [(code, (v,)) for code in UNARY for v in VALUES]
    taken += [(code, pair) for code in BINARY for pair in [*itertools.product(FEW, FEW), *r.sample(pairs, 60)]]
    taken += [(21, pair) for pair in sized_joins()] + [(25, pair) for pair in drawn_places(r)]
    taken += [(26, three) for three in drawn_parts(r)]
    return [(code, (*operands, *r.choices(VALUES, k=3 - len(operands)))) for code, operands in taken]


# ---- records: FS, OFS, how many records were read before, the record that is read, two assignments, and the number of
# the field that is got

# FS, and a text that it separates by
SEPARATORS = [(('t', b' '), b' '), (('t', b' '), b'\t '), (('t', b','), b','), (('f', b';'), b';'),
              (('t', b'.'), b'.'), (('t', b'a'), b'a'), (('n', 5), b'5'), (('n', 12), b'12'),
              (('t', b', *'), b', '), (('t', b'x*'), b'xx'), (('f', b'^,|,'), b','), (('t', b'[,;]+'), b';,'),
              (('t', b'\t'), b'\t'), (('t', b'ax|axa'), b'axa'), (('t', b'a$|,'), b','), (('n', -7), b'-7')]
REFUSED = [UNSET, ('t', b''), ('f', b''), ('t', b'(('), ('t', b'a**'), ('t', b'[b-a]'), ('t', b'a' * 129)]
BETWEEN = [UNSET, ('n', 0), ('n', -12), ('f', b'\x00'), ('t', b' '), ('t', b','), ('t', b''), ('t', b'--'),
           ('t', b'abcdefghijklmnopqrstuvwxyz')]
FIELDS = [b'', b'a', b'12', b'-7', b'4.0', b'1.5', b'bb', b'x y', b'9007199254740993', b'\xff\x00', b'0', b'ccc']


def some_value(r):
    return r.choice([r.choice(VALUES), r.choice(VALUES), ('t', b'w' * r.randrange(40)), ('f', b'1' * r.randrange(40))])


def some_number(r, count):
    """The number of a field about a count of fields, one that no field has, or another value."""
    odd = [UNSET, ('t', b'2'), ('f', b' 3 '), ('t', b'1x'), ('f', b'1.5'), ('t', b'9007199254740993'), ('t', b'')]
    near = [('n', k) for k in (0, 1, 1, 2, 3, count - 1, count, count, count + 1, count + 2, count + 5)]
    return r.choice(near * 2 + [('n', k) for k in (127, 128, 129, -1, BIG)] + odd)


def assigned(r, head, count, k, value):
    """A case whose first assignment is given."""
    second = some_number(r, count)
    got = r.choice([k, second, some_number(r, count), some_number(r, count + 3)])
    return (*head, k, value, second, some_value(r), got)


def many_fields(r):
    """Records of as many fields as there may be, of one more and of less, that are read or assigned."""
    for (fs, between), n in itertools.product(SEPARATORS, (126, 127, 128, 129)):
        record = between.join([b'q'] * (n - 1) + [b'7'])
        ofs = r.choice([('t', b' '), ('t', b''), ('t', b'::'), ('n', 3), UNSET])
        for k in (0, 1, 127, 128, 129):
            value = r.choice([UNSET, ('n', -5), ('t', b'w'), ('f', record[:512])])
            yield assigned(r, (fs, ofs, 0, record), n, ('n', k), value)


def long_records(r):
    """Records about as long as they may be, that are read."""
    for n in (510, 511, 512, 513, 600):
        for (fs, between), k in itertools.product(SEPARATORS[2:9], (0, 1, 3)):
            record = (between + b'q') * 3 + b'b' * (n - 3 * len(between) - 3)
            yield assigned(r, (fs, r.choice(BETWEEN), 0, record), 4, ('n', k), some_value(r))


def long_joins(r):
    """Records about as long as they may be, that an assignment makes."""
    for n, ofs, k in itertools.product((510, 511, 512, 513, 514), (b' ', b'', b'--'), (1, 2, 3, 6)):
        fields = [b'one', b'two', b'three'] + [b''] * (k - 3)
        fields[k - 1] = b''
        value = (r.choice('tf'), b'v' * min(512, n - len(ofs.join(fields))))
        yield assigned(r, (('t', b','), ('t', ofs), 0, b'one,two,three'), len(fields), ('n', k), value)


def refused_records(r):
    """Reads that stop: 11, before 15, before 18, before 16."""
    records = (b'', b'a', b'a,b', b',' * 128, b'a' * 512, b',' * 513)
    for fs, record, count in itertools.product(REFUSED + [('t', b','), ('t', b',|;')], records, (0, BIG - 1, BIG)):
        yield assigned(r, (fs, r.choice(BETWEEN), count, record), 3, some_number(r, 0), some_value(r))


def some_records(r):
    for _ in range(900):
        fs, between = r.choice(SEPARATORS)
        n = r.choice([0, 1, 2, 3, 3, 4, 5, 6, 8, 20])
        record = between.join(r.choices(FIELDS, k=n))
        value = r.choice([some_value(r), some_value(r), (r.choice('tf'), between.join(r.choices(FIELDS, k=3)))])
        yield assigned(r, (fs, r.choice(BETWEEN), 0, record), n, some_number(r, n), value)


def records(r):
    return list(itertools.chain(many_fields(r), long_records(r), long_joins(r), refused_records(r), some_records(r)))
