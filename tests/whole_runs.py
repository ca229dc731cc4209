"""Runs for tests: images of the reference's translator and images that no translator writes, lines, rooms and budgets, drawn at random.

`ref` and `gen` are the modules reference.py and gen.py; the functions that need them take them.
"""
import image_cases

TAKES_LEAVES = {2: (0, 1), 3: (1, 1), 4: (1, 1), 5: (2, 1), 6: (1, 0), 12: (1, 1), 13: (1, 1), 14: (1, 1), 21: (2, 1), 22: (1, 1), 23: (1, 1), 24: (1, 1),
                25: (2, 1), 26: (3, 1), 28: (1, 0)}
TAKES_LEAVES.update({c: (2, 1) for c in (7, 8, 9, 10, 11, 15, 16, 17, 18, 19, 20)})

FILTERS = [
    b'{ $3 = $1; $1 = $2; print; print $0, NF }',
    b'{ x = $0; $2 = "q"; print x, $0; $0 = x; print $2 }',
    b'{ print $1 ($2 = "zz") $1 $0 }',
    b'BEGIN { OFS = "--" } { $(NF+2) = NR; print; $0 = $0 "," $1; print NF, $2 }',
    b'{ $1 = $1; print ($1 = 5) + $1, $0 }',
    b'{ a = $1; b = $2; $1 = b; $2 = a; print a b $1 $2 $0 }',
    b'{ print $0 ($0 = "x y") $0 $1 }',
    b'{ FS = ":"; $0 = $0; print NF, $1 } END { print $0, NF }',
    b'{ x = x $1; print length(x), x } ',
    b'{ OFS = OFS "-"; $1 = $1; print; print OFS }',
    b'{ v = substr($0, 2, 3); $2 = v; u = $2; $1 = "a"; print u, v, match($0, /[0-9]+/), RSTART, RLENGTH }',
    b'{ print ($1 < $2), ($1 == $2), ($1 > "a"), ($2 >= 10), $1 < 5, !$1, !$2 }',
    b'{ $2 = 7; $2 = $2 + 1; $3 = $2; x = $3; $1 = 3; print x, $0, $2 == 8, $2 == "8" }',
    b'BEGIN { FS = "[ .-]+" } $2 ~ /^p(0[1-9]|1[0-9])$/ { print $1, NF, substr($0, index($0, "t"), 3) }',
    b'/a/ { n = n + 1 } /b/ { m = m + 1 } /c+/ { k = k + 1 } /[0-9]/ { j = j + 1 } $1 ~ /x|y/ { i = i + 1 } END { print n, m, k, j, i }',
    b'{ ORS = $1; print $2; OFS = 7; print 1, 2; ORS = u; print 3 }',
    b'BEGIN { while (i < 40) { i = i + 1; if (i % 7 == 3) print i; else x = x i } print x } END { print NR, x }',
    b'NR == 2 { next } NR == 4 { exit } { print } END { print "end", NR, $0 }',
]

# EREs that each section may ask for: usual ones; and ones that get no automaton, since they have too many states, and are walked over the shared table
USUAL_ERES = [b'a+', b'^x', b'[0-9]+$', b'(a|b)c', b'1', b'.', b'zz*', b'\\.', b'p[0-9]+', b'(tcp|udp) (443|80)$', b'^$', b'x*', b'a.*b.*c', b'^raw$|scaled', b'[^a]b*',
              b'(ab)+c?', b'$', b'^a|b$', b'[a-c]x?[0-9]', b'raw|scaled|tcp', b'-', b'ab|abc|bca', b'(a|b)*abb', b'..$']
LARGE_ERES = [b'(a|b)*a' + b'(a|b)' * 7, b'.*b' + b'.' * 8 + b'$', b'[ab]*b' + b'[ab]' * 9 + b'(c|$)']


# ---- images that no translator writes

def code(r, users, constants, eres, in_main, most):
    """A section: random instructions at fitting depths, jumps of all kinds to instructions of the right depth, code that nothing leads to."""
    out, depth = [], 0
    while len(out) + depth + 1 < most - (most < 1024) * 34:
        choices = [c for c, (n, _) in TAKES_LEAVES.items() if n <= depth]
        kind = r.randrange(12)
        if kind < 4 and depth < 32:
            out.append([1, depth, r.randrange(constants)])
            depth += 1
        elif kind == 4 and depth >= 1:
            n = r.randrange(1, depth + 1)
            out.append([29, depth, n])
            depth -= n
        elif kind == 5:
            out.append([27, depth, None])
            if r.random() < .5:
                depth = r.choice([0, depth, r.randrange(33)])
        elif kind == 6 and depth == 0 and r.random() < .3:
            out.append([r.choice([30, 31] if in_main else [31]), 0])
        else:
            c = r.choice(choices)
            n, m = TAKES_LEAVES[c]
            if depth - n + m > 32:
                continue
            named = {2: r.randrange(7 + users), 3: r.choice([2, 3, 4, *range(7, 7 + users)]), 22: r.randrange(eres), 23: r.randrange(eres)}.get(c)
            out.append([c, depth] + ([None] if c == 28 else [] if named is None else [named]))
            depth += m - n
        if most < 1024 and r.random() < .04:
            break
    out += [[6, d] for d in range(depth, 0, -1)] + [[0, 0]]
    for i, j in enumerate(out):
        if j[0] in (27, 28):
            after = j[1] - (j[0] == 28)
            j[2] = r.choice([k for k, t in enumerate(out) if t[1] == after and (k > i or r.random() < .3)] or [k for k, t in enumerate(out) if t[1] == after])
    return out


def assembled(r, gen):
    users, eres = r.choice([0, 1, 3, 25]), [b'a+', b'^x', b'[0-9]+$', b'(a|b)c', b'1', b'.', b'zz*', b'\\.'][:r.randrange(1, 9)]
    constants = [r.choice([0, 1, 2, 3, 5, 10, 127, 128, 2 ** 53, r.randrange(200)]) if r.random() < .6 else gen.text(r)[:r.choice([0, 3, 40, 512])]
                 for _ in range(r.choice([1, 2, 5, 64]))]
    constants = [c if isinstance(c, (int, bytes)) else c.encode('latin1') for c in constants]
    large = r.choice([0, 1, 2]) if r.random() < .1 else None
    sections = []
    for s in range(3):
        made = None
        while made is None:
            try:
                most = 1024 if s == large else r.choice([40, 60, 120])
                made = code(r, users, len(constants), len(eres), s == 1, most) if s == large or r.random() < .7 else [[0, 0]]
            except IndexError:
                made = None
        sections.append(made)
    return image_cases.assembled(users, constants, eres, sections)


# ---- many EREs

def asked(r, ere, text):
    """What a filter does with an ERE and a text: `~`, match() or both, and what it writes of it."""
    return r.choice([b'print (%s ~ /%s/)', b'print match(%s, /%s/), RSTART, RLENGTH', b'if (%s ~ /%s/) n = n + 1; print n']) % (text, ere)


def ere_filter(r):
    """A filter of up to 16 EREs, each asked for in any section, once or in turns with the others."""
    eres = r.sample(USUAL_ERES, r.choice([1, 2, 4, 8, 13])) + r.sample(LARGE_ERES, r.randrange(4))
    r.shuffle(eres)
    sections = []
    for text in (b'"abbabab tcp 80"', b'$0', b'$0'):
        asks = [asked(r, ere, text) for ere in eres for _ in range(r.choice([0, 1, 1, 2]))]
        r.shuffle(asks)
        sections.append(b'; '.join(asks) or b'n = 0')
    return b'BEGIN { %s } { %s } END { %s }' % tuple(sections)


def ere_lines(r):
    parts = [b'a', b'b', b'ab', b'abb', b'c', b'x', b'zz', b'.', b'17', b'p01', b'tcp 443', b'udp 80', b'raw', b'scaled', b' ', b'-', b'babababbab']
    return b''.join(b''.join(r.choices(parts, k=r.choice([0, 1, 3, 8, 20]))) + b'\n' for _ in range(r.randrange(1, 5)))


def draw_eres(r, ref):
    while True:
        outcome, _, made = ref.translate(ere_filter(r))
        if outcome == 0:
            return made, ere_lines(r), 20000, 49152, 20000


# ---- whole runs

def image(r, ref, gen):
    k = r.random()
    if k < .25:
        made = assembled(r, gen)
        return made if r.random() < .9 else gen.damaged_image(r, made)
    if k < .3:
        return gen.image(r, ref.translate)
    while True:
        text = r.choice(FILTERS) if r.random() < .4 else gen.program(r)
        outcome, _, made = ref.translate(text if isinstance(text, bytes) else text.encode('latin1'))
        if outcome == 0:
            return made


def lines(r, gen):
    k = r.random()
    if k < .45:
        return gen.lines(r)
    if k < .5:
        n, m = r.choice([127, 128, 129]), r.choice([511, 512, 513])
        return r.choice([b'a ' * n, b'a,' * n, b'x' * m, b'1 ' * (n - 1) + b'2', b'\x00\xff ' * 40]) + r.choice([b'', b'\n', b'\na b\n'])
    made = b''.join(b'%s %d %d %s,%s\n' % (r.choice([b'a', b'ab 3', b'10', b' 7', b'x-y', b'-4.0', b'p01 tcp']), r.randrange(-5, 2000), r.randrange(10),
                                           r.choice([b'raw', b'scaled', b'']), r.choice([b'1.5', b'9007199254740993', b'b', b' ', b'\x00\xff'])) for _ in range(r.randrange(6)))
    return made[:-1] if r.random() < .2 else made


def limits(r, ref, made, text):
    """An output room and a budget: usual ones, and those at the edges of what the run needs."""
    room, budget = (r.choice([0, 1, 5, 40, 300]) if r.random() < .2 else 20000), (r.choice([0, 1, 2, 7, 30, 100]) if r.random() < .2 else 3000)
    if r.random() < .35:
        _, steps, _, out = ref.run(made, text, 20000, 3000)
        room = max(0, len(out) + r.choice([-1, 0, 1, 0])) if r.random() < .5 else room
        budget = max(0, steps + r.choice([-1, 0, 1])) if r.random() < .7 else budget
    return room, r.choice([budget] * 9 + [2 ** 64 - 1]) if budget == 3000 and finishes(ref, made, text) else budget


def finishes(ref, made, text):
    return ref.run(made, text, 20000, 3000)[0] != 10


def draw(r, gen, ref):
    made, text = image(r, ref, gen), lines(r, gen)
    room, budget = limits(r, ref, made, text)
    work = r.choice([0, 1, 49151]) if r.random() < .01 else r.choice([49152, 49153, 60000])
    return made, text, room, work, budget
