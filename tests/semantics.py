#!/usr/bin/env python3
"""Compares the definitions of the crates with the reference, by theorems that the checker computes.

    tests/semantics.py [--reference DIR] [--cases N] [--seed S] [--keep]

DIR has reference.py and gen.py (default tests/reference). Each group makes N random cases (default 100), and its hand-made cases besides. A case is a theorem
`left ≡ right`, proved by `refl`: `left` is a definition at some input, `right` is what the reference answers there. The script copies
crates.txt and crates/ to a temporary folder (what is proved of them is found again), adds the theorems there as a module of the
specs/ of the group's crate, runs `rt check` and reports each case that the checker refuses. The repository stays as it is, and the
temporary folder is removed; --keep keeps it and prints its name.

A false theorem goes along with each group, and has to be refused: so the checker did look at the others.

To add a group, write a function under @group: it takes a random.Random and a count and yields pairs (left, right) as text.
"""
import argparse
import os
import random
import re
import shutil
import subprocess
import sys
import tempfile

import building

import image_cases

ROOT = os.path.dirname(os.path.dirname(os.path.abspath(__file__)))
BIG = 2 ** 53
GROUPS = []
ref = gen = None


def group(crate, uses, unfolding):
    """The crate that the theorems go into, the `use` lines that they need, and the definitions that `refl` has to open."""
    def add(cases):
        GROUPS.append((cases.__name__, crate, uses, unfolding, cases))
        return cases
    return add


# ---- values, as text of antt

def listed(texts):
    return '(' + ''.join(t + ' ∷ ' for t in texts) + '[])'


def numbers(values):
    return listed(str(v) for v in values)


def record(**fields):
    return '(record { ' + '; '.join(k + ' = ' + v for k, v in fields.items()) + ' })'


# ---- images: their bytes and their content words

def image_value(parts):
    users, constants, eres, sections = parts

    def instruction(i):
        return record(code=str(i[0]), depth=str(i[1]), immediates=numbers([] if i[2] is None else [i[2]]))

    begin, main, end = (listed(instruction(i) for i in s) for s in sections)
    return record(edition='1', users=str(users), constants=listed('(number %d)' % v if kind == 0 else '(text %s)' % numbers(v) for kind, v in constants),
                  eres=listed(numbers(e) for e in eres), begin=begin, main=main, end=end)


def reading(source, data, outcome, image):
    """What bytes or words are read as: the case, and the image's value, or None if they are refused. The image's own bytes tell the value."""
    left = 'read_image %s %s' % (source, numbers(data))
    value = None if outcome else image_value(ref._parse_image(image)[0])
    return (left, 'some ' + value if value else 'none'), value


def from_bytes(image):
    """What an image's bytes are read as; and if they are read, the content and the bytes of that."""
    outcome, content = ref.read_image(image)
    case, value = reading('from_bytes', image, outcome, image)
    yield case
    if value:
        yield 'content_of ' + value, numbers(content)
        yield from from_words(content)


def from_words(content):
    """What content words are read as; and if they are read, the bytes of that."""
    outcome, image = ref.write_image(content)
    case, value = reading('from_words', content, outcome, image)
    yield case
    if value:
        yield 'bytes_of ' + value, numbers(image)


def small_image(r):
    """One of the generator's images that the checker computes fast. Those at the sizes of the rules are longer, and come seldom."""
    if r.random() < .02:
        while True:
            image = gen.sized_image(r)
            if len(image) < 1000:
                return image if r.random() < .5 else gen.damaged_image(r, image)
    while True:
        image = gen.image(r, ref.translate)
        if len(image) < 40:
            return image


@group('image_format', '''use mathlib.Core.Path.{◌≡◌, refl}
use mathlib.Core.List.{List, [], ◌∷◌}
use mathlib.Core.Option.{Option, some, none}
use Rattle·lists.specs.Elements.{nth}
use Rattle·lists.specs.Parsing.{many}
use Rattle.image_format.specs.Codes.{codes, code_count, code_of}
use Rattle.image_format.specs.Image.{number, text, Instruction, Image}
use Rattle.image_format.specs.Numbers.{coded, take_groups, take_number}
use Rattle.image_format.specs.Reading.{from_bytes, from_words, read_image}
use Rattle.image_format.specs.Writing.{all, written, bytes_of, content_of}''',
       'nth codes code_count code_of coded take_groups take_number many read_image all written')
def images(r, count):
    for image in image_cases.formed_images():
        yield from from_bytes(image)
    for content in image_cases.formed_contents(ref):
        yield from from_words(content)
    made = 0
    while made < count:
        image = small_image(r)
        cases = list(from_bytes(image))
        outcome, content = ref.read_image(image)
        if outcome == 0:
            cases += from_words(image_cases.damaged_words(r, content))
        made += len(cases)
        yield from cases


# ---- the check and the run of an image

def unfoldables(*crates):
    """The definitions of some crates that have to be opened by name: `use` lines, with the crate before each name, and the names."""
    uses, names = [], []
    for crate in crates:
        folder = os.path.join(ROOT, 'crates', crate, 'specs')
        for module in sorted(f[:-5] for f in os.listdir(folder) if f.endswith('.antt')):
            with open(os.path.join(folder, module + '.antt'), encoding='utf-8') as f:
                found = re.findall(r'^ *unfoldable pub (\S+) :', f.read(), re.M)
            if found:
                uses.append('use Rattle·%s.%s.{%s}' % ('semantics·specs.specs' if crate == 'semantics' else crate + '.specs', module,
                                                       ', '.join('%s as %s-%s' % (n, crate, n) for n in found)))
                names += ['%s-%s' % (crate, n) for n in found]
    return '\n'.join(uses), ' '.join(names)


RUN_USES, RUN_NAMES = unfoldables('lists', 'buffer', 'number', 'decimals', 'numeral', 'ere_meaning', 'ere_grammar', 'splitting', 'image_format', 'values', 'semantics')
RUN_USES = '''use mathlib.Core.Path.{◌≡◌, refl}
use mathlib.Core.Bool.{true, false}
use mathlib.Core.List.{List, [], ◌∷◌}
use mathlib.Core.Option.{Option, some, none}
use Rattle·image_format.specs.Image.{number, text, Instruction, Image}
use Rattle.semantics.specs.Feed.{one_feed}
use Rattle.semantics.specs.Check.{check}
use Rattle.semantics.specs.Run.{Answer, answer_of, run}
''' + RUN_USES


@group('semantics', RUN_USES, RUN_NAMES)
def checks(r, count):
    """Images that read: whether they pass the check."""
    made = 0
    while made < count:
        image = small_image(r)
        if ref.read_image(image)[0] == 0:
            yield 'check ' + image_value(ref._parse_image(image)[0]), 'true' if ref.check(image) == 0 else 'false'
            made += 1


PROGRAMS = [
    '{ print }', '{ print $2, $1 }', 'END { print NR }', 'BEGIN { print 1 + 2 * 3 }', '{ n = n + $1 } END { print n }', '$1 > 3', '/a+b/ { print $1 }',
    'BEGIN { FS = "," } { print $2 }', '{ FS = "," ; print $1 }', '{ $3 = "x"; print; print NF }', '{ $0 = "p q r"; print $2 NF }', 'NR == 2 { next } { print }',
    'NR == 2 { exit } { print } END { print "e" }', 'BEGIN { exit } { print } END { print NR }', 'END { exit; print 1 }', '{ print substr($0, 2, 3) }',
    '{ print length($1), index($0, "b") }', '{ if (match($0, /b*c/)) print RSTART, RLENGTH; else print "no" }', '{ print -$1, !$1 }', '{ print $1 / $2 }', '{ print $1 % $2 }',
    '{ print $1 - $2, $1 * $2 }', '{ print ($1 < $2), ($1 == $2), ($1 >= $2) }', '{ print $1 $2 }', 'BEGIN { while (i < 3) { i = i + 1; print i } }', '{ $(NF + 2) = 7; print }',
    '{ print $129 }', '{ print $(0 - 1) }', '{ print "9007199254740992" + $1 }', '{ OFS = "-"; $1 = $1; print }', 'BEGIN { ORS = ""; print "a", "b" }', '{ FS = "" }', '{ FS = "(" } ',
    '{ x = $1; print x == 0, x == "0" }', '{ print $1 == $9 }', 'BEGIN { print x, x + 0, x == "", x == 0 }', '{ print $1 && $2, $1 || $2 }', '!($1 ~ /^a$/)', '{}', 'END {}', 'BEGIN {}',
    '{ print +$1 }', '{ print ($1 <= $2), ($1 != $2), ($1 > $2) }', '{ if ($1 ~ /b/) next; else print }', '{ if ($1) print "t"; else print "f" }',
]


def lines(r):
    text = b'\n'.join(b' '.join(r.choice([b'a', b'b', b'ab', b'abc', b'1', b'2', b'10', b'-3', b'1.5', b'0', b'a,b', b'']) for _ in range(r.randrange(4)))
                      for _ in range(r.randrange(4)))
    return text + r.choice([b'', b'\n'])


# each stop of a run but those of long lines, in an output room of 5 bytes
STOPS = [('{ print "9007199254740992" + $1 }', b'1'), ('{ print $1 + 1 }', b'1.5'), ('{ print $1 / $2 }', b'1 2'), ('{ print $1 / $2 }', b'1 0'), ('{ print $1 % $2 }', b'1 0'),
         ('{ print $129 }', b'a'), ('{ print $(0 - 1) }', b'a'), ('{ print "abcdef" }', b'a'), ('{ FS = "" }', b'a\nb'), ('{ FS = "(("; $0 = "a" }', b'a')]


def long_lines():
    """Programs and lines at the sizes: records of 512 and 513 bytes, texts that grow past 512, 128 and 129 fields."""
    for n in (512, 513):
        yield '{ print }', b'a' * n + b'\n'
    for n in (255, 256, 257):
        yield '{ x = $0 $0; print length(x) }', b'a' * n
    for n in (128, 129):
        yield '{ print NF }', b'x ' * n
        yield '{ $0 = $0 " y"; print NF }', b'x ' * (n - 1)
    yield '{ $100 = "' + 'z' * 400 + '"; print NF }', b'q ' * 20
    yield '{ $128 = 1; $1 = $0; print NF }', b'a'


# what the runs have shown: codes of their images, and outcomes
SHOWN = set()


def run_case(image, text, room, budget):
    o, steps, records, output = ref.run(image, text, room, budget)
    SHOWN.add('outcome %d' % o)
    SHOWN.update('code %d' % i[0] for section in ref._parse_image(image)[0][3] for i in section)
    return ('answer_of (run %s %d (one_feed %s) %d)' % (image_value(ref._parse_image(image)[0]), budget, numbers(text), room),
            'some ' + record(outcome=str(o), steps=str(steps), records=str(records), output=numbers(output)))


def translated(program):
    outcome, _, image = ref.translate(program.encode())
    if outcome != 0:
        raise SystemExit('semantics.py: no program: %s' % program)
    return image


@group('semantics', RUN_USES, RUN_NAMES)
def runs(r, count):
    """Programs, lines, output rooms and budgets: the run's answer."""
    for program, text in long_lines():
        yield run_case(translated(program), text, 1000, 1000)
    for program, text in STOPS:
        yield run_case(translated(program), text, 5, 1000)
    for program, text in (('NR == 2 { exit } { print } END { print NR }', b'a\nb\nc\n'), ('{ $2 = x; FS = "" }', b'1 2\n3'), ('END { print }', b'')):
        image = translated(program)
        for budget in range(ref.run(image, text, 1000, 1000)[1] + 2):
            yield run_case(image, text, 1000, budget)
    for made in range(count):
        image = translated(PROGRAMS[made % len(PROGRAMS)])
        yield run_case(image, lines(r), r.choice([1000, 1000, 1000, 3, 0]), r.choice([1000, 1000, r.randrange(40)]))
    missing = [name for name in ['code %d' % c for c in range(32)] + ['outcome %d' % o for o in [0] + list(range(10, 19))] if name not in SHOWN]
    if missing:
        raise SystemExit('semantics.py: no run has ' + ', '.join(missing))


# ---- the checker

def check(scratch, crate, groups):
    """Writes the theorems of a crate's groups, each a module of its own, and gives what the checker says."""
    specs = os.path.join(scratch, 'crates', crate, 'specs')
    with open(os.path.join(specs, 'Lib.antt'), 'a') as lib:
        for name, uses, unfolding, cases in groups:
            module = 'Cases' + name.capitalize()
            lib.write('pub mod %s\n' % module)
            with open(os.path.join(specs, module + '.antt'), 'w') as f:
                f.write(uses + '\nuse Prim.Native.Nat.{ℕ}\n')
                for i, (left, right) in enumerate(cases):
                    f.write('\n%s-%d : %s ≡ %s\nunfolding %s\n%s-%d = refl\n' % (name, i, left, right, unfolding, name, i))
                f.write('\n%s-false : ◌≡◌ {A = ℕ} 0 1\n%s-false = refl\n' % (name, name))
    done = subprocess.run(['rt', 'check'], cwd=os.path.join(scratch, 'crates', crate), stdout=subprocess.PIPE, stderr=subprocess.STDOUT)
    return done.stdout.decode('utf-8', 'replace')


def copied():
    """A copy of the repository's crates."""
    scratch = tempfile.mkdtemp(prefix='semantics.')
    shutil.copytree(os.path.join(ROOT, 'crates'), os.path.join(scratch, 'crates'), ignore=shutil.ignore_patterns('out'))
    shutil.copy(os.path.join(ROOT, 'crates.txt'), scratch)
    return scratch


def judged(crate, groups, answer):
    """Prints what the checker's answer says of each group of a crate; whether something is wrong."""
    failed = False
    refused = dict(re.findall(r'error: `([a-z]+-(?:[0-9]+|false))`: ((?:.*\n?(?!\S*antt:))*)', answer))
    for name, _, _, cases in groups:
        wrong = [i for i in range(len(cases)) if '%s-%d' % (name, i) in refused]
        for i in wrong:
            print('%s: refused: %s ≡ %s' % (name, *cases[i]))
        looked = name + '-false' in refused
        if not looked:
            print('%s: the checker did not refuse the false theorem; it says:\n%s' % (name, answer[-4000:]))
        failed |= bool(wrong) or not looked
        print('%s: %d cases, %d refused' % (name, len(cases), len(wrong)))
    strange = [line for line in answer.splitlines() if 'error' in line and not re.search(r'error: `[a-z]+-(?:[0-9]+|false)`:', line)]
    for line in strange:
        print('%s: %s' % (crate, line))
    return failed or bool(strange)


def main():
    global ref, gen
    parser = argparse.ArgumentParser()
    parser.add_argument('--reference', default=building.REFERENCE)
    parser.add_argument('--cases', type=int, default=100)
    parser.add_argument('--seed', type=int, default=1)
    parser.add_argument('--keep', action='store_true')
    options = parser.parse_args()
    sys.path.insert(0, os.path.abspath(options.reference))
    import gen as the_gen
    import reference as the_reference
    ref, gen = the_reference, the_gen

    crates = {}
    for name, crate, uses, unfolding, cases in GROUPS:
        made = list(dict.fromkeys(cases(random.Random('%s %d' % (name, options.seed)), options.cases)))
        crates.setdefault(crate, []).append((name, uses, unfolding, made))
    failed = False
    for crate, groups in crates.items():
        # a copy for each crate: the false theorem of one would leave those above it unproved
        scratch = copied()
        try:
            failed |= judged(crate, groups, check(scratch, crate, groups))
        finally:
            if options.keep:
                print(scratch)
            else:
                shutil.rmtree(scratch)
    sys.exit(1 if failed else 0)


if __name__ == '__main__':
    main()
