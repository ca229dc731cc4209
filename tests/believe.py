#!/usr/bin/env python3
"""Computes what a reader has to believe: the definitions that the contracts of public entries and the claims of docs/PROMISES.md reach.

    tests/believe.py [--list] [--why NAME] [--book]

A definition of crates/*/specs/ is reached if a contract of a public entry (ENTRIES), the statement of a theorem that the section "Demands 1 to 3" of
docs/PROMISES.md names, or another definition that is reached names it. Where a theorem explains a computed definition by a relation (EXPLAINED), the
relation is reached in its place, and the computation isn't. What is counted are lines of definitions, without blank lines, comments and `use` lines.
Statements of theorems are not counted, whether they are beside the proof or have a name of their own in specs/ (STATEMENTS): they are proved. They are
shown, and their lines are told apart.

Writes a line for each crate and the sum; --list writes the definitions themselves, --why NAME how NAME is reached, and --book writes docs/BELIEVE.md:
the definitions in reading order (CHAPTERS), each under its comment, which names its sentence of document 01. The status is 1 if

- a file of specs/ of which nothing is reached doesn't say so in its first line, or another says it;
- a theorem that is named, here or in docs/PROMISES.md, is none;
- a file of which something is reached is in no chapter, or docs/BELIEVE.md is not what --book would write.
"""
import argparse
import collections
import glob
import os
import re
import sys
import textwrap

ROOT = os.path.dirname(os.path.dirname(os.path.abspath(__file__)))
MARK = '-- Internal: cited by private contracts only.'

# the public entries: crate, file of src/, functions
ENTRIES = [
    ('ere', 'matching', ['search']),
    ('fields', 'entries', ['split', 'field']),
    ('image', 'reading', ['read']),
    ('image_writer', 'writing', ['write']),
    ('image_check', 'checking', ['check']),
    ('translator', 'translating', ['translate']),
    ('runner', 'running', ['run']),
    ('capi', 'matching', ['flowawk_match']),
    ('capi', 'records', ['flowawk_split', 'flowawk_field']),
    ('capi', 'images', ['flowawk_read', 'flowawk_write', 'flowawk_check']),
    ('capi', 'translations', ['flowawk_translate']),
    ('capi', 'runs', ['flowawk_run']),
]

# computed definition (crate, file, name): what explains it (crate, file, names), and the theorems that say so. An explanation is a relation, which is
# counted in its place, or a notion that every reader has (equality, a length); it is never longer than what it explains.
EXPLAINED = {
    ('ere_grammar', 'Read', 'read_ere'): (('ere_grammar', 'Grammar', ['Reads']), 'read-sound read-complete refused-exactly'),
    ('ere_meaning', 'Search', 'best_of'): (('ere_meaning', 'Meaning', ['Best']), 'best best-one nowhere-exactly'),
    ('ere_meaning', 'Search', 'best_from'): (('ere_meaning', 'Meaning', ['BestFrom']), 'best-from from-nowhere-exactly'),
    ('splitting', 'Field', 'fields_of'): (('splitting', 'Meaning', ['ByteSplit', 'BlankSplit', 'EreSplit']), 'byte_split blank-split ere-split'),
    ('semantics', 'Check', 'check'): (('semantics', 'Checked', ['Checked']), 'check-exactly'),
    ('semantics', 'Run', 'run'): (('semantics', 'Run', ['Ends']), 'ends-exactly'),
    ('number', 'Arithmetic', 'quotient_of'): (('number', 'Arithmetic', ['Division']), 'divide-exact divide-inexact divide-by-zero'),
    ('number', 'Arithmetic', 'remainder_of'): (('number', 'Arithmetic', ['Division']), 'remainder_is remainder-by-zero'),
    ('buffer', 'Order', 'ordering'): (('buffer', 'Order', ['Before']), 'less-before before-less same-ordering'),
    ('buffer', 'First', 'first_part'): (('buffer', 'First', ['FirstAt']), 'first-part-some first-part-none'),
    ('numeral', 'Form', 'looks_numeric'): (('numeral', 'Form', ['Looks']), 'looks-true true-looks'),
    ('numeral', 'Form', 'prefix_length'): (('numeral', 'Form', ['Numeral']), 'prefix-numeral prefix-longest none-taken'),
    ('decimals', 'Decimal', 'decimal_digits'): (('decimals', 'Decimal', ['Spells']), 'digits-spelled'),
    ('image_format', 'Reading', 'read_image'): (('image_format', 'Formed', ['Formed']), 'read-written read_only'),
    ('values', 'Operations', 'compare_of'): (('values', 'Explained', ['Numeric', 'Says', 'Below', 'OneIf']),
                                            'compare-numbers compare-texts compare-stops-left compare-stops-right'),
    ('values', 'Value', 'truth_of'): (('values', 'Explained', ['TrueIf']), 'truth-unset truth-number truth-text truth-plain truth-look truth-look-stops'),
    ('values', 'Operations', 'substr_of'): (('values', 'Explained', ['Selects', 'Position']), 'substr-is substr-stops-left substr-stops-right'),
    ('values', 'Operations', 'index_of'): (('values', 'Explained', ['Index']), 'index_is index-one'),
    ('image_format', 'Numbers', 'coded'): (('image_format', 'Numbers', ['Coded']), 'coded-is coded-one'),
    ('image_format', 'Numbers', 'take_number'): (('image_format', 'Numbers', ['Coded']), 'number-back number-only'),
    # what a source reads is what is written: `bytes_of` from bytes, `content_of` from words, of a well-formed image and of nothing else
    ('image_format', 'Reading', 'from_bytes'): (('image_format', 'Writing', ['bytes_of']), 'read-written read_only reading-back'),
    ('image_format', 'Reading', 'from_words'): (('image_format', 'Writing', ['content_of']), 'read-written read_only writing-back'),
    # of numbers in range, as all values of a run are: + - * by what is in range, / and % by the one division there is
    ('values', 'Operations', 'arithmetic_of'): (('values', 'Explained', ['Ranged']),
                                               'add_is subtract-is multiply-is quotient-exact quotient-inexact quotient-by-zero remainder-gives remainder-zero '
                                               'arithmetic-stops-left arithmetic-stops-right'),
    ('values', 'Operations', 'negate_of'): (('values', 'Explained', []), 'negate-is negate-stops'),
    ('values', 'Operations', 'to_number_of'): (('values', 'Explained', []), 'to-number-is to-number-stops'),
    ('values', 'Operations', 'join_of'): (('values', 'Explained', []), 'join-gives join-stops'),
    # tests of equality, by equality itself
    ('program_tokens', 'Kinds', 'same'): (('program_tokens', 'Kinds', ['Kind']), 'same-is is_same'),
    ('program_tokens', 'Words', 'same_bytes'): (('program_tokens', 'Words', []), 'bytes_same same-equal'),
    # how many instructions a tree has, by the length of its code
    ('program_code', 'Expressions', 'size'): (('program_code', 'Expressions', ['compile']), 'size-length'),
    ('program_code', 'Sections', 'size_all'): (('program_code', 'Sections', ['compile_all']), 'all-length'),
    ('program_code', 'Sections', 'size_of'): (('program_code', 'Sections', ['compile_statement']), 'statement-length'),
    # the tree that is read is the one that each derivation says (`trees-exactly`); a refusal is 4 exactly at the first token that can't go on, and 6
    # exactly at the one that opens level 17
    ('program_reader', 'Programs', 'read_program'): (('program_says', 'Trees', ['said_by']), 'trees-exactly refused-exactly level-exactly'),
    # the tree of two operands, by the table without tiers
    ('program_reader', 'Operators', 'tree_of'): (('program_reader', 'Operators', ['trees', 'tree_among']), 'tree-listed'),
    # the code of an operation, by the table, which has it there and nowhere else
    ('program_code', 'Emitted', 'opcode'): (('image_format', 'Codes', ['code_of']), 'opcode-operation operation-opcode'),
    ('program_numbering', 'Numbering', 'same_constant'): (('program_numbering', 'Numbering', []), 'constant-same constant-equal'),
    # To switch on, as a matter of taste:
    # 17: the names of a tree, by a walk over the text's tokens (proved; it is a matter of taste which of the two is easier to believe):
    # ('program_numbering', 'Names', 'names_in_program'): (('program_names', 'Walk', ['names_in_text']), 'names-in-order'),
}

# the chapters of the book: a title, what a reader should know, and the files (crate, names) in reading order
CHAPTERS = [
    ('Words that all chapters use', 'Elements of lists and parts of them.', [('lists', ['Elements', 'Parsing']), ('buffer', ['Parts', 'First', 'Order'])]),
    ('Sizes and outcomes', 'Every number of 01\'s "Sizes" and of its table of outcomes.', [('edition', ['Limits', 'Outcomes'])]),
    ('EREs', 'First what a tree means, then which bytes spell which tree, then what the public match answers.',
     [('ere_meaning', ['Tree', 'Meaning']), ('ere_grammar', ['Bytes', 'Grammar']), ('ere', ['Answer'])]),
    ('Splitting', 'Which fields a record has, one relation for each kind of separator; then what the public split and field answer.',
     [('splitting', ['Field', 'Meaning', 'Separator', 'Splitting']), ('fields', ['Answer'])]),
    ('Numbers', 'Arithmetic on whole numbers, and texts as numbers.', [('number', ['Range', 'Arithmetic']), ('numeral', ['Form', 'Judgement']), ('decimals', ['Decimal'])]),
    ('Values', 'The kinds of values, and what the operations on them give.', [('values', ['Value', 'Operations', 'Explained'])]),
    ('The image', 'The instruction set as a table, an image, how it is written, and which images can be written; reading is the way back.',
     [('image_format', ['Codes', 'Image', 'Numbers', 'Writing', 'Formed', 'Reading']), ('image', ['Copy'])]),
    ('A run', 'The state of a run, its operations, its moves, and the run with a budget.',
     [('semantics', ['Variables', 'Feed', 'World', 'Operations', 'Moves', 'Run']), ('runner', ['Report'])]),
    ('The check, and where a run is stuck', 'The clauses of the check as a statement; one constructor for each way to be stuck.',
     [('semantics', ['Check', 'Checked', 'Stuck']), ('image_check', ['Verdict'])]),
    ('Filter texts', 'Tokens, trees, the grammar as a relation on kinds of tokens, where a text is refused, what a derivation says, and the levels that its tokens open.',
     [('program_tokens', ['Kinds', 'Words', 'Tokens']), ('program_tree', ['Tree', 'Functions']), ('program_grammar', ['Sets', 'Grammar', 'Viable']),
      ('program_reader', ['Read', 'Operators', 'Expressions', 'Statements', 'Programs']), ('program_exact', ['Trees']), ('program_says', ['Trees']),
      ('program_levels', ['Levels'])]),
    ('Translation', 'From a tree to code by names, from names to numbers, and the outcomes of a translation.',
     [('program_code', ['Emitted', 'Expressions', 'Sections']), ('program_numbering', ['Names', 'Numbering', 'Sizes']), ('translation', ['Translation']),
      ('program_writer', ['Answer'])]),
    ('What is claimed of the whole', 'Statements of theorems, and the notions that only they speak of: that texts are read and refused exactly as the grammar says, and '
     'demand 3, from bytes. The statements are proved, so nobody has to believe them; this is what they say.',
     [('program_exact', ['Claims']), ('program_says', ['Claims']), ('program_levels', ['Claims']), ('sound', ['Demand'])]),
]
BOOK = os.path.join(ROOT, 'docs', 'BELIEVE.md')

# statements of theorems that have a name in specs/, by file: all names of it, or those that are listed
STATEMENTS = {
    ('program_exact', 'Claims'): ['Deep', 'TooDeep', 'ReadsExactly', 'RefusedExactly', 'SlashExactly'],
    ('program_says', 'Claims'): None,
    ('program_levels', 'Claims'): ['SameLevels', 'LevelExactly', 'ReadsWithin'],
    ('sound', 'Demand'): None,
}

# crates of claims about the whole and of computed tables, of which no file is asked for its mark
TO_COME = {'sound', 'sound_cases'}

NAME = r"[^\s(){};,.λ\"⌜⌝⟦⟧]+"
USE = re.compile(r"^\s*(?:ghost )?use Rattle\.([a-z_]+)\.specs\.([A-Za-z]+)(?:\.\{([^}]*)\}|\s+as\s+\S+)?;?\s*$")
DECLARES = re.compile(r"^(?:(?:abbrev|unfoldable|pub) )*(data|record)? ?(%s)" % NAME)


class Definition:
    def __init__(self, place, section):
        self.place, self.section, self.lines, self.also = place, section, [], set()

    def text(self):
        return '\n'.join(self.section + [line for _, line in self.lines])


def code_of(line):
    """A line without its comment."""
    return re.split(r'(?:^|\s)--(?:\s|$)', line)[0].rstrip()


def read_file(crate, name, path):
    """The definitions of a file by name, and what its `use` lines bring: name to (crate, file, name)."""
    found, brought, sections, current = {}, {}, [(0, [])], None
    with open(path, encoding='utf-8') as f:
        lines = f.read().split('\n')
    for number, full in enumerate(lines, 1):
        line = code_of(full)
        if not line.strip():
            continue
        use = USE.match(line)
        if line.startswith('use ') or line.startswith('pub mod '):
            if use and use.group(3):
                for item in use.group(3).split(','):
                    old, _, new = item.strip().partition(' as ')
                    brought[new.strip() or old.strip()] = (use.group(1), use.group(2), old.strip())
            continue
        indent = len(line) - len(line.lstrip())
        while len(sections) > 1 and indent < sections[-1][0]:
            sections.pop()
        word = line.strip()
        if indent == sections[-1][0] and (word.startswith('module ') or word == 'mutual'):
            sections.append((indent + 2, sections[-1][1] + ([] if word == 'mutual' else [word])))
            current = None
            continue
        if indent > sections[-1][0]:
            if current:
                current.lines.append((number, line))
                inner = re.match(r'^(?:pub )?(%s(?: %s)*) :' % (NAME, NAME), word)
                if current.kind and inner and indent == sections[-1][0] + 2:
                    current.also.update(inner.group(1).split())
            continue
        if word.startswith('unfolding '):
            continue
        kind, head = DECLARES.match(word).groups()
        if kind or re.match(r'^(?:(?:abbrev|unfoldable|pub) )*%s :' % re.escape(head), word):
            current = found.setdefault(head, Definition((crate, name, head), sections[-1][1]))
            current.kind = kind
        else:
            current = found.get(head)
        if current:
            current.lines.append((number, line))
    return found, brought


def names_in(text):
    return set(re.findall(NAME, text)) | set(re.findall(r"(?<![\w.])" + NAME, text.replace('.', ' ')))


class Book:
    def __init__(self):
        self.files = {}
        for path in sorted(glob.glob(os.path.join(ROOT, 'crates', '*', 'specs', '*.antt'))):
            crate, name = path.split(os.sep)[-3], os.path.basename(path)[:-5]
            if name != 'Lib':
                self.files[crate, name] = read_file(crate, name, path)
        self.reached, self.explained = {}, {}

    def home(self, crate, name, word):
        """The definition that a word means in a file, if it is one of specs/."""
        found, brought = self.files.get((crate, name), ({}, {}))
        for head, definition in found.items():
            if word == head or word in definition.also:
                return crate, name, head
        if word in brought:
            other, file, old = brought[word]
            return self.home(other, file, old) if (other, file) != (crate, name) else None
        return None

    def reach(self, place, why):
        waiting = [(place, why)]
        while waiting:
            place, why = waiting.pop()
            if place in EXPLAINED:
                (crate, file, names), theorems = EXPLAINED[place]
                self.explained[place] = theorems
                waiting += [((crate, file, name), place) for name in names if (crate, file, name) not in self.reached]
                continue
            if place in self.reached:
                continue
            self.reached[place] = why
            definition = self.files[place[:2]][0][place[2]]
            for word in names_in(definition.text()):
                home = self.home(place[0], place[1], word)
                if home and home not in self.reached:
                    waiting.append((home, place))

    def reach_text(self, text, brought, why):
        for word in names_in(text):
            if word in brought:
                crate, file, old = brought[word]
                home = self.home(crate, file, old)
                if home:
                    self.reach(home, why)


def uses_of(text):
    brought = {}
    for line in text.split('\n'):
        use = USE.match(line)
        if use and use.group(3):
            for item in use.group(3).split(','):
                old, _, new = item.strip().partition(' as ')
                brought[new.strip() or old.strip()] = (use.group(1), use.group(2), old.strip())
    return brought


def contracts(book):
    for crate, file, functions in ENTRIES:
        with open(os.path.join(ROOT, 'crates', crate, 'src', file + '.rt'), encoding='utf-8') as f:
            text = f.read()
        for function in functions:
            head = re.search(r'^pub (?:extern "C" )?fn %s\b.*?^\{' % function, text, re.M | re.S)
            clauses = head.group(0)[re.search(r'\b(?:requires|ensures) \{', head.group(0)).start():]
            book.reach_text(clauses, uses_of(text), '%s::%s' % (crate, function))


def claimed():
    """The theorems that the section "Demands 1 to 3" of docs/PROMISES.md names, as (crate, name)."""
    with open(os.path.join(ROOT, 'docs', 'PROMISES.md'), encoding='utf-8') as f:
        section = re.search(r'^## Demands 1 to 3$(.*?)(?=^## |\Z)', f.read(), re.M | re.S)
    return set(re.findall(r'`([a-z_]+)::([^`\s]+)`', section.group(1)))


def theorems(book):
    names = claimed()
    for path in glob.glob(os.path.join(ROOT, 'crates', '*', 'proofs', '*.antt')):
        with open(path, encoding='utf-8') as f:
            lines = f.read().split('\n')
        brought, crate = uses_of('\n'.join(lines)), path.split(os.sep)[-3]
        sections = []
        for i, line in enumerate(lines):
            indent = len(line) - len(line.lstrip())
            if line.strip():
                sections = [s for s in sections if s[0] < indent]
            if line.strip().startswith('module _'):
                sections.append((indent, line))
            statement = re.match(r'^\s*(?:abbrev )?pub (%s) :(.*)$' % NAME, line)
            if statement and (crate, statement.group(1)) in names:
                text, j = [s for _, s in sections] + [statement.group(2)], i + 1
                while j < len(lines) and len(lines[j]) - len(lines[j].lstrip()) > indent:
                    text.append(lines[j])
                    j += 1
                names.discard((crate, statement.group(1)))
                book.reach_text('\n'.join(text), brought, '%s: %s' % (crate, statement.group(1)))
    functions = {(crate, function) for crate, _, named in ENTRIES for function in named}
    return ['%s::%s is no theorem or public entry' % name for name in sorted(names - functions)]


def counted(book, places):
    """The lines of some definitions; statements of theorems are none."""
    return sum(len(book.files[p[:2]][0][p[2]].lines) for p in places if not is_statement(p))


def stated(book, places):
    """The lines of the statements among some definitions."""
    return sum(len(book.files[p[:2]][0][p[2]].lines) for p in places if is_statement(p))


def is_statement(place):
    names = STATEMENTS.get(place[:2], [])
    return names is None or place[2] in names


def marks(book):
    """Files whose first line is wrong about what is reached in them."""
    wrong = []
    for (crate, name) in sorted(book.files):
        if crate in TO_COME:
            continue
        with open(os.path.join(ROOT, 'crates', crate, 'specs', name + '.antt'), encoding='utf-8') as f:
            internal = f.readline().startswith(MARK)
        reached = any(place[:2] == (crate, name) for place in book.reached)
        if internal == reached:
            wrong.append('crates/%s/specs/%s.antt %s' % (crate, name, 'says that it is internal' if internal else 'is internal and does not say so'))
    return wrong


def unproved():
    """Theorems that EXPLAINED names and no crate has."""
    there = set()
    for path in glob.glob(os.path.join(ROOT, 'crates', '*', 'proofs', '*.antt')):
        with open(path, encoding='utf-8') as f:
            there.update(re.findall(r'^\s*(?:abbrev )?pub (%s) :' % NAME, f.read(), re.M))
    named = {name for _, theorems in EXPLAINED.values() for name in theorems.split()}
    return ['%s, which EXPLAINED names, is no theorem' % name for name in sorted(named - there)]


def raw(crate, name):
    with open(os.path.join(ROOT, 'crates', crate, 'specs', name + '.antt'), encoding='utf-8') as f:
        return f.read().split('\n')


def is_comment(line):
    return line.strip().startswith('--')


def prose(comment):
    """Lines of comments as a paragraph; `---- words` is a heading."""
    text = ' '.join(line.strip()[2:].strip() for line in comment).replace(MARK[3:], '').strip()
    heading = re.match(r'^---- (.*)$', text)
    text = heading.group(1) if heading else text
    if re.match(r'^(a (?!is )|[a-z]{2,}[ ,])', text):
        text = text[0].upper() + text[1:]
    return '\n'.join(textwrap.wrap(text + ('' if text.endswith(('.', ':', '."')) or not text else '.'), 120, break_long_words=False, break_on_hyphens=False))


def head_of(lines):
    """The comment at the head of a file."""
    end = next((i for i, line in enumerate(lines) if not is_comment(line)), len(lines))
    return prose(lines[:end])


def pages(book, crate, name):
    """The definitions of a file that are reached, in its order: each with the comment above it and its section."""
    lines = raw(crate, name)
    found = book.files[crate, name][0]
    places = [p for p in book.reached if p[:2] == (crate, name)]
    for definition in sorted((found[p[2]] for p in places), key=lambda d: d.lines[0][0]):
        numbers = [number for number, _ in definition.lines]
        first, last = numbers[0] - 1, numbers[-1] - 1
        kept = [lines[i] for i in range(first, last + 1) if i + 1 in numbers or is_comment(lines[i])]
        top = first
        while top > 0 and is_comment(lines[top - 1]):
            top -= 1
        comment = lines[top:first] if top > 0 else []
        yield definition, comment, kept


def dedent(lines):
    margin = min(len(line) - len(line.lstrip()) for line in lines if line.strip())
    return [line[margin:] for line in lines]


def given(section):
    """The parameters of a section, in words."""
    return ' '.join(re.sub(r'^module _ (.*) where$', r'\1', word) for word in section)


def of_file(book, crate, name):
    text = ['', '### `%s`: %s' % (crate, name), '', head_of(raw(crate, name))]
    block, section = [], []
    for definition, comment, kept in pages(book, crate, name):
        if block and (comment or definition.section != section):
            text += ['', '```text'] + block + ['```']
            block = []
        if definition.section != section:
            section = definition.section
            text += ['', '*Given `%s`:*' % given(section) if section else '*For all:*']
        if comment:
            text += ['', prose(comment)]
        block += ([''] if block else []) + dedent(kept)
    return text + ['', '```text'] + block + ['```']


def written(book):
    """The book, and what is wrong with its chapters."""
    files = {place[:2] for place in book.reached}
    listed = [(crate, name) for _, _, parts in CHAPTERS for crate, names in parts for name in names]
    wrong = ['crates/%s/specs/%s.antt is in no chapter' % place for place in sorted(files - set(listed))]
    contents, body = [], []
    for number, (title, about, parts) in enumerate(CHAPTERS, 1):
        shown = [(crate, name) for crate, names in parts for name in names if (crate, name) in files]
        places = [p for p in book.reached if p[:2] in shown]
        lines = ' and '.join(['%d lines' % counted(book, places)] * (counted(book, places) > 0) + ['%d of statements' % stated(book, places)] * (stated(book, places) > 0))
        contents.append('%d. [%s](#%d-%s): %s' % (number, title, number, re.sub(r'[^a-z0-9 -]', '', title.lower()).replace(' ', '-'), lines))
        body += ['', '## %d. %s' % (number, title), '', about]
        for crate, name in shown:
            body += of_file(book, crate, name)
        told = [place for place in sorted(book.explained) if chapter_of(place) == number]
        if told:
            body += ['', 'Not to be believed, since theorems say what they compute:', '']
            body += ['- `%s` of `%s`: %s' % (place[2], place[0], ', '.join('`%s`' % name for name in book.explained[place].split())) for place in told]
    total = counted(book, book.reached)
    claims = stated(book, book.reached)
    top = ['# What a reader has to believe', '',
           'Made by `python3 tests/believe.py --book`; `tests/all.py` checks that it is up to date. %s lines of definitions, without blank lines and' % format(total, ','),
           'comments: what the contracts of the public entries and the claims of `PROMISES.md`, "Demands 1 to 3", reach. Whoever believes that these say what',
           'document 01 ("01") says, and trusts the prover, need read no code and no proof, but the contracts and claims themselves: %d lines of claims are in the' % claims,
           'last chapter, the others are beside the code and the proofs, where `PROMISES.md` leads. Quotations are 01\'s.', '',
           'How to read it: `f : A → B` is a function, and its equations follow; `data` lists the ways in which something can be or hold, one constructor each;',
           '`record` is what holds together; `a ≡ b` is equality, `×` is "and", `⊎` is "or", `⊥` is falsity, so `A → ⊥` is "not A"; `(x : A) × B` is "there is an x',
           'with B"; `x ∷ l` is a list with x in front, `l ++ m` one list after the other; `cond c a b` is a if c is true, else b; bytes are numbers. Names in `{ }`',
           'can be told from the rest. `abbrev`, `unfoldable` and `pub` say how proofs see a definition, and nothing of its meaning.', '',
           '## Contents', '']
    return '\n'.join(top + contents + body) + '\n', wrong


def chapter_of(place):
    """The chapter of an explained definition: that of its file, or else the first that has its crate."""
    for number, (_, _, parts) in enumerate(CHAPTERS, 1):
        if any(crate == place[0] and place[1] in names for crate, names in parts):
            return number
    return next(number for number, (_, _, parts) in enumerate(CHAPTERS, 1) if any(crate == place[0] for crate, _ in parts))


def order():
    with open(os.path.join(ROOT, 'crates.txt'), encoding='utf-8') as f:
        return [line.split(':')[0].split()[0] for line in f if re.match(r'^[a-z_]+(?: staticlib)?:', line)]


def main():
    parser = argparse.ArgumentParser()
    parser.add_argument('--list', action='store_true')
    parser.add_argument('--why')
    parser.add_argument('--book', action='store_true')
    options = parser.parse_args()
    book = Book()
    contracts(book)
    missing = theorems(book)
    of_crate = collections.defaultdict(list)
    for place in book.reached:
        of_crate[place[0]].append(place)
    total = 0
    for crate in order():
        definitions = [d for (c, _), (found, _) in book.files.items() if c == crate for d in found.values()]
        if not definitions:
            continue
        lines, all_lines = counted(book, of_crate[crate]), sum(len(d.lines) for d in definitions)
        total += lines
        print('%-16s %5d of %5d' % (crate, lines, all_lines))
        if options.list:
            for place in sorted(of_crate[crate], key=lambda p: (p[1], book.files[p[:2]][0][p[2]].lines[0][0])):
                print('\n-- %s.%s' % place[:2])
                print('\n'.join(line for _, line in book.files[place[:2]][0][place[2]].lines))
    print('%-16s %5d of %5d' % ('all', total, sum(len(d.lines) for found, _ in book.files.values() for d in found.values())))
    print('%-16s %5d' % ('statements', stated(book, book.reached)))
    for place, names in sorted(book.explained.items()):
        print('explained: %s of %s, by %s' % (place[2], place[0], names))
    if options.why:
        for place, why in book.reached.items():
            if place[2] == options.why:
                chain = [place]
                while why in book.reached:
                    chain.append(why)
                    why = book.reached[why]
                print(' <- '.join('%s.%s.%s' % p for p in chain) + ' <- ' + (why if isinstance(why, str) else '.'.join(why)))
    text, wrong = written(book)
    if options.book:
        with open(BOOK, 'w', encoding='utf-8') as f:
            f.write(text)
    with open(BOOK, encoding='utf-8') as f:
        wrong += [] if f.read() == text else ['docs/BELIEVE.md is not up to date: tests/believe.py --book']
    wrong += missing + unproved() + marks(book)
    for line in wrong:
        print(line)
    sys.exit(1 if wrong else 0)


if __name__ == '__main__':
    main()
