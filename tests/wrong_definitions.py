#!/usr/bin/env python3
"""Tries wrong definitions of values and runs, one at a time: each must be refused by a theorem or by a table.

    tests/wrong_definitions.py [--tables] [WORD..]

The script copies crates.txt and crates/ to a temporary folder, applies one wrong
definition there and runs `rt check` in crates/sound_cases: that proves the definition's crate, those above it, and the tables of `sound_cases`.
It prints which crate refuses the definition, and where first. Exit status: 0 if each is refused; 1 if one is accepted, or
is no definition at all (the checker refuses it in specs/, not in a proof); 2 if a text to be replaced is not there, or the
crates don't pass as they are.

--tables leaves the theorems of `values` and `semantics` out, and those that rest on them, so that the tables alone judge.
WORD.. tries only those whose description has one of the words.
"""
import argparse
import os
import re
import shutil
import subprocess
import sys
import tempfile

ROOT = os.path.dirname(os.path.dirname(os.path.abspath(__file__)))

# the crates whose theorems --tables leaves out
THEOREMS = ('values', 'semantics', 'program_reader', 'program_code', 'program_numbering', 'translation')

VALUE = ('values', 'Value.antt')
OPERATION = ('values', 'Operations.antt')
CODES = ('image_format', 'Codes.antt')
VARIABLES = ('semantics', 'Variables.antt')
FEED = ('semantics', 'Feed.antt')
WORLD = ('semantics', 'World.antt')
ACTION = ('semantics', 'Operations.antt')
MOVES = ('semantics', 'Moves.antt')
RUN = ('semantics', 'Run.antt')

# what is wrong; the file; the texts, and what replaces them: [(old, new), ..]
WRONG = [
    # ---- comparison
    ('`<=` is `<`', OPERATION, [('holds at-most = among true true false', 'holds at-most = among true false false')]),
    ('`!=` is `<`', OPERATION,
     [('holds different = among true false true', 'holds different = among true false false')]),
    ('plain text that looks numeric is compared as a number', VALUE,
     [('numeric (text l) = false', 'numeric (text l) = looks_numeric l')]),
    ('field text is compared as a number whatever it looks like', VALUE,
     [('numeric (field_text l) = looks_numeric l', 'numeric (field_text l) = true')]),
    ('unset is compared as a text', VALUE, [('numeric unset = true', 'numeric unset = false')]),
    ('one number is enough for a comparison of numbers', OPERATION,
     [('cond (numeric a && numeric b)', 'cond (not (not (numeric a) && not (numeric b)))')]),
    ('the right side of a comparison is converted first', OPERATION,
     [('(bind (number_of a) (λ x. bind (number_of b) (λ y. gives (truth_value',
       '(bind (number_of b) (λ y. bind (number_of a) (λ x. gives (truth_value')]),
    ('texts are compared from the other side', OPERATION,
     [('ordering (text_of a) (text_of b)', 'ordering (text_of b) (text_of a)')]),
    ('numbers are compared from the other side', OPERATION, [('holds o (order_of x y)', 'holds o (order_of y x)')]),
    ('true is 2', VALUE, [('number (pos (cond b 1 0))', 'number (pos (cond b 2 0))')]),
    # ---- truth, and numbers of values
    ('the empty text is true', VALUE, [('nonempty l = not (eqb (length l) 0)', 'nonempty l = true')]),
    ('zero is true', VALUE, [('gives (not (is_zero z))', 'gives (not (is_zero (pos 1)))')]),
    ('not without negation', OPERATION, [('gives (truth_value (not b))', 'gives (truth_value b)')]),
    ('unset is 1', VALUE, [('number_of unset = gives (pos 0)', 'number_of unset = gives (pos 1)')]),
    ('the number of plain text is 0', VALUE,
     [('number_of (text l) = result (text_number l)', 'number_of (text l) = gives (pos 0)')]),
    ('the text of unset is 0', VALUE, [('text_of unset = []', 'text_of unset = decimal_text (pos 0)')]),
    # ---- arithmetic
    ('the right operand is converted first', OPERATION,
     [('arithmetic_of o a b = bind (number_of a) (λ x. bind (number_of b) (λ y.',
       'arithmetic_of o a b = bind (number_of b) (λ y. bind (number_of a) (λ x.')]),
    ('`-` from the other side', OPERATION,
     [('computed subtract x y = difference_of x y', 'computed subtract x y = difference_of y x')]),
    ('`%` is `/`', OPERATION,
     [('computed remainder x y = remainder_of x y', 'computed remainder x y = quotient_of x y')]),
    ('negate without negation', OPERATION, [('a_number (result (negation_of x))', 'a_number (gives x)')]),
    ('to number leaves the value', OPERATION, [('to_number_of a = a_number (number_of a)', 'to_number_of a = gives a')]),
    # ---- texts
    ('the operands of `index` turned round', OPERATION,
     [('first_part (text_of b) (text_of a)', 'first_part (text_of a) (text_of b)')]),
    ('`index` counts from 0', OPERATION, [('place_of (some k) = suc k', 'place_of (some k) = k')]),
    ('`index` finds the empty text at 1', OPERATION,
     [('cond (eqb (length (text_of b)) 0) 0 (place_of', 'cond (eqb (length (text_of b)) 0) 1 (place_of')]),
    ('`substr` with m < p', OPERATION, [('cond (at_most m (pos p) && not', 'cond (not (at_most (pos p) m) && not')]),
    ('`substr` a byte too long', OPERATION, [('not (at_most e (pos p))', 'at_most (pos p) e')]),
    ('`substr` ends at n', OPERATION, [('between x (x +ℤ y) 1', 'between x y 1')]),
    ('`substr` counts from 0', OPERATION, [('between x (x +ℤ y) 1', 'between x (x +ℤ y) 0')]),
    ('n of `substr` is converted first', OPERATION,
     [('substr_of a m n = bind (number_of m) (λ x. bind (number_of n) (λ y.',
       'substr_of a m n = bind (number_of n) (λ y. bind (number_of m) (λ x.')]),
    ('join from the other side', OPERATION, [('limited (text_of a ++ text_of b)', 'limited (text_of b ++ text_of a)')]),
    ('a text of 513 bytes is taken', OPERATION,
     [('cond (leb (length l) text_bytes)', 'cond (leb (length l) (suc text_bytes))')]),
    ('length is one more', OPERATION, [('number (pos (length (text_of a)))', 'number (pos (suc (length (text_of a))))')]),
    ('field 129 is taken', OPERATION, [('cond (leb k field_count)', 'cond (leb k (suc field_count))')]),
    ('field -1 is field 0', OPERATION,
     [('field_in (negsuc k) = stops (stop bad_field_number)', 'field_in (negsuc k) = gives 0')]),
    # ---- the codes
    ('codes 10 and 11 swapped', CODES,
     [('∷ code (action (arithmetic divide)) 2 1 []\n    ∷ code (action (arithmetic remainder)) 2 1 []',
       '∷ code (action (arithmetic remainder)) 2 1 []\n    ∷ code (action (arithmetic divide)) 2 1 []')]),
    ('codes 22 and 23 swapped', CODES,
     [('∷ code (action matches) 1 1 (an_ere ∷ [])\n    ∷ code (action match) 1 1 (an_ere ∷ [])',
       '∷ code (action match) 1 1 (an_ere ∷ [])\n    ∷ code (action matches) 1 1 (an_ere ∷ [])')]),
    ('codes 30 and 31 swapped', CODES,
     [('∷ code (flow next) 0 0 []\n    ∷ code (flow exit) 0 0 []',
       '∷ code (flow exit) 0 0 []\n    ∷ code (flow next) 0 0 []')]),
    ('the operands of code 25 turned round', MOVES, [('only w (index_of a b)', 'only w (index_of b a)')]),
    ('m and n of code 26 turned round', MOVES, [('only w (substr_of a m n)', 'only w (substr_of a n m)')]),
    ('the index of code 5 above the value', MOVES,
     [('binary vs (λ k a. some (set_field', 'binary vs (λ a k. some (set_field')]),
    # ---- variables
    ('RSTART from -1', VARIABLES, [('stored (number (pos 0))', 'stored (number (negsuc 0))')]),
    ('RLENGTH from 0', VARIABLES, [('stored (number (negsuc 0))', 'stored (number (pos 0))')]),
    ('ORS starts as a space', VARIABLES, [('stored (text (10 ∷ []))', 'stored (text (32 ∷ []))')]),
    ('FS and OFS start as a tab', VARIABLES, [('stored (text (32 ∷ []))', 'stored (text (9 ∷ []))')]),
    ('RSTART can be assigned', VARIABLES, [('(stored (number (pos 0))) false', '(stored (number (pos 0))) true')]),
    ('NF can be assigned', VARIABLES, [('variable field-count false', 'variable field-count true')]),
    ('users start as field text', WORLD, [('replicate i.users unset', 'replicate i.users (field_text [])')]),
    ('NR counts the fields', WORLD,
     [('some (number (pos w.feed.count))', 'some (number (pos (length w.current.fields)))')]),
    ('a text constant is field text', ACTION,
     [('constant_value (bytes l) = text l', 'constant_value (bytes l) = field_text l')]),
    # ---- the record and its fields
    ('`$0` as plain text', ACTION,
     [('field_at w zero = field_text w.current.line', 'field_at w zero = text w.current.line')]),
    ('split fields as plain text', WORLD,
     [('field_text, stop, Result', 'field_text, text as plain, stop, Result'),
      ('(λ (f : Span). field_text (span_text text f))', '(λ (f : Span). plain (span_text text f))')]),
    ('an assigned field as field text', ACTION,
     [('w.current.fields) k a)', 'w.current.fields) k (field_text (text_of a)))')]),
    ('set field leaves field text', ACTION,
     [('(λ w. gives (effect (a ∷ []) w)))', '(λ w. gives (effect (field_text (text_of a) ∷ []) w)))')]),
    ('fields above NF are the empty text', ACTION,
     [('get_or w.current.fields k unset', 'get_or w.current.fields k (text [])')]),
    ('gaps filled by growth as text', ACTION,
     [('replicate (k - length fs) unset', 'replicate (k - length fs) (text [])')]),
    ('fields joined with ORS', ACTION,
     [('let line = joined (special w OFS) fs in', 'let line = joined (special w ORS) fs in')]),
    ('an assigned field does not change `$0`', ACTION,
     [('gives (with_record w line fs)', 'gives (with_record w w.current.line fs)')]),
    ('an assigned field splits `$0` again', ACTION,
     [('assigned edition w (suc k) a = rebuilt w (set (grown (suc k) w.current.fields) k a)',
       'assigned edition w (suc k) a = bind (rebuilt w (set (grown (suc k) w.current.fields) k a)) (λ v. bind '
       '(split_by edition w v.current.line) (λ fs. gives (with_record w v.current.line fs)))')]),
    ('`$0` rebuilt may have 513 bytes', ACTION,
     [('cond (leb (length line) text_bytes)', 'cond (leb (length line) (suc text_bytes))')]),
    ('assigning `$0` keeps the fields', ACTION,
     [('gives (with_record w (text_of a) fs)', 'gives (with_record w (text_of a) w.current.fields)')]),
    ('BEGIN sees a field', WORLD, [('(record_of [] [])', '(record_of [] (replicate 1 unset))')]),
    # ---- match
    ('no match sets 7 and 7', ACTION,
     [('marked w (number (pos 0)) (number (negsuc 0))', 'marked w (number (pos 7)) (number (pos 7))')]),
    ('RSTART counts from 0', ACTION, [('marked w (number (pos (suc s)))', 'marked w (number (pos s))')]),
    ('`match` answers RLENGTH', ACTION, [('effect (start ∷ []) (with_variable', 'effect (size ∷ []) (with_variable')]),
    ('`match` sets RLENGTH alone', ACTION,
     [('with_variable (with_variable w RSTART start) RLENGTH size', 'with_variable w RLENGTH size')]),
    # ---- print
    ('OFS and ORS of print swapped', ACTION,
     [('joined (special w OFS) values ++ special w ORS', 'joined (special w ORS) values ++ special w OFS')]),
    ('print needs a byte more than it writes', ACTION,
     [('cond (leb (length l) room)', 'cond (leb (suc (length l)) room)')]),
    ('print writes its values from the last', MOVES, [('print_values (reverse vs) w', 'print_values vs w')]),
    ('print stops with 14', ACTION,
     [('(short_by (length l - room) output_room_too_small)', '(short_by (length l - room) text_too_long)')]),
    # ---- records
    ('records ended by CR', FEED,
     [('line_of f = take (first_byte 10 f.input)', 'line_of f = take (first_byte 13 f.input)'),
      ('drop (suc (first_byte 10 f.input))', 'drop (suc (first_byte 13 f.input))')]),
    ('a last record without newline does not count', FEED,
     [('over f = eqb (length f.input) 0', 'over f = eqb (first_byte 10 f.input) (length f.input)')]),
    ('NR may pass 2^53 by one', FEED,
     [('full f = ltb number_bound (suc f.count)', 'full f = ltb number_bound f.count')]),
    ('18 and 16 swapped at a read', WORLD,
     [('bad-separator = stops (stop bad_separator)', 'bad-separator = stops (stop bad_field_number)'),
      ('many_fields = stops (stop bad_field_number)', 'many_fields = stops (stop bad_separator)')]),
    ('11 and 15 swapped at a read', WORLD,
     [('(stops (stop number_out_of_range))', '(stops (stop record_too_long))'),
      ('long_record = stops (stop record_too_long)', 'long_record = stops (stop number_out_of_range)')]),
    ('a record read keeps the fields of the last one', WORLD,
     [("(line_of w.feed) fields') (passed", '(line_of w.feed) w.current.fields) (passed')]),
    # ---- moves
    ('END with an empty record', MOVES,
     [('World.{World, start_of, read_record}', 'World.{World, with_record, start_of, read_record}'),
      ('to_end c = continues (config (at end 0) c.control.operands c.control.steps c.world)',
       'to_end c = continues (config (at end 0) c.control.operands c.control.steps (with_record c.world '
       '[] []))')]),
    ('one lone 0 is enough for silence', MOVES,
     [('silent i = lone i.edition i.main && lone i.edition i.end',
       'silent i = not (not (lone i.edition i.main) && not (lone i.edition i.end))')]),
    ('input is read whatever the sections are', MOVES,
     [('cond (silent i) (to_end c)', 'cond (silent i && false) (to_end c)')]),
    ('BEGIN goes to END', MOVES,
     [('(ended c o) (advance c between o c.world)',
       '(ended c o) (cond (in_main s) (advance c between o c.world) (advance c (at end 0) o c.world))')]),
    ('exit ends the run', MOVES,
     [('apply_flow exit ns vs o = cond (in_end s) (ended c o) (advance c (at end 0) o c.world)',
       'apply_flow exit ns vs o = ended c o')]),
    ('exit is next', MOVES,
     [('apply_flow exit ns vs o = cond (in_end s) (ended c o) (advance c (at end 0) o c.world)',
       'apply_flow exit ns vs o = cond (in_end s) (ended c o) (advance c between o c.world)')]),
    ('next goes to END', MOVES,
     [('cond (in_main s) (advance c between o c.world) stuck',
       'cond (in_main s) (advance c (at end 0) o c.world) stuck')]),
    ('28 jumps if true', MOVES,
     [('branched t o (gives true) = advance c (at s (suc n)) o c.world',
       'branched t o (gives true) = advance c (at s t) o c.world'),
      ('branched t o (gives false) = advance c (at s t) o c.world',
       'branched t o (gives false) = advance c (at s (suc n)) o c.world')]),
    ('operands are dropped between sections', MOVES,
     [('to_end c = continues (config (at end 0) c.control.operands', 'to_end c = continues (config (at end 0) []')]),
    ('print 0 prints an empty line', MOVES,
     [('cond (eqb (length vs) 0) none', 'cond (eqb (length vs) 0 && false) none')]),
    ('an instruction that stops is no step', MOVES,
     [('c.control.operands (suc c.control.steps) c.world)',
       'c.control.operands c.control.steps c.world)')]),
    ('a record read is a step', MOVES,
     [('(config (at main 0) c.control.operands c.control.steps w)',
       '(config (at main 0) c.control.operands (suc c.control.steps) w)')]),
    ('a budget has one step more', RUN,
     [('cond (eqb c.control.steps budget)', 'cond (eqb c.control.steps (suc budget))')]),
]


def copied(tables):
    """A copy of the repository's crates."""
    scratch = tempfile.mkdtemp(prefix='wrong_definitions.')
    shutil.copy(os.path.join(ROOT, 'crates.txt'), scratch)
    shutil.copytree(os.path.join(ROOT, 'crates'), os.path.join(scratch, 'crates'), ignore=shutil.ignore_patterns('out'))
    if tables:
        for crate in THEOREMS:
            for part in ('proofs', 'must-fail'):
                shutil.rmtree(os.path.join(scratch, 'crates', crate, part), ignore_errors=True)
    return scratch


def specs(folder, crate, name):
    return os.path.join(folder, 'crates', crate, 'specs', name)


def read(path):
    with open(path, encoding='utf-8') as f:
        return f.read()


def write(path, text):
    with open(path, 'w', encoding='utf-8') as f:
        f.write(text)


def edited(text, edits):
    """The text with each edit applied, at all places of its old text; None if there is no such place."""
    for old, new in edits:
        if old not in text:
            return None
        text = text.replace(old, new)
    return text


def checked(scratch, crate):
    """What `rt check` says of a crate and those below it: None if all is proved, else the crate that refuses and its first error."""
    done = subprocess.run(['rt', 'check'], cwd=os.path.join(scratch, 'crates', crate), stdout=subprocess.PIPE, stderr=subprocess.STDOUT)
    answer = done.stdout.decode('utf-8', 'replace')
    if done.returncode == 0:
        return None
    refusing = re.findall(r'^crate (\w+): ', answer, re.M)
    error = re.search(r'^(?:so far: )?\./((?:specs|proofs)/\S+?\.antt:\d+):\d+: (?:error: )?`([^`]+)`', answer, re.M)
    return (refusing[-1] if refusing else '?', '%s %s' % (error.group(1), error.group(2)) if error else answer[-300:])


def tried(script, wrong, words, crate, tables=False):
    """Tries each row of `wrong` whose description has one of the words, by a check of a crate; the exit status."""
    chosen = [row for row in wrong if not words or any(word in row[0] for word in words)]
    stale = [what for what, place, edits in chosen if edited(read(specs(ROOT, *place)), edits) is None]
    if stale:
        print('%s: the text to be replaced is not there: %s' % (script, '; '.join(stale)))
        return 2
    scratch = copied(tables)
    failed = []
    try:
        first = checked(scratch, crate)
        if first:
            print('%s: without an edit, %s is refused: %s' % (script, *first))
            return 2
        for what, (home, name), edits in chosen:
            path = specs(scratch, home, name)
            right = read(path)
            write(path, edited(right, edits))
            refusal = checked(scratch, crate)
            write(path, right)
            if refusal is None or refusal[1].startswith('specs/'):
                failed.append(what)
            print('%-55s %-16s %s' % (what, home, 'ACCEPTED' if refusal is None else '%s, %s' % refusal), flush=True)
    finally:
        shutil.rmtree(scratch)
    print('%d wrong definitions, %d refused by a proof' % (len(chosen), len(chosen) - len(failed)))
    return 1 if failed else 0


def main():
    parser = argparse.ArgumentParser()
    parser.add_argument('--tables', action='store_true')
    parser.add_argument('words', nargs='*')
    options = parser.parse_args()
    sys.exit(tried('wrong_definitions.py', WRONG, options.words, 'sound_cases', options.tables))


if __name__ == '__main__':
    main()
