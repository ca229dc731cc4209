#!/usr/bin/env python3
"""Tries wrong rules of the grammar and of the reader of programs, one at a time: each must be refused by a proof.

    tests/wrong_grammar.py [WORD..]

The script copies crates.txt and crates/ to a temporary folder, applies one wrong rule
there and runs `rt check` in crates/program_says: that proves the rule's crate, those above it, that the reader means what the grammar
says, and that it gives the trees that derivations say. It prints which crate refuses the rule, and where first. Exit status:
0 if each is refused; 1 if one is accepted, or is no definition at all; 2 if a text to be replaced is not there, or the crates
don't pass as they are.

WORD.. tries only those whose description has one of the words.
"""
import sys

from wrong_definitions import tried

GRAMMAR = ('program_grammar', 'Grammar.antt')
OPERATORS = ('program_reader', 'Operators.antt')
EXPRESSIONS = ('program_reader', 'Expressions.antt')
STATEMENTS = ('program_reader', 'Statements.antt')
PROGRAMS = ('program_reader', 'Programs.antt')

# what is wrong; the file; the texts, and what replaces them: [(old, new), ..]
WRONG = [
    # ---- the relation
    ('grammar: no lone `;`', GRAMMAR,
     [('empty : Statement in_main ended whole (semicolon ∷ [])',
       'empty : Statement in_main ended whole (semicolon ∷ semicolon ∷ [])')]),
    ('grammar: `next` in BEGIN and END', GRAMMAR, [('next : in_main ≡ true →', 'next : in_main ≡ in_main →')]),
    ('grammar: a chain of comparisons', GRAMMAR,
     [('Form concatenation l → Compares p k → Form concatenation r',
       'Form (comparison p) l → Compares p k → Form concatenation r')]),
    ('grammar: an `else` of the outer `if`', GRAMMAR,
     [('→ Statement in_main e whole a → BeforeElse e b', '→ Statement in_main e takes_else a → BeforeElse e b')]),
    # ---- the reader
    ('reader: no pattern before a newline', PROGRAMS,
     [('is_one_of (text_end ∷ enders) t', 'is_one_of (text_end ∷ []) t')]),
    ('reader: `next` in BEGIN and END', STATEMENTS, [('(cond (is NEXT t && in_main)', '(cond (is NEXT t && true)')]),
    ('reader: a chain of comparisons', EXPRESSIONS,
     [('turns s tier = cond (eqb tier compared) 1 (length s)', 'turns s tier = cond (eqb tier compared) 2 (length s)')]),
    ('reader: `%` with `+` and `-`', OPERATORS, [('operator percent products', 'operator percent sums')]),
    ('reader: an `else` after two `;`', STATEMENTS,
     [('(cond (is semicolon t && not semicolons) mark', '(cond (is semicolon t && not false) mark')]),
    ('reader: an `else` of the outer `if`', STATEMENTS,
     [('else_at c a t none = ok (if c a) t',
       'else_at c a t none = ok (elim a as (λ _. Statement) [ | expression e ↦ if c a | print es ↦ if c a | if e x ↦ if c a '
       '| if-else e x y ↦ if-else c (if e x) y | while e x ↦ if c a | block x ↦ if c a | next ↦ if c a | exit ↦ if c a '
       '| empty ↦ if c a | sequence x y ↦ if c a ]) t')]),
    ('reader: the parts of an `if` turned', STATEMENTS,
     [('map (if-else c a) (body_at u)', 'map (λ b. if-else c b a) (body_at u)')]),
]


if __name__ == '__main__':
    sys.exit(tried('wrong_grammar.py', WRONG, sys.argv[1:], 'program_says'))
