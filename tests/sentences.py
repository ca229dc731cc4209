#!/usr/bin/env python3
"""Lists every sentence of document 01 with its definition, its contract or theorem, and its vectors.

    tests/sentences.py [--quiet]

The sentences are in tests/sentences.txt, each with a short name. The section "Document 01, sentence by sentence" of docs/PROMISES.md has a row for each:
name, sentence, definitions, contracts or theorems, vectors. `crate::name` is a definition, a theorem or a function of that crate; in the last column a
plain name is a group of the program `vectors`, and a path is a file. The status is 1 if a sentence has no row or a row no sentence, if a cell is empty, or
if something that is named isn't there. --quiet writes only what is wrong.
"""
import argparse
import functools
import glob
import os
import re
import sys

ROOT = os.path.dirname(os.path.dirname(os.path.abspath(__file__)))
SECTION = 'Document 01, sentence by sentence'
NAME = r"[^\s(){};,.λ\"⌜⌝⟦⟧]+"
HEADS = ['definition', 'contract or theorem', 'vectors']


def read(*path):
    with open(os.path.join(ROOT, *path), encoding='utf-8') as f:
        return f.read()


def sentences():
    """The sentences by their names, in document 01's order."""
    rows = [line.split('\t') for line in read('tests', 'sentences.txt').split('\n') if line and not line.startswith('#')]
    return {name: sentence for name, sentence in rows}


def rows():
    """The rows of docs/PROMISES.md by the names of their sentences: the sentence, and the three cells."""
    section = re.search(r'^## %s$(.*?)(?=^## |\Z)' % SECTION, read('docs', 'PROMISES.md'), re.M | re.S).group(1)
    found = {}
    for line in section.split('\n'):
        cells = [cell.replace('\\|', '|').strip() for cell in re.split(r'(?<!\\)\|', line)[1:-1]]
        if len(cells) == 5 and re.match(r'^[A-Z]\d+$', cells[0]):
            found[cells[0]] = cells[1:]
    return found


@functools.lru_cache(maxsize=None)
def names_of(crate):
    """What a crate defines: definitions with their constructors and fields, theorems, functions, types and constants."""
    found = set()
    for path in glob.glob(os.path.join(ROOT, 'crates', crate, 'specs', '*.antt')) + glob.glob(os.path.join(ROOT, 'crates', crate, 'proofs', '*.antt')):
        text = re.sub(r'(?m)^\s*--.*$', '', read(path))
        found.update(re.findall(r'^\s*(?:(?:abbrev|unfoldable) )*pub (?:data |record )?(%s)' % NAME, text, re.M))
        found.update(name for line in re.findall(r'^ *(?:pub )?((?:%s )+):' % NAME, text, re.M) for name in line.split())
    for path in glob.glob(os.path.join(ROOT, 'crates', crate, 'src', '**', '*.rt'), recursive=True):
        found.update(re.findall(r'\b(?:fn|const|struct|enum) ([A-Za-z_0-9]+)', read(path)))
    return found


def is_there(word):
    if '::' in word:
        crate, name = word.split('::')
        return name in names_of(crate)
    return os.path.exists(os.path.join(ROOT, word)) if '/' in word else os.path.isfile(os.path.join(ROOT, 'crates', 'vectors', 'data', word))


def faults(name, sentence, cells):
    """What is wrong with a row."""
    if cells[0] != sentence:
        yield 'the sentence is another'
    for head, cell in zip(HEADS, cells[1:]):
        words = re.findall(r'`([^`]+)`', cell)
        if not words:
            yield 'no %s' % head
        for word in words:
            if not is_there(word):
                yield '%s: %s is not there' % (head, word)


def main():
    parser = argparse.ArgumentParser()
    parser.add_argument('--quiet', action='store_true')
    quiet = parser.parse_args().quiet
    told, found, wrong = sentences(), rows(), []
    for name, sentence in told.items():
        if name not in found:
            wrong.append('%s has no row: %s' % (name, sentence))
            continue
        wrong += ['%s: %s' % (name, fault) for fault in faults(name, sentence, found[name])]
        if not quiet:
            print('%s  %s' % (name, sentence))
            for head, cell in zip(HEADS, found[name][1:]):
                print('      %-20s %s' % (head, cell.replace('`', '')))
    wrong += ['%s is no sentence' % name for name in found if name not in told]
    for line in wrong:
        print(line)
    print('%d sentences, %d faults' % (len(told), len(wrong)))
    sys.exit(1 if wrong else 0)


if __name__ == '__main__':
    main()
