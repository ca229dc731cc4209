#!/usr/bin/env python3
"""Looks whether what the documents name is there: links, files, files of a crate (`crate/src/file.rt`, `crate/specs/File`), and `crate::name`.

    tests/documents.py

Reads README.md and docs/*.md, but for docs/CHANGES.md, which speaks of the past. The status is 1 if something is missing.
"""
import glob
import os
import re
import sys

import sentences

ROOT = sentences.ROOT


def file_is_there(path):
    """A file or folder of the repository or of crates/, with its ending or without."""
    return any(os.path.exists(os.path.join(ROOT, top, path + end)) for top in ('', 'crates') for end in ('', '.antt', '.rt', '.py'))


def faults(text, folder):
    for link in re.findall(r'\]\(([^)#:\s]+)(?:#[^)]*)?\)', text):
        if not os.path.exists(os.path.join(folder, link)):
            yield 'link %s' % link
    for word in sorted(set(re.findall(r'`([^`\s]+)`', text))):
        if re.match(r'^[a-z_]+/(src|specs|proofs|must-fail)(/[A-Za-z_/.]+)?$', word) or re.match(r'^(tests|docs|bench|include|crates|examples|man)/[A-Za-z_/.]+$', word):
            if 'NAME' not in word and not file_is_there(word):
                yield 'file %s' % word
        elif re.match(r'^[a-z_]+::[A-Za-z_-]+$', word) and os.path.isdir(os.path.join(ROOT, 'crates', word.split('::')[0])):
            if not sentences.is_there(word):
                yield 'name %s' % word


def main():
    paths = [os.path.join(ROOT, 'README.md')] + sorted(glob.glob(os.path.join(ROOT, 'docs', '*.md')))
    wrong = ['%s: %s' % (os.path.relpath(path, ROOT), fault) for path in paths if not path.endswith('CHANGES.md')
             for fault in faults(sentences.read(path), os.path.dirname(path))]
    for line in wrong:
        print(line)
    print('%d documents, %d faults' % (len(paths) - 1, len(wrong)))
    sys.exit(1 if wrong else 0)


if __name__ == '__main__':
    main()
