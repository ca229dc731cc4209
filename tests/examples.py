#!/usr/bin/env python3
"""Runs every example of the documents and compares what it writes with what the document says.

    tests/examples.py [--program FILE] [--archive FILE] [--table] [--no-folder] [DOCUMENT..]

The documents are, unless some are named, README.md, docs/LANGUAGE.md, docs/IMAGE.md and man/flowawk.1; then the examples of examples/ are built and run by
examples/run.py (not with --no-folder, nor if documents are named), over the archive that is given or built. The program is ./flowawk, or FILE. In a document of Markdown:

- a block `text NAME`, `awk NAME` or `python NAME` is a file, which the examples after it find by this name;
- a block `awk` is a filter that must translate;
- a block `console` is commands: `$ ` begins one, `> ` goes on with it, and what follows is what it writes to standard output and standard error; a last
  line `[N]` is its status, which is 0 without one. Commands run by sh, one after the other, in a directory that is the document's own and has `flowawk` and `examples`. A
  command that uses gawk or mawk is left out where that is not installed;
  A first `cat NAME` of a file that is not there writes it;
- a block `hex NAME` is the bytes of a file, two digits each, a line's note behind two spaces and more;
- a table with the head `| awk | flowawk |`: each code of the first column is a filter that is refused with 3, 4 or 5, each of the second one that translates;
- a table with the head `| Filter | Line | flowawk | POSIX | gawk | mawk |`: what each of the three programs prints for the filter on the line; `outcome N` is a
  status. The columns of gawk and mawk are compared where they are installed, in the versions that the document names; --table writes what they print.
- a table with the head `| Number | Bytes |` has how an image spells numbers, one that begins `| Code | Name |` what codes take and leave: both as the reference has it.

In the man page, commands are the lines of displays (`.Bd -literal`) that begin with `$ `; mandoc and groff, where they are installed, must have nothing to say about it. The status is 1 if an example fails.
"""
import argparse
import os
import re
import shutil
import subprocess
import sys
import tempfile

import building

sys.path.insert(0, building.REFERENCE)
sys.dont_write_bytecode = True
import reference

DOCUMENTS = ['README.md', 'docs/LANGUAGE.md', 'docs/IMAGE.md', 'man/flowawk.1']
PEERS = {'gawk': ['gawk', '--version'], 'mawk': ['mawk', '-W', 'version']}
TEXT_LIMIT = 60


class Place:
    """The directory of a document's examples, with the program `flowawk` on the path and in it, and the folder `examples`."""

    def __init__(self, directory, program):
        self.directory = os.path.join(directory, 'examples')
        binaries = os.path.join(directory, 'bin')
        os.mkdir(self.directory)
        os.mkdir(binaries)
        for where in (binaries, self.directory):
            wrapper = os.path.join(where, 'flowawk')
            with open(wrapper, 'w') as f:
                f.write('#!/bin/sh\nexec %s "$@"\n' % program)
            os.chmod(wrapper, 0o755)
        os.symlink(os.path.join(building.ROOT, 'examples'), self.path('examples'))
        self.environment = dict(os.environ, PATH=binaries + os.pathsep + os.environ['PATH'], LC_ALL='C')

    def run(self, words, stdin=b''):
        """The status of a command, and what it writes."""
        done = subprocess.run(words, cwd=self.directory, env=self.environment, input=stdin, stdout=subprocess.PIPE,
                              stderr=subprocess.STDOUT)
        return done.returncode, done.stdout

    def path(self, name):
        return os.path.join(self.directory, name)

    def write(self, name, content):
        with open(self.path(name), 'wb') as f:
            f.write(content)


def markdown_blocks(lines):
    """The fenced blocks: number of the first line, words behind the fence, lines."""
    block = None
    for number, line in enumerate(lines, 1):
        if block is None:
            if line.startswith('```'):
                block = (number, line[3:].split(), [])
        elif line.startswith('```'):
            yield block
            block = None
        else:
            block[2].append(line)


def manual_blocks(lines):
    """The displays of a man page as blocks of commands."""
    block = None
    for number, line in enumerate(lines, 1):
        if line.startswith('.Bd -literal'):
            block = (number, ['console'], [])
        elif line == '.Ed' and block:
            if any(x.startswith('$ ') for x in block[2]):
                yield block
            block = None
        elif block:
            line = re.sub(r'^\\&', '', line).replace('\\(aq', "'").replace('\\-', '-').replace('\\e', '\\')
            block[2].append(line)


def commands(lines):
    """The commands of a block: the text, the lines that it writes, the status."""
    found = []
    for line in lines:
        if line.startswith('$ '):
            found.append(([line[2:]], []))
        elif line.startswith('> ') and found and not found[-1][1]:
            found[-1][0].append(line[2:])
        elif found:
            found[-1][1].append(line)
    for text, written in found:
        status = 0
        if written and re.fullmatch(r'\[\d+\]', written[-1]):
            status = int(written.pop()[1:-1])
        yield '\n'.join(text), written, status


def uses_missing(command):
    return any(re.search(r'\b%s\b' % peer, command) and not shutil.which(peer) for peer in PEERS)


def run_console(place, lines, wrong):
    count = 0
    for command, written, status in commands(lines):
        if uses_missing(command):
            continue
        if command.startswith('cat ') and not os.path.exists(place.path(command[4:])):
            place.write(command[4:], '\n'.join(written + ['']).encode())
        count += 1
        got, output = place.run(['sh', '-c', command])
        shown = output.decode('latin-1').split('\n')
        if shown[-1] == '':
            shown.pop()
        if (shown, got) != (written, status):
            wrong('%s\n    expected %r [%d]\n    got      %r [%d]' % (command, written, status, shown, got))
    return count


def run_hex(place, name, lines, wrong):
    digits = ''.join(re.split(r'\s{2,}', line.strip())[0] for line in lines)
    expected = bytes.fromhex(digits)
    if not os.path.exists(place.path(name)):
        wrong('%s: there is no such file' % name)
        return 1
    with open(place.path(name), 'rb') as f:
        got = f.read()
    if got != expected:
        wrong('%s: the document has %s, the file %s' % (name, expected.hex(' '), got.hex(' ')))
    return 1


def translates(place, text):
    return place.run(['flowawk', '-o', os.devnull, '--', text])


def run_block(place, words, lines, wrong):
    """Runs a block; how many examples it has."""
    text = ''.join(line + '\n' for line in lines).encode()
    if words == ['console']:
        return run_console(place, lines, wrong)
    if len(words) == 2 and words[0] in ('text', 'awk', 'python'):
        place.write(words[1], text)
        return 0
    if len(words) == 2 and words[0] == 'hex':
        return run_hex(place, words[1], lines, wrong)
    if words == ['awk']:
        status, output = translates(place, text)
        if status:
            wrong('is refused: %s' % output.decode('latin-1'))
        return 1
    return 0


def tables(lines):
    """The tables: number of the first line, the cells of the head, the cells of the rows."""
    table = None
    for number, line in enumerate(lines + [''], 1):
        if line.startswith('|'):
            cells = [c.strip().replace('\\|', '|') for c in re.split(r'(?<!\\)\|', line)[1:-1]]
            if table is None:
                table = (number, cells, [])
            elif not set(''.join(cells)) <= set('-: '):
                table[2].append(cells)
        elif table:
            yield table
            table = None


def codes(cell):
    return [a or b for a, b in re.findall(r'`` (.*?) ``|`([^`]*)`', cell)]


def plain(cell):
    """A cell's code, or its text."""
    found = codes(cell)
    return found[0] if len(found) == 1 and cell.startswith('`') else cell


def run_instead(place, rows, wrong):
    count = 0
    for left, right in rows:
        for text in codes(left):
            count += 1
            status, output = translates(place, text)
            if status not in (3, 4, 5):
                wrong('%s: not refused, status %d' % (text, status))
        for text in codes(right):
            count += 1
            status, output = translates(place, text)
            if status:
                wrong('%s: refused: %s' % (text, output.decode('latin-1')))
    return count


def run_numbers(rows, wrong):
    """How an image spells numbers."""
    for number, spelled in rows:
        got = reference.write_image([1, int(number), 0, 0, 0, 0, 0])[1][1:-5].hex(' ')
        if plain(spelled) != got:
            wrong('%s is spelled %s' % (number, got))
    return len(rows)


def run_codes(rows, wrong):
    """What the codes of an image take and leave."""
    said = {}
    for code, _, operand, takes, leaves, _ in rows:
        first, last = (code.split(' to ') * 2)[:2]
        for c in range(int(first), int(last) + 1):
            said[c] = (operand != '', takes, leaves)
    for c, effect in reference.TAKES_LEAVES.items():
        takes, leaves = effect or ('n', 0)
        if said.pop(c, None) != (c in reference.HAS_OPERAND, str(takes), str(leaves)):
            wrong('code %d' % c)
    if said:
        wrong('codes that there are not: %s' % sorted(said))
    return len(rows)


def answer(place, program, text, line):
    """What a program prints for a filter on a line, as a table says it."""
    done = subprocess.run([program, text], cwd=place.directory, env=place.environment, input=line, stdout=subprocess.PIPE,
                          stderr=subprocess.PIPE)
    printed = done.stdout.decode('latin-1').rstrip('\n').replace('\n', '; ')
    if len(printed) > TEXT_LIMIT:
        printed = '%d bytes' % len(done.stdout)
    if done.returncode:
        said = 'outcome' if program == 'flowawk' else 'status'
        stop = '%s %d' % (said, done.returncode) if program == 'flowawk' or not done.stderr else 'error'
        return stop if not printed else printed + '; ' + stop
    return printed if printed else 'nothing'


def line_of(cell):
    """The bytes of a line's cell: code, `\\t` a tab, `xN` repeated."""
    if not codes(cell):
        return b''
    text = codes(cell)[0].replace('\\t', '\t')
    times = re.search(r'` (\d+) times', cell)
    return (text * int(times.group(1)) if times else text).encode('latin-1') + b'\n'


def peers_there(document):
    """The peers that are installed in the version that the document names."""
    there = []
    for peer, words in PEERS.items():
        if shutil.which(peer):
            said = subprocess.run(words, stdout=subprocess.PIPE, stderr=subprocess.STDOUT, stdin=subprocess.DEVNULL)
            version = re.search(r'\d+\.\d+\.\d+', said.stdout.decode('latin-1'))
            if version and '%s %s' % (peer, version.group(0)) in document:
                there.append(peer)
    return there


def run_peers(place, head, rows, document, show, wrong):
    count = 0
    there = ['flowawk'] + peers_there(document)
    for row in rows:
        text, line = codes(row[0])[0], line_of(row[1])
        for column, program in enumerate(head[2:], 2):
            if program not in there:
                continue
            count += 1
            got = answer(place, program, text, line)
            if show:
                print('%s | %s | %s: %s' % (text, row[1], program, got))
            elif plain(row[column]) != got:
                wrong('%s on %s: %s: the table has %s, it prints %s' % (text, row[1], program, row[column], got))
    return count


def manual_faults(name):
    """What mandoc and groff say about a man page."""
    for words in (['mandoc', '-Tlint', '-W', 'style'], ['groff', '-ww', '-mdoc', '-Tascii', '-z']):
        if shutil.which(words[0]):
            said = subprocess.run(words + [os.path.join(building.ROOT, name)], stdout=subprocess.PIPE, stderr=subprocess.STDOUT).stdout.decode('latin-1')
            for line in said.splitlines():
                if 'outdated mandoc.db' not in line and 'referenced manual not found' not in line:
                    yield line


def run_document(name, program, show):
    """Runs a document's examples: how many there are, and what is wrong."""
    with open(os.path.join(building.ROOT, name), encoding='utf-8') as f:
        document = f.read()
    lines = document.split('\n')
    manual = not name.endswith('.md')
    mistakes = list(manual_faults(name)) if manual else []
    count = 0
    with tempfile.TemporaryDirectory() as directory:
        place = Place(directory, program)
        for number, words, block in (manual_blocks if manual else markdown_blocks)(lines):
            count += run_block(place, words, block, lambda text: mistakes.append('%s:%d: %s' % (name, number, text)))
        for number, head, rows in ([] if manual else tables(lines)):
            def wrong(text):
                mistakes.append('%s:%d: %s' % (name, number, text))
            if head == ['awk', 'flowawk']:
                count += run_instead(place, rows, wrong)
            if head == ['Number', 'Bytes']:
                count += run_numbers(rows, wrong)
            if head[:2] == ['Code', 'Name']:
                count += run_codes(rows, wrong)
            if head[:2] == ['Filter', 'Line']:
                count += run_peers(place, head, rows, document, show, wrong)
    return count, mistakes


def main():
    parser = argparse.ArgumentParser()
    parser.add_argument('--program', default=os.path.join(building.ROOT, 'flowawk'))
    parser.add_argument('--archive')
    parser.add_argument('--table', action='store_true')
    parser.add_argument('--no-folder', action='store_true')
    parser.add_argument('documents', nargs='*')
    options = parser.parse_args()
    program = os.path.abspath(options.program)
    subprocess.run([program, '-V'], stdout=subprocess.DEVNULL, check=True)
    failed = 0
    for name in options.documents or DOCUMENTS:
        count, mistakes = run_document(name, program, options.table)
        print('%s: %d examples, %d failed' % (name, count, len(mistakes)))
        for text in mistakes:
            print('  ' + text)
        failed += len(mistakes)
    if not options.documents and not options.no_folder:
        words = [sys.executable, os.path.join(building.ROOT, 'examples', 'run.py'), '--program', program]
        failed += subprocess.run(words + (['--archive', options.archive] if options.archive else [])).returncode != 0
    sys.exit(1 if failed else 0)


if __name__ == '__main__':
    main()
