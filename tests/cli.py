#!/usr/bin/env python3
"""Runs command lines of the program and compares status, standard output and standard error.

    tests/cli.py [--program FILE] [--random N] [--seed S] [--large] [NAME..]

The program is ./flowawk, or FILE. The cases run in a temporary directory; with names, only those whose names contain one. Then N (default 300) random filters, images and lines, from the
seed S (default 1), are compared with the reference of tests/reference and the model of the messages in tests/program_cases.py. --large adds the cases that need 2 GiB of
memory: lines that don't fit, and an output room that is full. The status is 1 if a case fails.
"""
import argparse
import fcntl
import os
import random
import signal
import subprocess
import sys
import tempfile
import threading
import time

import building
import program_cases

sys.path.insert(0, building.REFERENCE)
sys.dont_write_bytecode = True
import flows
import gen
import reference

USAGE = b"""usage: flowawk [-b N] [-s] 'FILTER' [FILE..]
       flowawk [-b N] [-s] -f FILTERFILE [FILE..]
       flowawk [-b N] [-s] -i IMAGE [FILE..]
       flowawk -o IMAGE 'FILTER' | -o IMAGE -f FILTERFILE
       flowawk --check IMAGE | --content IMAGE
       flowawk -h | -V
"""
BUDGET = 10 ** 9
ROOM = 1 << 30
IMAGE_ROOM = 1 << 20
SECONDS = 60
THREE = b''.join(line.encode() for line in flows.flows(3))
PRINT = reference.translate(b'{ print }')[2]
MEMBER = b'$4 == "raw" { print $1, $2 * $3 }'
# a print of no values: the form of an image, and fails the check
PRINT_NOTHING = bytes([1, 0, 0, 0, 1, 0, 0, 2, 29, 0, 0, 0, 0, 1, 0, 0])

FILES = {
    'three': THREE,
    'member.awk': MEMBER + b'\n',
    'bad.awk': b'$2 > 1000 {\n\tprint $1, $2 *\n}\n',
    'longline': THREE + b'x' * 600 + b'\n',
    'line512': b'x' * 512 + b'\n',
    'empty': b'',
    'nolast': b'a b',
    'other': b'c d\n',
    'newline': b'\n',
    'nul.awk': b'BEGIN { print 1 }\n\0',
    'crlf.awk': b'{ print }\r\n',
    'bom.awk': b'\xef\xbb\xbf{ print }\n',
    'long8192.awk': b'BEGIN { print "long" }'.ljust(8192),
    'long8193.awk': b'BEGIN { print "long" }'.ljust(8193),
    'long20000.awk': b'BEGIN { print "long" }'.ljust(20000),
    'print.img': PRINT,
    'more.img': PRINT + b'\0',
    'nothing.img': PRINT_NOTHING,
    'later.img': b'\2' + PRINT[1:],
    'large.img': bytes(IMAGE_ROOM + 1),
    'fields129': b'x ' * 129 + b'\n',
    'zero': b'a\0b c\0d\n',
    '-file': b'from a file that begins with a minus\n',
}


def refusal(name, text, column, outcome, line=1):
    """The message for a refusal at a line and a column of a filter text, written out apart from the model: short lines without tabs."""
    shown = text.split(b'\n')[line - 1]
    return b'flowawk: %s:%d:%d: %s\n  %s\n  %s^\n' % (name, line, column, program_cases.outcome_text(outcome), shown, b' ' * (column - 1))


def too_long(name, size):
    """The message for a filter of so many bytes on one line, which ends in spaces."""
    return b'flowawk: %s:1:8193: filter text too long (outcome 1)\n  %s\n  %s^\n' % (name, b' ' * min(77, 38 + size - 8192), b' ' * 38)


def image_refusal(name, outcome):
    return b'flowawk: %s: %s\n' % (name, program_cases.outcome_text(outcome))


def summary(outcome, records, steps, size):
    return program_cases.summary(outcome, records, steps, size)


class Case:
    def __init__(self, name, words, out=b'', err=b'', status=0, stdin=b''):
        self.name, self.words, self.out, self.err, self.status, self.stdin = name, words, out, err, status, stdin

    def wrong(self, program, directory):
        """What is wrong, or nothing."""
        done = subprocess.run([program] + self.words, cwd=directory, input=self.stdin, stdout=subprocess.PIPE, stderr=subprocess.PIPE, timeout=SECONDS)
        for what, got, expected in (('status', done.returncode, self.status), ('standard output', done.stdout, self.out), ('standard error', done.stderr, self.err)):
            if got != expected:
                return '%s: expected %r, got %r' % (what, expected, got)
        return None


def studied():
    """The examples of the program's design."""
    yield Case('study: a filter', ['$4 == "raw" { print $1, $2 * $3 }', 'three'], b'member333-port24 3522521000\n')
    yield Case('study: a filter file, with counts', ['-s', '-f', 'member.awk', 'three'], b'member333-port24 3522521000\n', summary(0, 3, 28, 28))
    text = b'$2 > 1000 { print $1, }'
    yield Case('study: misplaced token', [text, 'three'], err=b'flowawk: filter:1:23: misplaced token (outcome 4)\n  ' + text + b'\n' + b' ' * 24 + b'^\n', status=4)
    text = b'BEGIN { x = "abc }'
    yield Case('study: bad token', [text], err=b'flowawk: filter:1:13: bad token (outcome 3)\n  ' + text + b'\n' + b' ' * 14 + b'^\n', status=3)
    yield Case('study: divisor zero', ['{ print $2 / (NR - 3) }', 'three'], b'-529410\n-3522521\n',
               b'flowawk: divisor zero (outcome 13); 3 records begun, 23 steps, 17 bytes written\n', 13)
    yield Case('study: long line', ['{ print $1 }', 'longline'], b'member068-port36\nmember333-port24\nmember311-port00\n',
               b'flowawk: record too long (outcome 15); 3 records begun, 13 steps, 51 bytes written\n', 15)
    yield Case('study: image', ['-i', 'print.img', 'three'], THREE)


def usage():
    def refused(name, words, said=b''):
        return Case('usage: ' + name, words, err=said + USAGE, status=64)

    yield refused('no words', [])
    yield refused('unknown option', ['-x', '{ print }'], b'flowawk: -x: no such option, or given twice\n')
    yield refused('options joined', ['-sb', '5', '{ print }'], b'flowawk: -sb: no such option, or given twice\n')
    yield refused('--help', ['--help'], b'flowawk: --help: no such option, or given twice\n')
    yield refused('option twice', ['-s', '-s', '{ print }'], b'flowawk: -s: no such option, or given twice\n')
    yield refused('argument missing', ['-f'], b'flowawk: the last word lacks its argument\n')
    yield refused('filter missing', ['-s'])
    yield refused('-f and -i', ['-f', 'member.awk', '-i', 'print.img', 'three'])
    yield refused('--check and a file', ['--check', 'print.img', 'three'])
    yield refused('--check and --content', ['--check', 'print.img', '--content', 'print.img'])
    yield refused('-o without a filter', ['-o', 'new.img'])
    yield refused('-o with lines', ['-o', 'new.img', '{ print }', 'three'])
    yield refused('-o and -s', ['-o', 'new.img', '-s', '{ print }'])
    for word in ('abc', '', '-1', '+1', '1k', ' 1', '18446744073709551616'):
        yield refused('-b %r' % word, ['-b', word, '{ print }', 'three'],
                      b'flowawk: %s: no number of steps from 0 to 18446744073709551615\n' % word.encode())
    yield Case('-h', ['-h'], USAGE)
    yield Case('-V', ['-V'], b'flowawk, edition 1\n')
    yield Case('-- before a filter', ['--', '-1', 'three'], THREE)
    yield Case('-- before files', ['--', '{ print }', '-file'], FILES['-file'])
    yield Case('option behind the filter is a file', ['{ print }', '-file', 'other'], FILES['-file'] + FILES['other'])
    yield Case('-f --: a file of that name', ['-f', '--', 'three'], err=b'flowawk: --: No such file or directory\n', status=66)
    yield Case('a lone minus is a filter', ['-'], err=refusal(b'filter', b'-', 2, 4), status=4)
    yield Case('an empty filter', ['', 'three'])
    yield Case('an operand like an assignment is a file', ['{ print }', 'a=1'], err=b'flowawk: a=1: No such file or directory\n', status=66)


def budgets():
    loop = 'BEGIN { while (1) n = n + 1 }'
    yield Case('-b 0', ['-b', '0', '{ print }', 'three'], err=summary(10, 0, 0, 0), status=10)
    yield Case('-b 1000 and a loop', ['-b', '1000', loop], err=summary(10, 0, 1000, 0), status=10)
    yield Case('-b one too few', ['-b', '13', '{ print $1 }', 'three'], b'member068-port36\nmember333-port24\nmember311-port00\n', summary(10, 3, 13, 51), 10)
    yield Case('-b just enough', ['-b', '14', '{ print $1 }', 'three'], b'member068-port36\nmember333-port24\nmember311-port00\n')
    yield Case('-b the greatest', ['-b', '18446744073709551615', '-s', 'BEGIN { print 1 }'], b'1\n', summary(0, 0, 4, 2))
    yield Case('-b with zeros in front', ['-b', '0000014', '{ print $1 }', 'three'], b'member068-port36\nmember333-port24\nmember311-port00\n')
    yield Case('-s and a stop: said once', ['-s', 'BEGIN { print 7 / 2 }'], err=summary(12, 0, 3, 0), status=12)


def inputs():
    yield Case('standard input', ['{ print NR ":" $0 }'], b'1:a\n2:b\n', stdin=b'a\nb\n')
    yield Case('- is standard input', ['{ print }', 'other', '-', 'other'], b'c d\nx\nc d\n', stdin=b'x')
    yield Case('- twice: the second is at its end', ['{ print }', '-', '-'], b'x\ny\n', stdin=b'x\ny\n')
    yield Case('no input', ['{ print } END { print NR }'], b'0\n')
    yield Case('an empty file', ['{ print } END { print NR }', 'empty'], b'0\n')
    yield Case('a file without its last newline', ['{ print NF } END { print NR }', 'nolast'], b'2\n1\n')
    yield Case('joined with another', ['{ print NR, $0 }', 'nolast', 'other'], b'1 a b\n2 c d\n')
    yield Case('an empty file between', ['{ print NR, $0 }', 'nolast', 'empty', 'other', 'empty'], b'1 a b\n2 c d\n')
    yield Case('a file of one newline', ['{ print NR, NF }', 'newline', 'nolast', 'newline'], b'1 0\n2 2\n3 0\n')
    yield Case('a missing file', ['{ print }', 'three', 'missing'], err=b'flowawk: missing: No such file or directory\n', status=66)
    yield Case('BEGIN alone opens no files', ['BEGIN { print 1 }', 'missing'], b'1\n')
    yield Case('a directory', ['{ print }', 'three', '.'], err=b'flowawk: .: Is a directory\n', status=74)
    yield Case('a file\'s name with a newline', ['{ print }', 'mis\nsing'], err=b'flowawk: mis\nsing: No such file or directory\n', status=66)
    yield Case('a name of 300 bytes', ['{ print }', 'n' * 300], err=b'flowawk: ' + b'n' * 300 + b': File name too long\n', status=66)
    yield Case('NUL bytes in lines', ['{ print length($0), $2 }', 'zero'], b'7 c\0d\n')
    yield Case('a line of 512 bytes', ['{ print length($0) }', 'line512'], b'512\n')
    yield Case('129 fields', ['{ print NF }', 'fields129'], err=summary(16, 0, 1, 0), status=16)
    yield Case('many lines', ['{ n = n + $1 } END { print NR, n }'], b'300000 45000150000\n', stdin=b''.join(b'%d line\n' % i for i in range(1, 300001)))


def filter_files():
    yield Case('-f', ['-f', 'member.awk', 'three'], b'member333-port24 3522521000\n')
    yield Case('-f, standard input', ['-f', 'member.awk'], b'member333-port24 3522521000\n', stdin=THREE)
    yield Case('-f - is standard input', ['-f', '-', 'three'], b'member333-port24 3522521000\n', stdin=MEMBER)
    yield Case('-f: a missing file', ['-f', 'missing', 'three'], err=b'flowawk: missing: No such file or directory\n', status=66)
    yield Case('-f: a directory', ['-f', '.', 'three'], err=b'flowawk: .: Is a directory\n', status=74)
    yield Case('-f: an empty file', ['-f', 'empty', 'three'])
    yield Case('-f: an error on line 2', ['-f', 'bad.awk', 'three'],
               err=b'flowawk: bad.awk:2:16: misplaced token (outcome 4)\n  \tprint $1, $2 *\n  \t              ^\n', status=4)
    yield Case('-f: a NUL byte', ['-f', 'nul.awk', 'three'], err=b'flowawk: nul.awk:2:1: NUL byte in the filter text (outcome 2)\n  \\000\n  ^\n', status=2)
    yield Case('-f: a carriage return', ['-f', 'crlf.awk', 'three'], err=b'flowawk: crlf.awk:1:10: bad token (outcome 3)\n  { print }\\015\n           ^\n', status=3)
    yield Case('-f: a byte order mark', ['-f', 'bom.awk', 'three'], err=b'flowawk: bom.awk:1:1: bad token (outcome 3)\n  \\357\\273\\277{ print }\n  ^\n', status=3)
    yield Case('-f: 8,192 bytes', ['-f', 'long8192.awk'], b'long\n')
    for size in (8193, 20000):
        name = 'long%d.awk' % size
        yield Case('-f: %d bytes' % size, ['-f', name], err=too_long(name.encode(), size), status=1)
    yield Case('a filter of 8,192 bytes', ['BEGIN { print "long" }'.ljust(8192)], b'long\n')
    for size in (8193, 131071):
        yield Case('a filter of %d bytes' % size, [b'BEGIN { print "long" }'.ljust(size)], err=too_long(b'filter', size), status=1)


def refusals():
    """Messages with a caret; the shown line has at most 79 columns."""
    def refused(name, text, place, outcome, said):
        return Case('refusal: ' + name, ['--', text], err=said, status=outcome)

    yield refused('at the text\'s end', b'{ print $1', 10, 4, refusal(b'filter', b'{ print $1', 11, 4))
    yield refused('behind the last newline', b'{ print\n', 8, 4, b'flowawk: filter:2:1: misplaced token (outcome 4)\n  \n  ^\n')
    yield refused('line 3 of an argument', b'{\n  print $1\n  print )\n}', 21, 4, refusal(b'filter', b'{\n  print $1\n  print )\n}', 9, 4, 3))
    yield refused('tabs before the caret', b'\t{\tx = 1 2 ) }', 11, 4, b'flowawk: filter:1:12: misplaced token (outcome 4)\n  \t{\tx = 1 2 ) }\n  \t \t        ^\n')
    yield refused('bytes that don\'t print', b'{ x = "\xc3\xa9\x01" \x80 }', 12, 3,
                  b'flowawk: filter:1:13: bad token (outcome 3)\n  { x = "\\303\\251\\001" \\200 }\n  ' + b' ' * 21 + b'^\n')
    yield refused('DEL and 255', b'# \x7f\xff\n@', 5, 3, b'flowawk: filter:2:1: bad token (outcome 3)\n  @\n  ^\n')
    yield refused('an ERE', b'$1 ~ /a(b/', 5, 5, refusal(b'filter', b'$1 ~ /a(b/', 6, 5))
    deep = b'BEGIN { print ' + b'(' * 16 + b'1' + b')' * 16 + b' }'
    yield refused('level 17', deep, 29, 6, refusal(b'filter', deep, 30, 6))
    names = b'{ ' + b' '.join(b'n%d' % i for i in range(26)) + b' }'
    yield refused('26 names', names, len(names), 6, program_cases.refusal(b'filter', names, len(names), 6))
    digits = b'1234567890'
    yield refused('a line of 77 columns', b'@' + (digits * 8)[:76], 0, 3, b'flowawk: filter:1:1: bad token (outcome 3)\n  @' + (digits * 8)[:76] + b'\n  ^\n')
    yield refused('a line of 78 columns', b'@' + (digits * 8)[:77], 0, 3, b'flowawk: filter:1:1: bad token (outcome 3)\n  @' + (digits * 8)[:76] + b'\n  ^\n')
    middle = b'{ x = ' + b'1 ' * 100 + b'@' + b' 2' * 100 + b' }'
    place = middle.index(b'@')
    yield refused('the middle of a long line', middle, place, 3, b'flowawk: filter:1:%d: bad token (outcome 3)\n  %s\n  %s^\n' % (
        place + 1, middle[place - 38:place + 39], b' ' * 38))
    end = b'{ x = ' + b'1 ' * 100
    yield refused('the end of a long line', end, len(end), 4, b'flowawk: filter:1:%d: misplaced token (outcome 4)\n  %s\n  %s^\n' % (len(end) + 1, end[-38:], b' ' * 38))
    wide = b'# ' + b'\xff' * 40 + b'\n' + b'{ x = "' + b'\xff' * 40 + b'" @ }'
    yield refused('wide bytes in a long line', wide, wide.index(b'@'), 3, program_cases.refusal(b'filter', wide, wide.index(b'@'), 3))


def images():
    yield Case('--check', ['--check', 'print.img'])
    yield Case('--check, a byte more', ['--check', 'more.img'], err=image_refusal(b'more.img', 8), status=8)
    yield Case('--check, another edition', ['--check', 'later.img'], err=image_refusal(b'later.img', 8), status=8)
    yield Case('--check, print 0', ['--check', 'nothing.img'], err=image_refusal(b'nothing.img', 9), status=9)
    yield Case('--check, an empty file', ['--check', 'empty'], err=image_refusal(b'empty', 8), status=8)
    yield Case('--check, a missing file', ['--check', 'missing'], err=b'flowawk: missing: No such file or directory\n', status=66)
    yield Case('--check, standard input', ['--check', '-'], stdin=PRINT)
    yield Case('--check, over the room', ['--check', 'large.img'], err=b'flowawk: the input does not fit the room of %d bytes\n' % IMAGE_ROOM, status=66)
    for size in range(len(PRINT)):
        yield Case('--check, cut to %d bytes' % size, ['--check', '-'], err=image_refusal(b'-', 8), status=8, stdin=PRINT[:size])
    yield Case('-i, malformed', ['-i', 'more.img', 'three'], err=image_refusal(b'more.img', 8), status=8)
    yield Case('-i, fails the check', ['-i', 'nothing.img', 'three'], err=image_refusal(b'nothing.img', 9), status=9)
    yield Case('-i, standard input as lines', ['-s', '-i', 'print.img'], b'x\n', summary(0, 1, 6, 2), stdin=b'x')
    content = reference.read_image(PRINT)[1]
    yield Case('--content', ['--content', 'print.img'], b''.join(b'%d\n' % w for w in content))
    yield Case('--content, fails the check', ['--content', 'nothing.img'], b''.join(b'%d\n' % w for w in PRINT_NOTHING))
    yield Case('--content, malformed', ['--content', 'more.img'], err=image_refusal(b'more.img', 8), status=8)
    yield Case('-o, refused', ['-o', 'refused.img', '{ print'], err=refusal(b'filter', b'{ print', 8, 4), status=4)
    yield Case('-o, no such directory', ['-o', 'no/x.img', '{ print }'], err=b'flowawk: no/x.img: No such file or directory\n', status=74)
    yield Case('-o, full disk', ['-o', '/dev/full', '{ print }'], err=b'flowawk: /dev/full: No space left on device\n', status=74)


def stops():
    """Each stop of a run that the program can show, with what was printed before it."""
    def stopped(outcome, text, out, records, steps, stdin=b''):
        return Case('stop %d: %s' % (outcome, text), [text], out, summary(outcome, records, steps, len(out)), outcome, stdin)

    yield stopped(11, 'BEGIN { print 1; print 9007199254740992 + 1 }', b'1\n', 0, 5)
    yield stopped(11, '{ print $1 + 0 }', b'', 1, 5, b'9007199254740993\n')
    yield stopped(12, 'BEGIN { print 7 / 2 }', b'', 0, 3)
    yield stopped(12, '$1 { print "true" }', b'', 1, 4, b'0.5\n')
    yield stopped(13, 'BEGIN { print 7 % 0 }', b'', 0, 3)
    yield stopped(14, '{ print; x = $0 $0 }', b'y' * 300 + b'\n', 1, 9, b'y' * 300 + b'\n')
    yield stopped(15, '{ print }', b'', 0, 1, b'z' * 513)
    yield stopped(16, 'BEGIN { print $(0 - 1) }', b'', 0, 4)
    yield stopped(18, 'BEGIN { FS = "" } { print }', b'', 0, 4, b'a\n')
    yield stopped(18, 'BEGIN { FS = "((" } { print }', b'', 0, 4, b'a\n')


def cases():
    for group in (studied, usage, budgets, inputs, filter_files, refusals, images, stops):
        yield from group()


# ---- cases that need more than words: descriptors, processes, time

def expect(done, status, out, err):
    got = (done.returncode, done.stdout, done.stderr)
    return None if got == (status, out, err) else 'expected %r, got %r' % ((status, out, err), got)


def shell(program, directory, script, **more):
    """Runs a script of sh, in which P is the program."""
    return subprocess.run(['sh', '-c', script], cwd=directory, env=dict(os.environ, P=program, LC_ALL='C'), stdin=subprocess.DEVNULL, stdout=subprocess.PIPE,
                          stderr=subprocess.PIPE, timeout=SECONDS, **more)


def full_disk(program, directory):
    """Standard output on a full disk"""
    for words in ("'{ print }' three", '-h', '-V', '--content print.img'):
        wrong = expect(shell(program, directory, '"$P" %s > /dev/full' % words), 74, b'', b'flowawk: standard output: No space left on device\n')
        if wrong:
            return wrong
    return None


def closed_output(program, directory):
    """Standard output closed"""
    return expect(shell(program, directory, '"$P" "{ print }" three >&-'), 74, b'', b'flowawk: standard output: Bad file descriptor\n')


def closed_output_unused(program, directory):
    """Standard output closed, and nothing is printed"""
    return expect(shell(program, directory, '"$P" "{ n = 1 }" three >&-'), 0, b'', b'')


def closed_errors(program, directory):
    """Standard error closed: the status is the same"""
    return expect(shell(program, directory, '"$P" "{ print" 2>&-'), 4, b'', b'')


def closed_input(program, directory):
    """Standard input closed"""
    return expect(shell(program, directory, '"$P" "{ print }" <&-'), 74, b'', b'flowawk: -: Bad file descriptor\n')


def closed_pipe(program, directory):
    """A pipe that nobody reads any more"""
    read, write = os.pipe()
    os.close(read)
    done = subprocess.run([program, '{ print }', 'three'], cwd=directory, stdout=write, stderr=subprocess.PIPE, timeout=SECONDS)
    os.close(write)
    got = (done.returncode, done.stderr)
    return None if got == (74, b'flowawk: standard output: Broken pipe\n') else 'got %r' % (got,)


def closed_pipe_later(program, directory):
    """A reader that takes one line of many and goes"""
    done = shell(program, directory, '{ "$P" "BEGIN { while (n < 100000) { n = n + 1; print n } }"; echo "[$?]" >&2; } | head -n 1')
    return expect(done, 0, b'1\n', b'flowawk: standard output: Broken pipe\n[74]\n')


def nonblocking_output(program, directory):
    """A standard output that doesn't block, read slowly: nothing is lost"""
    read, write = os.pipe()
    fcntl.fcntl(write, fcntl.F_SETFL, fcntl.fcntl(write, fcntl.F_GETFL) | os.O_NONBLOCK)
    process = subprocess.Popen([program, 'BEGIN { while (n < 100000) { n = n + 1; print n } }'], cwd=directory, stdout=write, stderr=subprocess.PIPE)
    os.close(write)
    got = []
    time.sleep(0.2)
    with os.fdopen(read, 'rb') as f:
        while True:
            part = f.read(50000)
            if not part:
                break
            got.append(part)
            time.sleep(0.01)
    err = process.communicate(timeout=SECONDS)[1]
    out = b''.join(got)
    expected = b''.join(b'%d\n' % n for n in range(1, 100001))
    if (process.returncode, err) != (0, b'') or out != expected:
        return 'status %d, %d bytes of %d, %r' % (process.returncode, len(out), len(expected), err)
    return None


def slow_input(program, directory):
    """Input that comes in pieces, with pauses in a line"""
    process = subprocess.Popen([program, '{ print NR, $2 }'], cwd=directory, stdin=subprocess.PIPE, stdout=subprocess.PIPE, stderr=subprocess.PIPE)

    def feed():
        for piece in (b'a ', b'b\nc', b' d', b'\n', b'e f'):
            process.stdin.write(piece)
            process.stdin.flush()
            time.sleep(0.05)
        process.stdin.close()
    thread = threading.Thread(target=feed)
    thread.start()
    out, err = process.stdout.read(), process.stderr.read()
    thread.join()
    status = process.wait(timeout=SECONDS)
    process.stdout.close()
    process.stderr.close()
    return None if (status, out, err) == (0, b'1 b\n2 d\n3 f\n', b'') else 'got %r' % ((status, out, err),)


def no_input_read(program, directory):
    """A filter of BEGIN alone reads no input: standard input stays open"""
    read, write = os.pipe()
    try:
        for text in ('BEGIN { print 1 }', 'BEGIN { print 1 } {} END {}'):
            try:
                done = subprocess.run([program, text], cwd=directory, stdin=read, stdout=subprocess.PIPE, stderr=subprocess.PIPE, timeout=5)
            except subprocess.TimeoutExpired:
                return 'waits for input: ' + text
            wrong = expect(done, 0, b'1\n', b'')
            if wrong:
                return wrong
    finally:
        os.close(read)
        os.close(write)
    return None


def image_file(program, directory):
    """-o writes the reference's image, over a longer file, and a refused filter leaves the file as it was"""
    name = os.path.join(directory, 'made.img')
    with open(name, 'wb') as f:
        f.write(b'longer than the image' * 100)
    text = b'/tcp/ { n = n + 1 } END { print "tcp", n }'
    for words in (['-o', 'made.img', text], ['-o', 'made.img', '{ print'], ['-f', 'member.awk', '-o', 'member.img']):
        subprocess.run([program] + words, cwd=directory, stderr=subprocess.DEVNULL, timeout=SECONDS)
    for made, source in (('made.img', text), ('member.img', FILES['member.awk'])):
        with open(os.path.join(directory, made), 'rb') as f:
            if f.read() != reference.translate(source)[2]:
                return '%s is not the image' % made
    return None


def unreadable(program, directory):
    """A file that may not be read (not as root)"""
    if os.geteuid() == 0:
        return None
    name = os.path.join(directory, 'secret')
    with open(name, 'wb'):
        os.chmod(name, 0)
    done = subprocess.run([program, '{ print }', 'secret'], cwd=directory, stdout=subprocess.PIPE, stderr=subprocess.PIPE, timeout=SECONDS)
    return expect(done, 66, b'', b'flowawk: secret: Permission denied\n')


def interrupted(program, directory):
    """A signal ends a run, and writes nothing"""
    process = subprocess.Popen([program, '-b', '18446744073709551615', 'BEGIN { print 1; while (1) ; }'], cwd=directory, stdout=subprocess.PIPE, stderr=subprocess.PIPE)
    time.sleep(0.3)
    process.send_signal(signal.SIGTERM)
    out, err = process.communicate(timeout=SECONDS)
    got = (process.returncode, out, err)
    return None if got == (-signal.SIGTERM, b'', b'') else 'got %r' % (got,)


def any_locale(program, directory):
    """The locale changes nothing"""
    for locale in ('C', 'C.UTF-8', 'de_DE.UTF-8'):
        done = subprocess.run([program, '{ print length($0), ($1 < "Z"), 1000000 * 3 }'], cwd=directory, env=dict(os.environ, LC_ALL=locale), input=b'\xc3\xa9\n',
                              stdout=subprocess.PIPE, stderr=subprocess.PIPE, timeout=SECONDS)
        wrong = expect(done, 0, b'2 0 3000000\n', b'')
        if wrong:
            return locale + ': ' + wrong
    return None


def large_lines(program, directory):
    """Lines of 1 GiB don't fit, nor does a file after others"""
    name = os.path.join(directory, 'large')
    for size in (ROOM, ROOM + 1):
        with open(name, 'wb') as f:
            f.truncate(size)
        done = subprocess.run([program, '{ print }', 'large'], cwd=directory, stdout=subprocess.PIPE, stderr=subprocess.PIPE, timeout=SECONDS)
        wrong = expect(done, 66, b'', b'flowawk: the input does not fit the room of %d bytes\n' % ROOM)
        if wrong:
            return wrong
    os.remove(name)
    return None


def large_output(program, directory):
    """Output of over 1 GiB: whole lines, then 17"""
    line = b'x' * 512
    done = subprocess.run([program, b'BEGIN { while (1) print "%s" }' % line], cwd=directory, stdout=subprocess.DEVNULL, stderr=subprocess.PIPE, timeout=SECONDS)
    lines = ROOM // 513
    expected = summary(17, 0, 5 * lines + 4, 513 * lines)
    return None if (done.returncode, done.stderr) == (17, expected) else 'expected %r, got %r' % (expected, (done.returncode, done.stderr))


SPECIAL = [full_disk, closed_output, closed_output_unused, closed_errors, closed_input, closed_pipe, closed_pipe_later, nonblocking_output, slow_input, no_input_read, image_file,
           unreadable, interrupted, any_locale]
LARGE = [large_lines, large_output]


# ---- random filters, images and lines, against the reference

def joined(files):
    """The lines of files: a newline where one that isn't empty lacks its last."""
    lines = b''
    for content in files:
        if lines and not lines.endswith(b'\n'):
            lines += b'\n'
        lines += content
    return lines


def run_of(image, lines, budget):
    outcome, steps, records, output = reference.run(image, lines, ROOM, budget)
    return outcome, output, summary(outcome, records, steps, len(output))


def drawn_filter(r, directory):
    """A random filter over random files, of which the first is standard input: words, standard input, and what is expected."""
    text = gen.filter_text(r).replace(b'\0', b'\1')
    files, budget = [gen.lines(r) for _ in range(r.choice([1, 1, 2, 3]))], r.choice([0, 1, 10, 100, 2000, 2000])
    names = []
    for k, content in enumerate(files[1:]):
        names.append('random%d' % k)
        with open(os.path.join(directory, names[-1]), 'wb') as f:
            f.write(content)
    words = ['-s', '-b', str(budget), '--', text] + (['-'] + names if names else [])
    outcome, place, image = reference.translate(text)
    if outcome:
        return words, files[0], (outcome, b'', program_cases.refusal(b'filter', text, place, outcome))
    return words, files[0], run_of(image, joined(files), budget)


def drawn_image(r, directory):
    """A random image, often a damaged one: checked, read or run."""
    image, lines, budget = gen.image(r, reference.translate), gen.lines(r), r.choice([0, 10, 1000])
    with open(os.path.join(directory, 'random.img'), 'wb') as f:
        f.write(image)
    option = r.choice(['--check', '--content', '-i'])
    outcome, content = reference.read_image(image)
    if option != '--content' and not outcome:
        outcome = reference.check(image)
    if outcome:
        return [option, 'random.img'], lines, (outcome, b'', image_refusal(b'random.img', outcome))
    if option == '--check':
        return [option, 'random.img'], lines, (0, b'', b'')
    if option == '--content':
        return [option, 'random.img'], lines, (0, b''.join(b'%d\n' % w for w in content), b'')
    return ['-s', '-b', str(budget), '-i', 'random.img'], lines, run_of(image, lines, budget)


def random_cases(program, directory, count, seed):
    """What is wrong with random cases, at most ten."""
    r = random.Random(seed)
    outcomes, wrong = {}, []
    for _ in range(count):
        words, stdin, expected = r.choice([drawn_filter, drawn_filter, drawn_image])(r, directory)
        outcomes[expected[0]] = outcomes.get(expected[0], 0) + 1
        done = subprocess.run([program] + words, cwd=directory, input=stdin, stdout=subprocess.PIPE, stderr=subprocess.PIPE, timeout=SECONDS)
        got = (done.returncode, done.stdout, done.stderr)
        if got != expected:
            wrong.append('random: %r on %r: expected %r, got %r' % (words, stdin, expected, got))
    print('%d random cases, seed %d, %d failed; outcomes: %s' % (count, seed, len(wrong), ', '.join('%d: %d' % pair for pair in sorted(outcomes.items()))))
    return wrong[:10]


def main():
    parser = argparse.ArgumentParser()
    parser.add_argument('--program', default=os.path.join(building.ROOT, 'flowawk'))
    parser.add_argument('--random', type=int, default=300)
    parser.add_argument('--seed', type=int, default=1)
    parser.add_argument('--large', action='store_true')
    parser.add_argument('names', nargs='*')
    options = parser.parse_args()
    program = os.path.abspath(options.program)
    subprocess.run([program, '-V'], stdout=subprocess.DEVNULL, check=True)
    jobs = [(c.name, c.wrong) for c in cases()] + [(f.__doc__, f) for f in SPECIAL + (LARGE if options.large else [])]
    jobs = [(name, job) for name, job in jobs if not options.names or any(part in name for part in options.names)]
    failed = []
    with tempfile.TemporaryDirectory() as directory:
        for name, content in FILES.items():
            with open(os.path.join(directory, name), 'wb') as f:
                f.write(content)
        for name, job in jobs:
            wrong = job(program, directory)
            if wrong:
                failed.append('%s: %s' % (name, wrong))
        print('%d cases, %d failed' % (len(jobs), len(failed)))
        if not options.names:
            failed += random_cases(program, directory, options.random, options.seed)
    print(''.join(line + '\n' for line in failed), end='')
    sys.exit(1 if failed else 0)


if __name__ == '__main__':
    main()
