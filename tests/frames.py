#!/usr/bin/env python3
"""Prints the greatest stack use of functions of an archive, and fails if one is over a bound.

    tests/frames.py [--archive FILE] [--entry NAME].. [--most BYTES]

Reads `objdump -dr` of FILE (default: what `tools/archive.sh capi` writes). A function's frame is its return address, what it pushes and what it takes off
the stack pointer. The 128 bytes below the stack pointer, which a function may use unasked while it calls nothing, are added once, at the end.
Calls are followed from NAME (default: each function of include/flowawk.h); functions that call each other in a circle count for each level, one level more than the edition
allows. The circles that may be there are in the table CIRCLES: how often a function can be on the stack in one level is said there. Functions outside the archive (memset and its like) are named, and not
counted. BYTES is 16,384 unless given, and for `flowawk_check`, which has a section's index of 4 KiB beside the ERE reader's table, 20,992, for `flowawk_run`, which has automata and tables of EREs, 65,536, and for `flowawk_translate`, whose reader calls itself for each level, 327,680. Calls through a pointer, and other changes of the stack pointer than those known here, are errors.
"""
import argparse
import os
import re
import subprocess
import sys

ROOT = os.path.dirname(os.path.dirname(os.path.abspath(__file__)))
HEAD = re.compile(r'^[0-9a-f]+ <(.*)>:$')
LINE = re.compile(r'^ *[0-9a-f]+:\t(\S+) *(.*)$')
RELOCATION = re.compile(r'^\s+[0-9a-f]+: R_X86_64_(?:PLT32|PC32)\s+(?:\.text\.)?(.+?)[-+]0x[0-9a-f]+$')
PLACE = re.compile(r'^[0-9a-f]+ <([^+>]*)>$')
RED_ZONE = 128
MOST = 16384
MOST_OF = {'flowawk_check': MOST + 4096 + 512, 'flowawk_translate': 327680, 'flowawk_run': 65536}


# The circles of calls: how the names of their functions begin, the edition's constant that bounds their levels, and how often a function can be on the stack
# in one level, if more than once: `tier` once for each tier, `more` for each tier of operators, `arguments` once for each argument and once for the end.
CIRCLES = [
    ('ere_parser::reader::', 'ERE_GROUPS', {}),
    ('program_expressions::expressions::', 'NESTING', {'tier': 11, 'more': 7, 'arguments': 4}),
    ('program_statements::statements::', 'NESTING', {}),
]


def levels(constant):
    with open(os.path.join(ROOT, 'crates', 'edition', 'src', 'lib.rt'), encoding='utf-8') as f:
        return int(re.search(constant + r': usize = (\d+);', f.read()).group(1)) + 1


def taken(op, words):
    """The bytes that an instruction takes off the stack pointer."""
    if op == 'push':
        return 8
    if not words.endswith('%rsp') or op in ('cmp', 'test') or (op == 'mov' and words != '%rbp,%rsp' and '(' in words):
        return 0
    number = re.match(r'^\$(-?0x[0-9a-f]+),%rsp$', words)
    value = int(number.group(1), 16) if number else 0
    value -= 1 << 64 if value >= 1 << 63 else 0
    if op == 'sub' and number:
        return value
    if op == 'add' and number:
        return max(0, -value)
    if op == 'and' and number:
        return -value - 1
    sys.exit('frames.py: %s %s is not known here' % (op, words))


def functions(archive):
    """For each function its frame and the functions that it calls."""
    text = subprocess.run(['objdump', '-dr', '--no-show-raw-insn', archive], check=True, capture_output=True, text=True).stdout
    frames, calls, name, jump, probed, before = {}, {}, None, False, 0, None
    for line in text.splitlines():
        head, code, relocation = HEAD.match(line), LINE.match(line), RELOCATION.match(line)
        if head:
            name = head.group(1)
            frames[name], calls[name] = 8, set()
        elif code:
            op, words = code.groups()
            if op == 'call' and words.startswith('*'):
                sys.exit('frames.py: %s calls through a pointer' % name)
            frames[name] += probed or taken(op, words)
            # a frame of many pages is taken page by page, down to %r11: `mov %rsp,%r11`, `sub $BYTES,%r11`, and a loop over one `sub`
            pages = re.match(r'^\$(0x[0-9a-f]+),%r11$', words) if op == 'sub' and before == ('mov', '%rsp,%r11') else None
            probed = int(pages.group(1), 16) if pages else 0
            before = (op, words)
            jump = op == 'call' or op.startswith('j')
            place = PLACE.match(words)
            if op == 'call' and place:
                calls[name].add(place.group(1))
        elif relocation and jump:
            calls[name].add(relocation.group(1))
    return frames, calls


def reached(calls, start):
    seen, todo = set(), [start]
    while todo:
        for callee in calls.get(todo.pop(), ()):
            if callee not in seen:
                seen.add(callee)
                todo.append(callee)
    return seen


def counted(circle):
    """The levels of a circle, and how often each of its functions can be on the stack in one."""
    for prefix, constant, often in CIRCLES:
        if all(f.startswith(prefix) for f in circle):
            return levels(constant), {f: often.get(f[len(prefix):], 1) for f in circle}
    sys.exit('frames.py: a circle that is not known here: %s' % ', '.join(sorted(circle)))


def deepest(name, frames, calls):
    """The greatest sum of frames on a way of calls from a function, and the way: circles, each with its bytes."""
    circle = [f for f in reached(calls, name) if name in reached(calls, f)]
    times, often = counted(circle) if circle else (1, {name: 1})
    own = sum(frames[f] * n for f, n in often.items()) * times
    below = [deepest(f, frames, calls) for f in sorted({f for m in often for f in calls[m]} - set(often)) if f in frames]
    rest, way = max(below, default=(0, []))
    label = ' + '.join(sorted(f if n == 1 else '%d %s' % (n, f) for f, n in often.items())) + (' (%d levels)' % times if circle else '')
    return own + rest, [(label, own)] + way


def declared():
    """The functions of the C header."""
    with open(os.path.join(ROOT, 'include', 'flowawk.h'), encoding='utf-8') as f:
        return re.findall(r'^uint64_t (\w+)\(', f.read(), re.M)


def entry(name, frames, calls, most):
    """Prints the deepest way of calls from a function; whether it stays within so many bytes."""
    if name not in frames:
        sys.exit('frames.py: no function %s' % name)
    total, way = deepest(name, frames, calls)
    total += RED_ZONE
    for label, own in way + [('below the stack pointer', RED_ZONE)]:
        print('%6d  %s' % (own, label))
    outside = sorted(f for f in reached(calls, name) if f not in frames)
    print('%6d  in all, at most %d; outside the archive: %s' % (total, most, ', '.join(outside) or 'none'))
    return total <= most


def main():
    parser = argparse.ArgumentParser()
    parser.add_argument('--archive', default=os.path.join(ROOT, 'target', 'staticlib', 'libcapi.a'))
    parser.add_argument('--entry', action='append')
    parser.add_argument('--most', type=int)
    options = parser.parse_args()
    frames, calls = functions(options.archive)
    fits = [entry(name, frames, calls, options.most or MOST_OF.get(name, MOST)) for name in options.entry or declared()]
    sys.exit(0 if fits and all(fits) else 1)


main()
