#!/usr/bin/env python3
"""Compares flowawk_check, flowawk_read and flowawk_write with a reference, on random and damaged images. tests/archive.py says how it is called.

A case is an image, the words of a room for its content, a content, and the bytes of a room for its image. The whole rooms are compared, by a sum of their bytes.
"""
import struct
import zlib

import archive
import image_cases


def room_for(r, n):
    """How many elements a room for n has: just enough, one too few, more, or any."""
    return max(0, r.choice([n, n, n - 1, n + 1, n + r.randrange(50), r.randrange(n + 10)]))


def after(room, size, elements):
    """The sum of a room's bytes: what was written, and behind it what was there before."""
    return zlib.crc32(elements + b'\xa5' * (room * size - len(elements)))


def some_image(r, gen, reference):
    k = r.randrange(20)
    if k < 2:
        return r.choice(MADE)
    if k == 2:
        return gen.damaged_image(r, r.choice(MADE))
    return gen.image(r, reference.translate)


def some_content(r, gen, reference, image):
    """The image's content, as it is or damaged; of an image that isn't read, that of a made one."""
    outcome, content = reference.read_image(image)
    if outcome:
        content = r.choice(CONTENTS)
    return content if r.random() < .5 else image_cases.damaged_words(r, content)


MADE = CONTENTS = None


def draw(r, gen, reference):
    global MADE, CONTENTS
    if MADE is None:
        MADE = [*image_cases.formed_images(), *image_cases.checked_images()]
        CONTENTS = list(image_cases.formed_contents(reference))
    image = some_image(r, gen, reference)
    content = some_content(r, gen, reference, image)
    words, size = (room_for(r, len(made)) for made in (reference.read_image(image)[1], reference.write_image(content)[1]))
    reading, found = reference.read_image(image, words)
    writing, written = reference.write_image(content, size)
    return (image, words, content, size), (reference.check(image), reading, len(found), after(words, 8, struct.pack('<%dQ' % len(found), *found)),
                                           writing, len(written), after(size, 1, written))


def packed(case):
    image, words, content, size = case
    return struct.pack('<IIII', len(image), words, len(content), size) + image + struct.pack('<%dQ' % len(content), *content)


def kinds_of(case, expected):
    yield 'check %d' % expected[0]
    yield 'read %d' % expected[1]
    yield 'write %d' % expected[4]
    if len(case[0]) > 2000:
        yield 'over 2,000 bytes'


archive.compare('images', draw, packed, kinds_of, lambda case: 'image %s, %d words; content %r, %d bytes' % (case[0].hex(), case[1], case[2], case[3]))
