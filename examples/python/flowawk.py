"""The C functions of include/flowawk.h, by ctypes over the shared library that `make` builds.

    import flowawk
    library = flowawk.Library('target/libflowawk.so')
    image = library.translate(b'$4 == "raw" { print $1, $2 * $3 }')
    answer = library.run(image, lines, budget=1000000)
"""
import collections
import ctypes

IMAGE = 65536
WORK = 49152

Answer = collections.namedtuple('Answer', 'outcome records steps output')
Match = collections.namedtuple('Match', 'start length')


class Refused(Exception):
    """A filter, an ERE or an image is refused; `line` and `column` are those of a filter's token, from 1."""

    def __init__(self, outcome, line=None, column=None):
        at = '' if line is None else ' at line %d, column %d' % (line, column)
        Exception.__init__(self, 'outcome %d%s' % (outcome, at))
        self.outcome, self.line, self.column = outcome, line, column


class Library:
    def __init__(self, path):
        self.c = ctypes.CDLL(path)
        for name in ('match', 'split', 'field', 'read', 'write', 'check', 'translate', 'run'):
            getattr(self.c, 'flowawk_' + name).restype = ctypes.c_uint64

    def translate(self, text):
        """The image of a filter; raises Refused."""
        image = ctypes.create_string_buffer(IMAGE)
        place = ctypes.c_uint64()
        outcome = self.c.flowawk_translate(text, size(text), image, size(image), ctypes.byref(place))
        if outcome:
            before = text[:place.value]
            raise Refused(outcome, before.count(b'\n') + 1, place.value - before.rfind(b'\n'))
        return image.raw[:place.value]

    def check(self, image):
        """The outcome of the check: 0, 8 or 9."""
        return self.c.flowawk_check(image, size(image))

    def run(self, image, lines, budget, room=1 << 20):
        """Runs an image over lines, with so much room for its output."""
        output = ctypes.create_string_buffer(room)
        work = ctypes.create_string_buffer(WORK)
        steps, records, written = ctypes.c_uint64(), ctypes.c_uint64(), ctypes.c_uint64()
        outcome = self.c.flowawk_run(image, size(image), lines, size(lines), output, size(output), work, size(work), ctypes.c_uint64(budget),
                                     ctypes.byref(steps), ctypes.byref(records), ctypes.byref(written))
        return Answer(outcome, records.value, steps.value, output.raw[:written.value])

    def match(self, ere, text):
        """Where an ERE first matches, from 1, and how long; None if it doesn't. Raises Refused."""
        start, length = ctypes.c_uint64(), ctypes.c_int64()
        outcome = self.c.flowawk_match(ere, size(ere), text, size(text), ctypes.byref(start), ctypes.byref(length))
        if outcome:
            raise Refused(outcome)
        return Match(start.value, length.value) if start.value else None

    def split(self, record, fs=b' '):
        """The fields of a record; raises Refused."""
        count, start, length = ctypes.c_uint64(), ctypes.c_uint64(), ctypes.c_uint64()
        outcome = self.c.flowawk_split(record, size(record), fs, size(fs), ctypes.byref(count))
        if outcome:
            raise Refused(outcome)
        fields = []
        for k in range(1, count.value + 1):
            self.c.flowawk_field(record, size(record), fs, size(fs), ctypes.c_uint64(k), ctypes.byref(start), ctypes.byref(length))
            fields.append(record[start.value:start.value + length.value])
        return fields


def size(data):
    return ctypes.c_size_t(len(data))
