"""A question with its answer, and the record by which the program is asked it.

A record has one octet for the kind, one for the label's length, two zeros, four for the length of the bytes, three
numbers of eight octets, then the label and the bytes. Numbers are big-endian.
"""
import struct

WALK, INTEGER, REAL_DAY, REAL_MOMENT, DIFFERENCE, MEMBER = range(1, 7)
CERTIFICATE, CRL, LISTED, AGE = range(7, 11)
IMAGE, IMAGE_FOR, ENTRY, ITEM, WRITE, WRITE_FILLED, CHAIN, REPLAY, PROPOSAL, SIGNERS = range(11, 21)
MOVE_TO_2, MOVE_TO_1, LETTERS, ANCHORS, MAKE_ROOM = range(21, 26)
NO_KIND = 255

# the octets that the program has room for, label and bytes together
ROOM = 300000


class Case:
    def __init__(self, label, kind, answer, item=b'', numbers=(), stated=None):
        """`stated` is the answer as the paper gives it, where it was worked out by hand."""
        if stated is not None and stated != answer:
            raise AssertionError('%s: the oracle says "%s", the paper "%s"' % (label, answer, stated))
        self.label = label
        self.kind = kind
        self.answer = answer
        self.item = item
        self.numbers = numbers
        # every rule of a profile that the item breaks, and the same item without its faults
        self.broken = ()
        self.mended = None
        # the rules that the item broke before it was mended
        self.mends = ()
        # the version of an image whose rules are read
        self.form = None

    def record(self):
        label = self.label.encode('ascii')
        assert len(label) <= 255 and len(label) + len(self.item) <= ROOM, self.label
        return head(self.kind, len(label), len(self.item), self.numbers) + label + self.item

    def line(self):
        return self.label + ': ' + self.answer + '\n'


def head(kind, label, size, numbers=()):
    first, second, third = (tuple(numbers) + (0, 0, 0))[:3]
    return struct.pack('>BBHIQQQ', kind, label, 0, size, first, second, third)
