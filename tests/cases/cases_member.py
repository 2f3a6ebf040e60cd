"""Cases of one step through the members of an element."""
import oracle_der
from octets import element, octets
from record import MEMBER, Case

PAIR = octets('30 06 02 01 05 01 01 FF')
MOST = 2 ** 64 - 1
NOTHING = 'nothing'
FOUND = 'tag %d, contents %d, end %d'


def member(label, item, at, end, stated=None):
    found = oracle_der.member(item, at, end)
    answer = NOTHING if found is None else FOUND % found
    return Case('member: ' + label, MEMBER, answer, item, (at, end), stated)


def found():
    yield member('the whole item', PAIR, 0, 8, FOUND % (48, 2, 8))
    yield member('the first member', PAIR, 2, 8, FOUND % (2, 4, 5))
    yield member('the first member, which ends the list', PAIR, 2, 5, FOUND % (2, 4, 5))
    yield member('the second member', PAIR, 5, 8, FOUND % (1, 7, 8))
    yield member('an offset inside contents', PAIR, 4, 8, FOUND % (5, 6, 7))
    yield member('contents are not judged', octets('01 01 05'), 0, 3, FOUND % (1, 2, 3))
    yield member('members are not judged', octets('30 02 1F 00'), 0, 4, FOUND % (48, 2, 4))
    yield member('no contents', octets('05 00'), 0, 2, FOUND % (5, 2, 2))
    yield member('length 81 80', element(4, bytes(128)), 0, 131, FOUND % (4, 3, 131))
    yield member('length 82 01 00', octets('05 00') + element(4, bytes(256)), 2, 262, FOUND % (4, 6, 262))
    yield member('an item of 16385 octets', element(4, bytes(16381)), 0, 16385, FOUND % (4, 4, 16385))
    yield member('the largest tag', octets('FE 00'), 0, 2, FOUND % (254, 2, 2))


def nothing():
    rows = (
        ('from at the end', PAIR, 8, 8),
        ('from at an end inside', PAIR, 5, 5),
        ('from one after the end', PAIR, 6, 5),
        ('from one after the item', PAIR, 9, 8),
        ('from and end beyond the item', PAIR, 9, 9),
        ('end one beyond the item', PAIR, 2, 9),
        ('end far beyond the item', PAIR, 2, 1000000),
        ('from far beyond', PAIR, 1000000, 8),
        ('both far beyond', PAIR, 1000000, 1000004),
        ('an element past the end, inside the item', PAIR, 2, 4),
        ('a header past the end', PAIR, 2, 3),
        ('a SEQUENCE past the end, inside the item', PAIR, 0, 7),
        ('one octet', PAIR, 7, 8),
        ('nothing of no octets', b'', 0, 0),
        ('one of no octets', b'', 0, 1),
        ('end 0', PAIR, 0, 0),
        ('end at the largest number', PAIR, 0, MOST),
        ('from at the largest number', PAIR, MOST, 8),
        ('both at the largest number', PAIR, MOST, MOST),
        ('from one below the largest number', PAIR, MOST - 1, MOST),
        ('from at the largest number, end 0', PAIR, MOST, 0),
        ('both at the middle of 64 bits', PAIR, 2 ** 63, 2 ** 63),
        ('end at the middle of 64 bits', PAIR, 2, 2 ** 63),
        ('both beyond 32 bits', PAIR, 2 ** 32, 2 ** 32 + 8),
        ('tag number 31', octets('1F 00'), 0, 2),
        ('a primitive SEQUENCE', octets('10 00'), 0, 2),
        ('universal 0', octets('00 00'), 0, 2),
        ('length 80', octets('30 80'), 0, 2),
        ('length 81 7F', octets('04 81 7F') + bytes(127), 0, 130),
        ('length 82 00 FF', octets('04 82 00 FF') + bytes(255), 0, 259),
        ('length 83', octets('04 83 00 01 00') + bytes(256), 0, 261),
    )
    for label, item, at, end in rows:
        yield member(label, item, at, end, NOTHING)


def cases():
    yield from found()
    yield from nothing()
