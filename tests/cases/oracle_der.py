"""Bytes as DER, written from the rules paper alone: the walk, INTEGER, one step through members.

The walk goes forward over the octets with the open elements on a stack. It keeps each rule in the form that
is plainest here: a minimal INTEGER is one that its number would be written as, an OBJECT IDENTIFIER is a pattern.
"""
import re

from refused import Refused

LONGEST_ITEM = 16384
DEEPEST = 16
MOST_ELEMENTS = 4096

BOOLEAN, INTEGER, BIT_STRING, NULL, OID, SEQUENCE, SET = 1, 2, 3, 5, 6, 16, 17

SUB_IDENTIFIER = rb'(?:[\x00-\x7f]|[\x81-\xff][\x80-\xff]*[\x00-\x7f])'
OID_FORM = re.compile(SUB_IDENTIFIER + b'+')


def good_identifier(octet):
    number, constructed, universal = octet & 0x1f, bool(octet & 0x20), octet < 0x40
    if number == 31:
        return False
    if not universal:
        return True
    return number != 0 and constructed == (number in (SEQUENCE, SET))


def heading(item, at, end):
    """Identifier octet, offset of the contents and offset after the element at `at`, or None if a rule is broken."""
    octets = item[at:end]
    if len(octets) < 2 or not good_identifier(octets[0]):
        return None
    if octets[1] < 0x80:
        wide, size = 0, octets[1]
    else:
        wide = octets[1] - 0x80
        least = {1: 128, 2: 256}.get(wide)
        if least is None or len(octets) < 2 + wide:
            return None
        size = int.from_bytes(octets[2:2 + wide], 'big')
        if size < least:
            return None
    start = at + 2 + wide
    return (octets[0], start, start + size) if start + size <= end else None


def shortest(number):
    """The least number of octets that hold a signed number."""
    octets = 1
    while not -(1 << (8 * octets - 1)) <= number < 1 << (8 * octets - 1):
        octets += 1
    return octets


def good_contents(identifier, contents):
    if identifier == BOOLEAN:
        return contents in (b'\x00', b'\xff')
    if identifier == INTEGER:
        return contents != b'' and len(contents) == shortest(int.from_bytes(contents, 'big', signed=True))
    if identifier == BIT_STRING:
        if contents == b'' or contents[0] > 7:
            return False
        unused, bits = contents[0], int.from_bytes(contents[1:], 'big')
        return unused == 0 if len(contents) == 1 else bits % 2 ** unused == 0
    if identifier == NULL:
        return contents == b''
    if identifier == OID:
        return OID_FORM.fullmatch(contents) is not None
    return True


def smaller(one, other):
    """Whether an encoding is below another, the shorter padded with zero octets."""
    long = max(len(one), len(other))
    return one.ljust(long, b'\0') < other.ljust(long, b'\0')


class Open:
    """An element whose members are read: its end, and of a SET the members so far."""
    def __init__(self, end, of_set):
        self.end, self.of_set, self.members = end, of_set, []

    def ascends_to(self, member):
        self.members.append(member)
        return not self.of_set or len(self.members) < 2 or not smaller(member, self.members[-2])


def walk(item):
    """The number of elements, or the first fault that the walk meets."""
    if len(item) > LONGEST_ITEM:
        raise Refused(3)
    at, count, holders = 0, 0, []
    while count == 0 or holders:
        if holders and at == holders[-1].end:
            holders.pop()
            continue
        found = heading(item, at, holders[-1].end if holders else len(item))
        if found is None:
            raise Refused(2, at)
        if len(holders) + 1 > DEEPEST or count + 1 > MOST_ELEMENTS:
            raise Refused(3, at)
        identifier, start, end = found
        if holders and not holders[-1].ascends_to(item[at:end]):
            raise Refused(2, at)
        count += 1
        if identifier & 0x20:
            holders.append(Open(end, identifier & 0x1f == SET and identifier < 0x40))
            at = start
        elif good_contents(identifier, item[start:end]):
            at = end
        else:
            raise Refused(2, at)
    if at != len(item):
        raise Refused(2, at)
    return count


def integer(item):
    """The signed number of an item that is one INTEGER."""
    walk(item)
    identifier, start, end = heading(item, 0, len(item))
    if identifier != INTEGER:
        raise Refused(1)
    if end - start > 8:
        raise Refused(8)
    return int.from_bytes(item[start:end], 'big', signed=True)


def member(item, at, end):
    """The heading of the element at `at` in a list that ends at `end`, or None."""
    if not at <= end <= len(item):
        return None
    return heading(item, at, end)
