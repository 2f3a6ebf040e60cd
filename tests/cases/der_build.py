"""Elements by their types: the parts that certificates and CRLs are built of."""
from octets import element

COUNTRY, ORGANIZATION, COMMON_NAME = '2.5.4.6', '2.5.4.10', '2.5.4.3'


def sequence(*members):
    return element(0x30, *members)


def set_of(*members):
    return element(0x31, *members)


def as_set(members):
    """A SET of those members, in ascending order."""
    return set_of(*sorted(members))


def context(number, *members):
    """A constructed element of the context class."""
    return element(0xa0 + number, *members)


def oid(text):
    first, second, *rest = [int(word) for word in text.split('.')]
    return element(6, b''.join(sub_identifier(number) for number in [40 * first + second] + rest))


def sub_identifier(number):
    octets = [number & 0x7f]
    while number > 0x7f:
        number >>= 7
        octets.insert(0, 0x80 | number & 0x7f)
    return bytes(octets)


def integer(number):
    wide = 1
    while not -(1 << (8 * wide - 1)) <= number < 1 << (8 * wide - 1):
        wide += 1
    return element(2, number.to_bytes(wide, 'big', signed=True))


def boolean(true):
    return element(1, b'\xff' if true else b'\x00')


def octet_string(contents):
    return element(4, contents)


def bit_string(octets):
    return element(3, b'\0', octets)


def printable(text):
    return element(0x13, text.encode('ascii'))


def utf8(text):
    return element(0x0c, text.encode('utf-8'))


def utc(text):
    return element(0x17, text.encode('ascii'))


def generalized(text):
    return element(0x18, text.encode('ascii'))


def attribute(number, value):
    return sequence(oid(number), value)


def country(letters):
    return attribute(COUNTRY, printable(letters))


def common(text):
    return attribute(COMMON_NAME, utf8(text))


def name(*attributes):
    """A name with a SET for each attribute."""
    return sequence(*[set_of(one) for one in attributes])


def extension(number, contents, critical=False):
    return sequence(oid(number), boolean(True) if critical else b'', octet_string(contents))
