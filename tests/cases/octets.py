"""Octets for cases: written in hexadecimal, or put together as elements."""


def octets(text):
    return bytes.fromhex(text)


def spelled(item):
    return item.hex(' ').upper()


def length(size):
    """The length octets of a size."""
    if size < 128:
        return bytes([size])
    wide = (size.bit_length() + 7) // 8
    return bytes([0x80 + wide]) + size.to_bytes(wide, 'big')


def element(identifier, *members):
    contents = b''.join(members)
    return bytes([identifier]) + length(len(contents)) + contents


def nested(depth, innermost=b''):
    """A SEQUENCE in a SEQUENCE, `depth` of them, around some octets."""
    item = innermost
    for _ in range(depth):
        item = element(0x30, item)
    return item
