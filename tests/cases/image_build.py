"""Trust images of both versions put together from items, each field replaceable."""
import collections
import struct

NONE = b'\0\0'
# the letters and what stands behind them are of version 2 alone
Item = collections.namedtuple('Item', 'kind flags octets letters', defaults=[NONE])
Row = collections.namedtuple('Row', 'kind flags length offset letters zeros', defaults=[NONE, NONE])

ANCHOR, LINK, SIGNER, CRL = range(1, 5)
DAY = 20240301


def some_octets(size, seed=0):
    """Octets that differ from place to place and from seed to seed; an image's items need not be DER."""
    return bytes((seed * 29 + place * 7 + place // 256 + 1) % 256 for place in range(size))


def items(number, kind=ANCHOR, flags=0):
    """Items of one kind, of lengths 1, 4, 7 and so on up to 19, then 1 again; their letters are any octets."""
    return [Item(kind, flags, some_octets(1 + place % 7 * 3, place), bytes([place, 255 - place])) for place in range(number)]


def rows(listed):
    """The index entries of some items."""
    found, offset = [], 0
    for item in listed:
        found.append(Row(item.kind, item.flags, len(item.octets), offset, item.letters))
        offset += len(item.octets)
    return found


def changed(listed, place, **fields):
    """The index entries with some fields of one of them replaced."""
    found = rows(listed)
    found[place] = found[place]._replace(**fields)
    return found


def row_octets(row, form):
    old = struct.pack('>BBHI', *row[:4])
    return old + row.letters + row.zeros if form == 2 else old


def image(listed=(), index=None, body=None, start=None, entries=None, version=1, day=DAY, form=None):
    """An image of those items. Its index has the form of its version, or that of `form`."""
    body = b''.join(item.octets for item in listed) if body is None else body
    index = rows(listed) if index is None else index
    start = len(body) if start is None else start
    entries = len(index) if entries is None else entries
    form = version if form is None else form
    return (body + b''.join(row_octets(row, form) for row in index)
            + struct.pack('>IHHI', start, entries, version, day))


def sized(size, version=1):
    """Items of an image of that many octets: as few as there can be, each of 16,384 octets but the last."""
    width = 12 if version == 2 else 8
    number = next(n for n in range(1, 97) if size - 12 - width * n <= 16384 * n)
    left = size - 12 - width * number - 16384 * (number - 1)
    longs = [Item(1 + place % 4, 0, some_octets(16384, place)) for place in range(number - 1)]
    return longs + [Item(CRL, 0, some_octets(left, number))]
