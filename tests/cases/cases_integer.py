"""Cases of the INTEGER as a signed number of 64 bits."""
import oracle_der
from octets import element, nested, octets, spelled
from record import INTEGER, Case
from refused import Refused


def integer(label, item, stated=None):
    try:
        answer = str(oracle_der.integer(item))
    except Refused as refusal:
        answer = refusal.words()
    return Case('integer: ' + label, INTEGER, answer, item, stated=stated)


def spelled_out(text, stated):
    item = octets(text)
    case = integer('', item, stated)
    case.label = 'integer ' + (spelled(item) or 'of no octets')
    return case


def written(number):
    """The INTEGER of a number."""
    return element(2, number.to_bytes(oracle_der.shortest(number), 'big', signed=True))


def numbers():
    """Numbers as two's complement, at the ends of each size to eight octets and one beyond."""
    yield spelled_out('02 02 00 80', '128')
    yield spelled_out('02 01 80', '-128')
    yield spelled_out('02 01 00', '0')
    yield spelled_out('02 01 01', '1')
    yield spelled_out('02 01 FF', '-1')
    yield spelled_out('02 01 FE', '-2')
    yield spelled_out('02 02 00 FF', '255')
    yield spelled_out('02 02 FF 00', '-256')
    yield spelled_out('02 02 01 00', '256')
    for size in range(1, 9):
        half = 1 << (8 * size - 1)
        yield integer('largest of size %d' % size, written(half - 1), str(half - 1))
        yield integer('smallest of size %d' % size, written(-half), str(-half))
        if size < 8:
            yield integer('one above size %d' % size, written(half), str(half))
            yield integer('one below size %d' % size, written(-half - 1), str(-half - 1))
    yield integer('octets in order', octets('02 08 01 23 45 67 89 AB CD EF'), str(0x0123456789abcdef))
    yield integer('octets in order, negative', octets('02 08 FE DC BA 98 76 54 32 10'), str(-0x0123456789abcdf0))


def wide():
    yield integer('one above size 8', written(1 << 63), 'refused 8')
    yield integer('one below size 8', written(-(1 << 63) - 1), 'refused 8')
    yield integer('largest of 64 bits without a sign', written((1 << 64) - 1), 'refused 8')
    yield integer('20 octets', element(2, b'\x7f' * 20), 'refused 8')
    yield integer('128 octets', element(2, b'\x80' + bytes(127)), 'refused 8')
    yield integer('9 octets that are not minimal', octets('02 09 00 7F FF FF FF FF FF FF FF'), 'refused 2 at 0')
    yield integer('9 octets and one after', octets('02 09 01 00 00 00 00 00 00 00 00 05'), 'refused 2 at 11')


def others():
    """Another outermost element is 1, told after the walk's own faults."""
    for text in ('05 00', '30 00', '30 03 02 01 05', '01 01 FF', '0A 01 05', '42 01 05', '82 01 05', 'A2 03 02 01 05',
                 '04 09 01 02 03 04 05 06 07 08 09'):
        yield spelled_out(text, 'refused 1')
    for text, at in (('', 0), ('02', 0), ('02 00', 0), ('02 02 00 7F', 0), ('02 02 FF 80', 0), ('02 81 01 05', 0),
                     ('02 01 05 00', 3), ('02 02 05', 0), ('22 03 02 01 05', 0), ('05 01 00', 0), ('05 00 00', 2),
                     ('30 03 01 01 05', 2), ('30 03 02 01 05 00', 5), ('1F 01 05', 0)):
        yield spelled_out(text, 'refused 2 at %d' % at)
    yield integer('a SEQUENCE of depth 17', nested(17), 'refused 3 at 32')
    yield integer('a SEQUENCE of depth 16', nested(16), 'refused 1')
    yield integer('16384 octets', element(2, b'\x01' + bytes(16379)), 'refused 8')
    yield integer('16385 octets', element(2, b'\x01' + bytes(16380)), 'refused 3 at 0')


def cases():
    for part in (numbers, wide, others):
        yield from part()
