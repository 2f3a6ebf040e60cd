"""Cases of the walk: its limits, and which of several faults is told."""
from cases_der import AT, BAD, NULL, OVER, PASSED, walk
from octets import element, nested, octets


def limits():
    """Depth 16, 4,096 elements and 16,384 octets, and one more of each."""
    yield walk('depth 16', nested(16), PASSED % 16)
    yield walk('depth 17', nested(17), OVER % 32)
    yield walk('depth 16, a NULL innermost', nested(15, NULL), PASSED % 16)
    yield walk('depth 17, a NULL innermost', nested(16, NULL), OVER % 32)
    yield walk('depth 17 after a member of depth 16', element(0x30, nested(15), nested(16)), OVER % 62)
    yield walk('depth 16 twice', element(0x30, nested(15), nested(15)), PASSED % 31)
    yield walk('depth 16 of context elements', deep_context(16), PASSED % 16)
    yield walk('depth 17 of context elements', deep_context(17), OVER % 32)
    yield walk('4096 elements', element(0x30, NULL * 4095), PASSED % 4096)
    yield walk('4097 elements', element(0x30, NULL * 4096), OVER % (4 + 2 * 4095))
    pairs = element(0x30, NULL) * 2047
    yield walk('4096 elements, in pairs', element(0x30, pairs, NULL), PASSED % 4096)
    yield walk('4097 elements, the last of them a member', element(0x30, pairs, element(0x30, NULL)),
               OVER % (4 + 4 * 2047 + 2))
    yield walk('16384 octets', element(4, bytes(16380)), PASSED % 1)
    yield walk('16385 octets', element(4, bytes(16381)), OVER % 0)
    yield walk('16384 octets with a fault', bytes(16384), AT % 0)
    yield walk('16385 octets with a fault', bytes(16385), OVER % 0)
    yield walk('16384 octets, the last after the outermost', element(4, bytes(16379)) + b'\0', AT % 16383)


def deep_context(depth):
    item = b''
    for number in range(depth):
        item = element(0xa0 + number, item)
    return item


def at_depth_17():
    """Faults of an element that is too deep."""
    rows = (
        ('identifier before depth', octets('1F 00'), AT),
        ('primitive SEQUENCE before depth', octets('10 00'), AT),
        ('universal 0 before depth', octets('00 00'), AT),
        ('length before depth', octets('05 80'), AT),
        ('missing length before depth', octets('05'), AT),
        ('end before depth', octets('05 01'), AT),
        ('depth before contents', BAD, OVER),
        ('depth before the next member', NULL + octets('1F 00'), OVER),
    )
    for label, innermost, stated in rows:
        yield walk(label, nested(16, innermost), stated % 32)


def at_element_4097():
    """Faults of an element that is one too many."""
    rows = (
        ('identifier before count', octets('1F 00'), AT),
        ('constructed NULL before count', octets('25 00'), AT),
        ('length before count', octets('05 81 00'), AT),
        ('missing length before count', octets('05'), AT),
        ('end before count', octets('05 01'), AT),
        ('count before contents', BAD, OVER),
        ('count before the members', element(0x30, octets('1F 00')), OVER),
    )
    last = 4 + 2 * 4095
    for label, after, stated in rows:
        yield walk(label, element(0x30, NULL * 4095, after), stated % last)
    yield walk('contents at element 4096', element(0x30, NULL * 4094, BAD), AT % (last - 2))
    yield walk('depth and count at one element', element(0x30, NULL * 4080, nested(15, NULL)),
               OVER % (4 + 2 * 4080 + 30))


def of_two_elements():
    """An element before its members, and left to right."""
    yield walk('parent before child: end', octets('30 06 01 01 05'), AT % 0)
    yield walk('parent before child: identifier', octets('10 03 01 01 05'), AT % 0)
    yield walk('parent before child: length', octets('30 81 03 01 01 05'), AT % 0)
    yield walk('a later sibling at fault', element(0x30, NULL, BAD), AT % 4)
    yield walk('the last of three at fault', element(0x30, NULL, element(0x30, NULL), BAD), AT % 8)
    yield walk('the first of two faults', element(0x30, BAD, BAD), AT % 2)
    yield walk('a fault deeper and further left', element(0x30, element(0x30, BAD), BAD), AT % 4)
    yield walk('a child at fault before a sibling past the parent', octets('30 07 30 03 01 01 05 05 01'), AT % 4)
    yield walk('a passing child before a sibling past the parent', octets('30 07 30 03 01 01 FF 05 01'), AT % 7)
    yield walk('depth 17 before a later fault', element(0x30, nested(16), BAD), OVER % 32)
    yield walk('a fault before a later depth 17', element(0x30, BAD, nested(16)), AT % 2)


def cases():
    for part in (limits, at_depth_17, at_element_4097, of_two_elements):
        yield from part()
