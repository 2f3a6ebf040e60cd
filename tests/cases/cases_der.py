"""Cases of the walk: identifiers, lengths and ends, each from both sides."""
import oracle_der
from octets import element, nested, octets, spelled
from record import WALK, Case
from refused import Refused

NULL = octets('05 00')
BAD = octets('01 01 05')  # a BOOLEAN that is neither 00 nor FF
PASSED = 'passed, %d elements'
AT = 'refused 2 at %d'
OVER = 'refused 3 at %d'


def walk(label, item, stated=None):
    try:
        answer = PASSED % oracle_der.walk(item)
    except Refused as refusal:
        answer = refusal.words()
    return Case('walk: ' + label, WALK, answer, item, stated=stated)


def spelled_out(text, stated):
    case = walk('', octets(text), stated)
    case.label = 'walk ' + (spelled(case.item) or 'of no octets')
    return case


def worked():
    """The worked cases of the paper."""
    yield spelled_out('30 03 02 01 05', PASSED % 2)
    yield spelled_out('30 00', PASSED % 1)
    yield spelled_out('', AT % 0)
    yield spelled_out('30 80', AT % 0)
    yield spelled_out('30 81 03 02 01 05', AT % 0)
    yield spelled_out('30 03 02 02 05', AT % 2)
    yield spelled_out('05 00 00', AT % 2)
    yield spelled_out('02 02 00 7F', AT % 0)
    yield spelled_out('02 02 00 80', PASSED % 1)
    yield spelled_out('02 01 80', PASSED % 1)
    yield spelled_out('03 02 07 81', AT % 0)


def identifiers():
    """Every universal identifier, and of the other classes the numbers that mean something in the universal one. The
    octet in a primitive element is no element; the member of a constructed one counts."""
    filling = {1: 'FF', 2: '00', 3: '00', 5: '', 6: '00'}
    for number in range(32):
        contents = octets(filling.get(number, '05'))
        good = number not in (0, 16, 17, 31)
        yield walk('universal %d, primitive' % number, element(number, contents), PASSED % 1 if good else AT % 0)
        good = number in (16, 17)
        yield walk('universal %d, constructed' % number, element(0x20 + number, NULL), PASSED % 2 if good else AT % 0)
    for name, start in (('application', 0x40), ('context', 0x80), ('private', 0xc0)):
        for number in (0, 1, 16, 17, 30):
            yield walk('%s %d, primitive' % (name, number), element(start + number, b'\5'), PASSED % 1)
            yield walk('%s %d, constructed' % (name, number), element(start + 0x20 + number, NULL), PASSED % 2)
        yield walk('%s 31, primitive' % name, element(start + 31, b'\5'), AT % 0)
        yield walk('%s 31, constructed' % name, element(start + 0x20 + 31, NULL), AT % 0)
    yield walk('a tag in two octets', octets('1F 1F 01 00'), AT % 0)
    yield walk('a context tag in two octets, inside', octets('30 04 BF 21 01 00'), AT % 2)
    yield walk('constructed BIT STRING of parts', octets('23 04 03 02 00 FF'), AT % 0)
    yield walk('constructed OCTET STRING of parts', octets('24 03 04 01 00'), AT % 0)
    yield walk('constructed UTF8String of parts', octets('2C 03 0C 01 41'), AT % 0)


def lengths():
    """Each form of the length at its ends, on an OCTET STRING."""
    def string(label, header, size, stated):
        return walk('length %s' % label, octets('04' + header) + bytes(size), stated)

    yield string('00', '00', 0, PASSED % 1)
    yield string('01', '01', 1, PASSED % 1)
    yield string('7F', '7F', 127, PASSED % 1)
    yield string('7F, one octet too few', '7F', 126, AT % 0)
    yield string('80, nothing after', '80', 0, AT % 0)
    yield string('80, closed by two zeros', '80', 2, AT % 0)
    yield string('80, 128 octets after', '80', 128, AT % 0)
    yield string('81 00', '81 00', 0, AT % 0)
    yield string('81 01', '81 01', 1, AT % 0)
    yield string('81 7F', '81 7F', 127, AT % 0)
    yield string('81 80', '81 80', 128, PASSED % 1)
    yield string('81 80, one octet too few', '81 80', 127, AT % 0)
    yield string('81 FF', '81 FF', 255, PASSED % 1)
    yield string('81 FF, one octet too few', '81 FF', 254, AT % 0)
    yield string('82 00 00', '82 00 00', 0, AT % 0)
    yield string('82 00 80', '82 00 80', 128, AT % 0)
    yield string('82 00 FF', '82 00 FF', 255, AT % 0)
    yield string('82 01 00', '82 01 00', 256, PASSED % 1)
    yield string('82 01 00, one octet too few', '82 01 00', 255, AT % 0)
    yield string('82 FF FF, nothing after', '82 FF FF', 0, AT % 0)
    yield string('82 FF FF, too few octets', '82 FF FF', 1000, AT % 0)
    yield string('83 00 01 00', '83 00 01 00', 256, AT % 0)
    yield string('83 01 00 00, too few octets', '83 01 00 00', 0, AT % 0)
    yield string('84 00 00 00 01', '84 00 00 00 01', 1, AT % 0)
    yield string('88 and eight octets', '88 00 00 00 00 00 00 00 01', 1, AT % 0)
    yield string('FE', 'FE', 126, AT % 0)
    yield string('FF', 'FF', 127, AT % 0)


def missing():
    """Octets of the header that are not there, or not within the parent."""
    yield walk('an identifier alone', octets('04'), AT % 0)
    yield walk('a bad identifier alone', octets('00'), AT % 0)
    yield walk('81 without its octet', octets('04 81'), AT % 0)
    yield walk('82 without its octets', octets('04 82'), AT % 0)
    yield walk('82 with one octet', octets('04 82 01'), AT % 0)
    yield walk('one octet left over in a SEQUENCE', octets('30 03 05 00 05'), AT % 4)
    yield walk('one octet left over in a SET', octets('31 04 02 01 05 00'), AT % 5)
    yield walk('one octet alone in a SEQUENCE', octets('30 01 05'), AT % 2)
    yield walk('one octet alone in a context element', octets('A0 01 05'), AT % 2)
    yield walk('two zeros left over in a SEQUENCE', octets('30 04 05 00 00 00'), AT % 4)
    yield walk('a length octet after the parent, inside the item', octets('30 05 30 01 05 05 00'), AT % 4)
    after = element(0x80, bytes(128))
    yield walk('the octet of 81 after the parent', element(0x30, octets('30 02 04 81'), after), AT % 5)
    yield walk('the octets of 82 after the parent', element(0x30, octets('30 02 04 82'), after), AT % 5)
    yield walk('the second octet of 82 after the parent', element(0x30, octets('30 03 04 82 01'), after), AT % 5)


def ends():
    """Ends beyond the parent or the item, and octets after the outermost element."""
    yield walk('the end one octet beyond the item', octets('02 02 05'), AT % 0)
    yield walk('a child past its parent inside the item', octets('30 07 30 02 02 01 05 05 00'), AT % 4)
    yield walk('a child past its parent by all that follows', octets('30 06 30 02 02 03 05 06'), AT % 4)
    yield walk('a child that fills its parent', octets('30 07 30 03 02 01 05 05 00'), PASSED % 4)
    yield walk('a SEQUENCE past its parent and the item', octets('30 03 30 02 05'), AT % 2)
    yield walk('a SEQUENCE past its parent to the end of the item', octets('30 03 30 02 05 00'), AT % 2)
    yield walk('an element after the outermost', octets('05 00 05 00'), AT % 2)
    yield walk('an octet FF after the outermost', octets('30 00 FF'), AT % 2)
    yield walk('an octet after the outermost and its members', octets('30 03 02 01 05 00'), AT % 5)
    yield walk('an octet after the outermost, and a fault inside', element(0x30, BAD) + b'\0', AT % 2)
    yield walk('an octet after the outermost, depth 17 inside', nested(17) + b'\0', OVER % 32)
    yield walk('an octet after the outermost, bad contents', BAD + b'\0', AT % 0)


def cases():
    for part in (worked, identifiers, lengths, missing, ends):
        yield from part()
