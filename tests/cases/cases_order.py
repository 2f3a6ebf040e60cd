"""Cases of the order of a SET's members: the walk, and what stands on it."""
import cases_certificate
import cases_crl
from cases_der import AT, BAD, NULL, OVER, PASSED, walk
from certificate_build import ANCHOR, SIGNER, certificate, issuer_name
from crl_build import crl
from der_build import attribute, common, country, integer, octet_string, printable, sequence, set_of, utf8
from octets import element, nested, octets

LOW, HIGH = printable('D'), printable('P')
BEHIND = 2 + len(LOW)  # where the second of two short members stands, in a SET with a header of two octets


def pairs():
    """Two members, in both orders."""
    long = octet_string(bytes(200))
    rows = (
        ('the last octet decides', LOW, HIGH),
        ('the length decides, not the octets after it', printable('P'), printable('AC')),
        ('the identifier decides, not the length', octet_string(bytes(9)), NULL),
        ('the identifier decides, not the contents', integer(127), octet_string(b'')),
        ('empty before one octet', octet_string(b''), octet_string(b'\0')),
        ('a header of two octets before one of three', octet_string(bytes([255]) * 127), octet_string(bytes(128))),
        ('universal before context', element(0x31), element(0x80)),
        ('octet 80 above octet 7F', octet_string(b'\x7f'), octet_string(b'\x80')),
        ('a SEQUENCE before a SET', sequence(NULL, NULL), set_of()),
        ('the contents of one are the front of the other, which is longer', octet_string(NULL), octet_string(NULL + NULL)),
        ('one octet differs after 200', octet_string(bytes(200)), octet_string(bytes(199) + b'\1')),
        ('octet 16 of 20 differs', octet_string(bytes(20)), octet_string(bytes(13) + b'\1' + bytes(6))),
        ('octet 17 of 20 differs', octet_string(bytes(20)), octet_string(bytes(14) + b'\1' + bytes(5))),
        ('octet 32 of 40 differs', octet_string(bytes(40)), octet_string(bytes(29) + b'\1' + bytes(10))),
        ('an early octet outweighs the later ones', octet_string(b'\1' + b'\xff' * 40), octet_string(b'\2' + bytes(40))),
        ('nodes by their members', sequence(LOW, HIGH), sequence(HIGH, LOW)),
    )
    for label, low, high in rows:
        whole = set_of(high, low)
        yield walk('SET ascending: ' + label, set_of(low, high), PASSED % count(low, high))
        yield walk('SET descending: ' + label, whole, AT % (len(whole) - len(low)))
        yield walk('SEQUENCE descending: ' + label, sequence(high, low), PASSED % count(low, high))
    for label, member in (('short', LOW), ('long', long), ('empty', NULL), ('a node', sequence(LOW))):
        yield walk('SET with a member twice: ' + label, set_of(member, member), PASSED % count(member, member))
        yield walk('SET with a member three times: ' + label, set_of(member, member, member), PASSED % count(*[member] * 3))


def count(*members):
    """The elements of a SET or SEQUENCE of members that are at most two deep."""
    return 1 + sum(1 + (len(member) - 2) // 3 if member[0] == 0x30 and member[2:3] == b'\x13'
                   else 1 + (len(member) - 2) // 2 if member[0] == 0x30 else 1 for member in members)


def runs():
    """Each member is held against the one just before it."""
    a, b, c = printable('A'), printable('B'), printable('C')
    yield walk('SET of three', set_of(a, b, c), PASSED % 4)
    yield walk('SET of three, the second too low', set_of(b, a, c), AT % 5)
    yield walk('SET of three, the third too low but above the first', set_of(a, c, b), AT % 8)
    yield walk('SET of three, the third as the first', set_of(b, c, b), AT % 8)
    yield walk('SET of three, the third below all', set_of(b, c, a), AT % 8)
    yield walk('SET of four, two steps down', set_of(b, a, c, b), AT % 5)
    yield walk('SET of three, equal and then down', set_of(b, b, a), AT % 8)
    yield walk('SET of three, down and then equal', set_of(b, a, a), AT % 5)
    yield walk('SET of one', set_of(b), PASSED % 2)
    yield walk('SET of none', set_of(), PASSED % 1)
    yield walk('SET of 100 ascending', set_of(*[octet_string(bytes([n])) for n in range(100)]), PASSED % 101)
    yield walk('SET of 100, the last too low', set_of(*[octet_string(bytes([n])) for n in range(1, 100)], octet_string(b'\0')),
               AT % (4 + 3 * 99))
    long = [octet_string(bytes([n]) * 300) for n in (1, 2, 0)]
    yield walk('SET of long members, the last too low', set_of(*long), AT % (4 + 2 * 304))


def insides():
    """SETs in SETs and in others, and elements that are no SET."""
    down, up = set_of(HIGH, LOW), set_of(LOW, HIGH)
    yield walk('SET in a SET, ascending', set_of(up, up), PASSED % 7)
    yield walk('SET in a SET, the inner descending', set_of(down), AT % (2 + BEHIND))
    yield walk('SET in a SET, the second inner descending', set_of(up, down), AT % (2 + len(up) + BEHIND))
    yield walk('SET in a SET, both descending', set_of(down, up), AT % (2 + BEHIND))
    yield walk('SET in a SET, the outer descending', set_of(set_of(HIGH, HIGH), up), AT % (2 + len(up)))
    yield walk('SET after a SET in a SEQUENCE, each by itself', sequence(set_of(HIGH), set_of(LOW)), PASSED % 5)
    yield walk('SET in a SEQUENCE, descending', sequence(NULL, down), AT % (4 + BEHIND))
    yield walk('SET in a SEQUENCE that ends with it, descending', sequence(down), AT % (2 + BEHIND))
    yield walk('SET of a SEQUENCE descending inside', set_of(sequence(HIGH, LOW)), PASSED % 4)
    yield walk('members after an inner SET are not its members', set_of(set_of(HIGH), set_of(LOW, HIGH)), PASSED % 6)
    yield walk('a member below the last of an inner SET', set_of(set_of(element(0xc1)), element(0x80)), PASSED % 4)
    for tag in (0xb1, 0x71, 0xf1):
        yield walk('tag %02X descending' % tag, element(tag, HIGH, LOW), PASSED % 3)
    yield walk('an OCTET STRING that holds a SET descending', octet_string(down), PASSED % 1)


def against_others():
    """Which of several faults of the smaller member is told."""
    low = nested(14, set_of(HIGH, LOW))
    yield walk('a smaller member at depth 16', low, AT % (28 + BEHIND))
    yield walk('a smaller member at depth 17', nested(15, set_of(HIGH, LOW)), OVER % (30 + 2))
    deep = nested(14, set_of(sequence(HIGH), sequence(LOW)))
    yield walk('members that hold depth 17, the second smaller', deep, OVER % (28 + 2 + 2))
    yield walk('empty members at depth 16, the second smaller', nested(14, set_of(sequence(), octet_string(b''))), AT % 32)
    yield walk('4096 elements in a SET', element(0x31, *[NULL] * 4095), PASSED % 4096)
    yield walk('element 4096 smaller', element(0x31, *[NULL] * 4094, octet_string(b'')), AT % (4 + 2 * 4094))
    yield walk('element 4097 smaller', element(0x31, *[NULL] * 4095, octet_string(b'')), OVER % (4 + 2 * 4095))
    yield walk('a smaller member with broken contents', set_of(HIGH, BAD), AT % BEHIND)
    yield walk('a smaller member whose member is broken', set_of(element(0xa0), sequence(BAD)), AT % 4)
    yield walk('a smaller member before one with broken contents', set_of(HIGH, LOW, BAD), AT % BEHIND)
    yield walk('broken contents before a smaller member', set_of(BAD, octets('01 01 00')), AT % 2)
    yield walk('a member in order with broken contents', set_of(octets('01 01 00'), BAD), AT % 5)
    yield walk('a smaller member past the SET', octets('31 05 13 01 50 05 01'), AT % 5)
    yield walk('a smaller member past the SET, within the item', octets('30 0A 31 05 13 01 50 05 01 05 00 05'), AT % 7)
    yield walk('a smaller member with a bad identifier', octets('31 05 13 01 50 00 00'), AT % 5)
    yield walk('a smaller member with a bad length', octets('31 06 13 01 50 05 81 00'), AT % 5)
    yield walk('a smaller member that is one octet', octets('31 04 13 01 50 05'), AT % 5)
    yield walk('a smaller member, and octets after the outermost', set_of(HIGH, LOW) + b'\0', AT % BEHIND)


def certificates():
    """In a name the walk tells it, whatever else is wrong."""
    up, down = set_of(common('x'), common('y')), set_of(common('y'), common('x'))
    for part in ('issuer', 'subject'):
        yield cases_certificate.asked('signer, two attributes in a SET of the %s' % part, SIGNER,
                                      certificate(SIGNER, **{part: named(up)}))
        item = certificate(SIGNER, **{part: named(down)})
        at = item.index(down) + 2 + len(common('y'))
        yield cases_certificate.asked('signer, two attributes in a SET of the %s, out of order' % part, SIGNER, item,
                                      'refused 2 at %d' % at)
    item = certificate(ANCHOR, issuer=named(down), version=b'')
    yield cases_certificate.asked('anchor, a SET of the issuer out of order, and no version', ANCHOR, item,
                                  'refused 2 at %d' % (item.index(down) + 2 + len(common('y'))))
    for label, algorithm, good in (('ascending', sequence(set_of(LOW, HIGH)), True), ('descending', sequence(set_of(HIGH, LOW)), False)):
        item = certificate(SIGNER, algorithm=algorithm, outer=algorithm)
        at = item.index(algorithm) + 2 + BEHIND
        yield cases_certificate.asked('signer, a SET in the algorithm, ' + label, SIGNER, item, None if good else 'refused 2 at %d' % at)
        key = sequence(set_of(LOW, HIGH) if good else set_of(HIGH, LOW))
        item = certificate(SIGNER, key=key)
        at = item.index(key) + 2 + BEHIND
        yield cases_certificate.asked('signer, a SET in the key, ' + label, SIGNER, item, None if good else 'refused 2 at %d' % at)
    yield cases_crl.asked('two attributes in a SET of the issuer', crl(issuer=named(up)))
    item = crl(issuer=named(down))
    yield cases_crl.asked('two attributes in a SET of the issuer, out of order', item,
                          'refused 2 at %d' % (item.index(down) + 2 + len(common('y'))))


def named(more):
    return sequence(set_of(country('UT')), more)


def cases():
    for part in (pairs, runs, insides, against_others, certificates):
        yield from part()
