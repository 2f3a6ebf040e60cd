"""Cases of certificates: the good ones, roles, DER and limits, fields, and several broken rules at once."""
import mended
import oracle_certificate
from certificate_build import (ANCHOR, CONSTRAINTS, KEY_USAGE, LAST_AUTHORITY, LINK, NO_MEANING, ROLES,
                               SIGNER, SIGNS_CERTIFICATES, authority_key, certificate, document_types,
                               extensions, issuer_name, made_up, parts_of, put_together, signature,
                               subject_key)
from der_build import (bit_string, common, context, country, extension, integer, name, octet_string, oid,
                       sequence, utc)
from octets import element, nested, octets
from oracle_der import walk
from record import CERTIFICATE, Case
from refused import Refused

MOST = 2 ** 64 - 1
NULL = octets('05 00')
FIELDS = ('passed, %d to %d, %s, issuer %d+%d, subject %d+%d, key %d+%d, serial %d+%d, subject key %d+%d, '
          'authority key %d+%d')


def told(fields):
    numbers = [number for part in fields[3:] for number in part]
    return FIELDS % (fields.start, fields.end, fields.letters, *numbers)


def answer(item, role):
    try:
        return told(oracle_certificate.judge(item, role))
    except Refused as refusal:
        return refusal.words()


def asked(label, role, item, stated=None):
    return Case('certificate: %s (built)' % label, CERTIFICATE, answer(item, role), item, (role,), stated)


def breaks(rules, label, role, item, good=None):
    """A case of an item that breaks those rules and no others. Mended, it is that good item, or the one that a role
    begins with."""
    label = '%s, %s' % (ROLES[role], label)
    broken = oracle_certificate.broken_rules(item, role)
    assert broken == list(rules), (label, broken)
    case = asked(label, role, item, 'refused 4, rule %d' % rules[0])
    case.broken = rules
    case.mended = good or certificate(role)
    return case


def keeps(label, role, parts):
    """A case of a certificate that keeps every rule. The fields are held to the parts that it was put together of."""
    label, item = '%s, %s' % (ROLES[role], label), put_together(parts)
    broken = oracle_certificate.broken_rules(item, role)
    assert broken == [], (label, broken)
    fields = oracle_certificate.judge(item, role)
    for part in ('issuer', 'subject', 'key'):
        assert octets_of(item, getattr(fields, part)) == parts[part], (label, part)
    assert element(2, octets_of(item, fields.serial)) == parts['serial'], label
    for part, tag, wanted in ((fields.subject_key, 0x04, role != SIGNER), (fields.authority_key, 0x80, role != ANCHOR)):
        assert part != (0, 0) or not wanted, label
        assert part == (0, 0) or item[:part.at + part.size].endswith(element(tag, octets_of(item, part))), label
    return asked(label, role, item)


def octets_of(item, part):
    return item[part.at:part.at + part.size]


def rows(role, *table):
    """A case for each row: what it shows, the rules that are broken or none, the parts that are changed, and the parts
    that stay changed in the mended item, if any do."""
    for label, rules, changed, *left in table:
        parts = parts_of(role, **changed)
        if rules:
            yield breaks(rules, label, role, put_together(parts), certificate(role, **(left[0] if left else {})))
        else:
            yield keeps(label, role, parts)


def with_mended(*parts):
    """The cases of some parts, with the rows of mended items beside them."""
    for part in parts:
        yield from mended.beside(part(), lambda case: answer(case.mended, *case.numbers))


def good():
    for role in ROLES:
        yield from rows(role, ('as it should be', (), {}),
                        ('extensions in the other order', (), {'extensions': extensions(role)[::-1]}),
                        ('an extension that means nothing here', (),
                         {'extensions': extensions(role, extension(NO_MEANING, b'\xff'))}))
    for role in (ANCHOR, SIGNER):
        yield from rows(role, ('both key identifiers', (), {'extensions': extensions(
            role, authority_key=authority_key(), subject_key=subject_key())}))
    yield from rows(
        ANCHOR, ('issuer and subject differ', (), {'subject': name(country('UT'), common('CSCA 9'))}),
        ('key identifiers differ', (), {'extensions': extensions(
            ANCHOR, authority_key=authority_key(sequence(element(0x80, b'\7'))))}))
    wide = sequence(sequence(oid('1.2.840.113549.1.1.1'), NULL),
                    bit_string(sequence(element(2, made_up('modulus', 512)), integer(65537))))
    yield from rows(
        SIGNER, ('a key of over 512 octets', (), {'key': wide}),
        ('a subject of over 256 octets', (), {'subject': name(country('UT'), common('a' * 300))}),
        ('an issuer of 130 octets', (), {'issuer': name(country('UT'), common('b' * 106))}),
        ('algorithms and key empty', (),
         {'algorithm': octets('30 00'), 'outer': octets('30 00'), 'key': octets('30 00')}),
        ('a signature of no bits', (), {'signature': octets('03 01 00')}))


def roles():
    """A role that is none, told before anything of the bytes, and good certificates asked for under another role."""
    long = certificate(SIGNER, key=sequence(octet_string(bytes(16384))))
    for role in (0, 4, 5, 255, 257, 2 ** 32 + 3, 2 ** 63, MOST):
        yield asked('role %d, a good signer' % role, role, certificate(SIGNER), 'refused 1')
    for role in (0, 4, MOST):
        yield asked('role %d, no octets' % role, role, b'', 'refused 1')
        yield asked('role %d, not DER' % role, role, octets('30 80'), 'refused 1')
        yield asked('role %d, 16385 octets' % role, role, bytes(16385), 'refused 1')
        yield asked('role %d, a signer of over 16384 octets' % role, role, long, 'refused 1')
    yield breaks((11,), 'a good anchor', LINK, certificate(ANCHOR),
                 certificate(ANCHOR, extensions=extensions(ANCHOR, authority_key=authority_key())))
    yield breaks((9, 10, 11, 13), 'a good anchor', SIGNER, certificate(ANCHOR))
    yield keeps('a good link', ANCHOR, parts_of(LINK))
    yield breaks((9, 10, 13), 'a good link', SIGNER, certificate(LINK))
    yield breaks((9, 10, 11), 'a good signer', ANCHOR, certificate(SIGNER))
    yield breaks((9, 10, 11), 'a good signer', LINK, certificate(SIGNER))


def not_der():
    item = certificate(SIGNER)
    yield asked('signer, no octets', SIGNER, b'', 'refused 2 at 0')
    yield asked('signer, the last octet missing', SIGNER, item[:-1], 'refused 2 at 0')
    yield asked('signer, an octet after it', SIGNER, item + b'\0', 'refused 2 at %d' % len(item))
    yield asked('signer, twice', SIGNER, item * 2, 'refused 2 at %d' % len(item))
    yield asked('signer, a serial that is not minimal', SIGNER, certificate(SIGNER, serial=octets('02 02 00 7F')),
                'refused 2 at 13')
    yield asked('signer, a serial of no octets', SIGNER, certificate(SIGNER, serial=octets('02 00')), 'refused 2 at 13')
    yield asked('signer, a version of no octets', SIGNER, certificate(SIGNER, version=octets('A0 02 02 00')),
                'refused 2 at 10')
    odd = sequence(oid(NO_MEANING), octets('01 01 01'), octet_string(b''))
    item = certificate(SIGNER, extensions=extensions(SIGNER, odd))
    yield asked('signer, a critical that is neither TRUE nor FALSE', SIGNER, item,
                'refused 2 at %d' % (item.index(odd) + 2 + len(oid(NO_MEANING))))
    item = certificate(SIGNER, signature=octets('03 02 01 01'))
    yield asked('signer, unused bits of the signature set', SIGNER, item, 'refused 2 at %d' % (len(item) - 4))
    item = certificate(SIGNER, version=integer(0), signature=octets('03 02 01 01'))
    yield asked('signer, not DER and rule 1', SIGNER, item, 'refused 2 at %d' % (len(item) - 4))


def limits():
    """16,384 octets, depth 16 and 4,096 elements, and one more of each. A key is judged by its tag alone."""
    room = 16384 - len(certificate(SIGNER, key=sequence(octet_string(bytes(1000))))) + 1000
    for more, stated in ((0, None), (1, 'refused 3 at 0')):
        item = certificate(SIGNER, key=sequence(octet_string(bytes(room + more))))
        assert len(item) == 16384 + more
        yield asked('signer of %d octets' % len(item), SIGNER, item, stated)
    yield asked('signer, 16385 zeros', SIGNER, bytes(16385), 'refused 3 at 0')
    yield from rows(SIGNER, ('depth 16 in the key', (), {'key': nested(14)}))
    item = certificate(SIGNER, key=nested(15))
    yield asked('signer, depth 17 in the key', SIGNER, item, 'refused 3 at %d' % (item.index(nested(15)) + 28))
    free = 4096 - walk(certificate(SIGNER, key=sequence()))
    yield from rows(SIGNER, ('4096 elements', (), {'key': sequence(NULL * free)}))
    item = certificate(SIGNER, key=sequence(NULL * (free + 1)))
    yield asked('signer, 4097 elements', SIGNER, item, 'refused 3 at %d' % (len(item) - len(signature())))
    many = [extension('1.3.6.1.4.1.99999.%d' % number, b'') for number in range(2, 402)]
    yield from rows(SIGNER, ('400 extensions more', (), {'extensions': extensions(SIGNER, *many)}),
                    ('400 extensions more, the last of them twice', (8,),
                     {'extensions': extensions(SIGNER, *many, many[-1])}, {'extensions': extensions(SIGNER, *many)}),
                    ('400 extensions more, the first of them twice', (8,),
                     {'extensions': extensions(SIGNER, *many, many[0])}, {'extensions': extensions(SIGNER, *many)}))


# of a signer, for each rule from 2 on what breaks it alone
PART_FAULTS = {
    2: {'version': context(0, integer(1))},
    3: {'serial': integer(0)},
    4: {'outer': sequence(oid('1.2.840.10045.4.3.3'))},
    5: {'issuer': issuer_name('ut')},
    6: {'unique': element(0x81, b'\0\1')},
    7: {'start': utc('341231235960Z')},
}
LIST_FAULTS = {
    8: {'more': [extension(NO_MEANING, b''), extension(NO_MEANING, b'')]},
    9: {'key_usage': extension(KEY_USAGE, SIGNS_CERTIFICATES, critical=True)},
    10: {'constraints': extension(CONSTRAINTS, LAST_AUTHORITY, critical=True)},
    11: {'authority_key': b''},
    12: {'issuer_names': b''},
    13: {'document_types': document_types(octets('30 00'))},
    14: {'more': [extension('1.3.6.1.4.1.99999.2', b'', critical=True)]},
}


def with_faults(rules):
    parts, lists, more = {}, {}, []
    for rule in rules:
        parts.update(PART_FAULTS.get(rule, {}))
        lists.update(LIST_FAULTS.get(rule, {}))
        more += lists.pop('more', [])
    return certificate(SIGNER, extensions=extensions(SIGNER, *more, **lists), **parts)


def several():
    """Each two rules at once, and all from one on: the smallest is told."""
    for first in range(2, 15):
        for second in range(first + 1, 15):
            yield breaks((first, second), 'rules %d and %d' % (first, second), SIGNER, with_faults((first, second)))
    for first in range(2, 13):
        rules = tuple(range(first, 15))
        yield breaks(rules, 'every rule from %d on' % first, SIGNER, with_faults(rules))
    yield breaks((1,), 'rules 1 and 3', SIGNER, certificate(SIGNER, version=b'', serial=integer(0)))
    yield breaks((1,), 'rules 1 and 14, the first in the last part', SIGNER, certificate(
        SIGNER, extensions=extensions(SIGNER, extension(NO_MEANING, b'', critical=True)), after=NULL),
                 certificate(SIGNER, extensions=extensions(SIGNER, extension(NO_MEANING, b''))))


def cases():
    yield from with_mended(good, roles, not_der, limits, several)
