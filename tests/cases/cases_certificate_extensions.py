"""Cases of certificates: rules 8 to 14, each clause from both sides."""
from cases_certificate import NULL, rows, with_mended
from certificate_build import (ANCHOR, CONSTRAINTS, ISSUER_NAMES, KEY_USAGE, LAST_AUTHORITY,
                               LINK, NO_MEANING, POINTS, POLICIES, PRIVATE_PERIOD, ROLES, SIGNER, SIGNS_CERTIFICATES,
                               SIGNS_DOCUMENTS, SUBJECT_NAMES, authority_key, document_types, extensions,
                               subject_key, type_list)
from der_build import boolean, context, extension, integer, octet_string, printable, sequence, set_of, utf8
from octets import element, nested, octets

KEY = bytes(range(1, 21))


def lists(role, *table):
    """Rows of a list of extensions: a label, the rules that are broken or none, the list, and the mended list where it
    is not the one that a role begins with."""
    yield from rows(role, *[(label, rules, *[{'extensions': list(members)} for members in both])
                            for label, rules, *both in table])


def changed(role, *table):
    """Rows of a list with one extension replaced, by its name, and what stands there in the mended list."""
    yield from lists(role, *[(label, rules, *[extensions(role, **{part: value}) for value in both])
                             for label, rules, part, *both in table])


def doubled():
    for role, rules in ((ANCHOR, (8, 9, 10, 11, 12)), (LINK, (8, 9, 10, 11, 12)), (SIGNER, (8, 9, 11, 12, 13))):
        good = extensions(role)
        yield from lists(
            role,
            ('an empty list of extensions', rules, []),
            ('the first extension twice, side by side', (8,), good[:1] + good),
            ('the last extension twice, side by side', (8,), good + good[-1:]),
            ('the first extension again at the end', (8,), good + good[:1]),
            ('the second extension again at the end', (8,), good + good[1:2]),
            ('every extension twice', (8,), good + good))
    one, other = extension(NO_MEANING, b''), extension('1.3.6.1.4.1.99999.2', b'')
    yield from lists(
        SIGNER,
        ('an extension that means nothing twice', (8,), extensions(SIGNER, one, one), extensions(SIGNER, one)),
        ('two extensions that mean nothing', (), extensions(SIGNER, one, other)),
        ('three times the same extension', (8,), extensions(SIGNER, one, one, one), extensions(SIGNER, one)),
        ('twice with different contents', (8,), extensions(SIGNER, one, extension(NO_MEANING, b'\1')),
         extensions(SIGNER, one)),
        ('keyUsage twice, the second with other bits', (8,),
         extensions(SIGNER, extension(KEY_USAGE, SIGNS_CERTIFICATES, critical=True))),
        ('keyUsage twice, the second not critical', (8,), extensions(SIGNER, extension(KEY_USAGE, SIGNS_DOCUMENTS))),
        ('numbers of extensions that differ in the last octet', (),
         extensions(SIGNER, extension('1.3.6.1', b''), extension('1.3.6.2', b''))),
        ('a number of an extension that starts another', (),
         extensions(SIGNER, extension('1.3.6.1', b''), extension('1.3.6.1.1', b''), extension('1.3.6', b''))),
        ('the start of the number of keyUsage, and one that goes on', (),
         extensions(SIGNER, extension('2.5.29', b''), extension('2.5.29.15.1', b''))),
        ('one extension and no more', (9, 11, 12, 13), [one], extensions(SIGNER, one)),
        ('one extension twice and no more', (8, 9, 11, 12, 13), [one, one], extensions(SIGNER, one)))


def key_usage():
    for role in ROLES:
        right, other = SIGNS_CERTIFICATES, SIGNS_DOCUMENTS
        if role == SIGNER:
            right, other = other, right
        yield from changed(
            role,
            ('keyUsage missing', (9,), 'key_usage', b''),
            ('keyUsage not critical', (9,), 'key_usage', extension(KEY_USAGE, right)),
            ('keyUsage of another role', (9,), 'key_usage', extension(KEY_USAGE, other, True)),
            ('keyUsage critical with its bits', (), 'key_usage', extension(KEY_USAGE, right, True)))
    wrong = (
        ('03 02 01 86', 'with digitalSignature too'), ('03 02 02 04', 'with keyCertSign alone'),
        ('03 02 01 02', 'with cRLSign alone'),
        ('03 02 00 06', 'with a bit that need not stand'), ('03 03 01 06 00', 'of 16 bits'), ('03 01 00', 'of no bits'),
        ('', 'of no octets'), ('03 02 01 06 05 00', 'with a NULL after'), ('03 02 01', 'cut short'),
        ('04 02 01 06', 'as OCTET STRING'),
        ('30 04 03 02 01 06', 'in a SEQUENCE'), ('03 02 01 07', 'with an unused bit set'),
        ('03 81 02 01 06', 'with a longer length'))
    for text, label in wrong:
        yield from changed(ANCHOR, ('keyUsage ' + label, (9,), 'key_usage', extension(KEY_USAGE, octets(text), True)))
    yield from changed(
        SIGNER,
        ('keyUsage with nonRepudiation too', (9,), 'key_usage', extension(KEY_USAGE, octets('03 02 06 C0'), True)),
        ('keyUsage of no octets', (9,), 'key_usage', extension(KEY_USAGE, b'', True)),
        ('keyUsage with a bit that need not stand', (9,), 'key_usage',
         extension(KEY_USAGE, octets('03 02 00 80'), True)),
        ('keyUsage under a number that goes on', (9, 14), 'key_usage', extension('2.5.29.15.0', SIGNS_DOCUMENTS, True)))


def constraints():
    for role in (ANCHOR, LINK):
        yield from changed(
            role,
            ('basicConstraints missing', (10,), 'constraints', b''),
            ('basicConstraints not critical', (10,), 'constraints', extension(CONSTRAINTS, LAST_AUTHORITY)),
            ('basicConstraints critical with path length 0', (), 'constraints',
             extension(CONSTRAINTS, LAST_AUTHORITY, True)))
    wrong = (
        ('without a path length', '30 03 01 01 FF'), ('with path length 1', '30 06 01 01 FF 02 01 01'),
        ('empty', '30 00'),
        ('of no octets', ''), ('with FALSE', '30 06 01 01 00 02 01 00'), ('with a path length alone', '30 03 02 01 00'),
        ('with a NULL inside', '30 08 01 01 FF 02 01 00 05 00'), ('with a NULL after', '30 06 01 01 FF 02 01 00 05 00'),
        ('as SET', '31 06 01 01 FF 02 01 00'), ('cut short', '30 06 01 01 FF 02 01'),
        ('with path length 256', '30 07 01 01 FF 02 02 01 00'),
        ('with a path length that is not minimal', '30 07 01 01 FF 02 02 00 00'))
    for label, text in wrong:
        odd = extension(CONSTRAINTS, octets(text), critical=True)
        yield from changed(LINK, ('basicConstraints ' + label, (10,), 'constraints', odd))
    yield from changed(
        SIGNER,
        ('basicConstraints of an authority', (10,), 'constraints', extension(CONSTRAINTS, LAST_AUTHORITY, True)),
        ('basicConstraints of an authority, not critical', (10,), 'constraints',
         extension(CONSTRAINTS, LAST_AUTHORITY)),
        ('basicConstraints empty', (10,), 'constraints', extension(CONSTRAINTS, octets('30 00'))),
        ('basicConstraints empty, critical', (10,), 'constraints', extension(CONSTRAINTS, octets('30 00'), True)),
        ('basicConstraints absent', (), 'constraints', b''))


def key_identifiers():
    """Where each is required, where it may stand, and that it has its form wherever it stands."""
    yield from changed(ANCHOR, ('subject key identifier missing', (11,), 'subject_key', b''),
                       ('authority key identifier there', (), 'authority_key', authority_key()))
    yield from changed(LINK, ('subject key identifier missing', (11,), 'subject_key', b''),
                       ('authority key identifier missing', (11,), 'authority_key', b''))
    yield from changed(SIGNER, ('authority key identifier missing', (11,), 'authority_key', b''),
                       ('subject key identifier there', (), 'subject_key', subject_key()))
    for role in ROLES:
        yield from changed(
            role,
            ('subject key identifier critical', (11, 14), 'subject_key', subject_key(critical=True), subject_key()),
            ('authority key identifier critical', (11, 14), 'authority_key', authority_key(critical=True),
             authority_key()))
        for rules, subject_keys, authority_keys in (((11,), WRONG_SUBJECT_KEYS, WRONG_AUTHORITY_KEYS),
                                                    ((), RIGHT_SUBJECT_KEYS, RIGHT_AUTHORITY_KEYS)):
            for label, contents in subject_keys:
                label = 'subject key identifier ' + label
                yield from changed(role, (label, rules, 'subject_key', subject_key(contents), subject_key()))
            for label, contents in authority_keys:
                label = 'authority key identifier ' + label
                yield from changed(role, (label, rules, 'authority_key', authority_key(contents), authority_key()))


WRONG_SUBJECT_KEYS = (
    ('of no octets', b''),
    ('of its octets without an OCTET STRING', KEY),
    ('as SEQUENCE', sequence(octet_string(KEY))),
    ('as 80', element(0x80, KEY)),
    ('as BIT STRING', element(3, b'\0', KEY)),
    ('of two OCTET STRINGs', octet_string(KEY) * 2),
    ('with an octet after', octet_string(KEY) + b'\0'),
    ('cut short', octet_string(KEY)[:-1]),
    ('with a longer length', octets('04 81 14') + KEY),
    ('that is constructed', element(0x24, octet_string(KEY))),
)
RIGHT_SUBJECT_KEYS = (
    ('empty', octet_string(b'')),
    ('of one octet', octet_string(b'\xff')),
    ('of 127 octets', octet_string(bytes(127))),
    ('of 128 octets', octet_string(bytes(128))),
    ('of 256 octets', octet_string(bytes(256))),
)
WRONG_AUTHORITY_KEYS = (
    ('of no octets', b''),
    ('empty', sequence()),
    ('as OCTET STRING', octet_string(KEY)),
    ('as 80 without SEQUENCE', element(0x80, KEY)),
    ('as SET', set_of(element(0x80, KEY))),
    ('in an A0', context(0, element(0x80, KEY))),
    ('with A0 for 80', sequence(context(0, octet_string(KEY)))),
    ('with an empty A0 for 80', sequence(context(0))),
    ('with an OCTET STRING for 80', sequence(octet_string(KEY))),
    ('with 81 for 80', sequence(element(0x81, KEY))),
    ('with 80 second', sequence(element(0x82, b'\5'), element(0x80, KEY))),
    ('with 80 one level deeper', sequence(sequence(element(0x80, KEY)))),
    ('with an octet after', sequence(element(0x80, KEY)) + b'\0'),
    ('of two SEQUENCEs', sequence(element(0x80, KEY)) * 2),
    ('cut short', sequence(element(0x80, KEY))[:-1]),
    ('with 80 past its SEQUENCE', octets('30 04 80 05 01 02 03 04 05')),
    ('with a fault after 80', sequence(element(0x80, KEY), octets('01 01 05'))),
)
RIGHT_AUTHORITY_KEYS = (
    ('with an empty 80', sequence(element(0x80))),
    ('with an empty 80 and more', sequence(element(0x80), element(0x82, b'\5'))),
    ('of one octet', sequence(element(0x80, b'\xff'))),
    ('of 127 octets', sequence(element(0x80, bytes(127)))),
    ('of 200 octets', sequence(element(0x80, bytes(200)))),
    ('with issuer and serial', sequence(element(0x80, KEY), context(1, context(4, sequence())), element(0x82, b'\5'))),
    ('with 80 twice', sequence(element(0x80, KEY), element(0x80, b'\1'))),
)


def inner_limits():
    """Depth and count begin anew in the contents of an extension, and their limits are the walk's."""
    def deep(depth):
        return authority_key(sequence(element(0x80, KEY), nested(depth - 1)))

    def wide(count):
        return authority_key(sequence(element(0x80, KEY), NULL * (count - 2)))

    def many(count):
        return document_types(type_list(printable('P') * (count - 3)))

    for depth, rules in ((16, ()), (17, (11,))):
        yield from changed(SIGNER, ('depth %d in the authority key identifier' % depth, rules, 'authority_key',
                                    deep(depth), deep(16)))
    for count, rules in ((4096, ()), (4097, (11,))):
        yield from changed(LINK, ('%d elements in the authority key identifier' % count, rules, 'authority_key',
                                  wide(count), wide(4096)))
    for count, rules in ((4096, ()), (4097, (13,))):
        yield from changed(SIGNER, ('%d elements in the document type list' % count, rules, 'document_types',
                                    many(count), many(4096)))


def four_of_rule_12():
    four = (('private_period', PRIVATE_PERIOD), ('subject_names', SUBJECT_NAMES), ('issuer_names', ISSUER_NAMES),
            ('points', POINTS))
    for role in ROLES:
        for part, number in four:
            yield from changed(
                role,
                ('%s missing' % number, (12,), part, b''),
                ('%s critical' % number, (12, 14), part, extension(number, sequence(), critical=True),
                 extension(number, sequence())),
                ('%s with empty contents' % number, (), part, extension(number, b'')),
                ('%s with contents that are not DER' % number, (), part, extension(number, octets('30 80'))))
    none = {part: b'' for part, _ in four}
    yield from lists(SIGNER, ('none of the four of rule 12', (12,), extensions(SIGNER, **none)),
                     ('2.5.29.30 for 2.5.29.31', (12,), extensions(SIGNER, points=extension('2.5.29.30', b''))))


def types():
    wrong = (
        ('of no octets', b''),
        ('empty', sequence()),
        ('cut short', type_list(printable('P'))[:-1]),
        ('with an octet after', type_list(printable('P')) + b'\0'),
        ('as SET', set_of(integer(0), set_of(printable('P')))),
        ('with INTEGER 1', sequence(integer(1), set_of(printable('P')))),
        ('with INTEGER -1', sequence(integer(-1), set_of(printable('P')))),
        ('with INTEGER 256', sequence(integer(256), set_of(printable('P')))),
        ('with BOOLEAN FALSE for 0', sequence(boolean(False), set_of(printable('P')))),
        ('without a number', sequence(set_of(printable('P')))),
        ('without a SET', sequence(integer(0))),
        ('with an empty SET', type_list()),
        ('with a SEQUENCE of types', sequence(integer(0), sequence(printable('P')))),
        ('with the types first', sequence(set_of(printable('P')), integer(0))),
        ('with two SETs', sequence(integer(0), set_of(printable('P')), set_of(printable('P')))),
        ('with a NULL at the end', sequence(integer(0), set_of(printable('P')), NULL)),
        ('with a string of no octets', type_list(printable(''))),
        ('with a string of three octets', type_list(printable('PPP'))),
        ('with a string of three octets last', type_list(printable('P'), printable('ID'), printable('PPP'))),
        ('with a string of no octets before another', type_list(printable(''), printable('P'))),
        ('with a UTF8String', type_list(utf8('P'))),
        ('with a UTF8String before a string', type_list(utf8('ID'), printable('P'))),
        ('with a NULL before a string', type_list(NULL, printable('P'))),
        ('with a SET in the SET', type_list(set_of(printable('P')))),
        ('out of order', type_list(printable('ID'), printable('P'))),
        ('of one length, out of order', type_list(printable('V'), printable('P'))),
        ('in order but for the last', type_list(printable('P'), printable('V'), printable('ID'), printable('AC'))),
    )
    for label, contents in wrong:
        yield from changed(SIGNER, ('document type list ' + label, (13,), 'document_types', document_types(contents)))
    right = (
        ('of one letter', type_list(printable('P'))),
        ('of two letters', type_list(printable('ID'))),
        ('of both lengths', type_list(printable('P'), printable('V'), printable('ID'))),
        ('with a string twice', type_list(printable('P'), printable('P'))),
        ('with octets that are no letters', type_list(element(0x13, b'\0\xff'))),
    )
    for label, contents in right:
        yield from changed(SIGNER, ('document type list ' + label, (), 'document_types', document_types(contents)))
    yield from changed(
        SIGNER,
        ('document type list missing', (13,), 'document_types', b''),
        ('document type list critical', (13, 14), 'document_types', document_types(critical=True)),
        ('document type list under the number before it', (13,), 'document_types',
         extension('2.23.136.1.1.6.1', type_list(printable('P')))),
        ('document type list under a shorter number', (13,), 'document_types',
         extension('2.23.136.1.1.6', type_list(printable('P')))))
    for role in (ANCHOR, LINK):
        yield from changed(
            role,
            ('a document type list', (), 'document_types', document_types()),
            ('a document type list that is not one', (), 'document_types', document_types(octets('30 80'))),
            ('a document type list, critical', (14,), 'document_types', document_types(critical=True),
             document_types()))


def critical():
    for role in ROLES:
        yield from lists(
            role,
            ('an unknown critical extension', (14,), extensions(role, extension(NO_MEANING, b'', True)),
             extensions(role, extension(NO_MEANING, b''))),
            ('an unknown critical extension first', (14,), [extension(NO_MEANING, b'', True)] + extensions(role),
             [extension(NO_MEANING, b'')] + extensions(role)),
            ('an unknown extension that is not critical', (), extensions(role, extension(NO_MEANING, b''))),
            ('critical certificate policies', (14,), extensions(role, extension(POLICIES, sequence(), True)),
             extensions(role, extension(POLICIES, sequence()))),
            ('certificate policies that are not critical', (), extensions(role, extension(POLICIES, sequence()))))
    numbers = (
        ('the number of keyUsage and one more', '2.5.29.15.1'),
        ('the start of the number of keyUsage', '2.5.29'),
        ('the number after that of basicConstraints', '2.5.29.20'),
        ('extended key usage', '2.5.29.37'),
    )
    for label, number in numbers:
        yield from lists(LINK, ('critical: ' + label, (14,), extensions(LINK, extension(number, b'', True)),
                                extensions(LINK, extension(number, b''))))


def cases():
    yield from with_mended(doubled, key_usage, constraints, key_identifiers, inner_limits, four_of_rule_12, types, critical)
