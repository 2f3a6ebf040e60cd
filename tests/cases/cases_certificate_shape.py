"""Cases of certificates: rule 1, the shape, part after part."""
import crl_build
from cases_certificate import NULL, breaks, rows, with_mended
from certificate_build import (ANCHOR, KEY_USAGE, LINK, NO_MEANING, SIGNER, SIGNS_CERTIFICATES, algorithm, certificate,
                               extensions, issuer_name, public_key, signature, subject_name, times)
from der_build import (COMMON_NAME, as_set, attribute, bit_string, boolean, common, context, extension, generalized,
                       integer, octet_string, oid, printable, sequence, set_of, utc, utf8)
from octets import element, octets
from oracle_tree import tree

START, END = utc('240101000000Z'), utc('341231235959Z')


def shapes(role, *table):
    """Rows that break rule 1, each a label, the parts that are changed, and those that stay so when it is mended."""
    yield from rows(role, *[(label, (1,), *changed) for label, *changed in table])


def outermost():
    good = certificate(SIGNER)
    body = tree(good).contents()
    for label, item in (
            ('a SET around all', as_set(tree(good).parts())), ('a context element around all', element(0xa0, body)),
            ('one SEQUENCE more around all', sequence(good)), ('an empty SEQUENCE', sequence()),
            ('a NULL', NULL), ('an INTEGER', integer(5)), ('a primitive of the context class', element(0x80, body)),
            ('the tbs alone', sequence(sequence(tree(good).members[0].contents()))),
            ('the tbs a SET', sequence(as_set(tree(good).members[0].parts()), *tree(good).parts()[1:])),
            ('the tbs an A0', good[:4] + b'\xa0' + good[5:]),
            ('an empty tbs', sequence(sequence(), algorithm(), signature())), ('a CRL', crl_build.crl())):
        yield breaks((1,), label, SIGNER, item)
    yield from shapes(
        SIGNER, ('no signature', {'signature': b''}),
        ('the signature an OCTET STRING', {'signature': octet_string(b'\0')}),
        ('the signature a SEQUENCE', {'signature': sequence()}), ('two signatures', {'signature': signature() * 2}),
        ('a NULL after the signature', {'after': NULL}), ('no outer algorithm', {'outer': b''}),
        ('the outer algorithm a SET', {'outer': set_of(oid('1.2.840.10045.4.3.2'))}),
        ('the outer algorithm an OBJECT IDENTIFIER', {'outer': oid('1.2.840.10045.4.3.2')}),
        ('the signature before the outer algorithm', {'outer': signature(), 'signature': algorithm()}))


def first_parts():
    yield from shapes(
        ANCHOR, ('no version', {'version': b''}), ('an A0 with nothing in it', {'version': context(0)}),
        ('an A0 with two INTEGERs', {'version': context(0, integer(2), integer(2))}),
        ('an A0 with a BOOLEAN', {'version': context(0, boolean(True))}),
        ('an A0 with a SEQUENCE around the version', {'version': context(0, sequence(integer(2)))}),
        ('the version in an 80', {'version': element(0x80, b'\2')}),
        ('the version in an A1', {'version': context(1, integer(2))}),
        ('the version without its A0', {'version': integer(2)}),
        ('the version twice', {'version': context(0, integer(2)) * 2}))
    yield from shapes(
        LINK, ('no serial', {'serial': b''}), ('the serial an OCTET STRING', {'serial': octet_string(b'\5')}),
        ('the serial an ENUMERATED', {'serial': octets('0A 01 05')}), ('two serials', {'serial': integer(5) * 2}),
        ('the serial before the version', {'version': integer(5), 'serial': context(0, integer(2))}),
        ('no inner algorithm', {'algorithm': b''}), ('the inner algorithm a SET', {'algorithm': set_of()}),
        ('the inner algorithm a NULL', {'algorithm': NULL}))


def middle_parts():
    yield from shapes(
        SIGNER, ('no issuer', {'issuer': b''}),
        ('the issuer a SET', {'issuer': as_set(tree(issuer_name()).parts())}),
        ('no times', {'times': b''}), ('an empty SEQUENCE of times', {'times': sequence()}),
        ('one time', {'times': sequence(START)}),
        ('three times', {'times': sequence(START, END, END)}), ('times in a SET', {'times': set_of(START, END)}),
        ('the start a PrintableString', {'times': times(printable('240101000000Z'), END)}),
        ('the end a PrintableString', {'times': times(START, printable('341231235959Z'))}),
        ('the end a NULL', {'times': times(START, NULL)}),
        ('the end an INTEGER', {'times': times(START, integer(341231235959))}),
        ('times without their SEQUENCE', {'times': START + END}),
        ('no subject', {'subject': b''}),
        ('the subject a SET', {'subject': as_set(tree(subject_name(SIGNER)).parts())}),
        ('the subject in an A4', {'subject': context(4, subject_name(SIGNER))}),
        ('no key', {'key': b''}), ('the key a BIT STRING', {'key': bit_string(b'\4')}),
        ('the key a SET', {'key': set_of()}),
        ('two keys', {'key': public_key() * 2}))
    yield from rows(SIGNER, ('both times GeneralizedTime', (), {'start': generalized('20500101000000Z'),
                                                                'end': generalized('20600101000000Z')}),
                    ('a key with anything in it', (), {'key': sequence(NULL, set_of(), octets('A9 02 05 00'))}))


def unique_parts():
    one, two = element(0x81, b'\0\1'), element(0x82, b'\0\1')
    yield from shapes(
        SIGNER, ('81 twice', {'unique': one * 2}), ('82 twice', {'unique': two * 2}),
        ('82 before 81', {'unique': two + one}),
        ('81, 82 and 81', {'unique': one + two + one}), ('an A1', {'unique': context(1)}),
        ('an A1 with a BIT STRING', {'unique': context(1, bit_string(b'\1'))}), ('an A2', {'unique': context(2)}),
        ('81 and A2', {'unique': one + context(2)}), ('A1 and 82', {'unique': context(1) + two}),
        ('an 83', {'unique': element(0x83, b'')}),
        ('an 80', {'unique': element(0x80, b'\1')}), ('a C1', {'unique': element(0xc1, b'\1')}),
        ('a NULL before the block', {'unique': NULL}),
        ('81 before the key', {'key': one + public_key()}),
        ('81 after the block', {'block': context(3, sequence(*extensions(SIGNER))) + one}),
        ('82 after the block', {'block': context(3, sequence(*extensions(SIGNER))) + two}))


def block():
    good = extensions(SIGNER)
    yield from shapes(
        SIGNER, ('no block of extensions', {'block': b''}), ('an A3 with nothing in it', {'block': context(3)}),
        ('an A3 with two lists', {'block': context(3, sequence(*good), sequence())}),
        ('an A3 with a SET of extensions', {'block': context(3, as_set(good))}),
        ('an A3 with the extensions themselves', {'block': context(3, *good)}),
        ('an A3 with a NULL after the list', {'block': context(3, sequence(*good), NULL)}),
        ('an 83 in place of A3', {'block': element(0x83, sequence(*good))}),
        ('an A4 in place of A3', {'block': context(4, sequence(*good))}),
        ('an A0 in place of A3', {'block': context(0, sequence(*good))}),
        ('two blocks', {'block': context(3, sequence(*good)) * 2}),
        ('the list without its A3', {'block': sequence(*good)}),
        ('a NULL after the block', {'block': context(3, sequence(*good)) + NULL}))
    yield from shapes(ANCHOR, ('neither block nor key', {'block': b'', 'key': b''}), ('81 and no block', {
        'block': b'', 'unique': element(0x81, b'\1')}))


def one_extension():
    number, value, true = oid(NO_MEANING), octet_string(b''), boolean(True)
    wrong = (
        ('empty', sequence()), ('of an OBJECT IDENTIFIER alone', sequence(number)),
        ('of an OCTET STRING alone', sequence(value)),
        ('with an explicit FALSE', sequence(number, boolean(False), value)),
        ('with TRUE twice', sequence(number, true, true, value)),
        ('with TRUE at the end', sequence(number, value, true)),
        ('with TRUE at the start', sequence(true, number, value)),
        ('of OBJECT IDENTIFIER and TRUE', sequence(number, true)),
        ('with a NULL at the end', sequence(number, value, NULL)),
        ('with two values', sequence(number, value, value)),
        ('with two OBJECT IDENTIFIERs', sequence(number, number, value)),
        ('that is a SET', as_set([number, value])), ('that is an OBJECT IDENTIFIER', number), ('that is a NULL', NULL),
        ('with a BIT STRING', sequence(number, bit_string(b''))),
        ('with a SEQUENCE for its value', sequence(number, sequence())),
        ('with an INTEGER for TRUE', sequence(number, integer(-1), value)),
        ('with an 81 for TRUE', sequence(number, element(0x81, b'\xff'), value)),
        ('with an 86 for its OBJECT IDENTIFIER', sequence(element(0x86, b'\x2a'), value)))
    good = sequence(number, value)
    for label, odd in wrong:
        yield from shapes(SIGNER, ('an extension more, ' + label, {'extensions': extensions(SIGNER, odd)},
                                   {'extensions': extensions(SIGNER, good)}))
    yield from shapes(
        LINK, ('the first of the extensions empty', {'extensions': [sequence()] + extensions(LINK)}),
        ('a list of one empty extension', {'extensions': [sequence()]}),
        ('keyUsage with an explicit FALSE', {'extensions': extensions(LINK, key_usage=sequence(
            oid(KEY_USAGE), boolean(False), octet_string(SIGNS_CERTIFICATES)))}))
    yield from rows(SIGNER, ('an extension more, with an empty value', (), {'extensions': extensions(SIGNER, good)}),
                    ('an extension more, first', (), {'extensions': [good] + extensions(SIGNER)}),
                    ('an extension more, its value not DER', (), {'extensions': extensions(
                        SIGNER, extension(NO_MEANING, octets('30 80')))}))


def names():
    """The good name with one thing more at its end, as issuer and as subject."""
    number, value = oid(COMMON_NAME), utf8('x')
    wrong = (
        ('an empty SET', set_of()), ('a SEQUENCE for a SET', sequence(attribute(COMMON_NAME, value))), ('a NULL', NULL),
        ('an attribute without its SET', common('x')), ('an A0 for a SET', context(0, common('x'))),
        ('a SET in a SET', set_of(set_of(common('x')))), ('an empty attribute', set_of(sequence())),
        ('an attribute that is a SET', set_of(set_of(number, value))),
        ('an attribute of one member', set_of(sequence(number))),
        ('an attribute of three members', set_of(sequence(number, value, value))),
        ('an attribute with its value first', set_of(sequence(value, number))),
        ('an attribute without SEQUENCE', set_of(number, value)),
        ('an A0 beside an attribute', set_of(common('x'), context(0))),
        ('a NULL before an attribute', set_of(NULL, common('x'))),
        ('an attribute named by an OCTET STRING', set_of(sequence(octet_string(b'\x55'), value))))
    right = (
        ('an attribute more', set_of(common('x'))), ('two attributes in a SET', set_of(common('x'), common('y'))),
        ('an attribute twice in a SET', set_of(common('x'), common('x'))),
        ('a SEQUENCE for a value', set_of(attribute(COMMON_NAME, sequence()))),
        ('an ENUMERATED for a value', set_of(attribute(COMMON_NAME, octets('0A 01 05')))),
        ('a NULL for a value', set_of(attribute(COMMON_NAME, NULL))), ('a value of no octets', set_of(common(''))),
        ('an OBJECT IDENTIFIER for a value', set_of(sequence(number, number))))
    for part, whole in (('issuer', issuer_name()), ('subject', subject_name(SIGNER))):
        inside = tree(whole).contents()
        for label, more in wrong:
            yield from shapes(SIGNER, ('%s with %s' % (part, label), {part: sequence(inside, more)},
                                       {part: sequence(inside, set_of(common('x')))}))
        for label, more in right:
            yield from rows(SIGNER, ('%s with %s' % (part, label), (), {part: sequence(inside, more)}))
        yield from shapes(ANCHOR, ('%s with an empty SET first' % part, {part: sequence(set_of(), inside)}))


def cases():
    yield from with_mended(outermost, first_parts, middle_parts, unique_parts, block, one_extension, names)
