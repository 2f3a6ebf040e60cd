"""Cases of certificates: rules 2 to 7, each clause from both sides."""
from cases_certificate import NULL, rows, with_mended
from certificate_build import ANCHOR, LINK, SIGNER, algorithm, issuer_name, subject_name
from der_build import (COUNTRY, ORGANIZATION, attribute, common, context, country, generalized, integer, name, oid,
                       printable, sequence, set_of, utc, utf8)
from octets import element, octets


def version():
    for number, words in ((0, 'v1'), (1, 'v2'), (3, 'v4'), (-1, '-1'), (-2, '-2'), (127, '127'), (128, '128'),
                          (258, '258'), (2 ** 16 + 2, '65538'), (2 ** 63 - 1, 'of 8 octets'),
                          (2 ** 64 + 2, 'of 9 octets'), (2 ** 160, 'of 21 octets')):
        yield from rows(ANCHOR, ('version ' + words, (2,), {'version': context(0, integer(number))}))
    yield from rows(LINK, ('version v1', (2,), {'version': context(0, integer(0))}),
                    ('version v3', (), {'version': context(0, integer(2))}))
    yield from rows(SIGNER, ('version v2', (2,), {'version': context(0, integer(1))}),
                    ('version v3', (), {'version': context(0, integer(2))}))


def serial():
    table = (
        ('1', '01', ()),
        ('0', '00', (3,)),
        ('FF, which is -1', 'FF', (3,)),
        ('00 FF, which is 255', '00 FF', ()),
        ('7F', '7F', ()),
        ('80, which is -128', '80', (3,)),
        ('00 80', '00 80', ()),
        ('FF 7F', 'FF 7F', (3,)),
        ('of 8 octets', '7F' + 'FF' * 7, ()),
        ('of 8 octets, negative', '80' + '00' * 7, (3,)),
        ('of 9 octets', '00' + 'FF' * 8, ()),
        ('of 9 octets, negative', 'FF' + '00' * 8, (3,)),
        ('of 19 octets', '01' + '00' * 18, ()),
        ('of 20 octets', '01' + '00' * 19, ()),
        ('of 20 octets, the largest', '7F' + 'FF' * 19, ()),
        ('of 20 octets, negative', '80' + '00' * 19, (3,)),
        ('of 20 octets with a leading 00', '00' + 'FF' * 19, ()),
        ('of 21 octets', '01' + '00' * 20, (3,)),
        ('of 21 octets with a leading 00', '00' + 'FF' * 20, (3,)),
        ('of 21 octets, negative', 'FF' + '00' * 20, (3,)),
        ('of 200 octets', '01' * 200, (3,)),
    )
    for label, text, rules in table:
        yield from rows(SIGNER, ('serial ' + label, rules, {'serial': element(2, octets(text))}))
    for role in (ANCHOR, LINK):
        yield from rows(role, ('serial of 20 octets', (), {'serial': element(2, b'\1' * 20)}),
                        ('serial of 21 octets', (3,), {'serial': element(2, b'\1' * 21)}),
                        ('serial 0', (3,), {'serial': integer(0)}))


def algorithms():
    good = algorithm()
    last = good[:-1] + bytes([good[-1] ^ 1])
    longer = sequence(oid('1.2.840.10045.4.3.2'), NULL)
    yield from rows(
        SIGNER,
        ('algorithms differ in the last octet', (4,), {'outer': last}),
        ('algorithms differ in an octet of the inner', (4,), {'algorithm': last}),
        ('algorithms differ in their first sub-identifier', (4,), {'outer': sequence(oid('1.3.840.10045.4.3.2'))}),
        ('a NULL more in the outer algorithm', (4,), {'outer': longer}),
        ('a NULL more in the inner algorithm', (4,), {'algorithm': longer}),
        ('a NULL more in both algorithms', (), {'algorithm': longer, 'outer': longer}),
        ('other algorithms, the same two', (), {'algorithm': last, 'outer': last}),
        ('the inner algorithm empty', (4,), {'algorithm': sequence()}),
        ('the outer algorithm empty', (4,), {'outer': sequence()}),
        ('algorithms of 300 octets', (), {'algorithm': wide(b'\0'), 'outer': wide(b'\0')}),
        ('algorithms of 300 octets that differ in the last', (4,), {'algorithm': wide(b'\0'), 'outer': wide(b'\1')},
         {'algorithm': wide(b'\0'), 'outer': wide(b'\0')}),
        ('an algorithm of 300 octets and its start', (4,), {'algorithm': wide(b'\0'), 'outer': wide(b'')},
         {'algorithm': wide(b'\0'), 'outer': wide(b'\0')}))
    yield from rows(ANCHOR, ('algorithms differ in the last octet', (4,), {'outer': last}))
    yield from rows(LINK, ('algorithms differ in the last octet', (4,), {'outer': last}))


def wide(last):
    return sequence(oid('1.2.840.113549.1.1.10'), element(4, bytes(300), last))


def letters():
    """What stands in place of the country in the issuer, in the subject, in both."""
    wrong = (
        ('lower case', country('ut')),
        ('one letter in lower case', country('Ut')),
        ('the second letter in lower case', country('uT')),
        ('no letter', country('')),
        ('one letter', country('U')),
        ('three letters', country('UTO')),
        ('two digits', country('42')),
        ('a letter and a digit', country('U2')),
        ('the octet before A', country('@A')),
        ('the octet after Z', country('Z[')),
        ('a space', country('U ')),
        ('UTF8String', attribute(COUNTRY, utf8('UT'))),
        ('IA5String', attribute(COUNTRY, element(0x16, b'UT'))),
        ('TeletexString', attribute(COUNTRY, element(0x14, b'UT'))),
        ('OCTET STRING', attribute(COUNTRY, element(4, b'UT'))),
        ('a PrintableString in a SEQUENCE', attribute(COUNTRY, sequence(printable('UT')))),
        ('another attribute', attribute('2.5.4.7', printable('UT'))),
        ('an attribute whose number starts like it', attribute('2.5.4.6.1', printable('UT'))),
        ('an attribute whose number is its start', attribute('2.5.4', printable('UT'))),
    )
    right = name(country('UT'), common('CSCA'))
    for label, odd in wrong:
        both = name(odd, common('CSCA'))
        yield from rows(
            SIGNER,
            ('country of the issuer: ' + label, (5,), {'issuer': both}, {'issuer': right}),
            ('country of the subject: ' + label, (5,), {'subject': both}, {'subject': right}),
            ('country of both: ' + label, (5,), {'issuer': both, 'subject': both}, {'issuer': right, 'subject': right}))
    for first, second, rules in (('AA', 'AA', ()), ('ZZ', 'ZZ', ()), ('AZ', 'AZ', ()), ('UT', 'UU', (5,)),
                                 ('UT', 'AT', (5,)), ('UT', 'TU', (5,)), ('UT', 'ut', (5,))):
        yield from rows(LINK, ('countries %s and %s' % (first, second), rules,
                               {'issuer': issuer_name(first), 'subject': subject_name(LINK, second)}))


def countries():
    """The country counted over all SETs and types, and found wherever it stands."""
    ut, at, cn = country('UT'), country('AT'), common('CSCA')
    odd = attribute(COUNTRY, utf8('UT'))
    table = (
        ('no country', name(cn), (5,)),
        ('an empty name', sequence(), (5,)),
        ('the country alone', name(ut), ()),
        ('the country last', name(cn, ut), ()),
        ('the country in the middle', name(cn, ut, attribute(ORGANIZATION, utf8('Utopia'))), ()),
        ('the country second in a SET', sequence(set_of(common('C'), ut)), ()),
        ('the country first in a SET', sequence(set_of(ut, cn)), ()),
        ('the country twice in a SET', sequence(set_of(ut, ut), set_of(cn)), (5,)),
        ('two countries in a SET', sequence(set_of(at, ut)), (5,)),
        ('the country twice over SETs', name(ut, ut), (5,)),
        ('the country twice over SETs, first and last', name(ut, cn, ut), (5,)),
        ('two countries', name(ut, at), (5,)),
        ('the country twice, the second a UTF8String', name(ut, odd), (5,)),
        ('the country twice, the first a UTF8String', name(odd, ut), (5,)),
        ('the country twice, the second empty', name(ut, country('')), (5,)),
        ('the letters in another attribute too', name(ut, attribute(ORGANIZATION, printable('UT'))), ()),
    )
    for label, odd_name, rules in table:
        yield from rows(ANCHOR, ('issuer: ' + label, rules, {'issuer': odd_name}),
                        ('subject: ' + label, rules, {'subject': odd_name}))
    yield from rows(ANCHOR, ('no country in either name', (5,), {'issuer': name(cn), 'subject': name(cn)}),
                    ('two empty names', (5,), {'issuer': sequence(), 'subject': sequence()}),
                    ('two countries in both names', (5,), {'issuer': name(ut, at), 'subject': name(ut, at)}))


def unique():
    one, two = element(0x81, b'\0\1'), element(0x82, b'\0\1')
    for role in (ANCHOR, LINK, SIGNER):
        yield from rows(role, ('an 81', (6,), {'unique': one}), ('an 82', (6,), {'unique': two}))
    yield from rows(SIGNER, ('81 and 82', (6,), {'unique': one + two}),
                    ('an empty 81', (6,), {'unique': element(0x81)}),
                    ('an empty 82', (6,), {'unique': element(0x82)}), ('neither 81 nor 82', (), {'unique': b''}))


UTC_FORMS = (
    ('of no octets', ''), ('without seconds', '2401010000Z'), ('without Z', '240101000000'),
    ('with a lower case z', '240101000000z'), ('with an offset', '240101000000+0000'),
    ('with an octet after Z', '240101000000ZZ'), ('with a letter', '24010100000OZ'), ('with a sign', '+40101000000Z'),
    ('with a space', '24 101000000Z'), ('with a fraction', '240101000000.5Z'),
    ('of four year digits', '20240101000000Z'),
    ('with a colon', '24010100000:Z'), ('with a slash', '2401010/0000Z'),
)
UTC_MOMENTS = (
    ('month 00', '240001000000Z', False), ('month 01', '240101000000Z', True), ('month 12', '241201000000Z', True),
    ('month 13', '241301000000Z', False), ('day 00', '240100000000Z', False), ('day 31', '240131000000Z', True),
    ('day 32', '240132000000Z', False), ('31 April', '240431000000Z', False), ('30 April', '240430000000Z', True),
    ('29 February of a leap year', '240229000000Z', True), ('30 February', '240230000000Z', False),
    ('29 February of 2023', '230229000000Z', False), ('29 February of 2000', '000229000000Z', True),
    ('hour 23', '240101230000Z', True), ('hour 24', '240101240000Z', False), ('minute 59', '240101005900Z', True),
    ('minute 60', '240101006000Z', False), ('second 59', '240101000059Z', True), ('second 60', '240101000060Z', False),
    ('all nines', '999999999999Z', False), ('all zeros', '000000000000Z', False),
)
WIDE_FORMS = (
    ('of no octets', ''), ('of two year digits', '600101000000Z'), ('without seconds', '206001010000Z'),
    ('without Z', '20600101000000'), ('with a fraction', '20600101000000.5Z'),
    ('with an offset', '20600101000000+0000'),
    ('with a letter', '2O600101000000Z'), ('of five year digits', '120600101000000Z'),
    ('with a lower case z', '20600101000000z'),
)
WIDE_MOMENTS = (
    ('of 2049', '20491231235959Z', False), ('of 2050', '20500101000000Z', True), ('of 9999', '99991231235959Z', True),
    ('of 2024', '20240101000000Z', False), ('of 1950', '19500101000000Z', False),
    ('of year 0', '00000101000000Z', False),
    ('of 2100', '21000228000000Z', True), ('29 February of 2100', '21000229000000Z', False),
    ('29 February of 2400', '24000229000000Z', True), ('29 February of 2052', '20520229000000Z', True),
    ('29 February of 2051', '20510229000000Z', False), ('month 13', '20601301000000Z', False),
    ('month 00', '20600001000000Z', False), ('day 00', '20600100000000Z', False), ('day 32', '20600132000000Z', False),
    ('hour 24', '20600101240000Z', False), ('minute 60', '20600101006000Z', False),
    ('second 60', '20600101000060Z', False),
)


def moments():
    """A time as the start, before a far end, and as the end, after an early start."""
    far, early = generalized('99991231235959Z'), utc('500101000000Z')
    for kind, make, forms, table in (('UTCTime', utc, UTC_FORMS, UTC_MOMENTS),
                                     ('GeneralizedTime', generalized, WIDE_FORMS, WIDE_MOMENTS)):
        for label, text, holds in [(label, text, False) for label, text in forms] + list(table):
            rules = () if holds else (7,)
            yield from rows(
                SIGNER, ('start a %s %s' % (kind, label), rules, {'start': make(text), 'end': far}, {'end': far}),
                ('end a %s %s' % (kind, label), rules, {'start': early, 'end': make(text)}, {'start': early}))


def order():
    table = (
        ('start and end equal', utc('240101000000Z'), utc('240101000000Z'), ()),
        ('start one second before end', utc('240101000000Z'), utc('240101000001Z'), ()),
        ('start one second after end', utc('240101000001Z'), utc('240101000000Z'), (7,)),
        ('start one day after end', utc('240201000000Z'), utc('240131235959Z'), (7,)),
        ('start of year 50, which is 1950, end of year 49', utc('500101000000Z'), utc('491231235959Z'), ()),
        ('start of year 49, which is 2049, end of year 50', utc('491231235959Z'), utc('500101000000Z'), (7,)),
        ('start of year 99, end of year 00', utc('991231235959Z'), utc('000101000000Z'), ()),
        ('start of year 00, end of year 99', utc('000101000000Z'), utc('991231235959Z'), (7,)),
        ('start of 2049, end of 2050', utc('491231235959Z'), generalized('20500101000000Z'), ()),
        ('start of 2050, end of 2049', generalized('20500101000000Z'), utc('491231235959Z'), (7,)),
        ('start and end equal in 9999', generalized('99991231235959Z'), generalized('99991231235959Z'), ()),
        ('start one second after end in 2050', generalized('20500101000001Z'), generalized('20500101000000Z'), (7,)),
        ('neither time of its form', utc(''), generalized(''), (7,)),
    )
    for label, start, end, rules in table:
        left = {} if end == generalized('') else {'start': end, 'end': end}
        yield from rows(LINK, (label, rules, {'start': start, 'end': end}, left))
    yield from rows(ANCHOR,
                    ('start one second after end', (7,), {'start': utc('240101000001Z'), 'end': utc('240101000000Z')},
                     {'start': utc('240101000000Z'), 'end': utc('240101000000Z')}),
                    ('start and end equal', (), {'start': utc('240101000001Z'), 'end': utc('240101000001Z')}))


def cases():
    yield from with_mended(version, serial, algorithms, letters, countries, unique, moments, order)
