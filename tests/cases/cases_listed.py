"""Cases of the serials that a CRL lists and of its age on a day."""
import oracle_crl
from crl_build import FIRST, SECOND, THIRD, crl, entry, reason
from der_build import generalized, integer, sequence, utc
from octets import octets, spelled
from record import AGE, LISTED, Case
from refused import Refused

MOST = 2 ** 64 - 1


def listed(label, item, serial, stated):
    try:
        answer = 'listed' if oracle_crl.listed(item, serial) else 'not listed'
    except Refused as refusal:
        answer = refusal.words()
    return Case('listed: %s (built)' % label, LISTED, answer, item + serial, (len(serial),), stated)


def serials():
    yes, no = 'listed', 'not listed'
    item = crl()
    table = (
        ('the first of three', FIRST, yes),
        ('the second of three', SECOND, yes),
        ('the last of three', THIRD, yes),
        ('a start of the first', FIRST[:-1], no),
        ('an end of the first', FIRST[1:], no),
        ('the first with an octet more', FIRST + b'\0', no),
        ('the first with an octet before', b'\0' + FIRST, no),
        ('the first with another last octet', FIRST[:-1] + b'\x45', no),
        ('the first with another first octet', b'\x12' + FIRST[1:], no),
        ('a start of the last', THIRD[:-1], no),
        ('the last without its 00', THIRD[1:], no),
        ('the last with one 00 more', b'\0' + THIRD, no),
        ('no octets', b'', no),
        ('the first and the second', FIRST + SECOND, no),
        ('the first with its header', octets('02 04') + FIRST, no),
        ('a whole entry', entry(FIRST), no),
        ('octets of an entry\'s time', b'240215120000Z', no),
        ('one that is not there', octets('7F'), no),
        ('a serial of 300 octets', bytes(300), no),
    )
    for label, serial, stated in table:
        yield listed(label, item, serial, stated)
    yield listed('the CRL number', item, octets('29'), no)
    yield listed('the version', item, octets('01'), no)
    for label, listing, serial, stated in (
            ('no list of entries', b'', FIRST, no),
            ('no list of entries, no octets', b'', b'', no),
            ('the only one', sequence(entry(FIRST)), FIRST, yes),
            ('another than the only one', sequence(entry(FIRST)), SECOND, no),
            ('one that stands twice', sequence(entry(FIRST), entry(SECOND), entry(FIRST)), FIRST, yes),
            ('between two that stand twice', sequence(entry(FIRST), entry(SECOND), entry(FIRST)), SECOND, yes),
            ('after an entry with extensions', sequence(entry(FIRST, extensions=[reason()]), entry(SECOND)), SECOND,
             yes),
            ('in an entry with extensions', sequence(entry(FIRST), entry(SECOND, extensions=[reason()])), SECOND, yes),
            ('FF, where FF is listed', sequence(entry(b'\xff')), b'\xff', yes),
            ('00 FF, where FF is listed', sequence(entry(b'\xff')), b'\0\xff', no),
            ('FF, where 00 FF is listed', sequence(entry(b'\0\xff')), b'\xff', no),
            ('00, where 00 is listed', sequence(entry(b'\0')), b'\0', yes),
            ('no octets, where 00 is listed', sequence(entry(b'\0')), b'', no),
            ('20 octets', sequence(entry(b'\x7f' * 20)), b'\x7f' * 20, yes),
            ('20 octets that differ in the last', sequence(entry(b'\x7f' * 20)), b'\x7f' * 19 + b'\x7e', no),
            ('16 octets, where 17 are listed', sequence(entry(b'\x7f' * 17)), b'\x7f' * 16, no),
            ('33 octets', sequence(entry(b'\x7f' * 33)), b'\x7f' * 33, yes),
            ('33 octets that differ in the 17th', sequence(entry(b'\x7f' * 33)), b'\x7f' * 16 + b'\0' + b'\x7f' * 16,
             no),
            ('130 octets', sequence(entry(b'\x7f' * 130)), b'\x7f' * 130, yes)):
        yield listed(label, crl(entries=listing), serial, stated)
    many = [(1000 + place).to_bytes(2, 'big') for place in range(500)]
    item = crl(entries=sequence(*[entry(serial) for serial in many]))
    for label, serial, stated in (('the first of 500', many[0], yes), ('the last of 500', many[-1], yes),
                                  ('one amid 500', many[250], yes), ('one after the last of 500', octets('05 DC'), no)):
        yield listed('%s, %s' % (label, spelled(serial)), item, serial, stated)


def refused():
    yield listed('in a CRL that is not DER', octets('30 80'), FIRST, 'refused 2 at 0')
    yield listed('in no octets', b'', FIRST, 'refused 2 at 0')
    yield listed('in 16385 octets', bytes(16385), FIRST, 'refused 3 at 0')
    yield listed('in a CRL that breaks rule 2', crl(version=integer(0)), FIRST, 'refused 4, rule 2')
    yield listed('in a CRL with an empty list', crl(entries=sequence()), FIRST, 'refused 4, rule 6')
    yield Case('listed: a serial longer than all octets (built)', LISTED, 'no such question', crl(), (len(crl()) + 1,))
    yield Case('listed: a serial of the largest length (built)', LISTED, 'no such question', crl(), (MOST,))
    yield Case('listed: every octet the serial\'s (built)', LISTED, 'refused 2 at 0', crl(), (len(crl()),))


def age(label, item, day, stated):
    try:
        answer = '%d days' % oracle_crl.age(item, day)
    except Refused as refusal:
        answer = refusal.words()
    return Case('age: %s, on %d (built)' % (label, day), AGE, answer, item, (day,), stated)


def ages():
    item = crl()
    for day, days in ((20240301, 0), (20240302, 1), (20240229, -1), (20240228, -2), (20240313, 12), (20240531, 91),
                      (20250301, 365), (20230301, -366), (19500101, -27088), (20991231, 27698)):
        yield age('this update of 20240301', item, day, '%d days' % days)
    for label, time, day, stated in (
            ('this update of the last second of a day', utc('240301235959Z'), 20240302, '1 days'),
            ('this update of 1950', utc('500101000000Z'), 19500101, '0 days'),
            ('this update of 1950, far', utc('500101000000Z'), 20991231, '54786 days'),
            ('this update of 2049', utc('491231235959Z'), 20500101, '1 days'),
            ('this update of 2050', generalized('20500101000000Z'), 20491231, '-1 days'),
            ('this update of the last day of 2099', generalized('20991231235959Z'), 20991231, '0 days'),
            ('this update of the last day of 2099, before', generalized('20991231235959Z'), 20991230, '-1 days'),
            ('this update of the first day of 2100', generalized('21000101000000Z'), 20991231, 'refused 1'),
            ('this update of 2100', generalized('21000301000000Z'), 20240301, 'refused 1'),
            ('this update of 9999', generalized('99991231235959Z'), 20240301, 'refused 1')):
        yield age(label, crl(this=time, next=generalized('99991231235959Z')), day, stated)


def no_age():
    """The day's own refusal, then the CRL's, then that of a this update after 2099."""
    late = {'this': generalized('21000101000000Z'), 'next': generalized('21000401000000Z')}
    broken, late_and_broken = crl(version=integer(0)), crl(version=integer(0), **late)
    for day in (20240230, 20230229, 19491231, 21000101, 20241301, 20240100, 0, 2 ** 32 + 20240301, 2 ** 63, MOST):
        yield age('a day that is none, a good CRL', crl(), day, 'refused 1')
    for label, item, stated in (
            ('a CRL that breaks rule 2', broken, 'refused 4, rule 2'),
            ('a CRL that breaks rule 5 by its this update', crl(this=utc('240230000000Z')), 'refused 4, rule 5'),
            ('a CRL that is not DER', octets('30 80'), 'refused 2 at 0'),
            ('a CRL of 16385 octets', bytes(16385), 'refused 3 at 0'),
            ('a this update of 2100 and rule 2', late_and_broken, 'refused 4, rule 2'),
            ('a this update of 2100', crl(**late), 'refused 1')):
        yield age(label, item, 20240301, stated)
        yield age(label, item, 20240230, 'refused 1')
        yield age(label, item, 21000101, 'refused 1')


def cases():
    for part in (serials, refused, ages, no_age):
        yield from part()
