"""Cases of CRLs: the good ones, each rule from both sides, and several broken rules at once."""
import mended
import oracle_crl
from cases_certificate import NULL, octets_of
from certificate_build import (NO_MEANING, algorithm, authority_key, certificate, issuer_name, signature)
from crl_build import (CERTIFICATE_ISSUER, FIRST, INVALIDITY, NUMBER, SECOND, crl, entries, entry, extensions, number,
                       reason)
from der_build import (COUNTRY, as_set, attribute, boolean, common, context, country, extension, generalized, integer, name,
                       octet_string, oid, printable, sequence, set_of, utc, utf8)
from octets import element, nested, octets
from oracle_der import walk
from oracle_tree import tree
from record import CRL, Case
from refused import Refused

FIELDS = 'passed, %d to %d, %s, %d entries, issuer %d+%d'


def answer(item):
    try:
        fields = oracle_crl.judge(item)
        return FIELDS % (*fields[:4], *fields.issuer)
    except Refused as refusal:
        return refusal.words()


def asked(label, item, stated=None):
    return Case('crl: %s (built)' % label, CRL, answer(item), item, (), stated)


def judged(label, rules, item, count=None, left=()):
    """A case of an item that breaks those rules and no others, or none and has that many entries; and the parts of the
    good CRL that are changed when it is mended, if any are."""
    broken = oracle_crl.broken_rules(item)
    assert broken == list(rules), (label, broken)
    if rules:
        case = asked(label, item, 'refused 4, rule %d' % rules[0])
        case.broken = rules
        case.mended = crl(**dict(left))
        return case
    fields = oracle_crl.judge(item)
    assert count in (None, fields.entries), (label, fields.entries)
    issuer = octets_of(item, fields.issuer)
    assert issuer == tree(item).members[0].members[2].whole() and fields.letters.encode('ascii') in issuer, label
    return asked(label, item)


def rows(*table):
    """A case for each row: what it shows, the rules that are broken or none, the parts that are changed, and the parts
    that stay changed in the mended CRL, if any do."""
    for label, rules, changed, *left in table:
        yield judged(label, rules, crl(**changed), left=left[0] if left else {})


def good():
    listing = [entry(bytes([1, 2 + place]), extensions=[reason()] if place % 2 else None) for place in range(200)]
    for label, count, changed in (
            ('three entries', 3, {}),
            ('no list of entries', 0, {'entries': b''}),
            ('one entry', 1, {'entries': sequence(entry(FIRST))}),
            ('one entry with an extension', 1, {'entries': sequence(entry(FIRST, extensions=[reason()]))}),
            ('two entries without extensions', 2, {'entries': sequence(entry(FIRST), entry(SECOND))}),
            ('the same entry twice', 2, {'entries': sequence(entry(FIRST) * 2)}),
            ('200 entries', 200, {'entries': sequence(*listing)}),
            ('an issuer of over 256 octets', 3, {'issuer': name(country('UT'), common('c' * 300))}),
            ('extensions in the other order', 3, {'extensions': extensions()[::-1]}),
            ('an extension that means nothing here', 3, {'extensions': extensions() + [extension(NO_MEANING, b'')]}),
            ('algorithms empty', 3, {'algorithm': sequence(), 'outer': sequence()}),
            ('a signature of no bits', 3, {'signature': octets('03 01 00')})):
        yield judged(label, (), crl(**changed), count)


def not_der():
    item = crl()
    yield asked('no octets', b'', 'refused 2 at 0')
    yield asked('the last octet missing', item[:-1], 'refused 2 at 0')
    yield asked('an octet after it', item + b'\0', 'refused 2 at %d' % len(item))
    yield asked('a version that is not minimal', crl(version=octets('02 02 00 01')), 'refused 2 at 7')
    item = crl(entries=sequence(entry(b'')))
    yield asked('an entry with a serial of no octets', item, 'refused 2 at %d' % (item.index(entry(b'')) + 2))
    item = crl(version=b'', signature=octets('03 00'))
    yield asked('not DER and rule 1', item, 'refused 2 at %d' % (len(item) - 2))


def limits():
    room = 16384 - len(crl(signature=element(3, bytes(1000)))) + 1000
    for more, stated in ((0, None), (1, 'refused 3 at 0')):
        item = crl(signature=element(3, bytes(room + more)))
        assert len(item) == 16384 + more
        yield asked('%d octets' % len(item), item, stated)
    yield asked('16385 zeros', bytes(16385), 'refused 3 at 0')
    deep = crl(algorithm=nested(14), outer=nested(14))
    yield judged('depth 16 in the inner algorithm', (), deep, 3)
    deep = crl(algorithm=nested(15))
    yield asked('depth 17 in the inner algorithm', deep, 'refused 3 at %d' % (deep.index(nested(15)) + 28))
    # the algorithms are judged by their tags alone, and their members come in pairs
    two = {'entries': sequence(entry(FIRST), entry(SECOND))}
    free = 4096 - walk(crl(algorithm=sequence(), outer=sequence(), **two))
    half = sequence(NULL * (free // 2))
    assert free % 2 == 0
    yield judged('4096 elements', (), crl(algorithm=half, outer=half, **two), 2)
    item = crl(algorithm=half, outer=sequence(NULL * (free // 2 + 1)), **two)
    yield asked('4097 elements', item, 'refused 3 at %d' % (len(item) - len(signature())))
    listing = [entry((300 + place).to_bytes(2, 'big')) for place in range(700)]
    yield judged('700 entries', (), crl(entries=sequence(*listing)), 700)
    yield judged('700 entries, the last with a wrong time', (5,), crl(
        entries=sequence(*listing[:-1], entry(b'\5', utc('241301000000Z')))),
                 left={'entries': sequence(*listing[:-1], entry(b'\5'))})


def outermost():
    item = crl()
    for label, odd in (
            ('a SET around all', as_set(tree(item).parts())), ('one SEQUENCE more around all', sequence(item)),
            ('an empty SEQUENCE', sequence()), ('a NULL', NULL), ('a good signer', certificate(3)),
            ('a good anchor', certificate(1)),
            ('the tbs a SET', sequence(as_set(tree(item).members[0].parts()), *tree(item).parts()[1:])),
            ('an empty tbs', sequence(sequence(), algorithm(), signature()))):
        yield judged(label, (1,), odd)
    short = {'issuer': name(country('UT'))}
    more = {'extensions': extensions() + [extension(NO_MEANING, b'')]}
    wrong = (
        ('no signature', {'signature': b''}),
        ('the signature an OCTET STRING', {'signature': octet_string(b'\0')}),
        ('a NULL after the signature', {'after': NULL}),
        ('no outer algorithm', {'outer': b''}),
        ('the outer algorithm a SET', {'outer': set_of()}),
        ('no version', {'version': b''}),
        ('the version in an A0', {'version': context(0, integer(1))}),
        ('the version an ENUMERATED', {'version': octets('0A 01 01')}),
        ('the version twice', {'version': integer(1) * 2}),
        ('no inner algorithm', {'algorithm': b''}),
        ('the inner algorithm a SET', {'algorithm': set_of()}),
        ('no issuer', {'issuer': b''}),
        ('the issuer a SET', {'issuer': as_set(tree(issuer_name()).parts())}),
        ('no times', {'this': b'', 'next': b''}),
        ('no next update', {'next': b''}),
        ('no next update and no entries', {'next': b'', 'entries': b''}, {'entries': b''}),
        ('three times', {'next': utc('240530235959Z') * 2}),
        ('this update a PrintableString', {'this': printable('240301000000Z')}),
        ('next update a PrintableString', {'next': printable('240530235959Z')}),
        ('next update in a SEQUENCE', {'next': sequence(utc('240530235959Z'))}),
        ('two lists of entries', {'entries': entries() * 2}),
        ('the entries in a SET', {'entries': set_of(entry(FIRST))}),
        ('the entries in an A1', {'entries': context(1, entry(FIRST))}),
        ('a NULL for the entries', {'entries': NULL}),
        ('no block of extensions', {'block': b''}),
        ('neither entries nor block', {'entries': b'', 'block': b''}, {'entries': b''}),
        ('an A0 with nothing in it', {'block': context(0)}),
        ('an A0 with two lists', {'block': context(0, sequence(*extensions()), sequence())}),
        ('an A0 with a SET of extensions', {'block': context(0, as_set(extensions()))}),
        ('an A0 with the extensions themselves', {'block': context(0, *extensions())}),
        ('an A3 in place of A0', {'block': context(3, sequence(*extensions()))}),
        ('an 80 in place of A0', {'block': element(0x80, sequence(*extensions()))}),
        ('two blocks', {'block': context(0, sequence(*extensions())) * 2}),
        ('a NULL after the block', {'block': context(0, sequence(*extensions())) + NULL}),
        ('the block before the entries', {'entries': context(0, sequence(*extensions())), 'block': entries()}),
        ('an empty SET in the issuer', {'issuer': sequence(set_of(country('UT')), set_of())}, short),
        ('an attribute of three members in the issuer',
         {'issuer': name(country('UT'), sequence(oid('2.5.4.3'), NULL, NULL))}, short),
        ('a SEQUENCE for a SET in the issuer', {'issuer': sequence(sequence(country('UT')))}, short),
        ('an extension with an explicit FALSE', {'extensions': extensions() + [sequence(
            oid(NO_MEANING), boolean(False), octet_string(b''))]}, more),
        ('an extension without a value', {'extensions': extensions() + [sequence(oid(NO_MEANING))]}, more),
        ('an empty extension', {'extensions': extensions() + [sequence()]}, more),
        ('an extension of four members', {'extensions': extensions() + [sequence(
            oid(NO_MEANING), boolean(True), octet_string(b''), NULL)]}, more),
    )
    yield from rows(*[(label, (1,), *changed) for label, *changed in wrong])


def entry_shapes():
    time = utc('240215120000Z')
    wrong = (
        ('that is empty', sequence()),
        ('that is a SET', set_of(integer(5), time)),
        ('that is a NULL', NULL),
        ('of a serial alone', sequence(integer(5))),
        ('of a time alone', sequence(time)),
        ('with the time first', sequence(time, integer(5))),
        ('with a PrintableString for its time', sequence(integer(5), printable('240215120000Z'))),
        ('with a NULL for its time', sequence(integer(5), NULL)),
        ('with two times', sequence(integer(5), time, time)),
        ('with an OCTET STRING for its serial', sequence(octet_string(b'\5'), time)),
        ('with extensions in a SET', sequence(integer(5), time, set_of(reason()))),
        ('with extensions in an A0', sequence(integer(5), time, context(0, sequence(reason())))),
        ('with two lists of extensions', sequence(integer(5), time, sequence(reason()), sequence())),
        ('with a NULL at the end', sequence(integer(5), time, NULL)),
        ('with a NULL after its extensions', sequence(integer(5), time, sequence(reason()), NULL)),
        ('with an extension itself for the list', sequence(integer(5), time, reason())),
        ('with an empty extension', sequence(integer(5), time, sequence(sequence()))),
        ('with an extension that has an explicit FALSE', sequence(integer(5), time, sequence(
            sequence(oid(NO_MEANING), boolean(False), octet_string(b''))))),
        ('with an extension without a value', sequence(integer(5), time, sequence(sequence(oid(NO_MEANING))))),
    )
    mend = entry(b'\5')
    for label, odd in wrong:
        yield from rows(('an entry %s, alone' % label, (1,), {'entries': sequence(odd)}, {'entries': sequence(mend)}),
                        ('an entry %s, after good ones' % label, (1,),
                         {'entries': sequence(entry(FIRST), entry(SECOND), odd)},
                         {'entries': sequence(entry(FIRST), entry(SECOND), mend)}),
                        ('an entry %s, before a good one' % label, (1,), {'entries': sequence(odd, entry(FIRST))},
                         {'entries': sequence(mend, entry(FIRST))}))
    right = (
        ('with an empty list of extensions', entry(FIRST, extensions=[])),
        ('with an extension twice', entry(FIRST, extensions=[reason(), reason()])),
        ('with two extensions',
         entry(FIRST, extensions=[reason(), extension(INVALIDITY, generalized('20240101000000Z'))])),
        ('with serial 0', entry(b'\0')),
        ('with serial FF, which is -1', entry(b'\xff')),
        ('with a negative serial of 9 octets', entry(b'\x80' + bytes(8))),
        ('with a serial of 21 octets', entry(b'\1' * 21)),
        ('with a serial of 130 octets', entry(b'\1' * 130)),
        ('after this update', entry(FIRST, utc('491231235959Z'))),
        ('of 1950', entry(FIRST, utc('500101000000Z'))),
        ('of 2050', entry(FIRST, generalized('20500101000000Z'))),
        ('of 9999', entry(FIRST, generalized('99991231235959Z'))),
    )
    for label, one in right:
        yield judged('an entry ' + label, (), crl(entries=sequence(one)), 1)
        yield judged('an entry %s, after another' % label, (), crl(entries=sequence(entry(SECOND), one)), 2)


def parts():
    """Rules 2, 3 and 4."""
    for value in (0, 2, 3, -1, 127, 257, 2 ** 16 + 1, 2 ** 63 - 1, 2 ** 64 + 1):
        yield from rows(('version %d' % value, (2,), {'version': integer(value)}))
    yield from rows(('version 1, which is v2', (), {'version': integer(1)}))
    same = algorithm()
    last = same[:-1] + bytes([same[-1] ^ 1])
    longer = sequence(oid('1.2.840.10045.4.3.2'), NULL)
    yield from rows(
        ('algorithms differ in the last octet', (3,), {'outer': last}),
        ('algorithms differ in an octet of the inner', (3,), {'algorithm': last}),
        ('a NULL more in the outer algorithm', (3,), {'outer': longer}),
        ('a NULL more in the inner algorithm', (3,), {'algorithm': longer}),
        ('other algorithms, the same two', (), {'algorithm': longer, 'outer': longer}),
        ('the outer algorithm empty', (3,), {'outer': sequence()}))
    ut, cn = country('UT'), common('CSCA')
    yield from rows(
        ('an empty issuer', (4,), {'issuer': sequence()}),
        ('no country', (4,), {'issuer': name(cn)}),
        ('the country alone', (), {'issuer': name(ut)}),
        ('the country last', (), {'issuer': name(cn, ut)}),
        ('the country second in a SET', (), {'issuer': sequence(set_of(common('C'), ut))}),
        ('the country twice in a SET', (4,), {'issuer': sequence(set_of(ut, ut))}),
        ('the country twice over SETs', (4,), {'issuer': name(ut, cn, ut)}),
        ('the country twice, the second a UTF8String', (4,), {'issuer': name(ut, attribute(COUNTRY, utf8('UT')))}),
        ('the country a UTF8String', (4,), {'issuer': name(attribute(COUNTRY, utf8('UT')), cn)}),
        ('the country in lower case', (4,), {'issuer': issuer_name('ut')}),
        ('the country half in lower case', (4,), {'issuer': issuer_name('Ut')}),
        ('a country of three letters', (4,), {'issuer': issuer_name('UTO')}),
        ('a country of one letter', (4,), {'issuer': issuer_name('U')}),
        ('a country of digits', (4,), {'issuer': issuer_name('42')}),
        ('country AZ', (), {'issuer': issuer_name('AZ')}),
        ('country ZA', (), {'issuer': issuer_name('ZA')}))


def times():
    far, early = generalized('99991231235959Z'), utc('500101000000Z')
    table = (
        ('UTCTime of no octets', utc(''), False), ('UTCTime without seconds', utc('2403010000Z'), False),
        ('UTCTime without Z', utc('240301000000'), False), ('UTCTime with an offset', utc('240301000000+0000'), False),
        ('UTCTime with a letter', utc('24030100000OZ'), False), ('UTCTime of 14 digits', utc('20240301000000Z'), False),
        ('UTCTime in month 13', utc('241301000000Z'), False), ('UTCTime in month 00', utc('240001000000Z'), False),
        ('UTCTime in month 12', utc('241201000000Z'), True), ('UTCTime on day 32', utc('240332000000Z'), False),
        ('UTCTime on day 00', utc('240300000000Z'), False), ('UTCTime on 29 February 2024', utc('240229000000Z'), True),
        ('UTCTime on 29 February 2023', utc('230229000000Z'), False),
        ('UTCTime at hour 23', utc('240301230000Z'), True),
        ('UTCTime at hour 24', utc('240301240000Z'), False), ('UTCTime at minute 60', utc('240301006000Z'), False),
        ('UTCTime at second 60', utc('240301000060Z'), False), ('UTCTime at second 59', utc('240301000059Z'), True),
        ('UTCTime of year 49', utc('491231235959Z'), True), ('UTCTime of year 50', utc('500101000000Z'), True),
        ('GeneralizedTime of 2049', generalized('20491231235959Z'), False),
        ('GeneralizedTime of 2050', generalized('20500101000000Z'), True),
        ('GeneralizedTime of 9999', generalized('99991231235959Z'), True),
        ('GeneralizedTime of 2024', generalized('20240301000000Z'), False),
        ('GeneralizedTime of 12 digits', generalized('600301000000Z'), False),
        ('GeneralizedTime with a fraction', generalized('20600301000000.5Z'), False),
        ('GeneralizedTime on 29 February 2100', generalized('21000229000000Z'), False),
    )
    two = {'entries': sequence(entry(FIRST), entry(SECOND))}
    for label, time, holds in table:
        rules = () if holds else (5,)
        yield from rows(('this update a ' + label, rules, {'this': time, 'next': far}, {'next': far}),
                        ('next update a ' + label, rules, {'this': early, 'next': time}, {'this': early}),
                        ('an entry\'s time a ' + label, rules,
                         {'entries': sequence(entry(FIRST), entry(SECOND, time))}, two),
                        ('the first entry\'s time a ' + label, rules,
                         {'entries': sequence(entry(FIRST, time), entry(SECOND))}, two))
    same = utc('240301000000Z')
    yield from rows(
        ('both updates equal', (), {'this': same, 'next': same}),
        ('this update one second after the next', (5,), {'this': utc('240301000001Z'), 'next': same}, {'next': same}),
        ('this update one second before the next', (), {'this': same, 'next': utc('240301000001Z')}),
        ('this update of year 49, the next of year 50', (5,), {'this': utc('491231235959Z'), 'next': early},
         {'this': early, 'next': early}),
        ('this update of year 50, the next of year 49', (), {'this': early, 'next': utc('491231235959Z')}),
        ('this update of 2050, the next of 2049', (5,),
         {'this': generalized('20500101000000Z'), 'next': utc('491231235959Z')}, {'next': utc('491231235959Z')}))


def lists():
    """Rules 6, 7 and 8."""
    own, count, other = authority_key(), number(), extension(NO_MEANING, b'')
    yield from rows(
        ('an empty list of entries', (6,), {'entries': octets('30 00')}),
        ('an empty list of entries under other times', (6,),
         {'entries': octets('30 00'), 'this': utc('230301000000Z')}, {'this': utc('230301000000Z')}),
        ('an empty list of extensions', (7,), {'extensions': []}),
        ('no authority key identifier', (7,), {'extensions': [count]}),
        ('no CRL number', (7,), {'extensions': [own]}),
        ('neither, but another', (7,), {'extensions': [other]}),
        ('both, and another', (), {'extensions': [own, other, count]}),
        ('the authority key identifier twice', (7,), {'extensions': [own, own, count]}),
        ('the CRL number twice', (7,), {'extensions': [count, own, count]}),
        ('another twice', (7,), {'extensions': [other, own, count, other]}, {'extensions': [other, own, count]}),
        ('another twice with different contents', (7,),
         {'extensions': [own, other, count, extension(NO_MEANING, b'\1')]}, {'extensions': [own, other, count]}),
        ('numbers that start each other', (),
         {'extensions': [own, count, extension('2.5.29', b''), extension('2.5.29.20.1', b'')]}),
        ('the CRL number under a number that goes on', (7,),
         {'extensions': [own, extension('2.5.29.20.1', integer(1))]}),
        ('the delta indicator for the CRL number', (7,), {'extensions': [own, extension('2.5.29.27', integer(1))]}),
        ('the subject key identifier for the authority\'s', (7,), {'extensions': [count, extension('2.5.29.14', b'')]}),
        ('an authority key identifier of no octets', (), {'extensions': [authority_key(b''), count]}),
        ('an authority key identifier that is not DER', (), {'extensions': [authority_key(octets('30 80')), count]}),
        ('an authority key identifier without 80', (), {'extensions': [authority_key(sequence()), count]}),
        ('a CRL number of no octets', (), {'extensions': [own, extension(NUMBER, b'')]}),
        ('a CRL number that is negative', (), {'extensions': [own, extension(NUMBER, integer(-1))]}),
        ('a critical authority key identifier', (8,), {'extensions': [authority_key(critical=True), count]}),
        ('a critical CRL number', (8,), {'extensions': [own, number(critical=True)]}),
        ('another extension, critical', (8,), {'extensions': [own, count, extension(NO_MEANING, b'', True)]},
         {'extensions': [own, count, other]}),
        ('another extension first, critical', (8,), {'extensions': [extension(NO_MEANING, b'', True), own, count]},
         {'extensions': [other, own, count]}),
        ('a critical issuing distribution point', (8,),
         {'extensions': [own, count, extension('2.5.29.28', sequence(), True)]},
         {'extensions': [own, count, extension('2.5.29.28', sequence())]}),
        ('a critical extension in the first entry', (8,), {'entries': sequence(
            entry(FIRST, extensions=[reason(critical=True)]), entry(SECOND))},
         {'entries': sequence(entry(FIRST, extensions=[reason()]), entry(SECOND))}),
        ('a critical extension in the last entry', (8,), {'entries': sequence(
            entry(FIRST), entry(SECOND, extensions=[reason(critical=True)]))},
         {'entries': sequence(entry(FIRST), entry(SECOND, extensions=[reason()]))}),
        ('a critical extension second in an entry', (8,), {'entries': sequence(
            entry(FIRST, extensions=[reason(), extension(CERTIFICATE_ISSUER, sequence(), True)]))},
         {'entries': sequence(entry(FIRST, extensions=[reason(), extension(CERTIFICATE_ISSUER, sequence())]))}),
        ('no critical extension in an entry', (), {'entries': sequence(
            entry(FIRST, extensions=[reason(), extension(CERTIFICATE_ISSUER, sequence())]))}))


FAULTS = {
    2: {'version': integer(0)},
    3: {'outer': sequence(oid('1.2.840.10045.4.3.3'))},
    4: {'issuer': issuer_name('ut')},
    5: {'next': utc('240301000060Z')},
    6: {'entries': octets('30 00')},
}


def with_faults(rules):
    """A CRL that breaks those rules alone. The critical extension of rule 8 stands in the CRL's own list."""
    changed = {}
    for rule in rules:
        changed.update(FAULTS.get(rule, {}))
    members = extensions()[1:] if 7 in rules else extensions()
    return crl(extensions=members + ([extension(NO_MEANING, b'', True)] if 8 in rules else []), **changed)


def several():
    for first in range(2, 9):
        for second in range(first + 1, 9):
            rules = (first, second)
            yield judged('rules %d and %d' % rules, rules, with_faults(rules))
    for first in range(2, 7):
        rules = tuple(range(first, 9))
        yield judged('every rule from %d on' % first, rules, with_faults(rules))
    yield from rows(
        ('rules 1 and 2', (1,), {'version': integer(0), 'after': NULL}),
        ('an entry that breaks rule 1, another that breaks 5', (1,), {'entries': sequence(
            entry(FIRST, utc('')), sequence(integer(5)))}, {'entries': sequence(entry(FIRST), entry(b'\5'))}),
        ('an entry that breaks rule 5, another that breaks 8', (5, 8), {'entries': sequence(
            entry(FIRST, extensions=[reason(critical=True)]), entry(SECOND, utc('')))},
         {'entries': sequence(entry(FIRST, extensions=[reason()]), entry(SECOND))}))


def cases():
    for part in (good, not_der, limits, outermost, entry_shapes, parts, times, lists, several):
        yield from mended.beside(part(), lambda case: answer(case.mended))
