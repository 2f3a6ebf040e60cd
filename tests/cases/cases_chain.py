"""Cases of the best chain to a signer."""
import pathlib

import oracle_chain
from certificate_build import KEY_USAGE, SIGNS_CERTIFICATES
from chain_build import KEY, NAME, anchor, crl, link, named, signer, table
from der_build import (COMMON_NAME, attribute, common, context, country, extension, generalized, integer,
                       name, printable, utc)
from image_build import ANCHOR, CRL, LINK, SIGNER, Item, changed, image, items
from record import CHAIN, Case
from refused import Refused

MOST = 2 ** 64 - 1
MOMENT = 20260301120000
ARGUMENT, NONE = Refused(1), Refused(7)
MADE = pathlib.Path(__file__).resolve().parents[1] / 'data' / 'made'
B = named('B')


def words(number, detail, places):
    """The answer of the program, by both searches: in a refusal the length is 0, and every slot beyond the length holds 255."""
    if number:
        told = Refused(number, detail).words() + ', length 0, other slots 255'
    else:
        told = 'chain of %d:%s, other slots 255' % (len(places), ''.join(' %d' % place for place in places))
    return told + '; by rounds ' + told


def asked(label, one, verdicts, stated, moment=MOMENT, target=0):
    """A case over an image's bytes and a table's. `stated` is the chain worked out by hand, or the refusal."""
    number, detail, length, places = oracle_chain.chain_of_image(one, verdicts, moment, target)
    assert length == len(places) and len(oracle_chain.slots(places)) == 96, label
    wanted = (stated.number, stated.detail, ()) if isinstance(stated, Refused) else (0, 0, stated)
    return Case('chain: ' + label, CHAIN, words(number, detail, places), one + verdicts, (len(one), moment, target),
                words(*wanted))


def over(label, listed, pairs, stated, target=None, **more):
    """A case over items, and the pairs of places with verdict 1. The target is the last signer, where none is given."""
    if target is None:
        target = max(place for place, item in enumerate(listed) if item.kind == SIGNER)
    return asked(label, image(listed), table(len(listed), pairs), stated, target=target, **more)


# an anchor, two links, a signer, a CRL, as in the rules paper
FIVE = [anchor(), link(serial=b'\1'), link(serial=b'\2'), signer(serial=b'\3'), crl()]
DIAMOND = [(0, 1), (0, 2), (1, 3), (2, 3), (0, 4)]
# an anchor, a link, a signer, a CRL
FOUR = [anchor(), link(serial=b'\1'), signer(serial=b'\2'), crl()]
LINE = [(0, 1), (1, 2), (0, 3)]
# an anchor, a signer, a CRL
THREE = [anchor(), signer(serial=b'\2'), crl()]
STEP = [(0, 1), (0, 2)]


def replaced(listed, place, item):
    return listed[:place] + [item] + listed[place + 1:]


def paper():
    yield over('the rules paper\'s, by two links', FIVE, DIAMOND, [0, 1, 3])
    yield over('the rules paper\'s, with a verdict from anchor to signer', FIVE, DIAMOND + [(0, 3)], [0, 3])
    for pair, stated in (((0, 1), [0, 2, 3]), ((0, 2), [0, 1, 3]), ((1, 3), [0, 2, 3]), ((2, 3), [0, 1, 3]),
                         ((0, 4), NONE)):
        yield over('the rules paper\'s without verdict %d-%d' % pair, FIVE, [one for one in DIAMOND if one != pair],
                   stated)
    yield over('the rules paper\'s with verdicts 0-1 and 2-3 alone', FIVE, [(0, 1), (2, 3), (0, 4)], NONE)
    yield over('the rules paper\'s with the CRL\'s verdict alone', FIVE, [(0, 4)], NONE)
    yield over('the rules paper\'s with no verdict', FIVE, [], NONE)
    yield over('the rules paper\'s with every verdict', FIVE, [(u, v) for u in range(5) for v in range(5)], [0, 3])
    yield over('the rules paper\'s with rows and columns exchanged', FIVE, [(v, u) for u, v in DIAMOND], NONE)
    yield over('an anchor, a signer, a CRL', THREE, STEP, [0, 1])
    yield over('an anchor, a link, a signer, a CRL', FOUR, LINE, [0, 1, 2])
    for day in (19500101, 20991231):
        yield asked('the image\'s day is %d' % day, image(THREE, day=day), table(3, STEP), [0, 1], target=1)


def shape(letters):
    """Items by letters: an anchor, a link, a signer or a CRL each. All serials differ."""
    make = {'a': anchor, 'l': link, 's': signer}
    return [crl() if letter == 'c' else make[letter](serial=bytes([place + 1])) for place, letter in enumerate(letters)]


def ties():
    yield over('two anchors sign', shape('aasc'), [(0, 2), (1, 2), (0, 3)], [0, 2])
    yield over('two anchors, the second signs', shape('aasc'), [(1, 2), (0, 3)], [1, 2])
    yield over('two anchors behind the signer', shape('scaa'), [(3, 0), (2, 0), (2, 1)], [2, 0])
    yield over('links before their anchor', shape('sllac'), [(3, 1), (3, 2), (1, 0), (2, 0), (3, 4)], [3, 1, 0])
    yield over('links before their anchor, in the other order', shape('llasc'),
               [(2, 1), (1, 3), (2, 0), (0, 3), (2, 4)], [2, 0, 3])
    yield over('decided at the second place, not at the last before the signer', shape('allllsc'),
               [(0, 1), (0, 2), (1, 4), (2, 3), (3, 5), (4, 5), (0, 6)], [0, 1, 4, 5])
    yield over('decided at the second place of five', shape('allllllsc'),
               [(0, 1), (0, 2), (1, 4), (2, 3), (4, 6), (3, 5), (6, 7), (5, 7), (0, 8)], [0, 1, 4, 6, 7])
    yield over('decided at the third place', shape('alllsc'), [(0, 1), (1, 2), (1, 3), (2, 4), (3, 4), (0, 5)],
               [0, 1, 2, 4])
    yield over('decided at the anchor, against the links', shape('aallsc'), [(0, 3), (1, 2), (3, 4), (2, 4), (0, 5)],
               [0, 3, 4])
    yield over('decided at the anchor, against both links', shape('aallllsc'),
               [(0, 5), (5, 4), (4, 6), (1, 2), (2, 3), (3, 6), (0, 7)], [0, 5, 4, 6])
    yield over('one link under two anchors', shape('aalsc'), [(1, 2), (0, 2), (2, 3), (0, 4)], [0, 2, 3])
    yield over('a second anchor shorter than the first', shape('aalsc'), [(0, 2), (2, 3), (1, 3), (0, 4)], [1, 3])
    yield over('a later link shorter than earlier ones', shape('alllsc'),
               [(0, 1), (1, 2), (2, 4), (0, 3), (3, 4), (0, 5)], [0, 3, 4])
    yield over('a link reached by another and by the anchor', shape('allsc'), [(0, 1), (1, 2), (0, 2), (2, 3), (0, 4)],
               [0, 2, 3])
    yield over('a last anchor after many links', shape('allllllasc'),
               [(0, 1), (1, 2), (2, 3), (3, 4), (4, 5), (5, 6), (6, 8), (7, 8), (0, 9)], [7, 8])
    two = shape('alsslsc')
    pairs = [(0, 1), (1, 2), (0, 4), (4, 3), (4, 5), (1, 5), (0, 6)]
    for target, stated in ((2, [0, 1, 2]), (3, [0, 4, 3]), (5, [0, 1, 5])):
        yield over('three signers, place %d' % target, two, pairs, stated, target)


def odd_steps():
    """Loops, and verdicts that make no step."""
    yield over('a link that signed itself', FOUR, LINE + [(1, 1)], [0, 1, 2])
    yield over('a link that signed itself and no anchor it', FOUR, [(1, 1), (1, 2), (0, 3)], NONE)
    yield over('a loop of two links on the way', shape('allsc'), [(0, 1), (1, 2), (2, 1), (2, 3), (0, 4)], [0, 1, 2, 3])
    yield over('a loop of two links that no anchor signed', shape('allsc'), [(1, 2), (2, 1), (2, 3), (0, 4)], NONE)
    yield over('a loop of three links, the last signs', shape('alllsc'),
               [(0, 1), (1, 2), (2, 3), (3, 1), (3, 4), (0, 5)], [0, 1, 2, 3, 4])
    yield over('an anchor signed by a link', FOUR, LINE + [(1, 0), (0, 0)], [0, 1, 2])
    # names and key identifiers of an authority, so that nothing but its kind is in the way
    between = signer(own=KEY, subject=NAME, serial=b'\2')
    for label, pairs in (('a signer that signed a signer', [(0, 1), (1, 2), (0, 3)]),
                         ('a signer that signed a signer, and an anchor both', [(0, 1), (1, 2), (0, 2), (0, 3)])):
        yield over(label, replaced(shape('assc'), 1, between), pairs, [0, 2] if (0, 2) in pairs else NONE)
    yield over('a signer that signed a link', replaced(shape('aslsc'), 1, between), [(0, 1), (1, 2), (2, 3), (0, 4)],
               NONE)
    yield over('a CRL that signed a signer', THREE, [(0, 2), (2, 1)], NONE)
    for flags, stated in ((1, [1, 2]), (0, NONE)):
        yield over('an anchor between, flags %d' % flags, replaced(shape('aasc'), 1, anchor(flags, by=KEY)),
                   [(0, 1), (1, 2), (0, 3)], stated)
    yield over('a signer that signed itself', THREE, [(1, 1), (0, 2)], NONE)
    yield over('no anchor', shape('lsc'), [(0, 1), (0, 2)], NONE)


def long():
    """96 places: an anchor, 93 links, a signer and a CRL."""
    line = shape('a' + 'l' * 93 + 'sc')
    steps = [(place, place + 1) for place in range(94)] + [(0, 95)]
    yield over('96 places in a line', line, steps, list(range(95)))
    yield over('96 places in a line, a verdict from 10 to 90', line, steps + [(10, 90)],
               list(range(11)) + list(range(90, 95)))
    yield over('96 places in a line, the last verdict missing', line, [one for one in steps if one != (93, 94)], NONE)
    yield over('96 places, every verdict', line, [(u, v) for u in range(96) for v in range(96)], [0, 94])
    turned = shape('s' + 'l' * 93 + 'ac')
    yield over('96 places in a line, from the last to the first', turned,
               [(place + 1, place) for place in range(94)] + [(94, 95)], list(range(94, -1, -1)))
    yield over('96 places in a line, the 50th link listed', replaced(line, 95, crl(b'\x33')), steps, NONE)


def anchors():
    for label, odd in (('disabled', anchor(0)), ('over', anchor(end=utc('260301115959Z'))),
                       ('not yet valid', anchor(start=utc('260301120001Z'))),
                       ('that breaks a rule', anchor(serial=b'\0')), ('that is not DER', Item(ANCHOR, 1, b'\x30'))):
        yield over('an anchor %s' % label, replaced(THREE, 0, odd), STEP, NONE)
        listed = [odd, anchor()] + THREE[1:]
        yield over('an anchor %s, then a usable one' % label, listed, [(0, 2), (1, 2), (1, 3)], [1, 2])
        yield over('an anchor %s, the CRL vouched for by a usable one' % label, listed, [(0, 2), (1, 3)], NONE)
        yield over('an anchor %s alone vouches for the CRL' % label, listed, [(1, 2), (0, 3)], NONE)
    yield over('an anchor that the CRL lists', replaced(THREE, 2, crl(b'\1')), STEP, [0, 1])
    yield over('an anchor whose issuer has another name', replaced(THREE, 0, anchor(issuer=B)), STEP, [0, 1])
    yield over('an anchor with the signer\'s issuer for its issuer alone', replaced(THREE, 0, anchor(subject=B)), STEP,
               NONE)
    yield over('a link\'s certificate as an anchor', replaced(THREE, 0, Item(ANCHOR, 1, link().octets)), STEP, [0, 1])
    yield over('an anchor\'s certificate as a link', replaced(FOUR, 1, Item(LINK, 0, anchor().octets)), LINE, NONE)


def covered():
    yield over('no CRL', shape('as'), [(0, 1)], NONE)
    other_type = attribute(COMMON_NAME, printable('A'))
    for label, issuer in (('of another name in the country', B), ('written in lower case', named('a')),
                          ('written in another string type', name(country('UT'), other_type)),
                          ('of the country alone', name(country('UT'))),
                          ('with its country last', name(common('B'), country('UT'))),
                          ('with its country in a SET of two', name(other_type + country('UT')))):
        yield over('a CRL whose issuer is %s' % label, replaced(THREE, 2, crl(issuer=issuer)), STEP, [0, 1])
        yield over('a CRL whose issuer is %s, which lists the signer' % label,
                   replaced(THREE, 2, crl(b'\2', issuer=issuer)), STEP, NONE)
    yield over('a CRL with no verdict', THREE, [(0, 1)], NONE)
    yield over('a CRL vouched for by a link alone', FOUR, [(0, 1), (1, 2), (1, 3)], NONE)
    yield over('a CRL vouched for by a signer alone', THREE, [(0, 1), (1, 2)], NONE)
    yield over('a CRL vouched for by itself alone', THREE, [(0, 1), (2, 2)], NONE)
    yield over('a CRL that breaks a rule', replaced(THREE, 2, crl(version=integer(0))), STEP, NONE)
    yield over('a CRL that is not DER', replaced(THREE, 2, Item(CRL, 0, b'\x30')), STEP, NONE)
    yield over('a certificate as a CRL', replaced(THREE, 2, Item(CRL, 0, signer().octets)), STEP, NONE)
    foreign = anchor(subject=named('X', 'XO'), issuer=named('X', 'XO'))
    yield over('a CRL vouched for by an anchor of another country', [anchor(), foreign] + THREE[1:], [(0, 2), (1, 3)],
               NONE)
    other = anchor(subject=B, issuer=B, own=b'\2')
    yield over('a CRL vouched for by another anchor of the country', [anchor(), other] + THREE[1:], [(0, 2), (1, 3)],
               [0, 2])
    yield over('a CRL vouched for by a disabled anchor of the country',
               [anchor(), other._replace(flags=0)] + THREE[1:], [(0, 2), (1, 3)], NONE)
    # the link has issuer A and subject B
    two = [anchor(), link(subject=B, own=b'\2'), signer(issuer=B, by=b'\2'), crl(), crl(issuer=B)]
    yield over('two names, a CRL for each', two, [(0, 1), (1, 2), (0, 3), (0, 4)], [0, 1, 2])
    yield over('two names, the second\'s CRL covers the link too', two, [(0, 1), (1, 2), (0, 4)], [0, 1, 2])
    yield over('two names, the first\'s CRL covers the signer too', two, [(0, 1), (1, 2), (0, 3)], [0, 1, 2])
    yield over('two names, no CRL counts', two, [(0, 1), (1, 2)], NONE)


def listing():
    yield over('the signer listed', replaced(THREE, 2, crl(b'\2')), STEP, NONE)
    yield over('the signer listed last of three', replaced(THREE, 2, crl(b'\7', b'\6', b'\2')), STEP, NONE)
    yield over('other serials listed', replaced(THREE, 2, crl(b'\1', b'\3', b'\2\2')), STEP, [0, 1])
    yield over('a link listed', replaced(FIVE, 4, crl(b'\1')), DIAMOND, [0, 2, 3])
    yield over('both links listed', replaced(FIVE, 4, crl(b'\1', b'\2')), DIAMOND, NONE)
    yield over('both links listed, the anchor signs', replaced(FIVE, 4, crl(b'\1', b'\2')), DIAMOND + [(0, 3)], [0, 3])
    high = replaced(THREE, 1, signer(serial=b'\0\x80'))
    yield over('serial 00 80 listed', replaced(high, 2, crl(b'\0\x80')), STEP, NONE)
    yield over('serial 80 listed, the signer\'s is 00 80', replaced(high, 2, crl(b'\x80')), STEP, [0, 1])
    twice = STEP + [(0, 3)]
    for label, second, stated in (
            ('the second lists the signer', crl(b'\2'), NONE),
            ('the second lists another serial', crl(b'\3'), [0, 1]),
            ('the second has another name in the country and lists the signer\'s serial', crl(b'\2', issuer=B), NONE),
            ('the second has another name in the country and lists another serial', crl(b'\3', issuer=B), [0, 1]),
            ('the second is over and lists the signer', crl(b'\2', next=utc('260301115959Z')), [0, 1]),
            ('the second is not yet valid and lists the signer', crl(b'\2', this=utc('260301120001Z')), [0, 1]),
            ('the second breaks a rule and lists the signer', crl(b'\2', version=integer(0)), [0, 1]),
            ('the second is older and lists the signer', crl(b'\2', this=utc('230101000000Z')), NONE),
            ('the second is newer and lists the signer', crl(b'\2', this=utc('260201000000Z')), NONE)):
        yield over('two CRLs, ' + label, THREE + [second], twice, stated)
    yield over('two CRLs, the first lists the signer', replaced(THREE, 2, crl(b'\2')) + [crl()], twice, NONE)
    yield over('two CRLs, the second with no verdict lists the signer', THREE + [crl(b'\2')], STEP, [0, 1])
    yield over('two CRLs, the first with no verdict', THREE + [crl()], [(0, 1), (0, 3)], [0, 1])


def more_trust():
    """Pairs alike but for one change, and why the conditions on it stand: a verdict for a CRL, or an anchor that vouches
    for one, can lose a chain."""
    yield over('more trust, a verdict for the signer, before', FOUR, LINE, [0, 1, 2])
    yield over('more trust, a verdict for the signer, after', FOUR, LINE + [(0, 2)], [0, 2])
    second = THREE + [crl(b'\2')]
    yield over('a verdict for a CRL that lists the signer, before', second, STEP, [0, 1])
    yield over('a verdict for a CRL that lists the signer, after', second, STEP + [(0, 3)], NONE)
    for flags, label in ((0, 'before'), (1, 'after')):
        silent = [anchor(), anchor(flags), link(serial=b'\1'), signer(serial=b'\2'), crl()]
        yield over('more trust, an anchor that vouches for no CRL, ' + label, silent, [(0, 2), (2, 3), (1, 3), (0, 4)],
                   [1, 3] if flags else [0, 2, 3])
        vouching = [anchor(), anchor(flags), signer(serial=b'\2'), crl(), crl(b'\2')]
        yield over('an anchor that vouches for a CRL which lists the signer, ' + label, vouching,
                   [(0, 2), (0, 3), (1, 4)], NONE if flags else [0, 2])


def longer_list():
    """A CRL that lists more, and why it has to count in both and keep its issuer's country."""
    listed = replaced(THREE, 2, crl(b'\2')) + [crl()]
    every = STEP + [(0, 3)]
    yield over('a longer list, before', listed, every, NONE)
    yield over('a longer list, after', replaced(listed, 2, crl(b'\2', b'\7')), every, NONE)
    over_now = crl(b'\2', b'\7', next=utc('260301115959Z'))
    yield over('a longer list that counts no more', replaced(listed, 2, over_now), every, [0, 1])
    yield over('a longer list that did not count, before', replaced(THREE, 2, crl(next=utc('260301115959Z'))), STEP, NONE)
    yield over('a longer list that did not count, after', replaced(THREE, 2, crl(b'\7')), STEP, [0, 1])
    theirs = named('A', 'XO')
    foreign = anchor(subject=theirs, issuer=theirs)
    for label, issuer, stated in (('before', NAME, NONE), ('after', theirs, [0, 1])):
        moved = listed[:2] + [crl(b'\2', issuer=issuer), crl(), foreign]
        yield over('a list that goes to another country, ' + label, moved, every + [(4, 2)], stated)


def matching():
    def with_signer(**changes):
        return replaced(THREE, 1, signer(**changes))

    yield over('the signer\'s issuer is another', with_signer(issuer=B) + [crl(issuer=B)], STEP + [(0, 3)], NONE)
    yield over('the signer\'s key identifier is another', with_signer(by=b'\2'), STEP, NONE)
    yield over('the signer\'s key identifier is longer', with_signer(by=KEY + b'\1'), STEP, NONE)
    yield over('the signer\'s key identifier is empty', with_signer(by=b''), STEP, NONE)
    yield over('the anchor\'s key identifier is empty', replaced(THREE, 0, anchor(own=b'')), STEP, NONE)
    yield over('both key identifiers are empty', replaced(with_signer(by=b''), 0, anchor(own=b'')), STEP, [0, 1])
    wide = bytes(range(1, 41))
    for label, by, stated in (('equal', wide, [0, 1]), ('different in the last octet', wide[:-1] + b'\0', NONE),
                              ('different in the first octet', b'\0' + wide[1:], NONE),
                              ('different by an octet less', wide[:-1], NONE)):
        yield over('key identifiers of 40 octets, ' + label, replaced(with_signer(by=by), 0, anchor(own=wide)), STEP,
                   stated)
    yield over('the first link\'s subject is another', replaced(FIVE, 1, link(subject=B)), DIAMOND, [0, 2, 3])
    yield over('the first link\'s own key is another', replaced(FIVE, 1, link(own=b'\2')), DIAMOND, [0, 2, 3])
    yield over('the first link\'s issuer key is another', replaced(FIVE, 1, link(by=b'\2')), DIAMOND, [0, 2, 3])
    yield over('the link\'s own key for its issuer\'s', replaced(FOUR, 1, link(own=b'\2', by=b'\2')), LINE, NONE)


def passing():
    wrong = signer(extensions=[extension(KEY_USAGE, SIGNS_CERTIFICATES, critical=True)])
    for label, odd in (('that breaks a rule', wrong), ('that is not DER', Item(SIGNER, 0, b'\x30')),
                       ('of one octet, 00', Item(SIGNER, 0, b'\0')),
                       ('that is an anchor', Item(SIGNER, 0, anchor().octets)),
                       ('that is a CRL', Item(SIGNER, 0, crl().octets))):
        yield over('a signer %s' % label, replaced(THREE, 1, odd), STEP, NONE)
    for label, odd in (('that breaks a rule', link(version=context(0, integer(1)))),
                       ('that is a signer', Item(LINK, 0, signer().octets)),
                       ('that is not DER', Item(LINK, 0, b'\x30\x80'))):
        yield over('a link %s' % label, replaced(FOUR, 1, odd), LINE, NONE)
    yield over('a signer with a subject key identifier', replaced(THREE, 1, signer(own=b'\2')), STEP, [0, 1])
    yield over('a signer with its issuer\'s key for its own alone', replaced(THREE, 1, signer(own=KEY, by=b'\2')), STEP,
               NONE)


def seconds():
    """Times from 10 to 11 o'clock: the first and the last second count."""
    start, end = utc('260301100000Z'), utc('260301110000Z')
    line = (('the anchor', 0, anchor(start=start, end=end)), ('the link', 1, link(start=start, end=end)),
            ('the signer', 2, signer(serial=b'\2', start=start, end=end)), ('the CRL', 3, crl(this=start, next=end)))
    for label, place, item in line:
        for moment, stated in ((20260301095959, NONE), (20260301100000, [0, 1, 2]), (20260301110000, [0, 1, 2]),
                               (20260301110001, NONE)):
            yield over('%s from 10 to 11 o\'clock, at %d' % (label, moment), replaced(FOUR, place, item), LINE, stated,
                       moment=moment)
    every = [item for _, _, item in line]
    yield over('all from 10 to 11 o\'clock, at the first second', every, LINE, [0, 1, 2], moment=20260301100000)
    yield over('all from 10 to 11 o\'clock, at the last second', every, LINE, [0, 1, 2], moment=20260301110000)


def moments():
    early, far = utc('500101000000Z'), generalized('99991231235959Z')
    always = [anchor(start=early, end=far), signer(start=early, end=far), crl(this=early, next=far)]
    for moment, stated in ((19500101000000, [0, 1]), (20991231235959, [0, 1]), (20240229000000, [0, 1]),
                           (20260301235959, [0, 1]), (19491231235959, ARGUMENT), (21000101000000, ARGUMENT),
                           (20260229000000, ARGUMENT), (20261301000000, ARGUMENT), (20260001000000, ARGUMENT),
                           (20260300000000, ARGUMENT), (20260301240000, ARGUMENT), (20260301006000, ARGUMENT),
                           (20260301000060, ARGUMENT), (20260301, ARGUMENT), (0, ARGUMENT), (MOST, ARGUMENT)):
        yield over('at moment %d' % moment, always, STEP, stated, moment=moment)


def targets():
    for target, label in ((0, 'an anchor'), (1, 'a link'), (4, 'a CRL'), (5, 'one past the last'), (96, 'past 95'),
                          (255, 'the octet of no place'), (259, '256 and 3'), (2 ** 32 + 3, '2^32 and 3'),
                          (MOST, '2^64 - 1')):
        yield over('target %d, %s' % (target, label), FIVE, DIAMOND, ARGUMENT, target)
    yield asked('target 0 of no items', image(), b'', ARGUMENT)
    yield over('a signer alone', shape('s'), [], NONE)


def tables():
    one, good = image(FIVE), table(5, DIAMOND)
    for label, odd in (
            ('a 2 for a 1', good.replace(b'\1', b'\2', 1)), ('a 2 where it plays no part', good[:-1] + b'\2'),
            ('a 255 first', b'\xff' + good[1:]), ('a 255 last', good[:-1] + b'\xff'),
            ('a 128 in the middle', good[:12] + b'\x80' + good[13:]),
            ('one octet short', good[:-1]), ('one octet long', good + b'\0'), ('empty', b''),
            ('one row short', good[:-5]), ('of six places', bytes(36)), ('of one octet', b'\1')):
        yield asked('a table, %s' % label, one, odd, ARGUMENT, target=3)
    yield asked('no items, a table of one octet', image(), b'\0', ARGUMENT)
    yield asked('no items, a table of a 2', image(), b'\2', ARGUMENT)


def refusals():
    """The image's fault is told first, then an argument's, then that there is no chain."""
    good = table(5, DIAMOND)
    bad, body = changed(FIVE, 4, kind=5), b''.join(item.octets for item in FIVE)
    for label, one, rule in (
            ('no octets', b'', 1), ('version 3', image(FIVE, version=3), 2),
            ('97 entries', image(items(97, SIGNER)), 3),
            ('day 20240230', image(FIVE, day=20240230), 4), ('index start 0', image(FIVE, start=0), 5),
            ('kind 5', image(FIVE, bad), 6), ('an octet more', image(FIVE, body=body + b'\0'), 7)):
        yield asked('a bad image, %s' % label, one, good, Refused(5, rule), target=3)
        yield asked('a bad image, %s, and all else bad' % label, one, b'\2', Refused(5, rule), 0, MOST)
    one = image(FIVE)
    yield asked('table and moment bad', one, good[:-1], ARGUMENT, 0, 3)
    yield asked('table and target bad', one, good[:-1], ARGUMENT, target=0)
    yield asked('moment and target bad', one, good, ARGUMENT, 0, 0)
    yield asked('moment bad and no chain', one, bytes(25), ARGUMENT, 0, 3)
    yield asked('target bad and no chain', one, bytes(25), ARGUMENT, target=4)
    yield asked('table bad and no chain', one, bytes(24) + b'\2', ARGUMENT, target=3)
    yield Case('chain: an image of more octets than there are', CHAIN, 'no such question', b'\0', (2, MOMENT, 0))


def two_countries():
    def of(make, letters, **more):
        same = named('A', letters)
        return make(issuer=same, **({} if make is crl else {'letters': letters} if make is signer else
                                    {'subject': same}), **more)

    listed = [of(anchor, 'UT'), of(anchor, 'XO'), of(link, 'XO'), of(signer, 'UT', serial=b'\2'),
              of(signer, 'XO', serial=b'\2'), of(crl, 'UT'), of(crl, 'XO')]
    pairs = [(0, 3), (1, 2), (2, 4), (0, 5), (1, 6)]
    yield over('two countries, the first', listed, pairs, [0, 3], 3)
    yield over('two countries, the second', listed, pairs, [1, 2, 4], 4)
    yield over('two countries, an anchor of the first for a signer of the second', listed, pairs + [(0, 4)], [1, 2, 4],
               4)
    yield over('two countries, the second\'s CRL vouched for by the first', listed,
               [pair for pair in pairs if pair != (1, 6)] + [(0, 6)], NONE, 4)
    yield over('two countries, the first\'s CRL vouched for by the second too', listed, pairs + [(1, 5)], [0, 3], 3)
    revoked = replaced(listed, 5, crl(b'\2', issuer=named('A', 'UT')))
    yield over('two countries, one serial, listed by the first', revoked, pairs, NONE, 3)
    yield over('two countries, one serial, not listed by the second', revoked, pairs, [1, 2, 4], 4)


def renamed():
    """The CSCA of a country got another name and key, and its list bears the new name."""
    old, new = anchor(), anchor(subject=B, issuer=B, own=b'\2')
    for label, serials, stated in (('not listed', (b'\7',), [0, 2]), ('listed', (b'\2',), NONE),
                                   ('listed last of three', (b'\7', b'\6', b'\2'), NONE),
                                   ('an empty list', (), [0, 2])):
        listed = [old, new, signer(serial=b'\2'), crl(*serials, issuer=B)]
        yield over('a renamed CSCA, an old signer, ' + label, listed, [(0, 2), (1, 3)], stated)
    # a link from the old name to the new one, a signer of each
    both = [old, link(subject=B, own=b'\2', serial=b'\3'), signer(serial=b'\2'),
            signer(serial=b'\4', issuer=B, by=b'\2'), new]
    pairs = [(0, 1), (0, 2), (1, 3), (4, 5)]
    for label, serials, chains in (('nothing listed', (), ([0, 2], [0, 1, 3])),
                                   ('the old signer listed', (b'\2',), (NONE, [0, 1, 3])),
                                   ('the link listed', (b'\3',), ([0, 2], NONE)),
                                   ('the new signer listed', (b'\4',), ([0, 2], NONE))):
        for place, stated in zip((2, 3), chains):
            yield over('a renamed CSCA and its link, %s, place %d' % (label, place),
                       both + [crl(*serials, issuer=B)], pairs, stated, place)
    yield over('a renamed CSCA, the list vouched for by the old anchor',
               [old, signer(serial=b'\2'), crl(issuer=B)], STEP, [0, 1])
    yield over('a renamed CSCA, the new anchor disabled',
               [old, new._replace(flags=0), signer(serial=b'\2'), crl(issuer=B)], [(0, 2), (1, 3)], NONE)


def other_countries():
    """Lists of another state: an anchor, a signer with serial 2, the other state's anchor and list; then the own list
    besides. Of the last three states one letter, or the order of both, differs."""
    for letters in ('XO', 'UX', 'XT', 'TU'):
        foreign = named('A', letters)
        listed = [anchor(), signer(serial=b'\2'), anchor(subject=foreign, issuer=foreign)]
        for label, serials in (('an equal serial', (b'\2',)), ('another serial', (b'\7',))):
            theirs = crl(*serials, issuer=foreign)
            yield over('a list of %s with %s, alone' % (letters, label), listed + [theirs], [(0, 1), (2, 3)], NONE)
            yield over('a list of %s with %s, and the own' % (letters, label), listed + [theirs, crl()],
                       [(0, 1), (2, 3), (0, 4)], [0, 1])
            yield over('a list of %s with %s, and the own that lists the signer' % (letters, label),
                       listed + [theirs, crl(b'\2')], [(0, 1), (2, 3), (0, 4)], NONE)


def several_lists():
    """Counting lists of one country under three names, of which one lists the signer."""
    names = (NAME, B, named('C'))
    every = STEP + [(0, 3), (0, 4)]
    for which in range(3):
        listed = THREE[:2] + [crl(b'\2' if place == which else b'\7', issuer=one) for place, one in enumerate(names)]
        yield over('three lists of the country, number %d lists the signer' % which, listed, every, NONE)
        yield over('three lists of the country, number %d lists the signer and does not count' % which, listed,
                   [pair for pair in every if pair != (0, 2 + which)], [0, 1])


def versions():
    """An image of version 2 gives the same chains, whatever its letters are."""
    for label, letters in (('true letters', b'UT'), ('no letters', b'\0\0'), ('letters of another country', b'XO')):
        one = image([item._replace(letters=letters) for item in FIVE], version=2)
        for more, pairs, stated in (('by two links', DIAMOND, [0, 1, 3]), ('from anchor to signer', DIAMOND + [(0, 3)], [0, 3]),
                                    ('without verdict 0-1', DIAMOND[1:], [0, 2, 3]), ('no CRL', DIAMOND[:-1], NONE)):
            yield asked('version 2, %s, %s' % (label, more), one, table(5, pairs), stated, target=3)
    for label, one in (('version 1', image(FIVE, version=2, form=1)), ('version 2', image(FIVE, form=2))):
        yield asked('an index of %s under the other' % label, one, table(5, DIAMOND), Refused(5, 5), target=3)


def made():
    """The set of tests/data/made, each row of its table of chains."""
    def lines(file):
        return [line.split('\t') for line in (MADE / file).read_text().splitlines()[1:]]

    images, tables_of = {}, {}
    for which in ('yesterday', 'today'):
        places = [row for row in lines('places.tsv') if row[0] == which]
        listed = [Item(int(kind), int(flags), (MADE / file).read_bytes()) for _, _, _, kind, flags, file in places]
        images[which] = image(listed, day=int(places[0][1]))
        tables_of[which] = bytes(int(digit) for row in lines('verdicts.tsv') if row[0] == which for digit in row[2])
    for which, moment, place, number, detail, _, places in lines('chains.tsv'):
        stated = Refused(int(number), int(detail)) if number != '0' else [int(word) for word in places.split(',')]
        yield asked('made, %s at %s, place %s' % (which, moment, place), images[which], tables_of[which], stated,
                    int(moment), int(place))


def cases():
    for part in (paper, ties, odd_steps, long, anchors, covered, listing, more_trust, longer_list, matching, passing, seconds,
                 moments, targets, tables, refusals, two_countries, renamed, other_countries, several_lists, versions, made):
        yield from part()
