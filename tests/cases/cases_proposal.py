"""Cases of proposed chains."""
import cases_chain
import oracle_chain
from cases_chain import ARGUMENT, B, DIAMOND, FIVE, FOUR, LINE, MOMENT, MOST, NONE, STEP, THREE, replaced, shape
from chain_build import KEY, anchor, crl, link, named, signer, table
from der_build import utc
from image_build import ANCHOR, LINK, SIGNER, Item, image
from record import PROPOSAL, Case
from refused import Refused

GOOD = None


def words(refusal):
    return 'accepted' if refusal is GOOD else refusal.words()


def asked(label, one, verdicts, places, stated, moment=MOMENT, target=0):
    """A case over an image's bytes, a table's and the places proposed. `stated` is the refusal, or that it is good."""
    number, detail = oracle_chain.propose(one, verdicts, moment, target, places)
    return Case('proposal: ' + label, PROPOSAL, words(Refused(number, detail) if number else GOOD),
                one + bytes([len(places)]) + bytes(places) + verdicts, (len(one), moment, target), words(stated))


def over(label, listed, pairs, places, stated, target=None, **more):
    """A case over items, and the pairs of places with verdict 1. The target is the last signer, where none is given."""
    if target is None:
        target = max(place for place, item in enumerate(listed) if item.kind == SIGNER)
    return asked(label, image(listed), table(len(listed), pairs), places, stated, target=target, **more)


def own():
    """What the question for a chain answers is accepted, and where it has none nothing is: here what it might be."""
    for part in (cases_chain.paper, cases_chain.ties, cases_chain.odd_steps, cases_chain.renamed):
        for case in part():
            size, moment, target = case.numbers
            one, verdicts = case.item[:size], case.item[size:]
            number, _, _, places = oracle_chain.chain_of_image(one, verdicts, moment, target)
            yield asked('the answer to ' + case.label, one, verdicts, places or [0, target], NONE if number else GOOD, moment,
                        target)


def longer():
    """Good chains that are not the best."""
    yield over('by the second link', FIVE, DIAMOND, [0, 2, 3], GOOD)
    yield over('by a link where the anchor signs', FIVE, DIAMOND + [(0, 3)], [0, 1, 3], GOOD)
    every = [(u, v) for u in range(5) for v in range(5)]
    yield over('by both links', FIVE, every, [0, 1, 2, 3], GOOD)
    yield over('by both links in the other order', FIVE, every, [0, 2, 1, 3], GOOD)
    yield over('from the second anchor', shape('aasc'), [(0, 2), (1, 2), (0, 3)], [1, 2], GOOD)
    line = shape('allllsc')
    steps = [(0, 1), (1, 2), (2, 3), (3, 4), (4, 5), (0, 6), (0, 5)]
    yield over('a line of six where the anchor signs', line, steps, [0, 1, 2, 3, 4, 5], GOOD)
    yield over('a line of six from the second place on', line, steps, [1, 2, 3, 4, 5], NONE)
    for gone in steps[:5]:
        yield over('a line of six without verdict %d-%d' % gone, line, [one for one in steps if one != gone],
                   [0, 1, 2, 3, 4, 5], NONE)


def repeated():
    """A link that stands twice is no fault where each step is good."""
    loop = LINE + [(1, 1)]
    yield over('a link twice that signed itself', FOUR, loop, [0, 1, 1, 2], GOOD)
    yield over('a link twice that did not sign itself', FOUR, LINE, [0, 1, 1, 2], NONE)
    yield over('a link 94 times', FOUR, loop, [0] + [1] * 94 + [2], GOOD)
    yield over('a link 95 times', FOUR, loop, [0] + [1] * 95 + [2], ARGUMENT)
    two = [(0, 1), (1, 2), (2, 1), (2, 3), (1, 3), (0, 4)]
    yield over('two links round and round', FIVE, two, [0, 1, 2, 1, 2, 1, 3], GOOD)
    yield over('two links round and round, a step missing', FIVE, [one for one in two if one != (2, 1)],
               [0, 1, 2, 1, 2, 1, 3], NONE)
    yield over('the signer twice', FOUR, LINE + [(2, 2)], [0, 1, 2, 2], NONE)
    yield over('the anchor twice', FOUR, LINE + [(0, 0)], [0, 0, 1, 2], NONE)


def turned():
    """Right places in the wrong order, and wrong places."""
    for places in ([2, 1, 0], [1, 0, 2], [0, 2, 1], [1, 2, 0], [2, 0, 1]):
        label = ' '.join(map(str, places))
        yield over('0 1 2 in the order ' + label, FOUR, LINE, places, NONE)
        yield over('0 1 2 in the order %s, every verdict' % label, FOUR, [(u, v) for u in range(4) for v in range(4)],
                   places, NONE)
    every = [(u, v) for u in range(6) for v in range(6)]
    listed = shape('aalssc')
    for label, places in (('an anchor in the middle', [0, 1, 3]), ('an anchor before the signer', [0, 2, 1, 3]),
                          ('a link first', [2, 3]), ('a signer first', [4, 3]), ('a CRL first', [5, 3]),
                          ('a CRL in the middle', [0, 5, 3]), ('a signer in the middle', [0, 4, 3]),
                          ('the other signer at the end', [0, 4]), ('a link at the end', [0, 2]),
                          ('the anchor alone, twice', [0, 0]), ('the signer alone, twice', [3, 3]),
                          ('an anchor at the end', [0, 1]), ('a CRL at the end', [0, 5])):
        yield over(label, listed, every, places, NONE, 3)
    yield over('the first of two signers', listed, every, [0, 3], GOOD, 3)
    yield over('the other signer with its own end', listed, every, [0, 2, 4], GOOD, 4)
    # names and key identifiers of an authority, so that nothing but its kind is in the way
    between = signer(own=KEY, subject=cases_chain.NAME, serial=b'\2')
    yield over('a signer that signed a signer', replaced(shape('assc'), 1, between), [(0, 1), (1, 2), (0, 2), (0, 3)],
               [0, 1, 2], NONE)
    yield over('an anchor that signed an anchor', replaced(shape('aasc'), 1, anchor(by=KEY)),
               [(0, 1), (1, 2), (0, 2), (0, 3)], [0, 1, 2], NONE)


def unusable():
    """A chain of three of which one may not be used, and its good neighbour."""
    over_at, later = utc('260301115959Z'), utc('260301120001Z')
    kinds = (('the anchor', 0, anchor), ('the link', 1, link), ('the signer', 2, signer))
    for label, place, make in kinds:
        for what, change in (('is over', dict(end=over_at)), ('is not yet valid', dict(start=later)),
                             ('breaks a rule', dict(serial=b'\0'))):
            yield over('%s %s' % (label, what), replaced(FOUR, place, make(**change)), LINE, [0, 1, 2], NONE)
    for label, place, kind in (('the anchor', 0, ANCHOR), ('the link', 1, LINK), ('the signer', 2, SIGNER)):
        yield over('%s is not DER' % label, replaced(FOUR, place, Item(kind, 0, b'\x30')), LINE, [0, 1, 2], NONE)
    yield over('the anchor is disabled', replaced(FOUR, 0, anchor(0)), LINE, [0, 1, 2], NONE)
    yield over('the anchor is disabled, another vouches for the CRL', replaced(FOUR, 0, anchor(0)) + [anchor(serial=b'\7')],
               [(0, 1), (1, 2), (4, 3)], [0, 1, 2], NONE)
    yield over('another anchor is disabled', FOUR + [anchor(0)], LINE + [(4, 1)], [0, 1, 2], GOOD)
    yield over('no CRL counts', FOUR, [(0, 1), (1, 2)], [0, 1, 2], NONE)
    yield over('the CRL is over', replaced(FOUR, 3, crl(next=over_at)), LINE, [0, 1, 2], NONE)
    yield over('the CRL is of another country', replaced(FOUR, 3, crl(issuer=named('A', 'XO'))), LINE, [0, 1, 2], NONE)
    yield over('the CRL has another name in the country', replaced(FOUR, 3, crl(issuer=B)), LINE, [0, 1, 2], GOOD)
    for label, serial in (('link', b'\1'), ('signer', b'\2')):
        yield over('the %s is listed' % label, replaced(FOUR, 3, crl(serial)), LINE, [0, 1, 2], NONE)
    yield over('a link beside it is listed', replaced(FIVE, 4, crl(b'\1')), DIAMOND, [0, 2, 3], GOOD)
    yield over('the link of two is listed', replaced(FIVE, 4, crl(b'\1')), DIAMOND, [0, 1, 3], NONE)
    for label, place, item in (('the link\'s subject is another', 1, link(subject=B)),
                               ('the link\'s own key is another', 1, link(own=b'\2')),
                               ('the link\'s issuer key is another', 1, link(by=b'\2')),
                               ('the signer\'s issuer key is another', 2, signer(serial=b'\2', by=b'\2')),
                               ('the anchor\'s key is another', 0, anchor(own=b'\2'))):
        yield over(label, replaced(FOUR, place, item), LINE, [0, 1, 2], NONE)


def ranges():
    """The proposal's own range: 2 to 96 places, all in the image."""
    yield over('no place', THREE, STEP, [], ARGUMENT)
    yield over('one place, the signer', THREE, STEP, [1], ARGUMENT)
    yield over('one place, the anchor', THREE, STEP, [0], ARGUMENT)
    yield over('two places', THREE, STEP, [0, 1], GOOD)
    line = shape('a' + 'l' * 93 + 'sc')
    steps = [(place, place + 1) for place in range(94)] + [(0, 95), (93, 93), (10, 90)]
    whole = list(range(95))
    yield over('95 places in a line', line, steps, whole, GOOD)
    yield over('96 places, the last link twice', line, steps, whole[:94] + [93, 94], GOOD)
    yield over('97 places, the last link three times', line, steps, whole[:94] + [93, 93, 94], ARGUMENT)
    yield over('95 places, the 50th link listed', replaced(line, 95, crl(b'\x33')), steps, whole, NONE)
    yield over('16 places, past the 50th link, which is listed', replaced(line, 95, crl(b'\x33')), steps,
               whole[:11] + whole[90:], GOOD)
    for length in (96, 97, 255):
        yield over('%d times place 0' % length, THREE, STEP, [0] * length, NONE if length == 96 else ARGUMENT)
    for place, label in ((3, 'one past the last'), (4, 'two past the last'), (96, 'past 95'), (255, 'the octet of no place')):
        for at in range(3):
            places = [0, 0, 1]
            places[at] = place
            yield over('place %d, %s, as number %d of three' % (place, label, at), THREE, STEP, places, ARGUMENT)


def order():
    """The question's own refusals come before the proposal's range, and that before 7."""
    one, verdicts = image(THREE), table(3, STEP)
    for label, places in (('a good proposal', [0, 1]), ('no place', []), ('place 255', [0, 255])):
        yield asked('a broken image, ' + label, image(THREE, start=0), verdicts, places, Refused(5, 5), target=1)
        yield asked('a table of 8, ' + label, one, verdicts[:8], places, ARGUMENT, target=1)
        yield asked('a verdict of 2, ' + label, one, verdicts[:8] + b'\2', places, ARGUMENT, target=1)
        yield asked('a moment that is none, ' + label, one, verdicts, places, ARGUMENT, 20260229000000, 1)
        for target in (0, 2, 3, 255, 257, MOST):
            yield asked('target %d, %s' % (target, label), one, verdicts, places, ARGUMENT, target=target)
    yield asked('target 0 of no items', image(), b'', [], ARGUMENT)
    yield over('a target that is not DER', replaced(THREE, 1, Item(SIGNER, 0, b'\x30')), STEP, [0, 1], NONE)
    yield over('a target that is not DER, place 255', replaced(THREE, 1, Item(SIGNER, 0, b'\x30')), STEP, [0, 255], ARGUMENT)


def cases():
    for part in (own, longer, repeated, turned, unusable, ranges, order):
        yield from part()
