"""Cases of the anchors of a country, asked in full and by the index."""
import oracle_anchors
from cases_image import FORMS
from cases_letters import FAILING, PASSING, of
from chain_build import anchor, crl, link, signer
from image_build import CRL, LINK, NONE, SIGNER, Item, changed, image, items
from record import ANCHORS, Case
from refused import Refused

MOST = 2 ** 64 - 1
ARGUMENT, OTHER = Refused(1), Refused(5, 2)

UT, XO = of('UT', anchor), of('XO', anchor)
# four anchors of two countries, one of them not enabled, and one of each other kind
SOME = [of('EF', signer), UT, XO, of('UT', link), of('UT', anchor, flags=0), of('UT', crl), UT, of('UT', signer)]
# what passes for an anchor but is not one, and what is an anchor and does not pass
FALSE = [UT._replace(kind=LINK, flags=0), UT._replace(kind=SIGNER, flags=0), UT._replace(kind=CRL, flags=0),
         of('UT', signer)._replace(kind=1, flags=1), of('UT', crl)._replace(kind=1, flags=1), Item(1, 1, b'\0'),
         Item(1, 1, UT.octets + b'\0'), Item(1, 1, UT.octets[:-1])]


def words(told):
    if isinstance(told, Refused):
        return told.words() + ', count 0, other slots 255'
    return '%d anchors:%s, other slots 255' % (len(told), ''.join(' %d' % place for place in told))


def found(one, first, second, by_index):
    try:
        return oracle_anchors.listed(one, first, second, by_index)
    except Refused as refusal:
        return refusal


def asked(label, one, letters, full, short):
    """`full` and `short` are the places worked out by hand, or the refusal."""
    first, second = letters
    told = [words(found(one, first, second, by_index)) for by_index in (False, True)]
    return Case('anchors: ' + label, ANCHORS, '; by index '.join(told), one, (first, second),
                '; by index '.join((words(full), words(short))))


def both(label, listed, letters, places):
    """Of an image of each version, its letters true."""
    yield asked(label + ', version 1', image(listed), letters, places, OTHER)
    yield asked(label + ', version 2', image(listed, version=2), letters, places, places)


def countries():
    yield from both('no items', [], b'UT', [])
    yield from both('no anchors', [of('UT', signer), of('UT', link), of('UT', crl)], b'UT', [])
    yield from both('one anchor', [UT], b'UT', [0])
    yield from both('one anchor, of another country', [UT], b'XO', [])
    yield from both('one anchor, the letters turned round', [UT], b'TU', [])
    yield from both('one anchor, its first letter alone', [UT], b'UU', [])
    yield from both('one anchor, its second letter alone', [UT], b'TT', [])
    yield from both('one anchor, not enabled', [of('UT', anchor, flags=0)], b'UT', [])
    yield from both('some items', SOME, b'UT', [1, 6])
    yield from both('some items, another country', SOME, b'XO', [2])
    yield from both('some items, a country without anchors', SOME, b'EF', [])
    yield from both('some items, the other way round', SOME[::-1], b'UT', [1, 6])
    yield from both('one of each kind', PASSING, b'UT', [0])
    yield from both('one of each kind, the anchor that is not enabled', PASSING, b'AB', [])
    for many in (95, 96):
        yield from both('%d anchors' % many, [UT] * many, b'UT', list(range(many)))
    turns = [(UT, XO, of('UT', anchor, flags=0))[place % 3] for place in range(96)]
    yield from both('96 anchors, a third of the country', turns, b'UT', list(range(0, 96, 3)))
    yield from both('96 anchors, a third of another', turns, b'XO', list(range(1, 96, 3)))
    yield from both('the last of 96', [XO] * 95 + [UT], b'UT', [95])
    for letters in ('AA', 'AZ', 'ZA', 'ZZ'):
        yield from both('the country %s' % letters, [of(letters, anchor), UT], letters.encode('ascii'), [0])


def failing():
    """Items of the wrong kind, and anchors that fail their profile: their true letters are zeros."""
    zeros = [item._replace(letters=NONE) for item in FALSE]
    for place, item in enumerate(zeros):
        yield from both('item %d that is no good anchor' % place, [item], b'UT', [])
    yield from both('all that are none, around one', zeros + [UT] + zeros, b'UT', [len(zeros)])
    yield from both('items that fail', FAILING + [UT], b'UT', [len(FAILING)])


def not_true():
    """Letters that are not true: the full answer is as it was, that by the index follows them."""
    for letters, full, short in ((b'UT', [1, 6], [1, 2, 6]), (b'XO', [2], [])):
        one = image(SOME, changed(SOME, 2, letters=b'UT'), version=2)
        yield asked('place 2 told as UT, asked for %s' % letters.decode('ascii'), one, letters, full, short)
    for told in (NONE, b'ut', b'U\0', b'\0T', b'TU', b'\xff\xff', b'XO'):
        one = image(SOME, changed(SOME, 6, letters=told), version=2)
        yield asked('place 6 told as %s' % told.hex(' '), one, b'UT', [1, 6], [1])
    lettered = [item._replace(letters=b'UT') for item in FALSE]
    yield asked('all that are no good anchors, told as UT', image(lettered, version=2), b'UT', [], [3, 4, 5, 6, 7])
    everywhere = [item._replace(letters=b'UT') for item in SOME]
    yield asked('all told as UT', image(everywhere, version=2), b'UT', [1, 6], [1, 2, 6])
    shifted = [item._replace(letters=SOME[(place + 1) % len(SOME)].letters) for place, item in enumerate(SOME)]
    yield asked('each told as the place behind it', image(shifted, version=2), b'UT', [1, 6], [2, 6])
    yield asked('anchors of a few octets, lettered', image(items(3, flags=1), version=2), (65, 65), [], [])


def letters():
    """1 comes before the image's 5."""
    for label, one in (('', image([UT], version=2)), (', version 1', image([UT])), (', no image', b'')):
        for wrong in (0, 1, 64, 91, 96, 97, 117, 122, 127, 128, 193, 255, 256, 256 + 85, 2 ** 32 + 85, 2 ** 63, MOST):
            yield asked('first letter %d%s' % (wrong, label), one, (wrong, 84), ARGUMENT, ARGUMENT)
            yield asked('second letter %d%s' % (wrong, label), one, (85, wrong), ARGUMENT, ARGUMENT)
        yield asked('letters 0 and 0%s' % label, one, (0, 0), ARGUMENT, ARGUMENT)
        yield asked('letters ut%s' % label, one, b'ut', ARGUMENT, ARGUMENT)
    # an anchor that fails has two zeros for letters, and zeros are no letters
    yield asked('zeros of an item that fails', image([FALSE[3]._replace(letters=NONE)], version=2), (0, 0), ARGUMENT, ARGUMENT)


def broken():
    """Each rule of the image, the smallest told; by the index version 1 is 5 with rule 2 before what lies behind that rule."""
    for form in FORMS:
        bad = (('no octets', b'', 1), ('11 octets', form.smallest[1:], 1), ('version 0', form.image([UT], version=0), 2),
               ('version 3', form.image([UT], version=3), 2), ('97 entries', form.image(items(97)), 3),
               ('day 20230229', form.image([UT], day=20230229), 4), ('index start 1', form.image(start=1), 5),
               ('kind 0', form.image(items(1, 0)), 6), ('sum one less', form.image([UT], body=b'\0'), 7))
        for label, one, rule in bad:
            short = Refused(5, min(rule, 2) if form.version == 1 else rule)
            yield asked('%s, version %d' % (label, form.version), one, b'UT', Refused(5, rule), short)
    padded = image([UT, XO], changed([UT, XO], 1, zeros=b'\0\1'), version=2)
    yield asked('00 01 behind the letters', padded, b'UT', Refused(5, 6), Refused(5, 6))


def cases():
    for part in (countries, failing, not_true, letters, broken):
        yield from part()
