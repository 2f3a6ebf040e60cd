"""Cases of the letters of version 2: free in reading, written by the move from version 1, lost by the move back, and checked."""
import zlib

import oracle_letters
from cases_image import FORMS, IS_AT, RULE
from chain_build import anchor, crl, link, named, signer
from image_build import ANCHOR, CRL, LINK, NONE, SIGNER, Item, changed, image, items, sized
from record import LETTERS, MOVE_TO_1, MOVE_TO_2, Case
from refused import Refused

TWO = FORMS[1]


def of(letters, make, **changed_parts):
    """An item of a country, with its letters."""
    name = named('A', letters)
    parts = {'issuer': name}
    if make in (anchor, link):
        parts['subject'] = name
    elif make is signer:
        parts['letters'] = letters
    return make(**parts, **changed_parts)._replace(letters=letters.encode('ascii'))


# one of each kind, of different countries, the second anchor not enabled
PASSING = [of('UT', anchor), of('AB', anchor, flags=0), of('CD', link), of('EF', signer), of('GH', crl)]
# items that do not pass for their kind, though some would for another
FAILING = [PASSING[3]._replace(kind=ANCHOR), PASSING[0]._replace(kind=SIGNER, flags=0), PASSING[3]._replace(kind=CRL),
           PASSING[4]._replace(kind=LINK), Item(CRL, 0, b'\0'), Item(LINK, 0, b'\x30\0')]
FAILING = [item._replace(letters=NONE) for item in FAILING]
BOTH = [PASSING[0], FAILING[0], PASSING[3], FAILING[4], PASSING[4]]


def free():
    """Reading does not test the letters; it tests what stands behind them."""
    for letters in (b'UT', b'ut', b'\0\0', b'\xff\xff', b'\0A', b'A\0'):
        one = [Item(LINK, 0, b'\7', letters)]
        yield TWO.opened('letters %s' % letters.hex(' '), image(one, version=2), TWO.good(1))
        yield from TWO.at_place('letters %s' % letters.hex(' '), image(one, version=2), 0,
                                (IS_AT % (2, 0, 1, 0, *letters), b'\7'))
    for place in range(5):
        for zeros in (b'\0\1', b'\1\0', b'\xff\0', b'\0\x80', b'UT'):
            one = image(PASSING, changed(PASSING, place, zeros=zeros), version=2)
            yield TWO.opened('place %d, %s behind the letters' % (place, zeros.hex(' ')), one, RULE % 6)
    many = items(96, CRL)
    yield TWO.opened('the last of 96, 00 01 behind the letters', image(many, changed(many, 95, zeros=b'\0\1'), version=2),
                     RULE % 6)


def confused():
    """An index of one form under the other's version."""
    for form in FORMS:
        other = FORMS[2 - form.version]
        size = sum(len(item.octets) for item in PASSING)
        start = size + (form.width - other.width) * len(PASSING)
        label = 'an index of version %d, labelled %d' % (form.version, other.version)
        yield other.opened(label, image(PASSING, version=other.version, form=form.version), RULE % 5)
        yield other.opened(label + ', its start moved',
                           image(PASSING, version=other.version, form=form.version, start=start), RULE % 6)
        yield other.opened(label + ', no entries', image(version=other.version, form=form.version), other.good(0))
    # three entries of 8 octets are two of 12, where letters and zeros look so
    three = [Item(CRL, 0, b'\1'), Item(CRL, 0, b'\2'), Item(CRL, 0, b'\3')]
    yield TWO.opened('three entries of version 1, told as two', image(three, version=2, form=1, entries=2), RULE % 6)


def moved(label, one, version, stated, room=None):
    """`stated` is the refusal, or the image that is written. The output is as long as that image, or `room`."""
    size = len(stated) if isinstance(stated, bytes) else 100
    output = b'\xee' * (size if room is None else room)
    if isinstance(stated, bytes):
        wanted = answer('written %d' % len(stated), stated + output[len(stated):])
    else:
        wanted = answer(stated, output)
    numbers = (len(output),)
    try:
        length, output = oracle_letters.move(one, version, output)
        found = answer('written %d' % length, output)
    except Refused as refusal:
        found = answer(refusal.words(), output)
    kind = MOVE_TO_2 if version == 2 else MOVE_TO_1
    return Case('move to %d: %s' % (version, label), kind, found, one, numbers, wanted)


def answer(words, output):
    return '%s, output %d octets, checksum %d' % (words, len(output), zlib.adler32(output))


def checked(label, one, stated):
    try:
        found = 'true' if oracle_letters.all_true(one) else 'false'
    except Refused as refusal:
        found = refusal.words()
    return Case('letters: ' + label, LETTERS, found, one, stated=stated)


def there_and_back():
    many = [of(chr(65 + place % 26) + chr(65 + place // 26), signer) for place in range(96)]
    for label, listed in (('no items', []), ('one of each kind', PASSING), ('items that fail', FAILING),
                          ('items of both sorts', BOTH), ('96 signers', many)):
        one, two = image(listed), image(listed, version=2)
        for label_more, room in ((', room for it', 0), (', room for 100 octets more', 100)):
            yield moved(label + label_more, one, 2, two, len(two) + room)
            yield moved(label + label_more, two, 1, one, len(one) + room)
        yield moved(label + ', one octet too short', one, 2, 'refused 9', len(two) - 1)
        yield moved(label + ', one octet too short', two, 1, 'refused 9', len(one) - 1)
        yield moved(label + ', no room', one, 2, 'refused 9', 0)
        yield moved(label + ', no room', two, 1, 'refused 9', 0)
        yield checked(label, two, 'true')
    for day in (19500101, 20991231):
        yield moved('day %d' % day, image(PASSING, day=day), 2, image(PASSING, version=2, day=day))
        yield moved('day %d' % day, image(PASSING, version=2, day=day), 1, image(PASSING, day=day))


def others():
    """Letters that are not true are dropped as the true ones are, and told by the check."""
    one = image(BOTH)
    for place, item in enumerate(BOTH):
        for letters in (b'UT', b'\0\0', b'UU', b'TU', b'ut', b'\0T', b'U\0', b'EF', b'\xff\xff'):
            if letters != item.letters:
                two = image(BOTH, changed(BOTH, place, letters=letters), version=2)
                label = 'place %d has %s' % (place, letters.hex(' '))
                yield checked(label, two, 'false')
                yield moved(label, two, 1, one)
    turned = [item._replace(letters=PASSING[place - 1].letters) for place, item in enumerate(PASSING)]
    yield checked('each has those of the place before', image(turned, version=2), 'false')
    yield checked('no item has any', image([item._replace(letters=NONE) for item in PASSING], version=2), 'false')
    # it has no authority key identifier, so it is no link either
    for kind in (LINK, SIGNER, CRL):
        item = PASSING[0]._replace(kind=kind, flags=0, letters=NONE)
        yield checked('an anchor of kind %d, without letters' % kind, image([item], version=2), 'true')
        yield checked('an anchor of kind %d, with letters' % kind, image([item._replace(letters=b'UT')], version=2), 'false')


def broken():
    """Each rule, and rule 2 for the other version: the smallest is told."""
    for form in FORMS:
        to, other = 3 - form.version, FORMS[2 - form.version]
        bad = (
            ('no octets', b'', 1), ('11 octets', form.smallest[1:], 1),
            ('version 0', form.image(PASSING, version=0), 2), ('version 3', form.image(PASSING, version=3), 2),
            ('the other version', other.image(PASSING), 2), ('the other version, no items', other.smallest, 2),
            ('the other version, 97 entries', other.image(items(97)), 2),
            ('the other version, day 0', other.image(PASSING, day=0), 2),
            ('the other version, kind 0', other.image(items(1, 0)), 2),
            ('its index labelled as the other version', form.image(PASSING, version=to), 2),
            ('97 entries', form.image(items(97)), 3), ('day 20230229', form.image(PASSING, day=20230229), 4),
            ('97 entries and day 0', form.image(items(97), day=0), 3),
            ('index start 1', form.image(start=1), 5),
            ('an index of the other version', image(PASSING, version=form.version, form=to), 5),
            ('kind 0', form.image(items(1, 0)), 6), ('sum one less', form.image(PASSING, body=b'\0'), 7))
        for label, one, rule in bad:
            yield moved(label, one, to, RULE % rule)
            yield moved(label + ', no room', one, to, RULE % rule, 0)
            if form.version == 2:
                yield checked(label, one, RULE % rule)
    padded = image(PASSING, changed(PASSING, 4, zeros=b'\0\1'), version=2)
    yield moved('00 01 behind the letters', padded, 1, RULE % 6)
    yield checked('00 01 behind the letters', padded, RULE % 6)
    yield checked('an image of version 1', image(PASSING), RULE % 2)


def limits():
    """An image of version 1 whose move has 262,144 octets, and one with an octet more: 3 is told before 9."""
    fits, over = (image(sized(size, 2)) for size in (262144, 262145))
    yield moved('to 262144 octets', fits, 2, image(sized(262144, 2), version=2))
    yield moved('to 262145 octets, no room', over, 2, 'refused 3 at 0', 0)
    yield moved('from 262144 octets', image(sized(262144, 2), version=2), 1, fits)


def no_questions():
    for version, kind in ((2, MOVE_TO_2), (1, MOVE_TO_1)):
        yield Case('move to %d: room for 300001 octets' % version, kind, 'no such question', image(), (300001,))


def cases():
    for part in (free, confused, there_and_back, others, broken, limits, no_questions):
        yield from part()
