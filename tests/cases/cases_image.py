"""Cases of reading a trust image of either version: its rules, a wanted day, one entry, the octets of an item."""
import zlib

import image_build
import oracle_image
from image_build import ANCHOR, CRL, DAY, LINK, SIGNER, Item, Row, changed, items, rows, some_octets
from octets import octets
from record import ENTRY, IMAGE, IMAGE_FOR, ITEM, Case
from refused import Refused

MOST = 2 ** 64 - 1
RULE = 'refused 5, rule %d'
GOOD = 'passed, %d entries, day %d, version %d'
NAMES = ((ANCHOR, 'anchor'), (LINK, 'link'), (SIGNER, 'signer'), (CRL, 'CRL'))
# an enabled anchor, a link, a signer and a CRL
FOUR = [Item(ANCHOR, 1, some_octets(300, 1), b'UT'), Item(LINK, 0, some_octets(5, 2)),
        Item(SIGNER, 0, some_octets(258, 3), b'\0\xff'), Item(CRL, 0, some_octets(7, 4), b'XO')]


def told(question, *words):
    try:
        return GOOD % question(*words)
    except Refused as refusal:
        return refusal.words()


class Form:
    """A version of images: its number, the octets of an index entry, and how its cases are made."""

    def __init__(self, version, width):
        self.version, self.width = version, width
        self.smallest = octets('00 00 00 00 00 00 00 %02X 01 34 D7 AD' % version)
        self.name = '' if version == 1 else ' of version %d' % version

    def image(self, *words, version=None, **fields):
        """An image whose index has this form, whatever version its trailer tells."""
        version = self.version if version is None else version
        return image_build.image(*words, version=version, form=self.version, **fields)

    def good(self, entries, day=DAY):
        return GOOD % (entries, day, self.version)

    def opened(self, label, one, stated):
        case = Case('image%s: %s' % (self.name, label), IMAGE, told(oracle_image.opened, one), one, stated=stated)
        case.broken = tuple(oracle_image.broken_rules(one))
        case.form = self.version
        return case

    def on_day(self, label, one, wanted, stated):
        return Case('image%s for a day: %s, wanted %d' % (self.name, label, wanted), IMAGE_FOR,
                    told(oracle_image.opened_for, one, wanted), one, (wanted,), stated)

    def at_place(self, label, one, place, stated):
        """The entry of a place, and the octets of its item."""
        try:
            answer = IS_AT % oracle_image.entry(one, place)[:6]
        except Refused as refusal:
            answer = refusal.words()
        yield Case('entry%s: %s, place %d' % (self.name, label, place), ENTRY, answer, one, (place,), stated[0])
        found = oracle_image.item(one, place)
        answer = '%d octets, checksum %d' % (len(found), zlib.adler32(found))
        wanted = '%d octets, checksum %d' % (len(stated[1]), zlib.adler32(stated[1]))
        yield Case('item%s: %s, place %d' % (self.name, label, place), ITEM, answer, one, (place,), wanted)


FORMS = (Form(1, 8), Form(2, 12))
IS_AT = 'kind %d, flags %d, length %d, offset %d, letters %d %d'


def good(form):
    yield form.opened('the smallest, octet by octet', form.smallest, form.good(0))
    yield form.opened('the smallest, built', form.image(), form.good(0))
    for kind, name in NAMES:
        for number in (1, 2, 96):
            yield form.opened('%d of kind %s' % (number, name), form.image(items(number, kind)), form.good(number))
    for number in (1, 2, 96):
        yield form.opened('%d enabled anchors' % number, form.image(items(number, ANCHOR, 1)), form.good(number))
    yield form.opened('one of each kind', form.image(FOUR), form.good(4))
    yield form.opened('items of one octet, 00', form.image([Item(CRL, 0, b'\0')] * 3), form.good(3))
    yield form.opened('an item of 16384 octets', form.image([Item(LINK, 0, some_octets(16384))]), form.good(1))
    yield form.opened('262144 octets', form.image(image_build.sized(262144, form.version)), form.good(16))
    for day in (19500101, 20991231, 20240229, 20000229):
        yield form.opened('day %d' % day, form.image(day=day), form.good(0, day))


def sizes(form):
    yield form.opened('262145 octets', form.image(image_build.sized(262145, form.version)), RULE % 1)
    yield form.opened('no octets', b'', RULE % 1)
    yield form.opened('one octet', b'\0', RULE % 1)
    yield form.opened('11 octets, the smallest without its first', form.smallest[1:], RULE % 1)
    yield form.opened('11 octets, the smallest without its last', form.smallest[:-1], RULE % 1)


def trailers(form):
    for version in (0, 3, 256 + form.version, 65535):
        yield form.opened('version %d' % version, form.image(FOUR, version=version), RULE % 2)
    yield form.opened('version 3, no entries', form.image(version=3), RULE % 2)
    for kind, name in NAMES:
        yield form.opened('97 of kind %s' % name, form.image(items(97, kind)), RULE % 3)
    yield form.opened('65535 entries told, none there', form.image(entries=65535), RULE % 3)
    for day in (20230229, 20240230, 20241301, 20240001, 20240100, 20240132, 0, 19491231, 21000101, 20240301 * 100,
                2 ** 32 - 1):
        yield form.opened('day %08d' % day, form.image(FOUR, day=day), RULE % 4)


def starts(form):
    size = sum(len(item.octets) for item in FOUR)
    yield form.opened('index start one more', form.image(FOUR, start=size + 1), RULE % 5)
    yield form.opened('index start one less', form.image(FOUR, start=size - 1), RULE % 5)
    yield form.opened('index start one entry more', form.image(FOUR, start=size + form.width), RULE % 5)
    yield form.opened('index start 0', form.image(FOUR, start=0), RULE % 5)
    yield form.opened('index start 2^32 - 1', form.image(FOUR, start=2 ** 32 - 1), RULE % 5)
    yield form.opened('index start 2^32 - 1, no entries', form.image(start=2 ** 32 - 1), RULE % 5)
    yield form.opened('index start 1, no entries', form.image(start=1), RULE % 5)
    yield form.opened('index start with its sum 2^32 too large, 1 entry',
                      form.image(start=2 ** 32 - form.width, entries=1), RULE % 5)
    yield form.opened('index start with its sum 2^32 too large, 96 entries',
                      form.image(start=2 ** 32 - 96 * form.width, entries=96), RULE % 5)
    yield form.opened('index start 2^16 more', form.image(FOUR, start=size + 65536), RULE % 5)
    yield form.opened('an octet before the first item', b'\0' + form.image(FOUR), RULE % 5)
    yield form.opened('an octet between items and index',
                      form.image(FOUR, body=form.image(FOUR)[:size] + b'\0', start=size), RULE % 5)
    yield form.opened('one entry more told', form.image(FOUR, entries=5), RULE % 5)
    yield form.opened('one entry fewer told', form.image(FOUR, entries=3), RULE % 5)
    yield form.opened('1 entry told in 12 octets', form.image(entries=1), RULE % 5)


def fields(form):
    for place, name in ((0, 'first'), (1, 'second'), (3, 'last')):
        for kind in (0, 5, 255):
            yield form.opened('kind %d in the %s entry' % (kind, name),
                              form.image(FOUR, changed(FOUR, place, kind=kind, flags=0)), RULE % 6)
    for flags in (2, 128, 255):
        yield form.opened('flags %d of an anchor' % flags, form.image(items(1, ANCHOR, flags)), RULE % 6)
    for kind, name in NAMES[1:]:
        for flags in (1, 255):
            yield form.opened('flags %d, kind %s' % (flags, name), form.image(items(1, kind, flags)), RULE % 6)
    for kind, name in NAMES:
        yield form.opened('length 0, kind %s' % name, form.image([Item(kind, 0, b'')]), RULE % 6)
    yield form.opened('length 0 between two items', form.image(items(1) + [Item(LINK, 0, b'')] + items(1)), RULE % 6)
    yield form.opened('length 16385', form.image([Item(LINK, 0, some_octets(16385))]), RULE % 6)
    yield form.opened('length 16385 after a good entry',
                      form.image(items(1) + [Item(LINK, 0, some_octets(16385))]), RULE % 6)


def offsets(form):
    found = rows(FOUR)
    for place, name in ((0, 'first'), (1, 'second'), (2, 'third'), (3, 'last')):
        right = found[place].offset
        for offset, words in ((right + 1, 'one more'), (right - 1, 'one less'), (right + 65536, '2^16 more'),
                              (2 ** 32 - 1, '2^32 - 1')):
            if offset >= 0:
                yield form.opened('offset of the %s entry %s' % (name, words),
                                  form.image(FOUR, changed(FOUR, place, offset=offset)), RULE % 6)
    many = items(96, SIGNER)
    yield form.opened('offset of the last of 96 one more',
                      form.image(many, changed(many, 95, offset=rows(many)[95].offset + 1)),
                      RULE % 6)
    yield form.opened('offset of the 48th of 96 one less',
                      form.image(many, changed(many, 47, offset=rows(many)[47].offset - 1)),
                      RULE % 6)
    yield form.opened('two entries exchanged', form.image(FOUR, [found[1], found[0]] + found[2:]), RULE % 6)
    yield form.opened('the same item in two entries',
                      form.image(FOUR, [found[0], found[0]], start=300, body=FOUR[0].octets),
                      RULE % 6)
    yield form.opened('lengths of two entries exchanged',
                      form.image(FOUR, [found[0]._replace(length=5), found[1]._replace(length=300)] + found[2:]), RULE % 6)


def sums(form):
    body = form.image(FOUR)[:570]
    yield form.opened('lengths sum to one less than the index start', form.image(FOUR, body=body + b'\0'), RULE % 7)
    yield form.opened('lengths sum to one more than the index start', form.image(FOUR, body=body[:-1]), RULE % 7)
    yield form.opened('lengths sum to 7 more than the index start', form.image(FOUR, body=body[:-7]), RULE % 7)
    yield form.opened('one octet and no entries', form.image(body=b'\0'), RULE % 7)
    yield form.opened('one entry and no octets', form.image(index=[Row(CRL, 0, 1, 0)]), RULE % 7)
    yield form.opened('an item of 16384 octets told, one octet there',
                      form.image(index=[Row(CRL, 0, 16384, 0)], body=b'\0'),
                      RULE % 7)
    yield form.opened('lengths of 96 entries sum to one less',
                      form.image(body=bytes(97), index=rows([Item(CRL, 0, b'\0')] * 96)),
                      RULE % 7)


def byte_order(form):
    """Each number with its octets in the other order: read so, the image would be good."""
    one, two = [Item(LINK, 0, some_octets(5))], [Item(LINK, 0, some_octets(5)), Item(CRL, 0, some_octets(3))]
    swapped = form.image()[:-4] + form.image()[-4:][::-1]
    yield form.opened('version little-endian', form.image(one, version=form.version << 8), RULE % 2)
    yield form.opened('entries little-endian', form.image(one, entries=256), RULE % 3)
    yield form.opened('day little-endian', swapped, RULE % 4)
    yield form.opened('index start little-endian', form.image(one, start=5 << 24), RULE % 5)
    yield form.opened('length little-endian', form.image(one, changed(one, 0, length=5 << 8)), RULE % 7)
    yield form.opened('length little-endian, over 16384 as it stands',
                      form.image([Item(LINK, 0, bytes(65))], [Row(LINK, 0, 65 << 8, 0)]), RULE % 6)
    yield form.opened('offset little-endian', form.image(two, changed(two, 1, offset=5 << 24)), RULE % 6)
    yield form.opened('kind and flags exchanged', form.image([Item(1, 0, b'\0')], [Row(0, 1, 1, 0)]), RULE % 6)
    entry = octets('02 00 05 00 00 00 00 00 55 54 00 00')[:form.width]
    yield form.opened('every number little-endian',
                      some_octets(5) + entry + octets('05 00 00 00 01 00 %02X 00 AD D7 34 01' % form.version), RULE % 2)


def two_rules(form):
    """The smaller is told."""
    many, bad = items(97, CRL), changed(FOUR, 2, kind=0)
    yield form.opened('11 octets, version 3', form.image(version=3)[1:], RULE % 1)
    yield form.opened('version and entries', form.image(many, version=3), RULE % 2)
    yield form.opened('version and day', form.image(version=0, day=0), RULE % 2)
    yield form.opened('version and index start', form.image(FOUR, version=3, start=1), RULE % 2)
    yield form.opened('version and kind', form.image(FOUR, bad, version=3), RULE % 2)
    yield form.opened('entries and day', form.image(many, day=20230229), RULE % 3)
    yield form.opened('entries and index start', form.image(many, start=0), RULE % 3)
    yield form.opened('entries and kind', form.image(items(97, 5)), RULE % 3)
    yield form.opened('day and index start', form.image(FOUR, day=20230229, start=1), RULE % 4)
    yield form.opened('day and flags', form.image(items(1, LINK, 1), day=19491231), RULE % 4)
    yield form.opened('day and sum', form.image(body=b'\0', day=21000101), RULE % 4)
    yield form.opened('index start and kind', form.image(FOUR, bad, start=571), RULE % 5)
    yield form.opened('kind in the last entry and sum',
                      form.image(FOUR, changed(FOUR, 3, kind=0), body=bytes(571)), RULE % 6)
    yield form.opened('offset and sum', form.image(FOUR, changed(FOUR, 1, offset=0), body=bytes(569)), RULE % 6)
    yield form.opened('length 0 in the last entry and sum', form.image(FOUR, changed(FOUR, 3, length=0)), RULE % 6)
    yield form.opened('rules 2 to 7', form.image(items(97, 0), version=0, day=0, start=2 ** 32 - 1), RULE % 2)


def wanted_days(form):
    yield form.on_day('one of each kind', form.image(FOUR), DAY, form.good(4))
    yield form.on_day('one of each kind', form.image(FOUR), 20240229, 'refused 6')
    yield form.on_day('the smallest', form.smallest, DAY, form.good(0))
    for day in (20240229, 20240302, 20230301, 19500101, 20991231):
        yield form.on_day('the smallest', form.smallest, day, 'refused 6')
    for day in (20240230, 20230229, 19491231, 21000101, 20241301, 0, 2 ** 32 + DAY, 2 ** 63, MOST):
        yield form.on_day('the smallest', form.smallest, day, 'refused 1')
    for day in (19500101, 20991231):
        yield form.on_day('day %d' % day, form.image(day=day), day, form.good(0, day))
    for label, one, rule in (
            ('no octets', b'', 1),
            ('version 3', form.image(version=3), 2),
            ('97 entries', form.image(items(97)), 3),
            ('day 20240230', form.image(day=20240230), 4),
            ('day 21000101', form.image(day=21000101), 4),
            ('index start 1', form.image(start=1), 5),
            ('kind 0', form.image(items(1, 0)), 6),
            ('sum one less', form.image(body=b'\0'), 7)):
        yield form.on_day(label, one, DAY, RULE % rule)
        yield form.on_day(label, one, 20240302, RULE % rule)
        yield form.on_day(label, one, 20240230, 'refused 1')
    yield form.on_day('day 21000101', form.image(day=21000101), 21000101, 'refused 1')


def places(form):
    for label, listed, inside, beyond in (
            ('one of each kind', FOUR, (0, 1, 2, 3), (4, 5, 2 ** 32, 2 ** 61, MOST)),
            ('one', items(1, SIGNER), (0,), (1,)),
            ('two', items(2, ANCHOR, 1), (0, 1), (2,)),
            ('96', items(96, CRL), (0, 47, 95), (96, MOST))):
        one, index = form.image(listed), rows(listed)
        for place in inside:
            letters = tuple(index[place].letters) if form.version == 2 else (0, 0)
            yield from form.at_place(label, one, place, (IS_AT % (index[place][:4] + letters), listed[place].octets))
        for place in beyond:
            yield from form.at_place(label, one, place, ('refused 1', b''))
    long = [Item(LINK, 0, some_octets(16384))]
    yield from form.at_place('an item of 16384 octets', form.image(long), 0, (IS_AT % (2, 0, 16384, 0, 0, 0), long[0].octets))
    for place in (0, MOST):
        yield from form.at_place('no entries', form.smallest, place, ('refused 1', b''))


def places_of_broken(form):
    for label, one, rule in (
            ('no octets', b'', 1),
            ('11 octets', form.smallest[1:], 1),
            ('version 3', form.image(FOUR, version=3), 2),
            ('97 entries', form.image(items(97)), 3),
            ('day 20240230', form.image(FOUR, day=20240230), 4),
            ('index start 2^32 - 1', form.image(FOUR, start=2 ** 32 - 1), 5),
            ('kind 0 in the last entry', form.image(FOUR, changed(FOUR, 3, kind=0)), 6),
            ('sum one less', form.image(FOUR, body=bytes(571)), 7)):
        for place in (0, MOST):
            yield from form.at_place(label, one, place, (RULE % rule, b''))


def cases():
    for form in FORMS:
        for part in (good, sizes, trailers, starts, fields, offsets, sums, byte_order, two_rules, wanted_days, places,
                     places_of_broken):
            yield from part(form)
