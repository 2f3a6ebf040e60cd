"""Cases of writing a trust image of either version. The lent output holds EE in each octet before the call."""
import struct
import zlib

import oracle_image
from image_build import ANCHOR, CRL, DAY, LINK, NONE, SIGNER, Item, image, items, sized, some_octets
from record import WRITE, WRITE_FILLED, Case
from refused import Refused

MOST = 2 ** 64 - 1
# packed items of this octet alone are not stored, the program has them
FILL = b'\x5a'
FOUR = [Item(ANCHOR, 1, some_octets(300, 1), b'UT'), Item(LINK, 0, some_octets(5, 2)),
        Item(SIGNER, 0, some_octets(258, 3), b'\0\xff'), Item(CRL, 0, some_octets(7, 4), b'XO')]


def wrote(label, listed, stated, room=None, form=1, version=None, day=DAY, **columns):
    """A question from some items, each column replaceable. `stated` is the refusal, or None where the image of the
    items is written. The output is as long as that image, or `room`."""
    whole = image(listed, version=form, day=day if day < 2 ** 32 else 0)
    version = form if version is None else version
    packed = columns.get('packed', b''.join(item.octets for item in listed))
    kinds = columns.get('kinds', [item.kind for item in listed])
    flags = columns.get('flags', [item.flags for item in listed])
    lengths = columns.get('lengths', [len(item.octets) for item in listed])
    letters = columns.get('letters', b''.join(item.letters if form == 2 else NONE for item in listed))
    output = b'\xee' * (len(whole) if room is None else room)
    if stated is None:
        wanted = answer('written %d' % len(whole), whole + output[len(whole):])
    else:
        wanted = answer(stated, output)
    numbers = (day, len(output), len(packed))
    try:
        length, output = oracle_image.write(packed, kinds, flags, lengths, letters, version, day, output)
        found = answer('written %d' % length, output)
        assert oracle_image.opened(output[:length]) == (len(listed), day, version), label
    except Refused as refusal:
        found = answer(refusal.words(), output)
    rest = columns_of(kinds, flags, lengths, letters, version)
    label = 'write%s: %s' % (' version 2' if form == 2 else '', label)
    if packed and FILL * len(packed) == packed:
        return Case(label, WRITE_FILLED, found, rest, numbers, wanted)
    return Case(label, WRITE, found, packed + rest, numbers, wanted)


def answer(words, output):
    return '%s, output %d octets, checksum %d' % (words, len(output), zlib.adler32(output))


def columns_of(kinds, flags, lengths, letters=b'', version=1):
    counts = struct.pack('>Q4I', version, len(kinds), len(flags), len(letters), len(lengths))
    return counts + bytes(kinds) + bytes(flags) + bytes(letters) + struct.pack('>%dI' % len(lengths), *lengths)


def good(form):
    for label, listed in (('no items', []), ('one of each kind', FOUR), ('96 CRLs', items(96, CRL)),
                          ('96 enabled anchors', items(96, ANCHOR, 1)), ('one signer', items(1, SIGNER)),
                          ('two links', items(2, LINK)), ('an anchor that is not enabled', items(1, ANCHOR))):
        size = len(image(listed, version=form))
        yield wrote('%s, room for it' % label, listed, None, form=form)
        yield wrote('%s, room for 100 octets more' % label, listed, None, size + 100, form=form)
        yield wrote('%s, one octet too short' % label, listed, 'refused 9', size - 1, form=form)
    yield wrote('no items, room for one octet more', [], None, 13, form=form)
    yield wrote('no items, no room', [], 'refused 9', 0, form=form)
    yield wrote('one of each kind, room for one octet more', FOUR, None, len(image(FOUR, version=form)) + 1, form=form)
    yield wrote('one of each kind, no room', FOUR, 'refused 9', 0, form=form)
    for day in (19500101, 20991231, 20240229):
        yield wrote('no items, day %d' % day, [], None, day=day, form=form)
    yield wrote('an item of 16384 octets', [Item(LINK, 0, some_octets(16384))], None, form=form)
    yield wrote('items of one octet', [Item(CRL, 0, b'\xee')] * 3, None, form=form)


def fields(form):
    """A field out of range."""
    for place, name in ((0, 'first'), (1, 'second'), (3, 'last')):
        for kind in (0, 5, 255):
            kinds = [1, 2, 3, 4]
            kinds[place] = kind
            yield wrote('kind %d of the %s item' % (kind, name), FOUR, 'refused 1', kinds=kinds, flags=[0] * 4, form=form)
    for flags in (2, 255):
        yield wrote('flags %d of an anchor' % flags, items(1, ANCHOR), 'refused 1', flags=[flags], form=form)
    for kind in (LINK, SIGNER, CRL):
        yield wrote('flags 1 of kind %d' % kind, items(1, kind), 'refused 1', flags=[1], form=form)
    yield wrote('length 0', [Item(LINK, 0, b'')], 'refused 1', form=form)
    yield wrote('length 0 amid others', items(1) + [Item(LINK, 0, b'')] + items(1), 'refused 1', form=form)
    yield wrote('length 16385', [Item(LINK, 0, some_octets(16385))], 'refused 1', form=form)
    yield wrote('length 2^16 more than the octets', items(1), 'refused 1', lengths=[65537], form=form)
    yield wrote('length 2^16 for no octets', items(1), 'refused 1', lengths=[65536], packed=b'', form=form)
    yield wrote('length 2^32 - 1', items(1), 'refused 1', lengths=[2 ** 32 - 1], form=form)
    yield wrote('lengths 2^32 - 1 and 6 for 5 octets', items(2), 'refused 1', lengths=[2 ** 32 - 1, 6], form=form)
    for day in (20230229, 20240230, 20241301, 20240100, 0, 19491231, 21000101, 2 ** 32 + DAY, 2 ** 63, MOST):
        yield wrote('day %08d' % day, FOUR, 'refused 1', len(image(FOUR, version=form)), day=day, form=form)
    yield wrote('day 20230229, no items', [], 'refused 1', day=20230229, form=form)


def columns(form):
    """Kinds, flags and lengths that are not equally many, lengths that do not sum to the octets."""
    kinds, flags, lengths = [1, 2, 3, 4], [1, 0, 0, 0], [300, 5, 258, 7]
    rows = (
        ('one kind more', {'kinds': kinds + [4]}),
        ('one kind fewer', {'kinds': kinds[:-1]}),
        ('no kinds', {'kinds': []}),
        ('one flag more', {'flags': flags + [0]}),
        ('one flag fewer', {'flags': flags[:-1]}),
        ('no flags', {'flags': []}),
        ('one length more', {'lengths': lengths + [1]}),
        ('one length fewer', {'lengths': lengths[:-1]}),
        ('one length fewer, the sum right', {'lengths': [300, 5, 265]}),
        ('one length more, the sum right', {'lengths': [300, 5, 258, 6, 1]}),
        ('no lengths', {'lengths': []}),
        ('no kinds, no flags, no lengths', {'kinds': [], 'flags': [], 'lengths': [], 'letters': b''}),
        ('one octet more than the lengths', {'packed': bytes(571)}),
        ('one octet fewer than the lengths', {'packed': bytes(569)}),
        ('no octets', {'packed': b''}),
        ('the last length one more', {'lengths': [300, 5, 258, 8]}),
        ('the first length one less', {'lengths': [299, 5, 258, 7]}),
    )
    for label, replaced in rows:
        yield wrote(label, FOUR, 'refused 1', 700, **replaced, form=form)
    yield wrote('no octets but a kind, a flag, a length and letters', [], 'refused 1', 100, kinds=[4], flags=[0], lengths=[1],
                letters=NONE, form=form)
    yield wrote('one octet and no items', [], 'refused 1', 100, packed=b'\0', form=form)


def filled(listed):
    return [item._replace(octets=FILL * len(item.octets)) for item in listed]


def limits(form):
    most, over = sized(262144, form), filled(sized(262145, form))
    yield wrote('97 items', items(97, CRL), 'refused 1', form=form)
    yield wrote('97 items, kinds, flags and letters of 96', items(97, CRL), 'refused 1', kinds=[4] * 96, flags=[0] * 96,
                letters=bytes(192), form=form)
    yield wrote('an image of 262144 octets', most if form == 1 else filled(most), None, form=form)
    yield wrote('an image of 262145 octets', over, 'refused 3 at 0', form=form)
    yield wrote('an image of 262145 octets, no room', over, 'refused 3 at 0', 0, form=form)
    yield wrote('an image of 262145 octets, no room, kind 0', over, 'refused 1', 0, kinds=[0] * len(over), form=form)


def several(form):
    """1 before 9. That 3 is told between them stands with the limits."""
    yield wrote('kind 5 and too short', items(1, LINK), 'refused 1', 5, kinds=[5], form=form)
    yield wrote('flags 2 and too short', items(1, ANCHOR), 'refused 1', 5, flags=[2], form=form)
    yield wrote('length 0 and no room', [Item(LINK, 0, b'')], 'refused 1', 0, form=form)
    yield wrote('97 items and too short', items(97, CRL), 'refused 1', 12, form=form)
    yield wrote('unequal columns and too short', FOUR, 'refused 1', 12, flags=[1], form=form)
    yield wrote('lengths not summing and too short', FOUR, 'refused 1', 12, packed=b'\0', form=form)
    yield wrote('day not real and too short', [], 'refused 1', 11, day=20230229, form=form)
    yield wrote('kind 0, flags 9, length 0, day 0, no room', FOUR, 'refused 1', 0, day=0, kinds=[0] * 4, flags=[9] * 4,
                lengths=[0] * 4, form=form)


def letters():
    """Any in version 2, zeros in version 1, two for each item."""
    for octet in range(8):
        one = bytes(octet) + b'\1' + bytes(7 - octet)
        yield wrote('letters of version 1, octet %d not zero' % octet, FOUR, 'refused 1', letters=one)
    yield wrote('letters of an image of version 2', FOUR, 'refused 1', form=1, letters=b'UT' * 4)
    for one in (b'UT', b'\0\0', b'\xff\xff', b'ut', b'\0\1', b'A\0'):
        yield wrote('letters %s' % one.hex(' '), [Item(LINK, 0, b'\7', one)], None, form=2)
    for form in (1, 2):
        for number in (0, 1, 4, 7, 9, 10, 16, 263):
            yield wrote('%d letters for 4 items' % number, FOUR, 'refused 1', form=form, letters=bytes(number))
        yield wrote('two letters and no items', [], 'refused 1', 100, form=form, letters=NONE)
        yield wrote('letters too few and too short', FOUR, 'refused 1', 0, form=form, letters=b'')


def versions():
    for version in (0, 3, 255, 256, 257, 258, 2 ** 16 + 1, 2 ** 32 + 1, 2 ** 32 + 2, 2 ** 63, MOST):
        yield wrote('version %d' % version, FOUR, 'refused 1', 700, version=version, letters=bytes(8))
        yield wrote('version %d, no items' % version, [], 'refused 1', 11, version=version)


def no_questions():
    """Records that tell more than they hold."""
    none = 'no such question'
    for label, kind, item, packed in (
            ('packed octets that are not there', WRITE, columns_of([], [], []), 25),
            ('2^64 - 1 packed octets', WRITE, columns_of([], [], []), MOST),
            ('300001 packed octets', WRITE_FILLED, columns_of([], [], []), 300001),
            ('23 octets', WRITE, bytes(23), 0),
            ('kinds that are not there', WRITE, struct.pack('>Q4I', 1, 1, 0, 0, 0), 0),
            ('flags that are not there', WRITE, struct.pack('>Q4I', 1, 0, 1, 0, 0), 0),
            ('letters that are not there', WRITE, struct.pack('>Q4I', 1, 0, 0, 1, 0), 0),
            ('129 lengths', WRITE, struct.pack('>Q4I', 1, 0, 0, 0, 129), 0)):
        yield Case('write: %s' % label, kind, none, item, (DAY, 100, packed))
    yield Case('write: room for 300001 octets', WRITE, none, columns_of([], [], []), (DAY, 300001, 0))


def cases():
    for form in (1, 2):
        for part in (good, fields, columns, limits, several):
            yield from part(form)
    for part in (letters, versions, no_questions):
        yield from part()
