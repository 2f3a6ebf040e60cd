"""Cases of room made in an image: what stays, the cut table, both outputs, and the chains after it."""
import zlib

import cases_chain
import oracle_chain
import oracle_room
from cases_chain import shape
from cases_image import FORMS, RULE
from cases_letters import FAILING
from chain_build import anchor, crl, link, signer, table
from der_build import generalized, utc
from image_build import CRL, LINK, Item, image, items
from record import MAKE_ROOM, Case
from refused import Refused

MOMENT = 20260301120000
BEFORE, AT, AFTER = (utc('2603011%sZ' % clock) for clock in ('15959', '20000', '20001'))
LATER = utc('300101000000Z')
MAKERS = {'anchor': anchor, 'link': link, 'signer': signer, 'crl': crl}


def ending(kind, end, serial=b'\1', **changed):
    """An item of a kind that ends so."""
    if kind == 'crl':
        return crl(next=end, **changed)
    return MAKERS[kind](end=end, serial=serial, **changed)


def verdicts(number):
    """A table that is not symmetric; up to 5 places no two rows are alike, nor two columns."""
    return bytes((row * 7 + column * 3 + row * column) % 5 < 2 for row in range(number) for column in range(number))


def answer(words, out, table_out):
    return '%s, image %d octets, checksum %d, table %d octets, checksum %d' % (
        words, len(out), zlib.adler32(out), len(table_out), zlib.adler32(table_out))


def asked(label, one, given, stated, moment=MOMENT, rooms=None):
    """`stated` is the refusal in words, or the new image and table. The outputs are as long as these, or as `rooms` says."""
    if rooms is None:
        rooms = (len(stated[0]), len(stated[1])) if isinstance(stated, tuple) else (len(one), len(given))
    out, table_out = b'\xee' * rooms[0], b'\xee' * rooms[1]
    if isinstance(stated, tuple):
        new, cut = stated
        told = 'made %d, %d, %d' % (len(new), len(cut), int.from_bytes(new[-8:-6], 'big'))
        wanted = answer(told, new + out[len(new):], cut + table_out[len(cut):])
    else:
        wanted = answer(stated, out, table_out)
    try:
        size, cells, number, out, table_out = oracle_room.make_room(one, given, moment, out, table_out)
        found = answer('made %d, %d, %d' % (size, cells, number), out, table_out)
    except Refused as refusal:
        found = answer(refusal.words(), out, table_out)
    return Case('room: ' + label, MAKE_ROOM, found, one + given, (len(one), moment, rooms[0] << 32 | rooms[1]), wanted)


def cut(given, number, places):
    return bytes(given[row * number + column] for row in places for column in places)


def over(label, listed, places, moment=MOMENT, more=(0, 0), **fields):
    """A case in which these places stay, in both versions; `more` is what the outputs have beyond."""
    for form in FORMS:
        given = verdicts(len(listed))
        new = form.image([listed[place] for place in places], **fields)
        old = cut(given, len(listed), places)
        rooms = len(new) + more[0], len(old) + more[1]
        yield asked('%s, version %d' % (label, form.version), form.image(listed, **fields), given, (new, old), moment, rooms)


def lettered(listed):
    """The same items, each with letters by its place, which are not those of its country."""
    return [item._replace(letters=bytes([place + 1, 255 - place])) for place, item in enumerate(listed)]


# one of each kind that goes on, and one of each that is past
STAYING = lettered([ending(kind, LATER) for kind in MAKERS])
PAST = lettered([ending(kind, BEFORE) for kind in MAKERS])


def several():
    yield from over('no items', [], [])
    yield from over('nothing goes', STAYING, [0, 1, 2, 3])
    yield from over('all goes', PAST, [])
    yield from over('the middle alone stays', lettered([PAST[0], STAYING[1], STAYING[2], PAST[3]]), [1, 2])
    yield from over('the middle alone goes', lettered([STAYING[0], PAST[1], PAST[2], STAYING[3]]), [0, 3])
    yield from over('every second stays', lettered([STAYING[2], PAST[2]] * 3), [0, 2, 4])
    for place, kind in enumerate(MAKERS):
        one = STAYING[:place] + [PAST[place]] + STAYING[place + 1:]
        yield from over('a %s alone goes' % kind, one, [p for p in range(4) if p != place])
        one = PAST[:place] + [STAYING[place]] + PAST[place + 1:]
        yield from over('a %s alone stays' % kind, one, [place])
    for day in (19500101, 20991231):
        yield from over('day %d' % day, lettered([PAST[0], STAYING[1]]), [1], day=day)
    many = [STAYING[2] if place % 5 else PAST[2] for place in range(96)]
    yield from over('96 signers, every fifth goes', many, [place for place in range(96) if place % 5])


def seconds():
    """The second of the moment is the last of an item that stays."""
    for kind in MAKERS:
        for label, end, places in (('a second before', BEFORE, [1]), ('at', AT, [0, 1]), ('a second after', AFTER, [0, 1])):
            yield from over('a %s ends %s the moment' % (kind, label), [ending(kind, end), STAYING[0]], places)
    long = ending('link', generalized('20991231235959Z'))
    yield from over('an end at the last moment', [long], [0], moment=20991231235959)
    yield from over('an end after the last moment', [ending('signer', generalized('21000101000000Z'))], [0],
                    moment=20991231235959)
    yield from over('an end a second before the last moment', [ending('crl', generalized('20991231235958Z'))], [],
                    moment=20991231235959)
    yield from over('the first moment', STAYING, [0, 1, 2, 3], moment=19500101000000)


def no_part():
    """Starts, this updates, flags and letters."""
    late = utc('290101000000Z')
    later = [anchor(start=late, end=LATER), link(start=late, end=LATER), signer(start=late, end=LATER), crl(this=late, next=LATER)]
    yield from over('nothing has begun', lettered(later), [0, 1, 2, 3])
    disabled = [anchor(flags=0, end=LATER), anchor(flags=1, end=LATER), anchor(flags=0, end=BEFORE)]
    yield from over('an anchor that is not enabled', lettered(disabled), [0, 1])
    for letters in (b'\0\0', b'UT', b'XX', b'\xff\0'):
        one = [item._replace(letters=letters) for item in (STAYING[0], PAST[1], STAYING[3])]
        yield from over('letters %s' % letters.hex(' '), one, [0, 2])


def failing():
    """What fails its profile for its kind goes, also where it would pass for another."""
    for place, item in enumerate(FAILING):
        yield from over('failing item %d' % place, [STAYING[0], item._replace(letters=b'UT'), STAYING[3]], [0, 2])
    yield from over('all fail', FAILING, [])
    octet = Item(CRL, 0, b'\0'), Item(LINK, 0, b'\x30\0')
    yield from over('failing items at both ends', [octet[0], STAYING[2], octet[1]], [1])


def outputs():
    """Both just long enough, longer, and one octet too short, each."""
    listed = lettered([PAST[0], STAYING[1], STAYING[2], PAST[3], STAYING[0]])
    for more in ((0, 0), (1, 0), (0, 1), (100, 50)):
        yield from over('outputs longer by %d and %d' % more, listed, [1, 2, 4], more=more)
    for form in FORMS:
        one, given = form.image(listed), verdicts(5)
        new = form.image([listed[place] for place in (1, 2, 4)])
        for rooms in ((len(new) - 1, 9), (len(new), 8), (len(new) - 1, 8), (0, 9), (len(new), 0), (0, 0), (12, 25),
                      (len(new) - 1, 100), (len(one), 8)):
            label = 'rooms %d and %d, version %d' % (*rooms, form.version)
            yield asked(label, one, given, 'refused 9', rooms=rooms)
        past = form.image(PAST)
        yield asked('all goes, 11 octets, version %d' % form.version, past, verdicts(4), 'refused 9', rooms=(11, 16))
        yield asked('all goes, no table, version %d' % form.version, past, verdicts(4), (form.smallest, b''), rooms=(12, 0))


def refusals():
    """The image's own, then the table, the moment, then the outputs."""
    for form in FORMS:
        one, given = form.image(STAYING), verdicts(4)
        version = ', version %d' % form.version
        bad = (('no octets', b'', 1), ('11 octets', form.smallest[1:], 1), ('version 3', form.image(STAYING, version=3), 2),
               ('97 entries', form.image(items(97)), 3), ('day 20230229', form.image(STAYING, day=20230229), 4),
               ('index start 1', form.image(start=1), 5), ('kind 0', form.image(items(1, 0)), 6),
               ('sum one less', form.image(STAYING, body=b'\0'), 7))
        for label, broken, rule in bad:
            yield asked(label + version, broken, given, RULE % rule)
            yield asked(label + ', all else wrong' + version, broken, b'\2', RULE % rule, moment=0, rooms=(0, 0))
        for label, wrong in (('15 verdicts', given[1:]), ('17 verdicts', given + b'\0'), ('no verdicts', b''),
                             ('a verdict 2', given[:15] + b'\2'), ('a verdict 255', b'\xff' + given[1:])):
            yield asked(label + version, one, wrong, 'refused 1')
            yield asked(label + ', no room' + version, one, wrong, 'refused 1', rooms=(0, 0))
        for moment in (0, 20260301, 20260229120000, 20260301240000, 20260301126000, 20260301120060, 19491231235959,
                       21000101000000, 2 ** 64 - 1):
            yield asked('moment %d%s' % (moment, version), one, given, 'refused 1', moment=moment)
        yield asked('no real moment, no room' + version, one, given, 'refused 1', moment=0, rooms=(0, 0))


def mixed():
    """An image in which the best chains of some signers lead by items that end one after the other."""
    ends = {1: BEFORE, 3: AT, 4: utc('270101000000Z'), 8: utc('250101000000Z'), 11: utc('280101000000Z')}
    listed = shape('aalllsscsscc')
    for place, end in ends.items():
        kind = {'a': 'anchor', 'l': 'link', 's': 'signer', 'c': 'crl'}['aalllsscsscc'[place]]
        listed[place] = ending(kind, end, bytes([place + 1]))
    listed[2] = Item(LINK, 0, b'\x30\0')
    pairs = [(0, 3), (0, 4), (3, 5), (4, 5), (4, 6), (1, 6), (2, 6), (0, 7), (0, 8), (3, 9), (0, 11), (1, 9)]
    return listed, table(len(listed), pairs)


def chains():
    """After it each signer that stays has the same chain from that moment on, under its new number, or none as before."""
    listed, given = mixed()
    for version in (1, 2):
        one = image(listed, version=version)
        new, small, places = oracle_room.made(one, given, MOMENT)
        assert places == [place for place in range(12) if place not in (1, 2, 8)]
        yield asked('links and signers that end one after the other, version %d' % version, one, given, (new, small))
        yield asked('the same again, version %d' % version, new, small, (new, small))
        for moment in (MOMENT, 20260301120001, 20270101000000, 20270101000001, 20280101000001, 20341231235959, 20991231235959):
            for place in (5, 6, 9):
                number, detail, _, found = oracle_chain.chain_of_image(one, given, moment, place)
                stated = Refused(number, detail) if number else [places.index(step) for step in found]
                label = 'after room is made, version %d, at %d, signer %d' % (version, moment, place)
                yield cases_chain.asked(label, new, small, stated, moment, places.index(place))
            label = 'before room is made, version %d, at %d, the signer that goes' % (version, moment)
            yield cases_chain.asked(label, one, given, Refused(7), moment, 8)


def no_questions():
    one = image(STAYING)
    for rooms in ((300001, 16), (12, 10001)):
        yield Case('room: rooms %d and %d' % rooms, MAKE_ROOM, 'no such question', one + verdicts(4),
                   (len(one), MOMENT, rooms[0] << 32 | rooms[1]))
    yield Case('room: an image that is longer than the bytes', MAKE_ROOM, 'no such question', one, (len(one) + 1, MOMENT, 0))


def cases():
    for part in (several, seconds, no_part, failing, outputs, refusals, chains, no_questions):
        yield from part()
