"""A trust image by the rules paper, of version 1 or 2: which rules it breaks, its entries, its items; and the writer."""
import collections

import oracle_days
from refused import Refused

TRAILER = 12
# the octets of an index entry, by the version
WIDTHS = {1: 8, 2: 12}
MOST_OCTETS, MOST_ENTRIES, MOST_LENGTH = 262144, 96, 16384
KINDS = {'anchor': 1, 'link': 2, 'signer': 3, 'crl': 4}

Trailer = collections.namedtuple('Trailer', 'start entries version day')
Entry = collections.namedtuple('Entry', 'kind flags length offset first second zeros', defaults=[0, 0, 0])


def numbers(octets, *widths):
    """The big-endian numbers that stand one after the other, of those widths."""
    found = []
    for width in widths:
        found.append(sum(octet << 8 * (width - 1 - place) for place, octet in enumerate(octets[:width])))
        octets = octets[width:]
    return found


def trailer(image):
    return Trailer(*numbers(image[-TRAILER:], 4, 2, 2, 4))


def index(image):
    """The entries, which stand right before the trailer where rule 5 holds. Version 1 has no letters, so they are zeros."""
    start, entries, version = trailer(image)[:3]
    width = WIDTHS[version]
    fields = (1, 1, 2, 4) if version == 1 else (1, 1, 2, 4, 1, 1, 2)
    return [Entry(*numbers(image[start + width * place:], *fields)) for place in range(entries)]


def in_range(kind, flags, length):
    allowed = (0, 1) if kind == KINDS['anchor'] else (0,)
    return kind in KINDS.values() and flags in allowed and length in range(1, MOST_LENGTH + 1)


def broken_rules(image, versions=tuple(WIDTHS)):
    """Every rule that is broken, the smallest first, where an image of one of those versions is wanted. Without a trailer, in a
    version that is none, or with an index that is not where rule 5 has it, there is nothing more to judge."""
    if len(image) < TRAILER:
        return [1]
    told = trailer(image)
    keeps = {
        1: len(image) <= MOST_OCTETS,
        2: told.version in versions,
        3: told.entries <= MOST_ENTRIES,
        4: oracle_days.real_day(told.day),
    }
    if told.version in WIDTHS:
        keeps[5] = told.start + WIDTHS[told.version] * told.entries + TRAILER == len(image)
    if keeps.get(5):
        listed = index(image)
        lengths = [entry.length for entry in listed]
        keeps[6] = all(in_range(*entry[:3]) and entry.offset == sum(lengths[:place]) and entry.zeros == 0
                       for place, entry in enumerate(listed))
        keeps[7] = sum(lengths) == told.start
    return [rule for rule in sorted(keeps) if not keeps[rule]]


def opened(image, versions=tuple(WIDTHS)):
    """The number of entries, the day and the version of a good image."""
    broken = broken_rules(image, versions)
    if broken:
        raise Refused(5, broken[0])
    return trailer(image).entries, trailer(image).day, trailer(image).version


def opened_for(image, wanted):
    if not oracle_days.real_day(wanted):
        raise Refused(1)
    told = opened(image)
    if told[1] != wanted:
        raise Refused(6)
    return told


def entry(image, place):
    if place >= opened(image)[0]:
        raise Refused(1)
    return index(image)[place]


def item(image, place):
    """The octets of an item, none on a refusal."""
    try:
        one = entry(image, place)
    except Refused:
        return b''
    return image[one.offset:][:one.length]


def big(number, width):
    return bytes(number >> 8 * (width - 1 - place) & 255 for place in range(width))


def good_letters(letters, version, number):
    """Two for each item: any in version 2, zeros in version 1."""
    return len(letters) == 2 * number and (version == 2 or not any(letters))


def written(packed, kinds, flags, lengths, letters, version, day):
    """The image of some packed items."""
    if not (version in WIDTHS and len(kinds) == len(flags) == len(lengths) <= MOST_ENTRIES and oracle_days.real_day(day)
            and all(map(in_range, kinds, flags, lengths)) and sum(lengths) == len(packed)
            and good_letters(letters, version, len(kinds))):
        raise Refused(1)
    made, offset = packed, 0
    for place, (kind, flag, length) in enumerate(zip(kinds, flags, lengths)):
        made += big(kind, 1) + big(flag, 1) + big(length, 2) + big(offset, 4)
        if version == 2:
            made += bytes(letters[2 * place:2 * place + 2]) + big(0, 2)
        offset += length
    made += big(len(packed), 4) + big(len(kinds), 2) + big(version, 2) + big(day, 4)
    if len(made) > MOST_OCTETS:
        raise Refused(3)
    return made


def lent(made, out):
    """The length of an image, and what the lent output holds then."""
    if len(made) > len(out):
        raise Refused(9)
    return len(made), made + out[len(made):]


def write(packed, kinds, flags, lengths, letters, version, day, out):
    return lent(written(packed, kinds, flags, lengths, letters, version, day), out)
