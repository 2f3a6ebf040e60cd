#!/usr/bin/env python3
"""Finds the best chain to every signer of tests/data/made by the reader of tests/cases, after every item has passed.

  chains.py           writes chains.tsv
  chains.py --check   writes nothing; exit status 1 where chains.tsv is not what is found now

chains.tsv has the columns image, moment, place (the signer asked for), number (0 for a chain, else the refusal),
detail, length and places (with commas between them, - if there are none).
"""
import pathlib
import sys

sys.dont_write_bytecode = True
sys.path.insert(0, str(pathlib.Path(__file__).resolve().parents[1] / 'cases'))

import oracle_chain
import oracle_image
import oracle_letters
from made import images, octets, rows, store

FIXED = 20261115120000
# the last second of a signer, the seconds around the start of today's CRL and around the end of the first anchor
MOMENTS = (FIXED, 20261110235959, 20261115055959, 20261115060000, 20261130235959, 20261201000000)


def items_of(places):
    items = [(place.kind, place.flags, octets(place.file)) for place in places]
    for place, (kind, _, item) in zip(places, items):
        if oracle_chain.opened(kind, item) is None:
            sys.exit('%s does not pass' % place.file)
    return items


def images_of(items, day):
    """The image in both versions."""
    kinds, flags, contents = zip(*items)
    one = oracle_image.written(b''.join(contents), kinds, flags, [len(item) for item in contents], bytes(2 * len(kinds)), 1, day)
    return one, oracle_letters.moved(one, 2)


def table():
    yield 'image\tmoment\tplace\tnumber\tdetail\tlength\tplaces\n'
    verdicts = rows('verdicts.tsv')
    for name, places in images().items():
        items = items_of(places)
        pairs = bytes(int(digit) for image, _, row in verdicts if image == name for digit in row)
        written = images_of(items, places[0].day)
        for moment in MOMENTS:
            for place in places:
                if place.kind == oracle_chain.SIGNER:
                    answer = oracle_chain.chain(items, pairs, moment, place.place)
                    assert all(answer == oracle_chain.chain_of_image(image, pairs, moment, place.place) for image in written)
                    number, detail, length, chain = answer
                    yield '%s\t%d\t%d\t%d\t%d\t%d\t%s\n' % (
                        name, moment, place.place, number, detail, length, ','.join(map(str, chain)) or '-')


if __name__ == '__main__':
    store(sys.argv[1:], 'chains.tsv', ''.join(table()), __doc__)
