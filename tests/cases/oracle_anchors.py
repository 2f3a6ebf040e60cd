"""The anchors of a country by the rules paper: by the letters that they report, or by those of the index."""
import oracle_image
import oracle_letters
from refused import Refused

ANCHOR, ENABLED = oracle_image.KINDS['anchor'], 1


def listed(image, first, second, by_index):
    """The places of the enabled anchors whose letters are these."""
    if not (65 <= first <= 90 and 65 <= second <= 90):
        raise Refused(1)
    oracle_image.opened(image, (2,) if by_index else (1, 2))
    places = []
    for place, (entry, octets) in enumerate(oracle_letters.items(image)):
        if (entry.kind, entry.flags) == (ANCHOR, ENABLED):
            told = bytes([entry.first, entry.second]) if by_index else oracle_letters.true_letters(ANCHOR, octets)
            if told == bytes([first, second]):
                places.append(place)
    return places
