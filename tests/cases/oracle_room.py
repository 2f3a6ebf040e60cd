"""Room made in an image, by the rules paper: what stays at a moment, the new image and the cut table."""
import oracle_chain
import oracle_image
import oracle_letters
from refused import Refused


def stays(kind, octets, moment):
    """Whether an item passes its profile for its kind, and its end or next update is not before the moment."""
    one = oracle_chain.opened(kind, octets)
    return one is not None and moment <= one.end


def kept(image, moment):
    """The places of a good image that stay."""
    return [place for place, (entry, octets) in enumerate(oracle_letters.items(image)) if stays(entry.kind, octets, moment)]


def made(image, table, moment):
    """The new image, the new table, and the old places that stay."""
    _, day, version = oracle_image.opened(image)
    found = oracle_letters.items(image)
    oracle_chain.check_table(found, table, moment)
    places = kept(image, moment)
    lines = [found[place][0] for place in places]
    kinds, flags, lengths = ([line[field] for line in lines] for field in range(3))
    letters = b''.join(bytes([line.first, line.second]) for line in lines)
    packed = b''.join(found[place][1] for place in places)
    cut = bytes(table[row * len(found) + column] for row in places for column in places)
    return oracle_image.written(packed, kinds, flags, lengths, letters, version, day), cut, places


def make_room(image, table, moment, out, table_out):
    """The lengths of both, how many items stay, and both outputs after the call."""
    new, cut, places = made(image, table, moment)
    if len(new) > len(out) or len(cut) > len(table_out):
        raise Refused(9)
    return len(new), len(cut), len(places), new + out[len(new):], cut + table_out[len(cut):]
