"""Cases of every signer in one call."""
import zlib

import cases_chain
import oracle_chain
from cases_chain import ARGUMENT, B, DIAMOND, FIVE, FOUR, LINE, MOMENT, STEP, THREE, replaced, shape
from chain_build import anchor, crl, signer, table
from der_build import utc
from image_build import ANCHOR, SIGNER, Item, image
from oracle_chain import RECORD
from record import SIGNERS, Case
from refused import Refused

SHORT = Refused(9)


def words(number, detail, chains, room):
    """The answer, and the checksum of the output: a record for each place, beyond them what stood there."""
    told = Refused(number, detail).words() if number else 'written %d' % (RECORD * len(chains))
    records = b''.join(bytes([len(places)] + oracle_chain.slots(places)) for places in chains)
    output = records + b'\xee' * (room - len(records))
    return '%s, output %d octets, checksum %d' % (told, len(output), zlib.adler32(output))


def asked(label, one, verdicts, stated, number, moment=MOMENT, room=None):
    """A case over an image's bytes and a table's. `stated` are the chains worked out by hand, by their places, or the refusal. The
    output has an octet more than that many places need, where its room is not given."""
    if room is None:
        room = RECORD * number + 1
    if isinstance(stated, Refused):
        wanted = stated.number, stated.detail, []
    else:
        wanted = 0, 0, [stated.get(place, []) for place in range(number)]
    return Case('signers: ' + label, SIGNERS, words(*oracle_chain.all_signers(one, verdicts, moment, room), room), one + verdicts,
                (len(one), moment, room), words(*wanted, room))


def over(label, listed, pairs, stated, **more):
    """A case over items, and the pairs of places with verdict 1."""
    return asked(label, image(listed), table(len(listed), pairs), stated, len(listed), **more)


def every(number):
    return [(u, v) for u in range(number) for v in range(number)]


def single():
    """Images with one signer, and with none."""
    yield over('the rules paper\'s, by two links', FIVE, DIAMOND, {3: [0, 1, 3]})
    yield over('the rules paper\'s, with a verdict from anchor to signer', FIVE, DIAMOND + [(0, 3)], {3: [0, 3]})
    yield over('the rules paper\'s, no CRL counts', FIVE, DIAMOND[:-1], {})
    yield over('an anchor, a signer, a CRL', THREE, STEP, {1: [0, 1]})
    yield over('an anchor, a link, a signer, a CRL', FOUR, LINE, {2: [0, 1, 2]})
    yield over('no signer', shape('alc'), every(3), {})
    yield over('links alone', shape('lll'), every(3), {})
    yield over('no items', [], [], {})
    yield over('no items, no room', [], [], {}, room=0)


def several():
    """Several signers, of which each has its own chain or none."""
    two = shape('alsslsc')
    pairs = [(0, 1), (1, 2), (0, 4), (4, 3), (4, 5), (1, 5), (0, 6)]
    yield over('three signers', two, pairs, {2: [0, 1, 2], 3: [0, 4, 3], 5: [0, 1, 5]})
    for gone, stated in (((0, 1), {3: [0, 4, 3], 5: [0, 4, 5]}), ((1, 2), {3: [0, 4, 3], 5: [0, 1, 5]}),
                         ((0, 4), {2: [0, 1, 2], 5: [0, 1, 5]}), ((0, 6), {})):
        yield over('three signers without verdict %d-%d' % gone, two, [one for one in pairs if one != gone], stated)
    yield over('three signers, every verdict', two, every(7), {2: [0, 2], 3: [0, 3], 5: [0, 5]})
    yield over('three signers, the second listed', replaced(two, 6, crl(b'\4')), pairs, {2: [0, 1, 2], 5: [0, 1, 5]})
    yield over('three signers, the first link listed', replaced(two, 6, crl(b'\2')), pairs, {3: [0, 4, 3], 5: [0, 4, 5]})
    yield over('the last place is a signer', shape('acs'), [(0, 1), (0, 2)], {2: [0, 2]})
    yield over('the first place is a signer', shape('sac'), [(1, 0), (1, 2)], {0: [1, 0]})
    yield over('signers alone and a CRL under the last place', shape('sssca'), [(4, 0), (4, 2), (4, 3)], {0: [4, 0], 2: [4, 2]})
    yield over('two anchors, each with its signer', shape('aassc'), [(0, 3), (1, 2), (1, 3), (0, 4)], {2: [1, 2], 3: [0, 3]})
    yield over('one signer\'s issuer is another', replaced(shape('assc'), 1, signer(issuer=B)), every(4), {2: [0, 2]})
    yield over('one signer is over', replaced(shape('assc'), 2, signer(serial=b'\3', end=utc('260301115959Z'))), every(4),
               {1: [0, 1]})
    yield over('one signer is not DER', replaced(shape('assc'), 1, Item(SIGNER, 0, b'\x30')), every(4), {2: [0, 2]})
    yield over('the anchor is disabled', replaced(shape('assc'), 0, anchor(0)), every(4), {})
    yield over('the anchor is not DER', replaced(shape('aassc'), 0, Item(ANCHOR, 1, b'\x30')), every(5), {2: [1, 2], 3: [1, 3]})


def long():
    """96 places."""
    line = shape('a' + 'l' * 93 + 'sc')
    steps = [(place, place + 1) for place in range(94)] + [(0, 95)]
    yield over('96 places in a line', line, steps, {94: list(range(95))})
    many = shape('al' + 's' * 93 + 'c')
    yield over('93 signers under a link', many, [(0, 1), (0, 95)] + [(1, place) for place in range(2, 95)],
               {place: [0, 1, place] for place in range(2, 95)})
    yield over('93 signers, every other under the anchor', many,
               [(0, 1), (0, 95)] + [(place % 2, place) for place in range(2, 95)],
               {place: [0, 1, place] if place % 2 else [0, place] for place in range(2, 95)})


def rooms():
    """The output: its room is asked last, and what stands beyond the records stays."""
    for room in (3 * RECORD, 3 * RECORD + 1, 4 * RECORD, 3 * 255):
        yield over('%d octets of output for three places' % room, THREE, STEP, {1: [0, 1]}, room=room)
    for room in (0, 1, 96, RECORD, 3 * 96, 3 * RECORD - 1):
        yield over('%d octets of output for three places' % room, THREE, STEP, SHORT, room=room)
    one, verdicts = image(THREE), table(3, STEP)
    for label, room in (('room', 3 * RECORD), ('no room', 0)):
        yield asked('a broken image, ' + label, image(THREE, start=0), verdicts, Refused(5, 5), 3, room=room)
        yield asked('a table of 8, ' + label, one, verdicts[:8], ARGUMENT, 3, room=room)
        yield asked('a table of 10, ' + label, one, verdicts + b'\0', ARGUMENT, 3, room=room)
        yield asked('a verdict of 2, ' + label, one, verdicts[:8] + b'\2', ARGUMENT, 3, room=room)
        yield asked('a moment that is none, ' + label, one, verdicts, ARGUMENT, 3, 20260229000000, room)


def shown():
    """The chains of the single question's cases, asked for all places."""
    for part in (cases_chain.ties, cases_chain.odd_steps):
        for case in part():
            size, moment, _ = case.numbers
            one, verdicts = case.item[:size], case.item[size:]
            number = len(oracle_chain.items_of(one))
            room = RECORD * number
            told = oracle_chain.all_signers(one, verdicts, moment, room)
            yield Case('signers: ' + case.label, SIGNERS, words(*told, room), case.item, (size, moment, room))


def cases():
    for part in (single, several, long, rooms, shown):
        yield from part()
