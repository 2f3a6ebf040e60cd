"""Cases of the replay of a tray log. Each number of the lent list is 7777 before the call."""
import struct

import oracle_tray
from oracle_tray import BURN, LOAD, OPEN
from record import REPLAY, Case
from refused import Refused

DAY = 20261115
FILL = 7777


def record(action, unit=0, day=0, zeros=0):
    return struct.pack('>BBHI', action, unit, zeros, day)


def opened(day=DAY):
    return record(OPEN, day=day)


def loaded(day=DAY):
    return record(LOAD, day=day)


def burnt(*units):
    return b''.join(record(BURN, unit) for unit in units)


READY = opened() + loaded()
ALL = range(1, 41)


def replayed(label, log, stated, room=None):
    """`stated` is the refusal, or the numbers of the faulty records. The list has room for them and two more, or `room`."""
    refused = isinstance(stated, str)
    room = (0 if refused else len(stated) + 2) if room is None else room
    old = [FILL] * room
    wanted = answer(stated, old) if refused else answer('faulty %d' % len(stated), stated + old[len(stated):])
    try:
        numbers, count = oracle_tray.replay(log, old)
        found = answer('faulty %d' % count, numbers)
    except Refused as refusal:
        found = answer(refusal.words(), old)
    return Case('replay: ' + label, REPLAY, found, log, (room,), wanted)


def answer(words, numbers):
    return words + ', list' + ''.join(' %d' % number for number in numbers)


def nights():
    night = READY + burnt(*ALL)
    stale = opened() + loaded(DAY - 1) + burnt(*ALL)
    numbers = list(range(2, 42))
    yield replayed('no records', b'', [])
    yield replayed('no records, no list', b'', [], 0)
    yield replayed('a good night', night, [])
    yield replayed('a good night, no list', night, [], 0)
    yield replayed('the night with the image of the day before', stale, numbers)
    yield replayed('that night, a list exactly long enough', stale, numbers, 40)
    yield replayed('that night, a list for each record', stale, numbers, 42)
    yield replayed('that night, a list longer than the log', stale, numbers, 43)
    yield replayed('that night, a list one short', stale, 'refused 9', 39)
    yield replayed('that night, no list', stale, 'refused 9', 0)
    yield replayed('that night, the image of the day loaded then', stale + loaded() + burnt(*ALL), numbers)
    yield replayed('opened again on the same day', night + opened() + burnt(*ALL), [])
    yield replayed('opened on the next day, the image of the day before kept', night + opened(DAY + 1) + burnt(1), [43])
    yield replayed('loaded before it is opened', loaded() + opened() + burnt(*ALL), [])


def faults():
    """Each fault alone."""
    yield replayed('burnt before any opening', loaded() + burnt(1), [1])
    yield replayed('burnt before any load', opened() + burnt(1), [1])
    yield replayed('burnt before anything', burnt(1), [0])
    yield replayed('burnt twice', READY + burnt(7, 7), [3])
    for unit in (0, 41, 64, 255):
        yield replayed('unit %d' % unit, READY + burnt(unit), [2])
    yield replayed('units 1 and 40', READY + burnt(1, 40), [])
    yield replayed('a burn with a day', READY + record(BURN, 1, DAY), [2])
    yield replayed('a burn with a day, then the same without', READY + record(BURN, 1, 1) + burnt(1), [2])
    for action in (0, 4, 255):
        yield replayed('action %d' % action, READY + record(action), [2])
    yield replayed('opened a day before', READY + opened(DAY - 1) + burnt(1), [2])
    yield replayed('a faulty opening moves no day', READY + opened(20991232) + opened(DAY) + burnt(1), [2])
    yield replayed('a faulty load takes no image away', READY + loaded(DAY + 16) + burnt(1), [2])
    yield replayed('an image of a later day', opened() + loaded(DAY + 1) + burnt(1), [2])
    for name, action in (('opening', OPEN), ('load', LOAD)):
        yield replayed('%s with a unit' % name, record(action, 1, DAY), [0])
        for day in (0, 19491231, 21000101, 20260229, 20261131, 20261301, 20260015, 20261100, 2 ** 32 - 1):
            yield replayed('%s of day %d' % (name, day), record(action, day=day), [0])
        for day in (19500101, 20991231, 20240229):
            yield replayed('%s of day %d' % (name, day), record(action, day=day), [])
    for name, action in (('opening', OPEN), ('load', LOAD), ('burn', BURN)):
        for zeros in (1, 256):
            day, unit = (0, 1) if action == BURN else (DAY, 0)
            yield replayed('%s with %d for the zeros' % (name, zeros), READY + record(action, unit, day, zeros), [2])


def lengths():
    for more in range(1, 8):
        yield replayed('two records and %d octets' % more, READY + bytes(more), 'refused 1', 3)
    yield replayed('one octet', b'\1', 'refused 1')
    yield replayed('a faulty record and one octet, no list', burnt(1) + b'\0', 'refused 1', 0)


def cases():
    yield from nights()
    yield from faults()
    yield from lengths()
