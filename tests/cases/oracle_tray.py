"""The replay of a tray log, record by record."""
import struct

from oracle_days import real_day
from refused import Refused

OPEN, LOAD, BURN = 1, 2, 3


def good(record, tray, image, burnt):
    """Whether a record may be done; `tray` and `image` are days or None."""
    action, unit, zeros, day = record
    if zeros:
        return False
    if action == OPEN:
        return unit == 0 and real_day(day) and (tray is None or tray <= day)
    if action == LOAD:
        return unit == 0 and real_day(day)
    if action == BURN:
        return day == 0 and tray is not None and tray == image and 1 <= unit <= 40 and unit not in burnt
    return False


def faulty(log):
    tray = image = None
    burnt = set()
    for number, record in enumerate(struct.iter_unpack('>BBHI', log)):
        if not good(record, tray, image, burnt):
            yield number
            continue
        action, unit, _, day = record
        if action == OPEN:
            tray, burnt = day, set()
        elif action == LOAD:
            image = day
        else:
            burnt.add(unit)


def replay(log, old):
    """The list after the replay, and how many records are faulty."""
    if len(log) % 8:
        raise Refused(1)
    numbers = list(faulty(log))
    if len(old) < len(numbers):
        raise Refused(9)
    return numbers + old[len(numbers):], len(numbers)
