"""Cases of days, moments and the days between two days."""
import oracle_days
from record import DIFFERENCE, REAL_DAY, REAL_MOMENT, Case
from refused import Refused

MOST = 2 ** 64 - 1


def told(real):
    return 'real' if real else 'not real'


def day(number, real):
    return Case('real day %08d' % number, REAL_DAY, told(oracle_days.real_day(number)), numbers=(number,), stated=told(real))


def moment(number, real):
    return Case('real moment %014d' % number, REAL_MOMENT, told(oracle_days.real_moment(number)), numbers=(number,),
                stated=told(real))


def days():
    real = (19500101, 20991231, 19520229, 20000229, 20240229, 20960229, 20230228, 20240131, 20240331, 20240430,
            20240531, 20240630, 20240731, 20240831, 20240930, 20241031, 20241130, 20241231)
    for number in real:
        yield day(number, True)
    other_years = (19491231, 21000101, 19000228, 21000228, 21001231, 101, 1231, 229, 10101, 99991231, 99960229, 4000229)
    no_day = (0, 1, 99, 100, 19000229, 21000229, 20230229, 19510229, 20240230, 20230230, 99990229, 20240001, 20241301,
              20240100, 20240132, 20240332, 20240431, 20240532, 20240631, 20240732, 20240832, 20240931, 20241032,
              20241131, 20241232, 20240199, 20249901, 20240000, 19500100, 20991232, 100000101, 100001231, 120240301,
              18446744073709550301, 2 ** 32 + 20240301, 2 ** 63, MOST)
    for number in other_years + no_day:
        yield day(number, False)


def moments():
    real = (19500101000000, 20991231235959, 20240229120000, 20240301230000, 20240301005900, 20240301000059,
            20240301235959)
    for number in real:
        yield moment(number, True)
    other_years = (19491231235959, 21000101000000, 101000000, 99991231235959, 4000229235959)
    no_moment = (0, 20240301240000, 20240301006000, 20240301000060, 20240301990000, 20240301009900, 20240301000099,
                 20240301235960, 20230229000000, 20240001000000, 20241301000000, 20240100000000, 20240132000000,
                 21000229000000, 100000101000000, 20240301, 2 ** 63, MOST)
    for number in other_years + no_moment:
        yield moment(number, False)


def difference(first, second, stated):
    try:
        answer = '%d days' % oracle_days.difference(first, second)
    except Refused as refusal:
        answer = refusal.words()
    return Case('from %08d to %08d' % (first, second), DIFFERENCE, answer, numbers=(first, second), stated=stated)


def differences():
    worked = ((20240228, 20240301, 2), (20230228, 20230301, 1), (20210101, 20201231, -1), (19500101, 20991231, 54786))
    more = ((20991231, 19500101, -54786), (20240301, 20240301, 0), (19500101, 19500101, 0), (20991231, 20991231, 0),
            (20240301, 20240228, -2), (20240228, 20240229, 1), (20240229, 20240301, 1), (20231231, 20240101, 1),
            (20230101, 20240101, 365), (20240101, 20250101, 366), (20000228, 20000301, 2), (20960228, 20960301, 2),
            (19520228, 19520301, 2), (19990228, 19990301, 1), (20240131, 20240201, 1), (20240831, 20240901, 1),
            (20241231, 20240101, -365), (19700101, 20000101, 10957), (19500101, 19500102, 1), (20991230, 20991231, 1),
            (19500101, 20000101, 18262))
    for first, second, number in worked + more:
        yield difference(first, second, '%d days' % number)
    for year, february in ((2023, 28), (2024, 29)):
        lengths = (31, february, 31, 30, 31, 30, 31, 31, 30, 31, 30, 31)
        for month in range(1, 12):
            first = year * 10000 + month * 100 + 1
            yield difference(first, first + 100, '%d days' % lengths[month - 1])
    for wrong in (20230229, 19491231, 21000101, 20241301, 20240100, 0, 120240301, 2 ** 63, MOST):
        yield difference(wrong, 20240301, 'refused 1')
        yield difference(20240301, wrong, 'refused 1')
    yield difference(20230229, 20230229, 'refused 1')
    yield difference(0, MOST, 'refused 1')


def cases():
    for part in (days, moments, differences):
        yield from part()
