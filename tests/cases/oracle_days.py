"""Days and moments by the rules of the calendar, held to the standard library's calendar where that has the year."""
import datetime

from refused import Refused

SHOP_YEARS = (1950, 2099)
ALL_YEARS = (0, 9999)


def in_calendar(year, month, day):
    leap = year % 400 == 0 or (year % 4 == 0 and year % 100 != 0)
    lengths = (31, 29 if leap else 28, 31, 30, 31, 30, 31, 31, 30, 31, 30, 31)
    return 1 <= month <= 12 and 1 <= day <= lengths[month - 1]


def date(year, month, day):
    """The date of the standard library, or None for a day that it does not have."""
    try:
        return datetime.date(year, month, day)
    except (ValueError, OverflowError):
        return None


def real_day(number, years=SHOP_YEARS):
    year, month, day = number // 10000, number // 100 % 100, number % 100
    real = years[0] <= year <= years[1] and in_calendar(year, month, day)
    if datetime.MINYEAR <= year <= datetime.MAXYEAR and years[0] <= year <= years[1]:
        assert real == (date(year, month, day) is not None), number
    return real


def real_moment(number, years=SHOP_YEARS):
    hour, minute, second = number // 10000 % 100, number // 100 % 100, number % 100
    return real_day(number // 1000000, years) and hour <= 23 and minute <= 59 and second <= 59


def difference(first, second):
    """The days from the first day to the second."""
    if not (real_day(first) and real_day(second)):
        raise Refused(1)
    one, other = (date(day // 10000, day // 100 % 100, day % 100) for day in (first, second))
    return (other - one).days
