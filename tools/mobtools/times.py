"""Times. A second counts from midnight UTC of the first day of the year 0; it is a whole number, or
a fraction where its text has one."""
import re
from datetime import datetime, timedelta, timezone
from fractions import Fraction
from functools import lru_cache
from zoneinfo import ZoneInfo, ZoneInfoNotFoundError

from .command import Refused, shown

DAY = 86400
ISO = re.compile(
    r"(\d{4})-(\d\d)-(\d\d)[ T](\d\d):(\d\d)(?::(\d\d)(\.\d{1,18})?)?"
    r"(?:Z|([-+])(\d\d)(?::(\d\d))?)?", re.ASCII)
DATE_FIRST = re.compile(r"(\d\d)/(\d\d)/(\d{4}) (\d\d):(\d\d):(\d\d)", re.ASCII)
OFFSET = re.compile(r"([-+])(\d\d):?(\d\d)", re.ASCII)


def days(year, month, day):
    """The days from the year 0 to a date."""
    if month < 3:
        year, month = year - 1, month + 12
    return 365 * year + year // 4 - year // 100 + year // 400 + (153 * month - 457) // 5 + day


UNIX = days(1970, 1, 1) * DAY
FIRST, AFTER = days(1, 1, 1) * DAY, days(10000, 1, 1) * DAY


@lru_cache
def midnight_of(year, month, day):
    """The seconds of the beginning of a date; None if there is no such date."""
    exists = 1 <= year and 1 <= month <= 12 and 1 <= day and (
        days(year, month, day) < days(year + (month == 12), month % 12 + 1, 1))
    return days(year, month, day) * DAY if exists else None


def second_of(date, hour, minute, second, text):
    """The seconds of a date (year, month, day) and a time of day."""
    midnight = midnight_of(*date)
    if midnight is None or hour > 23 or minute > 59 or second > 59:
        raise Refused(f"a time that does not exist: {shown(text)}")
    return midnight + hour * 3600 + minute * 60 + second


@lru_cache(maxsize=200_000)
def seconds_of(text):
    """The seconds of a time such as 2026-05-05 09:12:08 or 2026-05-05T11:12:08.5+02:00."""
    found = ISO.fullmatch(text)
    if not found:
        raise Refused(f"no time: {shown(text)}")
    year, month, day, hour, minute, second = (int(it or 0) for it in found.groups()[:6])
    part, sign, ahead_hours, ahead_minutes = found.groups()[6:]
    if int(ahead_hours or 0) > 15 or int(ahead_minutes or 0) > 59:
        raise Refused(f"an offset that does not exist: {shown(text)}")
    ahead = 3600 * int(ahead_hours or 0) + 60 * int(ahead_minutes or 0)
    whole = second_of((year, month, day), hour, minute, second, text)
    whole -= -ahead if sign == "-" else ahead
    if not FIRST <= whole < AFTER:
        raise Refused(f"a time outside of the years 0001 to 9999: {shown(text)}")
    exact = whole + Fraction("0" + part) if part else whole
    return exact if exact.denominator > 1 else int(exact)


@lru_cache(maxsize=200_000)
def danish_time(text):
    """The seconds of a time such as 05/05/2026 09:12:08, and its usual text."""
    found = DATE_FIRST.fullmatch(text)
    if not found:
        raise Refused(f"no time: {shown(text)}")
    day, month, year, hour, minute, second = found.groups()
    date = int(year), int(month), int(day)
    seconds = second_of(date, int(hour), int(minute), int(second), text)
    return seconds, f"{year}-{month}-{day} {hour}:{minute}:{second}"


@lru_cache(maxsize=2000)
def date_of(day):
    """The text of a date, by the days since the year 0."""
    year = day * 400 // 146097 + 1
    while days(year, 1, 1) > day:
        year -= 1
    month = max(it for it in range(1, 13) if days(year, it, 1) <= day)
    return f"{year:04}-{month:02}-{day - days(year, month, 1) + 1:02}"


def time_of(seconds, digits=0):
    """The text of a second, rounded down to some digits."""
    whole, part = (seconds, 0) if isinstance(seconds, int) else divmod(seconds, 1)
    day, second = divmod(whole, DAY)
    text = f"{date_of(day)} {second // 3600:02}:{second // 60 % 60:02}:{second % 60:02}"
    return f"{text}.{int(part * 10**digits):0{digits}}" if part and digits else text


def zone_of(text):
    """A time zone by its offset, such as +02:00, or by its name, such as Europe/Berlin."""
    found = OFFSET.fullmatch(text)
    if found:
        if int(found[2]) > 15 or int(found[3]) > 59:
            raise Refused(f"an offset that does not exist: {shown(text)}")
        ahead = timedelta(hours=int(found[2]), minutes=int(found[3]))
        return timezone(-ahead if found[1] == "-" else ahead)
    try:
        return ZoneInfo(text)
    except (ZoneInfoNotFoundError, ValueError, OSError) as fault:
        raise Refused(f"no time zone: {shown(text)}") from fault


def start_of_service(date, zone):
    """The seconds of noon less twelve hours of a date in a zone, from which timetables count."""
    midnight = midnight_of(date.year, date.month, date.day)
    noon = datetime(date.year, date.month, date.day, 12, tzinfo=zone)
    return midnight - int(noon.utcoffset().total_seconds())
