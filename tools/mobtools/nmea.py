"""Positions in NMEA 0183: the sentences RMC, which have the date."""
import re
from functools import reduce

from .command import Refused, shown
from .logs import Report
from .texts import check_name, line_of
from .times import seconds_of

SENTENCE = re.compile(r"\$([A-Z]{2}RMC,[^*$]*)(?:\*([0-9A-Fa-f]{2}))?", re.ASCII)
CLOCK = re.compile(r"(\d\d)(\d\d)(\d\d)(\.\d{1,9})?", re.ASCII)
DATE = re.compile(r"(\d\d)(\d\d)(\d\d)", re.ASCII)
ANGLE = re.compile(r"(\d{2,3})(\d\d(?:\.\d{1,9})?)", re.ASCII)


def angle(text, side):
    """The degrees of ddmm.mmmm and a side."""
    found = ANGLE.fullmatch(text)
    if not found or side not in ("N", "S", "E", "W") or float(found[2]) >= 60:
        raise Refused(f"no angle: {shown(f'{text} {side}')}")
    degrees = int(found[1]) + float(found[2]) / 60
    return f"{-degrees if side in 'SW' else degrees:.9f}"


def time_text(clock, date):
    """The time of hhmmss.sss and ddmmyy."""
    found, day = CLOCK.fullmatch(clock), DATE.fullmatch(date)
    if not found or not day:
        raise Refused(f"no time: {shown(f'{clock} {date}')}")
    century = "19" if day[3] >= "80" else "20"
    part = (found[4] or "").rstrip("0").rstrip(".")
    return f"{century}{day[3]}-{day[2]}-{day[1]} {found[1]}:{found[2]}:{found[3]}{part}"


def report(text, source, line):
    """The report of a sentence; None if the receiver had no position."""
    found = SENTENCE.fullmatch(text)
    if not found:
        raise Refused("no sentence RMC")
    if found[2] and reduce(lambda sum, it: sum ^ ord(it), found[1], 0) != int(found[2], 16):
        raise Refused("a wrong checksum")
    fields = found[1].split(",")
    if len(fields) < 10:
        raise Refused("a sentence that is cut short")
    _, clock, status, lat, north, lon, east, _, _, date = fields[:10]
    if status != "A":
        return None
    time = time_text(clock, date)
    lon, lat = angle(lon, east), angle(lat, north)
    return Report(seconds_of(time), source, line, time, lon, lat, None, 0)


def read_lines(log, source, name, lines):
    """Reads the sentences RMC of one thing. Other lines are no reports."""
    try:
        check_name(name)
    except Refused as why:
        log.fault(source, 0, f"{why}: give another with --name")
        return
    count = log.read
    for line, text in enumerate(lines, 1):
        try:
            if "RMC," not in text:
                continue
            # A tag block or the clock of a logger may come before the sentence.
            before, dollar, rest = line_of(text).strip().rpartition("$")
            if "RMC," in before:
                raise Refused("two sentences on a line")
            found = report(dollar + rest, source, line)
            if found:
                log.add(name, found)
            else:
                log.missing(source, line, f"no position of {shown(name)}")
        except Refused as why:
            log.malformed(source, line, why)
    if log.read == count:
        log.fault(source, 0, "no sentence RMC in this file")
