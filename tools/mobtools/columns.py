"""Logs in CSV: which columns are read, and how."""
import re

from .command import Refused, shown
from .logs import Report
from .numbers import fitting, number
from .places import degree
from .texts import MARK, fields_of, line_of, name_of
from .times import danish_time, seconds_of

NEEDS_QUOTES = re.compile(r'["\\@(){},\[\]]|^[ \t]|[ \t]$')
ROLES = ("time", "name", "x", "y", "value")
TRUTHS = {"t": "t", "true": "t", "yes": "t", "on": "t", "1": "t",
          "f": "f", "false": "f", "no": "f", "off": "f", "0": "f"}


def any_value(text):
    """A value as it is written before the `@` of a literal."""
    return '"' + re.sub(r'(["\\])', r"\\\1", text) + '"' if NEEDS_QUOTES.search(text) else text


def whole_number(text):
    if not re.fullmatch(r"[-+]?\d{1,18}", text, re.ASCII):
        raise Refused(f"no whole number: {shown(text)}")
    return text


def truth(text):
    if text.lower() not in TRUTHS:
        raise Refused(f"neither true nor false: {shown(text)}")
    return TRUTHS[text.lower()]


# How a value is read, by the type of its column. Without a type each value is taken.
VALUES = {None: any_value, "tint": whole_number, "tfrac": fitting, "tbool": truth,
          "ttext": any_value}


class Layout:
    """Which columns a log has, by the names in its header or by their places."""

    def __init__(self, names=None, kind=None, separator=","):
        self.names, self.separator = names, separator
        self.value = VALUES[kind]

    def columns_of(self, header):
        """The number of columns, and the place of each role."""
        fields = fields_of(header.removeprefix(MARK), self.separator)
        if self.names is None:
            return fields, self.by_place(fields)
        missing = [it for it in self.names.values() if it not in fields]
        twice = [it for it in self.names.values() if fields.count(it) > 1]
        faults = [f"{what} {', '.join(found)}" for what, found in
                  (("no column", missing), ("two columns", twice)) if found]
        if faults:
            header = shown(", ".join(fields), 1000)
            raise Refused(f"the header has {'; '.join(faults)}; it is {header}")
        return fields, {role: fields.index(it) for role, it in self.names.items()}

    @staticmethod
    def by_place(fields):
        if len(fields) not in (3, 4):
            raise Refused(f"a log has three or four columns, this one {len(fields)}: "
                          "name those to read with --columns")
        if re.match("[0-9]", fields[0]):
            raise Refused("a report in place of the names of the columns")
        return dict(zip(ROLES[:4] if len(fields) == 4 else ("time", "name", "value"), range(4)))

    def time(self, text):
        """The seconds of a time, and its text in the table."""
        return seconds_of(text), text

    def place(self, x, y):
        """The x and y of a report; None if they are missing."""
        return number(x), number(y)

    def reading(self, text):
        if not text:
            raise Refused("an empty field")
        return self.value(text)


class DanishAis(Layout):
    """The files of the Danish authority: one day of AIS."""
    NAMES = {"time": "# Timestamp", "name": "MMSI", "x": "Longitude", "y": "Latitude",
             "value": "SOG"}
    UNKNOWN_SPEED = ("", "102.3")

    def __init__(self):
        super().__init__(self.NAMES, "tfrac")

    def time(self, text):
        return danish_time(text)

    def place(self, x, y):
        if not x or not y:
            return None
        x, y = degree(x, 181), degree(y, 91)
        return (x, y) if x < 181 and y < 91 else None

    def reading(self, text):
        return None if text in self.UNKNOWN_SPEED else self.value(text)


def read_lines(log, layout, source, lines):
    """Reads a log in CSV."""
    columns = None
    for line, text in enumerate(lines, 1):
        try:
            text = line_of(text)
            if columns is None:
                columns = Reader(log, layout, source, text)
            elif text:
                columns.read(line, fields_of(text, layout.separator))
        except Refused as why:
            if columns is None:
                log.fault(source, line, why)
                return
            log.malformed(source, line, why)
    if columns is None:
        log.fault(source, 0, "an empty file")


class Reader:
    """Reads the reports of a log with a certain header."""

    def __init__(self, log, layout, source, header):
        self.log, self.layout, self.source = log, layout, source
        fields, at = layout.columns_of(header)
        self.count, self.time, self.name = len(fields), at["time"], at["name"]
        self.x, self.y, self.value = (at.get(it) for it in ("x", "y", "value"))
        heading = name_of(fields[self.name])
        value_heading = name_of(fields[self.value]) if self.value is not None else None
        found = heading, value_heading, self.x is not None
        if source and found != (log.heading, log.value_heading, log.has_places):
            raise Refused("other columns than those of the first file")
        log.heading, log.value_heading, log.has_places = found

    def read(self, line, fields):
        if len(fields) != self.count:
            raise Refused(f"{len(fields)} fields, and {self.count} columns")
        name, x, y, value = fields[self.name], None, None, None
        if not name:
            raise Refused("no name")
        seconds, time = self.layout.time(fields[self.time])
        if self.x is not None:
            place = self.layout.place(fields[self.x], fields[self.y])
            if place is None:
                self.log.missing(self.source, line, f"no place of {shown(name)}")
                return
            x, y = place
        if self.value is not None:
            value = self.layout.reading(fields[self.value])
        self.log.add(name, Report(seconds, self.source, line, time, x, y, value, 0))
