"""Tracks in GPX."""
import io
import xml.etree.ElementTree as tree

from .command import Refused
from .logs import Report
from .numbers import number
from .texts import check_name
from .times import seconds_of


def checked(data):
    """The bytes of a file, if they declare no document type and so no entities."""
    if b"\0" in data or b"<!DOCTYPE" in data:
        raise Refused("a document type or an encoding of two bytes, which GPX does not need")
    return io.BytesIO(data)


def short(tag):
    """The name of an element without its namespace."""
    return tag.rpartition("}")[2]


class Reader:
    """Reads the points of the tracks of a file. A segment ends a piece."""

    def __init__(self, log, source, stem):
        self.log, self.source, self.stem = log, source, stem
        self.name, self.parents, self.points, self.segment = stem, [], 0, 0

    def start(self, element):
        tag = short(element.tag)
        self.parents.append(tag)
        if tag == "trk":
            self.name = self.stem
        if tag == "trkseg":
            self.segment += 1

    def end(self, element):
        tag = self.parents.pop()
        if tag == "name" and self.parents[-1:] == ["trk"]:
            self.name = " ".join((element.text or "").split()) or self.stem
        if tag == "trkpt":
            self.point(element)
        if tag in ("trkpt", "trkseg", "trk"):
            element.clear()

    def point(self, element):
        self.points += 1
        time = next((it.text for it in element if short(it.tag) == "time"), None)
        try:
            check_name(self.name)
            if not time:
                raise Refused("no time")
            x, y = (number(element.get(it, "")) for it in ("lon", "lat"))
            self.log.add(self.name, Report(seconds_of(time.strip()), self.source, self.points,
                                           time.strip(), x, y, None, (self.source, self.segment)))
        except Refused as why:
            self.log.malformed(self.source, self.points, why)


def read_file(log, source, stem, data):
    """Reads a file, of which the bytes are given."""
    reader = Reader(log, source, stem)
    try:
        for event, element in tree.iterparse(checked(data), ("start", "end")):
            getattr(reader, event)(element)
        if not reader.points:
            raise Refused("no point of a track in this file")
    except (tree.ParseError, LookupError, ValueError) as fault:
        log.fault(source, reader.points + 1, f"no GPX: {fault}")
    except Refused as why:
        log.fault(source, 0, why)
