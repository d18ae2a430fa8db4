"""Timetables in GTFS: the trips of a day, as points that move from stop to stop."""
import contextlib
import os
import re
from collections import namedtuple
from datetime import date
from math import cos, hypot, radians

from .columns import Layout
from .command import Refused, shown
from .logs import Report
from .numbers import number
from .texts import MARK, fields_of, line_of
from .times import start_of_service, zone_of

CLOCK = re.compile(r" ?(\d{1,3}):([0-5]\d):([0-5]\d)", re.ASCII)
DATE = re.compile(r"(\d{4})-?(\d\d)-?(\d\d)", re.ASCII)
WEEKDAYS = ("monday", "tuesday", "wednesday", "thursday", "friday", "saturday", "sunday")
TABLES = {"stop_times.txt": ("trip_id", "arrival_time", "departure_time", "stop_id",
                             "stop_sequence"),
          "stops.txt": ("stop_id", "stop_lat", "stop_lon"),
          "trips.txt": ("trip_id", "service_id"),
          "calendar.txt": ("service_id", *WEEKDAYS, "start_date", "end_date"),
          "calendar_dates.txt": ("service_id", "date", "exception_type"),
          "agency.txt": ("agency_timezone",)}
SOURCES = list(TABLES)

# A stop of a trip: when it comes and goes in seconds of service, or None; and where it is.
Stop = namedtuple("Stop", "number comes goes lon lat line")


def service_date(text):
    """A date such as 2026-05-05 or 20260505."""
    found = DATE.fullmatch(text)
    try:
        return date(*map(int, found.groups()))
    except (AttributeError, ValueError) as fault:
        raise Refused(f"no date: {shown(text)}") from fault


def service_seconds(text):
    """The seconds since the start of service; None if the timetable has none."""
    if not text.strip():
        return None
    found = CLOCK.fullmatch(text.rstrip())
    if not found:
        raise Refused(f"no time: {shown(text)}")
    return int(found[1]) * 3600 + int(found[2]) * 60 + int(found[3])


class Feed:
    """The folder of a feed."""

    def __init__(self, log, folder):
        self.log, self.folder = log, folder

    def has(self, name):
        return os.path.exists(os.path.join(self.folder, name))

    def rows(self, name):
        """The number of each line of a table, with the fields that are asked for."""
        source = SOURCES.index(name)
        layout = Layout({it: it for it in TABLES[name]})
        path = os.path.join(self.folder, name)
        at = None
        with open(path, encoding="utf-8", errors="surrogateescape", newline="\n") as file:
            for line, text in enumerate(file, 1):
                try:
                    text = line_of(text)
                    if at is None:
                        fields, at = layout.columns_of(text.removeprefix(MARK))
                    elif text:
                        row = fields_of(text)
                        if len(row) != len(fields):
                            raise Refused(f"{len(row)} fields, and {len(fields)} columns")
                        yield line, [row[it] for it in at.values()]
                except Refused as why:
                    if at is not None and source == 0:
                        self.log.malformed(source, line, why)
                        continue
                    self.log.fault(source, line, why)
                    if at is None:
                        return

    @contextlib.contextmanager
    def faults(self, name, line):
        """Lists what is refused in a line of a table."""
        try:
            yield
        except Refused as why:
            self.log.fault(SOURCES.index(name), line, why)

    def zone(self, asked):
        """The zone that was asked for, or that of the agency."""
        if asked:
            return zone_of(asked)
        if not self.has("agency.txt"):
            raise Refused("give the time zone with --zone, such as +02:00 or Europe/Berlin")
        return zone_of(next((row[0] for _, row in self.rows("agency.txt")), ""))

    def services(self, day):
        """The services that run on a date; None if the feed has no calendar."""
        if not self.has("calendar.txt") and not self.has("calendar_dates.txt"):
            return None
        running = set()
        if self.has("calendar.txt"):
            for line, (service, *week, first, last) in self.rows("calendar.txt"):
                with self.faults("calendar.txt", line):
                    is_in = service_date(first) <= day <= service_date(last)
                    if is_in and week[day.weekday()] == "1":
                        running.add(service)
        if self.has("calendar_dates.txt"):
            for line, (service, on, kind) in self.rows("calendar_dates.txt"):
                with self.faults("calendar_dates.txt", line):
                    if service_date(on) == day:
                        (running.add if kind == "1" else running.discard)(service)
        return running

    def trips(self, day):
        """Each trip, with whether it runs on a date; None if the feed has no calendar."""
        running = self.services(day)
        if running is None:
            return None
        trips = {trip: service in running for _, (trip, service) in self.rows("trips.txt")}
        self.log.notes.append(f"{sum(trips.values())} of {len(trips)} trips run on {day}")
        return trips

    def places(self):
        return {stop: (lon, lat) for _, (stop, lat, lon) in self.rows("stops.txt")}


def stops_of(feed, log, trips):
    """The stops of each trip, in order."""
    places, found = feed.places(), {}
    for line, (trip, comes, goes, stop, place) in feed.rows("stop_times.txt"):
        if trips is not None and not trips.get(trip, True):
            continue
        try:
            if trips is not None and trip not in trips:
                raise Refused(f"trips.txt has no trip {shown(trip)}")
            if stop not in places:
                raise Refused(f"stops.txt has no stop {shown(stop)}")
            lon, lat = map(number, places[stop])
            comes, goes = service_seconds(comes), service_seconds(goes)
            stops = found.setdefault(trip, [])
            stops.append(Stop(int(number(place)), goes if comes is None else comes,
                              comes if goes is None else goes, lon, lat, line))
        except (Refused, ValueError) as why:
            log.malformed(0, line, why)
    return {trip: sorted(stops, key=lambda it: (it.number, it.line))
            for trip, stops in found.items()}


def apart(one, other):
    """How far two stops are apart, for shares of a way."""
    lon, lat, next_lon, next_lat = map(float, (one.lon, one.lat, other.lon, other.lat))
    return hypot((next_lon - lon) * cos(radians(lat)), next_lat - lat)


def timed(stops):
    """The stops with a time for each: where the timetable has none, in proportion to the way, to
    the second. One that gets no second of its own has none."""
    known = [at for at, it in enumerate(stops) if it.comes is not None]
    if known[:1] != [0] or known[-1:] != [len(stops) - 1]:
        raise Refused("its first or its last stop has no time")
    for first, last in zip(known, known[1:]):
        ways = [apart(stops[at], stops[at + 1]) for at in range(first, last)]
        begin, end, gone, total = stops[first].goes, stops[last].comes, 0, sum(ways) or 1
        earlier = begin
        for at, way in zip(range(first + 1, last), ways):
            gone += way
            second = round(begin + (end - begin) * gone / total)
            if earlier < second < end:
                stops[at] = stops[at]._replace(comes=second, goes=second)
                earlier = second
    return stops


def reports_of(stops, midnight):
    """The reports of a trip: where it is as it comes to each stop and as it leaves it."""
    for it in stops:
        if it.comes is not None:
            for second in sorted({it.comes, it.goes}):
                yield Report(midnight + second, 0, it.line, None, it.lon, it.lat, None, 0)


def read_folder(log, folder, day_text, zone_text):
    """Reads the trips of a date."""
    feed = Feed(log, folder)
    log.heading = "trip"
    if not os.path.isdir(folder):
        raise Refused(f"{folder} is no folder: unpack the feed, and name its folder")
    missing = [it for it in ("stop_times.txt", "stops.txt") if not feed.has(it)]
    if missing:
        raise Refused(f"{folder} has no {' and no '.join(missing)}")
    day = service_date(day_text)
    midnight = start_of_service(day, feed.zone(zone_text))
    for trip, stops in stops_of(feed, log, feed.trips(day)).items():
        guessed = sum(it.comes is None for it in stops)
        try:
            stops = timed(stops)
        except Refused as why:
            # Each line is dropped, but one fault is enough.
            for it in stops if log.skips_malformed else stops[:1]:
                log.malformed(0, it.line, f"trip {shown(trip)}: {why}")
            continue
        for it in stops:
            if it.comes is None:
                log.missing(0, it.line, f"no second for this stop of trip {shown(trip)}",
                            "without a time")
        log.computed += guessed - sum(it.comes is None for it in stops)
        for report in reports_of(stops, midnight):
            log.add(trip, report)
