"""Projections: from degrees to metres, and back.

By name PROJ projects, through pyproj. Around a point the equirectangular formula does, on a sphere
of 6,371,000 metres: x = (longitude - LON) * cos(LAT), y = latitude - LAT, in radians of arc.
"""
import argparse
import re
import sys
from fractions import Fraction
from math import cos, degrees, hypot, isfinite, radians, sin, sqrt

from .command import Refused
from .numbers import NANO, NUMBER, number

METRES_OF_DEGREE = radians(6_371_000)
EQUATOR, SQUARED_ECCENTRICITY = 6_378_137, 0.00669437999014
INSTALL = (f"{sys.executable} has no pyproj, which --project needs (Debian: python3-pyproj; else "
           "pip install pyproj); without it use --around LAT,LON")


class Around:
    """The equirectangular projection around a point."""

    def __init__(self, text):
        parts = text.split(",")
        if len(parts) != 2 or not all(NUMBER.fullmatch(it) for it in parts):
            raise argparse.ArgumentTypeError("a latitude and a longitude such as 55.7,12.6")
        self.name = text
        self.lat, self.lon = (float(Fraction(it)) for it in parts)
        if not abs(self.lat) < 89 or not abs(self.lon) <= 180:
            raise argparse.ArgumentTypeError("a latitude within 89 and a longitude within 180")
        self.wide = METRES_OF_DEGREE * cos(radians(self.lat))

    def forward(self, lons, lats):
        """The metres east and north of the point."""
        return ([((it - self.lon + 180) % 360 - 180) * self.wide for it in lons],
                [(it - self.lat) * METRES_OF_DEGREE for it in lats])

    def back(self, xs, ys):
        return ([(self.lon + it / self.wide + 180) % 360 - 180 for it in xs],
                [self.lat + it / METRES_OF_DEGREE for it in ys])

    def note(self, places):
        """How far from the point some places are, and how wrong lengths are there."""
        far = max((hypot(x, y) for x, y in places), default=0) / NANO
        arc = far / METRES_OF_DEGREE
        off = max(abs(it) for more in (-arc, 0, arc) for it in self.off(self.lat + more))
        return (f"the farthest place is {far / 1000:.1f} km from {self.name}; "
                f"the projection makes lengths wrong by at most {100 * off:.1f} %")

    def off(self, lat):
        """By what part lengths east and lengths north are too long at a latitude, on the ellipsoid
        of GPS."""
        flat = 1 - SQUARED_ECCENTRICITY * sin(radians(lat)) ** 2
        east = EQUATOR * cos(radians(lat)) / sqrt(flat)
        north = EQUATOR * (1 - SQUARED_ECCENTRICITY) / flat**1.5
        return degrees(self.wide) / east - 1, degrees(METRES_OF_DEGREE) / north - 1


class Projected:
    """A projection that PROJ knows. `utm32` is short for zone 32 of the northern hemisphere, with
    the ellipsoid of GPS; `utm32s` for the southern one."""

    def __init__(self, text):
        try:
            import pyproj
        except ImportError as fault:
            raise argparse.ArgumentTypeError(INSTALL) from fault
        self.name, self.pyproj = text, pyproj
        zone = re.fullmatch(r"utm([1-9]|[1-5]\d|60)([ns]?)", text, re.ASCII | re.IGNORECASE)
        south = zone and zone[2].lower() == "s"
        name = f"EPSG:{(32700 if south else 32600) + int(zone[1])}" if zone else text
        try:
            self.used = pyproj.Transformer.from_crs("EPSG:4326", name, always_xy=True)
            self.crs = pyproj.CRS(name)
        except pyproj.exceptions.ProjError as fault:
            raise argparse.ArgumentTypeError("PROJ knows no projection of this name") from fault
        if not self.crs.is_projected or any(it.unit_name != "metre" for it in self.crs.axis_info):
            raise argparse.ArgumentTypeError("this is no projection to metres")

    def forward(self, lons, lats):
        return tuple(map(list, self.used.transform(list(lons), list(lats))))

    def back(self, xs, ys):
        inverse = self.pyproj.enums.TransformDirection.INVERSE
        return tuple(map(list, self.used.transform(list(xs), list(ys), direction=inverse)))

    def note(self, places):
        """How wrong lengths are, in the middle of some places."""
        xs, ys = zip(*places)
        middle = ([(min(it) + max(it)) / 2 / NANO] for it in (xs, ys))
        lon, lat = self.back(*middle)
        scale = self.pyproj.Proj(self.crs).get_factors(lon[0], lat[0])
        off = max(abs(it - 1) for it in (scale.meridional_scale, scale.parallel_scale))
        return f"{self.name} makes lengths in the middle wrong by {100 * off:.2f} %"


def add_projection(parser, to):
    """The options --project and --around."""
    group = parser.add_mutually_exclusive_group()
    group.add_argument("--project", metavar="NAME", type=Projected, dest="projection",
                       help=f"{to} by PROJ: utm32, EPSG:25832, ..; needs pyproj")
    group.add_argument("--around", metavar="LAT,LON", type=Around, dest="projection",
                       help=f"{to} around a point, for an area of some 20 km")
    return group


def degree(value, most):
    """A longitude or latitude, of its text or as it is."""
    if isinstance(value, str):
        value = float(Fraction(value) if "/" in number(value) else value)
    if not -most <= value <= most:
        raise Refused(f"no degrees: {value}")
    return value


def to_nano(metres):
    """A projected length, a thousand million times."""
    if not isfinite(metres):
        raise Refused("a place that the projection does not have")
    return round(metres * NANO)
