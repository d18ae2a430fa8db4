"""What is done to the reports of a log before they are tracks: projection, then cleaning."""
from fractions import Fraction
from statistics import median_low

from .command import Refused, shown
from .logs import Report
from .numbers import NANO, fitting, nano
from .places import degree, to_nano
from .times import time_of


def look_like_degrees(log):
    """Whether nine in ten places of the log may be in degrees. Those of AIS that are missing may:
    their x is 181 and their y 91."""
    places = [it for group in log.reports.values() for it in group]
    count = sum(abs(nano(it.x)) <= 181 * NANO and abs(nano(it.y)) <= 91 * NANO for it in places)
    return bool(places) and 10 * count >= 9 * len(places)


def advice(log):
    """What to do with degrees, with a point in their middle."""
    xs, ys = zip(*((Fraction(nano(it.x), NANO), Fraction(nano(it.y), NANO))
                   for group in log.reports.values() for it in group))
    lat, lon = (max(min(float(median_low(it)), most), -most) for it, most in ((ys, 89), (xs, 180)))
    return (f"x is within 180 and y within 90: these look like degrees, which are no lengths. "
            f"Give a projection and a unit, such as --around={lat:.2f},{lon:.2f} --to 1, "
            f"or --project utm{int(lon + 180) // 6 % 60 + 1}{'s' * (lat < 0)} --to 1; "
            "or --metres, if they are metres")


def in_degrees(log, report):
    """The degrees of a report, or None."""
    try:
        return degree(report.x, 180), degree(report.y, 90)
    except Refused as why:
        log.spoilt(report.source, report.line, why)
        return None


def project(log, projection):
    """Puts the places of a log into metres."""
    for name, group in log.reports.items():
        kept = [(it, at) for it in group if (at := in_degrees(log, it))]
        if not kept:
            log.reports[name] = []
            continue
        xs, ys = projection.forward(*zip(*(at for _, at in kept)))
        log.reports[name] = placed = []
        for (it, _), x, y in zip(kept, xs, ys):
            try:
                placed.append(Report(*it[:4], to_nano(x), to_nano(y), *it[6:]))
            except Refused as why:
                log.spoilt(it.source, it.line, why)


def drop_unfit(log):
    """Drops each report whose place is too far or too fine for mobsql."""
    for name, group in log.reports.items():
        log.reports[name] = kept = []
        for it in group:
            try:
                for text in (it.x, it.y):
                    fitting(text)
                kept.append(it)
            except Refused as why:
                log.spoilt(it.source, it.line, why)


def drop_duplicates(log, keep):
    """Keeps one report of a thing at one instant: the first or the last of the log, or neither."""
    for name, group in log.reports.items():
        group.sort(key=lambda it: (it.seconds, it.source, it.line))
        kept = []
        for it in group:
            if not kept or kept[-1].seconds != it.seconds:
                kept.append(it)
                continue
            earlier = kept[-1]
            dropped = earlier if keep == "last" else it
            why = f"a second report of {shown(name)} at {it.time or time_of(it.seconds)}"
            if keep == "refuse":
                log.fault(it.source, it.line, f"{why}; the other is {log.part} {earlier.line}")
                continue
            log.drop(dropped.source, dropped.line, "of one instant", why)
            if keep == "last":
                kept[-1] = it
        log.reports[name] = kept


def is_too_fast(earlier, later, fastest):
    """Whether the later place cannot be reached at that speed, in metres a second."""
    across, up = nano(later.x) - nano(earlier.x), nano(later.y) - nano(earlier.y)
    reach = fastest * (later.seconds - earlier.seconds) * NANO
    return across * across + up * up > reach * reach


def drop_jumps(log, fastest):
    """Drops each report that cannot be reached from the last one kept."""
    for name, group in log.reports.items():
        kept, in_a_row = group[:1], 0
        for it in group[1:]:
            if not is_too_fast(kept[-1], it, fastest):
                kept.append(it)
                in_a_row = 0
                continue
            log.drop(it.source, it.line, "too fast",
                     f"{shown(name)} cannot be here so soon after {log.part} {kept[-1].line}")
            in_a_row += 1
            if in_a_row == 10:
                log.notes.append(f"{shown(name)}: 10 reports or more in a row are too fast; look "
                                 f"at {log.place(kept[-1].source, kept[-1].line)} before them")
        log.reports[name] = kept
