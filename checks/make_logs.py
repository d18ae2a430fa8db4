"""Makes logs of one known scene in four formats, and a thermometer's log.

    python3 checks/make_logs.py FOLDER             ais.csv, tracks.gpx, nmea/, gtfs/, heat.csv
    python3 checks/make_logs.py --large 300000 > aisdk.csv      a day of AIS of 40 ships
    python3 checks/make_logs.py --example examples/logs         half an hour of four ships

The ships of the scene move between whole metres around a point. Each format has them in degrees,
spoilt in the same ways: reports twice, jumps, lines out of order, positions that are missing, and
lines that are no report. `spoilt` has the number of each such line, so a check knows them. Chance
is a fixed sequence, so the logs are the same each time. Nothing here is shared with tools/.
"""
import os
import random
import sys
from math import cos, pi

LAT, LON = 55.7, 12.6
DEGREE = 6_371_000 * pi / 180
DAY = "2026-05-05"
START, STEP, REPORTS = 6 * 3600, 60, 61
SHIPS = ["219000101", "219000102", "219000103", "219000104", "219000105", "219000106",
         "219000107", "219000108"]
# Pairs that meet: the ships, the report, where, and how far apart.
MEETINGS = [(0, 1, 20, (400, -200), (30, 0)), (2, 3, 31, (-1000, 600), (24, 32)),
            (0, 4, 45, (1600, 800), (0, 10)), (5, 6, 12, (-2000, -1400), (50, 0)),
            (1, 3, 52, (200, 1200), (40, 40))]
GAP = ("219000107", 25, 50)
HEADER = ("# Timestamp,Type of mobile,MMSI,Latitude,Longitude,Navigational status,ROT,SOG,COG,"
          "Heading,IMO,Callsign,Name,Ship type,Cargo type,Width,Length,"
          "Type of position fixing device,Draught,Destination,ETA,Data source type,A,B,C,D")


def scene():
    """The track of each ship: its reports as (second of the day, x, y), in whole even metres."""
    chance = random.Random(70)
    tracks = {}
    for number, ship in enumerate(SHIPS):
        fixed = {at: (chance.randrange(-1500, 1500) * 2, chance.randrange(-1500, 1500) * 2)
                 for at in (0, REPORTS - 1)}
        for one, other, at, (x, y), (east, north) in MEETINGS:
            if number == one:
                fixed[at] = x, y
            if number == other:
                fixed[at] = x + east, y + north
        tracks[ship] = [(START + at * STEP, *place) for at, place in between(fixed)
                        if ship != GAP[0] or not GAP[1] < at < GAP[2]]
    return tracks


def between(fixed):
    """A place for each report: on the way from one fixed place to the next, in even metres."""
    known = sorted(fixed)
    for first, last in zip(known, known[1:]):
        (x, y), (next_x, next_y) = fixed[first], fixed[last]
        for at in range(first, last):
            part = (at - first) / (last - first)
            yield at, (x + round((next_x - x) * part / 2) * 2,
                       y + round((next_y - y) * part / 2) * 2)
    yield known[-1], fixed[known[-1]]


def degrees(x, y):
    """The latitude and longitude of a place of the scene."""
    return LAT + y / DEGREE, LON + x / (DEGREE * cos(LAT * pi / 180))


def spoil(tracks):
    """The reports of a log in order of time, each as (kind, ship, second, x, y).

    The kinds: `good`, `twice` (a second place at one instant), `jump` (20 km aside), `missing` (no
    position) and `broken` (no report).
    """
    chance = random.Random(7)
    reports = []
    for ship, track in tracks.items():
        reports += [("good", ship, *it) for it in track]
        for second, x, y in chance.sample(track[1:-1], 3):
            reports.append(("twice", ship, second, x + 6, y - 8))
        for second, x, y in chance.sample(track[1:-1], 2):
            reports.append(("jump", ship, second + 20, x + 20_000, y))
        reports.append(("missing", ship, track[4][0] + 10, 0, 0))
    reports.append(("broken", SHIPS[0], START, 0, 0))
    reports.sort(key=lambda it: (it[2], it[1], it[0] != "good"))
    return reports


def shuffle(reports):
    """Puts lines out of order, but no second report of an instant before the first."""
    reports = list(reports)
    for at in range(0, len(reports) - 40, 37):
        later = reports.pop(at + 30)
        same = [it for it in reports[at:at + 30] if it[1:3] == later[1:3]]
        reports.insert(at + 30 if same else at, later)
    return reports


def ais_line(kind, ship, second, x, y, speed="10.0"):
    lat, lon = (91, 181) if kind == "missing" else degrees(x, y)
    clock = f"{second // 3600:02}:{second // 60 % 60:02}:{second % 60:02}"
    if kind == "broken":
        clock = "soon"
    return (f"05/05/2026 {clock},Class A,{ship},{lat:.7f},{lon:.7f},Under way using engine,0.0,"
            f"{speed},45.0,44,Unknown,Unknown,Unknown,Cargo,,10,80,GPS,3.0,\"KOEGE, DK\",,AIS,"
            "40,40,5,5")


def write_ais(path, tracks):
    """Returns the kind of each line that is not good, by its number."""
    reports = shuffle(spoil(tracks))
    with open(path, "w", encoding="utf-8", newline="\n") as file:
        print(HEADER, file=file)
        for report in reports:
            print(ais_line(*report), file=file)
    return spoilt(reports, 2)


def spoilt(reports, first):
    return {line: it[0] for line, it in enumerate(reports, first) if it[0] != "good"}


def clock_of(second):
    return f"{second // 3600:02}:{second // 60 % 60:02}:{second % 60:02}"


def gpx_point(kind, second, x, y):
    lat, lon = degrees(x, y)
    time = "" if kind in ("missing", "broken") else f"<time>{DAY}T{clock_of(second)}Z</time>"
    return f'<trkpt lat="{lat:.7f}" lon="{lon:.7f}"><ele>0</ele>{time}</trkpt>'


def write_gpx(path, tracks):
    """A track for each ship. A point without a time is no report in this format."""
    kinds, points = {}, 0
    reports = shuffle(spoil(tracks))
    with open(path, "w", encoding="utf-8", newline="\n") as file:
        print('<?xml version="1.0" encoding="UTF-8"?>\n<gpx version="1.1" creator="make_logs" '
              'xmlns="http://www.topografix.com/GPX/1/1">', file=file)
        for ship in tracks:
            print(f"<trk><name>{ship}</name><trkseg>", file=file)
            for kind, its_ship, *rest in reports:
                if its_ship == ship:
                    points += 1
                    if kind != "good":
                        kinds[points] = kind
                    print(gpx_point(kind, *rest), file=file)
            print("</trkseg></trk>", file=file)
        print("</gpx>", file=file)
    return kinds


def nmea_angle(value, width):
    whole, part = divmod(abs(value), 1)
    minutes = round(part * 60, 6)
    return f"{int(whole):0{width}}{minutes:09.6f}"


def nmea_line(kind, second, x, y):
    lat, lon = degrees(x, y)
    clock = clock_of(second).replace(":", "")
    body = (f"GPRMC,{clock}.00,{'V' if kind == 'missing' else 'A'},{nmea_angle(lat, 2)},N,"
            f"{nmea_angle(lon, 3)},E,10.0,45.0,050526,,,A")
    sum_of = 0
    for it in body.encode():
        sum_of ^= it
    return f"${body}*{sum_of ^ (kind == 'broken'):02X}"


def write_nmea(folder, tracks):
    """A file for each ship. Returns the kinds by file and line."""
    os.makedirs(folder, exist_ok=True)
    reports, kinds = shuffle(spoil(tracks)), {}
    for ship in tracks:
        path = os.path.join(folder, f"{ship}.nmea")
        with open(path, "w", encoding="ascii", newline="\n") as file:
            line = 0
            for kind, its_ship, *rest in reports:
                if its_ship == ship:
                    print("$GPGSV,1,1,00*79", file=file)
                    print(nmea_line(kind, *rest), file=file)
                    line += 2
                    if kind != "good":
                        kinds[path, line] = kind
    return kinds


def write_table(path, header, rows):
    with open(path, "w", encoding="utf-8", newline="\n") as file:
        print(header, file=file)
        for row in rows:
            print(",".join(map(str, row)), file=file)


def middles(tracks, reports):
    """The reports in the middle of their neighbours, none beside another or a spoilt one."""
    found = {(ship, it[0]) for ship, track in tracks.items()
             for before, it, after in zip(track, track[1:], track[2:])
             if it[0] // STEP % 2 and all(2 * now == one + other for one, now, other
                                          in zip(before, it, after))}
    return found - {(ship, second + more) for kind, ship, second, _, _ in reports
                    if kind != "good" for more in (-80, -60, -20, 0, 40, 60)}


def write_gtfs(folder, tracks):
    """A trip for each ship, on the day before, in a zone two hours ahead of UTC. Where a report is
    in the middle of its neighbours its time is blank. Returns the kinds by line of stop_times.txt,
    and how many times are blank."""
    os.makedirs(folder, exist_ok=True)
    stops, lines, blank = {}, [], 0
    reports = [it for it in spoil(tracks) if it[0] != "missing"]
    without_time = middles(tracks, reports)
    for number, (kind, ship, second, x, y) in enumerate(reports, 1):
        stop = "nowhere" if kind == "broken" else stops.setdefault((x, y), f"s{len(stops)}")
        time = clock_of(second + 26 * 3600)
        if kind == "good" and (ship, second) in without_time:
            time, blank = "", blank + 1
        lines.append((kind, ship, second, (ship, time, time, stop, number)))
    lines = shuffle(lines)
    write_table(f"{folder}/stop_times.txt",
                "trip_id,arrival_time,departure_time,stop_id,stop_sequence",
                [it[3] for it in lines])
    write_table(f"{folder}/stops.txt", "stop_lat,stop_lon,stop_id,stop_name",
                [(*(f"{it:.7f}" for it in degrees(*place)), stop, '"Pier ""1"""')
                 for place, stop in stops.items()])
    write_table(f"{folder}/trips.txt", "route_id,service_id,trip_id",
                [("r", "weekday", ship) for ship in tracks] + [("r", "sunday", "999")])
    write_table(f"{folder}/calendar.txt", "service_id,monday,tuesday,wednesday,thursday,friday,"
                "saturday,sunday,start_date,end_date",
                [("weekday", 0, 1, 1, 1, 1, 0, 0, 20260101, 20261231),
                 ("sunday", 0, 0, 0, 0, 0, 0, 1, 20260101, 20261231)])
    write_table(f"{folder}/calendar_dates.txt", "service_id,date,exception_type",
                [("weekday", 20260504, 1), ("sunday", 20260510, 2)])
    write_table(f"{folder}/agency.txt", "agency_name,agency_timezone", [("A", "Europe/Copenhagen")])
    return spoilt(lines, 2), blank


def heat():
    """The readings of two thermometers, as (second of the day, name, value or None)."""
    chance = random.Random(3)
    for name in ("cellar", "roof, north"):
        value = 180
        for at in range(60):
            value += chance.randrange(-20, 21)
            yield START + at * 61 + len(name), name, value


def write_heat(path):
    """Other columns, semicolons and another order."""
    kinds = {}
    with open(path, "w", encoding="utf-8", newline="\n") as file:
        print("\ufeffdevice;battery;celsius;when", file=file)
        line = 1
        for second, name, value in sorted(heat(), key=lambda it: it[0] % 601):
            line += 1
            print(f"{name};90;{value / 10};{DAY}T{clock_of(second)}Z", file=file)
            if line % 50 == 0:
                line += 1
                kinds[line] = "broken"
                print(f"{name};90;;{DAY}T{clock_of(second)}Z", file=file)
    return kinds


def write_all(folder):
    """All logs, and what is spoilt in each."""
    os.makedirs(folder, exist_ok=True)
    tracks = scene()
    return {"ais": write_ais(f"{folder}/ais.csv", tracks),
            "gpx": write_gpx(f"{folder}/tracks.gpx", tracks),
            "nmea": write_nmea(f"{folder}/nmea", tracks),
            "gtfs": write_gtfs(f"{folder}/gtfs", tracks),
            "heat": write_heat(f"{folder}/heat.csv")}


def example(folder):
    """The logs of examples/logs: four ships, and two of them in GPX and in NMEA."""
    tracks = {ship: track[12:38] for ship, track in scene().items() if ship < "219000105"}
    two = {ship: tracks[ship] for ship in SHIPS[:2]}
    os.makedirs(folder, exist_ok=True)
    write_ais(f"{folder}/aisdk.csv", tracks)
    write_gpx(f"{folder}/boats.gpx", two)
    write_nmea(f"{folder}/nmea", two)
    write_gtfs(f"{folder}/gtfs", tracks)
    write_heat(f"{folder}/heat.csv")


def large(count):
    """The lines of a day of 40 ships, with a report twice, a jump and a missing position in each
    thousand."""
    chance = random.Random(1)
    yield HEADER
    places = [[chance.uniform(-9000, 9000), chance.uniform(-9000, 9000), chance.uniform(-6, 6),
               chance.uniform(-6, 6)] for _ in range(40)]
    for number in range(count):
        ship, second = number % 40, number * 86400 // count
        x, y, east, north = places[ship]
        if abs(x + east) > 10_000 or chance.random() < 0.02:
            places[ship][2] = -east
        if abs(y + north) > 10_000 or chance.random() < 0.02:
            places[ship][3] = -north
        step = 40 * 86400 / count
        places[ship][:2] = x + places[ship][2] * step, y + places[ship][3] * step
        kind = "missing" if number % 1000 == 7 else "good"
        aside = 30_000 if number % 1000 == 77 else 0
        yield ais_line(kind, f"2190{ship:05}", second, x + aside, y, f"{number % 200 / 10}")
        if number % 1000 == 777:
            yield ais_line("twice", f"2190{ship:05}", second, x + 1, y)


def main():
    if sys.argv[1:2] == ["--large"] and len(sys.argv) == 3:
        print("\n".join(large(int(sys.argv[2]))))
    elif sys.argv[1:2] == ["--example"] and len(sys.argv) == 3:
        example(sys.argv[2])
    elif len(sys.argv) == 2:
        write_all(sys.argv[1])
    else:
        sys.exit(__doc__)


if __name__ == "__main__":
    main()
