"""The test of tools/: `sh checks/tools.sh`. See there."""
import csv
import html.parser
import importlib.util
import io
import json
import os
import re
import resource
import shutil
import subprocess
import sys
import tempfile
import xml.etree.ElementTree as tree
from fractions import Fraction

import make_logs
import scene

TOP = os.path.dirname(os.path.dirname(os.path.abspath(__file__)))
PROGRAM = sys.argv[1] if len(sys.argv) > 1 else None
AROUND = ["--around", f"{make_logs.LAT},{make_logs.LON}", "--to", "1"]
CLEAN = ["--fastest", "30", "--duplicates", "first", "--skip-malformed", "--dropped", "dropped.csv"]
TRACKS = make_logs.scene()
BOX = (-600, -900, 900, 1300)
LIMIT = Fraction(18)
MOMENT = re.compile(r"2026-05-05 (\d\d):(\d\d):(\d\d(?:\.\d+)?)(?:\((\d+)/(\d+)\))?\+00")
FORMATS = {
    "ais": (["--ais-dk"], ["logs/ais.csv"]),
    "gpx": (["--gpx"], ["logs/tracks.gpx"]),
    "nmea": (["--nmea"], [f"logs/nmea/{ship}.nmea" for ship in TRACKS]),
    "gtfs": (["--gtfs", "logs/gtfs", "--date", "2026-05-04"], []),
}
DATA_TOOLS = ("spans_to_rows", "table_to_geojson")
REASONS = {"twice": "a second report", "jump": "cannot be here", "missing": "no "}
tried = 0


def want(is_so, what):
    """Ends the check where something is not so."""
    global tried
    tried += 1
    if not is_so:
        sys.exit(f"tools: FAILED: {what}")


def run(*words, given=b"", status=0):
    """Runs a tool, or mobsql, and returns its output and its errors."""
    tool = PROGRAM if words[0] == "mobsql" else os.path.join(TOP, "tools", words[0])
    given = given.encode() if isinstance(given, str) else given
    command = [tool] if words[0] == "mobsql" else [sys.executable, tool]
    ran = subprocess.run([*command, *words[1:]], input=given, capture_output=True, check=False)
    note = ran.stderr.decode("utf-8", "replace")
    want(ran.returncode == status, f"{' '.join(words)}: status {ran.returncode}: {note[:2000]}")
    return ran.stdout.decode("utf-8", "surrogateescape"), note


def write(path, text):
    with open(path, "wb") as file:
        file.write(text.encode() if isinstance(text, str) else text)


def read(path):
    with open(path, encoding="utf-8", newline="") as file:
        return file.read()


# The tables of the known scene.


def literal(pieces, show):
    text = "], [".join(", ".join(map(show, piece)) for piece in pieces)
    return f'"{{[{text}]}}"' if len(pieces) > 1 else f'"[{text}]"'


def wanted_table(name, tracks):
    """The table file of tracks in one of the formats."""
    time = f"{make_logs.DAY}{'T' if name == 'gpx' else ' '}%s{'Z' if name == 'gpx' else ''}"
    heading = {"ais": "mmsi,track,sog", "gtfs": "trip,track"}.get(name, "name,track")
    lines = [heading]
    for ship, track in sorted(tracks.items()):
        pieces = scene.pieces_of(track)
        fields = [ship, literal(pieces, lambda it: f"POINT({it[1]} {it[2]})@"
                                + time % make_logs.clock_of(it[0]))]
        if name == "ais":
            fields.append(literal(pieces, lambda it: "10.0@" + time % make_logs.clock_of(it[0])))
        lines.append(",".join(fields))
    return "\n".join(lines) + "\n"


def check_dropped(name, spoilt):
    """Each spoilt line is in the file of the dropped ones, with its reason, and no other."""
    rows = list(csv.reader(io.StringIO(read("dropped.csv"))))
    found = {(row[0], int(row[1])): row[2] for row in rows[1:]}
    path = {"gtfs": "logs/gtfs/stop_times.txt"}.get(name, (FORMATS[name][1] or [""])[0])
    wanted = {it if isinstance(it, tuple) else (path, it): kind for it, kind in spoilt.items()}
    want(set(found) == set(wanted), f"{name}: other lines are dropped: {set(found) ^ set(wanted)}")
    for place, kind in wanted.items():
        if kind in REASONS and (name, kind) != ("gpx", "missing"):
            want(found[place].startswith(REASONS[kind]) or REASONS[kind] in found[place],
                 f"{name}, {place}: {found[place]}, which is a line of the kind {kind}")


def check_table(name, spoilt):
    """A format gives the table of the scene; without cleaning it gives all its faults at once."""
    words, files = FORMATS[name]
    load, note = run("log_to_table", "track", "600", *words, *AROUND, *CLEAN, "--out", "tracks.csv",
                     *files)
    want(read("tracks.csv") == wanted_table(name, TRACKS), f"{name}: another table")
    kinds = list(spoilt.values())
    read_lines = re.match(r"dropped (\d+) of (\d+) reports: ", note)
    want(read_lines and int(read_lines[1]) == len(kinds), f"{name}: the first line is {note[:200]}")
    want("at most 0.1 m from the reported" in note, f"{name}: {note}")
    check_dropped(name, spoilt)
    refused, faults = run("log_to_table", "track", "600", *words, *AROUND, *files, status=1)
    # In GPX a point without a time is no report; elsewhere a missing position is dropped.
    count = sum(it in ("twice", "broken") or (name, it) == ("gpx", "missing") for it in kinds)
    want(refused == "", f"{name}: something is written in spite of faults")
    want(len(faults.splitlines()) == count + 1, f"{name}: {count} faults are due, not {faults}")
    return load


def check_last():
    """With --duplicates last the later line of an instant counts, with first the earlier one."""
    later = {(ship, second): place for kind, ship, second, *place in make_logs.spoil(TRACKS)
             if kind == "twice"}
    tracks = {ship: [(second, *later.get((ship, second), place)) for second, *place in track]
              for ship, track in TRACKS.items()}
    words = ["last" if it == "first" else it for it in CLEAN]
    table, _ = run("log_to_table", "track", "600", "--ais-dk", *AROUND, *words, "logs/ais.csv")
    want(table == wanted_table("ais", tracks), "--duplicates last: another table")


def check_service():
    """A timetable counts from noon less twelve hours, also in the night that has 23 hours."""
    os.makedirs("night")
    write("night/stop_times.txt", "trip_id,arrival_time,departure_time,stop_id,stop_sequence\n"
          "t,08:00:00,08:01:00,a,1\nt,25:30:00,25:30:00,b,2\n")
    write("night/stops.txt", "stop_id,stop_lat,stop_lon\na,55.7,12.6\nb,55.7,12.6\n")
    words = ["log_to_table", "track", "99999", "--gtfs", "night", *AROUND, "--date", "2026-03-29"]
    for zone, times in (("Europe/Copenhagen", ["29 06:00", "29 06:01", "29 23:30"]),
                        ("-03:30", ["29 11:30", "29 11:31", "30 05:00"])):
        table, _ = run(*words, "--zone", zone)
        want(re.findall(r"@2026-03-(.{8}):00", table) == times, f"{zone}: {table}")
    for more in ([], ["--zone", "Nowhere/At_all"], ["--zone", "../../etc/passwd"]):
        run(*words, *more, status=1)


# Questions, each with a computation of its own.


def second_of(moment):
    hour, minute, second, above, below = moment
    part = Fraction(int(above), int(below)) if below else 0
    return int(hour) * 3600 + int(minute) * 60 + Fraction(second) + part


def moments(text):
    return [second_of(it) for it in MOMENT.findall(text)]


def spans_of(text):
    found = moments(text)
    return list(zip(found[::2], found[1::2]))


def answers(text):
    """The rows of each answer."""
    found, rows = [], []
    for record in csv.reader(io.StringIO(text)):
        if len(record) == 1 and re.fullmatch(r"\(\d+ rows\)", record[0]):
            found.append(rows[1:])
            rows = []
        else:
            rows.append(record)
    return found


def polygon(west, south, east, north):
    return (f"geometry 'POLYGON(({west} {south},{east} {south},{east} {north},{west} {north},"
            f"{west} {south}))'")


def questions(key):
    """The questions of the Cookbook, to a table with this column of names."""
    apart = ["getX(a.track) - getX(b.track)", "getY(a.track) - getY(b.track)"]
    square = " & ".join(f"({it} #>= -50) & ({it} #<= 50)" for it in apart)
    octagon = " & ".join([square, *(f"({apart[0]} {sign} ({apart[1]}) #>= -71) & "
                                    f"({apart[0]} {sign} ({apart[1]}) #<= 71)" for sign in "+-")])
    return f"""
SELECT a.{key} AS one, b.{key} AS other, nearestApproachSquared(a.track, b.track) AS squared
FROM tracks a, tracks b WHERE a.{key} < b.{key} AND eDwithin(a.track, b.track, 50);
SELECT a.{key} AS one, b.{key} AS other, whenTrue({square}) AS times FROM tracks a, tracks b
WHERE a.{key} < b.{key} AND eDwithin(a.track, b.track, 50);
SELECT a.{key} AS one, b.{key} AS other, whenTrue({octagon}) AS times FROM tracks a, tracks b
WHERE a.{key} < b.{key} AND eDwithin(a.track, b.track, 50);
SELECT a.{key} FROM tracks a LEFT JOIN tracks b ON a.{key} <> b.{key}
    AND eDwithin(a.track, b.track, 50) WHERE b.{key} IS NULL;
SELECT a.{key}, count(b.{key}) AS met FROM tracks a LEFT JOIN tracks b ON a.{key} <> b.{key}
    AND eDwithin(a.track, b.track, 50) GROUP BY a.{key};
SELECT {key}, getTime(atGeometry(track, {polygon(*BOX)})) AS times FROM tracks;
SELECT {key}, getTime(atGeometry(track, {polygon(0, -9000, 0, 9000)})) AS times FROM tracks;
SELECT tCount(atGeometry(track, {polygon(*BOX)})) AS together FROM tracks;
SELECT a.{key} AS one, b.{key} AS other FROM tracks a, tracks b WHERE a.{key} < b.{key}
    AND eDwithin(atTime(a.track, tstzspan '[2026-05-05 06:15, 2026-05-05 06:25]'), b.track, 50);
DELETE FROM tracks WHERE track && stbox 'STBOX T([0001-01-01, 2026-05-05 06:10))';
SELECT count(*) AS left FROM tracks;
""".replace("AS left", "AS remain")


def check_answers(name, load, key):
    """mobsql answers each question as the computation does."""
    output, _ = run("mobsql", given=load + questions(key))
    near, times, octagons, alone, counts, box, gate, count, watch, remain = answers(output)
    squares = {it: square for it, square in scene.nearest(TRACKS).items() if square <= 2500}
    want(len(squares) >= 4, "the scene has few encounters")
    want({(a, b): Fraction(it) for a, b, it in near} == squares, f"{name}: other pairs: {near}")
    for one, other, text in times:
        moves = scene.all_stretches(TRACKS[one], TRACKS[other])
        want(spans_of(text) == scene.in_box(moves, -50, -50, 50, 50), f"{name}: {one}, {other}")
    for one, other, text in octagons:
        moves = scene.all_stretches(TRACKS[one], TRACKS[other])
        want(spans_of(text) == scene.in_octagon(moves, 50, 71), f"{name}: {one}, {other}: {text}")
    met = [it for pair in squares for it in pair]
    want({row[0] for row in alone} == set(TRACKS) - set(met), f"{name}: others are alone: {alone}")
    want({ship: int(it) for ship, it in counts} == {it: met.count(it) for it in TRACKS},
         f"{name}: others met: {counts}")
    for rows, bounds in ((box, BOX), (gate, (0, -9000, 0, 9000))):
        for ship, text in rows:
            wanted = scene.in_box(scene.moves_of(TRACKS[ship]), *bounds)
            want(spans_of(text) == wanted, f"{name}: {ship} is in {bounds} at {text}")
    check_count(name, count[0][0])
    cuts = {it: scene.cut(track, 22500, 23100) for it, track in TRACKS.items()}
    wanted = {it for it in scene.pairs(TRACKS) if cuts[it[0]] and scene.nearest(
        {it[0]: cuts[it[0]], it[1]: TRACKS[it[1]]}).get(it, 2501) <= 2500}
    want({tuple(it) for it in watch} == wanted, f"{name}: others in the watch: {watch}")
    want(remain == [["0"]], f"{name}: {remain} tracks begin later")
    return output


def check_count(name, text):
    """The count over time, at instants between those at which it changes."""
    steps = []
    for piece in re.split(r"[\])], [\[(]", text):
        its_steps = [(int(value), second_of(moment)) for value, *moment in
                     re.findall(r"(\d+)@" + MOMENT.pattern, piece)]
        steps += [*its_steps[:-1], (0, its_steps[-1][1])]
    want(len(steps) > 3, f"{name}: few are in the box: {text}")
    for (value, start), (_, end) in zip(steps, steps[1:]):
        if start < end:
            middle = (start + end) / 2
            found = scene.count_in_box(TRACKS, middle, BOX)
            want(found == value, f"{name}: {found} in the box at {middle}, not {value}")


# Answers out.


def check_rows(output):
    """Rows for spreadsheets, of the pairs and of the times of the second answer."""
    text, _ = run("spans_to_rows", "--answer", "2", given=output)
    rows = list(csv.DictReader(io.StringIO(text)))
    wanted = [(one, other, *span) for one, other, times in answers(output)[1]
              for span in spans_of(times)]
    want(len(rows) == len(wanted), "another number of spans")
    for row, (one, other, start, end) in zip(rows, wanted):
        want((row["one"], row["other"]) == (one, other), "another order of spans")
        want(abs(Fraction(row["seconds"]) - (end - start)) <= Fraction(1, 2000), f"seconds: {row}")
        for column, exact in (("start", start), ("end", end)):
            shown = second_of((*re.split("[ :]", row[column])[1:], "", ""))
            want(abs(shown - exact) <= Fraction(1, 2000), f"{column}: {row}")
            want((column in row["rounded"].split()) == (shown != exact), f"mark of {column}: {row}")
    text, _ = run("spans_to_rows", "--answer", "1", "--root", "squared", given=output)
    for row, (_, _, square) in zip(csv.DictReader(io.StringIO(text)), answers(output)[0]):
        root = Fraction(row["squared"])
        want(abs(float(root) - float(Fraction(square)) ** 0.5) <= 0.0005, f"root: {row}, {square}")
        want(bool(row["rounded"]) == (root**2 != Fraction(square)), f"mark of the root: {row}")


def check_geojson(answer):
    """The tracks as GeoJSON are the reports of the scene, in degrees and seconds since 1970."""
    text, _ = run("table_to_geojson", *AROUND[:2], given=answer)
    start = 1777939200
    for item in json.loads(text)["features"]:
        track = TRACKS[str(item["properties"]["mmsi"])]
        known = {it[0]: it[1:] for it in track}
        want(item["geometry"]["type"] == "LineString", "no line")
        for (lon, lat, height, second), time in zip(item["geometry"]["coordinates"],
                                                    item["properties"]["times"]):
            if second - start in known:
                wanted_lat, wanted_lon = make_logs.degrees(*known[second - start])
                want(abs(lat - wanted_lat) < 2e-7 and abs(lon - wanted_lon) < 2e-7, "another place")
            want(height == 0 and time == f"{make_logs.DAY}T{make_logs.clock_of(second - start)}Z",
                 f"another time: {time}")


class Page(html.parser.HTMLParser):
    """What a page loads and runs."""

    def __init__(self, text):
        super().__init__()
        self.scripts, self.tags, self.kind, self.policy = [], [], None, ""
        self.feed(text)

    def handle_starttag(self, tag, attrs):
        attrs = dict(attrs)
        self.tags.append(tag)
        loads = {"src", "href", "xlink:href", "data", "action", "srcset"} & set(attrs)
        want(not loads and not [it for it in attrs if it.startswith("on")], f"{tag} has {attrs}")
        if attrs.get("http-equiv") == "Content-Security-Policy":
            self.policy = attrs["content"]
        if tag == "script":
            self.kind = attrs.get("type", "code")

    def handle_data(self, data):
        if self.kind:
            self.scripts.append((self.kind, data))
            self.kind = None


def check_page(text, names):
    """A page loads nothing, runs one script, and has the names."""
    page = Page(text)
    want([it for it, _ in page.scripts] == ["application/json", "code"], "other scripts")
    want(page.policy.startswith("default-src 'none';"), "no policy")
    rest = re.sub("'sha256-[^']*'", "", text)
    want(not re.findall(r"(?:https?:)?//(?!www\.w3\.org/)\w|@import|url\(", rest), "it loads")
    data = json.loads(page.scripts[0][1])
    want([it["name"] for it in data["tracks"]] == names, f"other names: {data['tracks']}")
    return data


def in_browser(path, clock):
    """A page as a headless browser has it at a time of the day."""
    words = ["chromium", "--headless", "--no-sandbox", "--disable-gpu", "--dump-dom",
             f"--user-data-dir={os.path.abspath('chromium')}",
             f"file://{os.path.abspath(path)}#{make_logs.DAY}T{clock}"]
    shown = subprocess.run(words, capture_output=True, text=True, timeout=300, check=True).stdout
    want(f"{clock[:8]} UTC</output>" in shown, "the page shows another time")
    return shown, len(re.findall('<circle r="6"[^>]*fill="#c8161d"', shown))


def check_browser(path, data, second):
    """In a headless browser each ship is where the computation has it. An encounter is red from its
    first instant on."""
    if not shutil.which("chromium"):
        return "no chromium: the page was not tried in a browser"
    first = data["meetings"][0]["spans"][0][0]
    want(first % 1, "the first encounter begins at a full second")
    try:
        shown, reds = in_browser(path, make_logs.clock_of(second))
        part = f"{first % 1:.3f}"[1:]
        _, reds_at_first = in_browser(path, make_logs.clock_of(make_logs.START + int(first)) + part)
    except (OSError, subprocess.SubprocessError) as fault:
        return f"the page was not tried in a browser: {fault}"[:200]
    ships = re.findall(r'<g class="ship"[^>]*transform="translate\((\S+) (\S+)\)"[^>]*>', shown)
    known = [piece for it in data["tracks"] for piece in it["pieces"]
             if piece[0][0] <= second - make_logs.START <= piece[-1][0]]
    want(len(ships) == len(known), f"{len(ships)} ships in the page, not {len(known)}")
    for found, piece in zip(ships, known):
        exact = scene.place_at(piece, second - make_logs.START)
        want(all(abs(float(a) - b) <= 0.06 for a, b in zip(found, exact)), "a ship is elsewhere")
    want(reds >= 2 and reds_at_first >= 2, "no encounter is red")
    return "the page was tried in chromium"


def check_pictures(load, output):
    """A map, its page, bars and a curve."""
    square = re.search(r"whenTrue\((.*?)\) AS times", output)[1]
    tracks, _ = run("mobsql", given=load + f"""
SELECT mmsi, track FROM tracks;
SELECT a.mmsi AS one, b.mmsi AS other, nearestApproachSquared(a.track, b.track) AS squared,
atTime(a.track, whenTrue({square})) AS near FROM tracks a, tracks b
WHERE a.mmsi < b.mmsi AND eDwithin(a.track, b.track, 50);""")
    for words in (["map"], ["bars"], ["curves", "--linear"]):
        given = tracks if words == ["map"] else answers_text(load, words[0])
        text, _ = run("picture", *words, "Ships & <more>", given=given)
        want(tree.fromstring(text).tag.endswith("svg"), f"no picture of {words}")
    text, _ = run("picture", "map", "--html", "Ships & <more>", given=tracks)
    write("map.html", text)
    data = check_page(text, sorted(TRACKS))
    check_geojson(tracks[:tracks.index("rows)") + 6])
    return check_browser("map.html", data, make_logs.START + 20 * make_logs.STEP)


def answers_text(load, kind):
    query = (f"SELECT tCount(atGeometry(track, {polygon(*BOX)})) AS together FROM tracks;"
             if kind == "curves" else "SELECT mmsi, getTime(track) AS known FROM tracks;")
    return run("mobsql", given=load + query)[0]


def check_heat(spoilt):
    """A thermometer's log, with other columns, semicolons and another order."""
    words = ["celsius", "600", "--columns", "time=when", "name=device", "value=celsius", "--type",
             "tfrac", "--separator", ";", "--out", "heat.csv", "logs/heat.csv"]
    _, faults = run("log_to_table", *words, status=1)
    want(len(faults.splitlines()) == len(spoilt) + 1, f"other faults: {faults}")
    load, _ = run("log_to_table", *words, "--skip-malformed")
    query = f"SELECT device, whenTrue(celsius #> {LIMIT}) AS warm FROM heat;"
    for device, text in answers(run("mobsql", given=load + query)[0])[0]:
        readings = [(second, Fraction(value, 10)) for second, name, value in make_logs.heat()
                    if name == device]
        want(spans_of(text) == scene.above(readings, LIMIT), f"{device} is warm at {text}")


def check_projection():
    """UTM is that of a series of its own, and goes back to the same degrees."""
    if not importlib.util.find_spec("pyproj"):
        run("log_to_table", "track", "600", "--project", "utm33", "--to", "1", "--ais-dk", status=2)
        return "no pyproj: projections by name were not tried"
    for zone, lon, lat in ((33, 12.6, 55.7), (32, 11.9, 78.1), (1, -177.5, 3.25), (60, 179.5, 0)):
        given = f"time,ship,x,y\n2026-05-05 06:00:00,a,{lon},{lat}\n"
        words = ["--project", f"utm{zone}", "--to", "0.001"]
        table, note = run("log_to_table", "track", "600", *words, given=given)
        found = [float(it) for it in re.findall(r"POINT\((\S+) (\S+)\)", table)[0]]
        wanted = scene.utm(lat, lon, zone)
        want(all(abs(a - b) < 0.002 for a, b in zip(found, wanted)), f"{found}, not {wanted}")
        want("makes lengths in the middle wrong by 0." in note, note)
        answer = f"ship,place\na,POINT({round(found[0])} {round(found[1])})\n(1 rows)\n"
        text, _ = run("table_to_geojson", "--project", f"utm{zone}", given=answer)
        back = json.loads(text)["features"][0]["geometry"]["coordinates"]
        want(abs(back[0] - lon) < 5e-5 and abs(back[1] - lat) < 1e-5, f"{back}, not {lon}, {lat}")
    run("log_to_table", "track", "600", "--project", "EPSG:4326", "--to", "1", "--ais-dk", status=2)
    run("log_to_table", "track", "600", "--project", "no such", "--to", "1", "--ais-dk", status=2)
    return "projections by name were tried"


# Hostile input.


NAMES = ["<script>alert(1)</script>", 'a "b", c', "\\N", "it's", "-x", "  two  blanks ", "Ærø",
         "=1+1", "--", "\\\\server", "'); DROP", "{\"x\": 1}</script>", "&amp;", "007"]


def check_names():
    """Names come back as they were, and are escaped in pictures."""
    lines = ["time,ship,x,y"]
    for at, name in enumerate(NAMES):
        field = '"' + name.replace('"', '""') + '"'
        lines += [f"2026-05-05 06:00:00,{field},{at * 1000},0",
                  f"2026-05-05 06:01:00,{field},{at * 1000},900"]
    write("names.csv", "\n".join(lines))
    load, _ = run("log_to_table", "track", "600", "--out", "it's a day.csv", "names.csv")
    want("COPY it_s_a_day FROM 'it''s a day.csv'" in load, load)
    answer, _ = run("mobsql", given=load + "SELECT ship, track FROM it_s_a_day;")
    back, _ = run("table_to_log", "x", "y", given=answer)
    names = {row[1] for row in list(csv.reader(io.StringIO(back)))[1:]}
    want(names == set(NAMES), f"names came back as {names}")
    found = json.loads(run("table_to_geojson", *AROUND[:2], given=answer)[0])["features"]
    want({it["properties"]["ship"] for it in found} == set(NAMES), "other names in GeoJSON")
    for words in (["map"], ["map", "--html"]):
        text, _ = run("picture", *words, "</title><script>", given=answer)
        want("<script>alert" not in text and "</title><script>" not in text, "a name is run")
        if words[1:]:
            check_page(text, [it for it in sorted(NAMES)])
        else:
            tree.fromstring(text)


def check_bad_names():
    """A name of a track that no table file may have, or that takes two lines, is refused."""
    for name in (b"a\nb", b"a\x01b", b"\xff"):
        stem = os.fsdecode(name)
        shutil.copy(f"logs/nmea/{make_logs.SHIPS[0]}.nmea", f"{stem}.nmea")
        write(f"{stem}.gpx", '<gpx><trk><trkseg><trkpt lat="55.7" lon="12.6"><time>'
              "2026-05-05T06:00:00Z</time></trkpt></trkseg></trk></gpx>")
        for words in (["--nmea", f"{stem}.nmea"], ["--gpx", f"{stem}.gpx"],
                      ["--nmea", "--name", stem, "logs/nmea/219000101.nmea"]):
            output, note = run("log_to_table", "track", "600", *AROUND, *words, status=1)
            want(output == "" and "in the name of a track" in note, f"{words}: {note}")


def check_files():
    """File names with blanks and leading dashes, and files that cannot be read."""
    shutil.copy("names.csv", "- my log.csv")
    run("log_to_table", "track", "600", "--out=-out 1.csv", "--", "- my log.csv")
    want(os.path.exists("-out 1.csv"), "no table of a name with a dash")
    _, note = run("log_to_table", "track", "600", "missing.csv", "also missing.csv", status=1)
    want(note.count("No such file") == 2, note)
    run("log_to_table", "track", "600", "--out", "no/folder.csv", "names.csv", status=1)
    write("values.csv", "time,ship,celsius\n2026-05-05 06:00:00,a,1\n")
    _, note = run("log_to_table", "track", "600", "names.csv", "values.csv", status=1)
    want("values.csv, line 1: other columns" in note, note)
    write("header.csv", "time,ship,x,y\n")
    output, _ = run("log_to_table", "track", "600", *AROUND, "header.csv")
    want(output == "ship,track\n", f"a log without reports makes {output}")
    run("log_to_table", "select", "600", "names.csv", status=2)
    run("log_to_table", "track", "600", "--out", os.fsdecode(b"\xff.csv"), "names.csv", status=1)


VALUE = ["--columns", "time=time", "name=ship", "value=v", "--type"]
REFUSED = [
    ("a tint", b"time,ship,v\n2026-05-05 06:00,a,1.5\n", [*VALUE, "tint"], "no whole number: 1.5"),
    ("a tbool", b"time,ship,v\n2026-05-05 06:00,a,2\n", [*VALUE, "tbool"], "neither true nor"),
    ("a tfrac", b"time,ship,v\n2026-05-05 06:00,a,1,5\n", [*VALUE, "tfrac"], "4 fields, and 3"),
    ("an empty file", b"", [], "an empty file"),
    ("bytes that are no text", b"time,ship,x,y\n2026-05-05,\xff,1000,2\n2026-05-05,b,\xe9,2\n", [],
     "2 faults"),
    ("a zero byte", b"time,ship,x,y\n2026-05-05 06:00,a\0b,1000,2\n", [], "control character"),
    ("a quote that is not closed", b'time,ship,x,y\n2026-05-05 06:00,"a,1,2\n', [], "double quote"),
    ("a header that lacks a column", b"when,who,x\n", ["--columns", "time=when", "name=who", "x=x",
                                                       "y=north"], "no column north"),
    ("nan", b"time,ship,x,y\n2026-05-05 06:00,a,nan,1_0\n", [], "no number: nan"),
    ("a date that is none", b"time,ship,x,y\n2026-02-30,a,1000,1\n", [], "no time"),
    ("degrees", b"time,ship,x,y\n2026-05-05 06:00,a,12.5,55.5\n", [], "--around=55.50,12.50"),
    ("degrees beyond 90", b"time,ship,x,y\n2026-05-05 06:00,a,12.5,95.5\n", AROUND, "no degrees"),
    ("two reports", b"time,ship,x,y\n2026-05-05 06:00,a,1000,1\n2026-05-05 06:00,a,1000,2\n", [],
     "line 3: a second report of a at 2026-05-05 06:00; the other is line 2"),
    ("a document type", b'<!DOCTYPE gpx [<!ENTITY a "b">]><gpx/>', ["--gpx", *AROUND], "document"),
    ("no GPX", b"<gpx><trk>", ["--gpx", *AROUND], "no GPX"),
    ("an offset", b"time,ship,x,y\n2026-05-05 06:00+99,a,1000,1\n", [], "an offset that does not"),
    ("no NMEA", b"$GPGGA,1\n", ["--nmea", *AROUND], "no sentence RMC"),
    ("two sentences on a line", b"$GPRMC,1$GPRMC,2\n", ["--nmea", *AROUND], "two sentences"),
    ("a degree and a missing place", b"time,ship,x,y\n2026-05-05 06:00,a,12.5,55.5\n"
     b"2026-05-05 06:01,a,181,91\n", [], "these look like degrees"),
    ("an unknown encoding", b'<?xml version="1.0" encoding="klingon"?><gpx/>', ["--gpx", *AROUND],
     "unknown encoding: klingon"),
    ("waypoints alone", b'<gpx><wpt lat="1" lon="2"/></gpx>', ["--gpx", *AROUND], "no point of a"),
    ("a long text", b"time,ship,x,y\n" + b"9" * 10**6 + b",a,1000,1\n", [],
     f"line 2: no time: {'9' * 60}..\n"),
    ("numbers that do not fit", b"time,ship,v\n2026-05-05 06:00,a,1e19\n2026-05-05 06:01,a,1e-19\n"
     b"2026-05-05 06:02,a,4611686018427387904\n2026-05-05 06:03,a,4611686018427387903\n"
     b"2026-05-05 06:04,a,0.12345678901234567890\n2026-05-05 06:05,a,2.500000000000000000000\n",
     [*VALUE, "tfrac"], "4 faults"),
    ("a place that does not fit", b"time,ship,x,y\n2026-05-05 06:00,a,1000,9e18\n", [],
     "line 2: a number that does not fit 62 bits: 9e18"),
    ("a year before the first", b"time,ship,v\n0001-01-01 00:00+01,a,1\n", [*VALUE, "tint"],
     "outside of the years"),
    ("a header of other names", b"a,b,a\n",
     ["--columns", "time=a", "name=c", "value=d", "--type", "tint"],
     "no column c, d; two columns a; it is a, b, a"),
    ("a bad role", b"time,ship,x,y\n", ["--columns", "time=time", "speed=x", "name=ship"], "takes"),
]


def check_outputs():
    """No tool writes over what it reads. A stream that is full or closed ends it with a line."""
    shutil.copy("names.csv", "kept.csv")
    os.symlink("names.csv", "link.csv")
    for words in (["--out", "names.csv", "names.csv"], ["--dropped", "./names.csv", "names.csv"],
                  ["--out", "names.csv", "kept.csv", "link.csv"],
                  ["--out", "link.csv", "names.csv"],
                  ["--out", "new.csv", "--dropped", "./new.csv", "names.csv"]):
        _, note = run("log_to_table", "track", "600", "--duplicates", "first", *words, status=1)
        want("would overwrite" in note and not os.path.exists("new.csv"), note)
    run("log_to_table", "track", "600", "--gtfs", "night", *AROUND, "--date", "2026-03-29",
        "--zone", "+00:00", "--out", "night/stops.txt", status=1)
    want(read("names.csv") == read("kept.csv"), "a log is overwritten")
    tool = os.path.join(TOP, "tools", "log_to_table")
    note = shell(f"{tool} track 600 --out names.csv < names.csv")
    want("would overwrite" in note and read("names.csv") == read("kept.csv"), note)
    write("answer", "ship,place\na,POINT(1 2)\n(1 rows)\n")
    write("moving", "ship,track\na,[POINT(1 2)@2026-05-05 06:00:00+00]\n(1 rows)\n")
    write("over_time", "ship,speed\na,[1@2026-05-05 06:00:00+00]\n(1 rows)\n")
    write("note", "no memory\n")
    for words, given in (("log_to_table track 600", "names.csv"), ("picture map", "answer"),
                         ("picture map --html", "moving"), ("picture curves", "over_time"),
                         ("spans_to_rows", "answer"), ("table_to_geojson --around 1,1", "answer"),
                         ("table_to_log v", "over_time"), ("where answer", "note")):
        command = f"{os.path.join(TOP, 'tools', words)} < {given}"
        note = shell(f"{command} > /dev/full")
        want(note.endswith(": standard output: No space left on device\n"), f"{words}: {note}")
        for closed in ("<&-", ">&-"):
            note = shell(f"{command} {closed}")
            want(note.endswith(": a standard stream is closed\n"), f"{words} {closed}: {note}")
    for option in ("--out", "--dropped"):
        _, note = run("log_to_table", "track", "600", option, "/dev/full", "kept.csv", status=1)
        want(note == "log_to_table: /dev/full: No space left on device\n", note)


def shell(command):
    """What a shell command that must fail says: one line."""
    ran = subprocess.run(["sh", "-c", command], capture_output=True, text=True, check=False)
    want(ran.returncode == 1 and ran.stderr.count("\n") == 1, f"{command}: {ran.stderr}")
    return ran.stderr


def check_counts():
    """What is dropped is counted once, and each line that is dropped is listed."""
    table = ["log_to_table", "track", "600", *AROUND, "--skip-malformed",
             "--dropped", "dropped.csv"]
    _, note = run(*table, given="time,ship,x,y\n2026-05-05 06:00,a,12.6,55.7\n"
                  "2026-05-05 06:01,a,181,55\n2026-05-05 06:02,a,12,91\n")
    want(note.startswith("dropped 2 of 3 reports: 2 malformed\n"), note)
    rmc = "$GPRMC,06{:02}00.00,A,5542.0,N,01236.0,E,10.0,45.0,050526,,,A"
    log = "\n".join(lead + rmc.format(at) for at, lead in enumerate(
        ("", "\\s:x*11\\", "  ", "2026-05-05 ", "x$GPRMC,", "!")))
    output, note = run(*table, "--nmea", given=log + "\n$GPGGA,1\nGPRMC,1\n")
    want(output.count("POINT") == 5 and note.startswith("dropped 2 of 7 reports: 2"), output + note)
    os.makedirs("spoilt")
    shutil.copy("night/stops.txt", "spoilt/stops.txt")
    times = ("t,08:00:00,08:01:00,a,1", "t,09:00:00,09:00:00,b,2", "t,10:00:00,10:00:00,b,3,",
             "ghost,08:00:00,08:01:00,a,1", "half,08:00:00,08:00:00,a,1", "half,,,b,2",
             "half,,,a,3", "rest,08:00:00,08:00:00,a,1")
    write("spoilt/stop_times.txt", "\n".join(
        ["trip_id,arrival_time,departure_time,stop_id,stop_sequence", *times, ""]))
    write("spoilt/calendar_dates.txt", "service_id,date,exception_type\ns,20260504,1\n")
    write("spoilt/trips.txt", "trip_id,service_id\nt,s\nhalf,s\nrest,other\n")
    words = ["--gtfs", "spoilt", "--date", "2026-05-04", "--zone"]
    output, note = run(*table, *words, "+00:00")
    want(note.startswith("dropped 5 of 8 reports: 5 malformed\n"), note)
    rows = [row[1] for row in csv.reader(io.StringIO(read("dropped.csv")))][1:]
    want(rows == ["4", "5", "6", "7", "8"] and output.count("POINT") == 3, f"{rows}, {output}")
    _, note = run(*table[:5], "--to", "1", *words, "+00:00", status=1)
    want(note.startswith("log_to_table: 3 faults;") and "no trip ghost" in note, note)
    write("spoilt/calendar_dates.txt",
          "service_id,date,exception_type\ns,20260504,1\ns,2026,1\n")
    _, note = run(*table, *words, "+00:00", status=1)
    want("spoilt/calendar_dates.txt, line 3: no date: 2026\n" in note, note)
    _, note = run(*table, "--gtfs", "answer", *words[2:], "+00:00", status=1)
    want("answer is no folder: unpack the feed" in note, note)
    _, note = run(*table, *words, "+99:99", status=1)
    want(note == "log_to_table: an offset that does not exist: +99:99\n", note)


def check_order():
    """Files are read in the order of the command line, also after --columns."""
    for name, x in (("one", 1000), ("two", 2000), ("three", 3000)):
        write(f"{name}.csv", f"t,n,x,y\n2026-05-05 06:00,a,{x},1\n")
    columns = ["--columns", "time=t", "name=n", "x=x", "y=y"]
    for words in ([*columns, "one.csv", "two.csv", "three.csv"], ["one.csv", *columns, "two.csv"],
                  [*columns, "one.csv", "--to", "1", "two.csv"], ["one.csv", "two.csv", *columns]):
        output, _ = run("log_to_table", "track", "600", "--duplicates", "first", *words)
        want("POINT(1000 1)" in output, f"{words}: {output}")


def check_types():
    """A text that looks like a number or a span is one only in a column of such."""
    span = "[2026-05-05 00:00:00+00, 2026-05-05 00:00:01+00]"
    for given, wanted in ((f'n,s\n"{span}",1\nb,2\n', f'n,s,rounded\n"{span}",1,\nb,2,\n'),
                          (f'n,s\na,"{span}"\nb,\\N\n', "n,start,end,seconds,rounded\n"
                           "a,2026-05-05 00:00:00,2026-05-05 00:00:01,1,\n"),
                          ("n,s\n10/2,1\n1/3,\\N\n", "n,s,rounded\n10/2,1,\n1/3,,\n"),
                          ("n,s\n-0,1/3\n\\N,2\n", "n,s,rounded\n-0,0.333,s\n,2,\n"),
                          ("n,s\n7,a\n1/2,9\n", "n,s,rounded\n7,a,\n0.5,9,\n")):
        output, _ = run("spans_to_rows", given=given + "(2 rows)\n")
        want(output == wanted, f"{given}: {output}")
    for given in ("n,s\n(0 rows)\n", "n,s\na,\\N\n(1 rows)\n"):
        output, _ = run("spans_to_rows", "--column", "s", given=given)
        want(output == "n,start,end,seconds,rounded\n", f"{given}: {output}")
    given = "ship,squared,s\n10/2,1/4,1/3\nx,9,2\n(2 rows)\nn\n1\n(1 rows)\n"
    words = ["--answer", "1", "--root", "squared=metres"]
    output, _ = run("table_to_geojson", *AROUND[:2], *words, given=given)
    found = [it["properties"] for it in json.loads(output)["features"]]
    want(found == [{"ship": "10/2", "metres": 0.5, "s": 0.333, "rounded": ["s"]},
                   {"ship": "x", "metres": 3, "s": 2}], f"other properties: {found}")
    output, _ = run("spans_to_rows", *words, given=given)
    want(output == "ship,metres,s,rounded\n10/2,0.5,0.333,s\nx,3,2,\n", output)
    point = "[POINT(1 1)@2026-05-05 06:00:00+00]"
    for names in ("ship,ship,near", "ship,times,near", "ship,rounded,near", "near,column,near2"):
        given = f'{names}\n"{point}",1/3,"{point}"\n(1 rows)\n'
        _, note = run("table_to_geojson", *AROUND[:2], given=given, status=1)
        want("two properties" in note, f"{names}: {note}")
    given = "a,squared\n1,2\n(1 rows)\n"
    for tool in (["spans_to_rows"], ["table_to_geojson", *AROUND[:2]]):
        for wrong in (["--answer", "1", "--root", "none"], ["--answer", "3"], ["--answer", "0"]):
            run(*tool, *wrong, given=given, status=1)


def check_rings():
    """An outer ring is counterclockwise and a hole clockwise, whichever way mobsql has them."""
    rings = [[(0, 0), (0, 900), (900, 900), (900, 0), (0, 0)],
             [(100, 100), (200, 100), (200, 200), (100, 100)]]
    for outer, hole in ((1, 1), (1, -1), (-1, 1), (-1, -1)):
        text = ",".join("(" + ",".join(f"{x} {y}" for x, y in ring[::way]) + ")"
                        for ring, way in zip(rings, (outer, hole)))
        output, _ = run("table_to_geojson", *AROUND[:2],
                        given=f'n,g\na,"POLYGON({text})"\n(1 rows)\n')
        found = json.loads(output)["features"][0]["geometry"]["coordinates"]
        for ring, sign in zip(found, (1, -1)):
            ring = [(x - 12.6, y - 55.7) for x, y in ring]
            area = sum(a[0] * b[1] - b[0] * a[1] for a, b in zip(ring, ring[1:]))
            want(sign * area > 0, f"{text}: the ring {ring} goes round the wrong way")


def check_legend():
    """The legend names each ship of an encounter, and no text of it leaves the picture."""
    for names in (("MAERSK@@", "Bob"), ("219000101", "219000102"), ("a", "b")):
        near = "[POINT(0 0)@2026-05-05 06:00:00+00, POINT(9 9)@2026-05-05 06:01:00+00]"
        given = f'one,other,squared,near\n{names[0]},{names[1]},2500,"{near}"\n' * 1
        given += f'{names[1]},{names[0]},2500,"{near}"\n(2 rows)\n'
        text, _ = run("picture", "map", given=given)
        for one, other in (names, names[::-1]):
            line = f">{one} and {other} 06:00:00\u201306:01:00, nearest 50.0<"
            want(line in text, f"the legend lacks {line}")
        lefts = [float(it) for it in re.findall(r'<text x="([0-9.]+)"[^>]*>[^<]* and [^<]*<', text)]
        wide = 7.2 * len(f"{names[0]} and {names[1]} 06:00:00-06:01:00, nearest 50.0")
        want(len(lefts) == 2 and all(it + wide < 900 for it in lefts), f"{names}: {lefts}, {wide}")
        want(len(set(lefts)) == (1 if wide > 390 else 2), f"{names}: texts over one another")
    text, _ = run("picture", "map", given=given.replace("one,other", "ship,ship"))
    want(">b and a 06:00:00" in text, "a legend without the first of two columns of one name")
    given = given.replace("05 06:01:00+00]\"\n(2", "06 06:01:00+00]\"\n(2")
    text, _ = run("picture", "map", given=given)
    want(">b and a 2026-05-05 06:00:00\u20132026-05-06 06:01:00," in text, "a legend without dates")


def check_near(load):
    """The query of examples/logs has the spans of the octagon and the squares of the distances."""
    query = read(os.path.join(TOP, "examples", "logs", "queries", "near.sql"))
    output, _ = run("mobsql", given=load + query.replace("ship", "mmsi"))
    _, near, times = answers(output)
    squares = {it: square for it, square in scene.nearest(TRACKS).items() if square <= 2500}
    for rows in (near, times):
        want({(a, b): Fraction(it) for a, b, it, _ in rows} == squares, f"other pairs: {rows}")
    for one, other, _, text in times:
        moves = scene.all_stretches(TRACKS[one], TRACKS[other])
        want(spans_of(text) == scene.in_octagon(moves, 50, 71), f"{one}, {other}: {text}")


def check_refused():
    """Each is refused, with status 1 and nothing written."""
    for name, log, words, why in REFUSED:
        output, note = run("log_to_table", "track", "600", *words, given=log, status=1)
        want(output == "" and why in note, f"{name}: {note}")
    run("log_to_table", "track", "600", "--metres",
        given="time,ship,x,y\n2026-05-05 06:00,a,12.5,55.5\n")
    for tool in (["picture", "map"], ["spans_to_rows"], ["table_to_geojson", *AROUND[:2]],
                 ["table_to_log", "x"]):
        for answer in (b"", b"a,b\n\xff,1\n(1 rows)\n", b"a,b\n1,2\n", b"a\n1,2\n(1 rows)\n",
                       b'a\n"x'):
            if answer or tool[0] != "table_to_geojson":
                _, note = run(*tool, given=answer, status=1)
                want("Traceback" not in note, f"{tool} {answer}: {note}")
        hostile = 'a,b\n"[2026-02-30 00:00:00+00, 2026-02-31 00:00:00+00]",' + "9" * 400
        run(*tool, given=f"{hostile}\n(1 rows)\n", status=0 if tool[0] in DATA_TOOLS else 1)
        output, _ = run(tool[0], "--help")
        want("usage:" in output, f"{tool[0]} has no help")


def check_example():
    """The logs of examples/logs are what make_logs.py makes."""
    make_logs.example("example")
    for folder, _, files in os.walk("example"):
        for path in (os.path.join(folder, it) for it in files):
            kept = os.path.join(TOP, "examples", "logs", os.path.relpath(path, "example"))
            want(read(path) == read(kept), f"{kept} is made differently")


def check_large():
    """A table larger than a file is written as several; a day of reports costs what it may."""
    value = "x" * 500_000
    log = ["time,device,text"] + [f"2026-05-05 06:00:00,d{it:02},{value}" for it in range(36)]
    load, _ = run("log_to_table", "text_of", "600", "--columns", "time=time", "name=device",
                  "value=text", "--type", "ttext", "--out", "many.csv", given="\n".join(log))
    want(load.count("COPY") == 2 and load.count("CREATE TABLE") == 1, load)
    parts = [read(f"many_{it}.csv").splitlines() for it in (1, 2)]
    want(all(os.path.getsize(f"many_{it}.csv") <= 16_777_216 for it in (1, 2)), "a part too large")
    want(len(parts[0]) + len(parts[1]) == 38 and parts[0][0] == parts[1][0], "other parts")
    run("log_to_table", "text_of", "600", given="\n".join(log), status=1)
    log = ["time,device,text", *(f"2026-05-05 06:00:{at:02},d,{value}" for at in range(36))]
    columns = ["time=time", "name=device", "value=text"]
    _, note = run("log_to_table", "text_of", "600", "--out", "whole.csv", "--type", "ttext",
                  "--columns", *columns, given="\n".join(log), status=1)
    want("line 2: d is larger than a file may be" in note and not os.path.exists("whole.csv"), note)
    # A process of its own: the memory of a child is that of the largest so far.
    words = [sys.executable, os.path.join(TOP, "checks", "tools.py"), "--measure", "30000"]
    return subprocess.run(words, capture_output=True, text=True, check=True).stdout.strip()


def measure(count):
    """The processor seconds and the memory for so many lines of AIS."""
    write("large.csv", "\n".join(make_logs.large(count)) + "\n")
    before = resource.getrusage(resource.RUSAGE_CHILDREN).ru_utime
    run("log_to_table", "track", "600", "--ais-dk", *AROUND, *CLEAN, "--out", "large_table.csv",
        "large.csv")
    used = resource.getrusage(resource.RUSAGE_CHILDREN)
    seconds, megabytes = used.ru_utime - before, used.ru_maxrss / 1024
    want(megabytes < 300 and seconds < max(3, count / 15_000), f"{seconds} s, {megabytes} MB")
    return f"{count} lines of AIS in {seconds:.1f} processor seconds and {megabytes:.0f} MB"


def main():
    if sys.argv[1:2] == ["--measure"]:
        print(measure(int(sys.argv[2])))
        return
    spoilt = make_logs.write_all("logs")
    spoilt["gtfs"], blank = spoilt["gtfs"]
    want(blank > 5, "few stops without a time")
    for name in FORMATS:
        load = check_table(name, spoilt[name])
        key = {"ais": "mmsi", "gtfs": "trip"}.get(name, "name")
        output = check_answers(name, load, key)
        if name == "ais":
            check_near(load)
            check_rows(output)
            browser = check_pictures(load, questions(key).replace("\n", " "))
    check_last()
    check_service()
    check_heat(spoilt["heat"])
    print(f"tools: {check_projection()}")
    check_names()
    check_bad_names()
    check_files()
    check_outputs()
    check_counts()
    check_order()
    check_types()
    check_rings()
    check_legend()
    check_refused()
    check_example()
    print(f"tools: {check_large()}")
    print(f"tools: {browser}")
    print(f"tools: {tried} tried, 0 failed")


if __name__ == "__main__":
    sys.dont_write_bytecode = True
    with tempfile.TemporaryDirectory() as folder:
        os.chdir(folder)
        main()
