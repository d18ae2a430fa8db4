#!/bin/sh
# Tests a track of 1,000 legs to and fro over a strip of 2 metres. The strip is a polygon of 1,000
# points, and also a box. The track is in it from 0.25 to 0.75 of each second, both ends included.
# It runs with one worker and with three.
# `sh checks/thousand.sh PROGRAM` uses that program; without an argument the one that ./try builds.
. "$(dirname "$0")/common"

awk -v folder="$work" '
    function clock(second) { return sprintf("2001-01-01 00:%02d:%02d", second / 60, second % 60) }
    function script(text) { printf "%s", text > (folder "/here/script.sql") }
    function wanted(text) { printf "%s", text > (folder "/wanted") }
    function point(x, y) { return x " " y }
    function side(x, y) { script(sep point(x, y)); sep = "," }
    BEGIN {
        script("CREATE TABLE trip (track tgeompoint);\n")
        script("CREATE TABLE strip (area geometry(Polygon), frame stbox);\n")
        script("INSERT INTO trip VALUES (\x27[")
        for (second = 0; second <= 1000; second++) {
            place = point(10 + second / 2, second % 2 ? 3 : -1)
            script((second ? ", " : "") "POINT(" place ")@" clock(second))
            if (second < 1000) {
                inside = "[" clock(second) ".25+00, " clock(second) ".75+00]"
                times = times (second ? ", " : "") inside
            }
        }
        script("]\x27);\nINSERT INTO strip VALUES (\x27POLYGON((")
        for (x = 0; x <= 1000; x += 2) side(x, 0)
        for (x = 1000; x >= 6; x -= 2) side(x, 2)
        side(0, 0)
        script("))\x27, \x27STBOX X((0,0),(1000,2))\x27);\n")
        script("SELECT getTime(atGeometry(track, area)) AS seconds FROM trip, strip;\n")
        script("SELECT getTime(atStbox(track, frame)) AS seconds FROM trip, strip;\n")
        script("SELECT eIntersects(track, area) AS polygon,\n")
        script("    getTime(minusGeometry(track, area)) = getTime(minusStbox(track, frame))")
        script(" AS others,\n")
        script("    eDwithin(track, geometry \x27POINT(600 3)\x27, 91) AS near\n")
        script("FROM trip, strip;\n")
        seconds = "seconds\n\"{" times "}\"\n(1 rows)\n"
        wanted(seconds seconds "polygon,others,near\nt,t,t\n(1 rows)\n")
    }'
for workers in 1 3; do
    command="\"\$program\" --workers $workers < script.sql"
    wants "$workers workers" 0 "$(cat "$work/wanted")\n" "" "$command"
done
report
