#!/bin/sh
# Runs each script of examples/ in its folder, with one worker and with three, and with --wide if it
# ends with status 0.
#
# - NAME.sql must print NAME.answer, put NAME.note on standard error and exit with the status in
#   NAME.status. A missing file means no answer, no note or status 0.
# - NAME.svg must be what tools/picture draws of NAME.answer, with the title that NAME.svg has.
#   A picture without an answer is drawn by a document.
# - The tables that come from logs must be what tools/log_to_table makes of them, and corners.csv
#   what tools/table_to_log makes of corners.answer.
#
# `sh checks/examples.sh PROGRAM` uses that program; without an argument the one that ./try builds.
. "$(dirname "$0")/common"

# The content of a file, or nothing if there is none.
text_of() {
    cat "$1" 2> /dev/null || true
}

# Compares standard input with a file: must_be FILE.
must_be() {
    tried=$((tried + 1))
    cmp - "$1" || fails "$1 is made differently"
}

for script in examples/*/*.sql; do
    name=${script%.sql}
    text_of "$name.answer" > "$work/wanted.answer"
    text_of "$name.note" > "$work/wanted.note"
    wanted_status=$(text_of "$name.status")
    for words in "" "--workers 3" --wide; do
        [ "$words" != --wide ] || [ -z "$wanted_status" ] || continue
        tried=$((tried + 1))
        status=0
        (cd "$(dirname "$script")" && "$program" $words < "$(basename "$script")") \
            > "$work/answer" 2> "$work/note" || status=$?
        compare "$name $words" "${wanted_status:-0}" "$work/wanted.answer" "$work/wanted.note"
    done
done
for picture in examples/*/*.svg; do
    [ -e "${picture%.svg}.answer" ] || continue
    kind=bars
    [ "$(basename "$picture")" != map.svg ] || kind=map
    title=$(sed -n 's:<title>\(.*\)</title>:\1:p' "$picture")
    tools/picture "$kind" "$title" < "${picture%.svg}.answer" > "$work/made"
    must_be "$picture" < "$work/made"
done
tools/log_to_table track 3600 < examples/harbour/log.csv > "$work/made"
must_be examples/harbour/tracks.csv < "$work/made"
tools/log_to_table celsius 86400 < examples/sensors/readings.csv > "$work/made"
must_be examples/sensors/heat.csv < "$work/made"
tools/table_to_log x y < examples/harbour/corners.answer > "$work/made"
must_be examples/harbour/corners.csv < "$work/made"
report
