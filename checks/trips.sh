#!/bin/sh
# Runs the programs over a table of trips. Each row of checks/trips/NAME.rows is a run of the
# program NAME: a table, the arguments, and what the program must write, put into its notes and end
# with, to the byte. Rows have the form that checks/rows.sh describes, with the lines of the table
# in place of the script's. Then come streams that fail or never end.
#
# `sh checks/trips.sh PROGRAM` takes the programs beside PROGRAM, or those in the folders `out` of
# their crates where there are none; without an argument it builds them.
without_mobsql=1
. "$(dirname "$0")/common"

# Streams that fail or never end, and the arguments that are taken: fail_streams ARGUMENTS USAGE.
fail_streams() {
    rm -rf "$work/here"
    mkdir "$work/here" "$work/here/folder"
    printf 'id,trip\n1,"[POINT(0 0)@2001-01-01, POINT(1 0)@2001-01-02]"\n' > "$work/here/trips.csv"
    printf 'id\n' > "$work/here/refused.csv"
    run="\"\$program\" $1"
    endless="table: record 0, field 0: refusal 13 (Limit)\n"
    wants "a folder for the table" 3 "" "read fault: table\n" "$run < folder"
    wants "no table" 3 "" "read fault: table\n" "$run <&-"
    wants "a table without an end" 6 "" "$endless" "$run < /dev/zero"
    wants "a full output" 4 "" "write fault\n" "$run < trips.csv > /dev/full"
    wants "a closed output" 4 "" "write fault\n" "$run < trips.csv >&-"
    wants "full notes" 6 "" "" "$run < refused.csv 2> /dev/full"
    wants "closed notes" 6 "" "" "$run < refused.csv 2>&-"
    wants "arguments before the table" 2 "" "$2\n" '"$program" < folder'
}

for file in checks/trips/*.rows; do
    program=$(program_named "$(basename "$file" .rows)")
    for path in $(rows_of "$file"); do
        run_row "$path"
    done
    arguments=$(sed -n 's/^# arguments: //p' "$file")
    fail_streams "$arguments" "$(sed -n 's/^# \(usage: .*\)/\1/p' "$file")"
done
report
