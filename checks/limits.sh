#!/bin/sh
# Tests the limit on instants in a literal: 100,000 rising instants are accepted, in a script and in
# a table file, and 100,001 are refused at their place. `checks/rows/limits.rows` has the other
# limits.
# `sh checks/limits.sh PROGRAM` uses that program; without an argument the one that ./try builds.
. "$(dirname "$0")/common"

# Prints a tint that is 1 at each second from 1 January on, with COUNT instants: literal COUNT.
literal() {
    awk -v count="$1" 'BEGIN {
        printf "["
        for (second = 0; second < count; second++) {
            hour = second / 3600
            printf "%s1@2001-01-%02d ", second ? "," : "", hour / 24 + 1
            printf "%02d:%02d:%02d", hour % 24, second / 60 % 60, second % 60
        }
        printf "]"
    }'
}

# Writes a script with a literal of COUNT instants, and one that copies a table file with it:
# scripts COUNT.
scripts() {
    literal "$1" > "$work/literal"
    (
        cd "$work/here"
        { printf "SELECT tint '"; cat "$work/literal"; printf "' AS v;"; } > literal.sql
        { printf 'v\n"'; cat "$work/literal"; printf '"\n'; } > t.csv
        printf '%s' "CREATE TABLE t (v tint); COPY t FROM 't.csv' WITH (FORMAT csv, HEADER);" \
            " SELECT v FROM t;" > field.sql
    )
}

shown='v\n"[1@2001-01-01 00:00:00+00, 1@2001-01-02 03:46:39+00]"\n(1 rows)\n'
limit="refusal 13 (Limit)\n"
scripts 100000
wants "a literal of 100,000" 0 "$shown" "" '"$program" < literal.sql'
wants "a field of 100,000" 0 "$shown" "" '"$program" < field.sql'
scripts 100001
wants "a literal of 100,001" 7 "" "statement 1, byte 12: $limit" '"$program" < literal.sql'
wants "a field of 100,001" 6 "" "t.csv: record 2, field 1: $limit" '"$program" < field.sql'
report
