#!/bin/sh
# Runs each prefix of a script. Each is accepted or refused, and a refused one writes nothing.
# `sh checks/prefixes.sh PROGRAM` uses that program; without an argument the one that ./try builds.
. "$(dirname "$0")/common"

cat > "$work/script.sql" <<'END'
CREATE TABLE t (id int, k int);
INSERT INTO t VALUES (1, 5), (2, NULL), (3, 4), (4, 5);
SELECT id FROM t ORDER BY k DESC;
SELECT id FROM t ORDER BY k LIMIT 3;
DELETE FROM t WHERE k = 5;
SELECT x.id, y.k FROM t x LEFT JOIN t y ON x.id < y.id;
END

length=$(wc -c < "$work/script.sql")
while [ "$tried" -lt "$length" ]; do
    status=0
    head -c "$tried" "$work/script.sql" | "$program" > "$work/answer" 2> "$work/note" || status=$?
    lines=$(wc -l < "$work/note")
    case "$status $lines" in
        "0 0") ;;
        "7 1") [ ! -s "$work/answer" ] || fails "$tried bytes are refused, and have an answer" ;;
        *) fails "$tried bytes end with status $status and $lines lines of notes" ;;
    esac
    tried=$((tried + 1))
done
wanted='id\n2\n1\n4\n3\n(4 rows)\nid\n3\n1\n4\n(3 rows)\nid,k\n2,4\n3,\\N\n(2 rows)\n'
wants "the whole script" 0 "$wanted" "" "\"\$program\" < '$work/script.sql'"
report
