#!/bin/sh
# Joins 200,000 points and one more with themselves by an index, in at most 30 seconds. A program
# that tried each box for each point would make 40,000,000,000 tests, for which that is too short.
# `sh checks/large.sh PROGRAM` uses that program; without an argument the one that ./try builds.
. "$(dirname "$0")/common"

# The point of row k is at (k 0), all at one instant, and one is far from them all.
awk 'BEGIN {
    print "id,trip"
    for (k = 1; k <= 200000; k++) print k ",POINT(" k " 0)@2001-01-01"
    print "0,POINT(4611686018427387903 0)@2001-01-01"
}' > "$work/here/p.csv"
echo "CREATE TABLE p (id int, trip tgeompoint);
COPY p FROM 'p.csv' WITH (FORMAT csv, HEADER);
CREATE INDEX pi ON p USING GIST (trip);
SELECT a.id AS a, b.id AS b FROM p a, p b WHERE a.trip && b.trip LIMIT 2;" > "$work/here/join.sql"
wants "the join" 0 "a,b\n1,1\n2,2\n(2 rows)\n" "" 'timeout 30 "$program" < join.sql'
report
