#!/bin/sh
# Tests real streams and files that fail or never end: no contract speaks of them, and no row of
# checks/rows can provide them. None of these runs may write an answer.
# `sh checks/ends.sh PROGRAM` uses that program; without an argument the one that ./try builds.
. "$(dirname "$0")/common"

cd "$work/here"
mkdir folder
ln -s /dev/zero zero.csv
echo 'SELECT 1 AS a;' > one.sql
echo 'SELECT b;' > refused.sql
for name in folder zero.csv nosuch.csv one.sql/x; do
    echo "CREATE TABLE t (k int); COPY t FROM '$name' WITH (FORMAT csv, HEADER);" \
        > "copy_$(basename "$name").sql"
done

mobsql='"$program"'
endless="statement 1, byte 4194304: refusal 13 (Limit)\n"
wants "a folder for the script" 3 "" "read fault: script\n" "$mobsql < folder"
wants "no script" 3 "" "read fault: script\n" "$mobsql <&-"
wants "a script without an end" 7 "" "$endless" "$mobsql < /dev/zero"
wants "a folder for a table file" 3 "" "read fault: folder\n" "$mobsql < copy_folder.sql"
wants "no table file" 3 "" "read fault: nosuch.csv\n" "$mobsql < copy_nosuch.csv.sql"
wants "a file for a folder" 3 "" "read fault: one.sql/x\n" "$mobsql < copy_x.sql"
endless="zero.csv: record 0, field 0: refusal 13 (Limit)\n"
wants "a table file without an end" 6 "" "$endless" "$mobsql < copy_zero.csv.sql"
wants "a full output" 4 "" "write fault\n" "$mobsql < one.sql > /dev/full"
wants "a closed output" 4 "" "write fault\n" "$mobsql < one.sql >&-"
wants "full notes" 7 "" "" "$mobsql < refused.sql 2> /dev/full"
wants "closed notes" 7 "" "" "$mobsql < refused.sql 2>&-"
report
