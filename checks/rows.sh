#!/bin/sh
# Runs each row of checks/rows/*.rows in a fresh folder. A row has a script and its output, note and
# status, which are compared to the byte. Rows are separated by an empty line. A line of a row
# begins with one of these marks and a blank:
#
#   <  a line of the script. Lines are joined by line feeds, with none at the end. A row without
#      such a line has the script of the row before.
#   >  a line of the answer, with its line feed. A row without one writes nothing.
#   !  the status, a blank and the note, which has a line feed. A row without one ends with status 0
#      and no note.
#   words  arguments of the program, separated by blanks; word  a single argument
#   file  a file name, a blank and the contents of that file
#   script, answer  the whole script or answer, without a final line feed
#   ?  a whole row: an expression, ` → ` and the field that SELECT of it prints
#   #  a comment
#
# `file`, `script` and `answer` may contain `\n`, `\r`, `\\`, `\xHH` for a byte, and `\{N TEXT}` for
# N copies of a text. A row without a number of workers runs again with `--workers 3`.
# `sh checks/rows.sh PROGRAM` uses that program; without an argument the one that ./try builds.
. "$(dirname "$0")/common"

for file in checks/rows/*.rows; do
    for path in $(rows_of "$file"); do
        run_row "$path"
        grep -q -e --workers "$path.words" || run_row "$path" --workers 3
    done
done
report
