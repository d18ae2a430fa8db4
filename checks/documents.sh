#!/bin/sh
# Runs what the documents show: README.md, CHANGELOG.md and docs/*.md.
#
# - A block `try` has lines of the form `EXPRESSION → FIELD`: what SELECT of the expression prints,
#   or the note of its refusal. A line that begins with blanks continues the line before it.
# - A block `sql` is a script. It runs in examples/shop, or in the folder of examples/ that is named
#   after the word `sql`, with the arguments after that. The block `answer` that follows is its
#   output and its note. Scripts run with one worker and with three.
# - A block `sh` with a folder of examples/ after the word is a shell script. It runs in a copy of
#   that folder with the programs and tools/ on the PATH. The block `answer` that follows is its
#   output.
#
# `sh checks/documents.sh PROGRAM` uses that program, and the other programs beside it or in their
# crates; without an argument the one that ./try builds, and builds the others.
. "$(dirname "$0")/common"

cat README.md CHANGELOG.md docs/*.md | awk -v folder="$work" -f checks/documents.awk

# Compares what a script wrote with what its document shows: shown SCRIPT WORDS.
shown() {
    tried=$((tried + 1))
    diff "$work/written" "${1%.*}.wanted" || {
        cat "$1"
        fails "a document shows something else for this script $2"
    }
}

for script in "$work"/*.sql; do
    words=$(cat "${script%.sql}.words" 2> /dev/null || true)
    for workers in 1 3; do
        (cd "examples/$(cat "${script%.sql}.folder")" &&
            "$program" --workers $workers $words < "$script") > "$work/written" 2>&1 || true
        shown "$script" "with --workers $workers"
    done
done
mkdir "$work/path"
ln -s "$program" "$work/path/mobsql"
for name in mobnear mobthin mobtile; do
    ln -s "$(program_named $name)" "$work/path/$name"
done
for commands in "$work"/*.sh; do
    rm -rf "$work/examples"
    cp -R examples "$work/examples"
    (cd "$work/examples/$(cat "${commands%.sh}.folder")" &&
        PATH=$work/path:$top/tools:$PATH sh "$commands") > "$work/written" 2>&1 || true
    shown "$commands" ""
done
report
