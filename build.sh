#!/bin/sh
# Proves and builds programs: ./build.sh [FOLDER [PROGRAM..]]
#
# The programs are mobsql, mobnear, mobthin and mobtile, or those that you name. They are copied to
# the folder, or to bin/ here. With the folder on the PATH, `mobsql < script.sql` works everywhere.
#
# All crates below the programs are proved first, in a copy of the repository, as many side by side
# as there are processors. Each crate is printed with an estimate of the time that is left. The copy
# is kept, so the next build proves only what has changed.
set -eu
folder=${1:-$(dirname "$0")/bin}
[ $# = 0 ] || shift
case $folder in
    -*) echo "usage: ./build.sh [FOLDER [PROGRAM..]]" >&2; exit 2 ;;
esac
top=$(cd "$(dirname "$0")" && pwd)
kept=${XDG_CACHE_HOME:-$HOME/.cache}
copy=$kept/mobsql-build
aside=$kept/mobsql-build-aside

# The programs: the crates with a main, except those of benchmarks.
all=$(cd "$top/crates" && ls -d */src/main.rt | cut -d / -f 1 | grep -v bench)
programs=${*:-$all}
for program in $programs; do
    if ! echo "$all" | grep -qx -e "$program"; then
        echo "build: there is no program $program. The programs are" $all >&2
        exit 2
    fi
done
mkdir -p "$folder" "$copy/crates" "$aside"
folder=$(cd "$folder" && pwd)
cd "$top"
cp HANDLES "$copy/HANDLES"

# The names of the programs and of the crates below them.
crates=$(echo $programs | awk '
    NR == FNR { last = split($0, queue, " "); next }
    { sub(/#.*/, "") }
    NF { name = $1; sub(/:$/, "", name); $1 = ""; below[name] = $0 }
    END {
        for (i = 1; i <= last; i++) met[queue[i]] = 1
        for (i = 1; i <= last; i++) {
            print queue[i]
            count = split(below[queue[i]], names, " ")
            for (j = 1; j <= count; j++)
                if (names[j] in below && !(names[j] in met)) {
                    met[names[j]] = 1
                    queue[++last] = names[j]
                }
        }
    }' - crates.txt)

# `rt all` refuses a crate that crates.txt does not list. Those of another build are put aside, with
# what was proved of them.
for place in "$copy"/crates/*; do
    crate=$(basename "$place")
    if [ -d "$place" ] && ! echo "$crates" | grep -qx -e "$crate"; then
        rm -rf "$aside/$crate"
        mv "$place" "$aside/$crate"
    fi
done

: > "$copy/crates.txt"
: > "$copy/sizes"
for crate in $crates; do
    [ -d "$copy/crates/$crate" ] || [ ! -d "$aside/$crate" ] || mv "$aside/$crate" "$copy/crates/"
    grep "^$crate:" crates.txt >> "$copy/crates.txt"
    mkdir -p "$copy/crates/$crate"
    for part in src specs proofs stdin stdout args; do
        rm -rf "$copy/crates/$crate/$part"
        [ ! -e "crates/$crate/$part" ] || cp -R "crates/$crate/$part" "$copy/crates/$crate/$part"
    done
    lines=$(cd "$copy/crates/$crate" &&
        find src specs proofs -name '*.rt' -o -name '*.antt' 2> /dev/null | xargs cat | wc -l)
    echo "$crate $lines" >> "$copy/sizes"
done

# Prints each crate that is done. The estimate is by the lines of code and proofs that are left.
show() {
    awk -v begun="$(date +%s)" '
        FNR == NR { size[$1] = $2; whole += $2; crates++; next }
        /^== summary/ { exit }
        /^== / {
            done += size[$2]
            "date +%s" | getline now
            close("date +%s")
            left = (now - begun) * (whole - done) / done / 60
            form = "build: crate %d of %d: %s, about %d minutes left\n"
            printf form, ++count, crates, $2, left + 0.5
            fflush()
        }' sizes -
}

cd "$copy"
echo "build: proving $(wc -l < crates.txt) crates"
: > log
{ rt all check --jobs "$(nproc)" 2>&1 || echo "build: failed"; } | tee log | show
if grep -q '^build: failed' log; then
    tail -n 20 log
    exit 1
fi
for program in $programs; do
    echo "build: compiling $program"
    (
        cd "crates/$program"
        [ -e stdin ] || : > stdin
        [ -e args ] || : > args
        set --
        while IFS= read -r argument; do set -- "$@" "$argument"; done < args
        rt run -- "$@" < stdin > /dev/null
        cp "out/$program" "$folder/$program"
    )
    echo "built $folder/$program"
done
