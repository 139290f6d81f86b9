#!/bin/sh
# peer/tables.sh PROGRAM CASES SEED SAVED, or PROGRAM --replay FILE: compares the tables of the answering calls. PROGRAM is
# peer/tables.c, built: it writes cases with lent tables, generated ones or those of a file of stored cases, and what the peer makes
# of each. The program `cases` makes the same calls with the library's sources, and what it prints is compared line by line. The
# first generated case that differs is saved as SAVED; if none does the last line is '0 differences'. Of stored cases each that
# differs is told, and the last line counts them; nothing is said if none of them lends tables. The status is 0, with a difference
# 1, 2 if it cannot be run, and else one of those that player --help tells, as for a file that cannot be read.
set -u

fail() {
    printf 'peer/tables.sh: FAILED: %s\n' "$*"
    exit 2
}

# Names are taken from where the caller is.
from=$PWD
cd "$(dirname "$0")/.." || exit 2
root=$PWD library=target/bin/cases
cd "$from" || exit 2
program=${1:-} count='' saved=''
case "$# ${2:-}" in
'3 --replay') set -- --replay "$3" ;;
'4 '*)
    count=$2 saved=$4
    set -- --cases "$2" --seed "$3" --save "$4"
    ;;
*) fail 'needed: peer/tables.sh PROGRAM CASES SEED SAVED, or peer/tables.sh PROGRAM --replay FILE' ;;
esac
room=$(mktemp -d) || fail 'there is no room for temporary files'
trap 'rm -rf "$room"' EXIT
trap 'exit 1' HUP INT TERM

# ---- what the peer makes of the cases
sh "$root/tools/run" "$program" "$@" --into "$room" >"$room/log" 2>&1
status=$?
sed '$d' "$room/log"
[ "$status" = 0 ] || { tail -n 1 "$room/log"; exit "$status"; }
# shellcheck disable=SC2046
set -- $(sed -n '$s/^\([0-9]*\) files, \([0-9]*\) cases, \([0-9]*\) too long$/\1 \2 \3/p' "$room/log")
[ $# -eq 3 ] || fail 'the driver does not come to its end'
files=$1 cases=$2 long=$3
if [ -n "$saved" ]; then
    [ "$cases" -gt 0 ] && [ "$cases" = "$count" ] || fail "the driver writes $cases cases, not $count"
fi
[ "$files" = 0 ] || [ -s "$root/$library" ] ||
    fail "the tables are not compared: there is no $library (make cases makes it, and so does make test)"

# ---- the same by the library
# The lines that differ, or are missing; one too many is found when they are counted.
differing() { # FILE
    cmp -s "$room/$1.lines" "$room/$1.got" || awk -v got="$room/$1.got" '
        { if ((getline other <got) <= 0 || other != $0) print FNR }' "$room/$1.lines"
}

tell() { # FILE LINE
    printf 'library and peer differ in %s\n' "$(sed -n "$2p" "$room/$1.names")"
    printf '  library: %s\n' "$(sed -n "$2p" "$room/$1.got" | cut -c 1-2000)"
    printf '  peer: %s\n' "$(sed -n "$2p" "$room/$1.lines" | cut -c 1-2000)"
    differences=$((differences + 1))
    [ -n "$saved" ] || return 0
    sed -n "$2p" "$room/$1.cases" >"$saved"
    printf 'the case is saved as %s\n' "$saved"
    exit 1
}

lines=0 file=0 differences=0
while [ "$file" -lt "$files" ]; do
    file=$((file + 1))
    sh "$root/tools/run" "$root/$library" <"$room/$file.cases" >"$room/$file.got" ||
        fail "$library ends with another status than 0"
    for line in $(differing "$file"); do
        tell "$file" "$line"
    done
    lines=$((lines + $(wc -l <"$room/$file.got")))
done
[ "$differences" -gt 0 ] || [ "$lines" -eq "$cases" ] || fail "$lines lines are compared, not $cases"
if [ -n "$saved" ]; then
    printf '0 differences\n'
elif [ "$((cases + long))" -gt 0 ]; then
    printf 'tables of %s cases by library and peer: %s differences' "$cases" "$differences"
    [ "$long" = 0 ] || printf ', and %s not compared' "$long"
    printf '\n'
fi
[ "$differences" = 0 ] || exit 1
