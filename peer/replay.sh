#!/bin/sh
# make replay CASE=FILE: the calls of a file of stored cases (player --help tells the forms of a line), made again by the library
# and by the peer. Of each it prints the library's account, and whether both agree in number, report and output. Cases that lend
# tables are then compared with their tables too, through the program `cases` (peer/tables.sh); one that is too long for it is told.
# The status is 0 if there is no difference, 1 if there is one or it cannot be run, 2 without the archive or a file and, for tables,
# without the program, and else one of those that player --help tells, as for a file that cannot be read.
set -u

fail() {
    printf 'peer/replay.sh: %s\n' "$*" >&2
    exit 2
}

[ $# -eq 1 ] && [ -n "$1" ] || fail 'needed: make replay CASE=FILE'
from=$PWD
cd "$(dirname "$0")/.." || exit 2
. peer/files.sh

archive=target/staticlib/libhub.a
[ -s "$archive" ] || fail "there is no $archive: make archive writes it"
room=$(mktemp -d) || fail 'there is no room for temporary files'
trap 'rm -rf "$room"' EXIT
trap 'exit 1' HUP INT TERM
# shellcheck disable=SC2086
sh tools/cc "$room/compare" -Iinclude $peer_core $peer_compare "$archive" || fail 'the program is not compiled'
# The name is taken, and told, as it was given.
root=$PWD
cd "$from" || exit 2
sh "$root/tools/run" "$room/compare" --replay "$1" --lent "$room/lent"
status=$?

# In a shell of its own: a difference that was told keeps its status, whatever becomes of the tables.
with_tables() ( # FILE
    [ -f "$1" ] || fail 'the tables are not compared: only a file can be read a second time'
    # shellcheck disable=SC2086
    (cd "$root" && sh tools/cc "$room/tables" -Iinclude $peer_core $peer_tables) || fail 'the program for tables is not compiled'
    sh "$root/peer/tables.sh" "$room/tables" --replay "$1"
)

# What cannot be read, or broke a promise, ended the run before its last case; a difference does not keep the tables from theirs.
if [ "$status" -le 1 ] && [ -s "$room/lent" ]; then
    with_tables "$1"
    tables=$?
    [ "$status" = 1 ] || status=$tables
fi
exit "$status"
