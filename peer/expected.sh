#!/bin/sh
# make expected: writes the stored lines of the tests by the peer, and shows what moved. It needs no archive and no proof. rt ci
# holds crates/cases/stdout to what the proved program prints, and tests/c.sh and tests/player.sh the others to the library; so a
# difference between library and peer stays one. Nothing is written if the peer does not come to its end on all cases, or touches
# what it has no right to touch. The last line is 'nothing moved', or how many lines did.
set -u
cd "$(dirname "$0")/.." || exit 1
. peer/files.sh

fail() {
    printf 'peer/expected.sh: FAILED: %s\n' "$*"
    exit 1
}

room=$(mktemp -d) || fail 'there is no room for temporary files'
trap 'rm -rf "$room"' EXIT
trap 'exit 1' HUP INT TERM

# What the peer makes of the cases.
lines_of() { # NAME CASES WORDS..: the program is made of the words
    name=$1 cases=$2
    shift 2
    sh tools/cc "$room/$name" -Iinclude "$@" >"$room/log" 2>&1 || { cat "$room/log"; fail "$name is not compiled and linked"; }
    sh tools/run "$room/$name" <"$cases" >"$room/$name.lines" || fail "the peer ends with another status than 0 on $cases"
    [ "$(grep -c '' "$room/$name.lines")" = "$(grep -c '' "$cases")" ] || fail "the peer makes no line of each case in $cases"
    ! grep -En '^(touched|apart|outside|another|differs)' "$room/$name.lines" || fail "the peer does what it may not do, in $cases"
}

# The first lines that moved, each with its case, before and now; the last line of it is how many did.
moves() { # CASES EXPECTED LINES
    diff "$2" "$3" | awk -v cases="$1" -v most=5 '
        function short(line) { return length(line) > 120 ? substr(line, 1, 120) ".." : line }
        function show(i) {
            if (i <= come) printf "  line %d: %s\n", at + i - 1, short(given[at + i - 1])
            else printf "  behind line %d\n", at + (come ? come - 1 : 0)
            if (i <= gone) printf "    before: %s\n", short(before[i])
            if (i <= come) printf "    now: %s\n", short(now[i])
        }
        function tell(   i) {
            for (i = 1; i <= gone || i <= come; i++) if (++moved <= most) show(i)
            gone = come = 0
        }
        BEGIN { while ((getline line <cases) > 0) given[++count] = line }
        /^[0-9]/ { tell(); split($0, side, /[acd]/); at = side[2] + 0 }
        /^</ { before[++gone] = substr($0, 3) }
        /^>/ { now[++come] = substr($0, 3) }
        END { tell(); if (moved > most) printf "  and %d more\n", moved - most; print moved + 0 }'
}

moved=0
put() { # NAME CASES EXPECTED
    [ -e "$3" ] || : >"$3" || fail "$3 cannot be written"
    if cmp -s "$3" "$room/$1.lines"; then
        printf '%s: nothing moved\n' "$3"
        return
    fi
    moves "$2" "$3" "$room/$1.lines" >"$room/moves"
    count=$(tail -n 1 "$room/moves")
    printf '%s: moved lines: %s\n' "$3" "$count"
    sed '$d' "$room/moves"
    cat "$room/$1.lines" >"$3" || fail "$3 cannot be written"
    moved=$((moved + count))
}

# shellcheck disable=SC2086
{
    lines_of lines crates/cases/stdin $peer_core $peer_lines
    lines_of writing tests/answers.in -Dhub_length=peer_length -Dhub_write=peer_write tests/writing.c $peer_core
    lines_of asking tests/asking.in -Dhub_ask=peer_ask -Dhub_read=peer_read -Dhub_element=peer_element tests/asking.c $peer_core
    lines_of putting tests/putting.in -Dhub_put=peer_put -Dhub_ask_put=peer_ask_put -Dhub_read_put=peer_read_put tests/putting.c \
        $peer_core
}
put lines crates/cases/stdin crates/cases/stdout
put writing tests/answers.in tests/answers.out
put asking tests/asking.in tests/asking.out
put putting tests/putting.in tests/putting.out
if [ "$moved" = 0 ]; then
    printf 'nothing moved\n'
else
    printf 'moved lines: %s\n' "$moved"
fi
