#!/bin/sh
# peer/sanitize.sh [CASES [TALKS]]: the peer, its drivers and the program in player/ built natively under the address and
# undefined-behaviour sanitizers, by each compiler of the machine that has them, and run. On x86-64 the library is linked in;
# elsewhere it cannot be, and the peer is held to the stored results and to itself. A case that tells a difference is saved in
# target/peer. All of it is one test, however many compilers there are: the last line is '1 passed, 0 failed'.
set -u
cd "$(dirname "$0")/.." || exit 1
. peer/files.sh
cases=${1:-20000} talks=${2:-1000} keeps=5000 saved=target/peer/sanitize.case
# The peer takes nothing from the heap, and what the drivers take ends with them. The program in player/ gives back what it takes,
# which is looked at where it is run.
export ASAN_OPTIONS=detect_leaks=0

fail() {
    printf 'peer/sanitize.sh: FAILED: %s\n' "$*"
    exit 1
}

room=$(mktemp -d) || fail 'there is no room for temporary files'
trap 'rm -rf "$room"' EXIT
trap 'exit 1' HUP INT TERM

mkdir -p target/peer || fail 'there is no room for a case'
rm -f "$saved"

# ---- with the library or alone
with='-DPEER_ALONE' archive='' said='the peer alone, and the player with it,'
peers='-Dhub_length=peer_length -Dhub_write=peer_write -Dhub_ask=peer_ask -Dhub_read=peer_read -Dhub_element=peer_element
    -Dhub_put=peer_put -Dhub_ask_put=peer_ask_put -Dhub_read_put=peer_read_put -Dhub_keep=peer_keep'
calls=$peers
if [ "$(uname -m)" = x86_64 ]; then
    with='' calls='' archive=target/staticlib/libhub.a said='library, peer and player'
    [ -s "$archive" ] || fail "there is no $archive: make archive writes it"
fi
flags='-std=c99 -O1 -g -Wall -Wextra -Werror -pedantic -Iinclude -fsanitize=address,undefined -fno-sanitize-recover=all'

# A program of the words; the peer's own files are compiled once for all programs.
build() { # NAME WORDS..
    name=$1
    shift
    for word; do
        shift
        case $word in
        peer/*.c)
            object=$room/$(basename "$word" .c).o
            # shellcheck disable=SC2086
            [ -s "$object" ] || "$compiler" $flags $with -c "$word" -o "$object" || fail "$word is not compiled by $compiler"
            word=$object
            ;;
        esac
        set -- "$@" "$word"
    done
    # shellcheck disable=SC2086
    "$compiler" $flags -o "$room/$name" "$@" >"$room/log" 2>&1 || { cat "$room/log"; fail "$name is not compiled by $compiler"; }
}

run() { # NAME WORDS..: its last line is to be '0 differences'
    name=$1
    shift
    "$room/$name" "$@" >"$room/log" 2>&1 || {
        tail -n 40 "$room/log"
        [ ! -s "$saved" ] || printf 'peer/sanitize.sh: make replay CASE=%s\n' "$saved"
        fail "$name, built by $compiler, does not end well"
    }
    [ "$(tail -n 1 "$room/log")" = '0 differences' ] || { tail -n 40 "$room/log"; fail "$name does not come to its end"; }
}

# The lines that stored cases give, by the peer in the library's place.
stored() { # PROGRAM CASES EXPECTED
    "$room/$1" <"$2" >"$room/got" 2>"$room/log" || { cat "$room/log"; fail "the peer, built by $compiler, stops on $2"; }
    cmp "$room/got" "$3" || fail "of $2 the peer makes other lines than $3 has"
}

# A talk of the player on its sample, damaged requests, a dump of each kind, cases, and puts: all end well, and where leaks can
# be looked for there is none. Faults end well if they end with their status.
ends_well() { # WORDS..
    ends_with 0 "$@"
}
ends_with() { # STATUS WORDS..
    awaited=$1
    shift
    ASAN_OPTIONS=detect_leaks=$leaks "$room/talk" "$@" >"$room/log" 2>&1
    got=$?
    [ "$got" = "$awaited" ] ||
        { tail -n 40 "$room/log"; fail "player $*, built by $compiler, ends with the status $got, not $awaited"; }
}
# What a book is that has all of a store: its elements as they came, which is in row order. The peer tells where each row's stands.
in_row_order() { # STORE
    printf '\254\002\000'
    printf 'store %s\n' "$(od -An -v -tx1 "$1" | tr -d ' \n')" | "$room/lines" | tr ' ;' '\n\n' |
        sed -n 's/^\([0-9]*\),\([0-9]*\),.*/\1 \2/p' |
        while read -r place length; do
            dd if="$1" bs=1 skip="$place" count="$length" 2>/dev/null
        done
    printf '\125'
}
talks_well() {
    sample=player/sample
    rm -f "$room/book" "$room/book.knowledge"
    ends_well --limit 400 --answer-bytes 200 --ask-bytes 60 $sample/book.store "$room/book"
    ends_well $sample/book.store "$room/book"
    ends_well --check "$room/book" $sample/book.store
    ends_well --check "$room/book" $sample/manifests.store
    ends_with 3 --check "$room/absent" $sample/book.store
    ends_well --hostile 7 --times 2000 --limit 400 $sample/book.store
    for file in $sample/book.store $sample/first.request $sample/first.answer "$room/book.knowledge"; do
        ends_well --dump "$file"
    done
    for file in $sample/sample.cases tests/answers.in tests/asking.in; do
        ends_well --replay "$file"
    done
    ends_with 2 --limit
    ends_with 3 --replay "$room/absent"
    ends_with 5 --replay $sample/book.store
    ends_with 5 $sample/first.request "$room/other"
    in_row_order $sample/book.store | cmp - "$room/book" ||
        fail "the book of the program in player/, built by $compiler, is not the store in row order"
    puts_well
}
# Two stores into one: as a package into an empty one, and as a folder into that.
puts_well() {
    rm -rf "$room/put" && mkdir -p "$room/put/folder" || fail 'there is no room for a store'
    printf '\254\002\000\125' >"$room/put/store"
    cp $sample/book.store $sample/manifests.store "$room/put/folder"
    ends_well --put $sample/book.store --answer-bytes 0 --ask-bytes 0 --limit 400 "$room/put/store" "$room/put/book"
    in_row_order "$room/put/store" | cmp - "$room/put/book" ||
        fail "the book behind a put, built by $compiler, is not the store in row order"
    ends_well --put "$room/put/folder" --quiet "$room/put/store" "$room/put/book"
    ends_well --put "$room/put/folder" "$room/put/store" "$room/put/book"
    ends_with 5 --put $sample/first.request "$room/put/store" "$room/put/book"
}

# The tables that are lent, by the peer alone: what it has no right to touch is looked at, and nothing is compared. Generated cases,
# and stored ones.
lends_tables() {
    mkdir -p "$room/tables.lent" || fail 'there is no room for the lines'
    "$room/tables" --cases "$cases" --into "$room/tables.lent" --save "$saved" >"$room/log" 2>&1 &&
        "$room/tables" --replay tests/answers.in --into "$room/tables.lent" >"$room/log" 2>&1 ||
        { tail -n 40 "$room/log"; fail "tables, built by $compiler, does not end well"; }
}

# Cases from the field, by both.
replayed() {
    for file in player/sample/sample.cases tests/asking.in; do
        "$room/compare" --replay "$file" >"$room/log" 2>&1 || { tail -n 40 "$room/log"; fail "$file is not replayed well"; }
    done
}

# ---- each compiler
done_with='' compilers='gcc clang'
command -v gcc >/dev/null 2>&1 || command -v clang >/dev/null 2>&1 || compilers=cc
for compiler in $compilers; do
    command -v "$compiler" >/dev/null 2>&1 || continue
    printf 'int main(void) { return 0; }\n' >"$room/none.c"
    # shellcheck disable=SC2086
    "$compiler" $flags -o "$room/none" "$room/none.c" >/dev/null 2>&1 && "$room/none" || continue
    leaks=1 # they cannot be looked for under a debugger, nor where the kernel forbids to look at a process
    ASAN_OPTIONS=detect_leaks=1 "$room/none" >/dev/null 2>&1 ||
        { leaks=0; printf 'peer/sanitize.sh: leaks cannot be looked for here by %s\n' "$compiler"; }
    rm -f "$room"/*.o
    # shellcheck disable=SC2086
    {
        build writing $peers tests/writing.c $peer_core
        build asking $peers tests/asking.c $peer_core
        build putting $peers tests/putting.c $peer_core
        build lines $peer_core $peer_lines
        build compare $calls $peer_core $peer_compare $archive
        build series $peer_core $peer_series $archive
        build kept_talks $peer_core $peer_kept_talks $archive
        build tables $peer_core $peer_tables
        build speed $peer_core $peer_speed $archive
        if [ -n "$archive" ]; then
            build talk player/*.c $archive
        else
            build talk $calls player/*.c $peer_core
        fi
    }
    talks_well
    stored lines crates/cases/stdin crates/cases/stdout
    stored writing tests/answers.in tests/answers.out
    stored asking tests/asking.in tests/asking.out
    stored putting tests/putting.in tests/putting.out
    run compare --cases "$cases" --save "$saved"
    run compare --keeps --cases "$keeps" --save "$saved"
    run compare --large --save "$saved"
    run series --talks "$talks" --save "$saved"
    run kept_talks --talks "$talks" --save "$saved"
    lends_tables
    replayed
    done_with="$done_with $compiler"
done
[ -n "$done_with" ] || fail 'no compiler here (gcc, clang or cc) has the address and undefined-behaviour sanitizers'
printf 'peer/sanitize.sh: %s under the sanitizers, %s cases and %s talks, by%s\n' "$said" "$cases" "$talks" "$done_with"
printf '1 passed, 0 failed\n'
