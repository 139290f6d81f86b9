#!/bin/sh
# Tests of the library against the peer, which is document 01, with Q-1, Q-3, Q-6, Q-10 and Q-14 of document 02, and beyond the documents
# the book itself, written in C by itself (peer/): stored cases by the peer, generated cases, books and answers that are kept in them,
# whole talks and benches that are killed in theirs by both, and the tables that the calls for C have for themselves.
# peer/spoiled.sh holds the comparison itself to what it is for, and peer/sanitize.sh runs the peer under the sanitizers.
# tests/archive.sh makes the archive, and make cases the program `cases`, through which the tables are compared; make test does
# both before. What is generated is determined by a seed, which is printed; PEER_CASES, PEER_KEEPS, PEER_TALKS, PEER_KEPT_TALKS, PEER_TABLES
# and PEER_SEED choose other numbers. The last line is 'N passed, 0 failed'.
set -u
cd "$(dirname "$0")/.." || exit 1
. peer/files.sh
passed=0 cases=${PEER_CASES:-100000} talks=${PEER_TALKS:-5000} tables=${PEER_TABLES:-10000} seed=${PEER_SEED:-1}
keeps=${PEER_KEEPS:-20000} kept_talks=${PEER_KEPT_TALKS:-5000}

fail() {
    printf 'tests/peer.sh: FAILED: %s\n' "$*"
    exit 1
}

room=$(mktemp -d) || fail 'there is no room for temporary files'
trap 'rm -rf "$room"' EXIT
trap 'exit 1' HUP INT TERM

archive=target/staticlib/libhub.a saved=target/peer/difference.case saved_tables=target/peer/tables.case
[ -s "$archive" ] || fail "there is no $archive: make archive writes it"
[ -s target/bin/cases ] || fail 'there is no target/bin/cases: make cases makes it, and so does make test'
mkdir -p target/peer || fail 'there is no room for a case'
rm -f "$saved" "$saved_tables"

compile() { # NAME WORDS..
    name=$1
    shift
    sh tools/cc "$room/$name" -Iinclude "$@" >"$room/log" 2>&1 || { cat "$room/log"; fail "$name is not compiled and linked"; }
}

# ---- stored cases: make expected writes what the peer makes of them. It is run in a tree of links in which some of the stored lines
# are others, and has to write those that are stored here, and to show what moved. The library is held to the same lines: rt ci
# compares crates/cases/stdout with what the program `cases` prints, and tests/c.sh the others with the calls for C.
mkdir -p "$room/stored/crates/cases" "$room/stored/tests" || fail 'there is no room for a tree'
cp Makefile "$room/stored/"
cp tests/*.c tests/*.h tests/*.in "$room/stored/tests/"
ln -s "$PWD/crates/cases/stdin" "$room/stored/crates/cases/stdin" || fail 'there is no room for a link'
for name in include peer tools; do
    ln -s "$PWD/$name" "$room/stored/$name" || fail 'there is no room for a link'
done
# Line 1 is missing there and the next but one are others; behind those of the bench's calls there is one too many.
awk 'NR >= 3 && NR <= 7 { $0 = "no 15 0 0 0" } NR > 1 { print }' crates/cases/stdout >"$room/stored/crates/cases/stdout"
cp tests/answers.out tests/putting.out "$room/stored/tests/"
{ cat tests/asking.out && echo touched; } >"$room/stored/tests/asking.out"
(cd "$room/stored" && unset MAKELEVEL MAKEFLAGS MFLAGS && make expected) >"$room/log" 2>&1 ||
    { cat "$room/log"; fail 'make expected fails'; }
stored=0
for name in crates/cases/stdin:crates/cases/stdout tests/answers.in:tests/answers.out tests/asking.in:tests/asking.out \
    tests/putting.in:tests/putting.out; do
    [ -s "${name%:*}" ] || fail "there is no case in ${name%:*}"
    cmp "$room/stored/${name#*:}" "${name#*:}" || fail "of ${name%:*} the peer makes other lines than ${name#*:} has"
    stored=$((stored + $(wc -l <"${name%:*}")))
done
moved_line() { # NUMBER: with what it was before
    printf '  line %s: %s\n    before: no 15 0 0 0\n    now: %s\n' "$1" \
        "$(sed -n "$1p" crates/cases/stdin)" "$(sed -n "$1p" crates/cases/stdout)"
}
{
    printf 'crates/cases/stdout: moved lines: 6\n'
    moved_line 1 | sed 2d
    for line in 3 4 5 6; do
        moved_line "$line"
    done
    printf '  and 1 more\ntests/answers.out: nothing moved\ntests/asking.out: moved lines: 1\n'
    printf '  behind line %s\n    before: touched\n' "$(wc -l <tests/asking.in | tr -d ' ')"
    printf 'tests/putting.out: nothing moved\nmoved lines: 7\n'
} >"$room/moves"
cmp "$room/moves" "$room/log" || { cat "$room/log"; fail 'make expected tells something else than what moved'; }
printf 'tests/peer.sh: %s stored cases by the peer\n' "$stored"
passed=$((passed + 1))

# ---- cases from the field: make replay has every call made by both, in whatever form it is saved
# shellcheck disable=SC2086
compile compare $peer_core $peer_compare "$archive"
replays() { # STATUS AGREEMENTS FILE: a difference would be a line that begins with the same words
    (cd "$room" && sh "$OLDPWD/tools/run" ./compare --replay "$3") >"$room/log" 2>&1
    got=$?
    [ "$got" = "$1" ] || { cut -c 1-200 "$room/log"; fail "$3 is replayed with the status $got, not $1"; }
    [ "$(grep -c '^library and peer agree: number ' "$room/log")" = "$2" ] &&
        [ "$(grep -c '^library and peer ' "$room/log")" = "$2" ] ||
        { cut -c 1-200 "$room/log"; fail "of $3 library and peer are to agree in $2 cases"; }
}
says() { # WORDS: somewhere in what the last replay said
    grep -Fq -e "$1" "$room/log" || { cut -c 1-200 "$room/log"; fail "in a replay nobody says '$1'"; }
}

# The bytes that a word spells in hex; printf takes them in octal.
spelled() { # HEX
    printf '%b' "$(printf '%s\n' "$1" | awk '
        function digit(c) { return index("0123456789abcdef", c) - 1 }
        { for (i = 1; i < length($0); i += 2) printf "\\0%03o", digit(substr($0, i, 1)) * 16 + digit(substr($0, i + 1, 1)) }')"
}

# Every form in one file, with comments, empty lines, blanks of all kinds and digits of both cases.
store=ac020055 request=$(awk '$1 == "write" && NF == 6 { print $3; exit }' crates/cases/stdin)
mkdir "$room/folder" || fail 'there is no room for a folder'
cp player/sample/manifests.store player/sample/first.request player/sample/first.answer "$room/folder/"
element=$(awk '$1 == "ask_put" { print $6; exit }' player/sample/sample.cases) null=00000000000000000000000000000000
{
    printf '# words\n\nwrite %s %s 4096\nwrite %s %s 40 1792 2048\n' "$store" "$request" "$store" "$request"
    printf 'store=manifests.store request=first.request out=4096\n  \t\r\n'
    printf ' store=%s\trequest=../folder/first.request  out=534 \r\n' "$PWD/player/sample/manifests.store"
    printf 'write AC020055 - 0\nask 1 18446744073709551615 - - 256\nread 00\n#\nreceived 0c00 0\nelement %s 0\n' "$store"
    sed -n 's/^put [^ ]*/put AC020055/p' player/sample/sample.cases
    printf 'ask_put\t18446744073709551615 1 %s 4294967295 %s 200 \r\nask_put 0 1 %s 4294967296 - 0\n' "$null" "$element" "$null"
    printf 'read_put %s\n' "$store"
    printf 'store=manifests.store put=manifests.put guid=%s new=463 out=120\n' "$null"
    printf 'store=manifests.store put=../folder/manifests.put guid=%s  new=462\tout=4096\n' "$null"
    printf 'length %s %s 41\nlength AC020055\t%s 18446744073709551615 1791 0 \r\n' "$store" "$request" "$request"
    sed -n 's/^keep [^ ]*/keep\tAC020055/p' player/sample/sample.cases
    printf ' book=manifests.store\tanswer=../folder/first.answer new=417 \r\n'
    printf 'store=manifests.store request=first.request offered=40\n'
    printf ' store=manifests.store\trequest=../folder/first.request offered=534'
} >"$room/folder/field"
# The sample's element, handed in to the manifests: a put with their storage index, as the program writes it.
printf 'ask_put 1 1 8e2e2e05d1c086489c5129d661714f67 1 %s 4096\n' "$element" >"$room/folder/ask"
replays 0 1 folder/ask
spelled "$(sed -n 's/^put: //p' "$room/log")" >"$room/folder/manifests.put"
replays 0 23 folder/field
says 'line 3: store 4 bytes, request '
says 'line 5: store 417 bytes, request 88 bytes, output 4096 bytes'
says 'hub_write: 14, input 0, place 0, length 41 (the output, the length offered for it, or the buffer for a new store is too short)'
says 'line 7: store 417 bytes, request 88 bytes, output 534 bytes'
says 'hub_element: 9, place 0, length 0 ('
says 'hub_put: 0, input 0, place 0, length 80 (no refusal)'
says 'hub_put: 15, input 0, place 0, length 0 ('
says 'line 16: id 18446744073709551615, expected storage index 4294967295 of 00'
says 'hub_ask_put: 0, input 0, place 0, length 118 ('
says 'hub_ask_put: 3, input 0, place 0, length 0 ('
says 'hub_read_put: 7, place 2 ('
says 'line 19: store 417 bytes, put 106 bytes, '
says 'hub_put: 0, input 0, place 0, length 120 ('
says 'hub_read_put: 0, id 1, knowledge at 28 of 88 bytes'
says 'hub_put: 14, input 0, place 0, length 463 ('
says 'line 21: store 4 bytes, request 88 bytes, offered 41 bytes'
says 'hub_length: 0, input 0, place 0, length 41 (no refusal)'
says 'line 22: store 4 bytes, request 88 bytes, offered 18446744073709551615 bytes'
says 'hub_length: 14, input 0, place 0, length '
says 'line 23: book 4 bytes, answer 132 bytes, new book 50 bytes'
says 'hub_keep: 0, input 0, place 0, length 50 (no refusal)'
says 'hub_keep: 14, input 0, place 0, length 50 ('
says 'line 25: book 417 bytes, answer 174 bytes, new book 417 bytes'
says 'hub_keep: 0, input 0, place 0, length 417 (no refusal)'
says 'line 27: store 417 bytes, request 88 bytes, offered 534 bytes'
says 'cases by library and peer: 23, with a difference: 0'
{ cat "$room/log" && printf 'tables of 2 cases by library and peer: 0 differences\n'; } >"$room/before"
(cd "$room" && sh "$OLDPWD/peer/replay.sh" folder/field) >"$room/log" 2>&1
cmp "$room/before" "$room/log" || fail 'peer/replay.sh in another folder does not do the same'

# The sample, by make; a make above this one would have its own last word on what is printed.
(unset MAKELEVEL MAKEFLAGS MFLAGS && make replay CASE=player/sample/sample.cases) >"$room/log" 2>&1 ||
    { cat "$room/log"; fail 'make replay fails on the sample'; }
grep '^library and peer ' "$room/log" >"$room/judged"
grep -v -e '^library and peer ' -e '^cases by ' "$room/log" | cmp - tests/player/replay.txt ||
    fail 'make replay gives another account than the program in player/'
[ "$(grep -c '^library and peer agree' "$room/judged")" = 15 ] && [ "$(wc -l <"$room/judged")" -eq 15 ] ||
    { cat "$room/judged"; fail 'of the sample library and peer are to agree in 15 cases'; }

# Stored lines of the bench's calls; and a store of 16,777,216 bytes, one element with as many as fit, by its file and in hex.
replays 0 "$(wc -l <tests/asking.in | tr -d ' ')" "$PWD/tests/asking.in"
{
    printf '\254\002\000\014\126\014\020\021\022\023\024\025\026\027\030\031\032\033\034\035\036\037\200'
    printf '\040\041\042\043\044\045\046\047\050\051\052\053\054\055\056\057\007\000\000\000\000\000\000\000\013'
    printf '\032\000\376\377\150\374\377\017'
    dd if=/dev/zero bs=16777158 count=1 2>/dev/null
    printf '\005\125'
} >"$room/folder/long.store"
[ "$(wc -c <"$room/folder/long.store")" -eq 16777216 ] || fail 'the long store has another length'
printf 'store=long.store request=first.request out=4096\nstore=long.store request=first.request offered=16777298\n' \
    >"$room/folder/long"
{
    printf 'write '
    od -An -v -tx1 "$room/folder/long.store" | tr -d ' \n'
    printf ' %s 4096\n' "$request"
} >>"$room/folder/long"
replays 0 3 folder/long
says 'line 1: store 16777216 bytes, request 88 bytes, output 4096 bytes'
says 'line 2: store 16777216 bytes, request 88 bytes, offered 16777298 bytes'
says 'line 3: store 16777216 bytes, '
[ "$(grep -c '^hub_write: 14, input 0, place 0, length 16777298 ' "$room/log")" = 2 ] &&
    [ "$(grep -c '^hub_length: 0, input 0, place 0, length 16777298 ' "$room/log")" = 1 ] ||
    { cut -c 1-200 "$room/log"; fail 'the long store is not answered as it should be'; }

# What cannot be read has the status and the words that it has with the program in player/, after the cases before it.
replays 3 0 absent
says 'player: absent: it cannot be opened: No such file'
printf 'read 00\nstore=absent request=first.request out=1\n' >"$room/folder/field"
replays 3 1 folder/field
says 'player: folder/absent: it cannot be opened: No such file'
printf 'read 00\nask 1\n' >"$room/folder/field"
replays 5 1 folder/field
says 'player: folder/field, line 2: it is no case of the form `ask ID LIMIT FILTERHEX KNOWLEDGEHEX OUTLEN`'
printf 'read 00\nwrite 00 00 0 1792 all\n' >"$room/folder/field"
replays 5 1 folder/field
says 'player: folder/field, line 2: it is no case of the form `write STOREHEX REQUESTHEX OUTLEN [STORETABLELEN KNOWTABLELEN]`'
for words in 'length 00 00 0 1792' 'length 00 00 18446744073709551616'; do
    printf 'read 00\n%s\n' "$words" >"$room/folder/field"
    replays 5 1 folder/field
    says 'player: folder/field, line 2: it is no case of the form `length STOREHEX REQUESTHEX OFFERED [STORETABLELEN KNOWTABLELEN]`'
done
printf 'read 00\nanswer 00 00 0\n' >"$room/folder/field"
replays 5 1 folder/field
says 'player: folder/field, line 2: it is no case (player --help tells the forms)'
for words in "put 00 00 $null 0" "put 00 00 ${null%??} 0 0" "put 00 00 - 0 0" "put 00 00 $null all 0"; do
    printf 'read_put 00\n%s\n' "$words" >"$room/folder/field"
    replays 5 1 folder/field
    says 'line 2: it is no case of the form `put STOREHEX REQUESTHEX HUBGUIDHEX NEWSTORELEN OUTLEN`'
done
for words in "ask_put 0 2 $null 0 - 0" "ask_put 0 1 $null 18446744073709551616 - 0" "ask_put 0 1 $null 0 - 0 0"; do
    printf 'read_put 00\n%s\n' "$words" >"$room/folder/field"
    replays 5 1 folder/field
    says 'line 2: it is no case of the form `ask_put ID NAMED GUIDHEX NUMBER ELEMENTSHEX OUTLEN`'
done
printf 'read_put 00\nstore=manifests.store put=manifests.put guid=00 new=1 out=1\n' >"$room/folder/field"
replays 5 1 folder/field
says 'line 2: it is no case (player --help tells the forms)'
for words in 'keep 00 00' 'keep 00 00 x' 'keep 0 00 0' 'keep 00 00 0 0'; do
    printf 'read_put 00\n%s\n' "$words" >"$room/folder/field"
    replays 5 1 folder/field
    says 'line 2: it is no case of the form `keep BOOKHEX ANSWERHEX NEWBOOKLEN`'
done
printf '# none\n' >"$room/folder/field"
replays 5 0 folder/field
says 'player: folder/field: there is no case in it'
passed=$((passed + 1))

# ---- generated cases and talks, by both
# shellcheck disable=SC2086
compile series $peer_core $peer_series "$archive"
# shellcheck disable=SC2086
compile kept_talks $peer_core $peer_kept_talks "$archive"

both() { # NAME WORDS..: its last line is to be '0 differences'
    name=$1
    shift
    sh tools/run "$room/$name" "$@" >"$room/log" 2>&1 || {
        cat "$room/log"
        [ ! -s "$saved" ] || printf 'tests/peer.sh: make replay CASE=%s\n' "$saved"
        fail "library and peer differ, or $name cannot be run"
    }
    [ "$(tail -n 1 "$room/log")" = '0 differences' ] || { cat "$room/log"; fail "$name does not come to its end"; }
    sed -e '$d' -e "s|^|tests/peer.sh: $name: |" "$room/log"
    passed=$((passed + 1))
}

both compare --cases "$cases" --seed "$seed" --save "$saved"
both compare --keeps --cases "$keeps" --seed "$seed" --save "$saved"
both compare --bytes --seed "$seed" --save "$saved"
both compare --large --save "$saved"
both series --talks "$talks" --seed "$seed" --save "$saved"
both kept_talks --talks "$kept_talks" --seed "$seed" --save "$saved"

# ---- the tables, through the program `cases`
# shellcheck disable=SC2086
compile tables $peer_core $peer_tables
sh peer/tables.sh "$room/tables" "$tables" "$seed" "$saved_tables" >"$room/log" 2>&1 || {
    cat "$room/log"
    [ ! -s "$saved_tables" ] || printf 'tests/peer.sh: make replay CASE=%s\n' "$saved_tables"
    fail 'library and peer differ with lent tables, or they cannot be run'
}
[ "$(tail -n 1 "$room/log")" = '0 differences' ] || { cat "$room/log"; fail 'the tables are not compared to the end'; }
sed -e '$d' -e 's|^|tests/peer.sh: tables: |' "$room/log"
passed=$((passed + 1))

# ---- stored cases that lend tables, by the script of a tree that is made of links, and has by turns all that this one has, no
# program `cases`, and a peer with one line spoiled in the tables
mkdir -p "$room/tree/target" || fail 'there is no room for a tree'
for name in player include peer tools target/bin target/staticlib; do
    ln -s "$PWD/$name" "$room/tree/$name" || fail 'there is no room for a link'
done
replays_tables() { # STATUS AGREEMENTS FILE: all agree without their tables
    (cd "$room/folder" && sh ../tree/peer/replay.sh "$3") >"$room/log" 2>&1
    got=$?
    [ "$got" = "$1" ] && [ "$(grep -c '^library and peer agree: number ' "$room/log")" = "$2" ] &&
        grep -q "^cases by library and peer: $2, with a difference: 0\$" "$room/log" ||
        { cut -c 1-200 "$room/log"; fail "$3 is replayed with the status $got, not $1, or without $2 agreements"; }
}
ends() { # WORDS: the last line
    [ "$(tail -n 1 "$room/log")" = "$1" ] || { cut -c 1-200 "$room/log"; fail "a replay does not end with '$1'"; }
}

# The answers and lengths that the program has stored, with their rows and with tables that are too short: each is taken as it
# stands, and the peer makes of it what is stored.
paste -d '|' crates/cases/stdin crates/cases/stdout | awk -F '|' -v room="$room" '
    $1 ~ /^(length|write) / && $2 != "bad" {
        print $1 >(room "/lent.in")
        print $2 >(room "/lent.out")
    }'
mkdir "$room/into" || fail 'there is no room for the lines'
sh tools/run "$room/tables" --replay "$room/lent.in" --into "$room/into" >"$room/log" 2>&1 &&
    [ "$(tail -n 1 "$room/log")" = "1 files, $(wc -l <"$room/lent.in" | tr -d ' ') cases, 0 too long" ] ||
    { cat "$room/log"; fail 'the answers of crates/cases/stdin are not taken with their tables'; }
cmp "$room/into/1.cases" "$room/lent.in" || fail 'stored cases are handed on as others'
cmp "$room/into/1.lines" "$room/lent.out" || fail 'with lent tables the peer makes other lines than crates/cases/stdout has'

# One element, answered with tables and without them, and with a table too short by one, which the call for C does not see.
one=$(awk '$1 == "write" { print $2, $3; exit }' player/sample/sample.cases)
{
    printf '# words\nread 00\nwrite %s 132\n\nwrite %s 132 1792 2048\nwrite %s 132 1792 2047\n' "$one" "$one" "$one"
    printf ' write\tAC020055 %s  0041 05120 5120 \r\nlength %s 131 1792 2048' "$request" "$one"
} >"$room/folder/lent"
printf 'read 00\nlength %s 132\n' "$one" >"$room/folder/plain"
replays_tables 0 6 lent
ends 'tables of 4 cases by library and peer: 0 differences'
replays_tables 0 2 plain
ends 'cases by library and peer: 2, with a difference: 0'
cp "$room/log" "$room/before"

# Without the program; what lends no tables does not need it.
rm "$room/tree/target/bin"
replays_tables 2 6 lent
says 'the tables are not compared: there is no target/bin/cases (make cases makes it, and so does make test)'
replays_tables 0 2 plain
cmp "$room/before" "$room/log" || fail 'a replay that lends no tables is another one without the program cases'
ln -s "$PWD/target/bin" "$room/tree/target/bin" || fail 'there is no room for a link'

# What is read from a pipe is gone when it comes to the tables.
# shellcheck disable=SC2002
cat "$room/folder/lent" | replays_tables 2 6 /dev/stdin || exit 1
ends 'peer/replay.sh: the tables are not compared: only a file can be read a second time'

# Spoiled: the line is told with what both make of it, and the others are compared all the same.
rm "$room/tree/peer"
mkdir "$room/tree/peer" || fail 'there is no room for a copy of the peer'
cp peer/* "$room/tree/peer/"
sed 's/to\[1\] = e->length/to[1] = e->place + e->length/' peer/rows.c >"$room/tree/peer/rows.c"
! cmp -s peer/rows.c "$room/tree/peer/rows.c" || fail 'no line of the peer is spoiled'
printf '\nlength %s 18446744073709551615 1793 2049\n' "$one" >>"$room/folder/lent"
replays_tables 1 7 lent
[ "$(grep '^library and peer differ' "$room/log" | tr '\n' ';')" = \
    'library and peer differ in line 5;library and peer differ in line 9;' ] ||
    { cut -c 1-200 "$room/log"; fail 'lines 5 and 9 are to differ in their tables'; }
[ "$(grep -Ec '^  library: ok ([0-9a-f]{264}|132) 3,46,' "$room/log")" = 2 ] &&
    [ "$(grep -Ec '^  peer: ok ([0-9a-f]{264}|132) 3,49,' "$room/log")" = 2 ] ||
    { cut -c 1-400 "$room/log"; fail 'it is not told what library and peer make of lines 5 and 9'; }
ends 'tables of 5 cases by library and peer: 2 differences'

# What is too long for the program is told: inputs, output, either table. A length that is offered has no bytes, and may be any. The
# longest are compared, each in a file of its own.
zeros() { # COUNT: so many bytes in hex
    dd if=/dev/zero bs="$1" count=1 2>/dev/null | od -An -v -tx1 | tr -d ' \n'
}
{
    printf 'write %s %s 1048576 5120 5120\n' "$store" "$(zeros 1048572)"
    printf 'write %s %s 0 1792 2048\n' "$(zeros 1048575)" 00
    printf 'length %s %s 0 1792 2048\n' "$(zeros 1048575)" 0000
    printf 'write %s 1048577 1792 2048\n' "$one"
    printf 'write %s 132 5121 2048\nlength %s 132 1792 18446744073709551615\n' "$one" "$one"
    printf 'length %s 1048577 1792 2048\n' "$one"
} >"$room/folder/long"
sh peer/tables.sh "$room/tables" --replay "$room/folder/long" >"$room/log" 2>&1 || { cat "$room/log"; fail 'long cases'; }
[ "$(sed -n 's/^the tables of line \([0-9]\) are not compared: .*/\1/p' "$room/log" | tr '\n' ' ')" = '3 4 5 6 ' ] ||
    { cat "$room/log"; fail 'it is not told which lines are too long'; }
ends 'tables of 3 cases by library and peer: 0 differences, and 4 not compared'
passed=$((passed + 1))

printf '%s passed, 0 failed\n' "$passed"
