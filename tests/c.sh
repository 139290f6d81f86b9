#!/bin/sh
# Tests of the calls exported to C: C programs are linked with the archive, which tests/archive.sh makes, and run (tools/cc,
# tools/run), and what they write is compared with what is stored. With the word `toolchain` that is done on x86-64 too as it is
# done elsewhere. The last line is 'N passed, 0 failed'.
set -u
cd "$(dirname "$0")/.." || exit 1
[ "${1:-}" != toolchain ] || export HUB_WAY=toolchain
passed=0

fail() {
    printf 'tests/c.sh: FAILED: %s\n' "$*"
    exit 1
}

room=$(mktemp -d) || fail 'there is no room for temporary files'
trap 'rm -rf "$room"' EXIT
trap 'exit 1' HUP INT TERM

archive=target/staticlib/libhub.a
[ -s "$archive" ] || fail "there is no $archive: tests/archive.sh makes it"

# ---- programs
compile() { # NAME OTHER-FILES..
    name=$1
    shift
    sh tools/cc "$room/$name" "tests/$name.c" "$@" "$archive" >"$room/log" 2>&1 ||
        { cat "$room/log"; fail "tests/$name.c is not compiled and linked with $archive"; }
}

run() { # NAME WORDS..
    name=$1
    shift
    sh tools/run "$room/$name" "$@"
}

# ---- those that hold themselves to what they await, a line for each thing; `document 01`, `document 02`, `beyond the documents` and
# `beside it` say whose it is
hold() { # NAME OTHER-FILES..
    out=$room/$1.out
    compile "$@"
    run "$1" >"$out" || { cat "$out"; fail "a line of tests/$1.c is not ok, or it cannot be run"; }
    [ "$(tail -n 1 "$out")" = '0 not ok' ] || { cat "$out"; fail "tests/$1.c does not come to its end"; }
    cat "$out" >>"$room/lines"
    passed=$((passed + 1))
}

hold limits
hold offered
hold ranks
hold groups
hold shared_serials
hold asking_limits
hold refusals
hold asking_refusals
hold counts
hold put_limits
hold put_entering
hold put_asking
hold put_ways
hold put_refusals
hold put_asking_refusals
hold put_counts
hold put_dumps
hold keep_limits
hold keep_entering
hold keep_refusals
hold stack
hold example
hold example_elements
hold header tests/header_twin.c
lines() { grep -c "^$1, ok: " "$room/lines"; } # GROUP

# ---- the example is the one that README.md has
awk '/^```c$/ { within = 1; next } /^```$/ { within = 0 } within' README.md >"$room/readme"
awk '/^\/\* README.md has what is above/ { within = 0 } within { print } /^\/\* README.md has what follows/ { within = 1 }' \
    tests/example.c >"$room/example.text"
[ -s "$room/readme" ] || fail 'README.md has no example in C'
cmp "$room/readme" "$room/example.text" || fail 'the example in README.md is another than that of tests/example.c'
passed=$((passed + 1))

# ---- stored cases
compile writing
compile asking
compile putting

# With a report of under 24 bytes only the number is told.
numbers_only() { sed -e 's/^ok .*/ok/' -e 's/^\(no [0-9]*\) .*/\1/'; }

# With one of under 88 bytes only the place and the length of the knowledge in an answer that is read are told.
knowledge_only() { # CASES EXPECTED
    paste -d '|' "$1" "$2" | awk -F '|' '
        $1 ~ /^read / && $2 ~ /^ok / { n = split($2, w, " "); print "ok " w[n - 1] " " w[n]; next }
        { print $2 }'
}

compare() { # CASES EXPECTED PROGRAM WORDS..
    cases=$1 expected=$2
    shift 2
    [ -s "$cases" ] || fail "there is no case in $cases"
    run "$@" <"$cases" >"$room/got" || fail "tests/$1.c ends with another status than 0 on $cases"
    cmp "$room/got" "$expected" || fail "of $cases other lines come from $* than $expected has"
}

numbers_only <tests/answers.out >"$room/numbers"
compare tests/answers.in tests/answers.out writing 24
compare tests/answers.in tests/answers.out writing 40
compare tests/answers.in "$room/numbers" writing 23
passed=$((passed + 1))

# The last word is the kind that stands for an answer: any but 0.
knowledge_only tests/asking.in tests/asking.out >"$room/knowledge"
numbers_only <tests/asking.out >"$room/numbers"
compare tests/asking.in tests/asking.out asking 88
compare tests/asking.in tests/asking.out asking 100 18446744073709551615
compare tests/asking.in "$room/knowledge" asking 87 2
compare tests/asking.in "$room/knowledge" asking 24
compare tests/asking.in "$room/numbers" asking 23
compare tests/asking.in "$room/numbers" asking 0
passed=$((passed + 1))

# The last word stands for 1 where a storage index is named: any but 0.
compare tests/putting.in tests/putting.out putting 32
compare tests/putting.in tests/putting.out putting 40 18446744073709551615
compare tests/putting.in tests/putting.out putting 31 2
compare tests/putting.in tests/putting.out putting 24
compare tests/putting.in tests/putting.out putting 23 4294967296
compare tests/putting.in tests/putting.out putting 0
passed=$((passed + 1))

# The cases that the program cases is held to, as this form has them: no tables, so none that lends shorter ones, and no rows.
paste -d '|' crates/cases/stdin crates/cases/stdout | awk -F '|' -v cases="$room/cases.in" '
    $1 ~ /^(length|write) / && $2 != "bad" && split($1, w, " ") == 6 && w[5] >= 1792 && w[6] >= 2048 {
        print $1 >cases
        split($2, r, " ")
        print r[1] == "ok" ? r[1] " " r[2] : $2
    }' >"$room/cases.out"
for kind in length write; do
    grep -q "^$kind " "$room/cases.in" || fail "crates/cases/stdin has no case of $kind that lends tables as long as this form's"
done
compare "$room/cases.in" "$room/cases.out" writing 24
passed=$((passed + 1))

# And those of the bench's calls, with the elements of stores, and of the calls for puts.
others() { # NAME KINDS PROGRAM WORDS..
    name=$1 kinds=$2
    shift 2
    paste -d '|' crates/cases/stdin crates/cases/stdout | awk -F '|' -v cases="$room/$name.in" -v kinds="^($kinds) " '
        $1 ~ kinds && $2 != "bad" {
            print $1 >cases
            print $2
        }' >"$room/$name.out"
    compare "$room/$name.in" "$room/$name.out" "$@"
}
others calls 'ask|read|received|element' asking 88
others puts 'put|ask_put|read_put' putting 32
passed=$((passed + 1))
printf 'tests/c.sh: %s calls for puts as they should be\n' "$(cat tests/putting.in "$room/puts.in" | wc -l | tr -d ' ')"

way='the machine'"'"'s compiler'
[ "$(uname -m)" = x86_64 ] && [ "${HUB_WAY:-}" != toolchain ] || way='the toolchain'
printf 'tests/c.sh: %s numbers of document 01, %s of document 02, %s beyond the documents and %s more things, ' \
    "$(lines 'document 01')" "$(lines 'document 02')" "$(lines 'beyond the documents')" "$(lines 'beside it')"
printf '%s answers and lengths, and %s calls of a bench as they should be, by %s\n' \
    "$(cat tests/answers.in "$room/cases.in" | wc -l | tr -d ' ')" \
    "$(cat tests/asking.in "$room/calls.in" | wc -l | tr -d ' ')" "$way"
grep 'bytes of stack at most' "$room/stack.out"
printf '%s passed, 0 failed\n' "$passed"
