#!/bin/sh
# What make test does, in this order: the toolchain is the one that the file toolchain names; the docs name what there is; rt ci
# passes, which also looks at the layout of every source file, and finds no must-fail edit that cannot be tried; the tests in C pass,
# which run side by side; no library but those of the test programs rests on an axiom. Only if all of it holds is the last line
# 'N passed, 0 failed', where N counts what rt ci and the other tests have passed, and the exit status 0. What each part took stands
# before it, and in target/log/gate, which tools/gate-figures reads.
set -u
cd "$(dirname "$0")/.." || exit 1
began=$(date +%s)

# To standard output, so that no run that fails here ends on rt ci's line.
fail() {
    printf 'test: FAILED: %s\n' "$*"
    exit 1
}

# ---- the toolchain
missing=$(sh tools/toolchain) || fail "$missing"

room=$(mktemp -d) || fail 'there is no room for a temporary file'
lanes=''
# What runs side by side is a process group of its own, in which a signal reaches all that the tests have started.
stop() {
    [ -n "$lanes" ] || return 0
    kill -s TERM -- "-$lanes" 2>/dev/null || kill -s TERM "$lanes" 2>/dev/null
    wait "$lanes"
    lanes=''
}
trap 'stop; rm -rf "$room"' EXIT
trap 'exit 1' HUP INT TERM
took() { # WHAT SECONDS: for tools/gate-figures
    printf 'gate: %s %s s\n' "$1" "$2" >>"$room/times"
}
seconds_since() { # TIME
    echo $(($(date +%s) - $1))
}
passed=0
count() { # WHAT LOG: adds what the last line of the log says has passed
    last=$(tail -n 1 "$2")
    printf '%s\n' "$last" | grep -Eq '^[1-9][0-9]* passed, 0 failed$' ||
        fail "$1 ended with status 0, and its last line is not 'N passed, 0 failed'"
    passed=$((passed + ${last%% *}))
}
passes() { # SCRIPT LOG SECONDS
    # All but the last line, so that the last line of the whole run is the only one of its kind.
    sed '$d' "$2"
    count "$1" "$2"
    took "$1" "$3"
}

# ---- the names in the docs, which need no proof
since=$(date +%s)
sh tests/names.sh >"$room/log" 2>&1 || { cat "$room/log"; fail tests/names.sh; }
passes tests/names.sh "$room/log" "$(seconds_since "$since")"

# ---- the proofs, the must-fail edits and the programs
log=target/log/gate
since=$(date +%s)
# rt ci proves from what it has kept itself, and gives back what earlier checks left here. Where they left nothing, the libraries that
# stand here behind it are those that it has made, and the archive can be made over them.
unset HUB_BELOW
stood=$(ls -d crates/*/out/rlib 2>/dev/null)
sh tools/proving "$log" ci
status=$?
[ "$status" = 0 ] || { echo 'test: FAILED: rt ci'; exit "$status"; }
count 'rt ci' "$log"
took 'rt ci' "$(seconds_since "$since")"
# An edit whose text no longer stands, or that cannot be read, shows nothing: rt ci counts it as bad, and passes all the same.
set -- crates/*/must-fail/*.edit
edits=$#
told=$(grep '^rt: ok' "$log") || fail "rt ci ended with status 0, and no line of it begins with 'rt: ok'"
printf '%s\n' "$told" | grep -Eq ", [1-9][0-9]* bad" && fail 'rt ci finds must-fail edits that cannot be tried'
printf '%s\n' "$told" | grep -Eq "; must-fail edits: $edits refused[,;]" || fail "rt ci does not say that the $edits must-fail edits are refused"
# The program through which the tests compare tables is the one that rt ci has just proved and built.
mkdir -p target/bin && cp crates/cases/out/cases target/bin/cases || fail 'rt ci leaves no program cases'
[ -n "$stood" ] || export HUB_BELOW=proved

# ---- the tests in C, two at a time, as each keeps one processor busy. The first makes the archive, with which the others go on, and
# the long ones come before the short ones, so that the lanes end together.
tests='tests/archive.sh tests/header.sh peer/sanitize.sh tests/peer.sh peer/spoiled.sh tests/player.sh tests/c.sh tests/install.sh'
left=$tests
# In the order above, whatever order they end in, so that the output of two runs can be compared.
tell_ended() {
    for script in $left; do
        [ -s "$room/$script/seconds" ] || return 0
        passes "$script" "$room/$script/log" "$(cat "$room/$script/seconds")"
        left=${left#"$script"}
        left=${left# }
    done
}
since=$(date +%s)
mkfifo "$room/ended" || fail 'there is no room for a pipe'
# shellcheck disable=SC2086
setsid sh .ci/lanes.sh "$room" $tests >"$room/ended" &
lanes=$!
while read -r script status seconds; do
    [ "$status" = 0 ] || { stop; cat "$room/$script/log"; fail "$script"; }
    printf '%s\n' "$seconds" >"$room/$script/seconds"
    tell_ended
done <"$room/ended"
wait "$lanes" || fail '.ci/lanes.sh'
lanes=''
[ -z "$left" ] || fail "not every test has ended: $left"
took 'side by side' "$(seconds_since "$since")"

# ---- no axiom
# The only axioms that the prover admits are the contracts of C functions. rt ci refuses any that a crate of this repository declares,
# and a line of crates.txt with one of the toolchain's libraries of C calls. The others are looked at in two ways. The proof of the
# archive tells of all that a daemon links with how many C functions its proofs and contracts reach (tests/archive.sh has just made it):
# none. And no library that rt ci has proved in this run has read a module of the libraries of C calls; of one that is kept from an
# earlier run the gate has looked at that then, as nothing that it reads has changed. The crates case_* are parts of the test program,
# which no daemon links with: they write to a stream, whose errors that library knows, and no other library sees them.
made=target/log/archive
grep -q '^logic=proved .* target=' "$made" || fail "$made, the log of the archive's proof, does not read as expected"
[ "$(grep -c '^axioms ' "$made")" = "$(grep -c '^axioms [a-z_]*: none reached of the [0-9]* declared$' "$made")" ] &&
    grep -q '^axioms ' "$made" && ! grep -Eq '^logic=proved .*(axioms|foreign)=' "$made" || {
    grep -E '^axioms |^logic=' "$made"
    fail 'the archive rests on axioms'
}
for crate in $(sed -n 's/^rt: \([a-z_]*\) proved$/\1/p' "$log"); do
    [ ! -f "crates/$crate/src/main.rt" ] && [ "${crate#case_}" = "$crate" ] || continue
    sed -n "/^== $crate\$/,/^rt: $crate proved\$/p" "$log" >"$room/log"
    grep -q '^statements std: ' "$room/log" && grep -q '^logic=proved ' "$room/log" ||
        fail "what rt ci says of the library $crate does not read as expected"
    if grep -Eq '^(statements|library) (libc|os): modules loaded=[1-9]|^logic=proved .*(axioms|foreign)=' "$room/log"; then
        grep -E '^statements (libc|os)|^library (libc|os)|^logic=' "$room/log"
        fail "the library $crate may rest on axioms: only a test program may"
    fi
done

# ---- what it took
took whole "$(seconds_since "$began")"
cat "$room/times" >>"$log"
sh tools/gate-figures --short
printf '%s passed, 0 failed\n' "$passed"
