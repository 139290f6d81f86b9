#!/bin/sh
# include/hub.h compiled as C99 and as C++ (C++98 and C++17), with warnings as errors, by the toolchain's clang and by every other
# compiler that this machine has. Nothing is linked, so that every machine can do it. The last line is 'N passed, 0 failed'.
set -u
cd "$(dirname "$0")/.." || exit 1
passed=0

fail() {
    printf 'tests/header.sh: FAILED: %s\n' "$*"
    exit 1
}

room=$(mktemp -d) || fail 'there is no room for temporary files'
trap 'rm -rf "$room"' EXIT
trap 'exit 1' HUP INT TERM

headers=$(sh tools/headers) || fail 'there are no C headers'
guide=$(rt doc) || fail 'the Rattle toolchain is needed, whose command is rt'
own=$(dirname "$guide")/toolchain/bin/clang
warnings='-Wall -Wextra -Werror -pedantic -Wconversion -Wsign-conversion -Wshadow -Wundef'

# A file that has the header alone shows whether what is unused in it warns.
printf '#include "hub.h"\nint used_by_nobody;\n' >"$room/alone.c"

compile() { # LANGUAGE STANDARD COMPILER WORDS..
    language=$1 standard=$2
    shift 2
    for file in tests/header.c tests/header_twin.c "$room/alone.c"; do
        # shellcheck disable=SC2086
        "$@" $warnings -x "$language" -std="$standard" -Iinclude -fsyntax-only "$file" >"$room/log" 2>&1 ||
            { cat "$room/log"; fail "$file is not clean as $standard by $1"; }
    done
}

# shellcheck disable=SC2086
compile c c99 "$own" --target=x86_64-unknown-linux-gnu -nostdinc $headers
for name in cc gcc clang; do
    command -v "$name" >/dev/null 2>&1 && compile c c99 "$name" -Wstrict-prototypes
done
passed=$((passed + 1))

for standard in c++98 c++17; do
    # shellcheck disable=SC2086
    compile c++ $standard "$own" --target=x86_64-unknown-linux-gnu -nostdinc $headers
    for name in c++ g++ clang++; do
        command -v "$name" >/dev/null 2>&1 && compile c++ $standard "$name"
    done
done
passed=$((passed + 1))

printf '%s passed, 0 failed\n' "$passed"
