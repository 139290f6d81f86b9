#!/bin/sh
# make.sh FOLDER: writes the files of the sample that are bytes of published dumps, from the test cases that spell them in hex.
set -eu
cd "$(dirname "$0")/../.."
cases=crates/cases/stdin

# The bytes that a line spells in hex; printf takes them in octal.
bytes() {
    printf '%b' "$(awk '{
        for (i = 1; i < length($0); i += 2) {
            high = index("0123456789abcdef", substr($0, i, 1)) - 1
            printf "\\0%03o", high * 16 + index("0123456789abcdef", substr($0, i + 1, 1)) - 1
        }
    }')"
}

# The first case of a kind that has so many bytes.
spelled() { awk -v kind="$1" -v digits="$((2 * $2))" '$1 == kind && length($2) == digits { print $2; exit }' "$cases"; }

spelled store 1756 | bytes >"$1/book.store"
spelled store 417 | bytes >"$1/manifests.store"
spelled request 88 | bytes >"$1/first.request"
spelled read 174 | bytes >"$1/first.answer"
