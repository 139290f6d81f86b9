#!/bin/sh
# The archive for C: the crate hub_c is proved and its archive made, and what that has and what it needs is looked at. The other tests
# in C go on with it. The last line is 'N passed, 0 failed'.
set -u
cd "$(dirname "$0")/.." || exit 1
passed=0

fail() {
    printf 'tests/archive.sh: FAILED: %s\n' "$*"
    exit 1
}

room=$(mktemp -d) || fail 'there is no room for temporary files'
trap 'rm -rf "$room"' EXIT
trap 'exit 1' HUP INT TERM

# ---- the archive
archive=target/staticlib/libhub.a
rm -f "$archive"
sh tools/archive >"$room/log" 2>&1 || { cat "$room/log"; fail 'tools/archive fails'; }
[ -s "$archive" ] || fail "tools/archive leaves no $archive"

# ---- what it has and what it needs, as the toolchain's linker sees it: the nine calls, and memset and memcpy of the C library
guide=$(rt doc) || fail 'rt doc fails'
linker=$(dirname "$guide")/toolchain/bin/ld.lld
"$linker" -shared --cref --whole-archive "$archive" -o "$room/whole.so" >"$room/names" 2>&1 ||
    { cat "$room/names"; fail "the toolchain's linker cannot read $archive"; }
calls=$(awk '$2 ~ /libhub\.a\(/ { print $1 }' "$room/names" | sort | tr '\n' ' ')
[ "$calls" = 'hub_ask hub_ask_put hub_element hub_keep hub_length hub_put hub_read hub_read_put hub_write ' ] ||
    fail "$archive has other names than the nine calls: $calls"
"$linker" -shared -z defs --error-limit=0 --whole-archive "$archive" -o "$room/whole.so" >"$room/needs" 2>&1 ||
    grep -q 'undefined symbol: ' "$room/needs" || { cat "$room/needs"; fail "the toolchain's linker cannot link $archive"; }
needs=$(sed -n 's/.*undefined symbol: //p' "$room/needs" | sort -u | tr '\n' ' ')
case $needs in
'' | 'memcpy ' | 'memset ' | 'memcpy memset ') ;;
*) fail "$archive needs more than memset and memcpy: $needs" ;;
esac
passed=$((passed + 1))

printf '%s passed, 0 failed\n' "$passed"
