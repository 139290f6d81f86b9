#!/bin/sh
# make speed: the library against the peer and against memcpy, in one run. It says whether that is native or emulated, and which
# compiler with which flags made the peer. A verdict is given only where it is native.
set -u
cd "$(dirname "$0")/.." || exit 1
. peer/files.sh

fail() {
    printf 'peer/speed.sh: %s\n' "$*" >&2
    exit 1
}

archive=target/staticlib/libhub.a
[ -s "$archive" ] || fail "there is no $archive: make archive writes it"
room=$(mktemp -d) || fail 'there is no room for temporary files'
trap 'rm -rf "$room"' EXIT
trap 'exit 1' HUP INT TERM

flags=$(sed -n "s/^flags='\(.*\)'$/\1/p" tools/cc)
how=emulated compiler="the toolchain's clang"
if [ "$(uname -m)" = x86_64 ] && [ "${HUB_WAY:-}" != toolchain ]; then
    how=native
    for name in cc gcc clang; do
        command -v "$name" >/dev/null 2>&1 && { compiler=$("$name" --version | sed -n 1p); break; }
    done
fi
# shellcheck disable=SC2086
sh tools/cc "$room/speed" -Iinclude $peer_core $peer_speed "$archive" || fail 'the program is not compiled'
sh tools/run "$room/speed" "$how" "$compiler" "$flags"
