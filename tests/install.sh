#!/bin/sh
# make install, make uninstall and make shared: what is installed into a folder of its own has the right files and modes, hub.pc
# tells how to compile with it, a program is compiled with nothing else and runs, and after make uninstall no file is left. The
# shared library is made and opened, and made by the line that README.md has. The last line is 'N passed, 0 failed'.
set -u
cd "$(dirname "$0")/.." || exit 1
passed=0

fail() {
    printf 'tests/install.sh: FAILED: %s\n' "$*"
    exit 1
}

room=$(mktemp -d) || fail 'there is no room for temporary files'
trap 'rm -rf "$room"' EXIT
trap 'exit 1' HUP INT TERM

# A make above this one would have its own last word on variables and on what is printed.
unset MAKELEVEL MAKEFLAGS MFLAGS
make_here() {
    make "$@" DESTDIR="$room/root" PREFIX=/opt/hub >"$room/log" 2>&1 || { cat "$room/log"; fail "make $* fails"; }
}

# ---- files and modes, whatever files are made with otherwise
(umask 077 && make_here install) || exit 1
(cd "$room/root" && find . -type f -exec ls -l {} + | awk '{ print substr($1, 1, 10), $NF }' | sort -k 2) >"$room/files"
cat >"$room/awaited" <<'END'
-rw-r--r-- ./opt/hub/include/hub.h
-rw-r--r-- ./opt/hub/lib/libhub.a
-rw-r--r-- ./opt/hub/lib/pkgconfig/hub.pc
END
cmp "$room/files" "$room/awaited" || { cat "$room/files"; fail 'make install leaves other files, or with other modes'; }
cmp include/hub.h "$room/root/opt/hub/include/hub.h" || fail 'another header is installed'
cmp target/staticlib/libhub.a "$room/root/opt/hub/lib/libhub.a" || fail 'another archive is installed'
passed=$((passed + 1))

# ---- hub.pc: what it says with no pkg-config, and what pkg-config makes of it if there is one
pc=$room/root/opt/hub/lib/pkgconfig/hub.pc
version=$(sed -n 's/^#define HUB_VERSION "\(.*\)"$/\1/p' include/hub.h)
[ -n "$version" ] || fail 'include/hub.h has no HUB_VERSION'
! grep '@' "$pc" || fail 'hub.pc has a word that was not replaced'
grep -qx "Version: $version" "$pc" && grep -qx 'prefix=/opt/hub' "$pc" || { cat "$pc"; fail 'hub.pc has another version or prefix'; }
if command -v pkg-config >/dev/null 2>&1; then
    told=$(PKG_CONFIG_PATH=$(dirname "$pc") pkg-config --cflags --libs hub) || fail 'pkg-config does not find hub'
    # shellcheck disable=SC2086
    set -- $told
    [ "$*" = '-I/opt/hub/include -L/opt/hub/lib -lhub' ] || fail "pkg-config tells '$*'"
else
    printf 'tests/install.sh: there is no pkg-config, so hub.pc is not read by one\n'
fi
passed=$((passed + 1))

# ---- a program that knows of nothing but what is installed: it is compiled with these words, behind DESTDIR
cat >"$room/small.c" <<'END'
#include <hub.h>
#include <stdio.h>
int main(void) {
    uint8_t report[HUB_REPORT_BYTES];
    uint64_t number = hub_ask(1, HUB_NO_LIMIT, NULL, 0, NULL, 0, NULL, 0, report, sizeof report);
    printf("%s: %s, %d bytes are needed\n", HUB_VERSION, hub_refusal_text(number), (int)hub_report_number(report, HUB_AT_LENGTH));
    return 0;
}
END
sh tools/cc "$room/small" "$room/small.c" "-I$room/root/opt/hub/include" "-L$room/root/opt/hub/lib" -lhub ||
    fail 'a program is not compiled and linked with what is installed'
said=$(sh tools/run "$room/small") || fail 'that program does not run'
awaited="$version: the output, the length offered for it, or the buffer for a new store is too short, 45 bytes are needed"
[ "$said" = "$awaited" ] || fail "that program says '$said'"
passed=$((passed + 1))

# ---- README.md's line for a shared library, beside the archive that is installed; only on x86-64 can cc link it
line=$(sed -n 's/^    \(cc -shared .*\)$/\1/p' README.md)
[ -n "$line" ] || fail 'README.md has no line for a shared library'
if [ "$(uname -m)" = x86_64 ] && command -v cc >/dev/null 2>&1; then
    mkdir "$room/beside" && cp "$room/root/opt/hub/lib/libhub.a" "$room/beside" || fail 'there is no room for a copy of the archive'
    (cd "$room/beside" && eval "$line") || fail 'the line for a shared library in README.md does not make one'
    cc "-I$room/root/opt/hub/include" -o "$room/beside/small" "$room/small.c" "$room/beside/libhub.so" ||
        fail 'a program is not linked with the shared library'
    said=$(LD_LIBRARY_PATH="$room/beside" "$room/beside/small") || fail 'a program does not run with the shared library'
    [ "$said" = "$awaited" ] || fail "with the shared library a program says '$said'"
else
    printf 'tests/install.sh: cc does not link for x86-64 here, so the line for a shared library is not run\n'
fi
passed=$((passed + 1))

# ---- and nothing is left
make_here uninstall
left=$(find "$room/root" ! -type d) || fail 'the folder cannot be looked at'
[ -z "$left" ] || fail "make uninstall leaves $left"
passed=$((passed + 1))

# ---- the shared library
make_here shared
sh tools/cc "$room/shared" tests/shared.c -ldl || fail 'tests/shared.c is not compiled and linked'
sh tools/run "$room/shared" "$PWD/target/staticlib/libhub.so" >"$room/out" ||
    { cat "$room/out"; fail 'the shared library is not as it should be'; }
[ "$(tail -n 1 "$room/out")" = '0 not ok' ] || { cat "$room/out"; fail 'tests/shared.c does not come to its end'; }
passed=$((passed + 1))

printf '%s passed, 0 failed\n' "$passed"
