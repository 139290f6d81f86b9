#!/bin/sh
# tests/names.sh: what the docs name in backquotes exists: functions `m::f`, laws `X.y`, definitions, edits and files; and what a
# row of docs/PROMISES.md names behind a crate ('objects: ..') stands in that crate. A name of the C side need only occur there,
# as these words of the language do here: u32 u64 self requires ensures omega. Notes of landings, docs/requests/, may name anything, and so may
# docs/PORT.md and docs/DESIGN-PASS.md, which have old and new side by side.
cd "$(dirname "$0")/.." || exit 1
list() { find . \( -path ./target -o -path ./.git -o -path './crates/*/out' \) -prune -o -print | sed 's|^\./||' | grep -E "$1"; }
# shellcheck disable=SC2046
list . | awk '
    function put(name) { there[crate, name]; there["any crate", name] }
    function have(name) { put(name); put(crate "::" name) }
    function look(name) { # a file may be named behind any crate; what is made is no source, and two letters are a byte
        if (name !~ /^[A-Za-z_][A-Za-z0-9_-]+((::|\.|\/)[A-Za-z0-9_*-]+)*$/ || name ~ /^(target\/.*|libhub\..*|hub\.pc|..)$/) return
        sub(/\.\*.*/, "", name); if ((row, name) in there || ("file", name) in there) return # `X.*` is every law of X
        print FILENAME ":" FNR ": there is no " name " in " row; missing = 1 }
    phase == "files" { n = split($0, part, "/"); base = part[n]; sub(/\..*/, "", base); there["file", $0]; there["file", part[n]]
        if (sub(/^crates\//, "")) { crate = part[2]; there["file", $0]; have(base); have(part[3] "/" base) } }
    phase == "crates" && FNR == 1 { split(FILENAME, part, "/"); crate = part[2]; file = part[4]; sub(/\..*/, "", file) }
    phase == "crates" && !/^ *(--|\/\/)/ { if (/^[^ ]/) type = ""; opens = /^(pub )?(struct|enum|impl) /
        declares = (type && /^    [^ ]/) + /^[^(){}<:=,]+ :( |$)/ # a line in the body of such a type, a colon, a keyword
        declares += sub(/^ *((pub|pub\(crate\)|extern "C"|abbrev|record|data|fn|const|struct|enum|impl) )+/, "")
        gsub(/[(){}<:=,].*/, ""); for (n = declares ? NF : 0; n; n--) { own = (type ? type "::" : "") $n
            have($n); have(own); have(file "::" own); if (part[3] == "proofs") have(file "." $n) }
        if (opens) type = $1 }
    phase == "c" { gsub(/[^A-Za-z0-9_-]+/, " "); for (n = 1; n <= NF; n++) there["any crate", $n] }
    phase == "docs" { row = "any crate"; n = split($0, piece, "`"); for (i = 1; i <= n; i++) if (i % 2 == 0) look(piece[i])
        else for (k = split(FILENAME ~ /PROMISES/ ? piece[i] : "", bit, ": ") - 1; k > 0; k--) { sub(/.*[ |]/, "", bit[k])
            if (("file", "crates/" bit[k]) in there) { row = bit[k]; break } } }
    END { if (!missing) print "1 passed, 0 failed"; exit missing }' phase=files - phase=crates $(list '^crates/.*/src/.*\.rt$') \
    $(list '^crates/.*/(specs/.*|proofs/[A-Za-z]*)\.antt$') phase=c $(list '\.([ch]|sh)$|^tools/.*[^n]$|^Makefile$') \
    phase=docs README.md $(list '^CONTRIBUTING.md$|^docs/[^/]*\.md$' | grep -vE "^docs/(PORT|DESIGN-PASS).md$") include/hub.h peer/README.md
