#!/bin/sh
# .ci/lanes.sh FOLDER SCRIPT..: runs the tests side by side, two at a time: of two lanes each takes the next one that the other has
# not taken. What a test prints goes to FOLDER/SCRIPT/log, and a line 'SCRIPT STATUS SECONDS' says that it has ended. .ci/test.sh
# reads these, and stops all of it by a signal to its process group, so it is started in one of its own.
set -u
cd "$(dirname "$0")/.." || exit 1
folder=$1
shift

# Whoever is stopped waits for what it has started, so that with this script everything has ended.
trap 'wait; exit 1' HUP INT TERM

# The header is compiled by itself, and elsewhere than on x86-64 the sanitizers have the peer by itself.
needs_archive() { # SCRIPT
    case "$1 $(uname -m)" in
    'tests/archive.sh '* | 'tests/header.sh '*) return 1 ;;
    'peer/sanitize.sh x86_64') ;;
    'peer/sanitize.sh '*) return 1 ;;
    esac
}

run_test() { # SCRIPT
    since=$(date +%s)
    sh "$1" >"$folder/$1/log" 2>&1
    status=$?
    [ "$status" != 0 ] || : >"$folder/$1/passed"
    printf '%s %s %s\n' "$1" "$status" "$(($(date +%s) - since))"
    return "$status"
}

# That a folder can be made once only is what keeps the lanes apart.
lane() { # SCRIPT..
    trap 'exit 1' HUP INT TERM
    for script; do
        mkdir "$folder/$script" 2>/dev/null || continue
        if needs_archive "$script"; then
            until [ -e "$folder/tests/archive.sh/passed" ]; do sleep 1; done
        fi
        run_test "$script" || return
    done
}

for script; do
    mkdir -p "$folder/${script%/*}" || exit 1
done
lane "$@" &
lane "$@" &
wait
