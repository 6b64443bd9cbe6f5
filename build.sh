#!/usr/bin/env bash
# Builds what is named, where it is missing or older than its sources: ./build.sh NAME..
#   yakuemi    the static library for C, target/lib/libyakuemi.a
#   NAME       a program of crates/NAME, target/bin/NAME
# Only what is proved is built: on a fresh clone that first proves all crates below. Nothing is printed but errors, and what it
# works on, to standard error. The log is target/build.log.
set -euo pipefail
[ $# -gt 0 ] || { echo "usage: ./build.sh yakuemi|bench|report|measure|cases .." >&2; exit 2; }
cd "$(dirname "${BASH_SOURCE[0]}")"
mkdir -p target/lib target/bin

# is_new FILE: it is there, and no source is newer
is_new() {
    [ -f "$1" ] && [ -z "$(find crates crates.txt -path 'crates/*/out' -prune -o -type f -newer "$1" -print -quit)" ]
}

# in_crate NAME COMMAND..
in_crate() {
    echo "proving and building $1" >&2
    (cd "crates/$1" && "${@:2}") >target/build.log 2>&1 || { cat target/build.log >&2; exit 1; }
}

for name in "$@"; do
    case $name in
    yakuemi)
        is_new target/lib/libyakuemi.a && continue
        in_crate yakuemi_c rt lib
        install -m 644 crates/yakuemi_c/out/libyakuemi_c.a target/lib/libyakuemi.a
        ;;
    *)
        is_new "target/bin/$name" && continue
        in_crate "$name" rt run <"crates/$name/stdin"
        install "crates/$name/out/$name" "target/bin/$name"
        ;;
    esac
done
