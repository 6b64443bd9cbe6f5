#!/usr/bin/env bash
# Installs the static library, its header and a pkg-config file below a prefix: ./install.sh PREFIX
# The library is built first if it is missing or older than its sources (./build.sh): on a fresh clone that proves it, five minutes on
# four cores. Nothing is printed but errors, and that it is being built, to standard error.
set -euo pipefail
if [ $# -ne 1 ] || [ -z "$1" ]; then
    echo "usage: ./install.sh PREFIX" >&2
    exit 2
fi
mkdir -p "$1"
prefix=$(cd "$1" && pwd)
cd "$(dirname "${BASH_SOURCE[0]}")"
./build.sh yakuemi

install -d "$prefix/lib/pkgconfig" "$prefix/include"
install -m 644 target/lib/libyakuemi.a "$prefix/lib/libyakuemi.a"
install -m 644 include/yakuemi.h "$prefix/include/yakuemi.h"
cat >"$prefix/lib/pkgconfig/yakuemi.pc" <<END
prefix=$prefix
Name: yakuemi
Description: Fills scanned blocks with tetrahedra, proved
Version: 0.4.0
Cflags: -I\${prefix}/include
Libs: -L\${prefix}/lib -lyakuemi
END
