#!/bin/bash
# Builds the bridge over the library.
# usage: bash examples/bridge/build.sh [BRIDGE [ARCHIVE]]    (CC and CFLAGS are taken from the environment)
# BRIDGE is the program that is made (the default: bridge). ARCHIVE is crates/xdpvm_c/out/libxdpvm_c.a, or the one that the gate
# has proved at this commit; beside an installed libxdpvm.a, `pkg-config --cflags --libs xdpvm` has the words for a compiler.
set -eu
here=$(cd "$(dirname "$0")" && pwd)
top=$(dirname "$(dirname "$here")")
rt=$(command -v rt) || { echo "build.sh: rt, the toolchain's command, is not on the path" >&2; exit 1; }
heap=$(dirname "$(dirname "$(realpath "$rt")")")/c/liblibc_c.a
archive=${2:-$top/crates/xdpvm_c/out/libxdpvm_c.a}
if [ ! -f "$archive" ]; then
    archive=$(python3 "$top/checks/record.py" --find)/libxdpvm_c.a || { echo "build.sh: the library is not built: bash .ci/run" >&2; exit 1; }
fi
read -ra flags <<< "${CFLAGS:--O2 -Wall -Wextra}"
"${CC:-cc}" -std=gnu11 "${flags[@]}" -I"$top/examples/embed" -o "${1:-bridge}" "$here"/*.c "$archive" "$heap" -pthread
