#!/bin/bash
# Where bpf(2) can be used Linux runs an example alike; elsewhere the script says so, with status 77. In the gate.
set -uo pipefail
cd "$(dirname "$(dirname "$(realpath "$0")")")" || exit 1
said=$(python3 tools/kernel.py examples/firewall.image examples/firewall.frames --xdpvm crates/xdpvm/out/xdpvm)
status=$?
echo "$said"
((status == 0)) || exit "$status"
grep -q '^frames: 7 run by both, 1 left out; alike$' <<< "$said"
