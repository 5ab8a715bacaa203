#!/bin/bash
# Makes the archives of a release from what rt ci left, and tries them as a user does who has no toolchain. In the gate.
set -euo pipefail
top=$(dirname "$(dirname "$(realpath "$0")")")
cd "$top"
work=$(mktemp -d)
trap 'rm -rf "$work"' EXIT
bash release.sh --trial "$work/release"
mkdir "$work/unpacked"
cd "$work/unpacked"
tar -xJf "$work"/release/xdpvm-*-linux.tar.xz
cd xdpvm-*
bash "$top/release.sh" --files .

PATH=$PWD/bin:$(dirname "$(realpath "$(command -v python3)")"):/usr/bin:/bin
if command -v rt; then exit 1; fi
unset XDPVM
shared=share/xdpvm/examples
xdpvm run $shared/firewall.image $shared/firewall.frames "$work/sent" > "$work/report"
cmp "$work/report" "$top/examples/firewall.report"
[[ $(bin/xdpvm-static verify $shared/pass.image) == "ok bound 2" ]]
xdpvm-xdp $shared/firewall.text $shared/firewall.pcapng "$work/sent.pcapng" > "$work/counts"
grep -q '^8 frames: 4 PASS, 4 DROP$' "$work/counts"
command -v pkg-config > "$work/found" || { echo "there is no pkg-config, so nothing is compiled against the archive" && exit 0; }
read -ra words <<< "$(PKG_CONFIG_PATH=$PWD/lib/pkgconfig pkg-config --cflags --libs xdpvm)"
cc -o "$work/embed" $shared/embed/embed.c "${words[@]}"
"$work/embed" $shared/pass.image > "$work/verdict"
grep -q '^ok bound 2$' "$work/verdict"
cc -std=gnu11 -o "$work/bridge" $shared/bridge/*.c "${words[@]}" -pthread
