#!/bin/bash
# Installs the programs that rt ci left into a fresh folder, and runs there what a user runs. In the gate.
set -euo pipefail
top=$(dirname "$(dirname "$(realpath "$0")")")
cd "$top"
work=$(mktemp -d)
trap 'rm -rf "$work"' EXIT
bash install.sh "$work/bin" crates/xdpvm/out/xdpvm crates/xdpvm_survey/out/xdpvm_survey crates/xdpvm_filter/out/xdpvm_filter
cd "$work"
PATH=$work/bin:$PATH

# Runs a command that has to be refused.
refused() {
    if "$@" 2> refusal; then
        echo "installation.sh: not refused: $*" >&2
        exit 1
    fi
}

xdpvm_filter convert "$top/examples/firewall.pcapng" firewall.frames
xdpvm-frames "$top/examples/filters/mix.txt" mix.frames
xdpvm_filter show mix.frames | grep -c "^frame " > count
xdpvm run "$top/examples/firewall.image" firewall.frames sent.frames > report
cmp report "$top/examples/firewall.report"
xdpvm-run run "$top/examples/firewall.text" "$top/examples/firewall.pcapng" sent.pcapng > report
cmp report "$top/examples/firewall.report"
xdpvm-xdp share/xdpvm/examples/firewall.text share/xdpvm/examples/firewall.pcapng passed.pcapng > counts
grep -q '^8 frames: 4 PASS, 4 DROP$' counts
cmp passed.pcapng sent.pcapng
xdpvm_filter convert sent.pcapng again.frames
cmp again.frames sent.frames

# an output that is an input, words of help, what is not installed
refused xdpvm-xdp "$top/examples/firewall.text" again.frames again.frames
cmp again.frames sent.frames
xdpvm-image --help > help
refused grep -q "python3 tools/" help
xdpvm-table --help > help
xdpvm-expression --help > help
grep -q "^usage: xdpvm-expression EXPRESSION" help
xdpvm-kernel --help > help
# where the kernel can be asked, it runs a capture alike; elsewhere the status is 77
status=0
xdpvm-kernel "$top/examples/firewall.text" "$top/examples/firewall.pcapng" > compared 2> said || status=$?
if [[ $status == 0 ]]; then
    grep -q '; alike$' compared
elif [[ $status != 77 ]]; then
    cat said >&2
    exit 1
fi
[[ ! -e bin/xdpvm-limits && ! -e bin/xdpvm-__main__ && ! -e bin/xdpvm-filter && ! -e bin/frames.py && -s share/xdpvm/docs/GUIDE.md && -s include/xdpvm.h && -s lib/libxdpvm_c.a ]]
refused bash "$top/install.sh" "$work/wrong" /bin/true
[[ ! -e $work/wrong ]]

xdpvm-object --source "$top/examples/firewall.text" "$top/examples/firewall.image" firewall.o
xdpvm-image firewall.o again.image
cmp again.image "$top/examples/firewall.image"
xdpvm_survey --format csv --no-header "$top/examples/firewall.image" > rows
grep -q '^[^,]*firewall.image,ok,,35,0,32,' rows
xdpvm-survey --format csv --no-header "$top/examples/firewall.text" > rows
grep -q '^[^,]*firewall.text,ok,,35,0,32,' rows
grep -q '^.TH XDPVM 1' share/man/man1/xdpvm.1
grep -q '^.TH XDPVM_SURVEY 1' share/man/man1/xdpvm_survey.1
xdpvm_filter "$top/examples/firewall.image" firewall.frames passed.frames --report report > counts
cmp report "$top/examples/firewall.report"
cmp passed.frames sent.frames
printf 'PASS 4\nDROP 4\nend 8\n' | cmp counts
grep -q '^.TH XDPVM_FILTER 1' share/man/man1/xdpvm_filter.1

# a list that fills a map, by both ways; a list that is refused before a frame is read
allow=share/xdpvm/examples/allow
printf '# counts so far\nmap 0 C0000207 1000000000000000\nmap 0 c0000208 0000000000000000\n' > list.maps
printf 'map 0 %s00000000000000\n' 'c0000207 14' 'c0000208 01' 'c6336409 01' > wanted.maps
xdpvm-xdp $allow.text $allow.pcapng --maps list.maps --maps-out held.maps > counts
grep -q '^11 frames: 11 PASS$' counts
cmp held.maps wanted.maps
xdpvm_filter $allow.image $allow.frames passed.frames --maps list.maps --maps-out filled.maps > counts
printf 'PASS 11\nend 11\n' | cmp counts
cmp filled.maps wanted.maps
echo 'map 0 c00002 00' > wrong.maps
refused xdpvm_filter $allow.image $allow.frames passed.frames --maps wrong.maps --maps-out filled.maps > counts
grep -q '^refused M3 line 1 column 7$' counts
cmp filled.maps wanted.maps

bash -n share/bash-completion/completions/xdpvm
[[ -s share/zsh/site-functions/_xdpvm && -s share/fish/vendor_completions.d/xdpvm.fish ]]
