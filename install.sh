#!/bin/bash
# Installs xdpvm: the programs, the tools around them, the pages, the man pages and completions, and the library where it is built.
# usage: bash install.sh FOLDER [PROGRAM [SURVEY [FILTER]]]        (such as ~/bin)
# Without PROGRAM it proves every crate that the programs depend on, and builds them. That needs the toolchain's `rt` on the
# path, 6 GB of memory, and about half an hour on 4 cores, an hour on 2. Work that is proved is kept, so a second run goes on
# where one ended; what the gate (.ci/run) has proved at this commit on this machine is taken as it is. With PROGRAM, SURVEY for xdpvm_survey and FILTER for xdpvm_filter, it takes these, as `rt ci` leaves them in crates/*/out, and
# proves nothing.
# FOLDER gets the programs, and links to the tools, each as xdpvm-NAME for tools/NAME.py: xdpvm-xdp runs a filter of any form on
# a capture; xdpvm-frames, xdpvm-image, xdpvm-table and xdpvm-compile convert texts of frames, objects, proof tables and C; xdpvm-expression
# (filter.py) makes a filter of tcpdump's words; xdpvm-survey judges many filters; xdpvm-kernel compares with Linux; xdpvm-run
# runs the examples. What they need is in share/xdpvm with the
# pages and the examples. share/, include/ and lib/ are beside a FOLDER that is called bin, and in another one.
# example: bash install.sh ~/bin && ~/bin/xdpvm-xdp ~/share/xdpvm/examples/firewall.text
# The exit status is 0, or 1 with a message.
set -eu
top=$(dirname "$(realpath "$0")")

usage() {
    sed -n '2,/^set/{/^set/d;s/^# \?//;p}' "$0"
}

stop() {
    echo "install.sh: $1" >&2
    exit 1
}

case ${1-} in
    --help | -h) usage && exit 0 ;;
    '' | -*) usage >&2 && exit 1 ;;
esac
[ $# -le 4 ] || { usage >&2 && exit 1; }
program=${2:+$(realpath "$2")}
survey=${3:+$(realpath "$3")}
filter=${4:+$(realpath "$4")}

# ---- the programs

if [ -n "$program" ]; then
    said=$("$program" verify "$top/examples/pass.image" 2> /dev/null) || true
    [ "$said" = "ok bound 2" ] || stop "$program is no xdpvm: it does not say 'ok bound 2' of examples/pass.image"
    if [ -n "$survey" ]; then
        "$survey" --format csv "$top/examples/pass.image" 2> /dev/null | grep -q 'pass.image,ok,' || stop "$survey is no xdpvm_survey"
    fi
    if [ -n "$filter" ]; then
        "$filter" --version 2> /dev/null | grep -q '^xdpvm_filter ' || stop "$filter is no xdpvm_filter"
    fi
    told="$program, as it was given: nothing was proved now"
elif gate=$(python3 "$top/checks/record.py" --find); then
    program=$gate/xdpvm
    survey=$gate/xdpvm_survey
    filter=$gate/xdpvm_filter
    told="proved by the gate at this commit ($(sed -n 's/^  "gate": "\(.*\)",$/\1/p' "$gate/record.json"), $(sed -n 's/^  "date": "\(.*\)",$/\1/p' "$gate/record.json")): nothing was proved now"
else
    command -v rt > /dev/null || stop "rt, the toolchain's command, is not on the path, and no PROGRAM is given"
    echo "install.sh: proving and building the programs" >&2
    (cd "$top/crates/xdpvm" && rt run -- verify "$top/examples/pass.image")
    (cd "$top/crates/xdpvm_survey" && rt run -- dis "$top/examples/pass.image" > /dev/null)
    (cd "$top/crates/xdpvm_filter" && rt run -- --version > /dev/null)
    program=$top/crates/xdpvm/out/xdpvm
    survey=$top/crates/xdpvm_survey/out/xdpvm_survey
    filter=$top/crates/xdpvm_filter/out/xdpvm_filter
    told="proved by $(rt version)"
fi

# ---- where everything goes

mkdir -p "$1"
folder=$(cd "$1" && pwd)
beside=$folder
if [ "$(basename "$folder")" = bin ]; then beside=$(dirname "$folder"); fi
share=$beside/share
home=$share/xdpvm
install "$program" "$folder/xdpvm"
if [ -n "$survey" ]; then install "$survey" "$folder/xdpvm_survey"; fi
if [ -n "$filter" ]; then install "$filter" "$folder/xdpvm_filter"; fi

# ---- the tools; those for this project's developers stay here

mkdir -p "$home/tools" "$home/examples/filters" "$home/docs/pictures"
for tool in "$top"/tools/*; do
    case $(basename "$tool") in
        unproved.py | __main__.py) ;;
        README.md) install -m 644 "$tool" "$home/tools" ;;
        *.py | *.sh)
            if [ "$(head -c 2 "$tool")" = '#!' ]; then
                install "$tool" "$home/tools"
                name=$(basename "$tool")
                called=${name%.*}
                [ "$called" != filter ] || called=expression    # beside the program xdpvm_filter
                ln -sfr "$home/tools/$name" "$folder/xdpvm-$called"
            else
                install -m 644 "$tool" "$home/tools"
            fi
            ;;
    esac
done
install "$top/examples/run.sh" "$top/examples/send.py" "$home/examples"
ln -sfr "$home/examples/run.sh" "$folder/xdpvm-run"
find "$top/examples" -maxdepth 1 -type f ! -name '*.py' ! -name '*.sh' -exec install -m 644 -t "$home/examples" {} +
install -m 644 "$top"/examples/filters/* "$home/examples/filters"
install -m 644 "$top/README.md" "$home"
install -m 644 "$top"/docs/*.md "$home/docs"
install -m 644 "$top"/docs/pictures/* "$home/docs/pictures"

# ---- man pages and completions

for name in xdpvm xdpvm_survey xdpvm_filter; do
    install -D -m 644 "$top/docs/$name.1" "$share/man/man1/$name.1"
    install -D -m 644 "$top/tools/completions/$name.bash" "$share/bash-completion/completions/$name"
    install -D -m 644 "$top/tools/completions/_$name" "$share/zsh/site-functions/_$name"
    install -D -m 644 "$top/tools/completions/$name.fish" "$share/fish/vendor_completions.d/$name.fish"
done

# ---- the library for C and Rust, if it is built

install -D -m 644 "$top/examples/embed/xdpvm.h" "$beside/include/xdpvm.h"
archive=${gate:-$top/crates/xdpvm_c/out}/libxdpvm_c.a
heap=$(dirname "$(dirname "$(realpath "$(command -v rt || echo /nowhere/bin/rt)")")")/c/liblibc_c.a
if [ -f "$archive" ] && [ -f "$heap" ]; then
    install -D -m 644 "$archive" "$beside/lib/libxdpvm_c.a"
    install -D -m 644 "$heap" "$beside/lib/libxdpvm_heap.a"
    library="the library in $beside/lib, with its header in $beside/include (link libxdpvm_c.a, then libxdpvm_heap.a)"
else
    library="the library's header in $beside/include; the library is not built (cd crates/xdpvm_c && rt lib)"
fi
echo "$folder/xdpvm: $told"
if [ -n "$survey" ]; then echo "$folder/xdpvm_survey: for many programs at once"; fi
if [ -n "$filter" ]; then echo "$folder/xdpvm_filter: runs a filter whose maps are filled, and counts"; fi
echo "beside it: xdpvm-xdp runs a filter of any form on a capture; each tool says with --help what it does"
echo "$library"
echo "in $home: the pages (docs) and the examples; in $share: the man pages, and completions for bash, zsh and fish"
