#!/bin/bash
# Compiles a filter in C to an image.
# usage: bash tools/compile.sh SOURCE.c IMAGE [--section NAME] [--program NAME] [--lru-as-hash] [FLAG..]
# Flags go to clang, as -mcpu=v3. Variables and constants that begin with values are written to IMAGE.maps, as image.py does.
# The filter is the function in the section "xdp", or in the one that is named; --program names the function where a section
# has several. It needs clang, and for <linux/..> the headers of the system (Debian: linux-libc-dev). CLANG names another one.
# IMAGE may not be SOURCE.c; an old one stays as it was until the new one is whole.
# example: bash tools/compile.sh examples/talkers.bpf.c talkers.image -mcpu=v3
# The exit status is 0, or 1 with a message; then no image is written.
set -eu
here=$(dirname "$(realpath "$0")")
clang=${CLANG:-clang}
files=()
flags=()
chosen=()

usage() {
    sed -n '2,/^set/{/^set/d;s/^# \?//;p}' "$0"
}

while [[ $# -gt 0 ]]; do
    case $1 in
        --help | -h) usage && exit 0 ;;
        --section | --program)
            [[ $# -gt 1 ]] || { echo "compile.sh: $1 wants a name" >&2 && exit 1; }
            chosen+=("$1" "$2")
            shift
            ;;
        --section=* | --program=* | --lru-as-hash) chosen+=("$1") ;;
        -*) flags+=("$1") ;;
        *) if [[ ${#files[@]} -lt 2 ]]; then files+=("$1"); else flags+=("$1"); fi ;;
    esac
    shift
done
[[ ${#files[@]} -eq 2 ]] || { echo "compile.sh: SOURCE.c and IMAGE are wanted" >&2 && usage >&2 && exit 1; }
source=${files[0]}
[[ -e $source ]] || { printf 'compile.sh: %q: no such file or folder\n' "$source" >&2 && exit 1; }
command -v "$clang" > /dev/null || { echo "compile.sh: there is no $clang to compile $source (Debian: apt-get install clang)" >&2 && exit 1; }
folder=$(mktemp -d)
trap 'rm -rf "$folder"' EXIT
"$clang" -target bpf -g -O2 "${flags[@]}" -I"/usr/include/$(uname -m)-linux-gnu" -c "$source" -o "$folder/object"
python3 "$here/image.py" --source "$source" "${chosen[@]}" "$folder/object" "${files[1]}"
