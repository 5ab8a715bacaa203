#!/bin/bash
# Builds the library and its callers in C and Rust, and compares what they say of every image in examples/ with what
# `xdpvm verify` says. Then refuses the library every request for memory, one after the other.
# usage: bash examples/embed/build.sh [--short] [ARCHIVE [PROGRAM]]    (CC, CFLAGS and RUSTC are taken from the environment)
# Without ARCHIVE it takes crates/xdpvm_c/out/libxdpvm_c.a, or the one that the gate has proved at this commit; if there is
# none, it proves and builds it first, which takes half an hour. PROGRAM is crates/xdpvm/out/xdpvm; where it is not built, the callers are compared with each other. With
# --short, as in the gate, memory is refused for two images, and an archive that is not there is an error.
# The callers stay in crates/xdpvm_c/out. The last line says how many images were compared.
set -eu
here=$(cd "$(dirname "$0")" && pwd)
top=$(dirname "$(dirname "$here")")
rt=$(command -v rt) || { echo "build.sh: rt, the toolchain's command, is not on the path" >&2; exit 1; }
heap=$(dirname "$(dirname "$(realpath "$rt")")")/c/liblibc_c.a
out=$top/crates/xdpvm_c/out
refused=(filter firewall unguarded damaged allow talkers pass)
if [ "${1:-}" = --short ]; then
    shift
    refused=(filter allow)
    [ -f "${1:-$out/libxdpvm_c.a}" ] || { echo "build.sh: there is no library ${1:-$out/libxdpvm_c.a}" >&2; exit 1; }
fi
gate=$(python3 "$top/checks/record.py" --find) || gate=
if [ ! -f "$out/libxdpvm_c.a" ] && [ -n "$gate" ]; then
    out=$gate
    echo "build.sh: the library is the one that the gate proved at this commit ($gate)" >&2
fi
archive=${1:-$out/libxdpvm_c.a}
out=$top/crates/xdpvm_c/out
program=${2:-$top/crates/xdpvm/out/xdpvm}
if [ ! -f "$archive" ]; then
    echo "build.sh: proving and building the library" >&2
    (cd "$top/crates/xdpvm_c" && rt lib)
fi
mkdir -p "$out"
read -ra flags <<< "${CFLAGS:--O2 -Wall -Wextra}"
"${CC:-cc}" -std=c11 "${flags[@]}" -o "$out/embed" "$here/embed.c" "$archive" "$heap"
"${CC:-cc}" -std=c11 "${flags[@]}" -o "$out/maps" "$here/maps.c" "$archive" "$heap"
"${CC:-cc}" -std=c11 "${flags[@]}" -o "$out/walk" "$here/walk.c" "$archive" "$heap"
"${CC:-cc}" -std=c11 "${flags[@]}" -o "$out/fail" "$here/fail.c" "$archive"
"${CC:-cc}" -std=c11 "${flags[@]}" -DDRIVE -o "$out/fuzz" "$here/fuzz.c" "$archive" "$heap"
callers=(embed)
if command -v "${RUSTC:-rustc}" > /dev/null; then
    "${RUSTC:-rustc}" --edition 2024 -O -o "$out/embed_rs" "$here/embed.rs" -C link-arg="$archive" -C link-arg="$heap"
    callers+=(embed_rs)
else
    echo "build.sh: no rustc, so no caller in Rust" >&2
fi
[ -x "$program" ] || echo "build.sh: no program at $program, so nothing is compared with it" >&2

work=$(mktemp -d)
trap 'rm -rf "$work"' EXIT

# What a command says, without the line of a run and the one that only xdpvm ends a refusal with.
says() {
    "$@" > "$work/said" 2> "$work/told" || [ $? = 2 ]
    cat "$work/said" <(grep -v -e '^action [0-5], [0-9]* steps$' -e '^xdpvm explain [A-Z][0-9]* says more$' "$work/told" || true)
}

images=0
differ=0
for image in "$top"/examples/*.image; do
    images=$((images + 1))
    says "$out/${callers[0]}" "$image" > "$work/wanted"
    for caller in "${callers[@]}"; do
        says "$out/$caller" "$image" > "$work/answer"
        cmp -s "$work/answer" "$work/wanted" || { echo "$caller $image differs"; differ=$((differ + 1)); }
    done
    if [ -x "$program" ]; then
        says "$program" verify "$image" > "$work/answer"
        cmp -s "$work/answer" "$work/wanted" || { echo "xdpvm verify $image differs"; differ=$((differ + 1)); }
    fi
done
# A session whose map the host fills and reads.
"$out/maps" > "$work/said" && printf 'interface %d: 3 packets\n' 1 2 | cmp -s - "$work/said" || { echo "maps differs"; differ=$((differ + 1)); }
# A walk through a large map.
"$out/walk" > "$work/said" || { echo "walk differs: $(cat "$work/said")"; differ=$((differ + 1)); }

# The examples of the page, each a whole program.
block() {
    sed -n "/^\`\`\`$1\$/,/^\`\`\`\$/p" "$top/docs/EMBEDDING.md" | sed '1d;$d'
}
# The one in C is compiled in a folder outside the tree, which has the header, the archive and the heap and nothing else.
mkdir "$work/outside"
cp "$here/xdpvm.h" "$work/outside"
cp "$archive" "$work/outside/libxdpvm_c.a"
cp "$heap" "$work/outside/libxdpvm_heap.a"
block c > "$work/outside/page.c"
(cd "$work/outside" && "${CC:-cc}" -std=c11 "${flags[@]}" -o page page.c -L. -lxdpvm_c -lxdpvm_heap)
(cd "$top" && "$work/outside/page") > "$work/said" && [ "$(sed -n 3p "$work/said")" = "interface 2: action 2 after 5 steps" ] || { echo "the page's caller in C differs"; differ=$((differ + 1)); }
if [ ${#callers[@]} = 2 ]; then
    block rust > "$work/page.rs"
    cp "$here/xdpvm.rs" "$work"
    "${RUSTC:-rustc}" --edition 2024 -O -o "$work/page" "$work/page.rs" -C link-arg="$archive" -C link-arg="$heap"
    "$work/page" > "$work/said" && [ "$(sed -n 3p "$work/said")" = "refused V7 slot 0" ] || { echo "the page's caller in Rust differs"; differ=$((differ + 1)); }
fi

images_refused=()
for name in "${refused[@]}"; do images_refused+=("$top/examples/$name.image"); done
"$out/fail" "${images_refused[@]}" > "$work/refused" || { cat "$work/refused"; differ=$((differ + 1)); }
echo "$images images, ${#callers[@]} callers, $(wc -l < "$work/refused") calls without memory, $differ differ"
((differ == 0))
