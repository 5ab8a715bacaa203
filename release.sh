#!/bin/bash
# Makes a release of a commit that the gate has passed: an archive that installs without the toolchain, and Debian packages.
# usage: bash release.sh FOLDER [--trial]       makes the archives in FOLDER
#        bash release.sh --files FOLDER         compares an unpacked archive with its MANIFEST, and its programs with the gate's
#        bash release.sh --check ARCHIVE        builds the archive's commit again, proofs included, and compares the bytes
# The programs and the library are those that .ci/run left with its record of this very commit (checks/record.py); a tree
# with changes that are not committed, or without a record, is refused. With --trial they are those in crates/*/out, the
# MANIFEST says that it is a trial, and the archives are packed in less time. All times in the archives are the commit's, so
# the same build and the same commit give the same archives. It needs the toolchain's `rt` on the path, for the library's
# heap and the licences of its ports, cc, ar and dpkg-deb; without dpkg-deb there are no packages, and a line says so. A file
# LICENSE at the top goes into the archives; where there is none the MANIFEST says so. The last lines are the archives with
# their SHA-256.
# The exit status is 0, or 1 with a message.
set -euo pipefail
umask 022
export LC_ALL=C TZ=UTC
top=$(dirname "$(realpath "$0")")

stop() {
    echo "release.sh: $1" >&2
    exit 1
}

usage() {
    sed -n '2,/^set/{/^set/d;s/^# \?//;p}' "$0"
}

# ---- what is asked for

folder=
trial=
case ${1-} in
    --help | -h) usage && exit 0 ;;
    --files | --check) [ $# -eq 2 ] || { usage >&2 && exit 1; } ;;
    *)
        for word; do
            case $word in
                --trial) trial=yes ;;
                -*) usage >&2 && exit 1 ;;
                *) [ -z "$folder" ] || { usage >&2 && exit 1; } && folder=$word ;;
            esac
        done
        [ -n "$folder" ] || { usage >&2 && exit 1; }
        ;;
esac

work=$(mktemp -d)
trap 'rm -rf "$work"' EXIT

# The files of an unpacked archive, and nothing else, are those of its MANIFEST.
compare_files() {
    local wrong=0
    [ -f "$1/MANIFEST" ] || stop "$1: there is no MANIFEST"
    sed -n '/^files:$/,$p' "$1/MANIFEST" | sed 1d > "$work/wanted"
    list_files "$1" > "$work/found"
    diff "$work/wanted" "$work/found" > "$work/differs" || { cat "$work/differs" && wrong=1; }
    # the programs are those that the gate built
    for name in xdpvm xdpvm_survey xdpvm_filter; do
        if ! grep -q "^built $(sha256sum < "$1/bin/$name" | cut -c -64) crates/$name/out/$name$" "$1/MANIFEST"; then
            echo "bin/$name is not what the MANIFEST says that the gate built" && wrong=1
        fi
    done
    echo "$(wc -l < "$work/found") files, $(grep -c '^[<>]' "$work/differs" || true) differ from the MANIFEST"
    return $wrong
}

# Each file of a folder but its MANIFEST: SHA-256, mode and path; a link with where it leads.
list_files() {
    (cd "$1" && mapfile -t files < <(find . -type f ! -path ./MANIFEST -printf '%P\n') && {
        find . -type l -printf 'link %l %P\n'
        paste -d ' ' <(sha256sum -- "${files[@]}" | cut -c -64) <(stat -c '%a %n' -- "${files[@]}")
    } | sort -k 3)
}

if [ "$1" = --files ]; then
    compare_files "$2"
    exit
fi

# ---- an archive against its commit

if [ "$1" = --check ]; then
    mkdir "$work/unpacked"
    tar -C "$work/unpacked" -xf "$2"
    unpacked=$(echo "$work"/unpacked/*)
    compare_files "$unpacked"
    commit=$(sed -n 's/^commit //p' "$unpacked/MANIFEST")
    git clone -q "$top" "$work/clone"
    git -C "$work/clone" checkout -q "$commit" || stop "the commit $commit is not in this repository"
    mkdir "$work/proofs"
    (cd "$work/clone" && ANEW=yes bash .ci/prove "$work/proofs") | tail -n 1
    differ=0
    while read -r wanted path; do
        found=$(sha256sum < "$work/clone/$path" | cut -c -64)
        [ "$found" = "$wanted" ] || { echo "$path: $found, and the MANIFEST has $wanted" && differ=$((differ + 1)); }
    done < <(sed -n 's/^built \(.*\)$/\1/p' "$unpacked/MANIFEST")
    echo "$(grep -c '^built ' "$unpacked/MANIFEST") files built again, $differ differ"
    exit $((differ > 0))
fi

# ---- what is released

gate=
level=9e
if [ -n "$trial" ]; then
    level=1
    program=$top/crates/xdpvm/out/xdpvm
    survey=$top/crates/xdpvm_survey/out/xdpvm_survey
    filter=$top/crates/xdpvm_filter/out/xdpvm_filter
    library=$top/crates/xdpvm_c/out/libxdpvm_c.a
else
    [ -z "$(git -C "$top" status --porcelain)" ] || stop "there are changes that are not committed: a release is of a commit"
    gate=$(python3 "$top/checks/record.py" --find) || stop "the gate has not passed on this commit here: bash .ci/run"
    program=$gate/xdpvm
    survey=$gate/xdpvm_survey
    filter=$gate/xdpvm_filter
    library=$gate/libxdpvm_c.a
fi
for file in "$program" "$survey" "$filter" "$library"; do
    [ -f "$file" ] || stop "there is no $file: bash .ci/run proves and builds it"
done
rt=$(command -v rt) || stop "rt, the toolchain's command, is not on the path"
kit=$(dirname "$(dirname "$(realpath "$rt")")")
heap=$kit/c/liblibc_c.a
version=$(cat "$top/VERSION")
python3 "$top/checks/version.py" > "$work/said" || stop "$(cat "$work/said")"
[ "$("$program" verify "$top/examples/pass.image")" = "ok bound 2" ] || stop "$program does not verify examples/pass.image"
commit=$(git -C "$top" rev-parse HEAD)
SOURCE_DATE_EPOCH=$(git -C "$top" log -1 --format=%ct)
export SOURCE_DATE_EPOCH
mkdir -p "$folder"
folder=$(cd "$folder" && pwd)
name=xdpvm-$version-x86_64-linux
needs=$(objdump -T "$program" "$survey" "$filter" | grep -o 'GLIBC_[0-9.]*' | sort -V | tail -n 1)

# One archive for linkers, of the library and of its heap, and a shared library of it.
printf 'create %s\naddlib %s\naddlib %s\nsave\nend\n' "$work/libxdpvm.a" "$library" "$heap" | ar -M
strip --strip-debug --enable-deterministic-archives "$work/libxdpvm.a"
ranlib -D "$work/libxdpvm.a"
printf 'XDPVM_%s {\n  global: xdpvm_*;\n  local: *;\n};\n' "${version%.*}" > "$work/versions"
cc -shared -nostartfiles -o "$work/libxdpvm.so" -Wl,-soname,"libxdpvm.so.${version%%.*}" -Wl,--version-script="$work/versions" \
    -Wl,--build-id=none -Wl,-z,relro,-z,now -Wl,--whole-archive "$work/libxdpvm.a" -Wl,--no-whole-archive

# The same objects without shared libraries, for any Linux on x86-64. The object files are there where the programs were proved.
statics=()
[ -f "$program.o" ] && [ -f "$survey.o" ] && [ -f "$filter.o" ] || echo "release.sh: there are no object files of the programs, so no static ones" >&2
for it in "$program" "$survey" "$filter"; do
    [ -f "$program.o" ] && [ -f "$survey.o" ] && [ -f "$filter.o" ] || continue
    statics+=("$work/$(basename "$it")-static")
    cc -static-pie -Wl,--build-id=none -o "$work/$(basename "$it")-static" "$it.o" "$kit/c/libos_c.a" "$heap" "$kit/c/libos_c.a"
done

# The licences of the toolchain's ports of Rust crates that the programs have in them.
notices() {
    local crate file
    sed 's/#.*//' "$top/crates.txt" | cut -d : -f 2 | tr ' ' '\n' | sort -u | while read -r crate; do
        [ -n "$crate" ] && [ ! -d "$top/crates/$crate" ] || continue
        for file in "$kit/rattle/$crate"/{LICENSE-MIT,LICENSE}; do
            [ -f "$file" ] || continue
            printf -- '---- %s\n\n' "$crate"
            cat "$file"
            echo
            break
        done
    done
}

# What is told of all files: FOLDER
manifest() {
    echo "xdpvm $version"
    echo "commit $commit"
    echo "commit-date $(date -u -d "@$SOURCE_DATE_EPOCH" +%Y-%m-%dT%H:%M:%SZ)"
    if [ -n "$gate" ]; then
        python3 - "$gate/record.json" << 'END'
import json, sys
record = json.load(open(sys.argv[1], encoding="utf-8"))
print("toolchain", record["toolchain"])
print("gate", record["gate"])
print("gate-date", record["date"], "cores", record["cores"], "seconds", record["seconds"])
END
    else
        echo "toolchain $(rt version)"
        echo "gate none: this is a trial"
    fi
    echo "needs libc.so.6 with $needs$([ ${#statics[@]} -eq 0 ] || echo '; the -static programs need nothing')"
    echo "formats images XBP1 XBP2, frame streams XPF1 XPF2, proof tables XPT1"
    echo "licence $([ -f "$top/LICENSE" ] && echo LICENSE || echo 'none: nobody has said what others may do with these files')"
    echo "rests bin/xdpvm: xdpvm::execute_given; of its runs host::run: reports, of verify explorer::verify: verified, of recheck rechecking::recheck: verified"
    echo "rests bin/xdpvm_survey: survey_commands::execute_given; of a row surveys::judge: says"
    echo "rests bin/xdpvm_filter: filtering::execute_given; of its runs host::run_counted_from: reports"
    echo "rests lib/libxdpvm.a: the clauses of the exports of crates/xdpvm_c"
    echo "linked lib/libxdpvm.so${statics[*]:+, bin/xdpvm-static, bin/xdpvm_survey-static, bin/xdpvm_filter-static}: of the same objects by cc; that link is outside the proofs"
    for it in "xdpvm/out/xdpvm" "xdpvm_survey/out/xdpvm_survey" "xdpvm_filter/out/xdpvm_filter" "xdpvm_c/out/libxdpvm_c.a"; do
        file=${gate:+$gate/$(basename "$it")}
        echo "built $(sha256sum < "${file:-$top/crates/$it}" | cut -c -64) crates/$it"
    done
    echo "files:"
    list_files "$1"
}

pkg_config() {
    cat << END
prefix=$1
includedir=\${prefix}/include
libdir=\${prefix}/lib${2-}

Name: xdpvm
Description: verifies and runs BPF programs of type XDP, proved
Version: $version
Cflags: -I\${includedir}
Libs: -L\${libdir} -l:libxdpvm.a
END
}

# The safe module for Rust as a crate, which finds the library by XDPVM_LIB, or as a linker finds it: FOLDER
rust_crate() {
    mkdir -p "$1/src"
    install -m 644 "$top/examples/embed/xdpvm.rs" "$1/src/lib.rs"
    printf '[package]\nname = "xdpvm"\nversion = "%s"\nedition = "2024"\nlinks = "xdpvm"\nbuild = "build.rs"\n' "$version" > "$1/Cargo.toml"
    cat > "$1/build.rs" << 'END'
//! Where libxdpvm.a is: in the folder XDPVM_LIB, or where the linker looks.
fn main() {
    println!("cargo:rerun-if-env-changed=XDPVM_LIB");
    if let Ok(folder) = std::env::var("XDPVM_LIB") {
        println!("cargo:rustc-link-search=native={folder}");
    }
    println!("cargo:rustc-link-lib=static=xdpvm");
}
END
}

# The library's files: INCLUDE LIB PREFIX [FOLDER OF LIB]
put_library() {
    install -D -m 644 "$top/examples/embed/xdpvm.h" "$1/xdpvm.h"
    install -D -m 644 "$work/libxdpvm.a" "$2/libxdpvm.a"
    install -m 644 "$work/libxdpvm.so" "$2/libxdpvm.so.$version"
    ln -sf "libxdpvm.so.$version" "$2/libxdpvm.so.${version%%.*}"
    ln -sf "libxdpvm.so.${version%%.*}" "$2/libxdpvm.so"
    mkdir -p "$2/pkgconfig"
    pkg_config "$3" "${4-}" > "$2/pkgconfig/xdpvm.pc"
}

stamped() {
    find "$1" -exec touch -h -d "@$SOURCE_DATE_EPOCH" {} +
}

# ---- the archive

tree=$work/$name
bash "$top/install.sh" "$tree/bin" "$program" "$survey" "$filter" > "$work/said"
rm -rf "${tree:?}/lib" "${tree:?}/include"
if [ ${#statics[@]} -gt 0 ]; then install -m 755 "${statics[@]}" "$tree/bin"; fi
put_library "$tree/include" "$tree/lib" "\${pcfiledir}/../.."
rust_crate "$tree/share/xdpvm/rust"
mkdir -p "$tree/share/xdpvm/examples/embed" "$tree/share/xdpvm/examples/bridge"
install -m 644 "$top"/examples/embed/*.{c,rs,h} "$tree/share/xdpvm/examples/embed"
install -m 644 "$top"/examples/bridge/*.{c,h,text} "$tree/share/xdpvm/examples/bridge"
install -m 644 "$top/CHANGELOG.md" "$top/SECURITY.md" "$tree"
if [ -f "$top/LICENSE" ]; then install -m 644 "$top/LICENSE" "$tree"; fi
notices > "$tree/NOTICES"
find "$tree" -name __pycache__ -prune -exec rm -rf {} +
manifest "$tree" > "$tree/MANIFEST"
stamped "$tree"
tar -C "$work" --sort=name --owner=0 --group=0 --numeric-owner --format=ustar -cf - "$name" | xz "-$level" --threads=1 > "$folder/$name.tar.xz.part"
mv "$folder/$name.tar.xz.part" "$folder/$name.tar.xz"
(cd "$folder" && sha256sum "$name.tar.xz")

# ---- the Debian packages

command -v dpkg-deb > /dev/null || { echo "release.sh: there is no dpkg-deb, so no Debian packages" >&2 && exit 0; }
maintainer=${MAINTAINER:-xdpvm developers <xdpvm@example.org>}

# The head of a package: PACKAGE SECTION DEPENDS SUMMARY RECOMMENDS; its description on standard input.
control() {
    cat << END
Package: $1
Source: xdpvm
Version: $version-1
Architecture: amd64
Maintainer: $maintainer
Installed-Size: $(du -k -s --apparent-size "$work/$1" | cut -f 1)
Section: $2
Priority: optional
Depends: $3
END
    if [ -n "$5" ]; then printf 'Recommends: %s\nSuggests: clang\n' "$5"; fi
    echo "Description: $4"
    cat
}

# Makes a package of its tree: PACKAGE
packed() {
    local tree=$work/$1 doc=$work/$1/usr/share/doc/$1
    mkdir -p "$doc" "$tree/usr/share/lintian/overrides"
    {
        printf 'Format: https://www.debian.org/doc/packaging-manuals/copyright-format/1.0/\nUpstream-Name: xdpvm\n\nFiles: *\n'
        printf 'Copyright: the xdpvm developers\nLicense: see-below\n'
        if [ -f "$top/LICENSE" ]; then sed 's/^[[:space:]]*$/./;s/^/ /' "$top/LICENSE"; else echo " There is no licence yet."; fi
        printf 'Comment: what is linked in of ports of Rust crates has licences of its own, which are in\n NOTICES.gz beside this file.\n'
    } > "$doc/copyright"
    printf 'xdpvm (%s-1) unstable; urgency=medium\n\n  * Release of commit %s.\n\n -- %s  %s\n' "$version" "$commit" "$maintainer" \
        "$(date -u -R -d "@$SOURCE_DATE_EPOCH")" | gzip -9n > "$doc/changelog.Debian.gz"
    gzip -9n < "$top/CHANGELOG.md" > "$doc/changelog.gz"
    notices | gzip -9n > "$doc/NOTICES.gz"
    printf '%s: %s\n' "$1" 'initial-upload-closes-no-bugs' "$1" 'unstripped-binary-or-object' "$1" 'no-manual-page *' > "$tree/usr/share/lintian/overrides/$1"
    find "$tree" -type d -exec chmod 755 {} +
    (cd "$tree" && find usr -type f -print0 | sort -z | xargs -0 md5sum > DEBIAN/md5sums)
    stamped "$tree"
    dpkg-deb --root-owner-group -Zxz ${trial:+-z1} -b "$tree" "$folder/$1_$version-1_amd64.deb" > "$work/said"
    (cd "$folder" && sha256sum "$1_$version-1_amd64.deb")
}

tree=$work/xdpvm/usr
mkdir -p "$work/xdpvm/DEBIAN" "$work/libxdpvm-dev/DEBIAN"
bash "$top/install.sh" "$tree/bin" "$program" "$survey" "$filter" > "$work/said"
rm -rf "${tree:?}/lib" "${tree:?}/include"
mkdir -p "$tree/share/doc/xdpvm"
mv "$tree/share/zsh/site-functions" "$tree/share/zsh/vendor-completions"
gzip -9n "$tree"/share/man/man1/*.1
install -m 644 "$top/SECURITY.md" "$tree/share/doc/xdpvm"
find "$tree" -name __pycache__ -prune -exec rm -rf {} +
manifest "$tree" > "$tree/share/doc/xdpvm/MANIFEST"
control xdpvm net "libc6 (>= ${needs#GLIBC_})" "proved verifier and virtual machine for XDP programs" python3 > "$work/xdpvm/DEBIAN/control" << 'END'
 xdpvm verifies BPF programs of type XDP, runs them on streams of packet frames,
 and assembles and disassembles them. That every run of an accepted program ends
 and stays in its memory is proved.
 .
 xdpvm_survey judges many images at once, and xdpvm_filter runs a filter whose
 maps are filled, and counts. The xdpvm-* commands run filters on captures,
 convert captures and objects, and need python3.
END
packed xdpvm
tree=$work/libxdpvm-dev/usr
put_library "$tree/include" "$tree/lib/x86_64-linux-gnu" /usr /x86_64-linux-gnu
rm "$tree"/lib/x86_64-linux-gnu/*.so*
mkdir -p "$tree/share/doc/libxdpvm-dev/examples"
install -m 644 "$top/examples/embed/"{embed.c,maps.c,fuzz.c,xdpvm.rs} "$tree/share/doc/libxdpvm-dev/examples"
install -D -m 644 -t "$tree/share/doc/libxdpvm-dev/examples/bridge" "$top"/examples/bridge/*.{c,h,text}
install -m 644 "$top/docs/EMBEDDING.md" "$tree/share/doc/libxdpvm-dev"
rust_crate "$tree/share/xdpvm/rust"
control libxdpvm-dev libdevel "libc6-dev | libc-dev" "proved verifier and virtual machine for XDP programs - library" "" > "$work/libxdpvm-dev/DEBIAN/control" << 'END'
 The verifier and both machines of xdpvm as a library for C and Rust, with its
 header, a crate for Rust and examples.
END
packed libxdpvm-dev
