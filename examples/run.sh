#!/bin/bash
# Runs xdpvm on programs and frames of any format: texts, images, objects of clang; frame streams,
# captures.
# usage: bash examples/run.sh, which prints it
# Without an xdpvm beside it, or a proved one in the repository, one is built without proofs (unproved.py), and kept.
set -eu
here=$(dirname "$(realpath "$0")")
tools=$here
[ -e "$tools/frames.py" ] || tools=$here/../tools

usage() {
    cat <<END
usage: bash $0 asm TEXT IMAGE
       bash $0 dis PROGRAM
       bash $0 verify PROGRAM
       bash $0 [--reasons] run PROGRAM FRAMES [OUT]
       bash $0 [--reasons] [trace] PROGRAM FRAMES [OUT] [--limit N]

PROGRAM is a program text, an image, or an object that clang compiled (image.py). FRAMES is a frame stream, a capture
(pcap, pcapng), packed by gzip or not, or a text of frames (frames.py); with --reasons they become a stream with reasons.
Each is given by its path, or by the name of one in examples/, as in \`run filter numbers\`. OUT gets the frames that
are sent on, as a capture if its name ends in .pcap or .pcapng; it may be none of the files that are read. The status is
that of xdpvm.

The program is the xdpvm beside this script, where install.sh puts both, or the proved one of this repository. Where there is
none it is built without proofs first, in about two minutes, and kept while the sources stay as they are.
END
}

stop() {
    echo "run.sh: $1" >&2
    exit 1
}

# The file that a word names: by its path, or one of those beside this script with an ending.
file_of() {
    local word=$1 ending
    shift
    if [ -e "$word" ] && [ ! -d "$word" ]; then
        realpath -s "$word"
        return
    fi
    for ending; do
        if [ -f "$here/$word.$ending" ]; then
            echo "$here/$word.$ending"
            return
        fi
    done
    stop "there is no file $word, and no example of that name"
}

# What a file is, by its first bytes: image, object, stream, capture, packed, or other.
form_of() {
    case $1 in *.image) echo image && return ;; *.frames) echo stream && return ;; esac
    if [ ! -f "$1" ]; then
        echo stream
        return
    fi
    case $(head -c 4 "$1" | od -An -tx1 | tr -d ' ') in
        5842503?) echo image ;;
        5850463?) echo stream ;;
        7f454c46) echo object ;;
        d4c3b2a1 | a1b2c3d4 | 4d3cb2a1 | a1b23c4d | 0a0d0d0a) echo capture ;;
        1f8b*) echo packed ;;
        *) echo other ;;
    esac
}

# ---- what is asked for

reasons=()
limit=()
words=()
while [ $# -gt 0 ]; do
    case $1 in
        --help | -h) usage && exit 0 ;;
        --reasons) reasons=(--reasons) ;;
        --limit)
            limit=(--limit "${2-}")
            [ $# -gt 1 ] && shift
            ;;
        --limit=*) limit=("$1") ;;
        -?*) usage >&2 && exit 1 ;;
        *) words+=("$1") ;;
    esac
    shift
done
case ${words[0]-} in
    asm | dis | verify | run | trace)
        command=${words[0]}
        words=("${words[@]:1}")
        ;;
    *) command=trace ;;
esac
case $command/${#words[@]}/${#limit[@]} in
    asm/2/0 | dis/1/0 | verify/1/0 | run/[23]/0 | trace/[23]/?) ;;
    *) usage >&2 && exit 1 ;;
esac

# ---- the program: the one beside this script, the proved one of this repository, or one that is built without proofs

program=$(dirname "$0")/xdpvm
[ -x "$program" ] || program=$here/../crates/xdpvm/out/xdpvm
[ -x "$program" ] || program=$(python3 "$tools/unproved.py") || exit 1

# Converts frames by the xdpvm_filter that is where xdpvm is. A capture that was cut counts up to there.
convert() {
    local filter status=0
    filter=$(dirname "$program")/xdpvm_filter
    [ -x "$filter" ] || filter=$here/../crates/xdpvm_filter/out/xdpvm_filter
    [ -x "$filter" ] || filter=$(python3 "$tools/unproved.py" xdpvm_filter) || exit 1
    "$filter" convert "$@" 2> "$work/converted" || status=$?
    cat "$work/converted" >&2
    [ $status -eq 0 ] || { [ $status -eq 3 ] && grep -q 'the file was cut' "$work/converted"; } || exit $status
}

# ---- the files: texts are assembled first, captures turned into streams

work=$(mktemp -d)
part=
trap 'rm -rf "$work" "$part"' EXIT

# Refuses to write over a file that is read.
refuse_inputs() {
    local out=$1 read
    shift
    for read; do
        if [ -f "$out" ] && [ "$out" -ef "$read" ]; then
            stop "$out: it is one of the files that are read"
        fi
    done
}

status=0
if [ "$command" = asm ]; then
    "$program" asm "$(file_of "${words[0]}" text)" "${words[1]}" || status=$?
    exit $status
fi
given=$(file_of "${words[0]}" image text)
image=$given
case $(form_of "$given") in
    object)
        image=$work/image
        python3 "$tools/image.py" "$given" "$image"
        ;;
    other)
        image=$work/image
        "$program" asm "$given" "$image" > "$work/answer" || status=$?
        if [ $status -ne 0 ]; then
            cat "$work/answer"
            exit $status
        fi
        ;;
esac
if [ ${#words[@]} -eq 1 ]; then
    "$program" "$command" "$image" || status=$?
    exit $status
fi
[ ! -e "$image.maps" ] || stop "$given: its variables begin with values ($(basename "$image").maps); xdp.py runs it with them"
frames=$(file_of "${words[1]}" frames pcapng)
out=${words[2]-}
refuse_inputs "$out" "$given" "$frames"
if [ "$(form_of "$frames")" = packed ]; then
    gzip -dc "$frames" > "$work/unpacked" || stop "$frames: what gzip packed is not whole"
    frames=$work/unpacked
fi
case $(form_of "$frames") in
    stream) ;;
    capture)
        convert "${reasons[@]}" "$frames" "$work/in.frames"
        frames=$work/in.frames
        ;;
    *)
        python3 "$tools/frames.py" "${reasons[@]}" "$frames" "$work/in.frames"
        frames=$work/in.frames
        ;;
esac

# ---- the run; a file OUT takes its name once it is whole

kind=
case $out in
    '') ;;
    *.pcap) kind=pcap ;;
    *.pcapng) kind=pcapng ;;
    *) kind=frames ;;
esac
made=$out
if [ -n "$out" ] && { [ ! -e "$out" ] || [ -f "$out" ]; }; then
    part=$(mktemp "$(dirname "$out")/.$(basename "$out").XXXXXX")
    made=$part
fi
sent=$work/sent.frames
if [ "$kind" = frames ]; then
    sent=$made
fi
"$program" "$command" "$image" "$frames" "$sent" "${limit[@]}" || status=$?
if [ $status -eq 0 ] || [ $status -eq 3 ]; then
    case $kind in pcap*) convert --to "$kind" "$sent" "$made" ;; esac
    if [ -n "$part" ]; then
        chmod --reference="$out" "$part" 2> /dev/null || chmod "$(printf '%o' $((0666 & ~$(umask))))" "$part"
        mv "$part" "$(realpath "$out")"
    fi
fi
exit $status
