#!/usr/bin/env bash
# Whole images on arm64: bench/arm64.sh [FOLDER] [--floats] [--only NAME] [--rounds N] [--no-counts] [--no-times] [--plot FILE]
# The tables of bench/whole.sh for arm64 builds of the proved reader (bench/native.sh), the plain one and Esri's library.
# On an arm64 machine they have times and instructions. On x86-64 the programs run under qemu, which counts the instructions
# of a call exactly and whose times say nothing, so none are taken. bench/arm64/tools.sh says what must be installed.
#     bench/arm64.sh one FILE [WAY] [proved|plain|esri]      where the instructions of one image go, on x86-64
# WAY is read, stage, publish, 'stage and publish' or 'walk and fills'; stage and publish are the proved reader's alone.
set -eu
usage="bench/arm64.sh [FOLDER] [--floats] [--only NAME] [--rounds N] [--no-counts] [--no-times] [--plot FILE], or bench/arm64.sh one FILE [read|stage|publish|'stage and publish'|'walk and fills'] [proved|plain|esri]"
root=$(cd "$(dirname "$(readlink -f "$0")")/.." && pwd)
. "$root/bench/words.sh"
if [ "${1:-}" = one ]; then
    if [ $# -lt 2 ] || [ $# -gt 4 ]; then wrong "one to three words after one"; fi
    [ -f "$2" ] || wrong "$2 is no file"
    case ${3:-read} in read | stage | publish | 'stage and publish' | 'walk and fills') ;; *) wrong "no way $3" ;; esac
    case ${4:-proved} in proved | plain | esri) ;; *) wrong "no reader $4" ;; esac
    [ "$(uname -m)" = x86_64 ] || wrong "one: under the emulator, on x86-64, alone; here bench/profile.sh shows it"
    words=(one "$(readlink -f "$2")" "${3:-read}" "${4:-proved}" 4)
else
    read_words "$@"
    case "$(uname -m) ${words[*]} " in
    x86_64*' --no-counts '*) wrong "--no-counts: under the emulator there are counts alone" ;;
    x86_64* | *' --no-counts '*) ;;
    *) needed valgrind ;;
    esac
fi
cd "$root"
. bench/arm64/tools.sh
cargo build -j1 --release --quiet --target "$triple" --features esri --manifest-path bench/whole/Cargo.toml
if [ -n "$run" ]; then
    counter="$run -plugin $place/insns.so"
    gcc -std=gnu11 -O2 -Wall -Wextra -shared -fPIC bench/arm64/insns.c -o "$place/insns.so"
    if [ "${words[0]:-}" = one ]; then
        run="$counter,functions=on"
    else
        words+=(--no-times --counted-by "$counter")
    fi
fi
$run "bench/whole/target/$triple/release/whole" "${words[@]}"
