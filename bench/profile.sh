#!/usr/bin/env bash
# Where the instructions of one call go: bench/profile.sh FILE [read|'walk and fills'] [proved|plain]
set -eu
usage="bench/profile.sh FILE [read|'walk and fills'] [proved|plain]"
root=$(cd "$(dirname "$(readlink -f "$0")")/.." && pwd)
. "$root/bench/words.sh"
if [ $# -lt 1 ] || [ $# -gt 3 ]; then wrong "one to three words"; fi
[ -f "$1" ] || wrong "$1 is no file"
case ${2:-read} in read | 'walk and fills') ;; *) wrong "no way $2" ;; esac
case ${3:-proved} in proved | plain) ;; *) wrong "no reader $3" ;; esac
needed cargo valgrind callgrind_annotate
whole=${CARGO_TARGET_DIR:-$root/bench/whole/target}/release/whole
cargo build -j1 --release --quiet --manifest-path "$root/bench/whole/Cargo.toml"
# first without valgrind, which would not show why a blob is refused
"$whole" one "$1" "${2:-read}" "${3:-proved}"
out=$(mktemp)
trap 'rm -f "$out"' EXIT
valgrind --tool=callgrind --callgrind-out-file="$out" --toggle-collect='measured_*' \
    "$whole" one "$1" "${2:-read}" "${3:-proved}" 2>/dev/null
callgrind_annotate --auto=no "$out" | sed -n '/^Ir/,$p' | grep '%' | sed 's/ \[.*//' | head -12
