#!/usr/bin/env bash
# What valid pixels cost, by instructions: bench/mask.sh
# A mask prepared by runs and by reuse, and walks and whole reads of images whose pixels are all valid or not, made by the
# program. Prints one table, the same one each time for the same archive; takes less than a minute. LERC2_LIBDIR names the
# folder of another archive, so that two can be compared. With ESRI=1 Esri's library (liblerc-dev) is counted too.
set -eu
usage=bench/mask.sh
root=$(cd "$(dirname "$(readlink -f "$0")")/.." && pwd)
. "$root/bench/words.sh"
case ${1:-} in
-h | --help)
    echo "usage: $usage"
    exit 0
    ;;
esac
[ $# -eq 0 ] || wrong "unknown word $1"
needed cargo valgrind
read_esri
cargo build -j1 --release --quiet "${features[@]}" --manifest-path "$root/bench/whole/Cargo.toml"
"${CARGO_TARGET_DIR:-$root/bench/whole/target}/release/whole" mask
