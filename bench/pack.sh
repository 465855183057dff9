#!/usr/bin/env bash
# Instructions of opening a pack, for each of its 256 tiles: bench/pack.sh
# The tiles are the rules' own blob, as it is and with bytes behind its body, with a minimum and a maximum of each sign.
# Counted by callgrind as the difference of eleven openings and one; beside it what the checksums of the same blobs take,
# each called from C by itself, and what is left. Prints one table, and ends with 1 if more than 100 are left of a tile.
# LERC2_LIBDIR names the folder of another archive; without it the archive is proved and written first where it is not made
# from the sources as they are.
set -eu
usage='bench/pack.sh'
root=$(cd "$(dirname "$(readlink -f "$0")")/.." && pwd)
. "$root/bench/words.sh"
case ${1:-} in
-h | --help)
    echo "usage: $usage"
    exit 0
    ;;
esac
[ $# -eq 0 ] || wrong "no word is known"
needed cc valgrind
if [ -z "${LERC2_LIBDIR:-}" ]; then
    "$root/tools/archive.sh"
    LERC2_LIBDIR=$root/target/staticlib
fi
[ -f "$LERC2_LIBDIR/liblerc_c.a" ] || { echo "pack.sh: $LERC2_LIBDIR/liblerc_c.a is not there" >&2; exit 2; }
dir=$(mktemp -d)
trap 'rm -rf "$dir"' EXIT
cc -std=gnu11 -O2 -Wall -Wextra -I "$root/include" "$root/bench/pack.c" "$LERC2_LIBDIR/liblerc_c.a" -o "$dir/pack"

counted() { # WHAT SIZE LEAST MOST ROUNDS
    valgrind --tool=callgrind --callgrind-out-file="$dir/out" "$dir/pack" "$@" <"$root/crates/lerc2/stdin" 2>&1 | sed -n 's/.*Collected : //p'
}
each() { # WHAT SIZE LEAST MOST
    awk -v n="$(counted "$@" 11)" -v m="$(counted "$@" 1)" 'BEGIN { printf "%.1f", (n - m) / 10 / 256 }'
}

most=0
printf '| bytes a tile | minimum, maximum | opening, a tile | its checksum | beside it |\n|---|---|---|---|---|\n'
for size in 79 997 16384; do
    for pair in '10 12' '-10 12' '-12 -10' '0 -0.0'; do
        set -- $pair
        opened=$(each open $size "$1" "$2") summed=$(each sum $size "$1" "$2")
        left=$(awk -v a="$opened" -v b="$summed" 'BEGIN { printf "%.1f", a - b }')
        printf '| %s | %s, %s | %s | %s | %s |\n' $size "$1" "$2" "$opened" "$summed" "$left"
        ! awk -v l="$left" 'BEGIN { exit !(l > 100) }' || most=1
    done
done
[ $most -eq 0 ] || { echo "pack.sh: more than 100 instructions beside the checksum" >&2; exit 1; }
