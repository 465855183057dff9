#!/usr/bin/env bash
# Instructions and time of a checksum, beside Esri's own function: bench/checksum.sh LIBLERC.a
# LIBLERC.a is Esri's library as an archive, compiled from its source by `g++ -O2`: its shared library does not hand the
# function out. Four counts of bytes; instructions by callgrind, what making the bytes takes is taken off; times are the
# best of 200 rounds. Prints one table, and ends with 1 if a checksum is not Esri's. LERC2_LIBDIR names the folder of another
# archive; without it the archive is proved and written first where it is not made from the sources as they are.
set -eu
usage='bench/checksum.sh LIBLERC.a'
root=$(cd "$(dirname "$(readlink -f "$0")")/.." && pwd)
. "$root/bench/words.sh"
case ${1:-} in
-h | --help)
    echo "usage: $usage"
    exit 0
    ;;
esac
[ $# -eq 1 ] || wrong "one word is asked for, Esri's library as an archive"
[ -f "$1" ] || wrong "$1 is not there"
needed cc valgrind
if [ -z "${LERC2_LIBDIR:-}" ]; then
    "$root/tools/archive.sh"
    LERC2_LIBDIR=$root/target/staticlib
fi
[ -f "$LERC2_LIBDIR/liblerc_c.a" ] || { echo "checksum.sh: $LERC2_LIBDIR/liblerc_c.a is not there" >&2; exit 2; }
dir=$(mktemp -d)
trap 'rm -rf "$dir"' EXIT
cc -std=gnu11 -O2 -Wall -Wextra -I "$root/include" "$root/bench/checksum.c" "$LERC2_LIBDIR/liblerc_c.a" "$1" -lstdc++ -lm -o "$dir/checksum"

counted() { # SIDE COUNT WAY
    valgrind --tool=callgrind --callgrind-out-file=/dev/null "$dir/checksum" "$@" 2>&1 | sed -n 's/.*Collected : //p'
}
# instructions for each byte of COUNT: what making the bytes and writing the answer takes is that of no byte
apart() { # SIDE COUNT
    awk -v n="$(counted "$1" "$2" once)" -v m="$(counted "$1" 0 once)" -v c="$2" 'BEGIN { printf "%.2f", (n - m) / c }'
}

other=0
printf '| bytes | instructions a byte | of Esri | times | ns a byte | of Esri |\n|---|---|---|---|---|---|\n'
for count in 64 1000 65536 1048575; do
    [ "$("$dir/checksum" proved $count once)" = "$("$dir/checksum" esri $count once)" ] || other=1
    ours=$(apart proved $count) theirs=$(apart esri $count)
    printf '| %s | %s | %s | %s | %s | %s |\n' $count "$ours" "$theirs" "$(awk -v a="$ours" -v b="$theirs" 'BEGIN { printf "%.2f", a / b }')" \
        "$("$dir/checksum" proved $count time)" "$("$dir/checksum" esri $count time)"
done
[ $other -eq 0 ] || { echo "checksum.sh: a checksum is not Esri's" >&2; exit 1; }
