#!/usr/bin/env bash
# Instructions of one call of lerc2_sum, by callgrind: bench/sum.sh
# Four sorts of pairs of finite numbers, 200,000 pairs each; the same loop without the call is taken off. Prints one table,
# the same one each time for the same archive. LERC2_LIBDIR names the folder of another archive, so that two can be compared;
# without it the archive is proved and written first where it is not made from the sources as they are.
set -eu
usage=bench/sum.sh
root=$(cd "$(dirname "$(readlink -f "$0")")/.." && pwd)
. "$root/bench/words.sh"
case ${1:-} in
-h | --help)
    echo "usage: $usage"
    exit 0
    ;;
esac
[ $# -eq 0 ] || wrong "unknown word $1"
needed cc valgrind
if [ -z "${LERC2_LIBDIR:-}" ]; then
    "$root/tools/archive.sh"
    LERC2_LIBDIR=$root/target/staticlib
fi
[ -f "$LERC2_LIBDIR/liblerc_c.a" ] || { echo "sum.sh: $LERC2_LIBDIR/liblerc_c.a is not there" >&2; exit 2; }
dir=$(mktemp -d)
trap 'rm -rf "$dir"' EXIT
cc -std=c11 -O2 -Wall -Wextra -I "$root/include" "$root/bench/sum.c" "$LERC2_LIBDIR/liblerc_c.a" -o "$dir/sum"

counted() { # SORT WAY
    valgrind --tool=callgrind --callgrind-out-file=/dev/null "$dir/sum" "$@" 2>&1 | sed -n 's/.*Collected : //p'
}

printf '| operands | instructions a call |\n|---|---|\n'
for sort in positive opposite either any; do
    with=$(counted $sort sum) without=$(counted $sort none)
    printf '| %s | %s |\n' "$("$dir/sum" $sort name)" "$(awk -v n="$with" -v m="$without" 'BEGIN { printf "%.2f", (n - m) / 200000 }')"
done
