#!/usr/bin/env bash
# Instructions of one call on an image of one tile: bench/fill.sh [NAME=FOLDER NAME=FOLDER]
# Of lerc2_read_ranges, lerc2_walk and lerc2_fill, block by block, and of lerc2_read: 8 by 8 pixels in packed blocks, one for
# each depth, of which a fill has the last one. First the cells must be right. Counted by callgrind as the difference of 201
# calls and 101. Prints one table, the same one each time for the same archive. Each FOLDER has a liblerc_c.a, as of the
# sources before and after a change, and has a column under its NAME, where a refusal of the image stands too. Without them
# LERC2_LIBDIR names the folder of one archive; without that too the archive is proved and written first where it is not made
# from the sources as they are. Ends with 1 if cells are wrong.
set -eu
usage='bench/fill.sh [NAME=FOLDER NAME=FOLDER]'
root=$(cd "$(dirname "$(readlink -f "$0")")/.." && pwd)
. "$root/bench/words.sh"
names=() archives=()
case ${1:-} in
-h | --help)
    echo "usage: $usage"
    exit 0
    ;;
'') ;;
*)
    read_archives "$@"
    [ $# -eq 2 ] || wrong "two archives, and not $3 too"
    ;;
esac
needed cc valgrind
if [ ${#names[@]} -eq 0 ]; then
    if [ -z "${LERC2_LIBDIR:-}" ]; then
        "$root/tools/archive.sh"
        LERC2_LIBDIR=$root/target/staticlib
    fi
    [ -f "$LERC2_LIBDIR/liblerc_c.a" ] || { echo "fill.sh: $LERC2_LIBDIR/liblerc_c.a is not there" >&2; exit 2; }
    names=(instructions) archives=("$LERC2_LIBDIR")
fi
dir=$(mktemp -d)
trap 'rm -rf "$dir"' EXIT
for n in "${!names[@]}"; do
    cc -std=gnu11 -O2 -Wall -Wextra -I "$root/include" "$root/bench/fill.c" "${archives[n]}/liblerc_c.a" -o "$dir/fill$n"
done

# words and environment lie on the stack, and how it is aligned counts: they are as long for each archive and each count
counted() { # NUMBER KIND DEPTH WAY CALLS
    env -i PATH="$PATH" valgrind --tool=callgrind --callgrind-out-file=/dev/null "$dir/fill$1" "${@:2}" 2>&1 |
        sed -n 's/.*Collected : //p'
}
# the instructions of a call, or why the image is refused
cost() { # NUMBER KIND DEPTH WAY
    local refused status=0
    refused=$("$dir/fill$1" "${@:2}" 1) || status=$?
    case $status in
    0) awk -v n="$(counted "$@" 201)" -v m="$(counted "$@" 101)" 'BEGIN { printf "%.0f", (n - m) / 100 }' ;;
    3) echo "$refused" ;;
    *)
        echo "fill.sh: ${names[$1]}: wrong cells of $2, depth $3" >&2
        exit 1
        ;;
    esac
}
times() { # COST COST
    case "$1$2" in
    *[!0-9]*) echo - ;;
    *) awk -v n="$1" -v m="$2" 'BEGIN { printf "%.2f", m / n }' ;;
    esac
}

head='| image | call |' line='|---|---|'
for name in "${names[@]}"; do head+=" $name |" line+='---|'; done
[ ${#names[@]} -eq 1 ] || { head+=' times |' line+='---|'; }
printf '%s\n%s\n' "$head" "$line"
for image in 'u8 1' 'f32 1' 'u8 64' 'f32 64'; do
    read -r kind depth <<<"$image"
    for way in read_ranges walk fill read; do
        costs=()
        for n in "${!names[@]}"; do
            one=$(cost "$n" "$kind" "$depth" $way)
            costs+=("$one")
        done
        printf '| %s 8x8x%s | lerc2_%s |' "$kind" "$depth" $way
        printf ' %s |' "${costs[@]}"
        [ ${#costs[@]} -eq 1 ] || printf ' %s |' "$(times "${costs[@]}")"
        echo
    done
done
