#!/usr/bin/env bash
# Instructions a pixel of Huffman images of bytes, beside Esri's library: bench/huffman.sh FOLDER
# FOLDER has blobs called NAME.lerc2; those that are no Huffman image are named and left out. First both must find the same
# pixels valid and give them the same cells. Then stage, publish behind it, a whole read and Esri's lerc_decode are counted by
# callgrind, each as the difference of two calls and one, for each pixel, valid or not, with all its depths; Esri's is asked for
# a mask only where a pixel is not valid. Prints one table in the form of docs/SPEED.md, and ends with 1 if cells differ, or if
# a whole read of 256 x 256 pixels or more takes more than 2.0 times Esri's instructions. Needs valgrind and Esri's library
# (Debian: liblerc-dev); a blob takes some seconds. LERC2_LIBDIR names the folder of another archive; without it the archive
# is proved and written first where it is not made from the sources as they are.
set -eu
usage='bench/huffman.sh FOLDER'
root=$(cd "$(dirname "$(readlink -f "$0")")/.." && pwd)
. "$root/bench/words.sh"
case ${1:-} in
-h | --help)
    echo "usage: $usage"
    exit 0
    ;;
-*) wrong "unknown word $1" ;;
esac
[ $# -eq 1 ] || wrong "one word is asked for, a folder of blobs"
[ -d "$1" ] || wrong "$1 is no folder"
needed cc valgrind
needed_esri
if [ -z "${LERC2_LIBDIR:-}" ]; then
    "$root/tools/archive.sh"
    LERC2_LIBDIR=$root/target/staticlib
fi
[ -f "$LERC2_LIBDIR/liblerc_c.a" ] || { echo "huffman.sh: $LERC2_LIBDIR/liblerc_c.a is not there" >&2; exit 2; }
dir=$(mktemp -d)
trap 'rm -rf "$dir"' EXIT
cc -std=gnu11 -O2 -Wall -Wextra -I "$root/include" "$root/bench/huffman.c" "$LERC2_LIBDIR/liblerc_c.a" -lLerc -o "$dir/huffman"

counted() { # WAY CALLS
    valgrind --tool=callgrind --callgrind-out-file=/dev/null "$dir/huffman" "$@" <"$blob" 2>&1 | sed -n 's/.*Collected : //p'
}
of_one() { echo $(($(counted "$1" 2) - $(counted "$1" 1))); } # WAY
a_pixel() { awk -v n="$1" -v of="$2" 'BEGIN { printf "%.2f", n / of }'; }

# first all of them, so that no table is begun where one differs
blobs=() looks=()
for blob in "$1"/*.lerc2; do
    [ -f "$blob" ] || continue
    name=$(basename "$blob" .lerc2) status=0
    seen=$("$dir/huffman" look <"$blob") || status=$?
    case $status in
    0) blobs+=("$blob") looks+=("$seen") ;;
    3) echo "huffman.sh: left out: $name ($seen)" >&2 ;;
    *)
        echo "huffman.sh: $name: not as Esri's library has it: $seen" >&2
        exit 1
        ;;
    esac
done
[ ${#blobs[@]} -gt 0 ] || { echo "huffman.sh: $1 has no Huffman image" >&2; exit 2; }

missed=()
printf '| image | mode, codes | stage | publish | both, a whole read | Esri | times | bar |\n|---|---|---|---|---|---|---|---|\n'
for k in "${!blobs[@]}"; do
    blob=${blobs[k]} name=$(basename "${blobs[k]}" .lerc2)
    IFS=$'\t' read -r pixels size codes <<<"${looks[k]}"
    case $name in *"$size"*) shown=$name ;; *) shown="$name ($size)" ;; esac
    staged=$(of_one stage) published=$(of_one publish) both=$(of_one read) theirs=$(of_one esri) bar=-
    if [ "$pixels" -ge 65536 ]; then
        bar=2.0
        [ "$both" -le $((2 * theirs)) ] || missed+=("$name")
    fi
    printf '| %s | %s | %s | %s | %s | %s | %s | %s |\n' "$shown" "$codes" "$(a_pixel "$staged" "$pixels")" \
        "$(a_pixel "$published" "$pixels")" "$(a_pixel "$both" "$pixels")" "$(a_pixel "$theirs" "$pixels")" \
        "$(a_pixel "$both" "$theirs")" "$bar"
done
[ ${#missed[@]} -eq 0 ] || { echo "huffman.sh: more than 2.0 times Esri's instructions: ${missed[*]}" >&2; exit 1; }
