#!/usr/bin/env bash
# Tests the arm64 archive (bench/native.sh): tests/arm64.sh [FOLDER..]
# The C examples on stored blobs with Esri's cells, the places of refusals, stage and publish, packs, checksums, float units
# that were changed, the tests of rust/lerc2, the arithmetic against whole numbers, the comparison with the plain reader, and with
# Esri's library. Blobs NAME.lerc2 of FOLDERs are compared with the plain reader too. On x86-64 all of it runs under qemu, and
# takes some minutes.
# bench/arm64/tools.sh says what must be installed.
set -eu
folders=()
for folder in "$@"; do
    if [ ! -d "$folder" ]; then
        echo "arm64.sh: $folder is no folder; usage: tests/arm64.sh [FOLDER..]" >&2
        exit 2
    fi
    folders+=("$(cd "$folder" && pwd)")
done
cd "$(dirname "$0")/.."
. bench/arm64/tools.sh
mkdir -p "$place/examples"
for name in read blocks stage pack; do
    "${cross}gcc" -std=c11 -O2 -Wall -Wextra -Werror -pedantic "examples/$name.c" target/native/liblerc_c.a \
        -o "$place/examples/$name"
done
python3 tests/c/run.py "$place/examples" $run
"${cross}gcc" -std=c11 -O2 -Wall -Wextra -Werror -pedantic tests/c/ready.c target/native/liblerc_c.a -lm -o "$place/ready"
$run "$place/ready"
"${cross}gcc" -std=c11 -O2 -Wall -Wextra -Werror -pedantic tests/c/places.c target/native/liblerc_c.a -o "$place/places"
$run "$place/places" <crates/lerc2/stdin
"${cross}gcc" -std=c11 -O2 -Wall -Wextra -Werror -pedantic tests/c/stage.c target/native/liblerc_c.a -o "$place/stage"
$run "$place/stage"
"${cross}gcc" -std=c11 -O2 -Wall -Wextra -Werror -pedantic tests/c/pack.c target/native/liblerc_c.a -o "$place/pack"
$run "$place/pack"
"${cross}gcc" -std=c11 -O2 -Wall -Wextra -Werror -pedantic tests/c/checksum.c target/native/liblerc_c.a -o "$place/checksum"
$run "$place/checksum"
cargo test -j1 --quiet --target "$triple" --manifest-path rust/lerc2/Cargo.toml
cargo build -j1 --release --quiet --target "$triple" --features esri --manifest-path compare/Cargo.toml
compare=compare/target/$triple/release/compare
$run "$compare" arithmetic --seed "${SEED:-20261115}" --pairs "${PAIRS:-100000}"
$run "$compare" run --seed "${SEED:-20261115}" --calls "${CALLS:-100000}"
[ $# -eq 0 ] || $run "$compare" folder "${folders[@]}"
$run "$compare" esri
