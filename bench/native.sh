#!/usr/bin/env bash
# bench/native.sh NAME [rt's words]: the archive libNAME.a of the functions that the crate NAME_exports exports, for arm64,
# proved and made by the kit's `rt lib` for that machine (words: --cpu=neoverse-v2, say).
# Leaves target/native/libNAME.a with a record of the sources that it is made from (tools/proved.sh).
set -eu
if [ $# -lt 1 ]; then
    echo "native: bench/native.sh NAME [rt's words]" >&2
    exit 2
fi
library=$1
shift
cd "$(dirname "$(readlink -f "$0")")/.."
name=native root=$PWD crate=${library}_exports
. tools/proved.sh
if [ ! -f "crates/$crate/src/lib.rt" ]; then
    say "there is no library $library with a crate $crate in crates/"
    exit 2
fi
if ! command -v rt >/dev/null; then
    say "the command 'rt' of the Rattle kit is not on the path"
    exit 2
fi
take_lock
sum=$(sources_sum "$crate")
made=crates/$crate/out/lib$crate.a archive=target/native/lib$library.a
rm -f "$made"
run_rt "$crate" lib --target aarch64-unknown-linux-gnu "$@" || {
    show_failure
    say "not made: '$last failed (all that it said is in $said)"
    exit 2
}
mkdir -p target/native
cp "$made" "$archive.new"
mv -f "$archive.new" "$archive"
mark "$root/$archive" "$crate" "$sum"
echo "native: $archive"
