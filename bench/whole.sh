#!/usr/bin/env bash
# Measures whole images: bench/whole.sh [FOLDER] [--floats] [--only NAME] [--rounds N] [--no-counts] [--no-times] [--plot FILE]
# FOLDER has blobs called NAME.lerc2; without it only images made by the program are measured, which takes minutes. --floats
# takes a grid of float images in place of those of all kinds, --only those with NAME in their names; --no-counts leaves
# valgrind out, --no-times all but counts. Prints tables in the form of docs/SPEED.md and names what was left out; --plot
# draws them (docs/whole.svg is one). With ESRI=1 Esri's library (liblerc-dev) is a third candidate.
set -eu
usage='bench/whole.sh [FOLDER] [--floats] [--only NAME] [--rounds N] [--no-counts] [--no-times] [--plot FILE]'
root=$(cd "$(dirname "$(readlink -f "$0")")/.." && pwd)
. "$root/bench/words.sh"
read_words "$@"
needed cargo
case " ${words[*]} " in *' --no-counts '*) ;; *) needed valgrind ;; esac
read_esri
cargo build -j1 --release --quiet "${features[@]}" --manifest-path "$root/bench/whole/Cargo.toml"
"${CARGO_TARGET_DIR:-$root/bench/whole/target}/release/whole" "${words[@]}"
