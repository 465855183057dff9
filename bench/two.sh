#!/usr/bin/env bash
# Two archives in one table: bench/two.sh NAME=FOLDER NAME=FOLDER [words of bench/whole.sh but --plot]
# Each FOLDER has a liblerc_c.a, as of the sources before and after a change, and is measured in a run of its own. The table
# has what the proved reader costs in each, under its NAME, and how many times the first the second is. ESRI=1 as there.
set -eu
usage='bench/two.sh NAME=FOLDER NAME=FOLDER [FOLDER] [--floats] [--only NAME] [--rounds N] [--no-counts] [--no-times]'
root=$(cd "$(dirname "$(readlink -f "$0")")/.." && pwd)
. "$root/bench/words.sh"
case ${1:-} in -h | --help) read_words "$1" ;; esac
read_archives "$@"
shift 2
read_words "$@"
case " ${words[*]} " in *' --plot '*) wrong "--plot: of one archive alone" ;; esac
needed cargo
case " ${words[*]} " in *' --no-counts '*) ;; *) needed valgrind ;; esac
read_esri
dir=$(mktemp -d)
trap 'rm -rf "$dir"' EXIT
whole=${CARGO_TARGET_DIR:-$root/bench/whole/target}/release/whole
for n in 0 1; do
    LERC2_LIBDIR=${archives[n]} cargo build -j1 --release --quiet "${features[@]}" --manifest-path "$root/bench/whole/Cargo.toml"
    echo "${names[n]}:" >&2
    "$whole" "${words[@]}" >"$dir/${names[n]}.md"
done
"$whole" join "$dir/${names[0]}.md" "$dir/${names[1]}.md"
