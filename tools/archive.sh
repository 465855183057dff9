#!/bin/sh
# The archive of the proved reader for C and Rust (x86-64), target/staticlib/liblerc_c.a.
#     tools/archive.sh                 proves and writes it, where it is not made from the sources as they are
#     tools/archive.sh --check [FILE]  says whether it is (or FILE, an archive of bench/native.sh), and writes nothing
# Exit status: 0 it is made from them, 1 it is not (--check), 2 it could not be told or made.
set -u
name=archive
root=$(dirname "$(dirname "$(readlink -f "$0")")") || exit 2
# shellcheck source=tools/proved.sh
. "$root/tools/proved.sh" || exit 2
archive=$root/target/staticlib/liblerc_c.a
# the crate that exports the functions of lerc_c: a library for other crates cannot be an archive too
crate=lerc_c_exports

case "$#${1:-}" in
0) ;;
1--check | 2--check)
    file=${2:-$archive}
    is_made_from "$file" "$crate"
    case $? in
    0) exit 0 ;;
    1)
        if [ -f "$file" ]; then say "$file is not made from the sources as they are"; else say "$file is not there"; fi
        exit 1
        ;;
    *) exit 2 ;;
    esac
    ;;
1-h | 1--help) sed -n '2,/^set/{/^set/d;s/^# \{0,1\}//;p;}' "$0"; exit ;;
*)
    say "usage: tools/archive.sh, or tools/archive.sh --check [FILE]"
    exit 2
    ;;
esac

is_made_from "$archive" "$crate" && exit 0
if ! command -v rt >/dev/null; then
    say "the command 'rt' of the Rattle kit is not on the path; the archive cannot be proved or made"
    exit 2
fi
take_lock || exit 2
# another call may have made it meanwhile
is_made_from "$archive" "$crate" && exit 0
sum=$(sources_sum "$crate") || exit 2
say "proving the archive's $(crates_of "$crate" | wc -l) crates; where nothing is proved yet this takes some minutes"
made=$root/crates/$crate/out/lib$crate.a
rm -f "$made"
# for every processor of x86-64
run_rt "$crate" lib --cpu=x86-64 || {
    show_failure
    say "not made: '$last failed (all that it said is in $said)"
    exit 2
}
mkdir -p "$(dirname "$archive")" && cp "$made" "$archive.new" && mv -f "$archive.new" "$archive" && mark "$archive" "$crate" "$sum" || exit 2
