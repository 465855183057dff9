#!/usr/bin/env bash
# Measures packed counts and the word arithmetic natively on x86-64: the crates are copied to a folder of their own
# with one that exports their functions, proved there, which takes some minutes, and linked into the two C drivers beside
# this script.
set -eu
usage=bench/measure.sh
root=$(cd "$(dirname "$(readlink -f "$0")")/.." && pwd)
. "$root/bench/words.sh"
[ $# -eq 0 ] || wrong "unknown word $1"
[ "$(uname -m)" = x86_64 ] || { echo "measure.sh: the kit's archives are for x86-64, and this is $(uname -m)" >&2; exit 2; }
needed rt cc
dir=$(mktemp -d)
trap 'rm -rf "$dir"' EXIT
mkdir -p "$dir/crates/measured/src"
for c in lerc_words lerc_numeric lerc_bits; do
    cp -r "$root/crates/$c" "$dir/crates/$c"
    rm -rf "$dir/crates/$c/must-fail" "$dir/crates/$c/out"
done
printf 'lerc_words:\nlerc_numeric: lerc_words\nlerc_bits: lerc_words\nmeasured staticlib: lerc_words lerc_numeric lerc_bits\n' >"$dir/crates.txt"
cat >"$dir/crates/measured/src/lib.rt" <<'R'
#![tactic(auto)]

#[unsafe(no_mangle)]
pub extern "C" fn measured_decode(s: &[u8], start: usize, out: &mut [u32; 256]) -> u64 {
    match lerc_bits::decode(s, start, out) {
        Ok(counts) => counts.n as u64,
        Err(_why) => 1000,
    }
}

#[unsafe(no_mangle)]
pub extern "C" fn measured_inspect(s: &[u8], start: usize) -> u64 {
    match lerc_bits::inspect(s, start) {
        Ok(plan) => plan.next as u64,
        Err(_why) => 0,
    }
}

#[unsafe(no_mangle)]
pub extern "C" fn measured_plus(a: u64, b: u64) -> u64 {
    lerc_numeric::plus(a, b)
}

#[unsafe(no_mangle)]
pub extern "C" fn measured_scale(a: u64, q: u32) -> u64 {
    lerc_numeric::scale(a, q)
}

#[unsafe(no_mangle)]
pub extern "C" fn measured_narrow(v: u64) -> u32 {
    lerc_numeric::narrow(v)
}

#[unsafe(no_mangle)]
pub extern "C" fn measured_number(v: u64, kind: u32) -> u64 {
    lerc_numeric::number(v, kind)
}
R
cd "$dir/crates/measured"
rt lib --cpu=x86-64 >"$dir/log" 2>&1 || { cat "$dir/log"; exit 1; }
for d in bits numeric; do
    cc -O2 -o "$dir/$d" "$root/bench/$d.c" out/libmeasured.a
    "$dir/$d"
done
