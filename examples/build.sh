#!/bin/sh
# Builds the C examples against the proved library: examples/build.sh, then target/examples/read < tile.lerc2, or
# target/examples/pack < field.pack for a pack of many tiles
# The library is proved and written first where it is not made from the sources as they are (tools/archive.sh, some minutes).
set -eu
if [ $# -gt 0 ]; then
    echo "build: examples/build.sh takes no words" >&2
    exit 2
fi
cd "$(dirname "$(readlink -f "$0")")/.."
if ! command -v gcc >/dev/null; then
    echo "build: gcc is not there" >&2
    exit 2
fi
tools/archive.sh
mkdir -p target/examples
for name in read blocks stage pack; do
    gcc -std=c11 -O2 -Wall -Wextra -Werror -pedantic "examples/$name.c" target/staticlib/liblerc_c.a -o "target/examples/$name"
done
