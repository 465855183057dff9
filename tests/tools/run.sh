#!/bin/sh
# Tests the scripts and programs around the reader: ./lerc2, the archive and who links it, wrong words, lost outputs, checksums,
# the stack, float units that were changed, fields and their picture.
#     tests/tools/run.sh       less than a minute; ends in 'N passed, M failed', with status 1 where M is not 0
# Proving takes minutes, so a stand-in for the kit (tests/tools/rt) says what it is told to. What needs cargo, gcc or a proved
# archive that is not there is named as not tried.
set -u
here=$(cd "$(dirname "$(readlink -f "$0")")/../.." && pwd)
ROOM=$(mktemp -d) || exit 2
export ROOM
trap 'chmod -R u+w "$ROOM"; rm -rf "$ROOM"' EXIT
chmod 755 "$ROOM"
unset LERC2_LIBDIR ESRI
passed=0 failed=0
out=$ROOM/out err=$ROOM/err

# ---- what is expected
pass() { passed=$((passed + 1)); }
fail() { # WHAT
    failed=$((failed + 1))
    printf 'FAILED: %s\n' "$1"
    sed 's/^/    | /' "$out" "$err" | head -n 12
}
not_tried() { printf 'not tried: %s\n' "$1"; }

# runs COMMAND, keeps what it writes, and holds its status to STATUS
gives() { # WHAT STATUS COMMAND...
    what=$1 wanted=$2
    shift 2
    "$@" >"$out" 2>"$err"
    found=$?
    if [ "$found" -eq "$wanted" ]; then pass; else fail "$what: status $found, and not $wanted"; fi
}
holds() { # WHAT COMMAND...
    what=$1
    shift
    if "$@" >/dev/null 2>&1; then pass; else fail "$what"; fi
}
says() { # WHAT WORDS: in what the last command wrote to standard error
    if grep -qF -- "$2" "$err"; then pass; else fail "$1: does not say '$2'"; fi
}
is_silent() { if [ -s "$err" ]; then fail "$1: says something"; else pass; fi; } # WHAT
writes() { if [ "$(cat "$out")" = "$2" ]; then pass; else fail "$1: writes something else"; fi; } # WHAT TEXT

# ---- a repository of three small crates, and a kit
kit=$ROOM/kit repo="$ROOM/a repository"
mkdir -p "$kit/bin" "$repo/crates/low/src" "$repo/crates/lerc2/src" "$repo/crates/lerc_c_exports/src" "$repo/crates/lerc2/must-fail"
cp "$here/tests/tools/rt" "$kit/bin/rt"
plain_path=$PATH
PATH=$kit/bin:$PATH
echo 'kit 1' >"$ROOM/kit-id"
echo good >"$ROOM/mode"
: >"$ROOM/asked"
cp -r "$here/lerc2" "$here/tools" "$repo"
printf '# a comment\nlerc_c_exports staticlib: low\nlerc2: low\nlow:\n' >"$repo/crates.txt"
echo 'one' >"$repo/crates/low/src/lib.rt"
echo 'two' >"$repo/crates/lerc_c_exports/src/lib.rt"
decodes='width 1
cell 0 7
end 71'
program() { printf '%s\n' "$@" >"$repo/crates/lerc2/src/main.rt"; } # LINE...
right() { program 'cat >/dev/null' "printf 'width 1\\ncell 0 7\\nend 71\\n'"; }
right
echo blob >"$ROOM/blob"
asked() { wc -l <"$ROOM/asked"; }
call() { "$repo/lerc2" <"$ROOM/blob"; }
tree() { (cd "$repo" && find . -exec ls -ld --time-style=full-iso {} + | sort; find . -type f -exec sha256sum {} + | sort); }

# ---- ./lerc2: the first call, and those after it
gives 'first call' 0 call
writes 'first call' "$decodes"
says 'first call' "lerc2: proving the program's 2 crates"
says 'first call' 'lerc2: proved 1 of 2: low ('
says 'first call' 'lerc2: proved 2 of 2: lerc2 ('
before=$(tree) count=$(asked)
gives 'fresh call' 0 call
writes 'fresh call' "$decodes"
is_silent 'fresh call'
holds 'a fresh call asks rt for no check' [ "$(asked)" -eq "$count" ]
holds 'a fresh call writes nothing' [ "$(tree)" = "$before" ]
touch "$repo/crates/low/src/lib.rt"
echo 'a wrong body' >"$repo/crates/lerc2/must-fail/bodies.edit"
gives 'sources touched, none changed' 0 call
is_silent 'sources touched, none changed'

# ---- statuses
lost() { "$repo/lerc2" "$@" <"$ROOM/blob" >/dev/full; }
closed() { "$repo/lerc2" "$@" <"$ROOM/blob" >&-; }
gives 'output to a full device' 3 lost
says 'output to a full device' 'lerc2: the output could not be written'
gives 'output closed' 3 closed
gives 'help to a full device' 3 lost --help
gives 'help' 0 "$repo/lerc2" --help
for status in '0 decoded' '1 refused' '2 not run' '3 the output was lost'; do
    holds "help names status $status" grep -q "$status" "$out"
done
holds 'help names the form of a refusal' grep -q "'refused N at P'" "$out"
holds 'help names --explain' grep -q -- '^  ./lerc2 --explain < tile.lerc2 ' "$out"
for word in tile.lerc2 explain --explained; do
    gives "unknown word $word" 2 "$repo/lerc2" "$word"
    says "unknown word $word" 'no word is known but --explain and --help'
done
gives 'unknown word after --help' 2 "$repo/lerc2" --help more
gives 'unknown word after --explain' 2 "$repo/lerc2" --explain more
gives '--explain twice' 2 "$repo/lerc2" --explain --explain
no_input() { "$repo/lerc2" <&-; }
gives 'input closed' 2 no_input
folder_in() { "$repo/lerc2" <"$ROOM"; }
gives 'a folder as input' 2 folder_in
mkdir "$ROOM/bare"
for tool in sh awk basename cat cut date dirname find grep mkdir readlink sed sha256sum sort uname wc; do
    ln -s "$(command -v "$tool")" "$ROOM/bare/$tool"
done
without_kit() { PATH=$ROOM/bare "$repo/lerc2" <"$ROOM/blob"; }
gives 'no kit on the path' 2 without_kit
says 'no kit on the path' "'rt'"
without_lock() { PATH=$ROOM/bare:$kit/bin "$repo/lerc2" <"$ROOM/blob"; }
program "printf 'end 1\\n'"
gives 'no lock to be had' 2 without_lock
says 'no lock to be had' "'flock'"
right

# ---- links
ln -s "$repo/lerc2" "$ROOM/lerc2"
mkdir "$ROOM/bin"
ln -s ../lerc2 "$ROOM/bin/lerc2"
by_link() { (cd / && "$ROOM/bin/lerc2" <"$ROOM/blob"); }
by_path() { (cd / && PATH=$ROOM/bin:$PATH && lerc2 <"$ROOM/blob"); }
gives 'by a link to a link' 0 by_link
writes 'by a link to a link' "$decodes"
gives 'by the path' 0 by_path

# ---- a check that fails: nothing is run, however often it is called
count=$(asked)
program "printf 'cell 0 8\\nend 71\\n'"
echo fails >"$ROOM/mode"
gives 'failed check' 2 call
writes 'failed check' ''
says 'failed check' 'src/main.rt:1:1: error: it is false'
says 'failed check' "'rt run' in crates/lerc2 failed"
gives 'failed check, called again' 2 call
writes 'failed check, called again' ''
holds 'rt is asked each time' [ "$(asked)" -eq $((count + 2)) ]
right
gives 'the edit taken back' 0 call
writes 'the edit taken back' "$decodes"
echo good >"$ROOM/mode"
rm "$repo/target/proved/lerc2"
gives 'the kept program removed' 0 call
writes 'the kept program removed' "$decodes"
rm "$repo/target/proved/lerc2" "$repo/crates/lerc2/out/lerc2"
gives 'both programs removed, the stamp there' 0 call
writes 'both programs removed, the stamp there' "$decodes"
printf 'garbage' >>"$repo/target/proved/lerc2"
gives 'the kept program changed' 0 call
writes 'the kept program changed' "$decodes"
count=$(asked)
echo 'kit 2' >"$ROOM/kit-id"
gives 'another kit' 0 call
holds 'another kit is asked' [ "$(asked)" -gt "$count" ]
echo edits >"$ROOM/mode"
program 'cat >/dev/null' "printf 'width 1\\ncell 0 7\\nend 71\\n' # edits"
gives 'sources changed while they are proved' 2 call
says 'sources changed while they are proved' 'the sources were changed'
echo good >"$ROOM/mode"
gives 'and called again' 0 call

# ---- broken off: nothing is left running, and the next call proves
echo hangs >"$ROOM/mode"
program 'cat >/dev/null' "printf 'width 1\\ncell 0 7\\nend 71\\n' # hangs"
rm -f "$ROOM/prover"
"$repo/lerc2" <"$ROOM/blob" >"$out" 2>"$err" &
caller=$!
for _ in 1 2 3 4 5 6 7 8 9 10 11 12 13 14 15 16 17 18 19 20; do
    [ -s "$ROOM/prover" ] && break
    sleep 0.2
done
kill -TERM "$caller"
wait "$caller" 2>/dev/null
broken=$?
holds "broken off: status $broken" [ "$broken" -ne 0 ]
says 'broken off' 'lerc2: broken off'
sleep 0.2
# one that has ended may stand in the list until its new parent looks
case $(cut -d ' ' -f 3 "/proc/$(cat "$ROOM/prover")/stat" 2>/dev/null) in
'' | Z) pass ;;
*) fail 'broken off: the prover goes on' ;;
esac
count=$(asked)
echo good >"$ROOM/mode"
gives 'after one that was broken off' 0 call
writes 'after one that was broken off' "$decodes"
holds 'after one that was broken off rt is asked' [ "$(asked)" -gt "$count" ]

# ---- two at once: one proves, both run
echo late >"$ROOM/mode"
program 'cat >/dev/null' "printf 'width 1\\ncell 0 7\\nend 71\\n' # late"
count=$(asked)
call >"$ROOM/out1" 2>"$ROOM/err1" &
one=$!
call >"$out" 2>"$err" &
other=$!
wait "$one"
holds 'two at once, one' [ $? -eq 0 ]
wait "$other"
holds 'two at once, the other' [ $? -eq 0 ]
writes 'two at once' "$decodes"
holds 'two at once, the same text' cmp -s "$out" "$ROOM/out1"
holds 'two at once, one proof' [ "$(asked)" -eq $((count + 1)) ]
echo good >"$ROOM/mode"

# ---- a repository that cannot be written: what was proved runs, nothing else
chmod -R a-w "$repo"
as_other=''
if [ "$(id -u)" -eq 0 ]; then as_other='setpriv --reuid=65534 --regid=65534 --clear-groups'; fi
# shellcheck disable=SC2086
read_only() { $as_other "$repo/lerc2" <"$ROOM/blob"; }
if [ "$(id -u)" -ne 0 ] || $as_other true 2>/dev/null; then
    gives 'read-only and proved' 0 read_only
    writes 'read-only and proved' "$decodes"
    echo 'kit 3' >"$ROOM/kit-id"
    gives 'read-only and not proved' 2 read_only
    says 'read-only and not proved' 'cannot be written'
    echo 'kit 2' >"$ROOM/kit-id"
else
    not_tried 'a repository that cannot be written (root without setpriv)'
fi
chmod -R u+w "$repo"

# ---- texts that have no end, and programs that fail
program "printf 'width 1\\ncell 0 7\\n'"
gives 'a text without an end' 2 call
writes 'a text without an end' ''
program 'exit 3'
gives 'a program that fails' 2 call
program "printf 'refused 8 at 74\\n'"
gives 'a refusal' 1 call
writes 'a refusal' 'refused 8 at 74'
gives 'a refusal to a full device' 3 lost

# ---- refusals in words: here the program's text is its input
program cat
tell() { printf '%s\n' "$1" | "$repo/lerc2" ${2:+"$2"}; } # TEXT [WORD]
gives 'a text that is told' 0 tell "$decodes"
gives 'an image, to be explained' 0 tell "$decodes" --explain
writes 'an image, to be explained' "$decodes"
is_silent 'an image, to be explained'
# each number, and whether its sentence names the place
for told in '1 0 no' '1 72 yes' '2 0 no' '3 0 no' '4 0 no' '5 0 no' '6 66 yes' '7 78 yes' '8 74 yes' '9 0 no' '9 74 yes' '13 0 no'; do
    number=${told%% *} place=${told#* } text="refused $number at ${place% *}"
    gives "$text" 1 tell "$text"
    writes "$text" "$text"
    is_silent "$text"
    gives "$text, explained" 1 tell "$text" --explain
    writes "$text, explained" "$text"
    says "$text, explained" "lerc2: refused $number: "
    holds "$text, explained in one line" [ "$(wc -l <"$err")" -eq 1 ]
    if [ "${told##* }" = yes ]; then says "$text, explained" " at ${place% *}"; fi
    sed 's/^lerc2: refused [0-9]*: //' "$err" >>"$ROOM/sentences"
done
holds 'each number has its own sentence' [ "$(sort -u "$ROOM/sentences" | wc -l)" -eq 12 ]
lost_words() { printf 'refused 8 at 74\n' | "$repo/lerc2" --explain >/dev/full; }
gives 'a refusal to be explained, to a full device' 3 lost_words
holds 'what is lost is not explained' [ "$(cat "$err")" = 'lerc2: the output could not be written' ]
for odd in refused 'refused 8' 'refused 8 at' 'refused 8 at ' 'refused at 74' 'refused  at 74' 'refused 8 74' 'refused 0 at 0' 'refused 11 at 0' 'refused 12 at 0' 'refused 14 at 0' \
    'refused 08 at 74' 'refused 80 at 74' 'refused 013 at 0' 'refused 130 at 0' 'refused 8 at 074' 'refused 8 at 00' 'refused 8 at -1' 'refused 8 at 7x' 'refused 8 at 74.' \
    'refused 8 at 74 at 74' 'refused 8  at 74' ' refused 8 at 74' 'Refused 8 at 74' 'refused * at 74' 'width 1
refused 8 at 74' 'refused 8 at 74
refused 8 at 74'; do
    for word in '' --explain; do
        gives "an odd text: $odd" 2 tell "$odd" "$word"
        writes "an odd text: $odd" ''
        holds "an odd text is not explained: $odd" [ "$(cat "$err")" = "lerc2: the program's text has no end" ]
    done
done
right

# ---- the archive, and who links it
archive=$repo/target/staticlib/liblerc_c.a
gives 'no archive' 1 "$repo/tools/archive.sh" --check
says 'no archive' 'is not there'
gives 'the archive is made' 0 "$repo/tools/archive.sh"
says 'the archive is made' 'archive: proved 2 of 2: lerc_c_exports ('
gives 'the archive is of the sources' 0 "$repo/tools/archive.sh" --check
is_silent 'the archive is of the sources'
count=$(asked)
gives 'the archive is not made twice' 0 "$repo/tools/archive.sh"
holds 'no second proof' [ "$(asked)" -eq "$count" ]
echo 'edited' >>"$repo/crates/low/src/lib.rt"
gives 'a stale archive' 1 "$repo/tools/archive.sh" --check
says 'a stale archive' 'is not made from the sources as they are'
sed -i '/^edited$/d' "$repo/crates/low/src/lib.rt"
gives 'the edit taken back, the archive' 0 "$repo/tools/archive.sh" --check
cp "$archive" "$ROOM/kept.a"
echo more >>"$archive"
gives 'another archive in its place' 1 "$repo/tools/archive.sh" --check
cp "$ROOM/kept.a" "$archive"
gives 'and back' 0 "$repo/tools/archive.sh" --check
gives 'an unknown word, the archive' 2 "$repo/tools/archive.sh" --chek
echo fails >"$ROOM/mode"
echo 'edited' >>"$repo/crates/lerc_c_exports/src/lib.rt"
gives 'the archive cannot be proved' 2 "$repo/tools/archive.sh"
gives 'and is not taken' 1 "$repo/tools/archive.sh" --check
if command -v gcc >/dev/null; then
    cp -r "$here/examples" "$here/include" "$repo"
    gives 'examples over an archive that cannot be proved' 2 "$repo/examples/build.sh"
    holds 'are not built' [ ! -e "$repo/target/examples/read" ]
    gives 'an unknown word, the examples' 2 "$repo/examples/build.sh" all
fi
if command -v cargo >/dev/null; then
    mkdir -p "$repo/rust"
    cp -r "$here/rust/lerc2" "$repo/rust" && rm -rf "$repo/rust/lerc2/target"
    build() { cargo build --offline --quiet --manifest-path "$repo/rust/lerc2/Cargo.toml"; }
    if [ "$(uname -m)" = x86_64 ]; then
        gives 'rust over a stale archive' 101 build
        says 'rust over a stale archive' 'is not made from the sources as they are'
        says 'rust over a stale archive' 'tools/archive.sh'
        echo good >"$ROOM/mode"
        "$repo/tools/archive.sh" 2>/dev/null
        gives 'rust over the archive of these sources' 0 build
        echo 'edited' >>"$repo/crates/low/src/lib.rt"
        gives 'rust after an edit' 101 build
        named() { LERC2_LIBDIR=$ROOM/named cargo build --offline --manifest-path "$repo/rust/lerc2/Cargo.toml"; }
        gives 'rust, a folder that is not there' 101 named
        mkdir "$ROOM/named" && cp "$ROOM/kept.a" "$ROOM/named/liblerc_c.a"
        gives 'rust, another archive by name' 0 named
        says 'rust, another archive by name' 'not compared with the sources'
    fi
else
    not_tried 'rust/lerc2 over a stale archive (no cargo)'
fi

# ---- wrong words, before anything is built or measured
cd "$here" || exit 2
PATH=$plain_path
wrong_words() { # WORDS IN WHAT IT SAYS, COMMAND...
    say_so=$1
    shift
    gives "$*" 2 "$@"
    says "$*" "$say_so"
}
pictures=$(cat docs/*.svg docs/*.png | sha256sum)
wrong_words 'usage: bench/whole.sh' bench/whole.sh nosuch
wrong_words 'usage: bench/whole.sh' bench/whole.sh --svg "$ROOM/x.svg"
wrong_words 'usage: bench/whole.sh' bench/whole.sh --rounds many
wrong_words 'usage: bench/whole.sh' bench/whole.sh --plot "$ROOM/nosuch/x.svg"
wrong_words 'usage: bench/mask.sh' bench/mask.sh nosuch
wrong_words 'usage: bench/huffman.sh' bench/huffman.sh
wrong_words 'usage: bench/huffman.sh' bench/huffman.sh --nosuch
wrong_words 'usage: bench/mask.sh' bench/mask.sh --rounds 3
wrong_words 'usage: bench/sum.sh' bench/sum.sh nosuch
wrong_words 'usage: bench/fill.sh' bench/fill.sh nosuch
wrong_words 'usage: bench/fill.sh' bench/fill.sh --nosuch
wrong_words 'a name has letters' bench/fill.sh "a name=$ROOM"
wrong_words 'there is no liblerc_c.a' bench/fill.sh "before=$ROOM/bin"
wrong_words 'usage: bench/two.sh' bench/two.sh
wrong_words 'usage: bench/two.sh' bench/two.sh nosuch
wrong_words 'there is no liblerc_c.a' bench/two.sh "before=$ROOM/bin"
mkdir "$ROOM/two" && : >"$ROOM/two/liblerc_c.a"
for script in fill two; do
    wrong_words 'NAME=FOLDER, twice' "bench/$script.sh" "before=$ROOM/two"
    wrong_words 'two names, and not before twice' "bench/$script.sh" "before=$ROOM/two" "before=$ROOM/two"
done
wrong_words 'usage: bench/fill.sh' bench/fill.sh "before=$ROOM/two" "after=$ROOM/two" "more=$ROOM/two"
wrong_words 'usage: bench/arm64.sh' bench/arm64.sh nosuch
wrong_words 'usage: bench/arm64.sh' bench/arm64.sh one nosuch
wrong_words 'usage: bench/measure.sh' bench/measure.sh nosuch
wrong_words 'usage: bench/profile.sh' bench/profile.sh
wrong_words 'usage: bench/profile.sh' bench/profile.sh nosuch
wrong_words 'usage: bench/profile.sh' bench/profile.sh README.md sideways
wrong_words 'bench/native.sh NAME' bench/native.sh
wrong_words 'no library nosuch' bench/native.sh nosuch
wrong_words 'nosuch is no folder' tests/arm64.sh nosuch
ln -s "$(command -v bash)" "$ROOM/bare/bash"
missing() { PATH=$ROOM/bare "$@"; }
gives 'whole.sh without cargo' 2 missing bench/whole.sh
says 'whole.sh without cargo' 'cargo is not there'
gives 'mask.sh without cargo' 2 missing bench/mask.sh
says 'mask.sh without cargo' 'cargo is not there'
gives 'mask.sh --help' 0 bench/mask.sh --help
writes 'mask.sh --help' 'usage: bench/mask.sh'
gives 'sum.sh without cc' 2 missing bench/sum.sh
says 'sum.sh without cc' 'cc is not there'
gives 'sum.sh --help' 0 bench/sum.sh --help
writes 'sum.sh --help' 'usage: bench/sum.sh'
gives 'fill.sh without cc' 2 missing bench/fill.sh
says 'fill.sh without cc' 'cc is not there'
gives 'fill.sh --help' 0 bench/fill.sh --help
writes 'fill.sh --help' 'usage: bench/fill.sh [NAME=FOLDER NAME=FOLDER]'
gives 'profile.sh without cargo' 2 missing bench/profile.sh README.md
says 'profile.sh without cargo' 'cargo is not there'
gives 'native.sh without the kit' 2 missing bench/native.sh lerc_c
says 'native.sh without the kit' "'rt'"
if command -v python3 >/dev/null; then
    wrong_words 'no folder' python3 tests/c/run.py
    wrong_words 'no program read in nosuch' python3 tests/c/run.py nosuch
    mkdir "$ROOM/nothing"
    for program in read blocks stage pack; do printf '#!/bin/sh\n' >"$ROOM/nothing/$program" && chmod +x "$ROOM/nothing/$program"; done
    gives 'programs that write nothing differ' 1 python3 tests/c/run.py "$ROOM/nothing"
    wrong_words 'usage: ' python3 tests/stack/run.py nosuch
    # scripts that write stored cases: in a copy, since a wrong word must not change one
    mkdir "$ROOM/stored"
    cp -r tests tools "$ROOM/stored"
    for part in header numeric fill read place huffman program; do
        mkdir -p "$ROOM/stored/crates" && cp -r "crates/lerc_${part}_cases" "$ROOM/stored/crates"
    done
    stored() { (cd "$ROOM/stored/crates" && find . -type f -exec sha256sum {} + | sort); }
    stored_before=$(stored)
    for part in header numeric fill read place huffman program; do
        make_cases() { (cd "$ROOM/stored" && python3 "tests/$part/make.py" "$@"); }
        gives "tests/$part/make.py, an unknown word" 2 make_cases --help
        holds "tests/$part/make.py changes nothing" [ "$(stored)" = "$stored_before" ]
        gives "tests/$part/make.py" 0 make_cases
        holds "tests/$part/make.py makes what is stored" [ "$(stored)" = "$stored_before" ]
    done
    gives 'faults in the rules of Huffman bodies' 0 python3 tests/huffman/faults.py
    wrong_words 'usage: ' python3 tests/huffman/faults.py --nosuch
else
    not_tried 'tests/c/run.py and tests/stack/run.py (no python3)'
fi

# ---- checksums at the desk
rules=crates/lerc2/stdin sealed=$ROOM/sealed.lerc2
seal() { "$repo/tools/seal" "$@"; }
# shellcheck disable=SC2059
put() { printf "$2" | dd of="$sealed" bs=1 seek="$1" conv=notrunc 2>/dev/null; } # PLACE BYTES
fresh() { cp "$rules" "$sealed" && put 10 '\000\000\000\000'; }                 # the rules' own blob, with a checksum of 0
given_back() { # WORDS IN WHAT IT SAYS, COMMAND...: what is not known is not changed
    kept=$(sha256sum <"$sealed")
    wrong_words "$@"
    holds "$2 ${3:-}: nothing is changed" [ "$(sha256sum <"$sealed")" = "$kept" ]
}
if command -v python3 >/dev/null; then
    gives 'a true checksum' 0 seal --check "$rules"
    writes 'a true checksum' 'stored DA 3D 6B 38, true DA 3D 6B 38: right'
    fresh
    gives 'a false checksum' 1 seal --check "$sealed"
    writes 'a false checksum' 'stored 00 00 00 00, true DA 3D 6B 38: wrong'
    gives 'sealed to another file' 0 seal "$sealed" -o "$ROOM/copy.lerc2"
    holds 'sealed to another file, the rest as it was' cmp "$ROOM/copy.lerc2" "$rules"
    gives 'and the first one as it was' 1 seal --check "$sealed"
    piped() { seal - -o - <"$sealed"; }
    gives 'sealed from input to output' 0 piped
    holds 'sealed from input to output, the rest as it was' cmp "$out" "$rules"
    check_input() { seal --check - <"$sealed"; }
    gives 'a false checksum on standard input' 1 check_input
    ln -s sealed.lerc2 "$ROOM/link.lerc2"
    gives 'sealed in place, by a link' 0 seal --in-place "$ROOM/link.lerc2"
    is_silent 'sealed in place'
    holds 'sealed in place, the rest as it was' cmp "$sealed" "$rules"
    holds 'the link is one still' [ -L "$ROOM/link.lerc2" ]
    fresh
    gives 'sealed to itself' 0 seal "$sealed" -o "$ROOM/link.lerc2"
    holds 'sealed to itself, the rest as it was' cmp "$sealed" "$rules"
    # standard input from the file itself: refused before anything of it is lost
    fresh
    ln "$sealed" "$ROOM/other-name.lerc2"
    to_itself() { seal - -o "$1" <"$sealed"; }
    for name in "$sealed" "$ROOM/link.lerc2" "$ROOM/other-name.lerc2" /dev/stdin; do
        given_back ' itself, which only --in-place can seal' to_itself "$name"
    done
    # where no file may grow, all of it would be lost; nor can a sentence be kept
    kept=$(sha256sum <"$sealed")
    full_disk() { (ulimit -f 0 && to_itself "$sealed"); }
    gives 'standard input to itself on a full disk' 2 full_disk
    holds 'standard input to itself on a full disk: nothing is changed' [ "$(sha256sum <"$sealed")" = "$kept" ]
    rm "$ROOM/other-name.lerc2" "$ROOM/copy.lerc2"
    gives 'sealed from input to a new file' 0 to_itself "$ROOM/copy.lerc2"
    holds 'sealed from input to a new file, the rest as it was' cmp "$ROOM/copy.lerc2" "$rules"
    gives 'sealed from input to a file that is there' 0 to_itself "$ROOM/copy.lerc2"
    holds 'sealed from input to a file that is there, the rest as it was' cmp "$ROOM/copy.lerc2" "$rules"
    # shellcheck disable=SC2094
    by_device() { seal /dev/stdin -o "$sealed" <"$sealed"; }
    gives 'standard input by name to itself' 0 by_device
    holds 'standard input by name to itself, the rest as it was' cmp "$sealed" "$rules"
    put 79 'behind'
    gives 'bytes behind the size do not count' 0 seal --check "$sealed"
    put 10 '\001'
    gives 'sealed with bytes behind the size' 0 seal --in-place "$sealed"
    holds 'which are kept' [ "$(tail -c 6 "$sealed")" = behind ]
    put 78 '\045'
    gives 'a byte of the body changed' 1 seal --check "$sealed"
    # an odd size of which the sentences of the rules alone have another checksum: E1 65 01 00
    fresh
    put 18 '\004' && put 26 '\004' && put 56 '\024' && put 64 '\142' && put 70 '\005\220\000\000\000\005\027\213\220'
    gives 'an odd size, as Esri has it' 0 seal --in-place "$sealed"
    gives 'an odd size, as Esri has it' 0 seal --check "$sealed"
    writes 'an odd size, as Esri has it' 'stored E1 65 00 00, true E1 65 00 00: right'
    # what is not known
    fresh
    head -c 69 "$rules" >"$ROOM/cut.lerc2"
    for words in --check --in-place; do
        wrong_words 'it has 69 bytes' seal $words "$ROOM/cut.lerc2"
        wrong_words 'it has 0 bytes' seal $words /dev/null
        wrong_words 'it cannot be read: Is a directory' seal $words "$ROOM"
        wrong_words 'it cannot be read: No such file' seal $words "$ROOM/nosuch"
        put 0 'M' && given_back "it does not begin with 'Lerc2 '" seal $words "$sealed" && put 0 'L'
        for version in 3 5 6; do put 6 "\\00$version" && given_back "it has version $version" seal $words "$sealed"; done
        put 6 '\004' && put 34 '\120' && given_back 'it declares a size of 80 bytes, and there are 79' seal $words "$sealed"
        put 34 '\105' && given_back 'it declares a size of 69 bytes' seal $words "$sealed" && put 34 '\117'
    done
    from_input() { head -c "$1" "$sealed" | seal --in-place -; }
    gives 'standard input in place' 2 from_input 79
    says 'standard input in place' 'only a file can be sealed in place'
    gives 'standard input, cut' 2 from_input 20
    for words in '' --chek --in '--check --in-place' '-o' '--check more'; do
        # shellcheck disable=SC2086
        given_back 'usage: tools/seal' seal "$sealed" $words
    done
    wrong_words 'usage: tools/seal' seal
    # outputs and inputs that are lost
    given_back 'cannot be written: Is a directory' seal "$sealed" -o "$ROOM"
    given_back 'cannot be written: No such file' seal "$sealed" -o "$ROOM/nosuch/x"
    given_back 'the output could not be written' seal "$sealed" -o /dev/full
    to_full() { seal "$@" >/dev/full; }
    to_closed() { seal "$@" >&-; }
    for way in to_full to_closed; do
        wrong_words 'the output could not be written' $way "$sealed" -o -
        wrong_words 'the output could not be written' $way --check "$sealed"
        wrong_words 'the output could not be written' $way --help
    done
    closed_input() { seal --check - <&-; }
    wrong_words 'it cannot be read' closed_input
    folder_input() { seal --check - <"$ROOM"; }
    wrong_words 'standard input is a folder' folder_input
    without_python() { PATH=$ROOM/bare seal --check "$sealed"; }
    wrong_words "'python3' is not there" without_python
    wrong_words 'it cannot be read: No such file' seal --check "$(printf 'no text \377')"
    # what fails inside is never a wrong checksum, whatever the blob has, and is told in one line
    torn=$ROOM/torn
    fails_inside() { # WORDS IN WHAT IT SAYS, A COMMAND IN A COPY OF tools/
        rm -rf "$torn" && cp -r "$repo/tools" "$torn" && (cd "$torn" && eval "$2")
        for blob in "$rules" "$sealed"; do
            wrong_words "$1" "$torn/seal" --check "$blob"
            holds "$2: told in one line" [ "$(wc -l <"$err")" -eq 1 ]
        done
    }
    fails_inside "it cannot begin: ModuleNotFoundError: No module named 'checksum'" 'rm checksum.py'
    fails_inside 'seal.py' 'rm seal.py'
    fails_inside 'it cannot begin: SyntaxError' 'echo "of a later Python" >>checksum.py'
    fails_inside 'it cannot begin: ImportError' 'echo "del with_field" >>checksum.py'
    fails_inside 'it is given up: MemoryError' 'echo "def checksum(_): raise MemoryError" >>checksum.py'
    fails_inside 'it is given up: ValueError: two lines' 'echo "def checksum(_): raise ValueError(\"\"\"two" >>checksum.py && echo "lines\"\"\")" >>checksum.py'
    # and in Python's own modules, by a module that it runs first: a close, and the comparison of two files
    mkdir "$ROOM/first"
    fails_outside() { # WORDS IN WHAT IT SAYS, LINE OF PYTHON, WORDS OF SEAL...
        say_so=$1
        printf '%s\n' 'import builtins, io, os' 'def fails(*_): raise OSError(5, "no disk")' 'class Torn(io.FileIO):' \
            '    def close(self): self.closed or (super().close(), fails())' 'plain = open' "$2" >"$ROOM/first/sitecustomize.py"
        shift 2
        by_torn() { PYTHONPATH=$ROOM/first seal "$@"; }
        wrong_words "$say_so" by_torn "$@"
        holds "$say_so: told in one line" [ "$(wc -l <"$err")" -eq 1 ]
    }
    torn_close='builtins.open = lambda name, mode, **more: plain(name, mode, **more) if mode == "rb" else Torn(name, mode)'
    fails_outside 'copy.lerc2 cannot be written: no disk' "$torn_close" "$sealed" -o "$ROOM/copy.lerc2"
    fails_outside 'copy.lerc2 cannot be written: no disk' "$torn_close" --in-place "$ROOM/copy.lerc2"
    fails_outside 'it is given up: OSError: [Errno 5] no disk' 'os.path.samestat = fails' "$sealed" -o "$ROOM/copy.lerc2"
    # a Python that does not even begin
    mkdir "$ROOM/odd"
    for end in 'exit 1' 'exit 120' 'kill -KILL $$'; do
        printf '#!/bin/sh\n%s\n' "$end" >"$ROOM/odd/python3" && chmod +x "$ROOM/odd/python3"
        by_odd() { PATH=$ROOM/odd:$PATH seal "$@"; }
        wrong_words 'seal: python3 ended with status' by_odd --check "$rules"
    done
    if [ "$(id -u)" -ne 0 ] || $as_other true 2>/dev/null; then
        chmod a=r "$sealed"
        # shellcheck disable=SC2086
        read_only_blob() { $as_other "$repo/tools/seal" --in-place "$sealed"; }
        given_back 'cannot be written: Permission denied' read_only_blob
        chmod u+w "$sealed"
    fi
    gives 'help of the tool' 0 seal --help
    holds 'which says that it is apart from the proved reader' grep -q 'nothing is proved of it' "$out"
    holds 'no bytecode is left' [ ! -e "$repo/tools/__pycache__" ]
    # stored blobs, of which Esri's encoder wrote the most
    mkdir "$ROOM/checksums"
    for file in crates/lerc_fill_cases/data/[0-9][0-9][02468]; do cp "$file" "$ROOM/checksums/${file##*/}.lerc2"; done
    gives 'checksums of stored blobs' 0 python3 tests/checksum/run.py "$ROOM/checksums"
    fresh && cp "$sealed" "$ROOM/checksums/false.lerc2"
    gives 'checksums of stored blobs, one false' 1 python3 tests/checksum/run.py "$ROOM/checksums"
    holds 'which is named' grep -qx 'not as expected: false' "$out"
    gives 'checksums of stored blobs, one false on purpose' 0 python3 tests/checksum/run.py --wrong false -- "$ROOM/checksums"
    # in front of version 4 the size stands elsewhere
    mkdir "$ROOM/no-checksums"
    no_checksums() { # WORDS IN WHAT IT SAYS: of the blob as it was made
        cp "$sealed" "$ROOM/no-checksums/it.lerc2"
        wrong_words "$1" python3 tests/checksum/run.py "$ROOM/no-checksums"
    }
    for version in 2 3; do put 6 "\\00$version" && no_checksums "it.lerc2 has version $version, and only version 4 and later"; done
    for version in 4 5 6; do
        put 6 "\\00$version" && cp "$sealed" "$ROOM/no-checksums/it.lerc2"
        gives "a checksum of 0 of version $version" 1 python3 tests/checksum/run.py "$ROOM/no-checksums"
    done
    put 6 '\004' && put 34 '\120' && no_checksums 'it.lerc2 does not have the bytes that it declares'
    put 34 '\015' && no_checksums 'it.lerc2 does not have the bytes that it declares'
    put 34 '\117' && put 0 'M' && no_checksums 'it.lerc2 is no blob'
    wrong_words 'nosuch is no folder' python3 tests/checksum/run.py nosuch
    wrong_words 'there is no NAME.lerc2' python3 tests/checksum/run.py "$ROOM/bin"
    wrong_words 'required: folders' python3 tests/checksum/run.py
    if command -v gcc >/dev/null; then
        wrong_words 'number.c is not built' python3 tests/checksum/run.py --archive nosuch "$ROOM/checksums"
    fi
else
    not_tried 'tools/seal and tests/checksum/run.py (no python3)'
fi

# ---- lerc2_checksum from C: what is nearly the rule is told
if command -v gcc >/dev/null; then
    as_told() { # STATUS, GCC'S WORDS...: the test over a stand-in
        status=$1
        shift
        gives "tests/c/checksum.c is built, $*" 0 gcc -std=c11 -O2 -Wall -Wextra -Werror -pedantic "$@" tests/c/checksum.c tests/tools/nearly.c -o "$ROOM/nearly"
        gives "tests/c/checksum.c, $*" "$status" "$ROOM/nearly"
    }
    as_told 0 -DWORDS=359
    for word in -DWORDS=358 -DWORDS=360 -DBEGIN=0 -DODD=1 -DOPEN=0 '-DJOINED(b, a)=((b) << 16 | (uint16_t)(a))' '-DJOINED(b, a)=(((b) << 16) + (a))' \
        '-DJOINED(b, a)=((b) << 16 | ((a) % 65535 ? (a) % 65535 : 65535))'; do
        as_told 1 "$word"
    done
else
    not_tried 'tests/c/checksum.c over a stand-in (no gcc)'
fi

# ---- the stack: what is read off small pieces of code, and what is given up
code() { # TEXT OF C, GCC'S WORDS...: an archive of it
    printf '%s\n' "$1" >"$ROOM/code.c"
    shift
    rm -f "$ROOM/code.a"
    gcc -fno-inline -ffunction-sections -fstack-usage "$@" -c "$ROOM/code.c" -o "$ROOM/code.o" && ar rcs "$ROOM/code.a" "$ROOM/code.o"
}
frame() { awk -v name="$1" '$1 ~ ":" name "$" { print $2 }' "$ROOM/frames"; } # NAME
given_up() { # WORDS TEXT OF C
    code "$2" -O1
    gives "stack: $1" 2 python3 tests/stack/run.py "$ROOM/code.a"
    says "stack: $1" "$1"
}
need_of() { # NAME: what is read off
    (cd tests/stack && python3 -c "import run, sys; print(run.needs(sys.argv[1])[sys.argv[2]][0])" "$ROOM/code.a" "$1")
}
if command -v python3 >/dev/null && command -v gcc >/dev/null && command -v objdump >/dev/null && [ "$(uname -m)" = x86_64 ]; then
    PYTHONDONTWRITEBYTECODE=1
    export PYTHONDONTWRITEBYTECODE
    given_up 'a call whose goal is not known' 'int lerc2_a(int (*f)(int)) { return f(1) + f(2); }'
    given_up 'calls itself' 'int lerc2_a(int n) { return n < 2 ? n : lerc2_a(n - 1) + lerc2_a(n - 2); }'
    given_up 'changes the stack' 'void *memset(void *, int, unsigned long); char lerc2_a(unsigned n) { char *p = __builtin_alloca(n); memset(p, 1, n); return p[n / 2]; }'
    given_up 'other is not in the archive' 'int other(int); int lerc2_a(int n) { return other(n) + other(n + 1); }'
    given_up 'has no function lerc2_*' 'int a(int n) { return n; }'
    # frames as gcc counts them add up along the calls, in the red zone or not; a jump to another function adds nothing
    for zone in -mno-red-zone -mred-zone; do
        code 'int low(volatile char *p) { volatile char a[1000]; a[0] = p[0]; return a[0] + a[1]; }
int lerc2_deep(int n) { volatile char b[500]; b[0] = (char)n; return low(b) + n; }
int lerc2_jump(volatile char *p) { return low(p); }' -O2 "$zone"
        [ "$zone" = -mred-zone ] || cp "$ROOM/code.su" "$ROOM/frames"
        low=$(frame low) deep=$(frame lerc2_deep)
        holds "stack: frames add up, $zone" [ "$(need_of lerc2_deep)" -eq $((low + deep)) ]
        holds "stack: a jump to another function, $zone" [ "$(need_of lerc2_jump)" -eq "$low" ]
    done
    if tools/archive.sh --check 2>/dev/null; then
        gives 'the stack of the proved reader' 0 python3 tests/stack/run.py
    else
        not_tried 'the stack of the proved reader (tools/archive.sh makes the archive)'
    fi
else
    not_tried 'the stack (python3, gcc or objdump is missing, or this is not x86-64)'
fi

# ---- programs over the proved archive
if command -v cargo >/dev/null && command -v gcc >/dev/null && tools/archive.sh --check 2>/dev/null; then
    compare() { cargo run --offline --quiet --release -j1 --manifest-path compare/Cargo.toml -- "$@"; }
    wrong_words 'compare: ' compare
    wrong_words 'unknown word nosuch' compare nosuch
    wrong_words 'unknown word --call' compare run --call 5
    wrong_words 'unknown word --calls' compare arithmetic --calls 5
    wrong_words '--pairs many: not a number' compare arithmetic --pairs many
    wrong_words '--seed needs a value' compare arithmetic --seed
    gives 'compare arithmetic' 0 compare arithmetic --seed 1 --pairs 1000
    holds 'compare arithmetic counts disagreements' grep -q '^2,000 sums, .* 0 disagreements, ' "$out"
    wrong_words 'there is no NAME.lerc2' compare folder "$ROOM/bin"
    wrong_words 'nosuch: ' compare folder nosuch
    wrong_words 'no line says which operation' compare replay /dev/null
    mkdir "$ROOM/blobs"
    cp crates/lerc2/stdin "$ROOM/blobs/rules.lerc2"
    gives 'compare folder' 0 compare folder "$ROOM/blobs"
    holds 'compare folder counts disagreements' grep -q ' calls on 1 blobs, 0 disagreements$' "$out"
    gives 'the examples' 0 examples/build.sh
    for program in read blocks stage pack; do
        lost_by() { "target/examples/$program" <crates/lerc2/stdin >/dev/full; }
        gives "examples/$program.c to a full device" 3 lost_by
    done
    # the archive is of these sources, and they say whether it uses the float unit
    words=''
    if grep -q '^const TRUSTED: bool = false;' crates/lerc_numeric/src/machine.rt; then words=words; fi
    gives 'tests/c/ready.c is built' 0 gcc -std=c11 -O2 -Wall -Wextra -Werror -pedantic tests/c/ready.c target/staticlib/liblerc_c.a -lm -o "$ROOM/ready"
    # shellcheck disable=SC2086
    gives 'float units that were changed' 0 "$ROOM/ready" $words
    wrong_words 'unknown word nosuch' "$ROOM/ready" nosuch
    gives 'tests/c/places.c is built' 0 gcc -std=c11 -O2 -Wall -Wextra -Werror -pedantic tests/c/places.c target/staticlib/liblerc_c.a -o "$ROOM/places"
    places() { "$ROOM/places" <"$1"; }
    gives 'the place of each function' 0 places crates/lerc2/stdin
    gives 'the place of each function, another blob' 2 places README.md
    gives 'tests/c/stage.c is built' 0 gcc -std=c11 -O2 -Wall -Wextra -Werror -pedantic tests/c/stage.c target/staticlib/liblerc_c.a -o "$ROOM/stage"
    gives 'stage and publish' 0 "$ROOM/stage"
    gives 'tests/c/pack.c is built' 0 gcc -std=c11 -O2 -Wall -Wextra -Werror -pedantic tests/c/pack.c target/staticlib/liblerc_c.a -o "$ROOM/pack"
    gives 'packs, one of them of more than 2^32 bytes' 0 "$ROOM/pack" long
    wrong_words 'unknown word nosuch' "$ROOM/pack" nosuch
    gives 'tests/c/checksum.c is built' 0 gcc -std=c11 -O2 -Wall -Wextra -Werror -pedantic tests/c/checksum.c target/staticlib/liblerc_c.a -o "$ROOM/checksum"
    gives 'the checksum by itself' 0 "$ROOM/checksum"
    gives 'the examples on stored blobs and refused ones' 0 python3 tests/c/run.py target/examples
    # a field: one table from C and from Rust, and a picture
    gives 'the examples in Rust' 0 cargo build --offline --quiet -j1 --examples --manifest-path rust/lerc2/Cargo.toml
    in_rust=rust/lerc2/target/debug/examples
    gives 'a field is made' 0 "$in_rust/make_field"
    cp "$out" "$ROOM/field.pack"
    for name in few none far odd empty large; do
        gives "a field is made, $name" 0 python3 tests/tools/fields.py "$name"
        cp "$out" "$ROOM/$name.pack"
    done
    wrong_words 'usage: ' python3 tests/tools/fields.py nosuch
    of_field() { # NAME PROGRAM WORDS...
        name=$1
        shift
        "$@" <"$ROOM/$name.pack"
    }
    for told in 'field 1' 'few 1' 'none 0' 'far 0' 'odd 0' 'empty 0' 'large 0'; do
        gives "a table in C, $told" "${told#* }" of_field "${told% *}" target/examples/pack
        is_silent "a table in C, $told"
        cp "$out" "$ROOM/table"
        gives "a table in Rust, $told" "${told#* }" of_field "${told% *}" "$in_rust/pack"
        is_silent "a table in Rust, $told"
        holds "which is the same, $told" cmp "$ROOM/table" "$out"
        gives "a picture, $told" "${told#* }" of_field "${told% *}" "$in_rust/field"
        cp "$out" "$ROOM/picture.png"
        gives "which is one, $told" 0 python3 tests/tools/png.py "$ROOM/picture.png"
    done
    gives 'a picture with words' 1 of_field few "$in_rust/field" --depth 1 --scale 40
    says 'a picture with words' 'field: tile 2 514: refused 8 at 74'
    gives 'the picture of docs/' 1 of_field field "$in_rust/field" --scale 4
    holds 'is this one' cmp docs/field.png "$out"
    printf 'spoilt' >>"$ROOM/picture.png"
    gives 'no picture' 1 python3 tests/tools/png.py "$ROOM/picture.png"
    wrong_words 'usage: ' python3 tests/tools/png.py
    wrong_words 'the picture would have 69309280 pixels' of_field large "$in_rust/field" --scale 4
    for odd in '--depth 64' '--depth -1' '--depth' '--scale 0' '--scale 65' '--scale many' '--scale 2 --scale'; do
        # shellcheck disable=SC2086
        wrong_words ' needs a number, ' "$in_rust/field" $odd
    done
    wrong_words '--scale stands there twice' "$in_rust/field" --scale 2 --scale 2
    wrong_words 'unknown word nosuch' "$in_rust/field" nosuch
    wrong_words 'unknown word --help' "$in_rust/field" --help more
    for program in target/examples/pack "$in_rust/pack" "$in_rust/make_field"; do
        wrong_words 'no word is known but --help' "$program" nosuch
        wrong_words 'no word is known but --help' "$program" --help more
    done
    for program in target/examples/pack "$in_rust/pack" "$in_rust/field" "$in_rust/make_field"; do
        lost_words() { "$program" --help >/dev/full; }
        gives "$program --help" 0 "$program" --help
        holds "$program --help names each status" grep -q '^Exit status: 0 ' "$out"
        gives "$program --help to a full device" 3 lost_words
        lost_by() { "$program" <"$ROOM/field.pack" >/dev/full; }
        gives "$program to a full device" 3 lost_by
    done
    for program in target/examples/pack "$in_rust/pack" "$in_rust/field"; do
        of_folder() { "$program" <"$ROOM"; }
        wrong_words 'standard input cannot be read' of_folder
        of_blob() { "$program" <crates/lerc2/stdin; }
        gives "$program, no pack" 1 of_blob
        told=$(cat "$out" "$err")
        holds "$program, no pack: says so" [ "${told#*refused 12 at 0}" != "$told" ]
    done
    gives 'checksums by the reader' 0 python3 tests/checksum/run.py --archive target/staticlib/liblerc_c.a --wrong false -- "$ROOM/checksums"
    # shellcheck disable=SC2086
    gives 'the float instructions' 0 python3 tests/floats/run.py ${words:+--words target/staticlib/liblerc_c.a}
    wrong_words 'usage: tests/floats/run.py' python3 tests/floats/run.py --nosuch
    wrong_words 'nosuch is not there' python3 tests/floats/run.py nosuch
    if [ -z "$words" ]; then
        gives 'float instructions where none should be' 1 python3 tests/floats/run.py --words target/staticlib/liblerc_c.a
    fi
    if [ "$(uname -m)" = x86_64 ]; then
        # all that an archive must have, and a difference: of whole numbers, and of any
        for turned in 'por %xmm1,%xmm2' 'por %xmm1,%xmm3'; do
            printf '%s\n' 'addsd %xmm1,%xmm2' 'mulsd %xmm1,%xmm2' 'ucomisd %xmm1,%xmm2' 'cvtsi2sd %rax,%xmm2' "$turned" 'subpd %xmm1,%xmm2' >"$ROOM/floats.s"
            gcc -c "$ROOM/floats.s" -o "$ROOM/floats-${turned##*xmm}.o"
        done
        gives 'a difference that makes floats of whole numbers' 0 python3 tests/floats/run.py "$ROOM/floats-2.o"
        gives 'any other difference' 1 python3 tests/floats/run.py "$ROOM/floats-3.o"
    fi
    if [ "$(uname -m)" = x86_64 ] && [ -z "$words" ]; then
        # gcc adds code that begins with small numbers flushed to zero
        for program in read blocks stage pack; do
            gcc -std=c11 -O2 -ffast-math "examples/$program.c" target/staticlib/liblerc_c.a -o "$ROOM/flushing"
            flushing() { "$ROOM/flushing" <crates/lerc2/stdin; }
            gives "examples/$program.c with -ffast-math" 2 flushing
            says "examples/$program.c with -ffast-math" 'flushes small numbers'
            writes "examples/$program.c with -ffast-math" ''
        done
    fi
    cargo build --offline --quiet --release -j1 --manifest-path second/Cargo.toml
    plain() { second/target/release/second <crates/lerc2/stdin; }
    plain_lost() { plain >/dev/full; }
    gives 'the plain reader' 0 plain
    gives 'the plain reader, an unknown word' 2 second/target/release/second nosuch
    gives 'the plain reader to a full device' 3 plain_lost
    # blobs that are refused and images without a valid cell are named; no picture is drawn unasked
    printf 'Lerc2' >"$ROOM/blobs/small-cut.lerc2"
    cp crates/lerc2/stdin "$ROOM/blobs/small-rules.lerc2"
    # the header of the same blob with valid 0 and size 70
    {
        head -c 26 crates/lerc2/stdin
        printf '\000\000\000\000'
        tail -c +31 crates/lerc2/stdin | head -c 4
        printf '\106\000\000\000'
        tail -c +39 crates/lerc2/stdin | head -c 32
    } >"$ROOM/blobs/small-empty.lerc2"
    gives 'sealed by hand' 0 tools/seal --in-place "$ROOM/blobs/small-empty.lerc2"
    gives 'measuring' 0 bench/whole.sh "$ROOM/blobs" --only small --rounds 1 --no-counts
    holds 'what is left out is named' grep -q '^Left out, read (refused 1): small-cut$' "$out"
    holds 'an image without a valid cell is named' grep -q '^Left out, read (no cell is valid): small-empty$' "$out"
    holds 'no number is infinite' test -z "$(grep -i 'inf\|nan' "$out")"
    gives 'measuring with a picture' 0 bench/whole.sh "$ROOM/blobs" --only small-rules --rounds 1 --no-counts --plot "$ROOM/x.svg"
    holds 'the picture is where it was asked for' [ -s "$ROOM/x.svg" ]
else
    not_tried 'compare, the examples, the plain reader and measuring (cargo, gcc or the archive is missing)'
fi
holds 'the pictures of docs/ are as they were' [ "$(cat docs/*.svg docs/*.png | sha256sum)" = "$pictures" ]

echo "$passed passed, $failed failed"
[ "$failed" -eq 0 ]
