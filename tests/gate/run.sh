#!/bin/sh
# Tests the judge of the gate (.ci/judge, .ci/verdict) on a repository of one small crate: a set of wrong bodies, one
# wrong definition and one pair of them that show what they name, and edits of each kind that must be found out. Needs the
# Rattle kit alone; some minutes.
set -eu
here=$(cd "$(dirname "$0")/../.." && pwd)
room=$(mktemp -d)
trap 'rm -rf "$room"' EXIT
trap 'exit 1' INT TERM
cd "$room"
mkdir -p .ci crates/small/src crates/small/specs crates/small/proofs/capped crates/small/proofs/raised crates/small/must-fail
cp "$here/.ci/judge" "$here/.ci/verdict" "$here/.ci/two-each" .ci
echo 'small:' >crates.txt

# ---- the crate: two functions with a proof, of which one does not say its facts, three that are proved by search, one of
# them over two others, and a lemma over another
cat >crates/small/src/lib.rt <<'TEXT'
#![tactic(auto)]

ghost use Rattle.std.specs.Prelude.{◌≡◌, ◌-◌};
ghost use Rattle.small.specs.Small.{capped_at, raised_to, lesser};

pub fn capped(n: u64) -> u64
    ensures { result ≡ capped_at n }
{
    if n < 10 { n } else { 10 }
}

pub fn raised(n: u64) -> u64
    ensures { result ≡ raised_to n }
{
    if n < 20 { 20 } else { n }
}

pub fn rest(a: u64, b: u64) -> u64
    ensures { result ≡ a - b }
{
    if a <= b { 0 } else { a - b }
}

pub fn least(a: u64, b: u64) -> u64
    ensures { result ≡ lesser a b }
{
    if a < b { a } else { b }
}

pub fn rest_of_capped(n: u64) -> u64
    ensures { result ≡ capped_at n - 5 }
{
    let c = capped(n);
    rest(c, 5)
}
TEXT
printf 'pub mod Small\n' >crates/small/specs/Lib.antt
cat >crates/small/specs/Small.antt <<'TEXT'
use Prim.Native.Nat.{ℕ, min}
use mathlib.Core.Bool.{cond}
use lib.Dec.{ltb}

unfoldable pub capped_at : ℕ → ℕ
capped_at n = cond (ltb n 10) n 10

unfoldable pub raised_to : ℕ → ℕ
raised_to n = cond (ltb n 20) 20 n

abbrev pub lesser : ℕ → ℕ → ℕ
lesser a b = min a b
TEXT
printf 'pub mod Caps\n' >crates/small/proofs/Lib.antt
cat >crates/small/proofs/Caps.antt <<'TEXT'
use mathlib.Core.Path.{◌≡◌, refl, ◌∙◌}
use Rattle.small.specs.Small.{capped_at}

pub most : capped_at 30 ≡ 10
unfolding capped_at
most = refl

pub most_again : capped_at 30 ≡ 10
most_again = most ∙ refl
TEXT
cat >crates/small/proofs/capped/Answers.antt <<'TEXT'
use lib.Dec.{ltb}
use mathlib.Core.Bool.{true, false}
use mathlib.Core.Path.{◌≡◌}
use borrow.Author.Tests.{lt-ltb, le-ltb}
use Rattle.small.specs.Small.{capped_at}
use Rattle.small.proofs.capped.Goals as goal

pub returns-then-n-lt10 : goal.returns-then-n-lt10
unfolding capped_at
returns-then-n-lt10 c = let t : ltb c.args.n 10 ≡ true = lt-ltb _ _ c.if-n-lt10.true in rw t

pub returns-else-n-lt10 : goal.returns-else-n-lt10
unfolding capped_at
returns-else-n-lt10 c = let t : ltb c.args.n 10 ≡ false = le-ltb _ _ c.if-n-lt10.false in rw t
TEXT
cat >crates/small/proofs/raised/Answers.antt <<'TEXT'
use borrow.Author.Tests.{lt-ltb, le-ltb}
use Rattle.small.specs.Small.{raised_to}
use Rattle.small.proofs.raised.Goals as goal

pub returns-then-n-lt20 : goal.returns-then-n-lt20
unfolding raised_to
returns-then-n-lt20 c = rw (lt-ltb _ _ c.if-n-lt20.true)

pub returns-else-n-lt20 : goal.returns-else-n-lt20
unfolding raised_to
returns-else-n-lt20 c = rw (le-ltb _ _ c.if-n-lt20.false)
TEXT

# ---- the edits: edit LABEL, its text on the standard input
edit() { cat >"crates/small/must-fail/$1.edit"; }
edit good <<'TEXT'
# wrong body of capped: 10 is not capped; the place behind the test has another name
file: src/lib.rt
old:     if n < 10 { n } else { 10 }
new:     if n < 11 { n } else { 10 }

# wrong body of rest: 1 is left where nothing is
old:     if a <= b { 0 } else { a - b }
new:     if a <= b { 1 } else { a - b }

# wrong body of least (proved by search): the greater one
old:     if a < b { a } else { b }
new:     if a < b { b } else { a }

# wrong body of rest_of_capped: behind 6, which shows only where its callees are right
old:     rest(c, 5)
new:     rest(c, 6)
TEXT
edit good_definition <<'TEXT'
# wrong definition Small.capped_at (falls at Caps.most): capped at 11
file: specs/Small.antt
old: (ltb n 10) n 10
new: (ltb n 10) n 11
TEXT
edit good_definitions <<'TEXT'
# wrong definition Small.capped_at (falls at capped.returns-else-n-lt10): capped at 11
file: specs/Small.antt
old: (ltb n 10) n 10
new: (ltb n 10) n 11

# wrong definition Small.raised_to (falls at returns-then-n-lt20): raised to 21
file: specs/Small.antt
old: (ltb n 20) 20 n
new: (ltb n 20) 21 n
TEXT
edit one_law <<'TEXT'
# wrong definition Small.capped_at (falls at Caps.most): capped at 11
file: specs/Small.antt
old: (ltb n 10) n 10
new: (ltb n 10) n 11

# wrong definition Small.raised_to (falls at Caps.most): raised to 21
file: specs/Small.antt
old: (ltb n 20) 20 n
new: (ltb n 20) 21 n
TEXT
edit lawless <<'TEXT'
# wrong definition Small.capped_at (falls at Caps.none): capped at 11, and the law that it names is none
file: specs/Small.antt
old: (ltb n 10) n 10
new: (ltb n 10) n 11

# wrong definition Small.raised_to: raised to 21, and no law is named
file: specs/Small.antt
old: (ltb n 20) 20 n
new: (ltb n 20) 21 n
TEXT
edit one_right <<'TEXT'
# wrong definition Small.capped_at (falls at Caps.most): capped at 11
file: specs/Small.antt
old: (ltb n 10) n 10
new: (ltb n 10) n 11

# wrong definition Small.raised_to (falls at Caps.most_again): not wrong at all; the law that it names falls because of the other
file: specs/Small.antt
old: (ltb n 20) 20 n
new: (ltb n 20) (19 + 1) n
TEXT
edit survives <<'TEXT'
# wrong body of least (proved by search): not wrong at all
file: src/lib.rt
old:     if a < b { a } else { b }
new:     if b < a { b } else { a }
TEXT
edit branches <<'TEXT'
# wrong body of capped: 3 is 4, by one more test
file: src/lib.rt
old:     if n < 10 { n } else { 10 }
new:     if n == 3 { 4 } else if n < 10 { n } else { 10 }
TEXT
edit another_test <<'TEXT'
# wrong body of capped: a test of another form
file: src/lib.rt
old:     if n < 10 { n } else { 10 }
new:     if n != 10 { n } else { 10 }
TEXT
edit untold <<'TEXT'
# wrong body of raised: 20 is raised to 20, by a test of which the proof says nothing
file: src/lib.rt
old:     if n < 20 { 20 } else { n }
new:     if n < 21 { 20 } else { n }
TEXT
edit one_proved <<'TEXT'
# wrong body of capped: not wrong at all
file: src/lib.rt
old:     if n < 10 { n } else { 10 }
new:     if n < 10 { n } else { 0xa }

# wrong body of rest: 1 is left where nothing is
old:     if a <= b { 0 } else { a - b }
new:     if a <= b { 1 } else { a - b }
TEXT
edit names <<'TEXT'
# wrong body of caped: there is no such function
file: src/lib.rt
old:     if n < 10 { n } else { 10 }
new:     if n < 11 { n } else { 10 }
# wrong body of rest: nothing is changed
# Wrong body of least: not as it is written
TEXT
edit unnamed <<'TEXT'
# 10 is not capped, and nothing is named
file: src/lib.rt
old:     if n < 10 { n } else { 10 }
new:     if n < 11 { n } else { 10 }
TEXT
edit no_scope <<'TEXT'
# wrong definition Small.capped_at: by a test that is not there
file: specs/Small.antt
old: (ltb n 10) n 10
new: (leb n 10) n 10
TEXT
edit gone <<'TEXT'
# wrong body of rest: a text that is not there
file: src/lib.rt
old:     if a <= b { 2 } else { a - b }
new:     if a <= b { 1 } else { a - b }
TEXT

# ---- what must be said of them
: >wrong
if .ci/judge >said 2>errors; then echo 'the judge takes all of them' >>wrong; fi
# expect WORDS, found in what is said of an edit (its lines, one after the other)
awk '/^judge: small\// { edit = $2 } /^  / { print edit $0 }' said >found
expect() { grep -q "^small/$1  $2" found || echo "not said: $1: $2" >>wrong; }
expect survives 'NOT REFUSED'
expect branches 'capped: the wrong body has other branches'
expect another_test 'capped: no false fact'
expect untold 'raised: no false fact'
expect one_proved 'capped: it is still proved'
expect names 'caped: there is no such function'
expect names 'rest: named, and no change stands below its name'
expect names 'line 6: not of the form'
expect names 'proofs/capped/Answers.antt: fails too, and the edit does not name it'
expect unnamed 'it names no wrong body and no wrong definition'
expect no_scope 'Small.capped_at: not a false fact'
expect one_law 'Small.raised_to: Caps.most is where Small.capped_at falls'
expect lawless 'Small.capped_at: Caps.none does not fall'
expect lawless 'Small.raised_to: it shares its edit, and does not say at which law it falls'
expect one_right 'Small.raised_to: Caps.most_again shows no false fact of its own'
expect gone 'it cannot be applied'
if grep -q '^small/good\|^small/one_proved  rest' found; then echo 'a right edit is refused' >>wrong; fi
grep -q '; 12 edits do not show what they name$' said || echo 'not 12 edits that do not show what they name' >>wrong

# ---- the last line of the gate, and its status: rt takes an edit of which one body is proved, and leaves out one that is gone
mkdir aside
for label in good_definition good_definitions survives branches another_test untold names unnamed no_scope one_law lawless one_right; do mv "crates/small/must-fail/$label.edit" aside; done
if .ci/verdict >verdict 2>&1; then echo 'the gate takes a wrong edit' >>wrong; fi
[ "$(tail -n 1 verdict)" = '2 passed, 2 failed' ] || echo "not the tally '2 passed, 2 failed'" >>wrong
grep -q '^rt: must-fail small/one_proved.edit: refused' verdict || echo 'rt does not say what it takes' >>wrong
rm crates/small/must-fail/gone.edit crates/small/must-fail/one_proved.edit

# ---- what was judged is not judged again, while all that was read stays the same
.ci/judge --record >first 2>&1 || echo 'the right edit alone is refused' >>wrong
.ci/judge >again 2>&1 || echo 'the right edit is refused when it was judged' >>wrong
grep -q '^judge: 1 of 1 edits were judged before' again || echo 'what was judged is judged again' >>wrong
echo '// another line' >>crates/small/src/lib.rt
.ci/judge >changed 2>&1 || echo 'the right edit is refused after a change' >>wrong
if grep -q 'were judged before' changed; then echo 'what was judged of another text is taken' >>wrong; fi
sed -i '$d' crates/small/src/lib.rt
sed -i 's/: 1 is left/: one is left/' crates/small/must-fail/good.edit
.ci/judge --all small >changed 2>&1 || echo 'the right edit is refused after a change of its words' >>wrong
if grep -q 'were judged before' changed; then echo 'with --all not all is judged' >>wrong; fi

# ---- the right edit alone: rt's own last line and status, here from stand-ins for rt and the judge
if .ci/verdict true >right 2>&1; then
    [ "$(tail -n 1 right)" = '2 passed, 0 failed' ] || echo 'the right edit alone: not the last line of rt' >>wrong
else
    echo 'the right edit alone is refused' >>wrong
fi
mkdir bin
stand_in() { printf '#!/bin/sh\n%s\n' "$2" >"$1" && chmod +x "$1"; } # FILE COMMANDS
PATH=$room/bin:$PATH
stand_in .ci/judge 'echo "judge: 0 edits do not show what they name"'
# gives WHAT LAST-LINE STATUS COMMAND..
gives() {
    what=$1 line=$2 wanted=$3
    shift 3
    found=0
    .ci/verdict "$@" >told 2>&1 || found=$?
    if [ "$found" -ne "$wanted" ] || [ "$(tail -n 1 told)" != "$line" ]; then echo "$what: status $found, $(tail -n 1 told)" >>wrong; fi
}
stand_in bin/rt 'echo "rt: ok; handles allowed: none; must-fail edits: 2 refused; all was done"; echo "3 passed, 0 failed"'
gives 'all well' '3 passed, 0 failed' 0 true
gives 'a command that fails' '3 passed, 1 failed' 1 true false
stand_in bin/rt 'echo "rt: ok; handles allowed: none; must-fail edits: 2 refused, 1 bad; all was done"; echo "3 passed, 0 failed"'
gives 'a bad edit' '3 passed, 1 failed' 1 true
stand_in bin/rt 'echo "3 passed, 0 failed"; exit 1'
gives 'a status of rt' '3 passed, 0 failed' 1
stand_in bin/rt 'echo "rt: stopped"; exit 2'
gives 'a run that stopped' 'rt: stopped' 2
stand_in bin/rt 'echo "3 passed, 0 failed"'
stand_in .ci/judge 'exit 2'
gives 'a judge that fails' '3 passed, 1 failed' 1

# ---- two wrong bodies each: four have one, raised has none; then all have two
if .ci/two-each >few; then echo 'one wrong body is taken for two' >>wrong; fi
for said in 'capped has 1' 'raised has 0' 'rest has 1' 'least has 1' 'rest_of_capped has 1'; do
    grep -qx "gate: small: $said wrong bodies, and not two" few || echo "not said: $said" >>wrong
done
for label in again once_more; do cp crates/small/must-fail/good.edit "crates/small/must-fail/$label.edit"; done
sed -i 's/# wrong body of capped/# wrong body of raised/' crates/small/must-fail/good.edit
.ci/two-each >enough && echo 'raised has one, and is taken' >>wrong
cp crates/small/must-fail/good.edit crates/small/must-fail/last.edit
.ci/two-each >enough || echo 'two wrong bodies are not enough' >>wrong
# a static library too
sed -i 's/^small:/small staticlib:/' crates.txt
rm crates/small/must-fail/*.edit
if .ci/two-each >few; then echo 'no wrong body of a static library is taken for two' >>wrong; fi
if [ -s wrong ]; then
    cat said verdict wrong
    echo "gate: the judge of the must-fail edits FAILED its tests"
    exit 1
fi
echo "gate: the judge of the must-fail edits is right on 15 edits"
