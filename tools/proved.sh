# Sourced by ./lerc2, tools/archive.sh and bench/native.sh, with `name` (the caller's, for what it says) and `root` (the
# repository's folder): is a file that was made of the sources as they are, and how is it made anew.
#
# Beside a FILE stands FILE.of: the kit, the sum of the sources it was made from, and the file's own sum. It is written when
# all of it was proved, and contents alone are compared, never times: so a check that failed or was broken off, an edit that
# was taken back and an archive from elsewhere are all told apart. Asking writes nothing.

# what these scripts keep, beside what rt does
kept=$root/target/proved

say() { printf '%s: %s\n' "$name" "$*" >&2; }

# the line of CRATE in crates.txt and of each crate below it, in the form 'NAME: DEP DEP'
lines_of() { # CRATE
    awk -v crate="$1" '
        { sub(/#.*/, ""); at = index($0, ":") }
        # behind a name may stand what kind of crate it is
        at { own = substr($0, 1, at - 1); sub(/^[ \t]+/, "", own); sub(/[ \t].*/, "", own); below[own] = substr($0, at + 1) }
        END {
            todo[count = 1] = crate
            for (k = 1; k <= count; k++) {
                if (!(todo[k] in below) || seen[todo[k]]++) continue
                print todo[k] ":" below[todo[k]]
                more = split(below[todo[k]], next_ones, " ")
                for (j = 1; j <= more; j++) todo[++count] = next_ones[j]
            }
        }' "$root/crates.txt"
}

# the crates that CRATE is made from, itself among them, each behind those that it uses
crates_of() { # CRATE
    lines_of "$1" | awk '
        { at = index($0, ":"); own[NR] = substr($0, 1, at - 1); uses[NR] = substr($0, at + 1); is_ours[own[NR]] = 1 }
        END {
            for (left = NR; left; left = now) {
                now = left
                for (k = 1; k <= NR; k++) {
                    if (done[own[k]]) continue
                    waits = 0
                    n = split(uses[k], use, " ")
                    for (j = 1; j <= n; j++) if (use[j] in is_ours && !done[use[j]]) waits = 1
                    if (waits) continue
                    print own[k]
                    done[own[k]] = 1
                    now--
                }
                if (now == left) exit 1
            }
        }'
}

# one sum of all that CRATE is made from; the wrong bodies, and what rt made, are no part of it
sources_sum() { # CRATE
    lines=$(lines_of "$1") || return 2
    [ -n "$lines" ] || { say "$root/crates.txt has no crate $1"; return 2; }
    # shellcheck disable=SC2046
    files=$(cd "$root/crates" && find $(crates_of "$1") \( -name must-fail -o -name out \) -prune -o -type f -exec sha256sum {} +) || {
        say "the sources of $1 in $root/crates cannot all be read"
        return 2
    }
    printf '%s\n' "$lines" "$files" | LC_ALL=C sort | sha256sum | cut -d ' ' -f 1
}

# what FILE.of must have; without the kit on the path its line is left out
record() { # FILE CRATE
    sources=$(sources_sum "$2") || return 2
    own=$(sha256sum <"$1") || return 2
    if command -v rt >/dev/null; then printf 'kit %s\n' "$(rt version)"; fi
    printf 'sources %s\nfile %s\n' "$sources" "${own%% *}"
}

# 0 if FILE was made from CRATE's sources as they are
is_made_from() { # FILE CRATE
    [ -f "$1" ] && [ -f "$1.of" ] || return 1
    wanted=$(record "$1" "$2") || return 2
    if command -v rt >/dev/null; then found=$(cat "$1.of"); else found=$(sed '/^kit /d' "$1.of"); fi
    [ "$wanted" = "$found" ]
}

# writes FILE.of, unless CRATE's sources have another sum than when FILE's making began
mark() { # FILE CRATE SUM
    if [ "$(sources_sum "$2")" != "$3" ]; then
        say "the sources were changed while they were proved; run it again"
        return 2
    fi
    record "$1" "$2" >"$1.of.new.$$" && mv -f "$1.of.new.$$" "$1.of"
}

# One at a time: rt writes in the crates' out/ as it likes. The lock goes with the last process that has it, a prover that outlives
# its caller among them.
take_lock() {
    lock=$kept/lock
    if ! { mkdir -p "$kept" && (exec 9>>"$lock"); } 2>/dev/null; then
        say "$kept cannot be written, so nothing can be proved here"
        return 2
    fi
    exec 9>>"$lock"
    if ! command -v flock >/dev/null; then
        say "the command 'flock' is not there; without it two calls could prove at once"
        return 2
    fi
    flock -n 9 || {
        say "another call is proving; waiting for it"
        flock 9
    }
}

give_lock() { exec 9>&-; }

# Proves CRATE and all below it, the lowest first, by `rt lib`, and CRATE itself by the WORDS, each in its folder. Says which of
# them were proved, as they are. Status of the rt that failed, or 0; what all of them said is in $said, and the words of the
# last one in $last.
run_rt() { # CRATE WORDS...
    crate=$1
    shift
    crates=$(crates_of "$crate") || { say "$root/crates.txt has a circle below $crate"; return 2; }
    all=$(printf '%s\n' "$crates" | wc -l) count=0
    said=$kept/$name.said one=$kept/$name.one
    : >"$said" || return 2
    own_group=$(command -v setsid)
    trap 'stop_rt INT' INT
    trap 'stop_rt TERM' TERM
    trap 'stop_rt HUP' HUP
    for each in $crates; do
        if [ "$each" = "$crate" ]; then begin_rt "$@"; else begin_rt lib; fi
        end_rt || return
    done
    trap - INT TERM HUP
}

# starts rt in the folder of $each, in a group of its own, so that all of it can be stopped (its provers ignore an interrupt)
begin_rt() { # WORDS...
    begun=$(date +%s)
    last="rt $*' in crates/$each"
    (cd "$root/crates/$each" && exec ${own_group:+"$own_group"} rt "$@") </dev/null >"$one" 2>&1 &
    prover=$!
}

# waits for it, and tells if it proved something
end_rt() {
    wait "$prover"
    status=$?
    cat "$one" >>"$said"
    count=$((count + 1))
    # a crate that is built of the same text says nothing of a proof
    if grep -q '^logic=proved' "$one"; then say "proved $count of $all: $each ($(($(date +%s) - begun)) s)"; fi
    rm -f "$one"
    [ "$status" -eq 0 ] || trap - INT TERM HUP
    return "$status"
}

# the lines of what rt said that tell why it failed
show_failure() {
    why=$(grep -E ': error|error\[|^fn .*: (not proved|no proof)' "$said" | cut -c 1-300 | head -n 20)
    [ -n "$why" ] || why=$(tail -n 20 "$said")
    printf '%s\n' "$why" >&2
}

stop_rt() { # SIGNAL
    trap - INT TERM HUP
    kill -TERM "-$prover" 2>/dev/null || kill -TERM "$prover" 2>/dev/null
    wait "$prover" 2>/dev/null
    rm -f "$one"
    say "broken off; crates that were proved are not proved again"
    kill "-$1" $$
}
