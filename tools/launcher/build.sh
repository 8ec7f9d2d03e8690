# shellcheck shell=bash disable=SC2154
# Which program runs: the one that the gate left, or one that is compiled, unproved, and kept by a sum of its sources.

kept=$crate/out/unproved
# In a release the program lies here, and there are no sources.
released=$top/bin/h263rps
[ ! -x "$released" ] || program=$released
# By the gate's run (.ci/run): the sum of the program, and that of all that was proved.
gate=$crate/out/gate.sums

# sum_of FIND'S WORDS: one sum of files below the top and of their names.
sum_of() {
    (cd "$top" && find crates.txt crates -name out -prune -o "$@" -type f -print0 \
        | LC_ALL=C sort -z | xargs -0 sha256sum | sha256sum | cut -c 1-64)
}
sum_of_sources() { sum_of \( -path '*/src/*' -o -name crates.txt \); }
sum_of_all() { sum_of -name must-fail -prune -o -name edits -prune -o; }
sum_of_program() { sha256sum < "$program" | cut -c 1-64; }

# What `.ci/run` keeps.
gate_sums() { printf '%s %s\n' "$(sum_of_program)" "$(sum_of_all)"; }

is_release() { [ "$program" = "$released" ]; }

# Whether the gate's program is there, and no source is newer.
is_built() {
    ! is_release || return 0
    [ -x "$program" ] && [ -z "$(find "$top/crates.txt" "$top/crates" -name out -prune -o -name must-fail -prune \
        -o -name edits -prune -o -type f -newer "$program" -print -quit)" ]
}

# Whether another program was put in the place of the one that the gate left. The sums are looked at where it is newer
# than they are.
is_another() {
    local said
    [ -f "$gate" ] && [ "$program" -nt "$gate" ] || return 1
    read -r -a said < "$gate"
    [ "${said[1]-}" = "$(sum_of_all)" ] && [ "${said[0]-}" != "$(sum_of_program)" ]
}

# Whether the program is the one whose sum the release has.
is_as_released() { (cd "$top" && grep ' bin/h263rps$' SHA256SUMS 2>/dev/null | sha256sum -c --status); }

# How far the program is known to be the one that was proved.
proof() {
    if is_release; then
        if is_as_released; then echo "proved by rt ci, as released"; else echo "unproved: its sum isn't the release's"; fi
    elif ! is_built; then
        echo unproved
    elif [ ! -f "$gate" ]; then
        echo "built after its sources, not compared with a gate's sums"
    elif [ "$(gate_sums)" = "$(cat "$gate")" ]; then
        echo "proved by rt ci"
    else
        echo "unproved: its sum isn't the one that the gate's run left"
    fi
}

# A proof is one by a logic: README names the sum of the one by which the gate passed. A proved program needs no kit, so
# this is asked only where rt is about to compile.
compare_logic() {
    local named kit
    # shellcheck disable=SC2016
    named=$(sed -n 's/.*logic is `\([0-9a-f]*\)`.*/\1/p' "$top/README.md")
    kit=$(rt version 2>/dev/null) || fail "there is no rt to compile it: README names the kit"
    case "$kit " in
        *" logic $named "*) ;;
        *) say "README names the logic $named, and this kit is $kit" ;;
    esac
}

# Takes the unproved program that was compiled of these sources, or compiles it.
take_unproved() {
    local sum lock
    sum=$(sum_of_sources)
    program=$kept
    ! is_kept "$sum" || return 0
    compare_logic
    mkdir -p "$crate/out" 2>/dev/null
    [ -w "$crate/out" ] || fail "it is compiled to $crate/out, which may not be written: a clone of your own may"
    # Of several first runs one compiles, and the others wait for it.
    if command -v flock > /dev/null && exec {lock}< "$crate/out"; then
        flock -n "$lock" || { say "another run compiles it: this one waits" && flock "$lock"; }
    fi
    if ! is_kept "$sum"; then
        say "unproved: it is compiled now, once for these sources, in a minute or more; rt ci proves it"
        compile
        echo "$sum" > "$kept.sum"
    fi
    [ -z "$lock" ] || exec {lock}<&-
}

# is_kept SUM: whether the program of these sources is there.
is_kept() { [ -x "$kept" ] && [ "$(cat "$kept.sum" 2>/dev/null)" = "$1" ]; }

# rt try compiles, runs and removes a program. It is given a log that ends when the program was copied.
compile() {
    local room made=$kept.$$ copier compiler said
    room=$(mktemp -d 2>/dev/null) || fail "it can't be compiled: nothing may be written to ${TMPDIR:-/tmp}, or it is full"
    # shellcheck disable=SC2064
    trap "rm -rf '$room' '$made'" EXIT
    mkfifo "$room/log"
    find "$room" -name program -type f -exec cp {} "$made" \; > "$room/log" &
    copier=$!
    (cd "$crate" && TMPDIR=$room exec rt try --seconds 86400 -- rate "$room/log" --target 1 --bucket 1) \
        > "$room/said" 2>&1 &
    compiler=$!
    trap 'kill "$compiler" "$copier" 2>/dev/null; end_watch; exit 130' HUP INT TERM
    watch_seconds "compiling, for"
    wait "$compiler"
    end_watch
    # A copier that is killed before it began may run the trap on its own exit.
    said=$(cat "$room/said")
    kill "$copier" 2>/dev/null
    wait "$copier" 2>/dev/null
    trap - HUP INT TERM
    if ! chmod 755 "$made" 2>/dev/null || ! mv "$made" "$kept"; then
        [ -z "$said" ] || printf '%s\n' "$said" >&2
        fail "it could not be compiled"
    fi
}
