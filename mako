#!/usr/bin/env bash
# Runs the proved program with the same words, standard input and output, and ends with its status.
# Builds it first where it is missing, or older than a source that it is proved from, and tells on standard error how
# far that is.
# Ends with 127 where it has to be built and there is no `rt`, and with 126 where the build fails.

here=$(CDPATH='' cd -- "$(dirname -- "${BASH_SOURCE[0]}")" && pwd -P) || exit 126
program=$here/crates/mako/out/mako
log=$here/crates/mako/out/build.log

say() {
    printf 'mako: %s\n' "$*" >&2
}

# A file that was changed since the program was built.
newer_source() {
    find "$here/crates.txt" "$here"/crates/*/src "$here"/crates/*/specs "$here"/crates/*/proofs \
        -type f -newer "$program" -print 2>/dev/null | head -n 1
}

# How many of this repository's crates the program is made of.
count_crates() {
    awk -F: '
        { below[$1] = $2 }
        END {
            todo[1] = "mako"; seen["mako"] = 1; last = 1
            for (i = 1; i <= last; i++) {
                n = split(below[todo[i]], names, " ")
                for (j = 1; j <= n; j++)
                    if (names[j] in below && !seen[names[j]]++) todo[++last] = names[j]
            }
            print last
        }' "$here/crates.txt"
}

# Tells which crate is being proved, whenever that changes, until the process $1 ends.
tell_progress() {
    local crates started=$SECONDS told='' now
    crates=$(count_crates)
    while kill -0 "$1" 2>/dev/null; do
        now=$(sed -n 's/^rt: chose --jobs [0-9]* for //p' "$log" 2>/dev/null | tail -n 1)
        if [ -n "$now" ] && [ "$now" != "$told" ]; then
            told=$now
            say "proving $now, after $(grep -c '^logic=proved' "$log") of $crates crates and $(((SECONDS - started) / 60)) min $(((SECONDS - started) % 60)) s"
        fi
        sleep 1
    done
}

build() {
    local builder
    if ! command -v rt >/dev/null; then
        say 'the program has to be built, and the command rt is not on the PATH'
        exit 127
    fi
    if [ ! -d "$here/crates/mako/src" ]; then
        say 'there is no crate mako in crates/'
        exit 126
    fi
    say "$1: proving and building the program, which takes half an hour or more on a new clone; the whole log is $log"
    mkdir -p "$here/crates/mako/out" || exit 126
    rm -f "$program"
    # `rt run` leaves the program where its proof passed, and runs it once: without words it reads nothing.
    # It is a job of its own, so that it ends with this script.
    set -m
    (CDPATH='' cd -- "$here/crates/mako" && exec rt run </dev/null >"$log" 2>&1) &
    builder=$!
    set +m
    trap 'kill -- "-$builder" 2>/dev/null; exit 130' INT TERM
    tell_progress "$builder"
    wait "$builder"
    trap - INT TERM
    if [ ! -x "$program" ]; then
        say 'the program was not built:'
        grep -E 'error|not proved|^rt: ' "$log" | grep -v '^rt: chose' | tail -n 12 >&2
        exit 126
    fi
}

if [ ! -x "$program" ]; then
    build 'there is no program yet'
elif [ -n "$(newer_source)" ]; then
    build 'a source has changed'
fi

exec "$program" "$@"
