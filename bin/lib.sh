# shellcheck shell=bash
# Sourced by .ci/run and by the scripts beside it, each of which runs a program on a file or on standard input. Where the program
# is missing, or was not made of the sources as they are, it is proved and built first; only what the program says goes to
# standard output.
here=$(cd "$(dirname "${BASH_SOURCE[0]}")/.." && pwd)
script=bin/$(basename "$0")

# one sum over the kit and every file under crates/ but those that rt made
sources() {
    (
        cd "$here" || exit
        { rt version; find crates.txt crates -regex 'crates/[^/]*/out' -prune -o -type f -print0 | sort -z | xargs -0 sha256sum; } |
            sha256sum
    )
}
# what the stamp says: what the program was made of, and which program that was
made_of() { echo "$1 $(sha256sum <"$2")"; } # SOURCES PROGRAM
note() { mkdir -p "$here/target" && made_of "$2" "$here/crates/$1/out/$1" >"$here/target/$1.stamp"; } # NAME SOURCES

build() { # NAME
    local program=$here/crates/$1/out/$1 stamp=$here/target/$1.stamp log=$here/target/$1.log now
    now=$(sources)
    if [ ! -x "$program" ]; then
        echo "$script: the program is not built yet; proving and building it takes some minutes" >&2
    elif [ "$(cat "$stamp" 2>/dev/null)" = "$(made_of "$now" "$program")" ]; then
        return
    fi
    mkdir -p "$here/target"
    # rt has no command that builds a program and does not run it, so it is run on nothing here
    (cd "$here/crates/$1" && rt run) 2>&1 >/dev/null </dev/null | tee "$log" |
        grep --line-buffered '^rt: ' | grep --line-buffered -v -e '^rt: nothing has changed ' -e '^rt: running ' >&2
    if [ "${PIPESTATUS[0]}" -ne 0 ]; then
        grep -v '^rt: ' "$log" >&2
        echo "$script: the build failed" >&2
        exit 1
    fi
    note "$1" "$now"
}

run() { # NAME [FILE]
    build "$1"
    if [ $# -gt 1 ]; then
        exec <"$2" || exit 1
    fi
    exec "$here/crates/$1/out/$1"
}
