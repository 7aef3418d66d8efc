# shellcheck shell=bash
# Sourced by the tests, at the top of the repository. A test prints a line for each of its checks and ends in a count.
passed=0
failed=0
skipped=()
room=$(mktemp -d)
log=$room/log
trap 'rm -rf "$room"' EXIT

good() { # NAME
    passed=$((passed + 1))
    echo "ok: $1"
}

bad() { # NAME
    failed=$((failed + 1))
    echo "FAILED: $1"
}

# a check that this machine cannot make: neither passed nor failed, but named here and again before the count
skip() { # NAME
    skipped+=("$1")
    echo "SKIPPED: $1"
}

# one line for a check; what it said where it failed
check() { # NAME COMMAND...
    local name=$1
    shift
    if "$@" >"$log" 2>&1; then
        good "$name"
    else
        cat "$log"
        bad "$name"
    fi
}

# a test of its own: shown as it goes, its count taken off its last line, and what it skipped
counted() { # NAME COMMAND...
    local name=$1 status before=$failed
    shift
    echo "-- $name"
    "$@" 2>&1 | tee "$log"
    status=${PIPESTATUS[0]}
    if [[ $(tail -n 1 "$log") =~ ^([0-9]+)\ passed,\ ([0-9]+)\ failed($|\ ) ]]; then
        passed=$((passed + BASH_REMATCH[1]))
        failed=$((failed + BASH_REMATCH[2]))
    else
        bad "$name ended without a count"
    fi
    mapfile -t -O "${#skipped[@]}" skipped < <(sed -n 's/^SKIPPED: //p' "$log")
    [ "$status" -eq 0 ] || [ "$failed" -gt "$before" ] || bad "$name ended with status $status"
}

# the last line of a test, and its verdict: a test without a single check has failed
counts() {
    local names
    [ $((passed + failed)) -gt 0 ] || bad "nothing was checked"
    printf -v names '; %s' "${skipped[@]}"
    [ "${#skipped[@]}" -eq 0 ] || echo "${#skipped[@]} skipped: ${names:2}"
    echo "$passed passed, $failed failed"
    [ "$failed" -eq 0 ]
}

# Debian's packages, where this is a Debian that can reach them
fetch() { # PACKAGE...
    local as=()
    [ "$(id -u)" -eq 0 ] || as=(sudo)
    "${as[@]}" apt-get update -qq
    "${as[@]}" env DEBIAN_FRONTEND=noninteractive apt-get install -y -qq "$@"
}

# the names of the calls that the header declares
header_calls() { sed -nE 's/^Desk[A-Z][a-z]+ (desk_[a-z_]+)\(.*/\1/p' include/desk.h; }
