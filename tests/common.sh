# What tests/program.sh and tests/limits.sh share: the program, a folder of their own, and how a call is judged. `. common.sh` reads it.
set -u
here=$(cd "$(dirname "${BASH_SOURCE[0]}")/.." && pwd)
innod=$(realpath "${1:-$here/crates/innod/out/innod}")
[ -x "$innod" ] || { echo "no program at $innod: build it first (README, \"Build it\")" >&2; exit 99; }
at=$(mktemp -d) && cd "$at" || exit 99
trap 'rm -rf "$at"' EXIT
passed=0 failed=0

say() { # ok or not, and the test's name, which VERBOSE=1 prints in any case
    [ -z "${VERBOSE-}" ] || echo "$(date +%T) $2"
    if [ "$1" = 0 ]; then passed=$((passed + 1)); else failed=$((failed + 1)); echo "FAILED: $2"; fi
}

# ended NAME STATUS COMMAND..: what it printed is in out, what it said in err
ended() {
    local name=$1 wanted=$2 got
    shift 2
    "$@" >out 2>err
    got=$?
    [ "$got" = "$wanted" ]
    say $? "$name: status $got, not $wanted: $(tail -n 2 err | tr '\n' ' ')"
}

printed() { # NAME TEXT: exactly this was printed
    [ "$(cat out; echo .)" = "$2
." ]
    say $? "$1: printed $(head -c 300 out)"
}

said() { # NAME TEXT: standard error has this
    grep -qF -- "$2" err
    say $? "$1: said $(head -c 300 err)"
}

script() { # NAME TEXT
    printf '%s' "$2" >"$1"
}

printed_none() { # NAME: nothing was printed
    [ ! -s out ]
    say $? "$1: printed $(head -c 300 out)"
}

last_printed() { # NAME TEXT: this was printed last
    [ "$(tail -n 1 out)" = "$2" ]
    say $? "$1: printed last $(tail -n 1 out | head -c 300)"
}

tell() { # how many passed
    echo "$passed passed, $failed failed"
    [ "$failed" -gt 99 ] && failed=99
    exit "$failed"
}
