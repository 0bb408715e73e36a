# What the scripts beside it share: the program, a folder for their files, and the timing of commands. To be sourced.
cd "$(dirname "${BASH_SOURCE[0]}")/.."
innod="${INNOD:-crates/innod/out/innod}"
if [ ! -x "$innod" ]; then
    echo "no program at $innod: build it first (README.md, \"Two commands\")" >&2
    exit 1
fi
work="$(mktemp -d)"
trap 'rm -rf "$work"' EXIT

# With INSTRUCTIONS set, `valgrind` counts what a command does in place of the clock: thousands of instructions, the same in each run, whatever
# else the machine does.
unit=ms
counter=()
if [ -n "${INSTRUCTIONS:-}" ]; then
    unit="thousand instructions"
    counter=(valgrind --tool=callgrind --callgrind-out-file=/dev/null "--log-file=$work/counted")
fi

# Plays a script over the files of a new database.
play() {
    rm -f "$work"/file.*
    "$innod" init "$work/file"
    "${counter[@]}" "$innod" play "$work/file" "$1"
}

# Milliseconds of a command, the least of three (or instructions, counted once); what it printed last stands in $work/out.
timed() {
    local best='' start end took
    if [ -n "${INSTRUCTIONS:-}" ]; then
        "$@" >"$work/out"
        awk '/Collected/ { print int($4 / 1000) }' "$work/counted"
        return
    fi
    for _ in 1 2 3; do
        start="$(date +%s%N)"
        "$@" >"$work/out"
        end="$(date +%s%N)"
        took=$(((end - start) / 1000000))
        if [ -z "$best" ] || [ "$took" -lt "$best" ]; then best="$took"; fi
    done
    echo "$best"
}

# The same of a script that is played, in which no statement may fail.
timed_script() {
    timed play "$1"
    if grep -q '> ERROR\|> NO MEMORY\|> RUN LIMIT' "$work/out"; then
        echo "$1: the program answered an error" >&2
        exit 1
    fi
}

# A table and so many rows, in INSERTs of 50: row i has the key i * STEP modulo MODULUS. Use: load_script ROWS STEP MODULUS
load_script() {
    echo 'CREATE TABLE t (id BIGINT, a BIGINT, PRIMARY KEY (id), KEY ka (a));'
    echo '@session s'
    awk -v n="$1" -v step="$2" -v modulus="$3" 'BEGIN {
        for (i = 0; i < n; i++) {
            if (i % 50 == 0) printf "INSERT INTO t VALUES "
            printf "(%d,%d)%s", i * step % modulus, i, (i % 50 == 49 || i == n - 1) ? ";\n" : ","
        }
    }'
}
