#!/usr/bin/env bash
# Times single-row statements by key over a small table and over a large one, and prints ratios of times of this one run (or of instructions,
# with INSTRUCTIONS=1: a load of many rows takes longer than the statements, so that other work on the machine hides what they take).
# Use: bench/by_key.sh [SMALL [LARGE [STATEMENTS]]]      (INNOD names another program than crates/innod/out/innod)
set -euo pipefail
source "$(dirname "$0")/common.sh"
small="${1:-1000}"
large="${2:-100000}"
count="${3:-1000}"
# Even keys, so that odd ones are free.
load() { load_script "$1" 2 1000000007; }

# So many statements of a kind, at keys that are spread over a table of so many rows.
statements() {
    awk -v kind="$1" -v n="$2" -v count="$3" 'BEGIN {
        for (i = 0; i < count; i++) {
            k = int(i * 7919 % n)
            if (kind == "INSERT") printf "INSERT INTO t VALUES (%d,%d);\n", 2 * int(i * n / count) + 1, n + i
            if (kind == "SELECT") printf "SELECT * FROM t WHERE id = %d;\n", 2 * k
            if (kind == "UPDATE") printf "UPDATE t SET a = a + 1 WHERE id = %d;\n", 2 * k
            if (kind == "DELETE") printf "DELETE FROM t WHERE id = %d;\n", 2 * k
            if (kind == "LOOKUP") printf "SELECT * FROM t WHERE a = %d;\n", k
        }
    }'
}

# Milliseconds that so many statements of a kind take after a load.
cost() {
    load "$2" >"$work/$1.$2.sql"
    statements "$1" "$2" "$count" >>"$work/$1.$2.sql"
    echo $(($(timed_script "$work/$1.$2.sql") - $3))
}

load "$small" >"$work/small.sql"
load "$large" >"$work/large.sql"
few="$(timed_script "$work/small.sql")"
many="$(timed_script "$work/large.sql")"
echo "load of $small rows $few $unit, of $large rows $many"
for kind in INSERT SELECT UPDATE DELETE LOOKUP; do
    a="$(cost "$kind" "$small" "$few")"
    b="$(cost "$kind" "$large" "$many")"
    awk -v kind="$kind" -v count="$count" -v a="$a" -v b="$b" \
        'BEGIN { printf "%d of %-6s  small %d, large %d, ratio %s\n", count, kind, a, b, (a > 0 ? sprintf("%.2f", b / a) : "-") }'
done
