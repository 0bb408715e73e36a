#!/usr/bin/env bash
# Times a load in transactions of 50,000 rows (one has 65,535 changes at most) and selects by key, by the built program and by sqlite3 in
# memory, and prints the ratio (of instructions, with INSTRUCTIONS=1).
# Use: bench/beside_sqlite.sh [ROWS [SELECTS]]      (INNOD names another program than crates/innod/out/innod)
set -euo pipefail
source "$(dirname "$0")/common.sh"
rows="${1:-100000}"
selects="${2:-1000}"
command -v sqlite3 >/dev/null || { echo "no sqlite3 here" >&2; exit 1; }
statements() {
    awk -v n="$rows" -v m="$selects" 'BEGIN {
        print "BEGIN;"
        for (i = 0; i < n; i++) {
            if (i > 0 && i % 50000 == 0) print "COMMIT;\nBEGIN;"
            if (i % 50 == 0) printf "INSERT INTO t VALUES "
            printf "(%d,%d)%s", i, i * 7919 % 100003, (i % 50 == 49 || i == n - 1) ? ";\n" : ","
        }
        print "COMMIT;"
        for (i = 0; i < m; i++) printf "SELECT * FROM t WHERE id = %d;\n", i * 7919 % n
    }'
}

{
    echo 'CREATE TABLE t (id BIGINT, a BIGINT, PRIMARY KEY (id), KEY ka (a));'
    echo '@session s'
    statements
} >"$work/innod.sql"
{
    echo 'CREATE TABLE t (id INTEGER PRIMARY KEY, a BIGINT);'
    echo 'CREATE INDEX ka ON t (a);'
    statements
} >"$work/sqlite.sql"

sqlite() { "${counter[@]}" sqlite3 :memory: <"$work/sqlite.sql"; }

ours="$(timed_script "$work/innod.sql")"
theirs="$(timed sqlite)"
awk -v a="$ours" -v b="$theirs" -v unit="$unit" 'BEGIN { printf "innod %d, sqlite3 %d %s, ratio %.1f\n", a, b, unit, a / b }'
