#!/usr/bin/env bash
# Times single-row transactions, each session on a row of its own, shared out among 1, 4 and 16 sessions on threads, over files in
# memory, where a sync costs next to nothing; and prints transactions a second beside those of one session, as ratios.
# Use: bench/turns.sh [TRANSACTIONS]      (INNOD names another program than the built one)
set -euo pipefail
[ -d /dev/shm ] && export TMPDIR=/dev/shm
source "$(dirname "$0")/common.sh"
transactions="${1:-3200}"

rows_made() {
    echo "CREATE TABLE t (id BIGINT, a BIGINT, PRIMARY KEY (id));"
    awk 'BEGIN { for (i = 0; i < 16; i++) printf "INSERT INTO t VALUES (%d,0);\n", i }'
}

# The transactions of so many sessions, turn about.
transactions_of() {
    awk -v n="$transactions" -v k="$1" 'BEGIN {
        for (i = 0; i < n; i++) printf "@session s%d\nUPDATE t SET a = a + 1 WHERE id = %d;\n", i % k, i % k
    }'
}

run_over() {
    rm -f "$work"/file.*
    "$innod" init "$work/file"
    "$innod" run "$work/file" "$1"
}

rows_made >"$work/rows.sql"
base="$(timed run_over "$work/rows.sql")"
for sessions in 1 4 16; do
    { rows_made; transactions_of "$sessions"; } >"$work/$sessions.sql"
    took="$(($(timed run_over "$work/$sessions.sql") - base))"
    [ "$took" -gt 0 ] || took=1
    [ "$sessions" -gt 1 ] || alone="$took"
    awk -v k="$sessions" -v n="$transactions" -v a="$alone" -v t="$took" 'BEGIN {
        printf "%d sessions: %d transactions a second, %.2f times one session\n", k, n * 1000 / t, a / t
    }'
done
