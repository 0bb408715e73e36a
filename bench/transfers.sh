#!/usr/bin/env bash
# Times bank transfers (two UPDATEs by key and a COMMIT), shared out among sessions of one process, beside the same by sqlite3 on
# the same folder (WAL, synchronous FULL), and prints transactions a second as ratios, and syncs a commit where strace is there.
# Use: bench/transfers.sh [TRANSFERS [COMMAND]]      (COMMAND is play or run; INNOD names another program than the built one)
set -euo pipefail
source "$(dirname "$0")/common.sh"
transfers="${1:-800}"
command="${2:-play}"
accounts=100
command -v sqlite3 >/dev/null || { echo "no sqlite3 here" >&2; exit 1; }

accounts_made() {
    echo "CREATE TABLE t (id BIGINT, a BIGINT, PRIMARY KEY (id));"
    awk -v n="$accounts" 'BEGIN { for (i = 0; i < n; i++) printf "INSERT INTO t VALUES (%d,1000);\n", i }'
}

# The transfers of so many sessions, turn about; with 0 of them no session is named.
transfers_of() {
    awk -v n="$transfers" -v k="$1" -v m="$accounts" 'BEGIN {
        for (i = 0; i < n; i++) {
            if (k > 0) printf "@session s%d\n", i % k
            print "BEGIN;"
            printf "UPDATE t SET a = a - 1 WHERE id = %d;\n", i * 7 % m
            printf "UPDATE t SET a = a + 1 WHERE id = %d;\n", (i * 7 + 3) % m
            print "COMMIT;"
        }
    }'
}

run_over() {
    rm -f "$work"/file.*
    "$innod" init "$work/file"
    "$innod" "$command" "$work/file" "$1"
}

sqlite_over() {
    rm -f "$work"/lite.*
    sqlite3 "$work/lite.db" <"$1"
}

per_commit() {
    rm -f "$work"/file.*
    "$innod" init "$work/file"
    strace -f -e trace=fdatasync,fsync -o "$work/calls" "$innod" "$command" "$work/file" "$1" >/dev/null
    awk -v n="$transfers" -v all="$(grep -c 'sync(' "$work/calls")" -v base="$2" 'BEGIN { printf "%.2f", (all - base) / n }'
}

{ echo 'PRAGMA journal_mode=WAL;'; echo 'PRAGMA synchronous=FULL;'; accounts_made; } >"$work/accounts.sqlite"
{ cat "$work/accounts.sqlite"; transfers_of 0; } >"$work/transfers.sqlite"
accounts_made >"$work/accounts.sql"
base="$(timed run_over "$work/accounts.sql")"
lite_base="$(timed sqlite_over "$work/accounts.sqlite")"
lite="$(timed sqlite_over "$work/transfers.sqlite")"
for sessions in 1 4 16; do
    { accounts_made; transfers_of "$sessions"; } >"$work/$sessions.sql"
    ours="$(timed run_over "$work/$sessions.sql")"
    awk -v k="$sessions" -v a="$((ours - base))" -v b="$((lite - lite_base))" 'BEGIN {
        if (a > 0) printf "%d sessions: %.2f times the transactions a second of sqlite3", k, b / a; else printf "%d sessions: too short to tell", k
    }'
    if command -v strace >/dev/null; then
        # A CREATE TABLE and the INSERTs commit too, and a mount and a close sync.
        printf ', %s syncs a commit' "$(per_commit "$work/$sessions.sql" "$((accounts + 2))")"
    fi
    echo
done
