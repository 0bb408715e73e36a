#!/usr/bin/env bash
# Times a load of rows and a scan of them by the built program, and prints ratios of times of this one run.
# Use: bench/load.sh [ROWS [SCANS]]      (INNOD names another program than crates/innod/out/innod)
set -euo pipefail
source "$(dirname "$0")/common.sh"
rows="${1:-2000}"
scans="${2:-20}"
# A history holds at most a million rows: those put and those answered.
if [ $((rows * 4 + rows * scans)) -gt 1000000 ]; then
    echo "too many rows: 4 x ROWS + ROWS x SCANS is at most 1000000" >&2
    exit 1
fi
# A script that puts so many rows, scans the table so many times, and looks so many rows up by the key ka.
script() {
    local n="$1" scans="$2" lookups="$3" i
    echo 'CREATE TABLE t (id BIGINT, a BIGINT, PRIMARY KEY (id), KEY ka (a));'
    echo '@session s'
    for ((i = 0; i < n; i++)); do
        echo "INSERT INTO t VALUES ($i,$((i * 7919 % 100003)));"
    done
    for ((i = 0; i < scans; i++)); do
        echo 'SELECT * FROM t;'
    done
    for ((i = 0; i < lookups; i++)); do
        echo "SELECT * FROM t WHERE a = $((i * 7919 % 100003));"
    done
}

# Milliseconds of such a script.
script_time() {
    script "$2" "$3" "$4" >"$work/$1.sql"
    timed_script "$work/$1.sql"
}

ratio() { awk -v a="$1" -v b="$2" 'BEGIN { if (b > 0) printf "%.2f", a / b; else printf "-" }'; }

start="$(script_time start 0 0 0)"
load="$(script_time load "$rows" 0 0)"
twice="$(script_time twice "$((rows * 2))" 0 0)"
scan="$(script_time scan "$rows" "$scans" 0)"
look="$(script_time look "$rows" 0 "$rows")"

echo "program start                      $start ms"
echo "load of $rows rows                 $load ms"
echo "load of $((rows * 2)) rows                 $twice ms, $(ratio $((twice - start)) $((load - start))) times the load"
echo "load and $scans scans              $scan ms, a scan takes $(ratio $((scan - load)) $((scans * (load - start)))) of the load"
echo "load and $rows look-ups by a key   $look ms, $(ratio $((look - load)) $((load - start))) of the load"
