#!/usr/bin/env bash
# Times the opening of a database with ROWS rows and of one with four times as many, and prints the ratio: how the cost grows.
# Use: bench/opening.sh [ROWS]      (INNOD names another program than crates/innod/out/innod)
set -euo pipefail
source "$(dirname "$0")/common.sh"
rows="${1:-25000}"

# Milliseconds of `innod check` over a database of so many rows.
opening() {
    load_script "$1" 7919 1000003 >"$work/load.sql"
    play "$work/load.sql" >"$work/loaded"
    timed "$innod" check "$work/file"
}

few="$(opening "$rows")"
many="$(opening "$((4 * rows))")"
awk -v r="$rows" -v a="$few" -v b="$many" 'BEGIN { printf "%d rows %d ms, %d rows %d ms, ratio %.1f\n", r, a, 4 * r, b, b / a }'
