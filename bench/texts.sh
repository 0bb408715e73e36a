#!/usr/bin/env bash
# Times accepted texts of 4,096 bytes and refused ones of that length, and a scan of a large table beside scans of a small
# one, and prints ratios of times of this one run.
# Use: bench/texts.sh [STATEMENTS [ROWS]]      (INNOD names another program than crates/innod/out/innod)
set -euo pipefail
source "$(dirname "$0")/common.sh"
count="${1:-200}"
rows="${2:-100000}"
# So many texts of 4,096 bytes: "accepted" ones, or ones with a fault near their "front", amid them or at their "end".
texts() {
    echo 'CREATE TABLE t (id BIGINT, PRIMARY KEY (id));'
    echo '@session s'
    awk -v kind="$1" -v count="$count" 'BEGIN {
        text = "SELECT * FROM t WHERE id = 10"
        while (length(text) < 4080) text = text " OR id = 10"
        while (length(text) < 4096) text = text "1"
        at = kind == "front" ? 40 : kind == "amid" ? 2048 : 4090
        if (kind != "accepted") text = substr(text, 1, at) ")" substr(text, at + 2)
        for (i = 0; i < count; i++) print text ";"
    }'
}

# A table of so many rows, and so many scans of it.
scans() {
    echo 'CREATE TABLE t (id BIGINT, PRIMARY KEY (id));'
    echo '@session s'
    awk -v n="$1" -v scans="$2" 'BEGIN {
        for (i = 0; i < n; i++) {
            if (i % 50 == 0) printf "INSERT INTO t VALUES "
            printf "(%d)%s", i, (i % 50 == 49 || i == n - 1) ? ";\n" : ","
        }
        for (i = 0; i < scans; i++) print "SELECT * FROM t;"
    }'
}

for kind in accepted front amid end; do texts "$kind" >"$work/$kind.sql"; done
accepted="$(timed play "$work/accepted.sql")"
for kind in front amid end; do
    took="$(timed play "$work/$kind.sql")"
    awk -v kind="$kind" -v count="$count" -v a="$accepted" -v b="$took" \
        'BEGIN { printf "%d texts, fault at the %-5s  accepted %d ms, refused %d ms, ratio %s\n", count, kind, a, b, (a > 0 ? sprintf("%.1f", b / a) : "-") }'
done

scans "$rows" 0 >"$work/rows.sql"
scans "$rows" 1 >"$work/scan.sql"
scans "$((rows / 10))" 0 >"$work/tenth.sql"
scans "$((rows / 10))" 10 >"$work/scans.sql"
large="$(($(timed play "$work/scan.sql") - $(timed play "$work/rows.sql")))"
small="$(($(timed play "$work/scans.sql") - $(timed play "$work/tenth.sql")))"
awk -v n="$rows" -v a="$small" -v b="$large" \
    'BEGIN { printf "one scan of %d rows %d ms, ten of a tenth %d ms, ratio %s\n", n, b, a, (a > 0 ? sprintf("%.2f", b / a) : "-") }'
