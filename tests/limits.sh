#!/bin/bash
# Reaches each limit of the built program from below: a case just below it works, and one at it is answered by its name. No clause
# keeps a body from answering "out of memory" too early, so these cases are large. It stands beside the gate, as tests/program.sh.
#
#     tests/limits.sh [PROGRAM]         PROGRAM is crates/innod/out/innod unless it is named
#
# ROWS=.. before it makes the large table smaller, for a program that was built to be watched and not to be fast.
. "$(dirname "$0")/common.sh"

repeat() { # BYTES CHARACTER
    head -c "$1" /dev/zero | tr '\0' "$2"
}

made() { # NAME SETUP: files with what the setup part makes
    ended "init $1" 0 "$innod" init "$1"
    printf '%s' "$2" >made.sql
    ended "setup of $1" 0 "$innod" run "$1" made.sql
}

rows() { # TABLE FIRST LAST: INSERTs of two numbers a row, about 200 rows each
    seq "$2" "$3" | awk -v t="$1" '
        { all = all (all == "" ? "" : ",") "(" $1 "," $1 ")"; n++ }
        n == 200 { print "INSERT INTO " t " VALUES " all ";"; all = ""; n = 0 }
        END { if (n) print "INSERT INTO " t " VALUES " all ";" }'
}

# ---- a statement of 4,096 bytes

made d 'CREATE TABLE t (id BIGINT, a BIGINT, PRIMARY KEY (id));
'
statement() { # BYTES: one of so many
    printf 'INSERT INTO t%sVALUES (1,1);\n' "$(repeat $(($1 - 25)) ' ')"
}
statement 4096 >most.sql
ended "a statement of 4,096 bytes" 0 "$innod" run d most.sql
last_printed "a statement of 4,096 bytes" "1> OK 1"
statement 4097 >more.sql
ended "a statement of 4,097 bytes" 7 "$innod" run d more.sql
said "a statement of 4,097 bytes" "bytes of a statement, at most 4096"

# ---- as many rows as one INSERT has room for

many=$(seq 1000 1450 | awk '{ all = all (all == "" ? "" : ",") "(" $1 ",1)" } END { print all }')
printf 'INSERT INTO t VALUES %s;\n' "$many" >wide.sql
ended "an INSERT of 451 rows" 0 "$innod" run d wide.sql
last_printed "an INSERT of 451 rows" "1> OK 451"

# ---- a table of 100,000 rows, made, read and mounted again, and a transaction of 60,000 changes

ROWS=${ROWS:-100000}
changes=$((ROWS * 3 / 10))
ended "init large" 0 "$innod" init large
{ echo 'CREATE TABLE t (id BIGINT, a BIGINT, PRIMARY KEY (id), KEY ka (a));'; rows t 1 "$ROWS"; } >large.sql
ended "a table of $ROWS rows" 0 "$innod" run large large.sql
ended "it is mounted" 0 "$innod" check large
printed "it is mounted" "1 pages, 1 tables, $ROWS rows, 0 marked, 0 undo logs"
printf '@session a\nSELECT * FROM t;\n' >read.sql
ended "it is read" 0 "$innod" run large read.sql
grep -qx "1> ROWS $ROWS" out
say $? "it is read whole"
last_printed "it is read" "$ROWS	$ROWS"
{
    echo '@session a'
    echo 'BEGIN;'
    echo "UPDATE t SET a = a + 1 WHERE id <= $changes;"
    echo "UPDATE t SET a = a + 1 WHERE id <= $changes;"
    echo 'COMMIT;'
    echo 'BEGIN;'
    echo "DELETE FROM t WHERE id <= $changes;"
    echo 'ROLLBACK;'
} >change.sql
ended "transactions of $((2 * changes)) and $changes changes" 0 "$innod" run large change.sql
echo "SELECT * FROM t WHERE id = $changes;" >one.sql
ended "what was committed is there" 0 "$innod" play large one.sql
printed "what was committed is there" "@session setup
1> ROWS 1
$changes	$((changes + 2))"

# ---- the rows of a history: 1,000,000

ended "init limited" 0 "$innod" init limited
{ echo 'CREATE TABLE t (id BIGINT, a BIGINT, PRIMARY KEY (id));'; rows t 1 1000; for _ in $(seq 999); do echo 'SELECT * FROM t;'; done; } >limited.sql
ended "a reply that the history has room for" 0 "$innod" run limited limited.sql
grep -qx '1005> ROWS 1000' out
say $? "a reply that the history has room for: $(tail -n 1 out)"
{ cat limited.sql; echo 'SELECT * FROM t;'; } >over.sql
ended "init limited twice" 0 "$innod" init over
ended "a reply that it has none for" 0 "$innod" run over over.sql
last_printed "a reply that it has none for" "1006> RUN LIMIT"

# ---- values and keys of the greatest length

made long "CREATE TABLE t (k VARBINARY(32), v VARBINARY(255), PRIMARY KEY (k));
INSERT INTO t VALUES ('$(repeat 32 k)','$(repeat 255 v)');
"
ended "the longest values" 0 "$innod" dump long
grep -q "$(repeat 255 v)" out
say $? "the longest values are dumped"
printf "INSERT INTO t VALUES ('%s','x');\n" "$(repeat 33 k)" >key.sql
ended "a key that is too long" 0 "$innod" run long key.sql
grep -q 'ERROR' out
say $? "a key that is too long is refused: $(tail -n 1 out)"

# ---- sessions: 64, and all but one of them wait

{
    echo '@session holder'
    echo 'BEGIN;'
    echo 'UPDATE t SET a = 0 WHERE id = 1;'
    for n in $(seq 63); do printf '@session s%s\nUPDATE t SET a = a + 1 WHERE id = 1;\n' "$n"; done
    echo '@session holder'
    echo 'COMMIT;'
} >wait.sql
ended "63 sessions that wait" 0 "$innod" play d wait.sql
printf 'SELECT * FROM t WHERE id = 1;\n' >one.sql
ended "what they made" 0 "$innod" play d one.sql
printed "what they made" "@session setup
1> ROWS 1
1	63"
{ cat wait.sql; echo '@session s64'; } >more.sql
ended "65 sessions" 7 "$innod" play d more.sql
said "65 sessions" "65 sessions, at most 64"

# ---- items: 100,000

{ echo '@session a'; yes 'COMMIT;' | head -n 100000; } >items.sql
ended "100,000 items" 0 "$innod" run d items.sql
last_printed "100,000 items" "100000> OK"
echo 'COMMIT;' >>items.sql
ended "100,001 items" 7 "$innod" run d items.sql
said "100,001 items" "100001 items, at most 100000"
ended "a generated script of 12,802 items" 0 "$innod" load limited 0 16 200
ended "a generated script of too many" 7 "$innod" gen 0 64 400

# ---- a script of 67,108,864 bytes

{ echo 'SELECT * FROM t WHERE id = 1;'; repeat 67108834 '\n'; } >whole.sql
ended "a script of $(stat -c %s whole.sql) bytes" 0 "$innod" play d whole.sql
echo >>whole.sql
ended "a script of one more" 7 "$innod" play d whole.sql
said "a script of one more" "at most 67108864"

# ---- tables: 16

made tables "$(for n in $(seq 16); do echo "CREATE TABLE t$n (id BIGINT, PRIMARY KEY (id));"; done)
"
last_printed "16 tables" "16> OK"
printf 'CREATE TABLE t17 (id BIGINT, PRIMARY KEY (id));\n' >one.sql
ended "17 tables" 0 "$innod" run tables one.sql
grep -q 'ERROR 1114' out
say $? "17 tables: $(tail -n 1 out)"

tell
