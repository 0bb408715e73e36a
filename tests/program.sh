#!/bin/bash
# Runs the built program over real files: each of its seven commands and each status from 0 to 8, and what surrounds a process: words
# that are no UTF-8, a large script, files that another process holds, a disk and an output that take no more. It stands beside the
# gate, which runs the program on one command alone.
#
#     tests/program.sh [PROGRAM]        PROGRAM is crates/innod/out/innod unless it is named
#
# It ends with the number of tests that failed, 99 at most. It takes about a minute: one test waits fifty seconds for a signal.
. "$(dirname "$0")/common.sh"

script first.sql 'CREATE TABLE t (id BIGINT, a BIGINT, PRIMARY KEY (id));
INSERT INTO t VALUES (1,10),(2,20);
@session a
SELECT * FROM t;
UPDATE t SET a = a + 1;
@session b
SELECT * FROM t WHERE id = 9;
'

printf '@sesion a\n' >bad.sql

# ---- status 0: each command

ended "init" 0 "$innod" init d
[ ! -s out ] && [ -s d.pag ]
say $? "init makes d.pag and prints nothing"
ended "play" 0 "$innod" play d first.sql
printed "play" '@session setup
1> OK
2> OK 2
@session a
1> ROWS 2
1	10
2	20
2> OK 2
@session b
1> ROWS 0'
ended "check" 0 "$innod" check d
printed "check" '1 pages, 1 tables, 2 rows, 0 marked, 0 undo logs'
ended "dump" 0 "$innod" dump d
cp out dump.sql
ended "init of another" 0 "$innod" init again
ended "a dump is played" 0 "$innod" run again dump.sql
ended "and dumped again" 0 "$innod" dump again
cmp -s out dump.sql
say $? "a dump that was played is dumped alike"
ended "run" 0 "$innod" run again <(printf '@session a\n@await go\n@session b\n@signal go\n')
printed "run" '@session a
1> OK
@session b
1> OK'
ended "gen" 0 "$innod" gen 7 2 3
cp out made.sql
ended "init for load" 0 "$innod" init bank
ended "load" 0 "$innod" load bank 7 2 3
grep -q '1600' out
say $? "load tells what the accounts hold: $(cat out)"
ended "init for a generated script" 0 "$innod" init played
ended "a generated script is played" 0 "$innod" run played made.sql
ended "an empty script" 0 "$innod" play d /dev/null
printed_none "an empty script"

# ---- status 1: words

ended "no words" 1 "$innod"
said "no words" "Usage: innod <COMMAND>"
ended "help" 1 "$innod" --help
said "help" "Makes a database without tables"
ended "help of run" 1 "$innod" help run
said "help of run" "Usage: innod run <FILE> <SCRIPT>"
ended "a word too few" 1 "$innod" run d
said "a word too few" "<SCRIPT>"
ended "nearly a command" 1 "$innod" dumb d
said "nearly a command" "dump"
ended "too many sessions" 1 "$innod" gen 1 65 1
said "too many sessions" "65"
ended "an option" 1 "$innod" run d --fast
ended "words that clap would take" 1 "$innod" dump -- -d
said "words that clap would take" "usage: innod init, dump or check FILE"
ended "words that are no UTF-8" 1 "$innod" dump $'\xff\xfe'
said "words that are no UTF-8" "usage: innod init, dump or check FILE"
while IFS='|' read -r _ words about _; do
    about=$(sed 's/^ *//; s/ *$//' <<<"$about")
    name=$(sed 's/^ *`innod \([a-z]*\).*/\1/' <<<"$words")
    "$innod" help "$name" 2>&1 | tr '\n' ' ' | grep -qF -- "innod $name"
    say $? "README's command $name is one of the program's: $about"
done < <(grep '^| `innod ' "$here/README.md")
[ "$("$innod" --help 2>&1 | grep -c '^  [a-z]\+ \+[A-Z].*[^)]$')" = "$(grep -c '^| `innod ' "$here/README.md")" ]
say $? "README has as many commands as the program"

# ---- status 2 and 3: the script

ended "a bad line" 2 "$innod" play d <(printf '@sesion a\n')
said "a bad line" "line 1"
printed_none "a bad line"
ended "a tick under run" 2 "$innod" run d <(printf '@session a\n@tick 1\n')
ended "a bad script before bad files" 2 "$innod" play nowhere <(printf '@sesion a\n')
ended "no script" 3 "$innod" play d nowhere.sql
said "no script" "nowhere.sql"
ended "a folder as a script" 3 "$innod" play d .

# ---- status 4: standard output

ended "a full output" 4 bash -c '"$0" dump d >/dev/full' "$innod"
ended "a full output of a run" 4 bash -c '"$0" play d first.sql >/dev/full' "$innod"
cp d.pag kept.pag
ended "no output" 4 bash -c '"$0" dump d >&-' "$innod"
bash -c '"$0" dump d <&- >&- 2>&-' "$innod"
say $((! $?)) "no streams: status 0"
bash -c '"$0" play d bad.sql <&- >&- 2>&-' "$innod"
say $((! $?)) "no streams and a fault: status 0"
cmp -s d.pag kept.pag
say $? "what is printed goes into no file of the database"
"$innod" gen 1 64 300 2>err | head -c 10 >/dev/null
case ${PIPESTATUS[0]} in 4 | 141) true ;; *) false ;; esac
say $? "an output that is closed early"

# ---- status 5: the disk

ended "no folder" 5 "$innod" init nowhere/d
ended "a file that may not grow" 5 bash -c 'trap "" XFSZ; ulimit -f 1; "$0" init small' "$innod"
ended "init for a full disk" 0 "$innod" init full
ended "a log that may not grow" 5 bash -c 'trap "" XFSZ; ulimit -f 8; "$0" load full 1 4 200' "$innod"
ended "what was committed before" 0 "$innod" check full
mkfifo hold
("$innod" run d <(cat hold) >/dev/null 2>&1) &
holder=$!
exec 9>hold
ended "files beside one who has not opened them" 0 "$innod" check d
printf '@session a\n@await go\n' >&9
exec 9>&-
sleep 2
ended "files that another process holds" 5 "$innod" check d
wait $holder
say $? "an item that waits in vain ends after fifty seconds"
ended "files that are free again" 0 "$innod" check d

# ---- status 6: files that are refused

ended "files that are not there" 6 "$innod" check nowhere
ended "files that are there" 6 "$innod" init d
ended "a log without pages" 6 bash -c 'printf x >log.log; "$0" init log' "$innod"
head -c 4096 /dev/zero >zero.pag
ended "zeros" 6 "$innod" dump zero
cp d.pag bad.pag && printf '\x01' | dd of=bad.pag bs=1 seek=100 conv=notrunc 2>/dev/null
ended "a damaged page" 6 "$innod" dump bad
said "a damaged page" "sum"
head -c 100 d.pag >short.pag
ended "a page that is cut" 6 "$innod" dump short

# ---- status 7: limits

for n in $(seq 65); do printf '@session s%s\n' "$n"; done >many.sql
ended "65 sessions" 7 "$innod" run d many.sql
head -n 64 many.sql >most.sql
ended "64 sessions" 0 "$innod" run d most.sql
{ printf 'SELECT * FROM t WHERE id = '; head -c 5000 /dev/zero | tr '\0' 1; printf ';\n'; } >long.sql
ended "a long statement" 7 "$innod" play d long.sql
{ for n in $(seq 60); do printf -- '-- '; head -c 1000000 /dev/zero | tr '\0' x; printf '\n'; done; printf '@session a\nSELECT * FROM t WHERE id = 9;\n'; } >large.sql
ended "a script of 60 MB" 0 "$innod" play d large.sql
printed "a script of 60 MB" '@session a
1> ROWS 0'
{ cat large.sql; head -c 8000000 /dev/zero | tr '\0' '\n'; } >larger.sql
ended "a script of 68 MB" 7 "$innod" play d larger.sql
ended "too many items" 7 "$innod" gen 1 64 25000

# ---- status 8: memory

if bash -c 'ulimit -v 60000; "$0" gen 1 1 1' "$innod" >/dev/null 2>&1; then
    ended "too little memory for a script" 8 bash -c 'ulimit -v 60000; "$0" play d large.sql' "$innod"
else
    echo "left out: a program that checks addresses needs more memory than the limit"
fi
ended "as before" 0 "$innod" check d

tell
