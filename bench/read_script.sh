#!/usr/bin/env bash
# Times the reading of a script of 1 MB by its parts, against a reading of the same bytes by lines, in a program that this
# script makes, proves and builds in a folder of its own. Prints times and their ratio.
# Use: bench/read_script.sh [FOLDER]      (a second run in the same FOLDER proves nothing anew)
set -euo pipefail
cd "$(dirname "$0")/.."
work="${1:-$(mktemp -d)}"
crates="sum64 inno_types inno_db inno_model store_api sql_grammar sql_tokens script"
mkdir -p "$work/crates/reading/src"
: >"$work/crates.txt"
for crate in $crates; do
    [ -e "$work/crates/$crate" ] || cp -r "crates/$crate" "$work/crates/"
    grep "^$crate[: ]" crates.txt >>"$work/crates.txt"
done
echo 'reading: script' >>"$work/crates.txt"
[ -e "$work/.git" ] || git init -q "$work"

cat >"$work/crates/reading/src/main.rt" <<'PROGRAM'
//! Reads a script of 1 MB by its parts and by its lines, and prints the microseconds of each.
#![tactic(auto)]

use script::{Directives, ScriptBad, read_script};
use std::alloc::{AllocError, Global};
use std::io;
use std::time::Instant;

const LINE: &str = "UPDATE t SET a = a + 1, b = 'some; text' WHERE id = 17; -- one of many\n";

const LINES: u32 = 14_200;

const ROUNDS: u32 = 20;

fn main(rt: HostRuntime) -> io::Result<()> {
    let alloc = rt.alloc();
    let text = text_of(alloc)?;
    let bytes = text.len();
    let start = Instant::now(&rt)?;
    for _ in 0..ROUNDS {
        let count = count_lines(alloc, text.as_slice())?;
        println!(rt; "lines {count}")?;
    }
    let by_lines = start.elapsed(&rt)?.as_micros();
    let start = Instant::now(&rt)?;
    for _ in 0..ROUNDS {
        let count = count_items(alloc, text.as_slice());
        println!(rt; "items {count}")?;
    }
    let by_parts = start.elapsed(&rt)?.as_micros();
    println!(rt; "bytes {bytes} by_lines {by_lines} by_parts {by_parts}")
}

fn text_of(alloc: Global) -> Result<Vec<u8>, AllocError> {
    let mut text = Vec::new(alloc);
    for _ in 0..LINES {
        text.extend_from_slice(LINE.as_bytes())?;
    }
    Ok(text)
}

/// Copies each line into a list.
fn count_lines(alloc: Global, text: &[u8]) -> Result<usize, AllocError> {
    let mut lines: Vec<Vec<u8>> = Vec::new(alloc);
    for line in text.split(|b| *b == b'\n') {
        lines.push(Vec::from_slice(alloc, line)?)?;
    }
    Ok(lines.len())
}

fn count_items(alloc: Global, text: &[u8]) -> usize {
    let allowed = Directives {
        signals: false,
        ticks: false,
    };
    match read_script(alloc, text, allowed) {
        Ok(script) => {
            let count = script.items.len();
            drop(script);
            count
        }
        Err(ScriptBad::Line { .. } | ScriptBad::Limit { .. } | ScriptBad::NoMemory) => 0,
    }
}
PROGRAM

cd "$work/crates/reading"
rt run --jobs 1 >/dev/null
for _ in 1 2 3 4 5; do out/reading | tail -1; done | awk '
    NR == 1 || $4 < lines { lines = $4 }
    NR == 1 || $6 < parts { parts = $6 }
    END { printf "%s bytes, 20 times, the least of 5 runs: by lines %.1f ms, by parts %.1f ms, ratio %.2f\n", $2, lines / 1000, parts / 1000, parts / lines }'
