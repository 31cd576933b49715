#!/bin/sh
# How long one look at a hostile pattern and text takes, and how much memory many patterns keep. The
# time must grow as the product of their lengths at most: the column of picoseconds for each pair of
# a pattern's byte and a text's byte stays level or falls in each block, and in the block of 256
# expanded forms too. Usage: sh bench/pattern.sh
set -eu
. "$(dirname "$0")/scratch.sh"
with_crates "anyhow hr_pattern" hr_base hr_text hr_pattern
cat >"$scratch/crates/timing/src/main.rt" <<'RATTLE'
//! Times looks at hostile patterns and texts.
#![tactic(auto)]

use anyhow::{Result, bail};
use hr_pattern::Pattern;
use std::alloc::Global;
use std::rt::Clock;
use std::time::Instant;

/// The middle so many times, and then the end.
fn repeated(alloc: Global, middle: &[u8], times: usize, end: &[u8]) -> Result<Vec<u8>> {
    let mut text = Vec::new(alloc);
    for _ in 0..times {
        text.extend_from_slice(middle)?;
    }
    text.extend_from_slice(end)?;
    Ok(text)
}

/// Prints how many nanoseconds 100 looks took.
fn time(
    rt: &(impl Print + Clock + AllocGlobal),
    name: &str,
    pattern: &[u8],
    text: &[u8],
) -> Result<()> {
    let Ok(read) = Pattern::read(rt.alloc(), pattern) else {
        bail!("a pattern is refused");
    };
    let start = Instant::now(rt)?;
    let mut found = false;
    for _ in 0..100 {
        found = found || read.fits(text);
    }
    let spent = start.elapsed(rt)?;
    let (seconds, rest) = (spent.as_secs(), spent.subsec_nanos());
    let (items, bytes) = (pattern.len(), text.len());
    println!(rt; "{name} {items} {bytes} {seconds} {rest} {found}")?;
    Ok(())
}

/// The pattern grows, and then the text.
fn grow(
    rt: &(impl Print + Clock + AllocGlobal),
    name: &str,
    front: &[u8],
    middle: &[u8],
    end: &[u8],
    text: &[u8],
) -> Result<()> {
    let alloc = rt.alloc();
    for (most, times) in [(4, 1024), (16, 1024), (64, 1024), (16, 4096), (16, 16384)] {
        let mut pattern = front.to_vec(alloc)?;
        let behind = repeated(alloc, middle, most, end)?;
        pattern.extend_from_slice(behind.as_slice())?;
        let whole = repeated(alloc, text, times, b"a".as_slice())?;
        time(rt, name, pattern.as_slice(), whole.as_slice())?;
    }
    Ok(())
}

fn main(rt: HostRuntime) -> Result<()> {
    let alloc = rt.alloc();
    let name = repeated(alloc, b"a".as_slice(), 255, b"".as_slice())?;
    for times in [1, 2, 4, 8, 16, 32, 64] {
        let stars = repeated(alloc, b"*a".as_slice(), times, b"*b".as_slice())?;
        time(&rt, "name", stars.as_slice(), name.as_slice())?;
    }
    grow(&rt, "stars", b"".as_slice(), b"*a".as_slice(), b"*b".as_slice(), b"a".as_slice())?;
    grow(&rt, "run", b"*".as_slice(), b"a".as_slice(), b"b".as_slice(), b"a".as_slice())?;
    grow(&rt, "paths", b"".as_slice(), b"**/a/".as_slice(), b"**/b".as_slice(), b"a/".as_slice())?;
    grow(&rt, "block", b"**/".as_slice(), b"a/".as_slice(), b"b".as_slice(), b"a/".as_slice())?;
    grow(&rt, "both", b"**/".as_slice(), b"*aa/".as_slice(), b"b".as_slice(), b"aaaa/".as_slice())?;
    let pairs = b"{,b}{,b}{,b}{,b}{,b}{,b}{,b}{,b}";
    grow(&rt, "forms", pairs.as_slice(), b"*a".as_slice(), b"*b".as_slice(), b"a".as_slice())
}
RATTLE
cd "$scratch/crates/timing"
rt run >"$scratch/times"
awk '
    BEGIN { print "pattern  items  bytes   ns/look  ps/pair" }
    {
        ns = ($4 * 1000000000 + $5) / 100
        printf "%-7s %6d %6d %9d %8d %s\n", $1, $2, $3, ns, 1000 * ns / (($2 + 1) * ($3 + 1)), $6
    }' "$scratch/times"

# A configuration of 1,024 policies with 16 filters each, all of the longest patterns with the most
# expanded forms.
cat >"$scratch/crates/timing/src/main.rt" <<'RATTLE'
//! Keeps many hostile patterns.
#![tactic(auto)]

use anyhow::{Result, bail};
use hr_pattern::Pattern;

fn main(rt: HostRuntime) -> Result<()> {
    let alloc = rt.alloc();
    let mut text = Vec::new(alloc);
    for _ in 0..8 {
        text.extend_from_slice(b"{,b}".as_slice())?;
    }
    for _ in 0..496 {
        text.extend_from_slice(b"*a".as_slice())?;
    }
    let mut patterns = Vec::new(alloc);
    for _ in 0..16_384 {
        let Ok(read) = Pattern::read(alloc, text.as_slice()) else {
            bail!("a pattern is refused");
        };
        patterns.push(read)?;
    }
    let (count, bytes) = (patterns.len(), text.len());
    println!(rt; "{count} patterns of {bytes} bytes")?;
    Ok(())
}
RATTLE
rt run >"$scratch/kept"
tail -n 1 "$scratch/kept"
python3 - out/timing <<'PYTHON'
import resource, subprocess, sys
subprocess.run(sys.argv[1:], check=True, stdout=subprocess.DEVNULL)
print("kept in", resource.getrusage(resource.RUSAGE_CHILDREN).ru_maxrss // 1024, "MiB at most")
PYTHON
