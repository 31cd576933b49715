#!/bin/sh
# How fast a check takes bytes in pieces of 65,536, beside the hasher under it and beside sha256sum,
# on the same 268,435,456 bytes in the same run, five times. The first two must be level, and the
# digests equal.
# Usage: sh bench/check.sh
set -eu
. "$(dirname "$0")/scratch.sh"
with_crates "anyhow hr_base hr_digest sha2" hr_base hr_digest
cat >"$scratch/crates/timing/src/main.rt" <<'RATTLE'
//! Times a check and the hasher under it.
#![tactic(auto)]

use anyhow::{Result, bail};
use hr_digest::{Check, Digest};
use sha2::{Digest as Hasher, Sha256};
use std::rt::Clock;
use std::time::Instant;

fn by_check(piece: &[u8]) -> Digest {
    let mut check = Check::begin();
    for _ in 0..4096u32 {
        check.feed(piece);
    }
    check.finish()
}

fn by_hasher(piece: &[u8]) -> Digest {
    let mut hasher = Sha256::new();
    for _ in 0..4096u32 {
        hasher.update(piece);
    }
    Digest::Sha256(hasher.finalize())
}

fn time(rt: &(impl Print + Clock), piece: &[u8]) -> Result<()> {
    let start = Instant::now(rt)?;
    let checked = by_check(piece);
    let check = start.elapsed(rt)?.as_micros().max(1);
    let start = Instant::now(rt)?;
    let hashed = by_hasher(piece);
    let hasher = start.elapsed(rt)?.as_micros().max(1);
    if checked != hashed {
        bail!("they differ");
    }
    let (check, hasher) = (268435456 / check, 268435456 / hasher);
    println!(rt; "check {check:>5} MB/s, sha2 {hasher:>5} MB/s")?;
    Ok(())
}

fn main(rt: HostRuntime) -> Result<()> {
    let alloc = rt.alloc();
    let piece = vec![in alloc; b'a'; 65536]?;
    for _ in 0..5u32 {
        time(&rt, piece.as_slice())?;
    }
    let Ok(bytes) = by_check(piece.as_slice()).text(alloc) else {
        bail!("no memory for the text");
    };
    let Ok(text) = std::str::from_utf8(bytes.view()) else {
        bail!("the text is no text");
    };
    println!(rt; "{text}")?;
    Ok(())
}
RATTLE
head -c 268435456 /dev/zero | tr '\0' 'a' >"$scratch/bytes"
(cd "$scratch/crates/timing" && rt run)
for _ in 1 2 3 4 5; do
    start=$(date +%s%N)
    sum=$(sha256sum <"$scratch/bytes")
    end=$(date +%s%N)
    printf 'sha256sum %5d MB/s\n' "$((268435456000 / (end - start)))"
done
printf 'sha256:%s\n' "${sum%% *}"
