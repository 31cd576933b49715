#!/bin/sh
# How long a blob of 67,108,864 bytes takes to be copied between two registries in memory, beside
# hashing it once, five times; and the peak memory of it all. A copy may take twice the time of
# hashing, and the memory of the two contents and one buffer. Usage: sh bench/blob.sh
set -eu
. "$(dirname "$0")/scratch.sh"
with_crates "anyhow hr_adapter hr_base hr_blob hr_digest hr_memreg hr_name" hr_base hr_cause hr_text hr_digest hr_name hr_event hr_adapter hr_blob hr_memreg
cat >"$scratch/crates/timing/src/main.rt" <<'RATTLE'
//! Times the copy of one blob, and hashing it once.
#![tactic(auto)]

use anyhow::{Result, bail};
use hr_base::{Bytes, List, PIECE};
use hr_blob::copy_blob;
use hr_digest::Digest;
use hr_memreg::{BlobAt, Content, MemRegistry, RepoContent};
use hr_name::Name;
use std::alloc::Global;
use std::rt::Clock;
use std::time::Instant;

/// So many pieces, one after the other.
fn filled(alloc: Global, pieces: u32) -> Result<Vec<u8>> {
    let piece = vec![in alloc; b'a'; PIECE]?;
    let mut bytes = Vec::with_capacity(alloc, (pieces as usize).saturating_mul(PIECE))?;
    for _ in 0..pieces {
        bytes.extend_from_slice(piece.as_slice())?;
    }
    Ok(bytes)
}

fn source(alloc: Global, repo: &Name, bytes: Bytes, digest: Digest) -> Result<MemRegistry> {
    let mut blobs = List::new(alloc);
    let mut repos = List::new(alloc);
    let Ok(name) = repo.copy(alloc) else {
        bail!("no room for a name");
    };
    if blobs.push(BlobAt { digest, bytes }).is_err() {
        bail!("no room for a blob");
    }
    let content = RepoContent {
        name,
        blobs,
        manifests: List::new(alloc),
        tags: List::new(alloc),
    };
    if repos.push(content).is_err() {
        bail!("no room for a repository");
    }
    match MemRegistry::new(alloc, Content { repos }) {
        Ok(registry) => Ok(registry),
        Err(_) => bail!("no room for a registry"),
    }
}

/// Copies the blob to a new registry.
fn copy(
    alloc: Global,
    from: &mut MemRegistry,
    repo: &Name,
    digest: &Digest,
    size: u64,
    buf: &mut [u8],
) -> Result<()> {
    if buf.len() != PIECE {
        bail!("the buffer has another length");
    }
    let Ok(mut to) = MemRegistry::new(alloc, Content { repos: List::new(alloc) }) else {
        bail!("no room for a registry");
    };
    if copy_blob(from, &mut to, repo, repo, digest, size, buf).is_err() {
        bail!("the blob is not copied");
    }
    Ok(())
}

fn main(rt: HostRuntime) -> Result<()> {
    let alloc = rt.alloc();
    let Ok(repo) = Name::read(alloc, b"library/one".as_slice()) else {
        bail!("a name is refused");
    };
    let filled = filled(alloc, 1024)?;
    let size = filled.len() as u64;
    let start = Instant::now(&rt)?;
    let digest = Digest::of(filled.as_slice());
    let hashing = start.elapsed(&rt)?;
    let (s, n) = (hashing.as_secs(), hashing.subsec_nanos());
    let mut from = source(alloc, &repo, Bytes::from(filled), digest)?;
    let mut buf = vec![in alloc; 0u8; PIECE]?;
    for _ in 0..5u32 {
        let start = Instant::now(&rt)?;
        copy(alloc, &mut from, &repo, &digest, size, buf.as_mut_slice())?;
        let copying = start.elapsed(&rt)?;
        let (t, m) = (copying.as_secs(), copying.subsec_nanos());
        println!(rt; "{s} {n} {t} {m}")?;
    }
    Ok(())
}
RATTLE
cd "$scratch/crates/timing"
rt run >"$scratch/times"
awk '{ printf "hashing %d us, copying %d us\n", $1 * 1000000 + $2 / 1000, $3 * 1000000 + $4 / 1000 }' \
    "$scratch/times"
if command -v python3 >/dev/null; then
    python3 - <<'PYTHON'
import resource, subprocess
subprocess.run(["out/timing"], stdout=subprocess.DEVNULL, check=True)
print("peak memory %d KB" % resource.getrusage(resource.RUSAGE_CHILDREN).ru_maxrss)
PYTHON
fi
