#!/bin/sh
# How long tags take that are put in one repository of a registry in memory, and how long they take
# to be listed. The time for each tag must grow as a logarithm at most: from 4,096 to 65,536 tags it
# may rise by a third, and not double. Usage: sh bench/memreg.sh
set -eu
. "$(dirname "$0")/scratch.sh"
with_crates "anyhow hr_adapter hr_base hr_digest hr_memreg hr_name" hr_base hr_cause hr_text hr_digest hr_name hr_event hr_adapter hr_memreg
cat >"$scratch/crates/timing/src/main.rt" <<'RATTLE'
//! Times tags that are put in one repository, and listed.
#![tactic(auto)]

use anyhow::{Result, bail};
use hr_adapter::Registry;
use hr_digest::Digest;
use hr_memreg::{MemRegistry, Setup};
use hr_name::{Name, Tag};
use std::alloc::Global;
use std::rt::Clock;
use std::time::Instant;

/// Puts so many tags, in an order that is neither up nor down.
fn put(alloc: Global, setup: &mut Setup, repo: &Name, count: u32) -> Result<()> {
    let digest = Digest::of(b"{}".as_slice());
    for i in 0..count {
        let mixed = i.wrapping_mul(2_654_435_761);
        let text = format!(in alloc; "t{mixed}")?;
        let Ok(tag) = Tag::read(alloc, text.as_bytes()) else {
            bail!("a tag is refused");
        };
        if setup.put_tag(repo, &tag, digest).is_err() {
            bail!("no room for a tag");
        }
    }
    Ok(())
}

fn main(rt: HostRuntime) -> Result<()> {
    let alloc = rt.alloc();
    let Ok(repo) = Name::read(alloc, b"library/one".as_slice()) else {
        bail!("a name is refused");
    };
    for count in [4096u32, 16384, 65536] {
        let mut setup = Setup::new(alloc);
        let start = Instant::now(&rt)?;
        put(alloc, &mut setup, &repo, count)?;
        let spent = start.elapsed(&rt)?;
        let mut registry = MemRegistry::of(setup);
        let again = Instant::now(&rt)?;
        let Ok(tags) = registry.tags(&repo) else {
            bail!("the tags are not listed");
        };
        let listing = again.elapsed(&rt)?;
        let listed = tags.view().len();
        let (s, n) = (spent.as_secs(), spent.subsec_nanos());
        let (t, m) = (listing.as_secs(), listing.subsec_nanos());
        println!(rt; "{listed} {s} {n} {t} {m}")?;
    }
    Ok(())
}
RATTLE
cd "$scratch/crates/timing"
rt run >"$scratch/times"
awk '
    BEGIN { print "  tags  ns/put  ns/listed" }
    { printf "%6d %7d %10d\n", $1, ($2 * 1000000000 + $3) / $1, ($4 * 1000000000 + $5) / $1 }' "$scratch/times"
