#!/bin/sh
# How long a policy of 16 filters takes to select among 16,384, 32,768 and 65,536 listed tags, the
# most that a listing has, least of five: by patterns of names and tags that all fit, and by labels.
# The time of one tag must stay level or grow as the logarithm of their number.
# Usage: sh bench/select.sh
set -eu
. "$(dirname "$0")/scratch.sh"
with_crates "anyhow hr_base hr_filter hr_name hr_pattern" hr_base hr_text hr_name hr_pattern hr_filter
cat >"$scratch/crates/timing/src/main.rt" <<'RATTLE'
//! Times selections.
#![tactic(auto)]

use anyhow::{Result, bail};
use hr_base::{Bytes, List};
use hr_filter::{Decoration, Filter, Listed, select};
use hr_name::{Name, Tag};
use hr_pattern::Pattern;
use std::alloc::Global;
use std::rt::Clock;
use std::time::Instant;

fn listed(alloc: Global, number: u32) -> Result<Listed> {
    let name = format!(in alloc; "library/r{:05}", number / 16)?;
    let Ok(repo) = Name::read(alloc, name.as_bytes()) else {
        bail!("a name is refused");
    };
    let text = format!(in alloc; "v1.{:05}-alpine", number % 16)?;
    let Ok(tag) = Tag::read(alloc, text.as_bytes()) else {
        bail!("a tag is refused");
    };
    let Ok(labels) = labels(alloc) else {
        bail!("no room for labels");
    };
    Ok(Listed { repo, tag, labels })
}

fn labels(alloc: Global) -> Result<List<Bytes>, hr_base::Memory> {
    let mut labels = List::new(alloc);
    for text in [b"one".as_slice(), b"two", b"three", b"four"] {
        labels.push(Bytes::of(alloc, text)?)?;
    }
    Ok(labels)
}

fn by_pattern(alloc: Global, number: u32) -> Result<Filter> {
    let text = if number % 2 == 0 {
        b"{library,other}/**/r{0,1,2}*".as_slice()
    } else {
        b"v{1,2}.*-{alpine,slim}".as_slice()
    };
    let Ok(pattern) = Pattern::read(alloc, text) else {
        bail!("a pattern is refused");
    };
    let decoration = Decoration::Matches;
    if number % 2 == 0 {
        Ok(Filter::Name { pattern, decoration })
    } else {
        Ok(Filter::Tag { pattern, decoration })
    }
}

fn by_labels(alloc: Global) -> Result<Filter> {
    let Ok(labels) = labels(alloc) else {
        bail!("no room for labels");
    };
    let decoration = Decoration::Matches;
    Ok(Filter::Label { labels, decoration })
}

fn time(
    rt: &(impl Print + Clock + AllocGlobal),
    kind: &str,
    filters: &[Filter],
    listing: &[Listed],
) -> Result<()> {
    let mut least = u128::MAX;
    let mut found = 0;
    for _ in 0..5u32 {
        let start = Instant::now(rt)?;
        let Ok(picks) = select(rt.alloc(), filters, listing) else {
            bail!("no room for the selection");
        };
        least = least.min(start.elapsed(rt)?.as_micros());
        found = picks.view().len();
    }
    let count = listing.len();
    println!(rt; "{kind:<8} {count:>6} tags, {found:>5} repositories picked: {least:>8} us")?;
    Ok(())
}

fn main(rt: HostRuntime) -> Result<()> {
    let alloc = rt.alloc();
    let mut patterns = Vec::new(alloc);
    let mut labelled = Vec::new(alloc);
    for number in 0..16u32 {
        patterns.push(by_pattern(alloc, number)?)?;
        labelled.push(by_labels(alloc)?)?;
    }
    for count in [16384u32, 32768, 65536] {
        let mut listing = Vec::new(alloc);
        for number in 0..count {
            listing.push(listed(alloc, number)?)?;
        }
        time(&rt, "patterns", &patterns, &listing)?;
        time(&rt, "labels", &labelled, &listing)?;
    }
    Ok(())
}
RATTLE
cd "$scratch/crates/timing"
rt run
