#!/bin/sh
# How long a policy of 16 filters on names, tags and labels takes to be planned over a registry in
# memory of 1,024, 2,048 and 4,096 repositories of 16 tags each, least of five; all of it is picked.
# The time of one tag must stay level, and 65,536 tags may take about a second.
# Usage: sh bench/plan.sh
set -eu
. "$(dirname "$0")/scratch.sh"
with_crates "anyhow hr_base hr_digest hr_filter hr_memreg hr_name hr_pattern hr_plan hr_policy" \
    hr_base hr_cause hr_tree hr_text hr_digest hr_name hr_event hr_json hr_adapter hr_memreg \
    hr_pattern hr_filter hr_periodic hr_setting hr_policy hr_plan
cat >"$scratch/crates/timing/src/main.rt" <<'RATTLE'
//! Times plans.
#![tactic(auto)]
ghost use Rattle.std.specs.Prelude.{◌≡◌, IfOk, pos};

use anyhow::{Result, bail};
use hr_base::{Bytes, List, Memory, PolicyNo, RegNo};
use hr_digest::Digest;
use hr_filter::{Decoration, Filter};
use hr_memreg::{Content, MemRegistry, RepoContent, TagAt};
use hr_name::{Name, Tag};
use hr_pattern::Pattern;
use hr_plan::plan;
use hr_policy::Policy;
use std::alloc::Global;
use std::rt::Clock;
use std::time::Instant;

fn labels(alloc: Global) -> Result<List<Bytes>, Memory> {
    let mut labels = List::new(alloc);
    for text in [b"one".as_slice(), b"two", b"three", b"four"] {
        labels.push(Bytes::of(alloc, text)?)?;
    }
    Ok(labels)
}

fn tag_at(alloc: Global, number: u32) -> Result<TagAt> {
    let text = format!(in alloc; "v1.{number:05}-alpine")?;
    let Ok(tag) = Tag::read(alloc, text.as_bytes()) else {
        bail!("a tag is refused");
    };
    let Ok(labels) = labels(alloc) else {
        bail!("no room for labels");
    };
    let digest = Digest::of(b"{}");
    Ok(TagAt {
        tag,
        digest,
        labels,
    })
}

fn repo_at(alloc: Global, number: u32) -> Result<RepoContent> {
    let text = format!(in alloc; "library/r{number:05}")?;
    let Ok(name) = Name::read(alloc, text.as_bytes()) else {
        bail!("a name is refused");
    };
    let mut tags = List::new(alloc);
    for number in 0..16u32 {
        if tags.push(tag_at(alloc, number)?).is_err() {
            bail!("no room for a tag");
        }
    }
    Ok(RepoContent {
        name,
        blobs: List::new(alloc),
        manifests: List::new(alloc),
        tags,
    })
}

fn source(alloc: Global, count: u32) -> Result<MemRegistry> {
    let mut repos = List::new(alloc);
    for number in 0..count {
        if repos.push(repo_at(alloc, number)?).is_err() {
            bail!("no room for a repository");
        }
    }
    match MemRegistry::new(alloc, Content { repos }) {
        Ok(registry) => Ok(registry),
        Err(_) => bail!("no room for a registry"),
    }
}

fn filter(alloc: Global, number: u32) -> Result<Filter> {
    let decoration = Decoration::Matches;
    if number % 4 == 3 {
        let Ok(labels) = labels(alloc) else {
            bail!("no room for labels");
        };
        return Ok(Filter::Label { labels, decoration });
    }
    let text = if number % 2 == 0 {
        b"{library,other}/**/r{0,1,2}*".as_slice()
    } else {
        b"v{1,2}.*-{alpine,slim}".as_slice()
    };
    let Ok(pattern) = Pattern::read(alloc, text) else {
        bail!("a pattern is refused");
    };
    if number % 2 == 0 {
        Ok(Filter::Name { pattern, decoration })
    } else {
        Ok(Filter::Tag { pattern, decoration })
    }
}

fn filters(alloc: Global) -> Result<List<Filter>> {
    let mut filters = List::new(alloc);
    for number in 0..16u32 {
        if filters.push(filter(alloc, number)?).is_err() {
            bail!("no room for a filter");
        }
    }
    Ok(filters)
}

fn policy(alloc: Global) -> Result<Policy>
    ensures { IfOk result (λ policy. policy.replace ≡ pos 1) }
{
    let Ok(namespace) = Name::read(alloc, b"mirror") else {
        bail!("a name is refused");
    };
    let Ok(name) = Bytes::of(alloc, b"") else {
        bail!("no room for a name");
    };
    let filters = filters(alloc)?;
    Ok(Policy {
        id: PolicyNo(1),
        name,
        enabled: true,
        src: RegNo(1),
        dst: RegNo(2),
        namespace: Some(namespace),
        replace: 1,
        override_it: true,
        attempts: 3,
        cron: None,
        filters,
    })
}

fn time(rt: &(impl Print + Clock + AllocGlobal), policy: &Policy, count: u32) -> Result<()>
    requires { policy.now.replace ≡ pos 1 }
{
    let mut source = source(rt.alloc(), count)?;
    let mut least = u128::MAX;
    let mut found = 0;
    for _ in 0..5u32 {
        let start = Instant::now(rt)?;
        let Ok(specs) = plan(rt.alloc(), policy, &mut source) else {
            bail!("no plan");
        };
        least = least.min(start.elapsed(rt)?.as_micros());
        found = specs.view().len();
    }
    println!(rt; "{count:>5} repositories of 16 tags, {found:>5} tasks: {least:>8} us")?;
    Ok(())
}

fn main(rt: HostRuntime) -> Result<()> {
    let policy = policy(rt.alloc())?;
    for count in [1024u32, 2048, 4096] {
        time(&rt, &policy, count)?;
    }
    Ok(())
}
RATTLE
cd "$scratch/crates/timing"
rt run
