#!/bin/sh
# How long a reply takes over 25,000, 100,000 and 250,000 rows: the snapshot of the store, a page of 100
# tasks in the middle of the one execution that has half of them, and a page of 100 of the executions,
# of which there is one for every 10 of the other rows. The snapshot and the tasks are linear in the
# rows; the page of executions must stay level.
# Usage: sh bench/rest.sh
set -eu
. "$(dirname "$0")/scratch.sh"
with_crates "anyhow hr_base hr_event hr_name hr_policy hr_rest hr_store" \
    hr_base hr_cause hr_text hr_digest hr_name hr_event hr_json hr_pattern hr_filter hr_periodic \
    hr_tree hr_setting hr_policy hr_board hr_store hr_body hr_frame hr_head hr_http1 hr_rest
cat >"$scratch/crates/timing/src/main.rt" <<'RATTLE'
//! Times snapshots and replies.
#![tactic(auto)]

use anyhow::{Result, bail};
use hr_base::{ExecNo, List, Moment, PolicyNo, RegNo};
use hr_event::{TaskSpec, Trigger};
use hr_name::Name;
use hr_rest::{Asked, Snapshot, reply, snapshot};
use hr_store::Store;
use std::alloc::Global;
use std::rt::Clock;
use std::time::Instant;

fn task(alloc: Global) -> Result<TaskSpec> {
    let (Ok(from), Ok(to)) = (Name::read(alloc, b"library/a"), Name::read(alloc, b"mirror/a")) else {
        bail!("a name is refused");
    };
    Ok(TaskSpec {
        policy: PolicyNo(1),
        src: RegNo(1),
        dst: RegNo(2),
        from,
        to,
        tags: List::new(alloc),
        override_it: true,
        attempts: 2,
    })
}

fn create(alloc: Global, store: &mut Store, rows: u32) -> Result<()> {
    let mut specs = List::new(alloc);
    for _ in 0..rows {
        let Ok(()) = specs.push(task(alloc)?) else {
            bail!("no room for tasks");
        };
    }
    let made = store.create(alloc, PolicyNo(1), Trigger::Manual, specs, Moment(0));
    if made.is_err() {
        bail!("an execution is refused");
    }
    Ok(())
}

/// How many bytes the reply has.
fn ask(alloc: Global, asked: &Asked, view: &Snapshot) -> Result<usize> {
    match reply(alloc, asked, view) {
        Ok(reply) => Ok(reply.body.view().len()),
        Err(_) => bail!("no room for a reply"),
    }
}

fn time_rows(rt: &(impl Print + Clock + AllocGlobal), rows: u32) -> Result<()> {
    let alloc = rt.alloc();
    let mut store = Store::new(alloc, 262_144);
    create(alloc, &mut store, rows / 2)?;
    for _ in 0..rows / 20 {
        create(alloc, &mut store, 10)?;
    }
    let start = Instant::now(rt)?;
    let Ok(view) = snapshot(alloc, &store, &[]) else {
        bail!("no room for a snapshot");
    };
    let taking = start.elapsed(rt)?.as_micros();
    let exec = ExecNo(1);
    let page = rows / 400;
    let start = Instant::now(rt)?;
    let tasks = ask(alloc, &Asked::Tasks { exec, page, size: 100 }, &view)?;
    let listing = start.elapsed(rt)?.as_micros();
    let start = Instant::now(rt)?;
    let execs = ask(alloc, &Asked::Executions { page: 2, size: 100 }, &view)?;
    let paging = start.elapsed(rt)?.as_micros();
    println!(rt; "{rows:>7} rows: snapshot in {taking:>7} us, tasks in {listing:>6} us ({tasks} bytes), executions in {paging:>6} us ({execs} bytes)")?;
    Ok(())
}

fn main(rt: HostRuntime) -> Result<()> {
    time_rows(&rt, 25_000)?;
    time_rows(&rt, 100_000)?;
    time_rows(&rt, 250_000)?;
    Ok(())
}
RATTLE
cd "$scratch/crates/timing"
rt run
