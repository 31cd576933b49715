#!/bin/sh
# How long the task store takes to receive 1,048,576 hooks in random order, many of them repeated, for
# 65,536 and 262,144 rows in executions of 256; and to sweep 1,000 executions of one row each beside
# 25,000 and 200,000 rows that are kept. The time of a hook must stay about level, and so must that of
# a sweep.
# Usage: sh bench/store.sh
set -eu
. "$(dirname "$0")/scratch.sh"
with_crates "anyhow hr_base hr_board hr_event hr_name hr_store" hr_base hr_text hr_digest hr_name hr_event hr_board hr_store
cat >"$scratch/crates/timing/src/main.rt" <<'RATTLE'
//! Times a store.
#![tactic(auto)]

use anyhow::{Result, bail};
use hr_base::{Hook, JobNo, List, Mark, Moment, PolicyNo, RegNo, Status};
use hr_board::{Board, PlainBoard};
use hr_event::{Received, TaskSpec, Trigger};
use hr_name::Name;
use hr_store::Store;
use std::alloc::Global;
use std::rt::Clock;
use std::time::Instant;

fn task(alloc: Global) -> Result<TaskSpec> {
    let (Ok(from), Ok(to)) = (Name::read(alloc, b"library/a"), Name::read(alloc, b"mirror/a")) else {
        bail!("a name is refused");
    };
    Ok(TaskSpec {
        policy: PolicyNo(1),
        src: RegNo(1),
        dst: RegNo(2),
        from,
        to,
        tags: List::new(alloc),
        override_it: true,
        attempts: 2,
    })
}

fn create(alloc: Global, store: &mut Store, policy: u32, rows: u32) -> Result<()> {
    let mut specs = List::new(alloc);
    for _ in 0..rows {
        let Ok(()) = specs.push(task(alloc)?) else {
            bail!("no room for tasks");
        };
    }
    let made = store.create(alloc, PolicyNo(policy), Trigger::Manual, specs, Moment(0));
    if made.is_err() {
        bail!("an execution is refused");
    }
    Ok(())
}

/// Ends the first revision of a job with this status.
fn end(board: &mut PlainBoard, job: u32, status: Status) -> Option<()> {
    if job == 0 || job > board.jobs() {
        return None;
    }
    let (pending, running) = (Mark::At(Status::Pending), Mark::At(Status::Running));
    board.advance(JobNo(job), 0, Mark::Unopened, pending).ok()?;
    board.advance(JobNo(job), 0, pending, running).ok()?;
    match status {
        Status::Error => board.advance(JobNo(job), 0, running, Mark::At(Status::Error)).ok(),
        _ => board.advance(JobNo(job), 0, running, Mark::At(Status::Success)).ok(),
    }
}

/// Ends the second revision of a job, after an error of the first, with success.
fn end_again(board: &mut PlainBoard, job: u32) -> Option<()> {
    if job == 0 || job > board.jobs() {
        return None;
    }
    if board.look(JobNo(job), 0) != Mark::At(Status::Error) {
        return None;
    }
    let (scheduled, running) = (Mark::At(Status::Scheduled), Mark::At(Status::Running));
    board.advance(JobNo(job), 1, Mark::Unopened, scheduled).ok()?;
    board.advance(JobNo(job), 1, scheduled, running).ok()?;
    board.advance(JobNo(job), 1, running, Mark::At(Status::Success)).ok()
}

/// The next of a row of numbers that look random.
fn next(number: u64) -> u64 {
    number.wrapping_mul(6364136223846793005).wrapping_add(1442695040888963407)
}

fn receive(store: &mut Store, board: &mut PlainBoard, hook: Hook) -> Option<Received> {
    if hook.rev > 3 || store.limit() > board.jobs() {
        return None;
    }
    Some(store.receive(board, hook))
}

/// Receives so many hooks of random jobs. Answers how many raised a row.
fn receive_many(store: &mut Store, board: &mut PlainBoard, jobs: u32, count: u32) -> Option<u64> {
    let mut number = 1u64;
    let mut raised = 0u64;
    for _ in 0..count {
        number = next(number);
        let job = ((number >> 33) % (u64::from(jobs) + 1)) as u32;
        let (rev, status) = match (number >> 20) % 4 {
            0 => (0, Status::Running),
            1 => (0, Status::Error),
            2 => (1, Status::Running),
            _ => (1, Status::Success),
        };
        let hook = Hook {
            job: JobNo(job),
            rev,
            status,
        };
        if receive(store, board, hook)? == Received::Raised {
            raised = raised.wrapping_add(1);
        }
    }
    Some(raised)
}

fn time_hooks(rt: &(impl Print + Clock + AllocGlobal), rows: u32) -> Result<()> {
    let alloc = rt.alloc();
    let Ok(mut board) = PlainBoard::new(alloc, 262_144) else {
        bail!("no room for a board");
    };
    let mut store = Store::new(alloc, 262_144);
    let start = Instant::now(rt)?;
    for _ in 0..rows / 256 {
        create(alloc, &mut store, 1, 256)?;
    }
    let creating = start.elapsed(rt)?.as_micros();
    for job in 1..=rows {
        let (Some(()), Some(())) = (end(&mut board, job, Status::Error), end_again(&mut board, job)) else {
            bail!("a word does not move");
        };
    }
    let start = Instant::now(rt)?;
    let Some(raised) = receive_many(&mut store, &mut board, rows, 1_048_576) else {
        bail!("a hook is refused");
    };
    let receiving = start.elapsed(rt)?.as_micros();
    println!(rt; "{rows:>7} rows: made in {creating:>8} us, 1048576 hooks in {receiving:>8} us, {raised} raised")?;
    Ok(())
}

fn time_sweep(rt: &(impl Print + Clock + AllocGlobal), rows: u32) -> Result<()> {
    let alloc = rt.alloc();
    let Ok(mut board) = PlainBoard::new(alloc, 262_144) else {
        bail!("no room for a board");
    };
    let mut store = Store::new(alloc, 262_144);
    for _ in 0..1000u32 {
        create(alloc, &mut store, 1, 1)?;
    }
    for _ in 0..rows / 1000 {
        create(alloc, &mut store, 2, 1000)?;
    }
    for job in 1..=1000u32 {
        let hook = Hook {
            job: JobNo(job),
            rev: 0,
            status: Status::Success,
        };
        let Some(()) = end(&mut board, job, Status::Success) else {
            bail!("a word does not move");
        };
        let Some(Received::Raised) = receive(&mut store, &mut board, hook) else {
            bail!("a row does not rise");
        };
    }
    let start = Instant::now(rt)?;
    let swept = store.sweep(0);
    let sweeping = start.elapsed(rt)?.as_micros();
    println!(rt; "{rows:>7} rows kept: {swept} executions swept in {sweeping:>6} us")?;
    Ok(())
}

fn main(rt: HostRuntime) -> Result<()> {
    time_hooks(&rt, 65_536)?;
    time_hooks(&rt, 262_144)?;
    time_sweep(&rt, 25_000)?;
    time_sweep(&rt, 200_000)?;
    Ok(())
}
RATTLE
cd "$scratch/crates/timing"
rt run
