#!/bin/sh
# How long queues of 65,536 and 262,144 jobs take to be given their jobs, to give out the turns of
# all, and to take all back, three times: by job number, and then twice mixed. Each job fails twice,
# and then succeeds; after a mixed round the turns come mixed too. Where time is linear the last
# column is level. Prints the size of the process after `reserve`, and at the end, and fails where
# they differ: nothing but `reserve` takes memory. Usage: sh bench/queue.sh
set -eu
. "$(dirname "$0")/scratch.sh"
with_crates "anyhow hr_base hr_board hr_event hr_queue" hr_base hr_board hr_text hr_digest hr_name hr_event hr_queue
mkdir -p "$scratch/crates/timing/proofs/numbered"
cat >"$scratch/crates/timing/proofs/numbered/Invariants.antt" <<'ANTT'
use Rattle.std.proofs.Common.{◌≡◌, ◌+◌, ◌<◌, length}
use Rattle.std.specs.List.{AllByRecursion}
use Rattle.hr_queue.specs.Adding.{IsFit}
use Rattle.hr_queue.specs.View.{AreDistinct}
use Rattle.timing.proofs.numbered.Given as goal

abbrev pub invariant-loop-i : goal.invariant-loop-i
invariant-loop-i l = record {
  distinct : AreDistinct l.jobs.items;
  below : AllByRecursion (λ a. a.job.0 < l.i + 1) l.jobs.items;
  fit : AllByRecursion (IsFit l.count) l.jobs.items;
  len : length l.jobs.items ≡ l.i
}
ANTT
cat >"$scratch/crates/timing/proofs/numbered/Answers.antt" <<'ANTT'
use Rattle.std.proofs.Common.{ℕ, ◌+◌, ◌<◌, List, [], ◌∷◌, ◌++◌, length, sym, ap, subst, arith, length-append}
use Rattle.std.specs.List.{AllByRecursion}
use Rattle.hr_queue.specs.declared.answer.Queued.{Queued}
use Rattle.hr_queue.specs.Adding.{IsFit}
use Rattle.hr_queue.specs.View.{AreDistinct}
use Rattle.timing.proofs.numbered.Goals as goal

all-push : (P : Queued → Type 0) (xs : List Queued) (x : Queued) → AllByRecursion P xs → P x
    → AllByRecursion P (xs ++ x ∷ [])
all-push P [] x all here = (here, tt)
all-push P (y ∷ ys) x all here = (all.0, all-push P ys x all.1 here)

all-weaker : (P Q : Queued → Type 0) → ((x : Queued) → P x → Q x) → (xs : List Queued)
    → AllByRecursion P xs → AllByRecursion Q xs
all-weaker P Q weaker [] all = tt
all-weaker P Q weaker (x ∷ xs) all = (weaker x all.0, all-weaker P Q weaker xs all.1)

pub loop-i-preserved : goal.loop-i-preserved
loop-i-preserved c =
    let jobs = c.loop-i.jobs.items in
    let next = c.loop-i.i + 1 in
    let known = c.loop-i.invariant in
    let job : Queued = record { job = record { 0 = next }; attempts = 3 } in
    let items = c.in_ok-push.ensures.items in
    let below : Queued → Type 0 = λ a. a.job.0 < next in
    let below_next : Queued → Type 0 = λ a. a.job.0 < next + 1 in
    let all_below : List Queued → Type 0 = λ js. AllByRecursion below_next js in
    let all_fit : List Queued → Type 0 = λ js. AllByRecursion (IsFit c.args.count) js in
    let fit : IsFit c.args.count job = (omega arith, omega arith, omega arith, omega arith) in
    record {
      distinct = subst AreDistinct (sym items)
        (c.a_later_job_is_new.ensures jobs job known.distinct known.below);
      below = subst all_below (sym items) (all-push below_next jobs job
        (all-weaker below below_next (λ a lower. omega (arith, lower)) jobs known.below) (omega arith));
      fit = subst all_fit (sym items) (all-push (IsFit c.args.count) jobs job known.fit fit);
      len = omega (arith, ap length items, length-append jobs (job ∷ []));
    }
ANTT
mkdir -p "$scratch/crates/timing/proofs/timed"
cat >"$scratch/crates/timing/proofs/timed/Answers.antt" <<'ANTT'
use Rattle.std.proofs.Common.{◌≡◌, List, [], ap, ◌∙◌}
use Rattle.hr_queue.specs.declared.answer.Queued.{Queued}
use Rattle.hr_queue.specs.View.{View}
use Rattle.timing.proofs.timed.Goals as goal

pub add-requires-clause-new : goal.add-requires-clause-new
add-requires-clause-new c =
    let added : View → List Queued = λ q. q.added in
    let none : c.reserve.new.self.added ≡ [] =
        ap added c.reserve.ensures.unchanged ∙ ap added c.new-queue.ensures in
    rw (none, c.as_slice.ensures.value) c.in_ok-jobs.ensures.distinct
ANTT
cat >"$scratch/crates/timing/src/main.rt" <<'RATTLE'
//! Times a queue of many jobs.
#![tactic(auto)]
ghost use Rattle.std.specs.Prelude.{◌≡◌, ◌⊎◌, ◌≤◌, ◌<◌, ◌^◌, length, IfOk};
ghost use Rattle.std.specs.List.{AllByRecursion};
ghost use Rattle.hr_queue.specs.Adding.{IsFit};
ghost use Rattle.hr_queue.specs.View.{AreDistinct};

use anyhow::{Result, bail};
use hr_base::{JobNo, Moment, Status};
use hr_board::cases::{begin, end};
use hr_board::{Board, PlainBoard};
use hr_event::Turn;
use hr_queue::{Queue, Queued, Settled, Taken, a_later_job_is_new};
use std::alloc::Global;
use std::fs;
use std::rt::Clock;
use std::time::Instant;

/// Jobs from 1 on.
fn numbered(alloc: Global, count: u32) -> Result<Vec<Queued>>
    requires { count < 2 ^ 31 }
    ensures distinct { IfOk result (λ jobs. AreDistinct jobs.items) }
    ensures fit { IfOk result (λ jobs. AllByRecursion (IsFit count) jobs.items) }
    ensures len { IfOk result (λ jobs. length jobs.items ≡ count) }
{
    a_later_job_is_new();
    let mut jobs = Vec::new(alloc);
    for i in 0..count {
        jobs.push(Queued {
            job: JobNo(i + 1),
            attempts: 3,
        })?;
    }
    Ok(jobs)
}

/// Takes so many turns. Answers how many came.
fn take_all(queue: &mut Queue, count: u32, now: u64) -> u32 {
    let mut taken = 0u32;
    for _ in 0..count {
        if let Taken::Turn(_) = queue.take(Moment(now)) {
            taken = taken.wrapping_add(1);
        }
    }
    taken
}

fn begin_one(board: &mut PlainBoard, job: u32, rev: u8) {
    if 1 <= job && job <= board.jobs() && rev <= 3 {
        begin(board, JobNo(job), rev);
    }
}

fn end_one(board: &mut PlainBoard, job: u32, rev: u8, status: Status)
    requires { (status ≡ Status.Success) ⊎ (status ≡ Status.Error) }
{
    if 1 <= job && job <= board.jobs() && rev <= 3 {
        end(board, JobNo(job), rev, status);
    }
}

/// Runs this revision of so many jobs.
fn run_all(board: &mut PlainBoard, count: u32, rev: u8, status: Status)
    requires { (status ≡ Status.Success) ⊎ (status ≡ Status.Error) }
{
    for i in 0..count {
        let job = i.wrapping_add(1);
        begin_one(board, job, rev);
        end_one(board, job, rev, status);
    }
}

fn settle_one(queue: &mut Queue, board: &mut PlainBoard, turn: Turn, now: u64) -> bool {
    if turn.job.0 > board.jobs() {
        return false;
    }
    match queue.settle(board, turn, Moment(now)) {
        Settled::Again { .. } | Settled::Done(_) => true,
        _ => false,
    }
}

/// Gives back so many turns, a power of two, in steps of an odd number, and a second apart where
/// they are mixed. Answers how many were taken back.
fn settle_all(queue: &mut Queue, board: &mut PlainBoard, count: u32, rev: u8, step: u32) -> u32 {
    let mut settled = 0u32;
    let last = count.wrapping_sub(1);
    for i in 0..count {
        let turn = Turn {
            job: JobNo((i.wrapping_mul(step) & last).wrapping_add(1)),
            rev,
            attempts: 3,
        };
        let now = if step == 1 { 0 } else { u64::from(i) };
        if settle_one(queue, board, turn, now) {
            settled = settled.wrapping_add(1);
        }
    }
    settled
}

/// The size of this process, and the most memory that it has had, as the system tells them.
fn sizes(rt: &HostRuntime) -> Result<()> {
    let text = fs::read_to_string(rt, "/proc/self/status")?;
    for line in text.as_str().lines() {
        if line.starts_with("VmPeak") || line.starts_with("VmHWM") {
            println!(rt; "{line}")?;
        }
    }
    Ok(())
}

fn told(rt: &HostRuntime, count: u32, what: &str, start: Instant, made: u32) -> Result<()> {
    let micros = start.elapsed(rt)?.as_micros();
    if made != count {
        bail!("a turn was lost");
    }
    println!(rt; "{count} {micros} {what}")?;
    Ok(())
}

/// Times a round: turns are taken, run, and given back.
fn round(
    rt: &HostRuntime,
    queue: &mut Queue,
    board: &mut PlainBoard,
    count: u32,
    rev: u8,
    step: u32,
) -> Result<()> {
    let start = Instant::now(rt)?;
    let taken = take_all(queue, count, 1_000_000);
    told(rt, count, "taken", start, taken)?;
    if rev == 2 {
        run_all(board, count, rev, Status::Success);
    } else {
        run_all(board, count, rev, Status::Error);
    }
    let start = Instant::now(rt)?;
    let settled = settle_all(queue, board, count, rev, step);
    told(rt, count, "given back", start, settled)
}

fn timed(rt: &HostRuntime, alloc: Global, count: u32) -> Result<()>
    requires { count < 2 ^ 31 }
{
    let jobs = numbered(alloc, count)?;
    let Ok(mut board) = PlainBoard::new(alloc, count) else {
        bail!("no room for the words");
    };
    let mut queue = Queue::new(alloc);
    if queue.reserve(count).is_err() {
        bail!("no room for the jobs");
    }
    sizes(rt)?;
    let start = Instant::now(rt)?;
    queue.add(&mut board, jobs.as_slice());
    told(rt, count, "added", start, count)?;
    round(rt, &mut queue, &mut board, count, 0, 1)?;
    round(rt, &mut queue, &mut board, count, 1, 40_503)?;
    round(rt, &mut queue, &mut board, count, 2, 25_771)?;
    told(rt, count, "all", start, queue.done().len() as u32)?;
    sizes(rt)
}

fn main(rt: HostRuntime) -> Result<()> {
    let alloc = rt.alloc();
    timed(&rt, alloc, 65_536)?;
    timed(&rt, alloc, 262_144)
}
RATTLE
cd "$scratch/crates/timing"
rt run >"$scratch/times"
awk '
    BEGIN { print "  jobs      ms  ns/job" }
    $1 ~ /^Vm/ { print; if ($1 == "VmPeak:") sizes[n++] = $2; next }
    { printf "%6d %7d %7d %s\n", $1, $2 / 1000, $2 * 1000 / $1, $3 " " $4 }
    END { for (i = 0; i < n; i += 2) if (sizes[i] != sizes[i + 1]) exit 1 }' "$scratch/times"
