#!/bin/sh
# How many looks and moves a second seats make at a shared board of 262,144 jobs, by one thread and by
# four, beside a C program that does the same with plain atomic words on this machine, three times in
# turn. Each number must be at least half of that of C beside it.
# Usage: sh bench/board.sh
set -eu
. "$(dirname "$0")/scratch.sh"
with_crates "anyhow hr_base hr_board hr_ruled" hr_base hr_board hr_ruled
mkdir -p "$scratch/crates/timing/proofs/main"
cat >"$scratch/crates/timing/proofs/main/Invariants.antt" <<'ANTT'
use Rattle.timing.proofs.main.Given as goal

abbrev pub ghosts-one : goal.ghosts-one
ghosts-one g a = record { table = a.opened.table }

abbrev pub ghosts-four : goal.ghosts-four
ghosts-four g a = record { table = a.opened.table }
ANTT
cat >"$scratch/crates/timing/src/main.rt" <<'RATTLE'
//! Times looks and moves at a shared board.
#![tactic(auto)]
ghost use Rattle.std.specs.Prelude.{◌≡◌, ◌+◌, ◌*◌, ◌≤◌};
ghost use Rattle.hr_ruled.specs.declared.rule.Role.TheVariants.{Lane, Queue};

use anyhow::{Result, bail};
use hr_base::{JobNo, Mark, Status};
use hr_board::Board;
use hr_ruled::{BoardSeat, Naming, OpenedBoard, Role, SharedBoard};
use std::alloc::Global;
use std::marker::Brand;
use std::rt::Clock;
use std::thread;
use std::thread::Threads;
use std::time::Instant;

const JOBS: u32 = 262_144;
const ROUNDS: u32 = 16;

/// A queue's and a lane's seat, and the jobs that they move, from the first to the last.
#[derive(Drop)]
struct Worker<N: Naming> {
    queue: BoardSeat<N>,
    lane: BoardSeat<N>,
    first: u32,
    last: u32,
    ghost roles: { (queue.role ≡ Queue) × (lane.role ≡ Lane) },
    ghost range: { (1 ≤ first) × (last ≤ 262144) },
}

fn hire<N: Naming>(
    board: &SharedBoard<N>,
    seat: &mut BoardSeat<N>,
    first: u32,
    last: u32,
) -> Worker<N>
    requires range { (1 ≤ first) × (last ≤ JOBS) }
    requires parts { 4 ≤ seat.old.parts }
    ensures { seat.new.parts + 2 ≡ seat.old.parts }
{
    let queue = board.split(seat, Role::Queue);
    let lane = board.split(seat, Role::Lane);
    Worker {
        queue,
        lane,
        first,
        last,
    }
}

/// Opens, begins and ends the first revision of a job. Answers how many of these moves it made.
fn run<N: Naming>(board: &SharedBoard<N>, worker: &mut Worker<N>, job: u32) -> u64
    requires jobs { board.now ≡ JOBS }
    requires job { (1 ≤ job) × (job ≤ JOBS) }
    ensures { result ≤ 3 }
{
    let job = JobNo(job);
    let (pending, running) = (Mark::At(Status::Pending), Mark::At(Status::Running));
    let opened = board
        .with(&mut worker.queue)
        .advance(job, 0, Mark::Unopened, pending);
    let began = board
        .with(&mut worker.lane)
        .advance(job, 0, pending, running);
    let ended = board
        .with(&mut worker.lane)
        .advance(job, 0, running, Mark::At(Status::Success));
    u64::from(opened.is_ok()) + u64::from(began.is_ok()) + u64::from(ended.is_ok())
}

fn run_all<N: Naming>(board: &SharedBoard<N>, mut worker: Worker<N>) -> (Worker<N>, u64)
    requires { board.now ≡ JOBS }
{
    let mut made = 0u64;
    for job in worker.first..=worker.last {
        made = made.wrapping_add(run(board, &mut worker, job));
    }
    (worker, made)
}

/// Looks at the four words of a job. Answers how many have ended.
fn look<N: Naming>(board: &SharedBoard<N>, worker: &mut Worker<N>, job: u32) -> u64
    requires jobs { board.now ≡ JOBS }
    requires job { (1 ≤ job) × (job ≤ JOBS) }
{
    let mut ended = 0u64;
    for rev in 0..4u8 {
        if let Mark::At(Status::Success) = board.with(&mut worker.lane).look(JobNo(job), rev) {
            ended = ended.wrapping_add(1);
        }
    }
    ended
}

fn look_all<N: Naming>(board: &SharedBoard<N>, mut worker: Worker<N>) -> (Worker<N>, u64)
    requires { board.now ≡ JOBS }
{
    let mut ended = 0u64;
    for round in 0..ROUNDS {
        for job in worker.first..=worker.last {
            ended = ended.wrapping_add(look(board, &mut worker, job));
        }
        let _ = round;
    }
    (worker, ended)
}

/// Times the workers, each in a thread of its own.
fn timed<N: Naming + Send + Sync, R: Threads + Clock + Print + Sync>(
    rt: &R,
    board: &SharedBoard<N>,
    workers: Vec<Worker<N>>,
) -> Result<()>
    requires { board.now ≡ JOBS }
{
    let threads = workers.len();
    let start = Instant::now(rt)?;
    let moved = thread::map_vec(rt, workers, &|worker| run_all(board, worker))?;
    let moving = start.elapsed(rt)?.as_micros().max(1);
    let mut workers = Vec::with_capacity(*moved.allocator(), threads)?;
    let mut made = 0u64;
    for (worker, moves) in moved {
        made = made.wrapping_add(moves);
        workers.push(worker)?;
    }
    let start = Instant::now(rt)?;
    let looked = thread::map_vec(rt, workers, &|worker| look_all(board, worker))?;
    let looking = start.elapsed(rt)?.as_micros().max(1);
    let mut ended = 0u64;
    for (_, found) in looked {
        ended = ended.wrapping_add(found);
    }
    if made != 786_432 || ended != 4_194_304 {
        bail!("a move was lost");
    }
    println!(rt; "{threads} {moving} {looking}")?;
    Ok(())
}

fn one<N: Naming + Send + Sync, R: Threads + Clock + Print + Sync>(
    rt: &R,
    alloc: Global,
    opened: OpenedBoard,
) -> Result<()>
    requires table { opened.table ≡ N.table }
    requires jobs { opened.jobs ≡ JOBS }
{
    let (board, mut seat) = opened.named::<N>();
    let worker = hire(&board, &mut seat, 1, JOBS);
    timed(rt, &board, vec![in alloc; worker]?)
}

fn four<N: Naming + Send + Sync, R: Threads + Clock + Print + Sync>(
    rt: &R,
    alloc: Global,
    opened: OpenedBoard,
) -> Result<()>
    requires table { opened.table ≡ N.table }
    requires jobs { opened.jobs ≡ JOBS }
{
    let (board, mut seat) = opened.named::<N>();
    let first = hire(&board, &mut seat, 1, 65_536);
    let second = hire(&board, &mut seat, 65_537, 131_072);
    let third = hire(&board, &mut seat, 131_073, 196_608);
    let fourth = hire(&board, &mut seat, 196_609, JOBS);
    timed(rt, &board, vec![in alloc; first, second, third, fourth]?)
}

fn main(rt: HostRuntime) -> Result<()> {
    let alloc = rt.alloc();
    let Ok(opened) = OpenedBoard::new(alloc, JOBS) else {
        bail!("no room for the words");
    };
    one::<Brand, HostRuntime>(&rt, alloc, opened)?;
    let Ok(opened) = OpenedBoard::new(alloc, JOBS) else {
        bail!("no room for the words");
    };
    four::<Brand, HostRuntime>(&rt, alloc, opened)
}
RATTLE
cat >"$scratch/plain.c" <<'C'
#include <pthread.h>
#include <stdatomic.h>
#include <stdio.h>
#include <stdlib.h>
#include <time.h>

enum { JOBS = 262144, ROUNDS = 16 };

static _Atomic unsigned long *words;

struct worker {
    unsigned first, last;
    unsigned long made, ended;
};

static int move(unsigned long place, unsigned long from, unsigned long to) {
    return atomic_compare_exchange_strong(&words[place], &from, to);
}

static void *run_all(void *given) {
    struct worker *it = given;
    for (unsigned job = it->first; job <= it->last; job++) {
        unsigned long place = 4ul * (job - 1);
        it->made += move(place, 0, 1) + move(place, 1, 3) + move(place, 3, 6);
    }
    return NULL;
}

static void *look_all(void *given) {
    struct worker *it = given;
    for (int round = 0; round < ROUNDS; round++)
        for (unsigned job = it->first; job <= it->last; job++)
            for (int rev = 0; rev < 4; rev++)
                it->ended += atomic_load(&words[4ul * (job - 1) + rev]) == 6;
    return NULL;
}

static long timed(int threads, struct worker *workers, void *(*work)(void *)) {
    struct timespec start, end;
    pthread_t ids[4];
    clock_gettime(CLOCK_MONOTONIC, &start);
    for (int at = 0; at < threads; at++)
        if (pthread_create(&ids[at], NULL, work, &workers[at])) exit(1);
    for (int at = 0; at < threads; at++) pthread_join(ids[at], NULL);
    clock_gettime(CLOCK_MONOTONIC, &end);
    return (end.tv_sec - start.tv_sec) * 1000000 + (end.tv_nsec - start.tv_nsec) / 1000;
}

int main(void) {
    for (int threads = 1; threads <= 4; threads += 3) {
        struct worker workers[4] = {0};
        unsigned long made = 0, ended = 0;
        words = malloc(4ul * JOBS * sizeof *words);
        if (!words) return 1;
        for (unsigned long place = 0; place < 4ul * JOBS; place++) atomic_init(&words[place], 0);
        for (int at = 0; at < threads; at++) {
            workers[at].first = JOBS / threads * at + 1;
            workers[at].last = JOBS / threads * (at + 1);
        }
        long moving = timed(threads, workers, run_all);
        long looking = timed(threads, workers, look_all);
        for (int at = 0; at < threads; at++) made += workers[at].made, ended += workers[at].ended;
        if (made != 786432 || ended != 4194304) return 1;
        printf("%d %ld %ld\n", threads, moving, looking);
        free((void *)words);
    }
    return 0;
}
C
cc -O2 -pthread -o "$scratch/plain" "$scratch/plain.c"
cd "$scratch/crates/timing"
for round in 1 2 3; do
    rt run | sed 's/^/ours /'
    "$scratch/plain" | sed 's/^/C /'
done >"$scratch/times"
awk '
    BEGIN { print "        threads   moves/s    looks/s" }
    $1 == "ours" || $1 == "C" {
        printf "%-7s %7d %9d %10d\n", $1, $2, 786432 / $3 * 1000000, 16777216 / $4 * 1000000
    }' "$scratch/times"
