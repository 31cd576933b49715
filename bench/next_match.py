#!/usr/bin/env python3
"""Calls of `Cron::next` per second, for schedules that match often, seldom and never.

It makes a repository of the crates and of a program in a temporary folder, builds it there by the
toolchain's `rt`, and times it. Run it at the top of the repository: python3 bench/next_match.py
"""
import os
import shutil
import subprocess
import tempfile
import time

CRATES = ["hr_base", "hr_text", "hr_periodic"]
SCHEDULES = [
    ("every second", "* * * * * *", 4_000_000),
    ("hourly", "0 0 * * * *", 4_000_000),
    ("29 February", "0 0 0 29 2 *", 40_000),
    ("never", "0 0 0 30 2 *", 20_000),
]
PROGRAM = """//! Asks schedules for their next match, each as often as its line says.
#![tactic(auto)]

use hr_base::Moment;
use hr_periodic::Cron;
use std::io;

fn main(rt: HostRuntime) -> io::Result<()> {
    for line in rt.lines(rt.alloc()) {
        let line = line?;
        let Some((times, text)) = line.as_str().split_once(' ') else {
            continue;
        };
        if let Ok(cron) = Cron::read(text.as_bytes()) {
            let sum = asked(&cron, times.parse().unwrap_or(0));
            println!(rt; "{sum}")?;
        }
    }
    Ok(())
}

fn asked(cron: &Cron, times: u32) -> u64 {
    let mut sum = 0;
    for time in 0..times {
        let after = Moment(1_700_000_000 + time as u64 * 977);
        sum ^= cron.next(after).unwrap_or(after).0;
    }
    sum
}
"""


def main():
    """Builds the program, and prints a line for each schedule."""
    top = os.path.join(os.path.dirname(os.path.abspath(__file__)), "..")
    with tempfile.TemporaryDirectory() as folder:
        for crate in CRATES:
            shutil.copytree(f"{top}/crates/{crate}", f"{folder}/crates/{crate}")
        with open(f"{top}/crates.txt") as lines:
            kept = [line for line in lines if line.split(":")[0] in CRATES]
        with open(f"{folder}/crates.txt", "w") as out:
            out.writelines(kept + ["asks: hr_base hr_periodic\n"])
        os.makedirs(f"{folder}/crates/asks/src")
        with open(f"{folder}/crates/asks/src/main.rt", "w") as out:
            out.write(PROGRAM)
        crate = f"{folder}/crates/asks"
        subprocess.run(["rt", "run"], cwd=crate, check=True, capture_output=True, input=b"")
        for name, text, times in SCHEDULES:
            asked = f"{times} {text}\n".encode()
            start = time.perf_counter()
            subprocess.run([f"{crate}/out/asks"], check=True, capture_output=True, input=asked)
            spent = time.perf_counter() - start
            each = spent / times
            print(f"{name}: {1 / each:,.0f} calls per second, {each * 1e6:.2f} microseconds each")


main()
