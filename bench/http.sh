#!/bin/sh
# How fast replies are read off the standard input: 20,000 with ten field lines and two bytes of body,
# and two of 256 MiB, of a known length and in chunks of 65,536 bytes, through a buffer of 65,536
# bytes. Beside it Python's http.client and, where Debian's libhttp-parser-dev is installed, the C
# parser of Node.js read the same bytes; and our peak memory. The least of three runs counts.
# Usage: sh bench/http.sh
set -eu
. "$(dirname "$0")/scratch.sh"
with_crates "anyhow hr_cause hr_http1" hr_base hr_cause hr_body hr_frame hr_head hr_http1
cat >"$scratch/crates/timing/src/main.rt" <<'RATTLE'
//! Times the reading of all the replies that the input has.
#![tactic(auto)]

use anyhow::{Result, bail};
use hr_cause::{Source, StdSource};
use hr_http1::{Body, WireFault, open_response};
use std::io::BufReader;
use std::time::Instant;

/// Reads the rest of a body, and gives its length, or `None` for a fault.
fn drain<L: Source>(link: &mut L, body: &mut Body, buf: &mut [u8]) -> Option<u64> {
    let mut bytes = 0u64;
    for _ in 0..u64::MAX {
        match body.read(link, buf) {
            Ok(0) => return Some(bytes),
            Ok(count) => bytes = bytes.saturating_add(count as u64),
            Err(_) => return None,
        }
    }
    Some(bytes)
}

fn main(rt: HostRuntime) -> Result<()> {
    let alloc = rt.alloc();
    let mut link = StdSource::new(BufReader::new(alloc, rt.stdin())?);
    let mut buf = vec![in alloc; 0u8; 65536]?;
    let (mut replies, mut bytes) = (0u64, 0u64);
    let start = Instant::now(&rt)?;
    for _ in 0..u64::MAX {
        let mut body = match open_response(alloc, &mut link, false) {
            Ok((_, body)) => body,
            Err(WireFault::Ended { at: 0 }) => break,
            Err(_) => bail!("a head is refused"),
        };
        let Some(count) = drain(&mut link, &mut body, &mut buf) else {
            bail!("a body is refused");
        };
        replies = replies.saturating_add(1);
        bytes = bytes.saturating_add(count);
    }
    let spent = start.elapsed(&rt)?;
    let (seconds, rest) = (spent.as_secs(), spent.subsec_nanos());
    println!(rt; "{replies} {bytes} {seconds} {rest}")?;
    Ok(())
}
RATTLE
cat >"$scratch/make.py" <<'PYTHON'
"""Writes the inputs: many small replies, a long body of a known length, and a long one in chunks."""
import sys

LINES = b"".join(b"X-Registry-Line-%d: a value of thirty bytes, %02d\r\n" % (at, at)
                 for at in range(9))
with open(sys.argv[1] + "/small", "wb") as out:
    for _ in range(20000):
        out.write(b"HTTP/1.1 200 OK\r\n" + LINES + b"Content-Length: 2\r\n\r\n{}")
PIECE = bytes(65536)
with open(sys.argv[1] + "/sized", "wb") as out:
    out.write(b"HTTP/1.1 200 OK\r\nContent-Length: %d\r\n\r\n" % 2 ** 28)
    for _ in range(4096):
        out.write(PIECE)
with open(sys.argv[1] + "/chunked", "wb") as out:
    out.write(b"HTTP/1.1 200 OK\r\nTransfer-Encoding: chunked\r\n\r\n")
    for _ in range(4096):
        out.write(b"10000\r\n" + PIECE + b"\r\n")
    out.write(b"0\r\n\r\n")
PYTHON
cat >"$scratch/client.py" <<'PYTHON'
"""Reads all the replies of standard input with http.client, and prints as the other program does."""
import http.client, sys, time

class Socket:
    def makefile(self, *_):
        return Keep(sys.stdin.buffer)

class Keep:
    def __init__(self, file):
        self.read, self.readinto, self.readline = file.read, file.readinto, file.readline
    def close(self):
        pass
    def flush(self):
        pass

replies, size = 0, 0
start = time.perf_counter_ns()
while sys.stdin.buffer.peek(1):
    reply = http.client.HTTPResponse(Socket())
    reply.begin()
    while part := reply.read(65536):
        size += len(part)
    replies += 1
spent = time.perf_counter_ns() - start
print(replies, size, spent // 10**9, spent % 10**9)
PYTHON
cat >"$scratch/parser.c" <<'C'
/* Reads all the replies of standard input with http_parser, and prints as the other programs do. */
#include <http_parser.h>
#include <stdio.h>
#include <string.h>
#include <time.h>
#include <unistd.h>

static unsigned long replies, bytes, lines;

static int field(http_parser *parser, const char *at, size_t length) {
    lines += length;
    return 0;
}

static int body(http_parser *parser, const char *at, size_t length) {
    bytes += length;
    return 0;
}

static int complete(http_parser *parser) {
    replies++;
    return 0;
}

int main(void) {
    static char buf[65536];
    struct timespec start, end;
    http_parser parser;
    http_parser_settings settings;
    ssize_t count;
    http_parser_settings_init(&settings);
    settings.on_header_field = field;
    settings.on_header_value = field;
    settings.on_body = body;
    settings.on_message_complete = complete;
    http_parser_init(&parser, HTTP_RESPONSE);
    clock_gettime(CLOCK_MONOTONIC, &start);
    while ((count = read(0, buf, sizeof buf)) > 0)
        if (http_parser_execute(&parser, &settings, buf, count) != (size_t)count)
            return 1;
    clock_gettime(CLOCK_MONOTONIC, &end);
    long spent = (end.tv_sec - start.tv_sec) * 1000000000L + end.tv_nsec - start.tv_nsec;
    printf("%lu %lu %ld %ld\n", replies, bytes, spent / 1000000000L, spent % 1000000000L);
    return 0;
}
C
cat >"$scratch/table.py" <<'PYTHON'
"""Runs the programs on each input, and prints the least of three runs and our peak memory."""
import os, subprocess, sys

folder, ours = sys.argv[1], sys.argv[2]
commands = {"ours": [ours], "Python's": [sys.executable, folder + "/client.py"]}
if os.path.exists(folder + "/parser"):
    commands["in C"] = [folder + "/parser"]
print("%-8s %-9s %10s %8s %8s" % ("input", "parser", "replies/s", "MB/s", "peak KB"))
for name in ("small", "sized", "chunked"):
    wanted = None
    for whose, command in commands.items():
        rows = []
        for _ in range(3):
            with open(f"{folder}/{name}", "rb") as source:
                child = subprocess.Popen(command, stdin=source, stdout=subprocess.PIPE)
                words = child.stdout.read().split()
                _, status, usage = os.wait4(child.pid, 0)
                assert status == 0
            replies, size, seconds, rest = map(int, words)
            rows.append((int(seconds) + int(rest) / 1e9, replies, size, usage.ru_maxrss))
        time, replies, size, peak = min(rows)
        wanted = wanted or (replies, size)
        assert (replies, size) == wanted
        print("%-8s %-9s %10d %8d %8d" % (name, whose, replies / time, size / time / 1e6, peak))
PYTHON
python3 "$scratch/make.py" "$scratch"
cc -O2 -o "$scratch/parser" "$scratch/parser.c" -lhttp_parser 2>/dev/null || true
(cd "$scratch/crates/timing" && rt run <"$scratch/small" >/dev/null)
python3 "$scratch/table.py" "$scratch" "$scratch/crates/timing/out/timing"
