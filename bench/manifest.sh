#!/bin/sh
# How fast manifests are read: an image of 539 bytes, one of 4,000 layers, an index of 2 MB, and
# each of the last two cut in four, beside Python's json on the same bytes in the same run. The
# time must grow as the length: MB/s stay level from a quarter to the whole. The least of five runs
# counts. Usage: sh bench/manifest.sh
set -eu
. "$(dirname "$0")/scratch.sh"
with_crates "anyhow hr_base hr_manifest" hr_base hr_digest hr_json hr_manifest
cat >"$scratch/crates/timing/src/main.rt" <<'RATTLE'
//! Times readings of the manifests that the input has, one a line behind its media type.
#![tactic(auto)]

use anyhow::{Result, bail};
use hr_manifest::Manifest;
use std::alloc::Global;
use std::rt::Clock;
use std::time::Instant;

/// Reads the bytes so many times, and gives the number of children that were met.
fn read(alloc: Global, media: &[u8], bytes: &[u8], times: u64) -> Option<usize> {
    let mut children = 0;
    for _ in 0..times {
        match Manifest::read(alloc, media, bytes) {
            Ok(manifest) => children = manifest.children().len(),
            Err(_) => return None,
        }
    }
    Some(children)
}

/// Prints the bytes, the children, the readings and the nanoseconds that they took.
fn time(rt: &(impl Print + Clock + AllocGlobal), media: &str, text: &str) -> Result<()> {
    let bytes = text.len();
    let times = (16_777_216 / bytes.max(1)).max(1) as u64;
    let start = Instant::now(rt)?;
    let found = read(rt.alloc(), media.as_bytes(), text.as_bytes(), times);
    let spent = start.elapsed(rt)?;
    let (seconds, rest) = (spent.as_secs(), spent.subsec_nanos());
    let Some(children) = found else {
        bail!("a manifest is refused");
    };
    println!(rt; "{bytes} {children} {times} {seconds} {rest}")?;
    Ok(())
}

fn main(rt: HostRuntime) -> Result<()> {
    for line in rt.lines(rt.alloc()) {
        let line = line?;
        if let Some((media, text)) = line.as_str().split_once(' ') {
            time(&rt, media, text)?;
        }
    }
    Ok(())
}
RATTLE
cat >"$scratch/make.py" <<'PYTHON'
"""Writes the manifests, five times each: a line is a media type and a manifest."""
import hashlib, json, sys

IMAGE = "application/vnd.oci.image.manifest.v1+json"
INDEX = "application/vnd.oci.image.index.v1+json"

def descriptor(media, at, notes=None):
    digest = "sha256:" + hashlib.sha256(str(at).encode()).hexdigest()
    made = {"mediaType": media, "digest": digest, "size": at}
    return {**made, "annotations": {"org.example.note": notes}} if notes else made

def image(layers):
    layer = "application/vnd.oci.image.layer.v1.tar"
    return IMAGE, {
        "schemaVersion": 2, "mediaType": IMAGE,
        "config": descriptor("application/vnd.oci.image.config.v1+json", 2),
        "layers": [descriptor(layer, 2 if layers == 2 else at) for at in range(layers)],
    }

def index(manifests):
    return INDEX, {
        "schemaVersion": 2, "mediaType": INDEX,
        "manifests": [descriptor(IMAGE, at, "n" * 300) for at in range(manifests)],
    }

for media, value in [image(2), image(1000), image(4000), index(1024), index(4096)]:
    for _ in range(5):
        print(media, json.dumps(value, separators=(",", ":")))
PYTHON
cat >"$scratch/table.py" <<'PYTHON'
"""Prints the least of five runs of each manifest, and what Python's json takes for it."""
import json, sys, time

rows = [[int(word) for word in line.split()] for line in open(sys.argv[2])]
texts = [line.split(" ", 1)[1].rstrip("\n") for line in open(sys.argv[1])]
print("%9s %9s %12s %8s %14s" % ("bytes", "children", "documents/s", "MB/s", "Python's MB/s"))
for first in range(0, len(rows), 5):
    size, children, times = rows[first][:3]
    best = min((row[3] * 10**9 + row[4]) / row[2] for row in rows[first:first + 5])
    text = texts[first].encode()
    assert len(text) == size
    python = []
    for _ in range(5):
        start = time.perf_counter_ns()
        for _ in range(times):
            json.loads(text)
        python.append((time.perf_counter_ns() - start) / times)
    print("%9d %9d %12d %8d %14d"
          % (size, children, 10**9 / best, size * 1000 / best, size * 1000 / min(python)))
PYTHON
python3 "$scratch/make.py" >"$scratch/manifests"
(cd "$scratch/crates/timing" && rt run <"$scratch/manifests" >"$scratch/times")
python3 "$scratch/table.py" "$scratch/manifests" "$scratch/times"
