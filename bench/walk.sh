#!/bin/sh
# How long a walk over a graph of so many pairs of kind and digest takes, from its begin to the end,
# without the reading of manifests. The time must grow as the number of pairs, times its logarithm
# at most: the column of nanoseconds for each pair stays level. The last row is a graph of too many
# pairs, which is refused. Usage: sh bench/walk.sh
set -eu
. "$(dirname "$0")/scratch.sh"
with_crates "anyhow hr_base hr_digest hr_graph hr_manifest" hr_base hr_digest hr_json hr_manifest hr_graph
cat >"$scratch/crates/timing/src/main.rt" <<'RATTLE'
//! Times walks over indexes of images.
#![tactic(auto)]

ghost use Rattle.std.specs.Prelude.{◌≡◌, IfOk};
ghost use Rattle.hr_digest.specs.Digest.{digest_of};

use anyhow::{Result, bail};
use hr_base::{Bytes, Memory};
use hr_digest::Digest;
use hr_graph::{Given, Need, Walk, WalkRefused};
use hr_manifest::{Manifest, write_image};
use std::alloc::Global;
use std::rt::Clock;
use std::time::Instant;

const IMAGE: &[u8] = b"application/vnd.oci.image.manifest.v1+json";

const INDEX: &[u8] = b"application/vnd.oci.image.index.v1+json";

fn room<T>(made: std::result::Result<T, Memory>) -> Result<T> {
    match made {
        Ok(value) => Ok(value),
        Err(_) => bail!("there is no memory"),
    }
}

fn read(alloc: Global, media: &[u8], bytes: &[u8]) -> Result<Manifest> {
    let Ok(manifest) = Manifest::read(alloc, media, bytes) else {
        bail!("a manifest is refused");
    };
    Ok(manifest)
}

/// The text of an image with so many layers, from this number on.
fn image(alloc: Global, from: u64, layers: u64) -> Result<Bytes> {
    let mut list = Vec::new(alloc);
    for layer in 0..layers {
        list.push(room(Bytes::of(alloc, &from.wrapping_add(layer).to_le_bytes()))?)?;
    }
    room(write_image(alloc, b"{}", list.as_slice()))
}

/// The next image, which must have this digest.
fn next(images: &mut Vec<Manifest>, digest: Digest) -> Result<Manifest>
    ensures { IfOk result (λ image. digest_of image.bytes ≡ digest) }
{
    let Some(image) = images.pop() else {
        bail!("no image is left");
    };
    if Digest::of(image.bytes()) == digest {
        return Ok(image);
    }
    bail!("an image has another digest")
}

/// Walks, and answers each need; no blob is there before. Answers how many answers there were, or
/// `None` where a pair too many was met.
fn walk(alloc: Global, root: Manifest, mut images: Vec<Manifest>) -> Result<Option<u64>> {
    let digest = Digest::of(root.bytes());
    let Ok(mut walk) = Walk::begin(alloc, digest, root) else {
        bail!("a walk is refused");
    };
    let mut answers = 0u64;
    for _ in 0..1_000_000u32 {
        let answer = match walk.need() {
            Need::Manifest(digest) => walk.give(Given::Manifest(next(&mut images, digest)?)),
            Need::HasBlob(_) => walk.give(Given::Found { len: None }),
            Need::CopyBlob(_) => {
                let Some(len) = walk.size() else {
                    bail!("a blob has no size");
                };
                walk.give(Given::Copied { len })
            }
            Need::PutManifest(_) => walk.give(Given::Put),
            Need::Done => return Ok(Some(answers)),
        };
        match answer {
            Ok(()) => answers = answers.wrapping_add(1),
            Err(WalkRefused::TooMany { .. }) => return Ok(None),
            Err(_) => bail!("an answer is refused"),
        }
    }
    bail!("a walk has no end")
}

/// The text of an index of these images.
fn index(alloc: Global, images: &Vec<Manifest>) -> Result<Vec<u8>> {
    let mut text = b"{\"schemaVersion\":2,\"manifests\":[".to_vec(alloc)?;
    for image in images {
        if text.last() == Some(&b'}') {
            text.push(b',')?;
        }
        let digest = room(Digest::of(image.bytes()).text(alloc))?;
        text.extend_from_slice(b"{\"mediaType\":\"application/json\",\"digest\":\"")?;
        text.extend_from_slice(digest.view())?;
        let size = image.bytes().len();
        text.extend_from_slice(format!(in alloc; "\",\"size\":{size}")?.as_bytes())?;
        text.push(b'}')?;
    }
    text.extend_from_slice(b"]}")?;
    Ok(text)
}

/// An index of so many images of so many layers, all of them different.
fn time(rt: &(impl Print + Clock + AllocGlobal), count: u64, layers: u64) -> Result<()> {
    let alloc = rt.alloc();
    let mut images = Vec::new(alloc);
    for number in 0..count {
        let text = image(alloc, number.wrapping_mul(4096), layers)?;
        images.push(read(alloc, IMAGE, text.view())?)?;
    }
    let text = index(alloc, &images)?;
    let root = read(alloc, INDEX, text.as_slice())?;
    images.reverse();
    let start = Instant::now(rt)?;
    let answers = walk(alloc, root, images)?;
    let spent = start.elapsed(rt)?;
    let pairs = count.wrapping_mul(layers.wrapping_add(1)).wrapping_add(2);
    let (seconds, rest) = (spent.as_secs(), spent.subsec_nanos());
    match answers {
        Some(answers) => println!(rt; "{pairs} {answers} {seconds} {rest}")?,
        None => println!(rt; "{pairs} refused {seconds} {rest}")?,
    }
    Ok(())
}

fn main(rt: HostRuntime) -> Result<()> {
    for _ in 0..3u32 {
        time(&rt, 1, 997)?;
        time(&rt, 2, 3998)?;
        time(&rt, 31, 2113)?;
    }
    time(&rt, 31, 2114)
}
RATTLE
cd "$scratch/crates/timing"
rt run >"$scratch/times"
awk '
    BEGIN { print " pairs answers        ns  ns/pair" }
    NF == 4 && $1 + 0 > 0 {
        ns = $3 * 1000000000 + $4
        printf "%6d %7s %9d %8d\n", $1, $2, ns, ns / $1
    }' "$scratch/times"
