#!/bin/sh
# Measures read_class (README.md, beside this script).
set -eu

. "$(dirname "$0")/../program.sh"

begin read_bench 'sj_names sj_read_spec sj_read sj_trees'

cat > "$main" <<'PROGRAM'
//! The speed of read_class, beside a copy of the same bytes.
#![tactic(auto)]

use sj_names::Meter;
use sj_read::read_class;
use std::alloc::{AllocError, Global};
use std::io;
use std::time::Instant;

const ROUNDS: u64 = 5;

// A class file up to the count of the trees in the block that is the body of its only method.
const FRONT: &[u8; 139] = b"\xca\xfeJS\x00\x061.0-i1\x00\x00\x00\x01\x00\x00\x00\x01a\x00\x00\x00\x02\x00\x00\x00\x10java.lang.Object\x00\x00\x00\x04main\x00\x00\x00\x01\x00\x00\x00\x01\x00\x00\x00\x00\x01\x00\x00\x00\x01\x00\x00\x00\x02hi\x00\x00\x00\x00\x00\x00\x00\x00\x00\x00\x00\x00\x00\x00\x00\x00\x01\x00\x00\x00\x00\x00\x00\x00\x00\x01\x02\x00\x00\x00\x00\x00\x00\x00\x00\x00\x00\x00\x00\x01\x00\x00\x00\x00\x00\x00\x00\x00\x0e\x01\x03\x00\x00\x00\x00\x00\x00\x00\x00\x00\x00\x00\x00";
// A tree: Log of the text `hi`.
const LOG: &[u8; 30] = b")\x00\x00\x00\x00\x00\x00\x00\x00\x00\x00\x00\x00&\x00\x00\x00\x00\x00\x00\x00\x00\x00\x00\x00\x00\x00\x00\x00\x00";

fn class_file(alloc: Global, trees: u32) -> Result<Vec<u8>, AllocError> {
    let mut bytes = Vec::new(alloc);
    bytes.extend_from_slice(FRONT.as_slice())?;
    bytes.extend_from_slice(trees.to_be_bytes().as_slice())?;
    for _ in 0..trees {
        bytes.extend_from_slice(LOG.as_slice())?;
    }
    bytes.push(0)?;
    Ok(bytes)
}

#[inline(never)]
fn copy(from: &[u8], to: &mut [u8]) -> bool {
    if from.len() != to.len() {
        return false;
    }
    to.copy_from_slice(from);
    true
}

fn report(rt: &HostRuntime, name: &str, bytes: u128, nanos: u128) -> io::Result<()> {
    let rate = if nanos == 0 { 0 } else { bytes.wrapping_mul(1000) / nanos };
    println!(rt; "{name:22} {rate} MB/s")
}

fn measure(rt: &HostRuntime, name: &str, trees: u32, files: u32) -> io::Result<()> {
    let bytes = class_file(rt.alloc(), trees)?;
    let mut other = bytes.clone()?;
    let all = (bytes.len() as u128).wrapping_mul(u128::from(files));
    let mut best = u128::MAX;
    let mut best_copy = u128::MAX;
    let mut read = 0u32;
    for _ in 0..ROUNDS {
        let mut meter = Meter::new();
        let start = Instant::now(rt)?;
        for _ in 0..files {
            if read_class(rt.alloc(), bytes.as_slice(), &mut meter).is_ok() {
                read = read.wrapping_add(1);
            }
        }
        best = best.min(start.elapsed(rt)?.as_nanos());
        let start = Instant::now(rt)?;
        for _ in 0..files {
            if !copy(bytes.as_slice(), other.as_mut_slice()) {
                read = 0;
            }
        }
        best_copy = best_copy.min(start.elapsed(rt)?.as_nanos());
    }
    println!(rt; "{name}: {files} files of {} bytes, {read} times read", bytes.len())?;
    report(rt, "  read_class", all, best)?;
    report(rt, "  memory copy", all, best_copy)
}

fn main(rt: HostRuntime) -> io::Result<()> {
    measure(&rt, "one large file", 280_000, 1)?;
    measure(&rt, "many small files", 29, 8192)
}
PROGRAM

measure
peak
