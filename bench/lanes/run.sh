#!/bin/sh
# Measures the kernels of sj_lanes (README.md, beside this script).
set -eu

. "$(dirname "$0")/../program.sh"

begin lanes_bench 'sj_lanes'

cat > "$main" <<'PROGRAM'
//! The speed of each kernel of sj_lanes, beside a plain loop and beside a copy of the same bytes.
#![tactic(auto)]

use sj_lanes::{count_newlines, first_special_unit, same_bytes};
use std::io;
use std::time::Instant;

const ROUNDS: u64 = 7;

#[inline(never)]
fn plain_same(a: &[u8], b: &[u8]) -> bool {
    if a.len() != b.len() {
        return false;
    }
    for i in 0..a.len() {
        if a[i] != b[i] {
            return false;
        }
    }
    true
}

#[inline(never)]
fn plain_first(units: &[u16]) -> Option<usize> {
    for (i, &unit) in units.iter().enumerate() {
        if unit < 0x20 || unit > 0x7e || unit == 0x22 || unit == 0x5c {
            return Some(i);
        }
    }
    None
}

#[inline(never)]
fn plain_count(bytes: &[u8]) -> usize {
    let mut total = 0usize;
    for &byte in bytes {
        if byte == b'\n' {
            total = total.wrapping_add(1);
        }
    }
    total
}

#[inline(never)]
fn copy(from: &[u8], to: &mut [u8]) -> bool {
    if from.len() != to.len() {
        return false;
    }
    to.copy_from_slice(from);
    true
}

// A call changes one byte first, so that no call can be left out.
fn mark(bytes: &mut [u8], value: u8) {
    if let Some(byte) = bytes.get_mut(5) {
        *byte = value;
    }
}

fn mark_unit(units: &mut [u16], value: u8) {
    if let Some(unit) = units.get_mut(5) {
        *unit = u16::from(value);
    }
}

// Of the best round: hundredths of 10^9 bytes a second, and the sum of its answers.
fn rate<F: FnMut(u8) -> usize + Drop>(
    rt: &HostRuntime,
    bytes: usize,
    calls: u64,
    mut call: F,
) -> io::Result<(u128, usize)>
    requires { F.IsAlwaysCallable call }
{
    let mut best = u128::MAX;
    let mut answers = 0usize;
    for _ in 0..ROUNDS {
        let start = Instant::now(rt)?;
        answers = 0;
        for k in 0..calls {
            answers = answers.wrapping_add(call(b'0' + (k % 10) as u8));
        }
        let nanos = start.elapsed(rt)?.as_nanos();
        best = best.min(nanos);
    }
    let moved = (bytes as u128).wrapping_mul(u128::from(calls)).wrapping_mul(100);
    let hundredths = if best == 0 { 0 } else { moved / best };
    Ok((hundredths, answers))
}

fn report(
    rt: &HostRuntime,
    name: &str,
    kernel: (u128, usize),
    plain: (u128, usize),
    copy: u128,
) -> io::Result<()> {
    let (fast, slow) = (kernel.0, plain.0);
    let times = if slow == 0 { 0 } else { fast.wrapping_mul(10) / slow };
    let share = if copy == 0 { 0 } else { fast.wrapping_mul(100) / copy };
    println!(
        rt;
        "  {name:18} {}.{:02} GB/s   plain loop {}.{:02} GB/s   {}.{} times the plain loop, {share} % of the copy",
        fast / 100, fast % 100, slow / 100, slow % 100, times / 10, times % 10
    )?;
    if kernel.1 != plain.1 {
        println!(rt; "  {name}: the answers differ from the plain loop's")?;
    }
    Ok(())
}

fn copied(rt: &HostRuntime, a: &mut [u8], b: &mut [u8], calls: u64) -> io::Result<u128> {
    let bytes = a.len();
    let (hundredths, _) = rate(rt, bytes, calls, |x| {
        mark(a, x);
        usize::from(copy(a, b))
    })?;
    println!(rt; "  {:18} {}.{:02} GB/s", "memory copy", hundredths / 100, hundredths % 100)?;
    Ok(hundredths)
}

fn compared(rt: &HostRuntime, a: &mut [u8], b: &mut [u8], calls: u64, copy: u128) -> io::Result<()> {
    let bytes = a.len();
    let kernel = rate(rt, bytes, calls, |x| {
        mark(a, x);
        mark(b, x);
        usize::from(same_bytes(a, b))
    })?;
    let plain = rate(rt, bytes, calls, |x| {
        mark(a, x);
        mark(b, x);
        usize::from(plain_same(a, b))
    })?;
    report(rt, "same_bytes", kernel, plain, copy)
}

fn searched(rt: &HostRuntime, units: &mut [u16], calls: u64, copy: u128) -> io::Result<()> {
    let bytes = units.len().wrapping_mul(2);
    let kernel = rate(rt, bytes, calls, |x| {
        mark_unit(units, x);
        first_special_unit(units).unwrap_or(1)
    })?;
    let plain = rate(rt, bytes, calls, |x| {
        mark_unit(units, x);
        plain_first(units).unwrap_or(1)
    })?;
    report(rt, "first_special_unit", kernel, plain, copy)
}

fn counted(rt: &HostRuntime, bytes: &mut [u8], calls: u64, copy: u128) -> io::Result<()> {
    let len = bytes.len();
    let kernel = rate(rt, len, calls, |x| {
        mark(bytes, x);
        count_newlines(bytes)
    })?;
    let plain = rate(rt, len, calls, |x| {
        mark(bytes, x);
        plain_count(bytes)
    })?;
    report(rt, "count_newlines", kernel, plain, copy)
}

fn measure(rt: &HostRuntime, size: usize, calls: u64) -> io::Result<()> {
    let mut a = vec![in rt.alloc(); b'a'; size]?;
    for byte in a.iter_mut().step_by(80) {
        *byte = b'\n';
    }
    let mut b = a.clone()?;
    let mut units = vec![in rt.alloc(); b'a' as u16; size / 2]?;
    println!(rt; "{} KB", size / 1024)?;
    let copy = copied(rt, a.as_mut_slice(), b.as_mut_slice(), calls)?;
    compared(rt, a.as_mut_slice(), b.as_mut_slice(), calls, copy)?;
    searched(rt, units.as_mut_slice(), calls, copy)?;
    counted(rt, a.as_mut_slice(), calls, copy)
}

fn main(rt: HostRuntime) -> io::Result<()> {
    measure(&rt, 64 * 1024, 4000)?;
    measure(&rt, 64 * 1024 * 1024, 4)
}
PROGRAM

measure
