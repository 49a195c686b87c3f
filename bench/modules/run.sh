#!/bin/sh
# Measures read_module and print_module (README.md, beside this script).
set -eu

. "$(dirname "$0")/../program.sh"

begin modules_bench 'anyhow js_tree js_read js_print'

cat > "$main" <<'PROGRAM'
//! The speed of read_module and of print_module, beside a copy of the same bytes.
#![tactic(auto)]

use anyhow::Result;
use js_print::print_module;
use js_read::read_module;
use js_tree::each_has_one_text;
use std::alloc::Global;
use std::time::Instant;

const ROUNDS: u64 = 3;

fn text_of(alloc: Global, functions: u32) -> Result<String> {
    let mut text = String::new(alloc);
    for number in 0..functions {
        let function = format!(in alloc; "function s_library_Class{number}__run$$V(v_x, v_y) {{\n  const v_sum = ((v_x + v_y) | 0);\n  if ((v_sum < {number})) {{\n    console.log(\"less than {number}\");\n    return v_sum;\n  }} else {{\n    return ((v_sum - 1) | 0);\n  }}\n}}\n")?;
        text.push_str(function.as_str())?;
    }
    Ok(text)
}

#[inline(never)]
fn copy(from: &[u8], to: &mut [u8]) -> bool {
    if from.len() != to.len() {
        return false;
    }
    to.copy_from_slice(from);
    true
}

fn report(rt: &HostRuntime, name: &str, bytes: usize, nanos: u128) -> Result<()> {
    let rate = if nanos == 0 { 0 } else { (bytes as u128).wrapping_mul(1000) / nanos };
    println!(rt; "  {name:14} {rate} MB/s")?;
    Ok(())
}

fn measure(rt: &HostRuntime, functions: u32) -> Result<()> {
    each_has_one_text();
    let text = text_of(rt.alloc(), functions)?;
    let bytes = text.as_bytes();
    let mut other = bytes.to_vec(rt.alloc())?;
    let mut reading = u128::MAX;
    let mut printing = u128::MAX;
    let mut copying = u128::MAX;
    let mut same = true;
    for _ in 0..ROUNDS {
        let start = Instant::now(rt)?;
        let module = read_module(rt.alloc(), bytes)?;
        reading = reading.min(start.elapsed(rt)?.as_nanos());
        let start = Instant::now(rt)?;
        let printed = print_module(rt.alloc(), &module)?;
        printing = printing.min(start.elapsed(rt)?.as_nanos());
        same = same && printed.as_slice() == bytes;
        let start = Instant::now(rt)?;
        same = same && copy(bytes, other.as_mut_slice());
        copying = copying.min(start.elapsed(rt)?.as_nanos());
    }
    println!(rt; "{functions} functions, {} bytes, printed as they were: {same}", bytes.len())?;
    report(rt, "read_module", bytes.len(), reading)?;
    report(rt, "print_module", bytes.len(), printing)?;
    report(rt, "memory copy", bytes.len(), copying)
}

fn main(rt: HostRuntime) -> Result<()> {
    measure(&rt, 5_000)?;
    measure(&rt, 50_000)
}
PROGRAM

measure
