#!/bin/sh
# Measures plan in both styles (README.md, beside this script).
set -eu

. "$(dirname "$0")/../program.sh"

begin plan_bench 'anyhow sj_graph sj_names sj_split'

cat > "$main" <<'PROGRAM'
//! The time of plans of three graphs, in both styles.
#![tactic(auto)]

ghost use Rattle.std.specs.Prelude.{◌≡◌};
ghost use Rattle.std.specs.Bool.{OnTrue};
ghost use Rattle.std.specs.List.{list_all};
ghost use Rattle.sj_names.specs.EntryPoints.{AreEntries, is_entry};

use anyhow::Result;
use sj_graph::{Graph, Reference};
use sj_names::{ClassName, Entries, EntryPoint, Items, SimpleName, Text};
use sj_split::{Style, plan};
use std::alloc::Global;
use std::time::Instant;

// How many classes and public ids there are.
const SIZES: [(u32, u32); 2] = [(2000, 100), (20000, 1000)];

fn name(alloc: Global, number: u32) -> Result<ClassName> {
    let text = format!(in alloc; "library.part{}.Class{number}", number % 97)?;
    Ok(ClassName::parse(alloc, text.as_str())?)
}

// Each class refers to the `each` classes behind it; behind the last comes the first in a ring.
fn graph(alloc: Global, classes: u32, each: u32, ring: bool) -> Result<Graph> {
    let mut owners = Vec::new(alloc);
    let mut references = Vec::new(alloc);
    for number in 0..classes {
        owners.push(name(alloc, number)?)?;
        for step in 0..each {
            add_reference(alloc, classes, number, step, ring, &mut references)?;
        }
    }
    Ok(Graph {
        owners: Items::from_vec(owners),
        references: Items::from_vec(references),
    })
}

fn add_reference(
    alloc: Global,
    classes: u32,
    number: u32,
    step: u32,
    ring: bool,
    references: &mut Vec<Reference>,
) -> Result<()> {
    let behind = number.saturating_add(step).saturating_add(1);
    if classes > 0 && (behind < classes || ring) {
        let from = name(alloc, number)?;
        let to = name(alloc, behind % classes)?;
        references.push(Reference { from, to })?;
    }
    Ok(())
}

fn entries(alloc: Global, ids: u32) -> Result<Vec<EntryPoint>> {
    let mut list = Vec::new(alloc);
    for number in 0..ids {
        list.push(entry(alloc, number)?)?;
    }
    Ok(list)
}

fn entry(alloc: Global, number: u32) -> Result<EntryPoint> {
    let id = format!(in alloc; "m{number}")?;
    Ok(EntryPoint {
        module: Text::from_string(id)?,
        class: name(alloc, number)?,
        method: SimpleName::parse(alloc, "main")?,
    })
}

// The milliseconds of a plan, and how many modules it has.
fn measured(rt: &HostRuntime, ids: u32, graph: &Graph, style: Style) -> Result<(u128, usize)> {
    let alloc = rt.alloc();
    let list = entries(alloc, ids)?;
    if !are_entries(&list) {
        return Ok((0, 0));
    }
    let entries = Entries::new(list);
    let start = Instant::now(rt)?;
    let plan = plan(alloc, graph, &entries, style)?;
    Ok((start.elapsed(rt)?.as_millis(), plan.len()))
}

// The times of the plans of three graphs with so many classes and public ids.
fn measure(rt: &HostRuntime, classes: u32, ids: u32) -> Result<()> {
    let alloc = rt.alloc();
    println!(rt; "{classes} classes, {ids} public ids")?;
    for (what, each, ring) in [("chain", 1, false), ("ring", 1, true), ("fifty others", 50, true)] {
        let graph = graph(alloc, classes, each, ring)?;
        let (fewest, files) = measured(rt, ids, &graph, Style::Fewest)?;
        println!(rt; "{what}, fewest: {fewest} ms, {files} files")?;
        let (smallest, files) = measured(rt, ids, &graph, Style::Smallest)?;
        println!(rt; "{what}, smallest: {smallest} ms, {files} files")?;
    }
    Ok(())
}

fn main(rt: HostRuntime) -> Result<()> {
    for (classes, ids) in SIZES {
        measure(&rt, classes, ids)?;
    }
    Ok(())
}
PROGRAM
judge_entries

measure
peak
