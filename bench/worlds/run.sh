#!/bin/sh
# Measures World::new and its answers (README.md, beside this script).
set -eu

. "$(dirname "$0")/../program.sh"

begin worlds_bench 'anyhow sj_names sj_trees sj_world'

cat > "$main" <<'PROGRAM'
//! The time of World::new, and of subtype tests and resolutions in the world.
#![tactic(auto)]

use anyhow::Result;
use sj_names::{ClassName, MethodName, Shared};
use sj_trees::{ClassDef, ClassKind, IrType, Position};
use sj_world::{Resolution, World};
use std::alloc::Global;
use std::time::Instant;

const CLASSES: u32 = 20_000;

// The last class that stands three below java.lang.Object.
const DEEPEST: u32 = 19_998;

fn name(alloc: Global, number: u32) -> Result<ClassName> {
    if number == 0 {
        return Ok(ClassName::parse(alloc, "java.lang.Object")?);
    }
    let text = format!(in alloc; "library.part{}.Class{number}", number % 97)?;
    Ok(ClassName::parse(alloc, text.as_str())?)
}

// Every third class stands below java.lang.Object, and each of the others below the one before it.
fn class(alloc: Global, number: u32) -> Result<ClassDef> {
    let above = if number % 3 == 1 { 0 } else { number.saturating_sub(1) };
    let superclass = if number == 0 { None } else { Some(name(alloc, above)?) };
    Ok(ClassDef {
        pos: Position { file: 0, line: 0, column: 0 },
        files: Shared::from_vec(Vec::new(alloc))?,
        name: name(alloc, number)?,
        kind: ClassKind::Class,
        superclass,
        interfaces: Shared::from_vec(Vec::new(alloc))?,
        fields: Shared::from_vec(Vec::new(alloc))?,
        methods: Shared::from_vec(Vec::new(alloc))?,
    })
}

fn classes(alloc: Global) -> Result<Vec<ClassDef>> {
    let mut classes = Vec::new(alloc);
    for number in 0..CLASSES {
        classes.push(class(alloc, number)?)?;
    }
    Ok(classes)
}

fn report(rt: &HostRuntime, what: &str, start: &Instant, yes: u32) -> Result<()> {
    let time = start.elapsed(rt)?.as_millis();
    println!(rt; "{what}: {time} ms ({yes} yes)")?;
    Ok(())
}

fn ask_subtypes(alloc: Global, world: &World) -> Result<u32> {
    let sub = IrType::Class(name(alloc, DEEPEST)?);
    let above = IrType::Class(name(alloc, DEEPEST - 2)?);
    let mut yes = 0u32;
    for _ in 0..1_000_000 {
        if world.is_sub(&sub, &above) {
            yes = yes.wrapping_add(1);
        }
    }
    Ok(yes)
}

fn ask_resolutions(alloc: Global, world: &World) -> Result<u32> {
    let below = name(alloc, DEEPEST)?;
    let method = MethodName::parse(alloc, "run;V")?;
    let mut yes = 0u32;
    for _ in 0..1_000_000 {
        if let Resolution::Target(_, _) = world.resolve(&below, &method) {
            yes = yes.wrapping_add(1);
        }
    }
    Ok(yes)
}

fn ask(rt: &HostRuntime, world: &World) -> Result<()> {
    let start = Instant::now(rt)?;
    let yes = ask_subtypes(rt.alloc(), world)?;
    report(rt, "is_sub, a million times", &start, yes)?;
    let start = Instant::now(rt)?;
    let yes = ask_resolutions(rt.alloc(), world)?;
    report(rt, "resolve, a million times", &start, yes)
}

fn main(rt: HostRuntime) -> Result<()> {
    let classes = classes(rt.alloc())?;
    let start = Instant::now(&rt)?;
    let world = World::new(rt.alloc(), classes)?;
    report(&rt, "World::new, 20000 classes", &start, CLASSES)?;
    ask(&rt, &world)
}
PROGRAM

measure
peak
