#!/bin/sh
# Measures judge (README.md, beside this script).
set -eu

. "$(dirname "$0")/../program.sh"

begin judge_bench 'anyhow byteorder class_lists sj_baselink_spec folder_judging folder_sizes folder_judging_spec indexmap js_tree proxy_targets sj_reach_spec sj_ask sj_baselink sj_core sj_desugar_spec sj_emit_expr_spec sj_emit_expr sj_read_spec sj_gen sj_infos sj_local sj_mangling sj_names sj_reach sj_read sj_recorder sj_trees sj_typing sj_units sj_typing_verdicts sj_workers sj_workshop sj_world sj_write sj_write_spec thiserror tree_parts tree_sameness worklist'

cat > "$main" <<'PROGRAM'
//! The time of judge over generated folders, in which each class has a static method that calls that of the class before it.
#![tactic(auto)]

ghost use Rattle.std.specs.Prelude.{◌≡◌};
ghost use Rattle.std.specs.Bool.{OnTrue};
ghost use Rattle.std.specs.List.{list_all};
ghost use Rattle.sj_names.specs.EntryPoints.{AreEntries, is_entry};

use anyhow::Result;
use folder_judging::{JudgeError, judge};
use sj_gen::folder;
use sj_names::{ClassName, Entries, EntryPoint, Meter, SimpleName, Text};
use sj_workshop::Workshop;
use std::alloc::Global;
use std::time::Instant;

fn entries(alloc: Global) -> Result<Vec<EntryPoint>> {
    let entry = EntryPoint {
        module: Text::from_str(alloc, "main")?,
        class: ClassName::parse(alloc, "java.lang.Object")?,
        method: SimpleName::parse(alloc, "main")?,
    };
    Ok(vec![in alloc; entry]?)
}

fn told(alloc: Global, error: &JudgeError) -> Result<String> {
    match error {
        JudgeError::Refused { code, place } => {
            let place = place.as_str();
            Ok(format!(in alloc; "refused: {code} {place}")?)
        }
        JudgeError::NoMemory => Ok(String::from_str(alloc, "no memory")?),
    }
}

fn measure_folder(rt: &HostRuntime, count: u32) -> Result<()> {
    let alloc = rt.alloc();
    let list = entries(alloc)?;
    if !are_entries(&list) || count < 1 || count > 20_000 {
        return Ok(());
    }
    let entries = Entries::new(list);
    let folder = folder(alloc, count, false)?;
    let mut work = Workshop {
        meter: Meter::new(),
    };
    let start = Instant::now(rt)?;
    let judged = judge(alloc, folder.files.as_slice(), &entries, &mut work);
    let took = start.elapsed(rt)?.as_millis();
    let read = work.meter.read;
    let checked = work.meter.checked;
    match &judged {
        Ok(_) => println!(rt; "{count}: {took} ms, read {read}, checked {checked}")?,
        Err(error) => println!(rt; "{count}: {took} ms, {}", told(alloc, error)?)?,
    }
    Ok(())
}

fn main(rt: HostRuntime) -> Result<()> {
    measure_folder(&rt, 200)?;
    measure_folder(&rt, 2_000)?;
    measure_folder(&rt, 20_000)
}
PROGRAM
judge_entries

measure
peak
