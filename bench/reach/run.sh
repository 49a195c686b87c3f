#!/bin/sh
# Measures reach (README.md, beside this script).
set -eu

. "$(dirname "$0")/../program.sh"

begin reach_bench 'anyhow class_lists indexmap sj_reach_spec sj_infos sj_names sj_reach sj_trees sj_world'

cat > "$main" <<'PROGRAM'
//! The time of reach over two folders: a chain of calls, and classes below one interface on which methods are called.
#![tactic(auto)]

ghost use Rattle.std.specs.Prelude.{◌≡◌};
ghost use Rattle.std.specs.Bool.{OnTrue};
ghost use Rattle.std.specs.List.{list_all};
ghost use Rattle.sj_names.specs.EntryPoints.{AreEntries, is_entry};

use anyhow::Result;
use sj_names::{
    ClassName, Entries, EntryPoint, LocalName, MethodName, Namespace, Shared, SimpleName, Text,
};
use sj_reach::{ReachError, reach};
use sj_trees::{Body, ClassDef, ClassKind, IrType, MethodDef, Position, Tree};
use sj_world::World;
use std::alloc::Global;
use std::time::Instant;

const CHAIN: u32 = 20_000;

const BELOW: u32 = 2_000;

const METHODS: u32 = 10;

const NOWHERE: Position = Position {
    file: 0,
    line: 0,
    column: 0,
};

const OBJECT: &str = "java.lang.Object";

fn name(alloc: Global, number: u32) -> Result<ClassName> {
    let text = format!(in alloc; "library.part{}.Class{number}", number % 97)?;
    Ok(ClassName::parse(alloc, text.as_str())?)
}

fn named(alloc: Global, text: &str) -> Result<ClassName> {
    Ok(ClassName::parse(alloc, text)?)
}

fn method(
    alloc: Global,
    namespace: Namespace,
    text: &str,
    body: Option<Tree>,
) -> Result<MethodDef> {
    let body = match body {
        Some(tree) => Some(Body::new(alloc, tree)?),
        None => None,
    };
    Ok(MethodDef {
        pos: NOWHERE,
        namespace,
        name: MethodName::parse(alloc, text)?,
        params: Shared::from_vec(Vec::new(alloc))?,
        result: IrType::NoType,
        body,
        hash: None,
    })
}

fn class(
    alloc: Global,
    name: ClassName,
    kind: ClassKind,
    superclass: Option<ClassName>,
    interfaces: Vec<ClassName>,
    methods: Vec<MethodDef>,
) -> Result<ClassDef> {
    Ok(ClassDef {
        pos: NOWHERE,
        files: Shared::from_vec(vec![in alloc; Text::from_str(alloc, "")?]?)?,
        name,
        kind,
        superclass,
        interfaces: Shared::from_vec(interfaces)?,
        fields: Shared::from_vec(Vec::new(alloc))?,
        methods: Shared::from_vec(methods)?,
    })
}

fn object(alloc: Global, body: Tree) -> Result<ClassDef> {
    let main = method(alloc, Namespace::PublicStatic, "main;V", Some(body))?;
    let name = named(alloc, OBJECT)?;
    class(
        alloc,
        name,
        ClassKind::Class,
        None,
        Vec::new(alloc),
        vec![in alloc; main]?,
    )
}

// A call of the static method of the class of this number.
fn call(alloc: Global, number: u32) -> Result<Tree> {
    Ok(Tree::ApplyStatic {
        position: NOWHERE,
        class: name(alloc, number)?,
        namespace: Namespace::PublicStatic,
        method: MethodName::parse(alloc, "go;V")?,
        arguments: Vec::new(alloc),
        tpe: IrType::NoType,
    })
}

// Each class has a method that calls the one of the next class.
fn chain(alloc: Global) -> Result<Vec<ClassDef>> {
    let mut classes = Vec::new(alloc);
    classes.push(object(alloc, call(alloc, 0)?)?)?;
    for number in 0..CHAIN {
        classes.push(link(alloc, number)?)?;
    }
    Ok(classes)
}

fn link(alloc: Global, number: u32) -> Result<ClassDef> {
    let next = number.saturating_add(1);
    let body = if next < CHAIN {
        call(alloc, next)?
    } else {
        Tree::Skip { position: NOWHERE }
    };
    let go = method(alloc, Namespace::PublicStatic, "go;V", Some(body))?;
    let above = Some(named(alloc, OBJECT)?);
    class(
        alloc,
        name(alloc, number)?,
        ClassKind::Class,
        above,
        Vec::new(alloc),
        vec![in alloc; go]?,
    )
}

fn called_name(alloc: Global, number: u32) -> Result<String> {
    Ok(format!(in alloc; "m{number};V")?)
}

// The methods that are called, with bodies or without.
fn called(alloc: Global, with_bodies: bool, methods: &mut Vec<MethodDef>) -> Result<()> {
    for number in 0..METHODS {
        let text = called_name(alloc, number)?;
        let body = if with_bodies {
            Some(Tree::Skip { position: NOWHERE })
        } else {
            None
        };
        methods.push(method(alloc, Namespace::Public, text.as_str(), body)?)?;
    }
    Ok(())
}

// A class below the interface, with a body for each of the methods.
fn implementation(alloc: Global, number: u32) -> Result<ClassDef> {
    let mut methods = Vec::new(alloc);
    let skip = Some(Tree::Skip { position: NOWHERE });
    methods.push(method(alloc, Namespace::Constructor, "<init>;V", skip)?)?;
    called(alloc, true, &mut methods)?;
    let above = Some(named(alloc, OBJECT)?);
    let interfaces = vec![in alloc; named(alloc, "library.Called")?]?;
    class(
        alloc,
        name(alloc, number)?,
        ClassKind::Class,
        above,
        interfaces,
        methods,
    )
}

fn interface(alloc: Global) -> Result<ClassDef> {
    let mut methods = Vec::new(alloc);
    called(alloc, false, &mut methods)?;
    class(
        alloc,
        named(alloc, "library.Called")?,
        ClassKind::Interface,
        None,
        Vec::new(alloc),
        methods,
    )
}

fn null_pointer(alloc: Global) -> Result<ClassDef> {
    let skip = Some(Tree::Skip { position: NOWHERE });
    let init = method(
        alloc,
        Namespace::Constructor,
        "<init>;Ljava.lang.String;V",
        skip,
    )?;
    let above = Some(named(alloc, OBJECT)?);
    class(
        alloc,
        named(alloc, "java.lang.NullPointerException")?,
        ClassKind::Class,
        above,
        Vec::new(alloc),
        vec![in alloc; init]?,
    )
}

// All classes are made, and then each method is called on the interface.
fn makes_and_calls(alloc: Global) -> Result<Tree> {
    let mut trees = Vec::new(alloc);
    for number in 0..BELOW {
        let init = MethodName::parse(alloc, "<init>;V")?;
        trees.push(Tree::New {
            position: NOWHERE,
            class: name(alloc, number)?,
            constructor: init,
            arguments: Vec::new(alloc),
        })?;
    }
    for number in 0..METHODS {
        trees.push(call_on_interface(alloc, number)?)?;
    }
    Ok(Tree::Block {
        position: NOWHERE,
        trees,
    })
}

fn call_on_interface(alloc: Global, number: u32) -> Result<Tree> {
    let interface = IrType::Class(named(alloc, "library.Called")?);
    let receiver = Tree::VarRef {
        position: NOWHERE,
        name: LocalName::parse(alloc, "x")?,
        tpe: interface,
    };
    let text = called_name(alloc, number)?;
    Ok(Tree::Apply {
        position: NOWHERE,
        receiver: Box::new(alloc, receiver)?,
        method: MethodName::parse(alloc, text.as_str())?,
        arguments: Vec::new(alloc),
        tpe: IrType::NoType,
    })
}

fn below(alloc: Global) -> Result<Vec<ClassDef>> {
    let mut classes = Vec::new(alloc);
    classes.push(object(alloc, makes_and_calls(alloc)?)?)?;
    classes.push(interface(alloc)?)?;
    classes.push(null_pointer(alloc)?)?;
    for number in 0..BELOW {
        classes.push(implementation(alloc, number)?)?;
    }
    Ok(classes)
}

fn entries(alloc: Global) -> Result<Vec<EntryPoint>> {
    let entry = EntryPoint {
        module: Text::from_str(alloc, "main")?,
        class: named(alloc, OBJECT)?,
        method: SimpleName::parse(alloc, "main")?,
    };
    Ok(vec![in alloc; entry]?)
}

fn told(alloc: Global, world: &World, entries: &Entries) -> Result<String> {
    match reach(alloc, world, entries) {
        Ok(reached) => Ok(format!(in alloc; "{} facts", reached.facts().len())?),
        Err(ReachError::Refused { code, place }) => {
            Ok(format!(in alloc; "refused: {code} {}", place.as_str())?)
        }
        Err(ReachError::NoMemory) => Ok(String::from_str(alloc, "no memory")?),
    }
}

fn measure_folder(rt: &HostRuntime, what: &str, classes: Vec<ClassDef>) -> Result<()> {
    let alloc = rt.alloc();
    let list = entries(alloc)?;
    if !are_entries(&list) {
        return Ok(());
    }
    let entries = Entries::new(list);
    let start = Instant::now(rt)?;
    let world = World::new(alloc, classes)?;
    let made = start.elapsed(rt)?.as_millis();
    let start = Instant::now(rt)?;
    let told = told(alloc, &world, &entries)?;
    let reached = start.elapsed(rt)?.as_millis();
    println!(rt; "{what}: World::new {made} ms, reach {reached} ms, {told}")?;
    Ok(())
}

fn main(rt: HostRuntime) -> Result<()> {
    let alloc = rt.alloc();
    measure_folder(&rt, "chain of calls", chain(alloc)?)?;
    measure_folder(&rt, "below one interface", below(alloc)?)
}
PROGRAM
judge_entries

measure
peak
