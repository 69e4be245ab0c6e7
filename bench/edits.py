#!/usr/bin/env python3
"""Times batches of edits, and prints a table.

    python3 bench/edits.py [--in FOLDER] [--share N] [CALL ..]

The program that makes the calls is built in a scratch repository, which --in keeps in FOLDER: see measure.py.
Seconds are the processor's; what comes before the call, as the making of the world, is taken off. CALL picks lines of the table, as
`set`.
"""
import measure

USES = ["layer_changes", "layer_apply", "edit_batches", "layer_set", "sdf_specs", "sdf_values", "sdf_paths", "asset_names", "plain_data"]

PROGRAM = """//! Makes one call on so many prims or operations: the name of the call and the number are the words.
#![tactic(auto)]

use asset_names::AssetId;
use edit_batches::{Batch, Op};
use layer_apply::edited_world;
use layer_changes::apply;
use layer_set::{Held, World};
use plain_data::{Items, Text, copy};
use sdf_paths::{Path, PathFault};
use sdf_specs::{Layer, PutRefused, Spec, Specifier};
use sdf_values::{TypeName, Value};
use std::alloc::{AllocError, AllocFailed, Global};
use std::env;
use std::process::ExitCode;

""" + measure.FAULT + """
fn name(alloc: Global) -> Result<AssetId, Fault> {
    match AssetId::of_word(alloc, "root.usda") {
        Ok(id) => Ok(id),
        Err(_) => Err(Fault::Unexpected),
    }
}

""" + measure.PRIMS + """
/// The attribute `x` of a prim.
fn attribute(prim: &Path, alloc: Global) -> Result<Path, Fault> {
    let mut text = prim.print()?;
    text.push_str(".x")?;
    match Path::parse(alloc, text.as_str()) {
        Ok(path) => Ok(path),
        Err(PathFault::Bad { .. }) => Err(Fault::Unexpected),
        Err(PathFault::NoMemory) => Err(Fault::NoMemory),
    }
}

/// A layer of 128 root prims with as many prims below each, `count` in all.
fn layer_of(alloc: Global, count: usize) -> Result<Layer, Fault> {
    let mut layer = Layer::new(alloc);
    for i in 0..128 {
        let owner = child(&Path::root(alloc), alloc, i)?;
        put(&mut layer, alloc, &owner)?;
        for j in 1..count / 128 {
            put(&mut layer, alloc, &child(&owner, alloc, j)?)?;
        }
    }
    Ok(layer)
}

/// A world whose root layer has so many prims. The first has an attribute.
fn world_of(alloc: Global, count: usize) -> Result<World, Fault> {
    let mut world = World::new(alloc, name(alloc)?, None)?;
    world.put(name(alloc)?, Held::Present(layer_of(alloc, count)?))?;
    let prim = child(&Path::root(alloc), alloc, 0)?;
    let mut ops = Items::new(alloc);
    ops.push(add_attribute(alloc, &prim)?)?;
    changed_world(alloc, &world, ops)
}

fn int(array: bool) -> Result<TypeName, Fault> {
    match TypeName::find("int", array) {
        Some(ty) => Ok(ty),
        None => Err(Fault::Unexpected),
    }
}

fn add_attribute(alloc: Global, prim: &Path) -> Result<Op, Fault> {
    Ok(Op::AddAttribute {
        layer: name(alloc)?,
        path: attribute(prim, alloc)?,
        ty: Some(int(false)?),
        custom: false,
        uniform: false,
    })
}

fn set(alloc: Global, prim: &Path) -> Result<Op, Fault> {
    Ok(Op::SetDefault {
        layer: name(alloc)?,
        path: attribute(prim, alloc)?,
        value: Value::Block,
    })
}

fn batch_of(ops: Items<Op>) -> Result<Batch, Fault> {
    match Batch::of(ops) {
        Some(batch) => Ok(batch),
        None => Err(Fault::Unexpected),
    }
}

fn changed_world(alloc: Global, world: &World, ops: Items<Op>) -> Result<World, Fault> {
    match edited_world(alloc, world, &batch_of(ops)?) {
        Ok(world) => Ok(world),
        Err(_) => Err(Fault::Unexpected),
    }
}

/// How many keys a batch changes.
fn keys(alloc: Global, world: &World, ops: Items<Op>) -> Result<usize, Fault> {
    match apply(alloc, world, &batch_of(ops)?) {
        Ok(applied) => Ok(applied.changed.len()),
        Err(_) => Err(Fault::Unexpected),
    }
}

/// One `set` of the first prim's attribute.
fn one_set(alloc: Global) -> Result<Items<Op>, Fault> {
    let mut ops = Items::new(alloc);
    ops.push(set(alloc, &child(&Path::root(alloc), alloc, 0)?)?)?;
    Ok(ops)
}

/// The first root prim is removed with what is below it.
fn one_remove(alloc: Global) -> Result<Items<Op>, Fault> {
    let mut ops = Items::new(alloc);
    ops.push(Op::Remove {
        layer: name(alloc)?,
        path: child(&Path::root(alloc), alloc, 0)?,
    })?;
    Ok(ops)
}

/// So many operations: prims below 128 root prims, each with an attribute, its default and a class.
fn many(alloc: Global, count: usize) -> Result<Items<Op>, Fault> {
    let mut ops = Items::new(alloc);
    for i in 0..count / 4 {
        let prim = child(&child(&Path::root(alloc), alloc, i % 128)?, alloc, 1_000_000_000_usize.wrapping_add(i))?;
        ops.push(Op::AddPrim {
            layer: name(alloc)?,
            path: copy(&prim)?,
            specifier: Specifier::Def,
            type_name: None,
        })?;
        ops.push(add_attribute(alloc, &prim)?)?;
        ops.push(set(alloc, &prim)?)?;
        ops.push(Op::Select {
            layer: name(alloc)?,
            path: prim,
            set: Text::of(alloc, "v")?,
            variant: Text::of(alloc, "x")?,
        })?;
    }
    Ok(ops)
}

/// A batch on a world, ten times.
fn ten_times(alloc: Global, call: &str, world: &World) -> Result<usize, Fault> {
    let mut told: usize = 0;
    for _i in 0..10 {
        let more = match call {
            "set" => keys(alloc, world, one_set(alloc)?)?,
            "set, world alone" => changed_world(alloc, world, one_set(alloc)?)?.names(),
            "remove" => keys(alloc, world, one_remove(alloc)?)?,
            "copy" => match world.held(&name(alloc)?) {
                Held::Present(layer) => copy(layer)?.len(),
                _ => 0,
            },
            _ => 0,
        };
        told = told.wrapping_add(more);
    }
    Ok(told)
}

fn carried_out(alloc: Global, call: &str, count: usize) -> Result<usize, Fault> {
    match call {
        "operations" => Ok(many(alloc, count)?.len()),
        "batch" => {
            let world = world_of(alloc, 128)?;
            keys(alloc, &world, many(alloc, count)?)
        }
        "batch, world alone" => {
            let world = world_of(alloc, 128)?;
            Ok(changed_world(alloc, &world, many(alloc, count)?)?.names())
        }
        _ => ten_times(alloc, call, &world_of(alloc, count)?),
    }
}

""" + measure.MAIN

# The call, what comes before it and is taken off, how many items it is made on, and how often.
TABLE = [
    ("world", None, 32_768, 1),
    ("copy", "world", 32_768, 10),
    ("set", "world", 32_768, 10),
    ("set, world alone", "world", 32_768, 10),
    ("remove", "world", 32_768, 10),
    ("operations", None, 25_000, 1),
    ("batch", "operations", 25_000, 1),
    ("batch, world alone", "operations", 25_000, 1),
]


def run(folder, table):
    measure.compare(measure.build(folder, "edit_speed", USES, PROGRAM), table, "ns", 1e9)


if __name__ == "__main__":
    measure.calls(TABLE, run)
