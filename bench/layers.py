#!/usr/bin/env python3
"""Times layers as tables, and arrays that are read as values, and prints a table.

    python3 bench/layers.py [--in FOLDER] [--share N] [CALL ..]

The program that makes the calls is built in a scratch repository, which --in keeps in FOLDER: see measure.py.
Seconds are the processor's; what comes before the call, as the making of the layer, is taken off. CALL picks lines of the table, as
`get`.
"""
import measure

USES = ["sdf_specs", "usda_values", "usda_lexer", "sdf_values", "sdf_paths", "plain_data"]

PROGRAM = """//! Makes one call on so many specs or numbers: the name of the call and the number are the words.
#![tactic(auto)]

use plain_data::copy;
use sdf_paths::{Path, PathFault};
use sdf_specs::{Layer, PutRefused, Spec, Specifier};
use sdf_values::{TypeName, Value};
use std::alloc::{AllocError, AllocFailed, Global};
use std::env;
use std::process::ExitCode;
use usda_lexer::Tokens;
use usda_values::{ValueFault, read_value, take_shape};

""" + measure.FAULT + "\n" + measure.PRIMS + """
/// The paths of ten root prims with as many prims below each, `count` in all, each owner before what is below it.
fn paths(alloc: Global, count: usize) -> Result<Vec<Path>, Fault> {
    let mut paths = Vec::new(alloc);
    for i in 0..10 {
        let owner = child(&Path::root(alloc), alloc, i)?;
        paths.push(copy(&owner)?)?;
        for j in 1..count / 10 {
            let path = child(&owner, alloc, j)?;
            paths.push(path)?;
        }
    }
    Ok(paths)
}

fn made(alloc: Global, paths: &[Path]) -> Result<Layer, Fault> {
    let mut layer = Layer::new(alloc);
    for path in paths {
        put(&mut layer, alloc, path)?;
    }
    Ok(layer)
}

/// Each spec is put once more, ten times.
fn put_all(layer: &mut Layer, alloc: Global, paths: &[Path]) -> Result<usize, Fault> {
    for _i in 0..10 {
        for path in paths {
            put(layer, alloc, path)?;
        }
    }
    Ok(layer.len())
}

/// Each spec is found ten times.
fn get_all(layer: &Layer, paths: &[Path]) -> usize {
    let mut found: usize = 0;
    for _i in 0..10 {
        for path in paths {
            if layer.get(path).is_some() {
                found = found.wrapping_add(1);
            }
        }
    }
    found
}

/// A hundred walks over the layer.
fn walks(layer: &Layer) -> usize {
    let mut seen: usize = 0;
    for _i in 0..100 {
        for (_path, spec) in layer.iter() {
            if spec.body.specifier == Specifier::Over {
                seen = seen.wrapping_add(1);
            }
        }
    }
    seen
}

/// Each root prim is removed with what is below it.
fn remove_all(layer: &mut Layer, alloc: Global) -> Result<usize, Fault> {
    for i in 0..10 {
        let _was_there = layer.remove_tree(&child(&Path::root(alloc), alloc, i)?)?;
    }
    Ok(layer.len())
}

fn on_layer(alloc: Global, call: &str, count: usize) -> Result<usize, Fault> {
    let paths = paths(alloc, count)?;
    let mut layer = made(alloc, paths.as_slice())?;
    match call {
        "put" => put_all(&mut layer, alloc, paths.as_slice()),
        "get" => Ok(get_all(&layer, paths.as_slice())),
        "walk" => Ok(walks(&layer)),
        "remove_tree" => remove_all(&mut layer, alloc),
        "copy" => Ok(copy(&layer)?.len()),
        _ => Ok(layer.len()),
    }
}

/// The text of an array of so many numbers.
fn array_text(alloc: Global, count: usize) -> Result<String, Fault> {
    let mut text = String::from_str(alloc, "[")?;
    for _i in 0..count {
        text.push_str("-1234.5678, ")?;
    }
    text.push_str("0]")?;
    Ok(text)
}

fn read(alloc: Global, text: &String) -> Result<Value, Fault> {
    let Ok(mut tokens) = Tokens::new(text.as_bytes()) else {
        return Err(Fault::Unexpected);
    };
    match read_value(alloc, &mut tokens) {
        Ok(value) => Ok(value),
        Err(ValueFault::Refused { .. }) => Err(Fault::Unexpected),
        Err(ValueFault::NoMemory) => Err(Fault::NoMemory),
    }
}

fn as_array(alloc: Global, value: Value) -> Result<Value, Fault> {
    let Some(ty) = TypeName::find("double", true) else {
        return Err(Fault::Unexpected);
    };
    match take_shape(alloc, ty, value) {
        Ok(value) => Ok(value),
        Err(ValueFault::Refused { .. }) => Err(Fault::Unexpected),
        Err(ValueFault::NoMemory) => Err(Fault::NoMemory),
    }
}

fn on_array(alloc: Global, call: &str, count: usize) -> Result<usize, Fault> {
    let text = array_text(alloc, count)?;
    match call {
        "read_value" => {
            let _value = read(alloc, &text)?;
        }
        "take_shape" => {
            let value = read(alloc, &text)?;
            let _typed = as_array(alloc, value)?;
        }
        _ => {}
    }
    Ok(text.len())
}

fn carried_out(alloc: Global, call: &str, count: usize) -> Result<usize, Fault> {
    match call {
        "text" | "read_value" | "take_shape" => on_array(alloc, call, count),
        _ => on_layer(alloc, call, count),
    }
}

""" + measure.MAIN

# The call, what comes before it and is taken off, how many items it is made on, and how often.
TABLE = [
    ("make", None, 65_536, 1),
    ("put", "make", 65_536, 10),
    ("get", "make", 65_536, 10),
    ("walk", "make", 65_536, 100),
    ("remove_tree", "make", 65_536, 1),
    ("copy", "make", 65_536, 1),
    ("read_value", "text", 250_000, 1),
    ("take_shape", "read_value", 250_000, 1),
]


def run(folder, table):
    measure.compare(measure.build(folder, "layer_speed", USES, PROGRAM), table, "us", 1e6)


if __name__ == "__main__":
    measure.calls(TABLE, run)
