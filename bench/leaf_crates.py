#!/usr/bin/env python3
"""Times list edits, the printing of values, and paths, and prints a table.

    python3 bench/leaf_crates.py [--in FOLDER] [--share N] [CALL ..]

The program that makes the calls is built in a scratch repository, which --in keeps in FOLDER: see measure.py.
Seconds are the processor's. CALL picks lines of the table, as `apply`.
"""
import measure

USES = ["list_ops", "plain_data", "sdf_paths", "sdf_values"]

PROGRAM = """//! Makes one call on so many items: the name of the call and the number are the words.
#![tactic(auto)]

use list_ops::{ListOp, fold_ordered, reorder, reorder_ordered};
use plain_data::Items;
use sdf_paths::Path;
use sdf_values::{Decimal, Num, Value, print_value};
use std::alloc::{AllocError, AllocFailed, Global};
use std::env;
use std::process::ExitCode;

""" + measure.FAULT + """
/// `count` numbers from `start` on, `step` apart.
fn numbers(alloc: Global, start: u64, step: u64, count: usize) -> Result<Items<u64>, AllocError> {
    let mut items = Items::new(alloc);
    let mut next = start;
    for _i in 0..count {
        items.push(next)?;
        next = next.wrapping_add(step);
    }
    Ok(items)
}

/// An opinion that deletes, adds, prepends, appends and reorders a fifth of `count` items each.
fn opinion(alloc: Global, count: usize) -> Result<ListOp<u64>, AllocError> {
    let some = count / 5;
    Ok(ListOp {
        explicit: None,
        deleted: numbers(alloc, 0, 5, some)?,
        added: numbers(alloc, 1, 6, some)?,
        prepended: numbers(alloc, 2, 5, some)?,
        appended: numbers(alloc, 3, 5, some)?,
        ordered: numbers(alloc, 4, 5, some)?,
    })
}

fn edit_ordered(alloc: Global, count: usize) -> Result<usize, AllocError> {
    let mut list = numbers(alloc, 0, 1, count)?.into_vec();
    opinion(alloc, count)?.apply_ordered(&mut list)?;
    Ok(list.len())
}

fn edit(alloc: Global, count: usize) -> Result<usize, AllocError> {
    let mut list = numbers(alloc, 0, 1, count)?.into_vec();
    opinion(alloc, count)?.apply(&mut list)?;
    Ok(list.len())
}

/// Ten opinions, each on a tenth of the items.
fn folded(alloc: Global, count: usize) -> Result<usize, AllocError> {
    let mut ops = Vec::new(alloc);
    let mut start: u64 = 0;
    for _i in 0..10 {
        let mut op = opinion(alloc, 0)?;
        op.appended = numbers(alloc, start, 10, count / 10)?;
        ops.push(op)?;
        start = start.wrapping_add(1);
    }
    Ok(fold_ordered(alloc, ops.as_slice())?.len())
}

fn reversed(alloc: Global, count: usize) -> Result<Vec<u64>, AllocError> {
    Ok(numbers(alloc, count as u64, u64::MAX, count)?.into_vec())
}

fn order_ordered(alloc: Global, count: usize) -> Result<usize, AllocError> {
    let mut list = numbers(alloc, 1, 1, count)?.into_vec();
    let order = reversed(alloc, count)?;
    reorder_ordered(&mut list, order.as_slice())?;
    Ok(list.len())
}

fn order(alloc: Global, count: usize) -> Result<usize, AllocError> {
    let mut list = numbers(alloc, 1, 1, count)?.into_vec();
    let order = reversed(alloc, count)?;
    reorder(&mut list, order.as_slice())?;
    Ok(list.len())
}

/// The text of an array of numbers.
fn printed(alloc: Global, count: usize) -> Result<usize, AllocError> {
    let number = match Decimal::parse("-1234.5678") {
        Ok(number) => number,
        Err(_) => return Ok(0),
    };
    let mut items = Items::new(alloc);
    for _i in 0..count {
        items.push(Value::Number(Num::Finite(number)))?;
    }
    Ok(print_value(alloc, &Value::Array(items), 0)?.len())
}

/// A path of about so many bytes, in 64 names.
fn long_path(alloc: Global, bytes: usize) -> Result<Path, AllocError> {
    let name = "a".repeat(alloc, (bytes / 64).max(2) - 1)?;
    let mut text = String::new(alloc);
    for _i in 0..64 {
        text.push_str("/")?;
        text.push_str(name.as_str())?;
    }
    match Path::parse(alloc, text.as_str()) {
        Ok(path) => Ok(path),
        Err(_) => Ok(Path::root(alloc)),
    }
}

/// A hundred thousand copies of a path, each compared with it.
fn copied(alloc: Global, bytes: usize) -> Result<usize, AllocError> {
    let path = long_path(alloc, bytes)?;
    let mut count = 0;
    for _i in 0..100_000 {
        let copy = path.clone()?;
        if copy == path && copy <= path {
            count = path.depth();
        }
    }
    Ok(count)
}

fn made(alloc: Global, call: &str, count: usize) -> Result<usize, AllocError> {
    match call {
        "apply_ordered" => edit_ordered(alloc, count),
        "apply" => edit(alloc, count),
        "fold_ordered" => folded(alloc, count),
        "reorder_ordered" => order_ordered(alloc, count),
        "reorder" => order(alloc, count),
        "print_value" => printed(alloc, count),
        _ => copied(alloc, count),
    }
}

fn carried_out(alloc: Global, call: &str, count: usize) -> Result<usize, Fault> {
    Ok(made(alloc, call, count)?)
}

""" + measure.MAIN

# The call, what comes before it, how many items it is made on, and how often.
TABLE = [
    ("apply_ordered", None, 100_000, 1),
    ("fold_ordered", None, 100_000, 1),
    ("reorder_ordered", None, 100_000, 1),
    ("apply", None, 4_000, 1),
    ("reorder", None, 4_000, 1),
    ("print_value", None, 250_000, 1),
    ("path", None, 1_024, 1),
]


def run(folder, table):
    measure.compare(measure.build(folder, "leaf_speed", USES, PROGRAM), table, "us", 1e6)


if __name__ == "__main__":
    measure.calls(TABLE, run)
