#!/usr/bin/env python3
"""Times the reading and writing of large texts of the whole format, and prints a table.

    python3 bench/text.py [--in FOLDER] [--share N] [CALL ..]

CALL is one of bytes (a plain count), tokens, words, read and written. The program that makes the calls is built in a scratch repository,
which --in keeps in FOLDER: see measure.py. Seconds are the processor's, and peak memory is that of the process, the text itself included.
Four times the bytes should take little more than four times the time.
"""
import os

import measure

PROGRAM = """//! Makes one call on the text of a layer: the name of the call and that of the file are the words.
#![tactic(auto)]

use io_edges::{Fetched, FolderFiles, LayerFiles};
use std::alloc::{AllocError, Global};
use std::env;
use std::process::ExitCode;
use usda_lexer::Tokens;
use usda_reader::read_layer;
use usda_words::Words;
use usda_writer::write_layer;

/// The line feeds of a text.
fn lines(source: &[u8]) -> usize {
    let mut count: usize = 0;
    for c in source {
        if *c == b'\\n' {
            count = count.wrapping_add(1);
        }
    }
    count
}

/// How many tokens a text has, up to a fault.
fn tokens(source: &[u8]) -> usize {
    let Ok(mut tokens) = Tokens::new(source) else {
        return 0;
    };
    let mut count: usize = 0;
    for _byte in 0..source.len() {
        match tokens.next() {
            Ok(Some(_token)) => count = count.wrapping_add(1),
            _ => return count,
        }
    }
    count
}

/// How many words a text has.
fn words(source: &[u8]) -> usize {
    let Ok(mut words) = Words::new(source) else {
        return 0;
    };
    let mut count: usize = 0;
    for _byte in 0..source.len() {
        match words.next() {
            Some(_word) => count = count.wrapping_add(1),
            None => return count,
        }
    }
    count
}

fn read(alloc: Global, source: &[u8]) -> usize {
    match read_layer(alloc, source) {
        Ok(layer) => layer.head().root_names.len(),
        Err(_) => 0,
    }
}

fn written(alloc: Global, source: &[u8]) -> Result<usize, AllocError> {
    match read_layer(alloc, source) {
        Ok(layer) => Ok(write_layer(alloc, &layer)?.len()),
        Err(_) => Ok(0),
    }
}

fn made(alloc: Global, call: &str, source: &[u8]) -> Result<usize, AllocError> {
    match call {
        "bytes" => Ok(lines(source)),
        "tokens" => Ok(tokens(source)),
        "words" => Ok(words(source)),
        "read" => Ok(read(alloc, source)),
        _ => written(alloc, source),
    }
}

""" + measure.ARGUMENTS + """
fn bytes_of(rt: &HostRuntime, name: &str) -> Option<Vec<u8>> {
    let mut bytes = Vec::new(rt.alloc());
    let mut files = FolderFiles::new(rt.clone().ok()?);
    match files.fetch(name, &mut bytes) {
        Fetched::Found => Some(bytes),
        _ => None,
    }
}

fn main(rt: HostRuntime) -> ExitCode {
    let Some(words) = arguments(&rt) else {
        return ExitCode::from(1);
    };
    let [_program, call, name, ..] = words.as_slice() else {
        return ExitCode::from(0);
    };
    let Some(bytes) = bytes_of(&rt, name.as_str()) else {
        return ExitCode::from(1);
    };
    match made(rt.alloc(), call.as_str(), bytes.as_slice()) {
        Ok(count) => {
            let _ = println!(rt; "{count}");
            ExitCode::from(0)
        }
        Err(_) => ExitCode::from(2),
    }
}
"""

USES = ["io_edges", "usda_lexer", "usda_words", "usda_reader", "usda_writer", "sdf_specs", "spec_parts", "plain_data"]
TABLE = [("bytes",), ("tokens",), ("words",), ("read",), ("written",)]


def prims(size):
    """Prims with a type, metadata and two attributes each, up to about this many bytes."""
    out, length, i = ["#usda 1.0\n"], 10, 0
    while length < size:
        out.append(f'def Xform "prim_{i}" (\n    kind = "component"\n)\n{{\n    double x = {i}.5\n    custom string note = "the prim with number {i}"\n}}\n')
        length += len(out[-1])
        i += 1
    return "".join(out)


def arrays(numbers):
    """One prim with arrays of at most a million numbers, this many in all."""
    out = ['#usda 1.0\ndef "points"\n{\n']
    for k in range(0, numbers, 1_000_000):
        some = min(1_000_000, numbers - k)
        out.append(f"    double[] values_{k // 1_000_000} = [" + ", ".join(f"{i % 1000}.25" for i in range(some)) + "]\n")
    out.append("}\n")
    return "".join(out)


def run_one(program, call, folder, name, text, before):
    took = measure.measured([program, call, name], folder)
    growth = None if before is None else took.seconds / max(before, 1e-3)
    measure.line(f"{call} of {name}", len(text), took.seconds, growth, took, len(text), took.out.decode().strip())
    return took.seconds


def run(folder, table):
    texts = [(name, *(make(measure.share(size)) for size in sizes))
             for name, make, sizes in (("prims", prims, (15_000_000, 60_000_000)), ("arrays", arrays, (2_000_000, 8_000_000)))]
    program = measure.build(folder, "text_speed", USES, PROGRAM)
    for (call,) in table:
        for name, *sizes in texts:
            before = None
            for text in sizes:
                with open(os.path.join(folder, name), "w") as f:
                    f.write(text)
                before = run_one(program, call, folder, name, text, before)


if __name__ == "__main__":
    measure.calls(TABLE, run)
