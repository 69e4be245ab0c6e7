#!/usr/bin/env python3
"""A token is a part of its source: a function that would let one outlive the text that it was taken from is refused by the compiler.

    python3 tests/lifetimes.py

A wrong body of a crate cannot show this, since what does not compile is no wrong body. So a crate with two functions, of which the second
is such a one, stands in a scratch repository over `usda_lexer`.
"""
import os
import sys
import tempfile

TOP = os.path.dirname(os.path.dirname(os.path.abspath(__file__)))
sys.path.insert(0, os.path.join(TOP, "tools"))
import scratch_repository as scratch  # of the folder that was added

TEXT = """//! A token that would outlive its source.
#![tactic(auto)]

use usda_lexer::{Token, Tokens};

/// The first token of a text that lives as long.
pub fn first_token<'a>(text: &'a [u8]) -> Option<Token<'a>> {
    let mut tokens = Tokens::new(text).ok()?;
    tokens.next().ok()?
}

/// The first token of a text that is dropped here.
pub fn outlives<'a>(text: Vec<u8>) -> Option<Token<'a>> {
    first_token(text.as_slice())
}
"""
WANTED = "src/lib.rt:14:5: error[borrow-e0515]"


def main():
    with tempfile.TemporaryDirectory(prefix="usdstage-") as folder:
        scratch.write(folder, ["usda_lexer"], ["outlives: usda_lexer\n"])
        source = os.path.join(folder, "crates", "outlives", "src")
        os.makedirs(source)
        with open(os.path.join(source, "lib.rt"), "w", encoding="utf-8") as file:
            file.write(TEXT)
        with open(os.path.join(folder, "log"), "w+", encoding="utf-8", errors="replace") as log:
            scratch.prove(folder, log)
            log.seek(0)
            lines = log.readlines()
    errors = [line for line in lines if "error[" in line]
    passed = len(errors) == 1 and WANTED in errors[0]
    if not passed:
        print("".join(lines[-20:]))
    print(f"{int(passed)} passed, {int(not passed)} failed")
    sys.exit(not passed)


if __name__ == "__main__":
    main()
