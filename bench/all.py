#!/usr/bin/env python3
"""Runs every size and speed check, and prints one table.

    python3 bench/all.py [PROGRAM] [--only CASE ..] [--built] [--share N]

First come the cases of flatten.py, session.py, opening.py, views.py and index.py, which need the built program alone: with --built these
are all, and --only picks some. Then come the calls of leaf_crates.py, layers.py, edits.py and text.py, each a program in a scratch
repository. Growth is how many times as long an input takes as the one a quarter as large, and `memory each` the peak memory in bytes for
each prim, layer, item or byte that the input counts.
"""
import edits
import flatten
import index
import layers
import leaf_crates
import measure
import opening
import session
import text
import views

CASES = flatten.CASES + session.CASES + opening.CASES + views.CASES + index.CASES
SCRIPTS = (leaf_crates, layers, edits, text)

if __name__ == "__main__":
    measure.main(CASES, SCRIPTS)
