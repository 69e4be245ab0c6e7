#!/usr/bin/env python3
"""Makes the calls of the long tables in tests/tables, by the program that `rt ci` built of crates/row_tables.

    python3 tests/tables.py [PROGRAM]

The program prints each row whose answer is not the one that the table wants, and how many rows each table has. The short tables are in
crates/row_tables/data, and `rt ci` runs the program on them itself.
"""
import os
import subprocess
import sys

TOP = os.path.dirname(os.path.dirname(os.path.abspath(__file__)))
TABLES = os.path.join(TOP, "tests", "tables")
PROGRAM = os.path.abspath(sys.argv[1]) if len(sys.argv) > 1 else os.path.join(TOP, "crates", "row_tables", "out", "row_tables")


def main():
    if not os.path.isfile(PROGRAM):
        sys.exit("tables: crates/row_tables is not built: run rt ci first")
    got = subprocess.run([PROGRAM], cwd=TABLES, capture_output=True, text=True, timeout=1200)
    with open(os.path.join(TABLES, "expected")) as file:
        wanted = file.read()
    if got.returncode != 0 or got.stdout != wanted:
        print(got.stdout[-20000:], got.stderr, sep="\n")
        print(f"tables: status {got.returncode}, the rows above differ")
        sys.exit(1)
    print(f"tables: {wanted.splitlines()[-1]}")


if __name__ == "__main__":
    main()
