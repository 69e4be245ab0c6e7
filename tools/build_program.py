#!/usr/bin/env python3
"""Proves and builds the program: the crates that it stands on, several at a time, in a scratch repository.

    python3 tools/build_program.py

What is printed on the way stands in crates/usdstage/out/build.log. The exit status is 0 where the program was built.
"""
import os
import shutil
import sys
import tempfile
import time

import scratch_repository as scratch

PROGRAM = scratch.program_in(scratch.TOP, "usdstage")


def main():
    out = os.path.dirname(PROGRAM)
    os.makedirs(out, exist_ok=True)
    built = f"{PROGRAM}.{os.getpid()}"
    with tempfile.TemporaryDirectory(prefix="usdstage-") as folder, open(os.path.join(out, "build.log"), "w", encoding="utf-8") as log:
        begun = time.time()
        scratch.write(folder, ["usdstage"])
        if not scratch.prove(folder, log):
            return 1
        shutil.copy2(scratch.program_in(folder, "usdstage"), built)
    # it is as old as the sources that were read, and whoever runs the program meanwhile finds it whole
    os.utime(built, (begun, begun))
    os.replace(built, PROGRAM)
    return 0


if __name__ == "__main__":
    sys.exit(main())
