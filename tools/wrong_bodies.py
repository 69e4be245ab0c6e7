#!/usr/bin/env python3
"""Tries the wrong bodies of crates that stand in wrong_bodies/, outside the gate: the prover has to refuse each.

    python3 tools/wrong_bodies.py NAME ..

It works in a scratch repository of these crates and those below them, where the wrong bodies stand as must-fail edits. What `rt ci`
passed before of these crates is taken as it is, and the rest is proved first.
"""
import os
import shutil
import sys
import tempfile

import scratch_repository as scratch

BODIES = os.path.join(scratch.TOP, "wrong_bodies")


def main(names):
    known = sorted(os.listdir(BODIES))
    strange = [name for name in names if name not in known]
    if not names or strange:
        print(f"crates with wrong bodies outside the gate: {' '.join(known)}")
        return 2
    with tempfile.TemporaryDirectory(prefix="usdstage-") as folder:
        scratch.write(folder, names)
        for name in names:
            to = os.path.join(folder, "crates", name, "must-fail")
            for edits in (os.path.join(BODIES, name), os.path.join(scratch.TOP, "crates", name, "must-fail")):
                if os.path.isdir(edits):
                    shutil.copytree(edits, to, dirs_exist_ok=True)
        return 0 if scratch.prove(folder) else 1


if __name__ == "__main__":
    sys.exit(main(sys.argv[1:]))
