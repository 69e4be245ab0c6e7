#!/usr/bin/env python3
"""Runs the command of the repository where the program is not built: the trial of a copy of the sources answers as the built program does.

    python3 tests/trial.py

The copy has what `./usdstage` needs and the examples, and no program. The first command compiles the trial, the others run it. The last run
is the one of a kit that gives no trial to keep.
"""
import os
import shutil
import subprocess
import sys
import tempfile

from shared import BUILT, TOP

sys.path.insert(0, os.path.join(TOP, "tools"))
import scratch_repository as scratch  # of the folder that was added

LINE = b"usdstage: this is a trial, which no proof has passed; .ci/run and ./usdstage --build prove and build the program\n"
SHOT = os.path.join("examples", "shot")

# the words and the file on standard input, in examples/shot
RUNS = [
    ("flatten shot.usda", os.devnull),
    ("session shot.usda", "script.txt"),
    ("session shot.usda", "shot.usda"),
    ("flatten none.usda", os.devnull),
    ("flatten ../character/shot.usda", os.devnull),
    ("flat shot.usda", os.devnull),
]


def ran(command, top, words, script):
    """The exit status of a run, what it wrote and what it said."""
    with open(os.path.join(TOP, SHOT, script), "rb") as given:
        done = subprocess.run([*command, *words.split()], cwd=os.path.join(top, SHOT), stdin=given, capture_output=True, timeout=1200)
    return done.returncode, done.stdout, done.stderr


def main():
    failed = 0
    with tempfile.TemporaryDirectory(prefix="usdstage-") as folder:
        scratch.write(folder, ["usdstage"])
        shutil.copytree(os.path.join(TOP, "tools"), os.path.join(folder, "tools"))
        shutil.copytree(os.path.join(TOP, "examples"), os.path.join(folder, "examples"))
        launcher = shutil.copy2(os.path.join(TOP, "usdstage"), folder)
        once = [sys.executable, os.path.join(folder, "tools", "try_program.py"), "run"]
        for command, line, words, script in [([launcher], LINE, *run) for run in RUNS] + [(once, b"", *RUNS[1])]:
            status, written, said = ran([BUILT], TOP, words, script)
            got = ran(command, folder, words, script)
            if got != (status, written, line + said):
                failed += 1
                print(f"{command} {words} <{script}: {got} (wanted {(status, written, line + said)})")
    print(f"{len(RUNS) + 1 - failed} passed, {failed} failed")
    sys.exit(1 if failed else 0)


if __name__ == "__main__":
    main()
