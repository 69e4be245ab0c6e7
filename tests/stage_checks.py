#!/usr/bin/env python3
"""Runs tools/stage_check.py on small stages: the faults that it tells, and how it ends.

    python3 tests/stage_checks.py
"""
import os
import subprocess
import sys
import tempfile

from shared import TOP, write

CHECK = os.path.join(TOP, "tools", "stage_check.py")
SOUND = {"root": 'def "A" (references = @m.usda@</M>) { def "k" {} }', "m": 'def "M" { def "n" { int x = 1 } }'}
LOST = {"root": '(subLayers = [@gone.usda@]) def "A" { def "k" (references = [@no.usda@</N>, @m.usda@</M>]) {} }',
        "m": 'def "M" { rel r = </Z>; def "n" (payload = @m.usda@</P>) {} }'}
FAULTS = ("/: SublayerMissing @root.usda@ @gone.usda@\n"
          "/A/k: MissingLayer @root.usda@</A/k> references @no.usda@</N>\n"
          "/A/k: TargetOutside @m.usda@</M.r> </Z>\n"
          "/A/k/n: UnresolvedPrim @m.usda@</M/n> payload @m.usda@</P>\n")

# the layers, the words, the exit status, what is written, what is said
CHECKS = [
    (SOUND, "root.usda", 0, "", ""),
    (LOST, "root.usda", 1, FAULTS, ""),
    ({**SOUND, "s": 'over "A" (references = @lost.usda@</L>) {}'}, "root.usda --session s.usda", 1,
     "/A: MissingLayer @s.usda@</A> references @lost.usda@</L>\n", ""),
    ({"root": 'def "é" (references = </B>) {}'}, "root.usda", 1, "/é: UnresolvedPrim @root.usda@</é> references </B>\n", ""),
    ({}, "root.usda", 5, "", "usdstage: root.usda: absent\n"),
    ({"root": 'def "A'}, "root.usda", 5, "", "usdstage: root.usda:2:5: Syntax\n"),
    (SOUND, "", 2, "", "usdstage: not a command\n"),
]


def main():
    failed = 0
    for layers, words, *wanted in CHECKS:
        with tempfile.TemporaryDirectory() as folder:
            write(folder, layers)
            ran = subprocess.run([sys.executable, CHECK, *words.split()], cwd=folder, capture_output=True, timeout=600)
        got = [ran.returncode, ran.stdout.decode(), ran.stderr.decode()]
        if got != wanted:
            failed += 1
            print(f"stage_check {words}: {got} (wanted {wanted})")
    print(f"{len(CHECKS) - failed} passed, {failed} failed")
    sys.exit(1 if failed else 0)


if __name__ == "__main__":
    main()
