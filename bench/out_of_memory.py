#!/usr/bin/env python3
"""Runs `usdstage` with its first allocation failing, then its second, and so on, until it needs no more.

    python3 bench/out_of_memory.py [PROGRAM] [--share N]

Each run has to end as the one with ample memory does, with all of its output, or with want of memory (status 9) and the front of it.
The allocations are made to fail by a small library that is put before the C library; it needs `cc`. So the built program is tried with
all numbers in seconds to minutes, with --share N every N-th; `rt try --fail-alloc N` tries one number, on the interpreter, in a minute.
"""
import argparse
import os
import subprocess
import sys
import tempfile

import measure

FAILING = r"""
#include <errno.h>
#include <stdlib.h>
extern void *__libc_malloc(size_t), *__libc_realloc(void *, size_t), *__libc_calloc(size_t, size_t), *__libc_memalign(size_t, size_t);
static long calls = 0, failing = -1;
static int fails_now(void) {
    if (failing < 0) { char *at = getenv("FAIL_AT"); failing = at ? atol(at) : 0; }
    if (++calls != failing) return 0;
    errno = ENOMEM;
    return 1;
}
void *malloc(size_t size) { return fails_now() ? 0 : __libc_malloc(size); }
void *realloc(void *old, size_t size) { return fails_now() ? 0 : __libc_realloc(old, size); }
void *calloc(size_t count, size_t size) { return fails_now() ? 0 : __libc_calloc(count, size); }
void *aligned_alloc(size_t at, size_t size) { return fails_now() ? 0 : __libc_memalign(at, size); }
int posix_memalign(void **out, size_t at, size_t size) {
    if (fails_now()) return ENOMEM;
    *out = __libc_memalign(at, size);
    return *out ? 0 : ENOMEM;
}
"""

# what it shows, the words, the layers, the script
RUNS = [
    ("a first line alone", "flatten root.usda", {"root.usda": "#usda 1.0\n"}, ""),
    ("nested prims", "flatten root.usda", {"root.usda": '#usda 1.0\ndef Xform "A" { int b = -7 def "C" { int x = 3 def "D" {} } int a = 0 }\ndef "B" { int y = 1 }\n'}, ""),
    (
        "a reference with a class and a variant, over a sublayer",
        "flatten root.usda --session s.usda",
        {
            "root.usda": '#usda 1.0\n(subLayers = [@w.usda@ (offset = 2)])\nclass "_c" { int x = 5 } def "A" (references = @m.usda@</M> variants = { string v = "b" }) {}\n',
            "w.usda": '#usda 1.0\nover "A" { int y.timeSamples = { 1: 2, 3: None } }\n',
            "m.usda": '#usda 1.0\nclass "_c" { int x = 3 } def "M" (inherits = </_c> variantSets = "v") { rel r = </M/k> def "k" {} variantSet "v" = { "a" {} "b" { int z = 1 } } }\n',
            "s.usda": '#usda 1.0\n(doc = "session")\n',
        },
        "",
    ),
    (
        "a session with a refused batch",
        "session root.usda",
        {"root.usda": '#usda 1.0\ndef "A" { int x = 1 }\n', "n.usda": "#usda 1.0\n"},
        "begin\nset @root.usda@ /A.x 2\nattr @root.usda@ /A.y int\nset @root.usda@ /B.z 3\ncommit\npublish\ndefault /A.x\n"
        "begin\nset @root.usda@ /A.x 2\ncommit\nopen @n.usda@\npublish\ndefault /A.x\nsites /A\nflatten\n",
    ),
    ("a refused root", "session root.usda", {"root.usda": '#usda 1.0\ndef "T'}, "publish\n"),
]


def run_once(program, folder, words, script, env=None):
    return subprocess.run([program] + words.split(), cwd=folder, env=env, input=script.encode(), stdout=subprocess.PIPE, stderr=subprocess.PIPE)


def tried(program, folder, words, script, library):
    """Counts the runs by status; stops once three runs in a row did not reach the failing allocation."""
    whole = run_once(program, folder, words, script)
    counts, same = {}, 0
    for at in range(1, 1000000, measure.SHARE):
        run = run_once(program, folder, words, script, {"LD_PRELOAD": library, "FAIL_AT": str(at)})
        is_same = (run.returncode, run.stdout, run.stderr) == (whole.returncode, whole.stdout, whole.stderr)
        is_front = run.returncode == 9 and whole.stdout.startswith(run.stdout)
        if not is_same and not is_front:
            sys.exit(f"allocation {at}: status {run.returncode}, written {run.stdout[:80]!r}, said {run.stderr[:80]!r}")
        counts[run.returncode] = counts.get(run.returncode, 0) + 1
        same = same + 1 if is_same else 0
        if same == 3:
            if 9 not in counts:
                sys.exit("no allocation failed: the library was not used")
            return sum(counts.values()), counts
    sys.exit("the program never stops allocating")


def main():
    words = measure.with_share(argparse.ArgumentParser())
    words.add_argument("program", nargs="?", default=measure.PROGRAM)
    program = measure.program_of(measure.taken(words).program)
    with tempfile.TemporaryDirectory() as folder:
        source, library = os.path.join(folder, "failing.c"), os.path.join(folder, "failing.so")
        with open(source, "w") as f:
            f.write(FAILING)
        subprocess.run(["cc", "-shared", "-fPIC", "-O1", "-o", library, source], check=True)
        for name, words, layers, script in RUNS:
            for layer, text in layers.items():
                with open(os.path.join(folder, layer), "w") as f:
                    f.write(text)
            runs, counts = tried(program, folder, words, script, library)
            print(f"{name}: {runs} runs, " + ", ".join(f"{n} with status {s}" for s, n in sorted(counts.items())), flush=True)


if __name__ == "__main__":
    main()
