#!/usr/bin/env python3
"""Times `usdstage flatten` beside another program that flattens layers, and prints a table of both with the ratios.

    python3 bench/peer.py PEER [PROGRAM] [--only CASE ..] [--runs N] [--share N]

PEER is a program with the same command line, or a folder with the C++ source of one, `peer.cpp`, which is built with g++ first. Both run
on the same layers, made in a temporary folder, one after the other, N times each (3 where nothing is said): of the user seconds the
fewest count, of the peak memory the least. Each shape has two sizes, and growth is how many times as long the larger takes. Where the two
write other bytes, the line says so, and the exit status is 1.

Of the shapes `defaults` and `kinds` the program runs a session that publishes ten times, after one edit each, and the peer flattens the
layers once: its seconds are those of one flattening times the publishes, the first one of the session too, and nothing is compared.
"""
import argparse
import os
import shutil
import subprocess
import sys
import tempfile

import flatten
from measure import PROGRAM, listed, path_in_tree, program_of, share, taken, tree, with_share, write

# The options that the peer's README names.
OPTIONS = ["-std=c++20", "-O3", "-Wno-class-memaccess"]

# Runs a command whose output goes to a file, and prints its user microseconds, its peak memory in kilobytes and its exit status. It is
# small, since what a process had before it became the command counts as the command's peak.
METER = r"""
#include <cstdio>
#include <fcntl.h>
#include <sys/resource.h>
#include <sys/wait.h>
#include <unistd.h>
int main(int, char** words) {
    pid_t child = fork();
    if (child == 0) {
        dup2(open(words[1], O_RDONLY), 0);
        dup2(open(words[2], O_WRONLY | O_CREAT | O_TRUNC, 0644), 1);
        execv(words[3], words + 3);
        _exit(127);
    }
    int status;
    rusage took;
    wait4(child, &status, 0, &took);
    std::printf("%ld %ld %d\n", took.ru_utime.tv_sec * 1000000 + took.ru_utime.tv_usec, took.ru_maxrss, WIFEXITED(status) ? WEXITSTATUS(status) : -1);
}
"""


def alone(text):
    """The layers of a shape that has a root layer alone."""
    return lambda size: {"root": text(size)}


def asset():
    """An asset of 30 prims with two variant sets and a class on its root, and a payload."""
    def prim(i):
        return f'def Xform "part{i}" {{ int a = {i} float radius = {i}.5\n'

    sets = "".join(f'variantSet "{name}" = {{ ' + " ".join(f'"{word}" {{ over "part1" {{ int {name} = {k} }} }}' for k, word in enumerate(words)) + " }\n"
                   for name, words in (("model", ("low", "high")), ("look", ("red", "blue"))))
    heads = 'variantSets = ["model", "look"] variants = { string model = "high" string look = "red" }'
    body = "".join(prim(i) + "}\n" for i in range(1, 29))
    return (f'class "kinds" {{ string kind = "prop" }}\ndef Xform "asset" (inherits = </kinds> payload = @parts.usda@</parts> {heads}) {{\n'
            f'{sets}{body}}}\n')


def a_set(references):
    """A set of references to one asset, in a root layer over four sublayers."""
    places = "".join(f'def "place{i}" (references = @asset.usda@</asset>) {{ int number = {i} }}\n' for i in range(references))
    layers = {f"over{k}": f'over "set" {{ over "place{k}" {{ int note = {k} }} }}\n' for k in range(4)}
    names = listed(f"@over{k}.usda@" for k in range(4))
    return {"root": f'(subLayers = {names})\ndef "set" {{\n{places}}}\n', "asset": asset(), "parts": 'def "parts" { def "extra" { int x = 1 } }\n', **layers}


PUBLISHES = 10


def read_by_all(prims):
    """A tree of prims, each of which inherits one class."""
    return 'class "kinds" { int kind = 0 }\n' + tree(prims, lambda i: f'def "p{i}" (inherits = </kinds>) {{ int a = {i % 1000}\n')


def edited(line):
    """The script of a session with an edit before each publish."""
    return lambda size: "".join(f"begin\nset @root.usda@ {line(size, k)}\ncommit\npublish\n" for k in range(PUBLISHES))


def own_default(size, k):
    """The default of one prim of a tree, another one each time."""
    return f"{path_in_tree(k * 7919 % size)}.a {k}"


def shared_default(_size, k):
    """What all prims of a tree inherit."""
    return f"/kinds.kind {k + 1}"


# A word that picks the shape, what it counts, two sizes, the layers of a size, and the script of a session, where it is one.
SHAPES = [
    ("tree", "prims in a tree", (20_000, 80_000), alone(tree)),
    ("classes", "prims in a tree with 8 classes", (20_000, 80_000), alone(flatten.classes)),
    ("wide", "children of one owner", (20_000, 80_000), alone(flatten.wide)),
    ("set", "references to an asset of 30 prims", (500, 2_000), a_set),
    ("arrays", "bytes of arrays of numbers", (15_000_000, 60_000_000), alone(flatten.arrays)),
    ("text", "bytes of text in few prims", (15_000_000, 60_000_000), alone(flatten.long_text)),
    ("defaults", "prims, 10 publishes of one default", (20_000, 80_000), alone(tree), edited(own_default)),
    ("kinds", "prims, 10 publishes of a class", (20_000, 80_000), alone(read_by_all), edited(shared_default)),
]


def built(folder, name, source):
    """A program of C++ source, built into a folder."""
    out = os.path.join(folder, name)
    subprocess.run(["g++", *OPTIONS, "-o", out, source], check=True)
    return out


def meter_in(folder):
    source = os.path.join(folder, "meter.cpp")
    with open(source, "w") as f:
        f.write(METER)
    return built(folder, "meter", source)


class Best:
    """The best of some runs of a program in a folder: of `flatten`, or of `session` with a script."""

    def __init__(self, meter, program, folder, runs, script=None):
        out, lines = os.path.join(folder, "out"), os.path.join(folder, "script")
        with open(lines, "w") as f:
            f.write(script or "")
        command = [meter, lines, out, program, "flatten" if script is None else "session", "root.usda"]
        took = [list(map(int, subprocess.run(command, cwd=folder, stdout=subprocess.PIPE, check=True).stdout.split()))
                for _ in range(runs)]
        self.seconds = max(min(one[0] for one in took) / 1e6, 1e-3)
        self.peak = min(one[1] for one in took) * 1024
        self.status = max(one[2] for one in took)
        with open(out, "rb") as f:
            self.out = f.read()


def run_shape(meter, programs, shape, runs):
    """Prints a line for each size of a shape; whether both programs wrote the same bytes."""
    _word, name, sizes, layers, *session = shape
    before, alike = None, True
    for size in map(share, sizes):
        with tempfile.TemporaryDirectory() as folder:
            write(folder, layers(size))
            own = Best(meter, programs[0], folder, runs, *(script(size) for script in session))
            other = Best(meter, programs[1], folder, runs)
        if session:
            other.seconds *= PUBLISHES + 1
            same = own.status == other.status == 0 and own.out.count(b"published ") == PUBLISHES + 1
        else:
            same = (own.out, own.status) == (other.out, other.status)
        alike = alike and same
        growth = "" if before is None else f"{own.seconds / before:.1f}"
        print(f"{size:>11,} {name:36} {own.seconds:8.2f} {other.seconds:8.3f} {own.seconds / other.seconds:7.1f} {growth:>7} "
              f"{own.peak / 2**20:9.1f} {other.peak / 2**20:9.1f} {own.peak / other.peak:7.1f} {own.peak / size:11.0f}"
              + ("" if same else "  THE TWO DIFFER"), flush=True)
        before = own.seconds
    return alike


def main():
    words = with_share(argparse.ArgumentParser())
    words.add_argument("peer", metavar="PEER", help="the other program, or the folder of its C++ source")
    words.add_argument("program", nargs="?", default=PROGRAM)
    words.add_argument("--only", nargs="+", default=[], metavar="CASE", choices=[shape[0] for shape in SHAPES], help=" ".join(shape[0] for shape in SHAPES))
    words.add_argument("--runs", type=int, default=3, metavar="N")
    given = taken(words)
    if os.path.isdir(given.peer) and not shutil.which("g++"):
        sys.exit("there is no g++, which builds the peer and what measures it")
    if not os.path.exists(given.peer):
        sys.exit(f"there is no peer at {given.peer}")
    program = program_of(given.program)
    print(f"{'input':48} {'seconds':>8} {'peer':>8} {'ratio':>7} {'growth':>7} {'peak MiB':>9} {'peer':>9} {'ratio':>7} {'memory each':>11}")
    with tempfile.TemporaryDirectory() as folder:
        peer = built(folder, "peer", os.path.join(given.peer, "peer.cpp")) if os.path.isdir(given.peer) else os.path.abspath(given.peer)
        meter, programs = meter_in(folder), (program, peer)
        alike = [run_shape(meter, programs, shape, given.runs) for shape in SHAPES if not given.only or shape[0] in given.only]
    return 0 if all(alike) else 1


if __name__ == "__main__":
    sys.exit(main())
