#!/usr/bin/env python3
"""Runs every command that a page names: in backticks, or in a block of the kind `sh`. Transcripts are run by tests/transcripts.py.

    python3 tests/commands.py [--pages] [--only WORD ..]

ROWS says of each command how it is run. A command without a row fails, and so does a row without a command. --pages compares the two and
runs nothing, and --only runs the rows in whose commands a word stands. Commands of `rt` run in a scratch repository of two small crates
that are made there. Sizes of bench/ are a share of what the scripts make by themselves. Scripts of bench/ that make calls of
crates have a program proved first, over the crates that the gate has just passed: a minute or more for each.
"""
import argparse
import os
import re
import shutil
import subprocess
import sys
import tempfile
import time
from concurrent.futures import ThreadPoolExecutor

TOP = os.path.dirname(os.path.dirname(os.path.abspath(__file__)))
PEER = os.path.normpath(os.path.join(TOP, "..", "shared", "peer"))
COMMAND = re.compile(r"(?:\(?(?:cd|python3|rt|rattle|valgrind|git|g\+\+|gcc|bash|sh) \S|(?:\.\.?/)+usdstage\b|usdstage (?:flatten|session|help|--)"
                     r"|(?:flatten|session) [A-Z]|\.ci/\w|[A-Z_]+=\S|(?:\w+/)*\w+\.(?:py|sh)\b|--[a-z])")
EDIT = "file: src/lib.rt\nold:     x\nnew:     0\n"
MAIN = "#![tactic(auto)]\n\nfn main() {}\n"
TEST = "\n#[test]\nfn a_number_comes_back(rt: HostRuntime) {\n    assert!(rt; echo(7) == 7);\n}\n"


class Run:
    """A command as it is run, with its exit status, and a text that stands in what it writes. SMALL and SCENE are the scratch repository's
    library and its top, FOLDER is an empty folder."""

    def __init__(self, command, text="", status=0, place="", needs=()):
        self.command, self.text, self.status, self.place, self.needs = command, text, status, place, needs

    def absent(self):
        """Why the command cannot be run here; none where it can."""
        absent = [name for name in self.needs if not shutil.which(name)] + [PEER] * (PEER in self.command and not os.path.isdir(PEER))
        return f"there is no {absent[0]}" if absent else None


class In:
    """A command that a script of the gate runs: a text of that script shows where."""

    def __init__(self, script, text):
        self.script, self.text = script, text


def gate(text):
    """A command that is a line of the gate, or a part of one."""
    return In(".ci/run", text)


def bench(script, *words, text=" lines, "):
    """A script that measures, on a share of its sizes."""
    return Run(f"python3 bench/{script}.py --share 500 {' '.join(words)}", text)


def in_crate(command, text="", status=0):
    return Run(command, text, status, "crates/small")


def peer(words, text):
    """The script that times the program beside the peer, on a share of its sizes."""
    return Run(f"python3 bench/peer.py {PEER} --share 500 --runs 2 {words}", text, needs=("g++",))


def calls(script, call):
    """A script that makes calls of crates: one call, since its program is proved first."""
    return Run(f"python3 bench/{script}.py --share 500 {call}", call.split()[-1])


WRONG = Run("python3 tools/wrong_bodies.py small", "refused, as it must be", place=".")
BUILD = Run("./usdstage --build && test -x crates/usdstage/out/usdstage", "", place=".")
FLAT = Run("cd examples/shot && ../../usdstage flatten shot.usda", "#usda 1.0")
OPENED = Run("cd examples/shot && ../../usdstage session shot.usda </dev/null", "published 0: batches 0, prims 9")
PEER_RUN = peer("", "references to an asset")
OUT_OF_MEMORY = Run("python3 bench/out_of_memory.py --share 100", "with status 9", needs=("cc",))
VALGRIND = Run("valgrind --tool=callgrind --callgrind-out-file=FOLDER/counted crates/usdstage/out/usdstage flatten examples/shot/animation.usda", "Collected",
               needs=("valgrind",))

ROWS = {
    # the kit
    "rt doc": in_crate("rt doc", "START-HERE.md"),
    "rt version": in_crate("rt version", "logic"),
    "rt check": in_crate("rt check", "logic=proved"),
    "rattle check --progress": in_crate("rt check --progress", "logic=proved"),
    "--only NAME": in_crate("rt check --only echo"),
    "rt try --test": in_crate("rt try --test", "run="),
    "rt try": Run("rt try", "run=ended status=0", place="crates/usdstage"),
    "rt fmt": in_crate("rt fmt"),
    "rt tidy": in_crate("rt tidy"),
    "rt must-fail NAME": Run("rt must-fail small", "refused, as it must be", place="."),
    "rt plant": in_crate("rt plant --max 5 --minutes 1", "planted-in"),
    "rt verdict": in_crate("rt verdict", "logic=proved"),
    "rt test": in_crate("rt test", "tests=1"),
    "rt new crates/NAME start_lib": Run("rt new crates/another start_lib && test -f crates/another/src/lib.rt && rm -r crates/another", "root", place="."),
    "rt ci": gate("\nrt ci\n"),
    "RT_JOBS=4": Run("RT_JOBS=4 rt ci", " 0 failed", place="."),
    # the launcher and the program
    "./usdstage": In("tests/program.sh", 'expect "no words"'),
    "./usdstage help": In("tests/program.sh", '"$top/usdstage" help'),
    "./usdstage --build": BUILD,
    "./usdstage WORDS": In("tests/trial.py", '"flatten shot.usda"'),
    "(cd examples/shot && ../../usdstage flatten shot.usda)": FLAT,
    "flatten ROOT": FLAT,
    "session ROOT": OPENED,
    "usdstage session ROOT": OPENED,
    "--session LAYER": In("tests/program.sh", "flatten --session over.usda def.usda"),
    "--session=": In("tests/runs.py", "--session="),
    # the gate
    ".ci/run": gate("python3 tests/commands.py"),
    "python3 tests/edits.py": gate("python3 tests/edits.py"),
    **{f"tests/{name}": gate(f"tests/{name}") for name in ("transcripts.py", "trial.py", "program.sh", "scenes.py", "nodes.py", "runs.py", "sessions.py",
                                                           "lifetimes.py", "tables.py", "commands.py")},
    # tools
    "tools/build_program.py": BUILD,
    "tools/scratch_repository.py": WRONG,
    "tools/wrong_bodies.py": WRONG,
    "python3 tools/wrong_bodies.py NAME": WRONG,
    "python3 tools/wrong_bodies.py NAME ..": WRONG,
    "tools/try_program.py": In("tests/trial.py", '"try_program.py"'),
    "tools/stage_check.py": In("tests/stage_checks.py", '"stage_check.py"'),
    "tools/grammar.py": Run("python3 tools/grammar.py --check", "symbols"),
    "--check": Run("python3 tools/grammar.py --check", "symbols"),
    "tools/world_equations.py": Run("mkdir FOLDER/specs FOLDER/src && python3 tools/world_equations.py tests/worlds FOLDER a_class_below_itself", "worlds: "),
    "tools/chance_layers.py": Run("python3 tools/chance_layers.py >FOLDER/rows && PYTHONHASHSEED=7 python3 tools/chance_layers.py | cmp - FOLDER/rows && echo alike", "alike"),
    # benches
    "python3 bench/all.py": bench("all", "--built"),
    "--built": bench("all", "--built", "--only", "tree"),
    "--only CASE ..": bench("flatten", "--only", "tree", "wide"),
    "--help": Run("python3 bench/flatten.py --help", "--share"),
    "--share N": bench("flatten", "--only", "tree"),
    "--in FOLDER": calls("leaf_crates", "--in FOLDER path"),
    "measure.py": bench("flatten", "--only", "tree"),
    "hostile_inputs.py": gate("bench/hostile.py --quick"),
    "hostile.py": gate("bench/hostile.py --quick"),
    "bench/hostile.py": gate("bench/hostile.py --quick"),
    "--quick": gate("bench/hostile.py --quick"),
    "out_of_memory.py": OUT_OF_MEMORY,
    "peer.py": PEER_RUN,
    "python3 bench/peer.py PEER --runs 2": PEER_RUN,
    "--only defaults": peer("--only defaults", "publishes of one default"),
    "--only kinds --share 4": peer("--only kinds", "publishes of a class"),
    "valgrind --tool=callgrind": VALGRIND,
    **{f"{name}.py": bench(name) for name in ("flatten", "session", "opening", "views", "index")},
    **{f"python3 bench/{name}.py": bench(name) for name in ("flatten", "session", "opening", "index")},
    **{words: bench(words.split(".py ")[0], words.split(".py ")[1]) for words in (
        "session.py --only roots rules ruled names large_layer", "session.py --only prims", "session.py --only large_layer", "session.py --only roots",
        "session.py --only names", "session.py --only removed", "views.py --only overs", "views.py --only times", "views.py --only sites",
        "views.py --only names", "index.py --only chains", "index.py --only following", "index.py --only chosen", "index.py --only nested below",
        "index.py --only inside", "index.py --only classes", "index.py --only chains following chosen", "opening.py --only layered")},
    "--only rules": bench("session", "--only", "rules"),
    "--only ruled": bench("session", "--only", "ruled"),
    **{form: calls(name, call) for name, call in (("leaf_crates", "path"), ("layers", "make"), ("edits", "world"), ("text", "bytes"))
       for form in (f"{name}.py", f"python3 bench/{name}.py", f"bench/{name}.py")},
}
# forms of the table above in which no page names a script
for form in ("bench/leaf_crates.py", "bench/layers.py", "bench/edits.py", "python3 bench/edits.py"):
    ROWS.pop(form)


def pages():
    for place, folders, names in os.walk(TOP):
        folders[:] = sorted(name for name in folders if name not in (".git", "out", "crates"))
        yield from (os.path.join(place, name) for name in sorted(names) if name.endswith(".md"))


def commands_of(page):
    """The commands of a page, each with its line."""
    kind = None
    with open(page, encoding="utf-8") as file:
        for number, line in enumerate(file, 1):
            if line.startswith("```"):
                kind = line.strip("`\n") or "text" if kind is None else None
            elif kind == "sh":
                yield number, line.partition("#")[0].strip()
            elif kind is None:
                spans = (span.strip() for _, span in re.findall(r"(`+)(.+?)\1(?!`)", line))
                yield from ((number, span) for span in spans if COMMAND.match(span))


def misfits():
    """Commands without a row, rows without a command, and rows of the gate of which it has nothing."""
    named = {}
    for page in pages():
        for number, command in commands_of(page):
            named.setdefault(command, f"{os.path.relpath(page, TOP)}:{number}")
    yield from (f"{place}: no row says how `{command}` is run" for command, place in named.items() if command not in ROWS)
    yield from (f"no page has the command `{command}`" for command in ROWS if command not in named)
    with open(os.path.join(TOP, ".ci", "run"), encoding="utf-8") as file:
        run = file.read()
    for command, row in ROWS.items():
        if isinstance(row, In):
            with open(os.path.join(TOP, row.script), encoding="utf-8") as file:
                if row.text not in file.read() or row.script != ".ci/run" and row.script not in run:
                    yield f"`{command}` is no longer run by {row.script}"


def write_scratch(folder):
    """A repository of two small crates, with a test, wrong bodies, and the launcher and the tools of this one."""
    def ran(*words):
        subprocess.run(words, cwd=folder, check=True, stdout=subprocess.DEVNULL)

    os.makedirs(os.path.join(folder, ".git"))
    os.makedirs(os.path.join(folder, "crates", "usdstage", "src"))
    ran("rt", "new", "crates/small", "start_lib")
    with open(os.path.join(folder, "crates", "usdstage", "src", "main.rt"), "w", encoding="utf-8") as file:
        file.write(MAIN)
    for name in ("BUILD.bazel", "crates/small/BUILD.bazel"):
        os.remove(os.path.join(folder, name))
    with open(os.path.join(folder, "crates.txt"), "w", encoding="utf-8") as file:
        file.write("small:\nusdstage:\n")
    with open(os.path.join(folder, "crates", "small", "src", "lib.rt"), "a", encoding="utf-8") as file:
        file.write(TEST)
    for place in ("crates/small/must-fail", "wrong_bodies/small"):
        os.makedirs(os.path.join(folder, place))
        with open(os.path.join(folder, place, "it_gives_nothing.edit"), "w", encoding="utf-8") as file:
            file.write(EDIT)
    shutil.copytree(os.path.join(TOP, "tools"), os.path.join(folder, "tools"))
    for name in ("usdstage", "HANDLES"):
        shutil.copy2(os.path.join(TOP, name), folder)


def failure(row, scratch):
    """Why the command of a row failed; none where it did as the row says."""
    where = os.path.join(scratch, row.place) if row.place else TOP
    with tempfile.TemporaryDirectory(prefix="usdstage-") as folder:
        done = subprocess.run(["bash", "-c", row.command.replace("FOLDER", folder)], cwd=where, stdin=subprocess.DEVNULL, stdout=subprocess.PIPE,
                              stderr=subprocess.STDOUT, env={**os.environ, "PYTHONDONTWRITEBYTECODE": "1"})
    written = done.stdout.decode(errors="replace")
    if done.returncode == row.status and row.text in written:
        return None
    return f"status {done.returncode} (wanted {row.status}), `{row.text}` has to stand in: {written[-600:]}"


def run_each(rows, scratch):
    """Runs rows one after the other; how many passed, failed, and were not run."""
    counts = [0, 0, 0]
    for row in rows:
        begun, absent = time.monotonic(), row.absent()
        why = None if absent else failure(row, scratch)
        counts[2 if absent else 1 if why else 0] += 1
        told = f"not run, {absent}" if absent else f"FAILED: {why}" if why else "passed"
        print(f"{time.monotonic() - begun:6.1f} s  {row.command}: {told}", flush=True)
    return counts


def run_rows(only):
    """Runs each row once, however many commands it is of: those of the scratch repository beside the others."""
    picked = [row for command, row in ROWS.items() if isinstance(row, Run) and (not only or any(word in command for word in only))]
    rows = list({(row.command, row.place): row for row in picked}.values())
    placed, others = [row for row in rows if row.place], [row for row in rows if not row.place]
    with tempfile.TemporaryDirectory(prefix="usdstage-") as scratch, ThreadPoolExecutor(2) as threads:
        if placed:
            write_scratch(scratch)
        counts = threads.map(lambda some: run_each(some, scratch), (placed, others))
        return [sum(several) for several in zip(*counts)]


def main():
    words = argparse.ArgumentParser()
    words.add_argument("--pages", action="store_true")
    words.add_argument("--only", nargs="+", default=[], metavar="WORD")
    given = words.parse_args()
    wrong = list(misfits())
    print("".join(line + "\n" for line in wrong), end="")
    passed, failed, left = (0, 0, 0) if given.pages else run_rows(given.only)
    print(f"{passed} passed, {failed + len(wrong)} failed, {left} not run")
    return 1 if failed or wrong else 0


if __name__ == "__main__":
    sys.exit(main())
