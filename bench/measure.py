"""What the scripts of this folder share: layers that they make, runs of a program with what they took, the table, and scratch repositories.

A script that needs the built program alone has a list of cases, CASES, and calls `main`. One that makes calls of crates has lines of
calls, TABLE, and what runs them in a scratch repository, `run`, and calls `calls`. `all.py` runs both kinds.

The program that makes the calls of a script is no crate of the repository, since nothing else needs it. So the script writes a scratch
repository with copies of the crates and the program, has `rt ci` prove and build it, which takes what it passed before as it is, and then
runs what was built. With --in the scratch repository stays in FOLDER.
"""
import argparse
import json
import os
import subprocess
import sys
import tempfile

TOP = os.path.dirname(os.path.dirname(os.path.abspath(__file__)))
sys.path.insert(0, os.path.join(TOP, "tools"))
import scratch_repository as scratch  # of the folder that was added

PROGRAM = scratch.program_in(TOP, "usdstage")
FIRST = "#usda 1.0\n"

# Shares

SHARE = 1  # how many times as small sizes are, as --share says


def with_share(words):
    """A command line that takes --share."""
    words.add_argument("--share", type=int, default=1, metavar="N", help="makes all sizes N times as small")
    return words


def taken(words):
    """What a command line says; its share holds from here on."""
    global SHARE
    given = words.parse_args()
    SHARE = max(given.share, 1)
    return given


def share(size):
    """A size as it is made: at least one, and N times as small with --share N."""
    return max(size // SHARE, 1)

# Layers


def two_attributes(i):
    return f'def Xform "p{i}" {{ int a = {i} int b = -{i}\n'


def tree(prims, prim=two_attributes):
    """A tree of so many prims, eight below each; `prim` is the text of one up to its children."""
    out = []

    def put(i):
        out.append(prim(i))
        for k in range(8 * i + 1, 8 * i + 9):
            if k < prims:
                put(k)
        out.append("}\n")

    put(0)
    return "".join(out)


def path_in_tree(i):
    """The path of a prim of `tree`."""
    names = []
    while i > 0:
        names.append(f"/p{i}")
        i = (i - 1) // 8
    return "/p0" + "".join(reversed(names))


def nested(count, body=""):
    """So many prims, each in the one before it, with this body."""
    return "".join(f'def "n{i}" {{ {body}\n' for i in range(count)) + "}\n" * count


def no_lines(_size):
    """The script of a session that is opened and no more."""
    return ""


def unasked(layers, _script):
    """The same session with an empty script."""
    return layers, ""


def listed(items):
    return "[" + ", ".join(items) + "]"


def write(folder, layers):
    """Writes layers by name, each behind its first line; a name has no `.usda`."""
    for name, text in layers.items():
        path = os.path.join(folder, name + ".usda")
        os.makedirs(os.path.dirname(path), exist_ok=True)
        with open(path, "w") as f:
            f.write(FIRST + text)


# Runs

# Runs a command in a small process of its own, so that the peak memory is the command's alone, and prints what it took. The words are
# the files for standard input, output and error, the processor's seconds after which it is ended, 0 for none, and the command.
MEASURE = """
import json, os, resource, sys
pid = os.fork()
if pid == 0:
    os.dup2(os.open(sys.argv[1], os.O_RDONLY), 0)
    os.dup2(os.open(sys.argv[2], os.O_WRONLY | os.O_CREAT | os.O_TRUNC), 1)
    os.dup2(os.open(sys.argv[3], os.O_WRONLY | os.O_CREAT | os.O_TRUNC), 2)
    if int(sys.argv[4]):
        resource.setrlimit(resource.RLIMIT_CPU, (int(sys.argv[4]), int(sys.argv[4])))
    os.execv(sys.argv[5], sys.argv[5:])
_, status, usage = os.wait4(pid, 0)
print(json.dumps([usage.ru_utime + usage.ru_stime, usage.ru_maxrss * 1024, os.waitstatus_to_exitcode(status)]))
"""


class Took:
    """The processor's seconds of a run, its peak memory in bytes, its exit status, and what it wrote and said."""

    def __init__(self, seconds, peak, status, out, err):
        self.seconds, self.peak, self.status, self.out, self.err = seconds, peak, status, out, err


def measured(command, folder, script="", bound=0):
    """Runs a command in a folder, with a script on standard input."""
    with tempfile.TemporaryDirectory() as streams:
        lines, out, err = (os.path.join(streams, name) for name in ("in", "out", "err"))
        with open(lines, "w") as f:
            f.write(script)
        said = subprocess.run([sys.executable, "-c", MEASURE, lines, out, err, str(bound), *command], cwd=folder, stdout=subprocess.PIPE, check=True)
        with open(out, "rb") as f, open(err) as g:
            return Took(*json.loads(said.stdout), f.read(), g.read())


# The table


def heading():
    print(f"{'input':54} {'bytes':>11} {'seconds':>9} {'MB/s':>8} {'growth':>8} {'peak MiB':>9} {'memory each':>11} {'status':>6}  written")


def line(name, length, seconds, growth, took, count, more):
    """Prints a line of the table: an input, its bytes where it has some, the seconds, how many times as long it takes as the input a
    quarter as large where there is one, and the peak memory, whole and for each of so many."""
    rate = "" if length is None else f"{length / 1e6 / max(seconds, 1e-3):.1f}"
    times = "" if growth is None else f"{growth:.1f}"
    print(f"{name:54} {'' if length is None else length:>11} {seconds:9.2f} {rate:>8} {times:>8} {took.peak / 2**20:9.1f} "
          f"{took.peak / count:11.0f} {took.status:>6}  {more}", flush=True)


# Cases


class Case:
    """An input of some sizes: a word that picks it, what it is, its sizes, the layers of a size, and the script of a size; without one
    the case is of `flatten`, else of `session`. The seconds of `less`, a run on other layers or without the script, are taken off."""

    def __init__(self, word, name, sizes, layers, script=None, less=None):
        self.word, self.name, self.sizes, self.layers, self.script, self.less = word, name, sizes, layers, script, less


def run_once(program, layers, script):
    with tempfile.TemporaryDirectory() as folder:
        write(folder, layers)
        return measured([program, "flatten" if script is None else "session", "root.usda"], folder, script or "")


def told(took, less):
    """What a run wrote, in words, and what was taken off its seconds, with the status of that run where it failed."""
    lines = took.out.split(b"\n")
    last = lines[-2].decode()[:60] if len(lines) > 1 else ""
    parts = [f"{took.out.count(10)} lines", f"{len(took.out)} bytes", f"last: {last}"]
    if less is not None:
        failed = f", whose status is {less.status}" if less.status else ""
        parts.insert(0, f"{took.seconds:.2f} s with the {less.seconds:.2f} s taken off{failed}")
    return ", ".join(parts + [took.err.strip()] * bool(took.err.strip()))


def run_case(program, case):
    """Prints a line for each size of a case; growth is told where a size is four times the one before it."""
    before = None
    for size in map(share, case.sizes):
        layers = case.layers(size)
        script = case.script(size) if case.script else None
        length = sum(len(FIRST) + len(text) for text in layers.values()) + len(script or "")
        took = run_once(program, layers, script)
        less = None if case.less is None else run_once(program, *case.less(layers, script))
        left = max(took.seconds - (less.seconds if less else 0), 0.0)
        growth = left / max(before[1], 1e-3) if before and 3.9 < size / before[0] < 4.5 else None
        line(f"{size:,} {case.name}", length, left, growth, took, size, told(took, less))
        before = size, left


def run_cases(program, cases, only):
    for case in cases:
        if not only or case.word in only:
            run_case(program, case)


def program_of(path):
    if not os.path.exists(path):
        sys.exit("build the program first: ./usdstage --build")
    sys.setrecursionlimit(10000)
    return os.path.abspath(path)


def main(cases, scripts=()):
    """The command line of a script with cases, and with scripts that make calls of crates, which run where no case is picked."""
    words = with_share(argparse.ArgumentParser())
    words.add_argument("program", nargs="?", default=PROGRAM)
    every = sorted({case.word for case in cases})
    words.add_argument("--only", nargs="+", default=[], metavar="CASE", choices=every, help=" ".join(every))
    if scripts:
        words.add_argument("--built", action="store_true", help="runs what needs the built program alone")
    given = taken(words)
    heading()
    run_cases(program_of(given.program), cases, given.only)
    if scripts and not given.only and not given.built:
        for script in scripts:
            with tempfile.TemporaryDirectory() as folder:
                script.run(folder, script.TABLE)


# Scratch repositories


def build(folder, name, uses, text):
    """Writes a scratch repository of the crates that a program uses, those below them and the program, has it proved and built, and gives
    the program's path."""
    scratch.write(folder, uses, [f"{name}: {' '.join(uses)}\n"])
    crate = os.path.join(folder, "crates", name)
    os.makedirs(os.path.join(crate, "src"), exist_ok=True)
    with open(os.path.join(crate, "src", "main.rt"), "w") as f:
        f.write(text)
    subprocess.run(["rt", "fmt"], cwd=crate, check=True, stdout=subprocess.DEVNULL)
    with open(os.path.join(folder, "build.log"), "w+") as log:
        if not scratch.prove(folder, log):
            log.seek(0)
            sys.exit("".join(log.readlines()[-20:]) + "the program that makes the calls was not built")
    return scratch.program_in(folder, name)


# Parts of programs that make calls

# The words of the program.
ARGUMENTS = """fn arguments(rt: &HostRuntime) -> Option<Vec<String>> {
    let args = env::args(rt).ok()?;
    let mut words = Vec::new(rt.alloc());
    for word in args {
        words.push(word).ok()?;
    }
    Some(words)
}
"""

# Makes a call, whose name and number of items are the words: there has to be `carried_out`, which gives a number or a `Fault`.
MAIN = ARGUMENTS + """
fn main(rt: HostRuntime) -> ExitCode {
    let Some(words) = arguments(&rt) else {
        return ExitCode::from(1);
    };
    let [_name, call, count, ..] = words.as_slice() else {
        return ExitCode::from(0);
    };
    let count = match count.as_str().parse::<usize>() {
        Ok(count) => count,
        Err(_) => return ExitCode::from(1),
    };
    match carried_out(rt.alloc(), call.as_str(), count) {
        Ok(length) => {
            let _ = println!(rt; "{length}");
            ExitCode::from(0)
        }
        Err(Fault::NoMemory) => ExitCode::from(2),
        Err(Fault::Unexpected) => ExitCode::from(3),
    }
}
"""

FAULT = """/// Why a call was not made.
enum Fault {
    NoMemory,
    Unexpected,
}

impl From<AllocError> for Fault {
    fn from(_error: AllocError) -> Fault {
        Fault::NoMemory
    }
}

impl<T: Drop> From<AllocFailed<T>> for Fault {
    fn from(_error: AllocFailed<T>) -> Fault {
        Fault::NoMemory
    }
}
"""

# Prims of a layer by number, with FAULT.
PRIMS = """/// The prim of a number below another.
fn child(owner: &Path, alloc: Global, number: usize) -> Result<Path, Fault> {
    let mut name = String::from_str(alloc, "prim_")?;
    name.push_str(number.to_string(alloc)?.as_str())?;
    if owner.is_property() {
        return Err(Fault::Unexpected);
    }
    match owner.append(name.as_str()) {
        Ok(path) => Ok(path),
        Err(PathFault::Bad { .. }) => Err(Fault::Unexpected),
        Err(PathFault::NoMemory) => Err(Fault::NoMemory),
    }
}

fn put(layer: &mut Layer, alloc: Global, path: &Path) -> Result<(), Fault> {
    if path.is_property() || path.is_root() {
        return Err(Fault::Unexpected);
    }
    match layer.put(path, Spec::blank(alloc, Specifier::Over)) {
        Ok(()) => Ok(()),
        Err(PutRefused::NoParent) => Err(Fault::Unexpected),
        Err(PutRefused::NoMemory) => Err(Fault::NoMemory),
    }
}
"""


def calls(table, run):
    """The command line of a script whose program makes calls: `--in FOLDER` keeps the scratch repository, other words pick lines of
    the table. `run` is given the folder and the lines that are picked."""
    words = with_share(argparse.ArgumentParser())
    words.add_argument("--in", dest="folder", metavar="FOLDER", help="where the scratch repository stays")
    words.add_argument("call", nargs="*", help=" ".join(line[0] for line in table))
    given = taken(words)
    picked = [entry for entry in table if not given.call or entry[0] in given.call]
    heading()
    if given.folder:
        os.makedirs(given.folder, exist_ok=True)
        run(os.path.abspath(given.folder), picked)
        return
    with tempfile.TemporaryDirectory() as folder:
        run(folder, picked)


def compare(program, table, unit, scale):
    """Prints how long each call takes on so many items, and on four times as many. A line of the table has the call, what comes before it
    and is taken off, the number of items, and how often the call is made on them; what one call takes is told in a unit, of which a second
    has so many."""
    for call, before, count, times in table:
        shorter = None
        for items in (share(count), 4 * share(count)):
            took = measured([program, call, str(items)], ".")
            first = measured([program, before, str(items)], ".").seconds if before else 0
            seconds = max(took.seconds - first, 0)
            growth = None if shorter is None else seconds / max(shorter, 1e-3)
            line(f"{items:,} items: {call}", None, seconds, growth, took, items, f"{seconds * scale / times / items:.2f} {unit} an item, {times} times")
            shorter = seconds
