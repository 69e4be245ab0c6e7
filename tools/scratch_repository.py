"""Scratch repositories: some crates of this one and those below them, in a folder of their own, where `rt ci` proves several at a time.

What `rt ci` passes there is kept by the kit as what it passes here, so neither proves again what the other did. Must-fail edits are left
out: they prove nothing.
"""
import os
import shutil
import subprocess

TOP = os.path.dirname(os.path.dirname(os.path.abspath(__file__)))
LEFT_OUT = shutil.ignore_patterns("out", "must-fail")


def lines_of_crates():
    """The lines of crates.txt that name a crate, by its name."""
    with open(os.path.join(TOP, "crates.txt"), encoding="utf-8") as file:
        lines = [line for line in file if ":" in line and not line.startswith("#")]
    return {line.split()[0].rstrip(":"): line for line in lines}


def crates_below(names, lines):
    """These crates and all of the repository that they stand on."""
    found, left = set(), list(names)
    while left:
        name = left.pop()
        if name in lines and name not in found:
            found.add(name)
            left += lines[name].split(":")[1].split()
    return sorted(found)


def write(folder, names, more=()):
    """Writes these crates and those below them into a folder, with their lines of crates.txt, further lines, and the handles allowed."""
    lines = lines_of_crates()
    crates = crates_below(names, lines)
    for crate in crates:
        shutil.copytree(os.path.join(TOP, "crates", crate), os.path.join(folder, "crates", crate), dirs_exist_ok=True, ignore=LEFT_OUT)
    with open(os.path.join(folder, "crates.txt"), "w", encoding="utf-8") as file:
        file.writelines([lines[crate] for crate in crates] + list(more))
    shutil.copyfile(os.path.join(TOP, "HANDLES"), os.path.join(folder, "HANDLES"))
    # it is the top of a repository, wherever it lies
    os.makedirs(os.path.join(folder, ".git"), exist_ok=True)


def prove(folder, log=None):
    """Proves the crates of a scratch repository, builds its programs, and tries the must-fail edits that stand there; what is printed goes
    to a file, if one is given. True where all passed."""
    return subprocess.run(["rt", "ci"], cwd=folder, stdin=subprocess.DEVNULL, stdout=log, stderr=log and subprocess.STDOUT).returncode == 0


def program_in(folder, name):
    """Where the program of a crate stands once it is built."""
    return os.path.join(folder, "crates", name, "out", name)
