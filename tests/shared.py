"""What scripts of this folder share: the program that they run, and the layers that they write."""
import os
import subprocess
import sys

TOP = os.path.dirname(os.path.dirname(os.path.abspath(__file__)))
FIRST = "#usda 1.0\n"
# the program: the script's first word where it has one, and else the command of the repository, after `./usdstage --build`: a trial says that it
# is one, which is not what is wanted here
PROGRAM = os.path.abspath(sys.argv[1]) if len(sys.argv) > 1 else os.path.join(TOP, "usdstage")
# the program itself, for runs in so little memory that the command does not run
BUILT = PROGRAM if len(sys.argv) > 1 else os.path.join(TOP, "crates", "usdstage", "out", "usdstage")


def write(folder, layers):
    """Writes layers by name, each behind its first line; a name has no `.usda`."""
    for name, text in layers.items():
        with open(os.path.join(folder, name + ".usda"), "w", encoding="utf-8") as file:
            file.write(FIRST + text)


def run(folder, words, script=""):
    return subprocess.run([PROGRAM, *words], cwd=folder, input=script.encode(), capture_output=True, timeout=600)
