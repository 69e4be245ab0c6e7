#!/usr/bin/env python3
"""Runs the commands of every transcript in the pages (README.md, CONTRIBUTING.md, docs/ and bench/README.md), or in those that are named,
and compares what they write with what stands there.

A transcript is a block of the kind `console`: a line that begins with `$ ` is a command, what follows up to the next one is what it
writes, on standard output and standard error together. Each block begins at the top of the repository; `$ cd FOLDER` goes to a folder.
"""
import os
import subprocess
import sys

TOP = os.path.dirname(os.path.dirname(os.path.abspath(__file__)))


def blocks(path):
    """The blocks of a document: the number of the first line, and the lines."""
    found, inside = [], None
    with open(path) as file:
        for number, line in enumerate(file.read().split("\n"), 1):
            if inside is None and line == "```console":
                inside = (number + 1, [])
            elif inside is not None and line == "```":
                found.append(inside)
                inside = None
            elif inside is not None:
                inside[1].append(line)
    return found


def commands(lines):
    """The commands of a block, each with what it is to write."""
    found = []
    for line in lines:
        if line.startswith("$ "):
            found.append((line[2:], []))
        else:
            found[-1][1].append(line)
    return found


def run(command, folder):
    """What a command writes, in lines."""
    ran = subprocess.run(["bash", "-c", command], cwd=folder, capture_output=True, timeout=600)
    text = (ran.stdout + ran.stderr).decode()
    return text.removesuffix("\n").split("\n") if text else []


def differences(path):
    """The number of commands of a document, and those that write something else."""
    count, wrong = 0, []
    for start, lines in blocks(path):
        folder = TOP
        for command, wanted in commands(lines):
            if command.startswith("cd "):
                folder = os.path.join(folder, command[3:])
                continue
            count += 1
            got = run(command, folder)
            if got != wanted:
                wrong.append((start, command, wanted, got))
    return count, wrong


def main():
    pages = sorted("docs/" + name for name in os.listdir(os.path.join(TOP, "docs")) if name.endswith(".md"))
    documents = sys.argv[1:] or ["README.md", "CONTRIBUTING.md"] + pages + ["bench/README.md"]
    total, failed = 0, 0
    subprocess.run([os.path.join(TOP, "usdstage"), "--build"], check=True)  # a trial says that it is one
    for document in documents:
        count, wrong = differences(os.path.join(TOP, document))
        total += count
        failed += len(wrong)
        if count:
            print(f"{document}: {count} commands")
        for start, command, wanted, got in wrong:
            line = next((k for k in range(min(len(wanted), len(got))) if wanted[k] != got[k]), min(len(wanted), len(got)))
            print(f"{document}, the block at line {start}: $ {command}")
            print("  stands there:", wanted[line] if line < len(wanted) else "(nothing more)")
            print("  is written:  ", got[line] if line < len(got) else "(nothing more)")
    print(f"{total - failed} passed, {failed} failed")
    sys.exit(1 if failed else 0)


if __name__ == "__main__":
    main()
