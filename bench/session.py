#!/usr/bin/env python3
"""Times `usdstage session` on long scripts, on stages of 1,000 and 131,072 prims and of many root prims, in worlds of many load rules and
of many names, and on an empty script, and prints a table.

    python3 bench/session.py [PROGRAM] [--only CASE ..] [--share N]

Seconds are the processor's, and peak memory is that of the process. Four times the script should take little more than four times
the time. 65,537 batches are one more than a session takes; a script of the most bytes is read, and one of one byte more is refused; a
stage has no more than 262,143 prims at its root. Of the batches on 131,072 prims, on many root prims and in worlds of many names the time
without them is taken off, and of what is removed too.

A batch copies the names of the root prims of the layer that it edits (`roots`) and the names of the world (`names`): it takes the longer, the
more of them there are. Load rules it shares (`rules`, `ruled`). Four times as many removals (`removed`) take up to sixteen times as long, since
each goes over the names beside.
"""
from measure import Case, main, no_lines, path_in_tree, share, tree, unasked

PRIMS = 1000
LARGE = 131_072
MOST = 16777216


def path(i):
    return path_in_tree(i % PRIMS)


def sets(size):
    """Batches of a thousand `set` lines, up to about this many bytes, with a publish at the end."""
    out, length, i = [], 0, 0
    lines = share(1000)
    while length < size - 70 * lines:
        batch = "begin\n" + "".join(f"set @root.usda@ {path(i + k)}.a {i + k}\n" for k in range(lines)) + "commit\n"
        i += lines
        out.append(batch)
        length += len(batch)
    return "".join(out) + "publish\n"


def batch(prim, i):
    return f"begin\nset @root.usda@ {prim}.b {i}\ncommit\n"


def batches(count):
    """So many batches of one `set`, a multiple of four, with four publishes."""
    out = []
    for i in range(count):
        out.append(batch(path(i), i))
        if (i + 1) % max(count // 4, 1) == 0:
            out.append("publish\n")
    return "".join(out)


def large_batches(count):
    """So many batches of one `set`, each of another prim of a large tree."""
    return "".join(batch(path_in_tree(i * 7919 % share(LARGE)), i) for i in range(count))


def root_batches(count):
    """Five hundred batches of one `set`, each of another of so many root prims."""
    return "".join(batch(f"/s{i * 7919 % count}", i) for i in range(500))


def rule(i):
    return f"load /a{i}\n"


def rules(count):
    """So many batches, each of which sets another load rule."""
    return "".join(f"begin\n{rule(i)}commit\n" for i in range(count))


def all_rules(count):
    """A batch that sets so many load rules."""
    return "begin\n" + "".join(rule(i) for i in range(count)) + "commit\n"


def ruled(count):
    """A batch that sets so many load rules, and then 4,096 batches of one `set`."""
    return all_rules(count) + few_batches(count)


def few_batches(_count):
    """4,096 batches of one `set`."""
    return "".join(batch(path(i), i) for i in range(4096))


def removals(count):
    """A batch that removes so many root prims, one operation each, in an order that jumps."""
    return "begin\n" + "".join(f"remove @root.usda@ /s{i * 7919 % count}\n" for i in range(count)) + "commit\n"


def empty(count):
    return "begin\ncommit\n" * count


def comment(size):
    """A publish and a comment up to this many bytes."""
    return "publish\n#" + " " * (size - 9)


def stage(_size):
    return {"root": tree(PRIMS)}


def large_stage(_size):
    return {"root": tree(share(LARGE))}


def root_prims_with_values(count):
    return {"root": "".join(f'def "s{i}" {{ int b = 0 }}\n' for i in range(count))}


def named(count):
    """A stage in a world of so many names more, none of which has a file."""
    return {"root": tree(PRIMS) + "".join(f'over "r{i}" (delete references = @l/{i}.usda@) {{}}\n' for i in range(count))}


def root_prims(count):
    return {"root": "".join(f'def "s{i}" {{}}\n' for i in range(count))}


CASES = [
    Case("sets", "bytes of batches of 1,000 sets", (MOST // 4, MOST), stage, sets),
    Case("batches", "batches of one set", (16_384, 65_536), stage, batches),
    Case("large_layer", "batches of one set on 131,072 prims", (10_000, 40_000), large_stage, large_batches, unasked),
    Case("roots", "root prims, 500 batches of one set", (16_384, 65_536), root_prims_with_values, root_batches, unasked),
    Case("rules", "batches of one load rule", (4_096, 16_384), stage, rules),
    Case("ruled", "load rules, then 4,096 batches of one set", (4_096, 16_384), stage, ruled),
    Case("names", "names without files, 4,096 batches of one set", (1_000, 4_000), named, few_batches, unasked),
    Case("removed", "root prims, each removed, in one batch", (4_000, 16_000), root_prims, removals, unasked),
    Case("empty", "empty batches", (65_537,), stage, empty),
    Case("most", "bytes of a script that is a comment", (MOST, MOST + 1), stage, comment),
    Case("prims", "prims at the root", (65_536, 262_143), root_prims, no_lines),
]

if __name__ == "__main__":
    main(CASES)
