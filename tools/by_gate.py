"""Crates proved by `rt ci`, as in the gate, on a copy of the repository that has these alone, and the libraries that it leaves there.

A check loads then what the crates below it promise, and not how that was proved. What is proved is kept beside the kit, crate by crate.
"""
import contextlib
import functools
import importlib.machinery
import os
import re
import shutil
import subprocess
import sys
import types

import lanes

# What `rt` says of its `ci` where that keeps what it proved.
KEEPS = "What a run passed is kept"
# What `rt ci` says of a crate that it did not come to.
LEFT_OUT = " NOT PROVED: its library "
# The end of what it says of another.
ENDED = re.compile(r"rt: (\w+) (?:(proved|is kept)\b|NOT PROVED)")
HOW = {"stdout": subprocess.PIPE, "stderr": subprocess.STDOUT, "text": True, "errors": "replace"}


def keeps():
    """Returns whether `rt ci` keeps what it proved, so that another run goes on from there."""
    return KEEPS in subprocess.run(["rt"], **HOW).stdout


def copy_crates(crates, names, top):
    """Copies these crates to a repository of their own, without must-fail edits and what was built."""
    for name in names:
        shutil.copytree(f"{crates.top}/crates/{name}", f"{top}/crates/{name}", ignore=shutil.ignore_patterns("out", "must-fail"))
    with open(f"{crates.top}/crates.txt", encoding="utf-8") as it:
        lines = [line for line in it if line.partition(":")[0].split()[:1] in [[name] for name in names]]
    with open(f"{top}/crates.txt", "w", encoding="utf-8") as it:
        it.writelines(lines)
    shutil.copy2(f"{crates.top}/HANDLES", f"{top}/HANDLES")
    shutil.copytree(f"{crates.top}/tools", f"{top}/tools")


@contextlib.contextmanager
def running(top, checks):
    """Runs `rt ci` on a copy, with checks that give way to those that more waits for. In the end it is ended, if it has not ended."""
    begun = [subprocess.Popen([f"{top}/tools/give_way", checks])]
    try:
        ran = subprocess.Popen(["rt", "ci"], cwd=top, env={**os.environ, "RT_JOBS": str(lanes.places())}, **HOW)
        begun.append(ran)
        yield ran
    finally:
        for it in begun:
            it.terminate()


def told(lines, top):
    """Yields each crate of which `rt ci` tells: its name, `proved`, `is kept` or nothing, and all that was said of it; at last no name, and what belongs to none."""
    block = []
    for line in lines:
        if LEFT_OUT not in line:
            block.append(line.replace(top, lanes.TOP))
            ended = ENDED.match(line)
            if ended:
                yield ended[1], ended[2], "".join(block)
                block = []
    yield None, None, "".join(block)


@functools.cache
def kit():
    """Returns the kit's own module of crates."""
    file = os.path.join(os.path.dirname(os.path.realpath(shutil.which("rt"))), "rtlib.py")
    module, sys.dont_write_bytecode = types.ModuleType("rtlib"), True
    module.__file__ = file
    importlib.machinery.SourceFileLoader("rtlib", file).exec_module(module)
    return module


def stamp(top, name):
    """Says of a library that `rt ci` built on a copy that it is what its files make, as `rt lib` says of one that it built, so that checks there take it as it is."""
    folder = f"{top}/crates/{name}"
    with open(f"{folder}/out/rlib/stamp", "w", encoding="utf-8") as it:
        it.write(kit().Crate(folder, top, {}).stamp())
