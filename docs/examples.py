#!/usr/bin/env python3
"""Compares the example at the head of each library with the functions of crates/test_examples that
run it: prints each that differs.

    docs/examples.py

NAME_example runs the example of the crate NAME. A call of a function of test_examples, on one line,
stands for the lines of its body. The `use` lines are compared as sets of paths, and blank lines are
left out. Status 0: they are the same. 1: one differs, or has no function, or a function no example.
"""
import glob
import os
import re
import sys

os.chdir(os.path.join(os.path.dirname(os.path.abspath(__file__)), ".."))
if len(sys.argv) > 1:
    print(__doc__)
    sys.exit(0 if sys.argv[1] in ("-h", "--help") else 2)
FUNCTIONS = "crates/test_examples/src"
FUNCTION = re.compile(
    r"^(?:pub\(crate\) )?fn (\w+)(?:<[^(]*>)?\([^)]*\)[^{]*(?:^    requires [^\n]*\n)*\{\n(.*?)^\}$",
    re.MULTILINE | re.DOTALL,
)
CALL = re.compile(r"(\w+)(?:::<[^(]*>)?\([^;]*\)(?:\?;)?")
USE = re.compile(r"use ([\w:]+)::(?:(\w+)|\{(.*)\});")


def head_example(file):
    """The lines between "```rust" and "```" of the comment at the head of a file, or None."""
    head = [line[4:].rstrip() for line in open(file) if line.startswith("//!")]
    if "```rust" not in head:
        return None
    first = head.index("```rust") + 1
    return head[first:head.index("```", first)]


def functions():
    """Of each function the lines of its body, without the indent and the last line `Ok(())`."""
    found = {}
    for file in glob.glob(f"{FUNCTIONS}/*.rt"):
        for function in FUNCTION.finditer(open(file).read()):
            body = function[2].removesuffix("    Ok(())\n")
            found[function[1]] = [line[4:] for line in body.splitlines()]
    return found


def run_by(name, bodies):
    """The lines that a function runs: those of the functions that it calls are in their places."""
    lines = []
    for line in bodies[name]:
        call = CALL.fullmatch(line)
        lines += run_by(call[1], bodies) if call and call[1] in bodies else [line]
    return lines


def parts(lines):
    """The paths that an example uses, and its other lines."""
    paths, others = set(), []
    for line in filter(None, lines):
        use = USE.fullmatch(line)
        if use:
            paths.update((use[1], name) for name in (use[2] or use[3]).split(", "))
        else:
            others.append(line)
    return paths, others


def difference(crate, bodies):
    """How the example of a crate differs from its function, or None."""
    example = head_example(f"crates/{crate}/src/lib.rt")
    function = f"{crate}_example"
    if example is None:
        return "has no example" if function in bodies else None
    if function not in bodies:
        return "has no function"
    return None if parts(example) == parts(run_by(function, bodies)) else "differs"


def main():
    bodies = functions()
    libraries = {file.split("/")[1] for file in glob.glob("crates/*/src/lib.rt")}
    named = {name.removesuffix("_example") for name in bodies if name.endswith("_example")}
    found = {crate: difference(crate, bodies) for crate in sorted(libraries)}
    found.update((name, "a function, and no such library") for name in named - libraries)
    wrong = {crate: what for crate, what in found.items() if what}
    for crate, what in wrong.items():
        print(f"{crate}: {what} (crates/{crate}/src/lib.rt, {FUNCTIONS})")
    sys.exit(1 if wrong else 0)


main()
