#!/usr/bin/env python3
"""What the compiler is given of the library for a program, and the divisions in it.

usage: cost/given.py CALLS REACHED KIT CRATE..

CALLS is what `rt check --list-calls` says of the program, KIT the toolchain's folder, and each CRATE one of the library's. Given is what
the program calls of these crates, and what that calls in turn, of the toolchain's libraries too: the proved code that each built library
has in its mir.json. The names go into the file REACHED, a line for each. What stands in the way of "no division but by a constant power
of two" is printed, a line for each place, and then how much there was to look at.
"""
import json
import os
import sys

calls, reached, kit, *library = sys.argv[1:]
code = {}
read = set()


def code_of(name):
    """The code of a function by its whole name, or None."""
    crate = name.split("::")[0]
    if crate not in read:
        read.add(crate)
        rlib = f"crates/{crate}/out/rlib" if crate in library else f"{kit}/rlibs"
        file = f"{rlib}/{crate}.rlib/toolchain/mir.json"
        if os.path.exists(file):
            with open(file) as functions:
                code.update(json.load(functions))
    return code.get(name)


def parts_of(tree):
    """Each word in a function's code, with what stands under it."""
    if isinstance(tree, dict):
        yield from tree.items()
        tree = list(tree.values())
    if isinstance(tree, list):
        for below in tree:
            yield from parts_of(below)


def is_power(operand):
    """Whether an operand is a constant power of two."""
    if "Int" in operand:
        number = operand["Int"]["value"]
        return number > 0 and number & (number - 1) == 0
    # An f64 is given by its bits: the lowest 52 are clear in a power of two.
    return "Float" in operand and operand["Float"]["bits"] % 2**52 == 0


def look_at(name, tree):
    """The functions that one calls, the places that are found in it, and how many other divisions there are."""
    # What it calls through a bound is a method of an impl that it names, or that its callers name.
    called = [method for impl in tree["generics"]["impls"] for method in impl["methods"]]
    places, powers = [], 0
    for word, below in parts_of(tree):
        if word == "Fn":
            called.append(below[0])
        if word in ("CallV", "VtMethod"):
            places.append(f"  {name}: a call through a pointer, which is not looked into")
        if word == "Op2" and any(it in str(below[0]) for it in ("Div", "Rem")):
            if is_power(below[2]):
                powers += 1
            else:
                places.append(f"  {name}: a division that is by no constant power of two")
    return called, places, powers


with open(calls) as lines:
    names = [it.strip() for it in lines if it.startswith("  ") and it.split("::")[0].strip() in library]
found = {}
powers = 0
while names:
    name = names.pop()
    if name in found:
        continue
    tree = code_of(name)
    called, found[name], more = look_at(name, tree) if tree else ([], [f"  {name}: its code is not there to look at"], 0)
    names += called
    powers += more
places = [it for name in sorted(found) for it in found[name]]
if not powers:
    places.append("  not one division: this is not how a library has its code")
print(*places, f"{len(found)} functions, {powers} divisions by a constant power of two", sep="\n")
with open(reached, "w") as file:
    file.writelines(f"{name}\n" for name in sorted(found))
