#!/usr/bin/env python3
"""Makes sure that what a module is made of may grow in the Rust crate, and that a host can build it all the same: each
public struct and enum of these files is `#[non_exhaustive]`, and each struct has a constructor or constants. Those to
which nothing can be added are named in the documentation of the crate.

    may_grow.py FOLDER
"""

import re
import sys

FILES = "bindings built_in expressions module operators stages statements storage_format types".split()
CLOSED = {"Scalar", "VectorSize", "SwizzleComponent", "CooperativeRole"}


def main():
    folder = sys.argv[1]
    text = "".join(open(f"{folder}/{name}.rs", encoding="utf-8").read() for name in FILES)
    found = re.findall(r"((?:^ *#\[.*\]\n)*)^ *pub (struct|enum) (\w+)", text, re.MULTILINE)
    crate = open(f"{folder}/lib.rs", encoding="utf-8").read()
    wrong = [f"{name} is not in the documentation of the crate" for name in CLOSED if f"[`{name}`]" not in crate]
    for attributes, kind, name in found:
        if ("#[non_exhaustive]" in attributes) == (name in CLOSED):
            wrong.append(f"{name} is {'' if name in CLOSED else 'not '}non_exhaustive")
        own = re.findall(rf"^impl {name} \{{(.*?)^\}}", text, re.MULTILINE | re.DOTALL)
        if kind == "struct" and not re.search(r"pub (const [A-Z]|(const )?fn (new|at)\()", "".join(own)):
            wrong.append(f"no host can build {name}")
    for line in wrong:
        print(f"may_grow: {line}")
    print(f"may_grow: {len(found)} structs and enums, {len(wrong)} wrong")
    sys.exit(bool(wrong) or len(found) < 30)


main()
