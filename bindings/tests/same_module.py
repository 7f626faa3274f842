#!/usr/bin/env python3
"""Succeeds if each two lists of words are the same module: the same items of each kind in the same order, though items
of different kinds may stand otherwise. Then it also requires that every item of the header is in one of the modules.

    same_module.py HEADER FILE FILE [FILE FILE]..
"""

import re
import sys

TYPES, FORMS = range(16, 30), 34
PARTS = range(40, 50)
GLOBAL_VARIABLES = 34, 50


def items_of(words):
    """The items, by the function that has them and by kind."""
    items, function, at = {}, None, 0
    while at < len(words):
        opcode, count = words[at] & 0xFF, words[at] >> 8
        item = words[at:at + 1 + count]
        if opcode in (35, 36):
            function = (opcode, sum(1 for owner, kind in items if kind == opcode and owner))
            items[(function, opcode)] = [item]
        else:
            is_part = opcode >= 128 or opcode in PARTS
            items.setdefault((function if is_part else None, kind_of(opcode)), []).append(item)
        at += 1 + count
    return items


def kind_of(opcode):
    if opcode in TYPES:
        return "type"
    if opcode in GLOBAL_VARIABLES:
        return "global variable"
    if 64 <= opcode < 128:
        return "global expression"
    if 128 <= opcode < 192:
        return "expression"
    return "statement" if opcode >= 192 else opcode


def opcodes_of(header):
    """The opcodes that the header names, with one for each form of expression of a function."""
    text = open(header, encoding="utf-8").read()
    named = {int(value) for value in re.findall(r"NAGA_CHECK_(?:OP|STATEMENT)_\w+ = (\d+)", text)}
    forms = {int(value) for value in re.findall(r"NAGA_CHECK_FORM_\w+ = (\d+)", text)}
    return named - {64, 128} | {128 + form for form in forms}


def main():
    header, *paths = sys.argv[1:]
    there = set()
    for pair in zip(paths[::2], paths[1::2]):
        these, those = (items_of([int(line) for line in open(path, encoding="utf-8")]) for path in pair)
        differing = [key for key in these.keys() | those.keys() if these.get(key) != those.get(key)]
        if differing:
            key = differing[0]
            sys.exit(f"same_module: {key} is {these.get(key)} and {those.get(key)}")
        there |= {item[0] & 0xFF for items in these.values() for item in items}
    missing = opcodes_of(header) - there
    # Without flags, and with overrides that still lack values, the modules have all else.
    if missing - {1, 3}:
        sys.exit(f"same_module: no item has the opcodes {sorted(missing)}")


if __name__ == "__main__":
    main()
