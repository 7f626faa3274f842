#!/usr/bin/env python3
"""Compares the bytes of heap that kinds of items take, as heap.c prints them, with the table of docs/HOSTS.md: no kind
may take more than the page says, and none less than half of that.

    heap | heap_table.py HOSTS
"""

import re
import sys


def main():
    page = open(sys.argv[1], encoding="utf-8").read()
    said = {name: (int(words), int(most)) for name, words, most in re.findall(r"^\| (\w[\w ]*) \| (\d+) \| (\d+) \|$", page,
                                                                             re.MULTILINE)}
    wrong = 0
    measured = [line.rstrip("\n").split(" | ") for line in sys.stdin]
    for name, words, most in measured:
        length, bound = said.get(name, (0, 0))
        if length != int(words) or not bound // 2 <= int(most) <= bound:
            print(f"heap_table: {name}: {words} words, {most} bytes for one; the page says {length} and {bound}")
            wrong += 1
    print(f"heap_table: {len(measured)} kinds, {wrong} not as the page says")
    sys.exit(wrong > 0 or not measured)


main()
