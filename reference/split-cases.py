#!/usr/bin/env python3
"""Writes each case of a case file as two files: its words, decimal in a line, and its tape.

usage: split-cases.py CASES FOLDER

Case number N, counted from 1, becomes FOLDER/N.words and FOLDER/N.tape.
"""
import os
import struct
import sys


def main():
    if len(sys.argv) != 3:
        print(__doc__, file=sys.stderr)
        sys.exit(2)
    with open(sys.argv[1], "rb") as source:
        content = source.read()
    at = number = 0
    while at < len(content):
        number += 1
        *words, length = struct.unpack_from("<5I", content, at)
        at += 20
        with open(os.path.join(sys.argv[2], f"{number}.words"), "w") as target:
            print(*words, file=target)
        with open(os.path.join(sys.argv[2], f"{number}.tape"), "wb") as target:
            target.write(content[at:at + length])
        at += length


main()
