#!/usr/bin/env python3
"""Turns the text form of a wiring file (standard input) into its bytes (standard output).

A line is `sizes N Q`, `put FROM LETTER TO`, `strike FROM LETTER TO`, `query TEXT`, or `bytes HEX` for bytes as they
stand; `#` at its start makes it a comment. docs/FORMAT.md has the bytes.
"""
import struct
import sys


def record(kind, payload):
    return struct.pack("<HH", len(payload), kind) + payload


def wire(words):
    return struct.pack("<HBH", int(words[1]), ord(words[2]) - ord("a"), int(words[3]))


def main():
    out = b""
    for line in sys.stdin.read().splitlines():
        words = line.split()
        if not words or line.startswith("#"):
            continue
        if words[0] == "sizes":
            out += record(1, struct.pack("<HH", int(words[1]), int(words[2])))
        elif words[0] == "put":
            out += record(2, wire(words))
        elif words[0] == "strike":
            out += record(3, wire(words))
        elif words[0] == "query":
            out += record(4, words[1].encode())
        elif words[0] == "bytes":
            out += bytes.fromhex("".join(words[1:]))
        else:
            sys.exit("unknown line: " + line)
    sys.stdout.buffer.write(out)


main()
