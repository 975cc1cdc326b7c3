#!/usr/bin/env python3
"""Counts the ways down through crates.txt, and tells which names of libraries make most of them.

usage: bench/paths.py [LINES]    the LINES costliest names, 20 where it is left out

Before and after it proves a crate, `rt ci` sums up the files of the crate and of each crate below it, once for each way down, so
its own minutes grow with the ways and not with the crates. A name can go from a crate's line where another library of that line
passes on, by `pub use`, what the crate uses of it; that library is printed beside it.
"""
import os, sys

TOP = os.path.dirname(os.path.dirname(os.path.abspath(__file__)))

def read_names():
    """The repository's libraries that each crate names, each crate after those that it names."""
    names = {}
    with open(f"{TOP}/crates.txt", encoding="utf-8") as file:
        for line in file:
            crate, colon, libraries = line.partition("#")[0].partition(":")
            if colon:
                names[crate.split()[0]] = libraries.split()
    ordered = {}

    def add(crate):
        if crate not in ordered:
            libraries = [it for it in names[crate] if it in names]
            for it in libraries:
                add(it)
            ordered[crate] = libraries

    for crate in names:
        add(crate)
    return ordered

def main(words):
    names = read_names()
    down, below, up = {}, {}, dict.fromkeys(names, 1)
    for crate, libraries in names.items():
        down[crate] = 1 + sum(down[it] for it in libraries)
        below[crate] = set(libraries).union(*(below[it] for it in libraries))
    for crate in reversed(names):
        for it in names[crate]:
            up[it] += up[crate]
    print(f"{sum(down.values()):,} ways down from {len(names)} crates")
    found = []
    for crate, libraries in names.items():
        for library in libraries:
            through = [it for it in libraries if library in below[it]]
            if through:
                found.append((up[crate] * down[library], crate, library, through))
    for ways, crate, library, through in sorted(found, reverse=True)[: int(words[0]) if words else 20]:
        print(f"{ways:9,}  {crate} names {library}, which stands below {', '.join(through)}")

if __name__ == "__main__":
    main(sys.argv[1:])
