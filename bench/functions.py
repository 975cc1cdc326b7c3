#!/usr/bin/env python3
"""Measures the functions of crates: proves each crate once more, alone, and prints the seconds of its slowest functions.

usage: bench/functions.py [--tests] CRATE..

With --tests it proves the crate's tests. The libraries below have to be there as `rt check` or `rt ci` leaves them in crates/*/out.

A function's seconds are those of all that the prover makes of it: its code as the logic has it, its contract and its proof. They
are the times between the files that the prover writes as it ends each. (The lines of `rattle check --progress` tell something
else: what is made of the callers of a function stands on that function's line.) They are wall seconds, so nothing else should run.
"""
import collections, os, re, shutil, subprocess, sys, tempfile

TOP = os.path.dirname(os.path.dirname(os.path.abspath(__file__)))
MOST = 10

def read_uses():
    """Which libraries each crate names, by crates.txt."""
    with open(f"{TOP}/crates.txt") as file:
        lines = [line.split("#")[0].split(":", 1) for line in file]
    return {line[0].split()[0]: line[1].split() for line in lines if len(line) == 2}

def below(uses, crate, found):
    """Adds the crates of this repository that a crate stands on."""
    for name in uses[crate]:
        if name in uses and name not in found:
            found.append(name)
            below(uses, name, found)
    return found

def library(crate):
    folder = f"{TOP}/crates/{crate}/out/rlib/{crate}.rlib"
    if not os.path.isdir(folder):
        sys.exit(f"{crate} has no library: run `rt check` in crates/{crate} first, or `rt ci` here")
    return folder

def words_of(uses, crate, kit, room, tests):
    """The words that prove a crate, each of its files of proofs into the room."""
    root = next(it for it in ["src/main.rt", "src/lib.rt"] if os.path.exists(f"{TOP}/crates/{crate}/{it}"))
    words = [f"{kit}/bin/rattle", "check", "--crate-name", crate, root, "-L", f"dependency={kit}/rlibs"]
    for name in ["std", *uses[crate]]:
        words += ["--extern", f"{name}={library(name) if name in uses else f'{kit}/rlibs/{name}.rlib'}"]
    for name in below(uses, crate, []):
        words += ["-L", f"dependency={os.path.dirname(library(name))}"]
    words += ["--antt-project", f"{kit}/rattle/logic/antt-project.json", "--logic-built", f"{kit}/logic_built"]
    return words + ["--incremental", room, *(["--test"] if tests else [])]

def function_of(file, crate):
    """The function of which a file has a part, or None for what is the whole crate's."""
    name = re.sub(r"(\.decls)?\.oantt$", "", file.removeprefix("Rattle-"))
    path = name.removeprefix(f"{crate}-proofs.").split(".")
    return "::".join(path[:-1]) if name.startswith(f"{crate}-proofs.") and len(path) > 1 else None

def seconds(room, crate):
    """The seconds of each function: a file's are those since the file before it."""
    files = sorted((os.stat(f"{at}/{name}").st_mtime, name) for at, _, names in os.walk(room) for name in names)
    found = collections.Counter()
    for (before, _), (now, name) in zip(files, files[1:]):
        function = function_of(name, crate)
        if function:
            found[function] += now - before
    return found

def measure(uses, crate, kit, tests):
    room = tempfile.mkdtemp(prefix="petal-functions-")
    try:
        ran = subprocess.run(words_of(uses, crate, kit, room, tests), cwd=f"{TOP}/crates/{crate}", capture_output=True, text=True)
        if ran.returncode:
            sys.exit(f"{crate} is not proved:\n{(ran.stdout + ran.stderr)[-2000:]}")
        for function, took in seconds(room, crate).most_common(MOST):
            print(f"{took:6.1f} {crate}::{function}", flush=True)
    finally:
        shutil.rmtree(room, ignore_errors=True)

def main():
    tests, crates = "--tests" in sys.argv[1:], [it for it in sys.argv[1:] if it != "--tests"]
    uses, rt = read_uses(), shutil.which("rt")
    if not crates or set(crates) - set(uses):
        sys.exit(__doc__)
    if not rt:
        sys.exit("this needs Rattle's command rt on the PATH")
    for crate in crates:
        measure(uses, crate, os.path.dirname(os.path.dirname(os.path.realpath(rt))), tests)

if __name__ == "__main__":
    main()
