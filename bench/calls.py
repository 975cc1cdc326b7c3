#!/usr/bin/env python3
"""Counts the calls of its data device that a server makes for a write of a client that it leads, with copies on servers 0 and 1 of five: by
bisection of the K at which `op stop 0 at K` is met, which shows once server 1 is stopped too. Counted are 960 writes by eight clients over 8
blocks, whose marks stay from write to write, and over 256 blocks, whose marks mostly do not. Ends with 1 where a write over 8 blocks takes more
than 8 calls.

usage: bench/calls.py   (petal must be built: ./petal prove)
PETAL=COMMAND tries another program.
"""
import os, shlex, subprocess, sys

TOP = os.path.dirname(os.path.dirname(os.path.abspath(__file__)))
PETAL = shlex.split(os.environ.get("PETAL", f"{TOP}/petal")) + ["run"]
CLIENTS = "abcdefgh"
WRITES, FEW, MANY, MOST_CALLS = 960, 8, 256, 8
CALLS_BELOW = 1 << 15

def script_of(blocks, call):
    """Server 0 leads the even blocks. The block that is read is never written, so its read makes no call."""
    lines = ["servers 5 slots 1024", "a disk vol on 0 1", "wait", f"op stop 0 at {call}", "wait"]
    lines += [f"{CLIENTS[number % 8]} write vol {2 * (number % blocks)} fill {number % 256}" for number in range(WRITES)]
    lines += ["wait", "op stop 1", "wait", f"a read vol {2 * MANY}"]
    return "".join(line + "\n" for line in lines).encode()

def is_met(blocks, call):
    """Whether server 0 makes so many calls."""
    ran = subprocess.run(PETAL, input=script_of(blocks, call), capture_output=True, check=True)
    answers = [line.split(b": ")[1] for line in ran.stdout.splitlines()]
    if len(answers) != WRITES + 4 or set(answers[:-1]) != {b"ok"}:
        sys.exit(f"the writes were not answered: {set(answers[:-1])}")
    return answers[-1] == b"unavailable"

def calls_of(blocks):
    """How many calls server 0 makes. Without writes it makes none."""
    met, unmet = 0, CALLS_BELOW
    while unmet - met > 1:
        middle = (met + unmet) // 2
        met, unmet = (middle, unmet) if is_met(blocks, middle) else (met, middle)
    return met

def main():
    each = {blocks: calls_of(blocks) / WRITES for blocks in (FEW, MANY)}
    for blocks, calls in each.items():
        print(f"{WRITES} writes over {blocks} blocks: {calls:.1f} calls each")
    if each[FEW] > MOST_CALLS:
        sys.exit(f"that is more than {MOST_CALLS}")

main()
