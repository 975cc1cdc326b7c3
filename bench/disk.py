#!/usr/bin/env python3
"""Times a disk in memory: appends of 64-byte records to a journal, or writes of a store of 1,024 slots, and opening it again after them.
Each write is a mark, a put and an old mark that goes, 64 of these by one commit. Of a store also how long its journal takes to turn beside as
many marks as there may be. COUNT is 65,536 appends or 1,000,000 writes where none is given. Ends with 1 where a write of the store takes more
than 1.2 times as long as one of the first 10,048, or a turn more than 5 ms.

usage: bench/disk.py journal|store [COUNT]
Builds the program where it isn't built, which proves it first. BENCH=COMMAND times another program.
"""
import os, shlex, subprocess, sys, time

TOP = os.path.dirname(os.path.dirname(os.path.abspath(__file__)))
TRIES = 3
FIRST, MOST_TIMES = 10_048, 1.2
HALF_RECORDS, KEPT, CHANGES, MOST_TURN = 32_767, 1_023 + 28_671, 200_000, 0.005

def built():
    """The program, as a list of words."""
    if "BENCH" in os.environ:
        return shlex.split(os.environ["BENCH"])
    folder = f"{TOP}/crates/disk_bench"
    program = f"{folder}/out/disk_bench"
    if not os.path.exists(program):
        subprocess.run(["rt", "run", "disk_bench", "--", "store", "fill", "0"], cwd=folder, check=True, stdout=subprocess.DEVNULL)
    return [program]

def seconds(program, *words):
    """The least wall time of some tries."""
    times = []
    for _ in range(TRIES):
        start = time.perf_counter()
        subprocess.run([*program, *map(str, words)], check=True, stdout=subprocess.DEVNULL)
        times.append(time.perf_counter() - start)
    return min(times)

def time_opening(program, what, count, start_up):
    """What so many acts take beyond the start-up. Prints it, and what opening takes."""
    filled = seconds(program, what, "fill", count) - start_up
    both = seconds(program, what, "open", count) - start_up
    print(f"{what}, {count:,} times: {filled * 1000:.0f} ms; opening: {(both - filled) * 1000:.0f} ms; start-up {start_up * 1000:.0f} ms")
    return filled

def time_turn(program):
    """What a turn takes that copies the records of as many entries and marks as there may be but one."""
    took = {act: seconds(program, "store", act, CHANGES) - seconds(program, "store", act, 0) for act in ("mark", "turn")}
    turns = 2 * CHANGES // (HALF_RECORDS - KEPT)
    one = (took["turn"] - took["mark"]) / turns
    print(f"a turn of {KEPT:,} records: {one * 1000:.2f} ms, of {turns} turns")
    return one

def time_store(program, count):
    start_up = seconds(program, "store", "fill", 0)
    first = (seconds(program, "store", "fill", FIRST) - start_up) / FIRST
    each = time_opening(program, "store", count, start_up) / count
    print(f"a write: {each * 1e6:.1f} us, {each / first:.2f} times one of the first {FIRST:,}, {first * 1e6:.1f} us")
    turn = time_turn(program)
    if each > MOST_TIMES * first:
        sys.exit(f"that is more than {MOST_TIMES} times")
    if turn > MOST_TURN:
        sys.exit(f"a turn takes more than {MOST_TURN * 1000:.0f} ms")

def main():
    if len(sys.argv) not in (2, 3) or sys.argv[1] not in ("journal", "store"):
        sys.exit(__doc__)
    given = [int(word) for word in sys.argv[2:]]
    program = built()
    if sys.argv[1] == "store":
        time_store(program, *given or [1_000_000])
    else:
        time_opening(program, "journal", *given or [65_536], seconds(program, "journal", "fill", 0))

main()
