#!/usr/bin/env python3
"""Times petal and the plain C program on one script, in one run: wall time, requests a second, peak memory, ratio. Then times how long
petal moves a disk of 1,000 blocks from five servers to three, against the time of writing them. Ends with 1 where the ratio is above 4,
where writing the blocks takes more than 4 times their bytes of memory, or the move takes more than 10 times as long as the writing.

usage: bench/run.py [REQUESTS [BLOCKS [SEED [CLIENTS [DISKS]]]]]   (petal must be built: ./petal prove)
PETAL=COMMAND times another program.
"""
import os, resource, shlex, subprocess, sys, tempfile, time

TOP = os.path.dirname(os.path.dirname(os.path.abspath(__file__)))
PETAL = shlex.split(os.environ.get("PETAL", f"{TOP}/petal")) + ["run"]
TURNS = 5
BLOCKS, MOST_TIMES, MOST_HELD, MOST_RATIO = 1000, 10, 4, 4

def measure(command, text):
    """The least wall time of some turns in seconds, peak memory in MiB, and what was written."""
    best, peak, out = None, 0, b""
    for _ in range(TURNS):
        with tempfile.TemporaryFile() as source, tempfile.TemporaryFile() as sink:
            source.write(text)
            source.seek(0)
            start = time.perf_counter()
            child = subprocess.Popen(command, stdin=source, stdout=sink)
            _, status, usage = os.wait4(child.pid, 0)
            taken = time.perf_counter() - start
            if status != 0:
                sys.exit(f"{command[0]} ended with {status}")
            best = taken if best is None else min(best, taken)
            peak = max(peak, usage.ru_maxrss / 1024)
            sink.seek(0)
            out = sink.read()
    return best, peak, out

def beyond(total, start_up):
    """What a run took beyond its start-up, where the two can be told apart."""
    if total <= start_up:
        sys.exit("a whole run took no longer than its start-up: the machine is too busy to measure on, run it again")
    return total - start_up

def time_move():
    """Writes a disk of 1,000 blocks of 64 KiB each, and moves it from five servers to three."""
    empty = "servers 5 slots 1024\na disk vol on 0 1 2 3 4\nwait\n"
    writes = empty + "".join(f"{'abcdefgh'[block % 8]} write vol {block} fill {block % 256}\n" for block in range(BLOCKS))
    moves = writes + "wait\na move vol on 0 2 4\nwait\nop settle\n"
    (start_up, _, _), (written, held, _), (moved, peak, out) = (measure(PETAL, text.encode()) for text in (empty, writes, moves))
    if not out.endswith(f"{BLOCKS + 5}: ok\n{BLOCKS + 7}: ok\n".encode()):
        sys.exit("the disk was not moved")
    writing = beyond(written, start_up)
    times = (moved - written) / writing
    copies = held / (BLOCKS / 16)
    print(f"{BLOCKS} blocks: written in {writing * 1000:.1f} ms, peak {held:.0f} MiB, {copies:.1f} times their bytes; moved from five servers "
          f"to three in {(moved - written) * 1000:.1f} ms, {times:.1f} times as long, peak {peak:.0f} MiB")
    if copies > MOST_HELD:
        sys.exit(f"that is more than {MOST_HELD} times their bytes")
    if times > MOST_TIMES:
        sys.exit(f"that is more than {MOST_TIMES} times")

def main():
    script = subprocess.run([sys.executable, f"{TOP}/bench/script.py", *sys.argv[1:]], capture_output=True, check=True).stdout
    empty = b"servers 5 slots 1024\na disk vol on 0 1 2 3 4\n"
    requests = script.count(b"\n") - 2
    with tempfile.TemporaryDirectory() as folder:
        plain = f"{folder}/plain"
        subprocess.run(["cc", "-O2", "-o", plain, f"{TOP}/bench/plain.c"], check=True)
        rows = {"petal": PETAL, "plain C": [plain]}
        results = {}
        for name, command in rows.items():
            start_up, _, _ = measure(command, empty)
            total, peak, out = measure(command, script)
            work = beyond(total, start_up)
            results[name] = (work, out)
            print(f"{name}: {total * 1000:.1f} ms, of it {start_up * 1000:.1f} ms start-up; "
                  f"{requests / work:,.0f} requests a second beyond start-up; peak {peak:.0f} MiB")
    if results["petal"][1] != results["plain C"][1]:
        sys.exit("the two programs answered differently")
    ratio = results["petal"][0] / results["plain C"][0]
    print(f"ratio beyond start-up: {ratio:.1f}")
    time_move()
    if ratio > MOST_RATIO:
        sys.exit(f"the ratio is more than {MOST_RATIO}")

main()
