#!/usr/bin/env python3
"""Times the first answer of a fresh clone: clones the repository into a temporary folder and runs ./petal run < examples/sevens.petal
there, which compiles the sources, unproved. Ends with 1 where the answer is wrong or takes above 90 seconds.

usage: bench/first.py [REPOSITORY]   the repository of this file, or another one; what is committed counts

To be run on a quiet machine: the seconds are those of one processor.
"""
import os, subprocess, sys, tempfile, time

TOP = os.path.dirname(os.path.dirname(os.path.abspath(__file__)))
MOST_SECONDS = 90

def main():
    repository = sys.argv[1] if len(sys.argv) > 1 else TOP
    with tempfile.TemporaryDirectory() as folder:
        clone = f"{folder}/clone"
        subprocess.run(["git", "clone", "--quiet", repository, clone], check=True)
        with open(f"{clone}/examples/sevens.petal") as script:
            start = time.perf_counter()
            ran = subprocess.run([f"{clone}/petal", "run"], stdin=script, stdout=subprocess.PIPE, stderr=subprocess.DEVNULL)
            taken = time.perf_counter() - start
        with open(f"{clone}/examples/sevens.out", "rb") as wanted:
            if ran.returncode != 0 or ran.stdout != wanted.read():
                sys.exit(f"the first command ended with {ran.returncode}, or answered wrong")
    print(f"first answer of a fresh clone: {taken:.0f} s")
    if taken > MOST_SECONDS:
        sys.exit(f"that is more than {MOST_SECONDS} s")

main()
