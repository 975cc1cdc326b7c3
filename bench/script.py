#!/usr/bin/env python3
"""Prints a script: DISKS disks are made, and CLIENTS clients write and read BLOCKS blocks of each, REQUESTS lines in all, drawn
from SEED. Each client has blocks of its own, so that the answers are the same whatever the order in which clients get on.

usage: bench/script.py [REQUESTS [BLOCKS [SEED [CLIENTS [DISKS]]]]]
"""
import sys

def main():
    given = sys.argv[1:]
    requests, blocks, seed, clients, disks = (int(word) for word in given + ["1000", "200", "1", "1", "1"][len(given):])
    draw = Draws(seed)
    print("servers 5 slots 1024")
    for disk in range(disks):
        print(f"a disk vol{disk} on 0 1 2 3 4")
    print("wait")
    for turn in range(requests - disks):
        disk = draw.below(disks) if disks > 1 else 0
        client = turn % clients
        block = draw.below(blocks // clients) * clients + client
        if draw.below(2) == 0:
            print(f"{'abcdefgh'[client]} write vol{disk} {block} fill {draw.below(256)}")
        else:
            print(f"{'abcdefgh'[client]} read vol{disk} {block}")

class Draws:
    """Numbers that are the same on every machine."""

    def __init__(self, seed):
        self.state = seed

    def below(self, bound):
        self.state = (self.state * 1103515245 + 12345) % 2**31
        return self.state // 65536 % bound

main()
