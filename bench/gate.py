#!/usr/bin/env python3
"""Measures the gate from nothing: clones the repository into a temporary folder, runs `rt ci --anew` there, which takes nothing from
earlier runs on the machine, and prints a table of seconds by crate.

usage: bench/gate.py [REPOSITORY]    the repository of this file, or another one
       bench/gate.py --pid PID       an `rt ci` that is running already, from now to its end

A cell is processor seconds, and wall seconds in brackets. The processes below `rt ci` are looked at five times a second, so each
loses up to a fifth of a second; the totals count every process. What rt's own Python, the linker and the programs take is in the
totals alone.
"""
import os, subprocess, sys, tempfile, time

TOP = os.path.dirname(os.path.dirname(os.path.abspath(__file__)))
TICK = os.sysconf("SC_CLK_TCK")
PAUSE = 0.2
KINDS = ["code", "tests", "wrong bodies"]

def read(path):
    try:
        with open(path, "rb") as file:
            return file.read()
    except OSError:
        return b""

def stat(pid):
    """The parent, the own seconds and those of ended children, or None where the process is gone."""
    fields = read(f"/proc/{pid}/stat").rpartition(b")")[2].split()
    if len(fields) < 20:
        return None
    own, ended = int(fields[11]) + int(fields[12]), int(fields[13]) + int(fields[14])
    return int(fields[1]), own / TICK, ended / TICK, fields[0] == b"Z", fields[19]

def below(root):
    """The processes below one, it included, with what stat tells of them."""
    found = {int(name): stat(name) for name in os.listdir("/proc") if name.isdigit()}
    found = {pid: it for pid, it in found.items() if it}
    inside = {root} & set(found)
    grows = True
    while grows:
        more = {pid for pid, it in found.items() if it[0] in inside} - inside
        inside, grows = inside | more, bool(more)
    return {pid: found[pid] for pid in inside}

def work_of(pid):
    """The crate and the kind of work of a process of the prover, or None."""
    words = read(f"/proc/{pid}/cmdline").split(b"\0")
    if os.path.basename(words[0]) != b"rattle" or b"--crate-name" not in words:
        return None
    crate = words[words.index(b"--crate-name") + 1].decode()
    try:
        folder = os.readlink(f"/proc/{pid}/cwd")
    except OSError:
        return None
    return crate, "wrong bodies" if "/rt-edit-" in folder else "tests" if b"--test" in words else "code"

class Watch:
    """What was seen of each process: its work, its processor seconds, when it was seen first and last."""

    def __init__(self, root):
        self.root, self.seen, self.works = root, {}, {}
        self.began = self.last = time.monotonic()
        self.total = 0.0

    def look(self):
        """Looks once. Gives whether the process that is watched is still there."""
        found = below(self.root)
        if self.root not in found or found[self.root][3]:
            return False
        self.last = time.monotonic()
        # seconds of ended children are in their parent's, so this counts each process once
        self.total = max(self.total, sum(own + ended for _, own, ended, _, _ in found.values()))
        for pid, (_, own, _, _, since) in found.items():
            key = pid, since
            if self.works.get(key) is None:
                self.works[key] = work_of(pid)
            if self.works[key]:
                first = self.seen.get(key, (0, self.last))[1]
                self.seen[key] = own, first, self.last
        return True

    def table(self):
        """Processor and wall seconds by crate and kind."""
        spent = {}
        for key, (own, first, last) in self.seen.items():
            crate, kind = self.works[key]
            cell = spent.setdefault(crate, {}).setdefault(kind, [0.0, 0.0])
            cell[0] += own
            cell[1] += last - first + PAUSE
        return spent

def print_table(spent):
    print("| crate | " + " | ".join(KINDS) + " | all |")
    print("|---|" + "---:|" * (len(KINDS) + 1))
    sums = dict.fromkeys(KINDS, 0.0)
    for crate in sorted(spent, key=lambda it: -sum(cell[0] for cell in spent[it].values())):
        row = []
        for kind in KINDS:
            own, wall = spent[crate].get(kind, (0.0, 0.0))
            sums[kind] += own
            row.append(f"{own:.0f} ({wall:.0f})" if wall else "")
        print(f"| `{crate}` | " + " | ".join(row) + f" | {sum(cell[0] for cell in spent[crate].values()):.0f} |")
    print("| all | " + " | ".join(f"{sums[kind]:.0f}" for kind in KINDS) + f" | {sum(sums.values()):.0f} |")

def watch(root, is_over):
    watched = Watch(root)
    while watched.look() and not is_over():
        time.sleep(PAUSE)
    return watched

def report(watched, total):
    print_table(watched.table())
    print(f"\n{total / 60:.1f} processor minutes, {(watched.last - watched.began) / 60:.1f} wall minutes, {os.cpu_count()} processors")

def fresh(repository):
    """Clones, runs the gate, and tells its last line."""
    with tempfile.TemporaryDirectory(prefix="gate-") as room:
        subprocess.run(["git", "clone", "--quiet", repository, f"{room}/clone"], check=True)
        with open(f"{room}/said", "wb") as said:
            child = subprocess.Popen(["rt", "ci", "--anew"], cwd=f"{room}/clone", stdin=subprocess.DEVNULL, stdout=said, stderr=said)
            watched = watch(child.pid, lambda: child.poll() is not None)
            child.wait()
        times = os.times()
        report(watched, max(watched.total, times.children_user + times.children_system))
        print("rt ci --anew: " + read(f"{room}/said").decode(errors="replace").rstrip("\n").rpartition("\n")[2])
        return child.returncode

def main(words):
    if words[:1] == ["--pid"] and len(words) == 2:
        watched = watch(int(words[1]), lambda: False)
        report(watched, watched.total)
        return 0
    if len(words) > 1 or words[:1] and words[0].startswith("-"):
        sys.exit(__doc__)
    return fresh(os.path.abspath(words[0]) if words else TOP)

if __name__ == "__main__":
    sys.exit(main(sys.argv[1:]))
