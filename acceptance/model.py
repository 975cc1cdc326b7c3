"""A plain model of the script language as far as it is built: what `petal run` may print for a script.

It knows nothing of servers' letters and of agreement: a disk is a map of blocks, and each block takes a slot on two
neighbouring servers of the disk's tuple, its pair, and one more for each snapshot behind which it is written; on the move it takes them under
each of its disk's two maps. Where one of a pair stops, the other one holds the pair's blocks alone, and
serves them while it runs; once both run it copies to the other what that one has missed, and then both hold them again. A server that
is blanked has nothing left: what it held alone is lost, and of all else the other one has the blocks alone. A server that has a
plan, to stop at a call of a device or where a device fails, may stop at any time from then on, or never. Where a disk moves, a
block is on its old pair or its new one, until a settle says that the move is over or another move of the disk begins. The model
doesn't know when the others are told that a server has stopped, when a server that was started is taken in again and when it is
up to date, but where a settle was answered: it goes by what was answered. Within a phase the clients and the operator run at once, so the model goes through a
phase as a whole and tells for each line which answers are right in some order of them; it allows a little more than that where
several clients write one block, or where slots run out while servers stop, and never less. `answers_of` tells the answers of
scripts in which each line has one right answer, and `complaint` says what is wrong with a run's answers to any script.

It decides nothing where slots could run out while several clients write: then it raises Racing."""
import hashlib, re
from collections import defaultdict
from functools import cache

CLIENTS = "abcdefgh"
BLOCK = 65536
ZEROS = f"{BLOCK}x0"

class Racing(Exception):
    """The script has more than one right output, or the model can't tell them all."""

def block_of(words):
    """The 65,536 bytes that a pattern stands for."""
    kind, numbers = words[0], [int(word) for word in words[1:]]
    if kind == "fill":
        return bytes(numbers) * BLOCK
    if kind == "halves":
        return bytes(numbers[:1]) * (BLOCK // 2) + bytes(numbers[1:]) * (BLOCK // 2)
    return (bytes(range(256)) * (BLOCK // 256 + 1))[numbers[0] : numbers[0] + BLOCK]

def contents_of(block):
    """A block as it is printed."""
    runs = []
    for run in re.finditer(rb"(.)\1*", block, re.S):
        runs.append(f"{len(run[0])}x{run[1][0]}")
        if len(runs) > 8:
            return "sha256 " + hashlib.sha256(block).hexdigest()
    return " ".join(runs)

@cache
def printed(pattern):
    """What a pattern's block is printed as."""
    return contents_of(block_of(pattern))

def lines_of(text):
    """The lines that count, by number, as words."""
    for number, line in enumerate(text.decode("ascii").split("\n"), 1):
        if line and line[0] != "#" and line.split():
            yield number, line.split()

class Use:
    """A read or a write of a client's line: the block it is about, the snapshot where it reads one, and what it writes."""

    def __init__(self, number, client, words):
        self.number, self.client, self.block = number, client, int(words[3])
        self.name, _, self.snap = words[2].partition("@")
        self.writes = printed(tuple(words[4:])) if words[1] == "write" else None
        self.spot = self.name, self.block

class Making:
    """A line that makes a disk."""

    def __init__(self, number, client, words):
        self.number, self.client, self.name = number, client, words[2]
        self.tuple = [int(word) for word in words[4:]]

class Snapping:
    """A line that takes a snapshot of a disk."""

    def __init__(self, number, client, words):
        self.number, self.client, self.name, self.snap = number, client, words[2], words[3]

class Moving:
    """A line that moves a disk."""

    def __init__(self, number, client, words):
        self.number, self.client, self.name = number, client, words[2]
        self.tuple = [int(word) for word in words[4:]]

class Order:
    """A line that stops, starts or blanks a server, or plans that it stops, or waits until all is settled."""

    def __init__(self, number, words):
        self.number = number
        self.kind = "plan" if words[1] == "fault" or words[3:] else words[1]
        self.server = int(words[2]) if words[2:] else None

class Pair:
    """Two servers, the primary and the secondary: whether both may hold their blocks, who may hold them alone, whether nobody may
    have them any more, and who of the two has stopped."""

    def __init__(self, servers):
        self.servers, self.both, self.alone, self.lost, self.gone = servers, True, set(), False, set()

    def may_leave(self, server):
        """The server is out perhaps, or stops now: then the other one holds the blocks alone, where both did."""
        if server in self.servers and self.both:
            self.alone |= set(self.servers) - {server}

    def leave(self, server):
        self.may_leave(server)
        self.gone |= {server} & set(self.servers)

    def is_lost(self):
        """Nobody has the blocks, for sure."""
        return self.lost and not self.both and not self.alone

    def may_lose(self, server):
        """The server is blanked: what it may have held alone may be lost."""
        self.lost = self.lost or server in self.alone

    def lose(self, server):
        """The server was blanked, and the other one has not left since."""
        self.alone.discard(server)
        self.both = self.both and bool(self.alone)

    def may_join(self):
        """Both run perhaps: then both may hold the blocks again."""
        self.both = not self.is_lost()

    def join(self):
        """Both hold the blocks, where somebody has them."""
        self.both, self.alone, self.gone = not self.is_lost(), set(), set()

    def serve(self):
        """Somebody has the blocks."""
        self.lost = False

    def narrow(self, alone, why):
        """One of these holds the blocks alone, or nobody where they may be lost."""
        self.both, self.alone = False, self.alone & alone
        if not self.alone and not self.lost:
            raise ValueError(f"{why}, and then nobody can hold its block")

def pairs_of(tuple_):
    """The pairs of a map over these servers."""
    return [Pair((first, second)) for first, second in zip(tuple_, tuple_[1:] + tuple_[:1])]

class World:
    """The disks by name, each with the pairs of the map that it has or moves away from, and of each later one that it may have in the phase;
    and how many maps it had before these; what each block may hold, their snapshots by name with what each block may hold there, which
    servers have stopped, which ones have a plan and may have stopped, which of those that run were started and may not be taken in yet,
    which ones were ever stopped or blanked, or had a plan, and on each server the blocks that have a slot, or may have one, each with the
    number of snapshots that its disk had when it was written, and of its map."""

    def __init__(self, servers, slots):
        self.slots = slots
        self.disks, self.past = {}, {}
        self.contents = {}
        self.snaps = {}
        self.stopped, self.planned, self.returning, self.struck = set(), set(), set(), set()
        self.taken = {server: {} for server in range(servers)}

    def make(self, name, tuple_):
        self.disks[name] = [pairs_of(tuple_)]
        self.past[name] = 0
        self.snaps[name] = {}

    def move(self, name, tuple_):
        """The disk moves to a map more. Each entry that has a slot on its old servers may get one on its new ones, and is swept some
        time."""
        self.disks[name].append(pairs_of(tuple_))
        for entry in {entry for taken in self.taken.values() for entry in taken if entry[0][0] == name}:
            self.give_slot(entry)
            for server in self.homes(entry[0])[-1].servers:
                self.take_slot(server, (*entry[:2], self.last_map(name)), False)

    def end_moves(self, name, count):
        """The first so many of the disk's maps are those of moves that are over."""
        del self.disks[name][:count]
        self.past[name] += count

    def come(self, name):
        """The disk has the last of its maps."""
        self.end_moves(name, len(self.disks[name]) - 1)

    def last_map(self, name):
        return self.past[name] + len(self.disks[name]) - 1

    def give_slot(self, entry):
        for taken in self.taken.values():
            if entry in taken:
                taken[entry] = False

    def entries(self, spot, epoch):
        """What a write may take a slot for, by map, each with the pair that has it."""
        return [(pair, (spot, epoch, self.past[spot[0]] + at)) for at, pair in enumerate(self.homes(spot))]

    def is_of(self, pair, entry):
        """Whether the entry is of the pair's map."""
        at = entry[2] - self.past[entry[0][0]]
        return at >= 0 and self.homes(entry[0])[at] is pair

    def homes(self, spot):
        """The pairs on which a block may be, by map."""
        return [pairs[spot[1] % len(pairs)] for pairs in self.disks[spot[0]]]

    def take_slot(self, server, entry, is_sure):
        self.taken[server][entry] = is_sure or self.taken[server].get(entry, False)

    def least_free(self, server):
        """How many slots are free, where each entry that may have one has it."""
        return self.slots - len(self.taken[server])

    def most_free(self, server):
        return self.slots - sum(self.taken[server].values())

    def copy_slots(self, pair, is_sure):
        """Each entry of the pair that has a slot on one of the two has one on both, or may have one."""
        for entry in [entry for server in pair.servers for entry in self.taken[server] if self.is_of(pair, entry)]:
            known = is_sure and any(self.taken[server].get(entry, False) for server in pair.servers)
            for server in pair.servers:
                self.take_slot(server, entry, known)

    def give_slots(self, server):
        """Of the entries that had a slot each may have one, or none."""
        for entry in self.taken[server]:
            self.taken[server][entry] = False

    def held(self, spot):
        """What a block may hold."""
        return self.contents.get(spot, {ZEROS})

class Phase:
    """The lines of a phase, what was answered to them, where that is known, and what may be answered."""

    def __init__(self, world, lines, heard):
        self.world, self.heard, self.allowed = world, heard, {}
        self.lines = lines
        self.old = set(world.disks)
        self.winners = {}
        # Who stops in the phase, or may stop, who starts, who was surely taken in again, and who has stopped at its end; who has a plan at
        # its end; who is blanked, each with those that stop afterwards, or may stop.
        self.stopping, self.starting, self.back, self.resting = set(world.planned), set(), set(), set(world.stopped)
        self.planned = set(world.planned)
        self.blanked = {}
        # The pairs of which a server had stopped before.
        self.left = {pair for pair in self.pairs() if pair.gone}
        # By line: the servers that may serve it together, in each way in which it may be served; whether it may be told that nobody
        # does; and whether a write took effect for sure, or perhaps.
        self.ways, self.may_fail, self.effects = {}, {}, {}
        # The snapshots that were there, those that the phase takes, by disk and name, and how many of them a line comes after for sure.
        self.old_snaps = {(name, snap) for name, snaps in world.snaps.items() for snap in snaps}
        self.taken_snaps, self.epochs = {}, {}
        # Which map a disk moves away from, of those that have moves that began in the phase.
        self.begun = {}

    def answers(self):
        """Which answers are right, by number of line."""
        self.obey()
        self.make_disks()
        self.move_disks()
        self.settle_lines()
        self.take_snapshots()
        self.count_epochs()
        served = [use for use in self.lines if isinstance(use, Use) and self.is_served(use)]
        self.find_servers(served)
        self.write([use for use in served if use.writes is not None and self.ways[use.number]])
        self.read([use for use in served if not use.snap])
        self.read_snapshots([use for use in served if use.snap])
        for use in served:
            self.learn(use)
        for server, later in self.blanked.items():
            for pair in self.pairs():
                if server in pair.servers and not later & set(pair.servers):
                    pair.lose(server)
        self.world.returning = (self.world.returning - self.back | self.starting) - self.resting
        self.world.stopped, self.world.planned = self.resting, self.planned
        self.settle()
        return self.allowed

    def settle(self):
        """Where the last line of the operator waited until all was settled, each server that runs is taken in again, and of a pair
        of which both run both hold the blocks."""
        orders = [line for line in self.lines if isinstance(line, Order)]
        is_settled = bool(orders) and orders[-1].kind == "settle" and self.answer_to(orders[-1]) == "ok"
        self.end_moves(is_settled and not any(isinstance(line, Moving) for line in self.lines))
        if not is_settled:
            return
        self.world.returning = set()
        for pair in self.pairs():
            if not (self.resting | self.planned) & set(pair.servers):
                pair.join()
                self.world.copy_slots(pair, True)

    def pairs(self):
        return [pair for maps in self.world.disks.values() for pairs in maps for pair in pairs]

    def may_be_both(self, pair):
        return all(self.may_run(server) for server in pair.servers)

    def settle_lines(self):
        """What a settle may be answered: a copy, or an entry that moves, finds no slot only where slots may run out."""
        copied = {server for pair in self.pairs() if self.may_be_both(pair) for server in pair.servers}
        moved = {server for maps in self.world.disks.values() for pairs in maps[1:] for pair in pairs for server in pair.servers if self.may_run(server)}
        full = any(self.world.least_free(server) <= len(CLIENTS) for server in copied | moved)
        for line in self.lines:
            if isinstance(line, Order) and line.kind == "settle":
                self.allowed[line.number] = {"ok", "nospace"} if full else {"ok"}

    def obey(self):
        """The operator is always told that the server has stopped, or runs."""
        for line in self.lines:
            if isinstance(line, Order):
                self.allowed[line.number] = {"ok"}
                if line.kind == "stop" and line.server not in self.resting:
                    self.stopping.add(line.server)
                    self.resting.add(line.server)
                    self.planned.discard(line.server)
                elif line.kind == "plan" and line.server not in self.resting:
                    self.stopping.add(line.server)
                    self.planned.add(line.server)
                elif line.kind == "start" and line.server in self.resting | self.planned:
                    self.starting.add(line.server)
                    self.resting.discard(line.server)
                    self.planned.discard(line.server)
                elif line.kind == "blank":
                    self.blank(line.server)
                if line.kind in ("stop", "plan", "blank"):
                    self.world.struck.add(line.server)
                    for server in self.blanked.keys() - {line.server}:
                        self.blanked[server].add(line.server)
        for pair in self.pairs():
            if pair.gone and self.may_be_both(pair):
                pair.may_join()
                self.world.copy_slots(pair, False)
            for server in self.stopping:
                pair.leave(server)
            for server in self.blanked:
                pair.may_lose(server)
        for server in self.blanked:
            self.world.give_slots(server)

    def blank(self, server):
        """It stops, and starts with nothing."""
        self.stopping.add(server)
        self.starting.add(server)
        self.resting.discard(server)
        self.planned.discard(server)
        self.blanked[server] = set(self.planned)

    def may_run(self, server):
        """Whether it runs at some time of the phase."""
        return server not in self.world.stopped or server in self.starting

    def is_firm(self, server):
        """Whether it runs all the time, and nobody takes it to be out."""
        return server not in self.world.stopped | self.world.returning | self.stopping | self.starting

    def answer_to(self, line):
        """What was answered, or the one answer that may be."""
        if self.heard is not None:
            return self.heard.get(line.number)
        if len(self.allowed[line.number]) != 1:
            raise Racing(f"line {line.number} has more than one right answer")
        return next(iter(self.allowed[line.number]))

    def make_disks(self):
        """Of the lines that would make a disk of one name one does. It is the first of its client."""
        makings = defaultdict(list)
        for line in self.lines:
            if isinstance(line, Making):
                makings[line.name].append(line)
        for name, lines in makings.items():
            firsts = {}
            for line in lines:
                firsts.setdefault(line.client, line)
            winner = None if name in self.old else self.winner_of(list(firsts.values()))
            for line in lines:
                self.allowed[line.number] = {"ok" if line is winner else "exists"}
            if winner:
                self.winners[name] = winner
                self.make(name, winner.tuple)

    def make(self, name, tuple_):
        """Of a new disk those servers hold blocks that are not out when it is made."""
        self.world.make(name, tuple_)
        self.leave_new(name)

    def leave_new(self, name):
        for pair in self.world.disks[name][-1]:
            for server in pair.servers:
                if server in self.resting:
                    pair.leave(server)
                elif not self.is_firm(server):
                    pair.may_leave(server)

    def move_disks(self):
        """One client moves a disk. Where a move may be on, it may be told so; where it is told otherwise, that one is over."""
        for line in self.lines:
            if isinstance(line, Moving):
                self.allowed[line.number] = set()
                if not self.finds_disk(line):
                    continue
                self.allowed[line.number] |= {"ok"} | ({"moving"} if len(self.world.disks[line.name]) > 1 else set())
                if self.answer_to(line) == "ok":
                    self.begun[line.name] = len(self.world.disks[line.name]) - 1
                    self.world.move(line.name, line.tuple)
                    self.leave_new(line.name)

    def end_moves(self, is_settled):
        """Before the last move of a disk began the one before it was over; and where all is settled the last one is, unless a link has no
        lead."""
        for name, first in self.begun.items():
            self.world.end_moves(name, first)
        for name, maps in self.world.disks.items():
            servers = {server for pairs in maps for pair in pairs for server in pair.servers}
            if is_settled and not servers & (self.resting | self.planned) and not any(pair.lost for pairs in maps for pair in pairs):
                self.world.come(name)

    def take_snapshots(self):
        """Of the lines that would take a snapshot of one name one does. It is the first of its client that finds the disk."""
        snappings = defaultdict(list)
        for line in self.lines:
            if isinstance(line, Snapping):
                snappings[line.name, line.snap].append(line)
        for (name, snap), lines in snappings.items():
            firsts = {}
            for line in lines:
                self.allowed[line.number] = set()
                if self.finds_disk(line):
                    firsts.setdefault(line.client, line)
            winner = None if (name, snap) in self.old_snaps or not firsts else self.winner_of(list(firsts.values()))
            for line in firsts.values():
                self.allowed[line.number] |= {"ok" if line is winner else "exists"}
            for line in lines:
                if line.client in firsts and line.number > firsts[line.client].number and line is not firsts[line.client]:
                    self.allowed[line.number] |= {"exists"}
            if winner:
                self.taken_snaps[name, snap] = winner
                self.world.snaps[name][snap] = {}

    def count_epochs(self):
        """A write takes slots for the epoch that its disk has: that of the phase's start, or a later one where a client has taken snapshots
        before it, or any where another client takes some in the phase."""
        for line in self.lines:
            if isinstance(line, Use) and line.writes is not None and line.name in self.world.disks:
                known = sum(1 for snap in self.world.snaps[line.name] if (line.name, snap) in self.old_snaps)
                own = [taken for (name, _), taken in self.taken_snaps.items() if name == line.name and taken.client == line.client]
                self.epochs[line.number] = known + sum(1 for taken in own if taken.number < line.number)

    def entries_of(self, use):
        """What a write may take a slot for, by map, each with the pair that has it."""
        return self.world.entries(use.spot, self.epochs[use.number])

    def winner_of(self, firsts):
        """The line that made the disk, or took the snapshot: the only one that could, or the first that says so."""
        if len(firsts) == 1:
            return firsts[0]
        if self.heard is None:
            raise Racing(f"several clients make {firsts[0].name}")
        said = [line for line in firsts if self.heard.get(line.number) == "ok"]
        return said[0] if said else firsts[0]

    def is_served(self, use):
        """Whether the disk may be there, and the snapshot where the line reads one."""
        self.allowed[use.number] = set()
        return self.finds_disk(use) and (not use.snap or self.finds_snapshot(use))

    def finds_snapshot(self, use):
        """Whether the snapshot may be there. The client that took it finds it afterwards; one that was told that it exists may have to wait
        for it still."""
        winner = self.taken_snaps.get((use.name, use.snap))
        if (use.name, use.snap) in self.old_snaps or winner is not None and winner.client == use.client and winner.number < use.number:
            return True
        self.allowed[use.number] |= {"nosnap"}
        return winner is not None and winner.client != use.client and self.may_be_there(use, "nosnap")

    def finds_disk(self, use):
        """Whether the disk may be there. A client that made it, or was told that it exists, finds it afterwards."""
        if use.name in self.old:
            return True
        told = [line for line in self.lines if isinstance(line, Making) and (line.name, line.client) == (use.name, use.client)]
        if any(line.number < use.number for line in told):
            return True
        self.allowed[use.number] |= {"nodisk"}
        winner = self.winners.get(use.name)
        return winner is not None and winner.client != use.client and self.may_be_there(use, "nodisk")

    def may_be_there(self, use, missing):
        """Another client makes the disk, or takes the snapshot, in this phase: it may be there or not."""
        if self.heard is None:
            raise Racing(f"line {use.number} races with what it is about")
        return self.heard.get(use.number) != missing

    def find_servers(self, served):
        """A block is served while one of those runs that hold it. A client that was told that nobody does knows it from then on, where
        none of the pair returns."""
        known = defaultdict(set)
        for use in served:
            pairs = self.world.homes(use.spot)
            self.ways[use.number] = [way for pair in pairs if pair not in known[use.client] for way in self.ways_at(pair)]
            self.may_fail[use.number] = any(pair.lost or any(not self.is_firm(server) for server in pair.alone) for pair in pairs)
            if self.may_fail[use.number]:
                self.allowed[use.number] |= {"unavailable"}
            self.refuse_without_cause(use)
            if self.was_unavailable(use) and len(pairs) == 1 and not pairs[0].alone & (self.starting | self.world.returning):
                known[use.client].add(pairs[0])

    # When `unavailable` has a cause. It is right only where, of a pair at which the block can be, one server is out that holds the block
    # alone, or the block is lost; the pairs at which it can be are that of its disk's map and, from a move on until it is over, those of the
    # maps before. Somebody holds a block alone since the other one of the pair stopped or was blanked, or since the disk was made or moved
    # there while the other one was out, or while both were; and it is lost where the one that held it alone was blanked. So there are two
    # rules. The plain one asks of the operator's lines alone: each server of one of these pairs has been stopped or blanked, or has had a
    # plan, at the latest in the phase of the answer. The finer one (`may_fail`) goes by what may have come of these lines: who may hold the block alone doesn't
    # run all the time of the phase, or is not surely taken in again, or the block may be lost. A settle that was answered `ok` ends the
    # causes of those servers that run.
    def refuse_without_cause(self, use):
        if self.heard is None or self.answer_to(use) != "unavailable":
            return
        if not any(self.world.struck.issuperset(pair.servers) for pair in self.world.homes(use.spot)):
            raise ValueError(f"line {use.number} is answered 'unavailable', where of no pair of its block both servers were ever out")
        if not self.may_fail[use.number]:
            raise ValueError(f"line {use.number} is answered 'unavailable', where somebody has its block and runs all the time")

    def ways_at(self, pair):
        """The servers that serve the pair's blocks together, in each way."""
        here = [server for server in pair.servers if self.may_run(server)]
        return ([here] if pair.both and here else []) + [[server] for server in here if server in pair.alone]

    def running(self, use):
        """The servers that may serve the line."""
        servers = dict.fromkeys(server for pair in self.world.homes(use.spot) for server in pair.servers)
        return [server for server in servers if any(server in way for way in self.ways[use.number])]

    def was_unavailable(self, use):
        """Whether its client was told that nobody serves the block."""
        if not self.may_fail[use.number]:
            return False
        if self.ways[use.number] and self.heard is None:
            raise Racing(f"line {use.number} races with the stop or the start of a server of its block")
        return self.answer_to(use) == "unavailable"

    def learn(self, use):
        """What an answer tells of who holds the block alone."""
        pair, answer = self.world.homes(use.spot)[0], self.answer_to(use)
        if answer in (None, "nodisk", "nosnap") or len(self.world.disks[use.name]) > 1:
            return
        why = f"line {use.number} is answered {answer!r}"
        if answer != "unavailable" and not set(self.blanked) & set(pair.servers):
            pair.serve()
        if answer == "unavailable":
            pair.narrow({server for server in pair.alone if not self.is_firm(server)}, why)
        elif use.writes is not None and answer == "ok" and pair in self.left and not self.may_be_both(pair):
            pair.narrow({server for server in pair.alone if self.may_run(server)}, why)
        if answer != "unavailable" and not pair.both and len(pair.alone) == 1:
            self.back |= pair.alone - self.stopping

    def write(self, writes):
        """A write needs a free slot on each server of its pair that runs; one that replaces a content gives its slots back
        afterwards."""
        alone = len({use.client for use in writes}) == 1
        if not alone and writes:
            self.give_up_where_slots_may_run_out(writes)
        for use in writes:
            self.allowed[use.number] |= self.outcomes_of(use) if alone else {"ok"}
            self.note_effect(use)

    def outcomes_of(self, use):
        """What the write of the only client that writes may be answered, beside `unavailable`."""
        world, ways = self.world, self.ways[use.number]
        has_room = any(all(world.most_free(server) > 0 for server in way) for way in ways)
        full = self.may_be_full_again(use) or any(world.least_free(server) <= 0 for server in self.running(use))
        return ({"ok"} if has_room else set()) | ({"nospace"} if full else set())

    def may_be_full_again(self, use):
        """Whether the write may take the secondary's last slot, and then find none, where it is sent again after a stop of the
        primary. Then it takes effect."""
        running = self.running(use)
        if len(running) < 2 or running[0] not in self.stopping:
            return False
        has = all(self.world.taken[running[1]].get(entry, False) for _, entry in self.entries_of(use))
        return not has and self.world.least_free(running[1]) <= 1

    def note_effect(self, use):
        """A write that is told `unavailable` may have taken effect before. Only those surely take a slot that serve it in every way."""
        answer = self.answer_to(use)
        if answer in ("ok", "unavailable") or answer == "nospace" and self.may_be_full_again(use):
            self.effects[use.number] = answer == "ok"
            running, entries = self.running(use), self.entries_of(use)
            for pair, entry in entries:
                for server in set(running) & set(pair.servers):
                    is_sure = answer == "ok" and len(entries) == 1 and all(server in way for way in self.ways[use.number])
                    self.world.take_slot(server, entry, is_sure)

    def give_up_where_slots_may_run_out(self, writes):
        """Each client has one write open at a time, which takes a slot more than what stays."""
        fresh, writers = defaultdict(set), defaultdict(set)
        for use in writes:
            for server in self.running(use):
                writers[server].add(use.client)
                if self.may_be_later(use):
                    fresh[server].add(use.number)
                else:
                    own = {entry for pair, entry in self.entries_of(use) if server in pair.servers}
                    fresh[server] |= own - self.world.taken[server].keys()
        for server, clients in writers.items():
            if self.world.least_free(server) < len(fresh[server]) + len(clients):
                raise Racing(f"slots of server {server} may run out while several clients write")

    def may_be_later(self, use):
        """Whether another client takes a snapshot of the disk in the phase."""
        return any(name == use.name and taken.client != use.client for (name, _), taken in self.taken_snaps.items())

    def read(self, served):
        """What each read may find, what each block may hold afterwards, and what it holds in the snapshots that the phase takes."""
        by_spot = defaultdict(list)
        for spot in self.world.contents:
            by_spot[spot] = []
        for use in served:
            by_spot[use.spot].append(use)
        for spot, uses in by_spot.items():
            snappings = [line for (name, _), line in self.taken_snaps.items() if name == spot[0]]
            if uses or snappings:
                self.read_block(spot, sorted(uses + snappings, key=lambda line: line.number), [use for use in uses if use.number in self.effects])

    def read_snapshots(self, reads):
        """A read of a snapshot finds what the block may hold there; later reads find the same."""
        for use in reads:
            held = self.world.snaps[use.name][use.snap]
            if self.ways[use.number]:
                contents = held.get(use.spot, {ZEROS})
                self.allowed[use.number] |= {"data " + content for content in contents}
                held[use.spot] = self.narrowed(contents, use)

    def read_block(self, spot, uses, writes):
        """A read finds what its client wrote last, or what was there, or what others write meanwhile; so does a snapshot. Where no other
        client writes, later reads find the same."""
        writers = {write.client for write in writes}
        # What a client that writes may find of its own, and what all others may find that was there.
        found = defaultdict(lambda: self.world.held(spot))
        for use in uses:
            own = use.client if use.client in writers else None
            if isinstance(use, Snapping):
                others = {write.writes for write in writes if write.client != use.client}
                self.world.snaps[use.name][use.snap][spot] = found[own] | others
            elif use in writes:
                found[own] = {use.writes} if self.effects[use.number] else found[own] | {use.writes}
            elif use.writes is None and self.ways[use.number]:
                others = {write.writes for write in writes if write.client != use.client}
                self.allowed[use.number] |= {"data " + content for content in found[own] | others}
                if not others:
                    found[own] = self.narrowed(found[own], use)
        self.world.contents[spot] = set().union(*(found[own] for own in writers or {None}))

    def narrowed(self, contents, use):
        """Of what a block may hold, what the read found."""
        return contents & {(self.answer_to(use) or "").removeprefix("data ")} or contents

def phases_of(text):
    """The world of a script at its start, and the lines of each of its phases."""
    world, phases = World(0, 0), [[]]
    for number, words in lines_of(text):
        if words[0] == "servers":
            world = World(int(words[1]), int(words[3]))
        elif words[0] == "wait":
            phases.append([])
        elif words[0] in CLIENTS:
            kind = {"disk": Making, "snap": Snapping, "move": Moving}.get(words[1], Use)
            phases[-1].append(kind(number, words[0], words))
        elif words[0] == "op":
            phases[-1].append(Order(number, words))
    return world, phases

def answers_of(text):
    """What `petal run` prints for a script that no line of is refused. Racing, where there is more than one right output."""
    world, phases = phases_of(text)
    said = []
    for lines in phases:
        phase = Phase(world, lines, None)
        phase.answers()
        said += [f"{line.number}: {phase.answer_to(line)}\n" for line in lines]
    return "".join(said).encode()

def answers_in(output):
    """The answers of an output, by number of line."""
    heard = {}
    for line in output.decode("ascii").splitlines():
        number, _, answer = line.partition(": ")
        heard[int(number)] = answer
    return heard

def complaint(text, output):
    """What is wrong with the whole output of a script, or None."""
    world, phases = phases_of(text)
    wanted = [line.number for lines in phases for line in sorted(lines, key=lambda line: line.number)]
    heard = answers_in(output)
    if list(heard) != wanted or output.count(b"\n") != len(wanted):
        return f"the answered lines are {list(heard)}, and not {wanted}"
    for lines in phases:
        for number, allowed in sorted(Phase(world, lines, heard).answers().items()):
            if heard[number] not in allowed:
                return f"line {number} is answered {heard[number]!r}, where {sorted(allowed)} may stand"
    return None
