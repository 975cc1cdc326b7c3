"""Scripts that the table of cases names. Each function makes one; its arguments are the words after its name."""
import random

import drill

CLIENTS = "abcdefgh"

FIVE = "servers_5_slots_16;a_disk_vol_on_0_1_2_3_4;wait;"

def head(servers, slots, *nets):
    lines = [f"servers {servers} slots {slots}", *nets]
    return lines + ["a disk vol on " + " ".join(str(server) for server in range(servers)), "wait"]

def joined(lines):
    return "".join(line + "\n" for line in lines).encode()

def text(*words):
    """The words themselves: `_` is a space and `;` the end of a line."""
    return ",".join(words).replace("_", " ").replace(";", "\n").encode()

def bytes_of(code):
    """These bytes, in hexadecimal digits."""
    return bytes.fromhex(code)

def nothing():
    return b""

def work(servers, clients, writes, blocks, seed, *nets):
    """So many writes of clients that each have blocks of their own, in phases of 10, with reads between and at the end."""
    draw = random.Random(int(seed))
    servers, clients, writes, blocks = int(servers), int(clients), int(writes), int(blocks)
    lines = head(servers, 2 * blocks + 2, *(net.replace("_", " ") for net in nets))
    for turn in range(writes):
        client = draw.randrange(clients)
        block = draw.randrange(max(1, blocks // clients)) * clients + client
        lines.append(f"{CLIENTS[client]} write vol {block} fill {draw.randrange(256)}")
        if draw.randrange(3) == 0:
            lines.append(f"{CLIENTS[client]} read vol {block}")
        if turn % 10 == 9:
            lines.append("wait")
    lines.append("wait")
    lines += [f"{draw.choice(CLIENTS)} read vol {block}" for block in range(blocks)]
    return joined(lines)

def busy(clients, *nets):
    """All clients write one block, two times each, and another block of their own is read later. Only the last is told."""
    lines = head(3, 16, *(net.replace("_", " ") for net in nets))
    for turn in range(2):
        lines += [f"{client} write vol 5 fill 9" for client in CLIENTS[: int(clients)]]
    lines += ["wait", "a read vol 5"]
    return joined(lines)

def all_servers():
    """Blocks on all of eight servers, each written by one client and read by two others."""
    lines = head(8, 10)
    lines += [f"{CLIENTS[block % 8]} write vol {block} halves {block} {255 - block}" for block in range(32)]
    lines.append("wait")
    for turn in (1, 2):
        lines += [f"{CLIENTS[(block + turn) % 8]} read vol {block}" for block in range(32)]
    return joined(lines)

def faulted_drill(seed, count, plan):
    """The script of a drill, in which a call of a device is to fail: the plan's words after `op fault` have `_` between them."""
    lines = drill.script_of(int(seed), int(count)).split(b"\n")
    return b"\n".join([*lines[:3], b"op fault " + plan.replace("_", " ").encode(), *lines[3:]])

def patterns():
    """Each pattern, at the first and the last block and across the run counts that are printed."""
    last = 2**48 - 1
    lines = head(2, 16)
    lines += [f"a write vol 0 fill 255", f"a write vol {last} halves 0 1", "a write vol 2 halves 3 3", "a write vol 3 ramp 0", "a write vol 4 ramp 200"]
    lines += [f"a read vol {block}" for block in (0, last, 2, 3, 4, 5)]
    return joined(lines)

def sized(size):
    """A script of exactly so many bytes, with a request at its front, one in the middle and one in its last line."""
    size = int(size)
    first = "servers 2 slots 4\na disk vol on 0 1\nwait\na write vol 1 fill 5\n".encode()
    middle, last = b"a write vol 2 fill 6\n", b"a read vol 1\na read vol 2\n"
    left = size - len(first) - len(middle) - len(last)
    return first + comments(left // 2) + middle + comments(left - left // 2) + last

def comments(size):
    """Comment lines of so many bytes in all."""
    whole, rest = divmod(size, 200)
    if rest == 1:
        whole, rest = whole - 1, 201
    return (b"#" + b"x" * 198 + b"\n") * whole + (b"#" * (rest - 1) + b"\n" if rest else b"")

def requests(count):
    """So many requests of eight clients, with the disk's."""
    lines = head(5, 64)
    for turn in range(int(count) - 1):
        client, block = CLIENTS[turn % 8], turn % 40
        lines.append(f"{client} write vol {block} fill {turn % 256}" if turn % 3 else f"{client} read vol {block}")
    return joined(lines)

def phases(count):
    """So many phases of a write, and of three reads of what another client wrote in the phase before."""
    lines = head(2, 24)
    for phase in range(int(count)):
        lines.append(f"{CLIENTS[phase % 8]} write vol {phase % 20} ramp {phase % 251}")
        if phase:
            lines += [f"{CLIENTS[(phase + other) % 8]} read vol {(phase - 1) % 20}" for other in (1, 2, 3)]
        lines.append("wait")
    return joined(lines)

def large():
    """Eight servers with all the slots that there may be."""
    return joined(head(8, 1024))

def many_disks(count, *nets):
    """So many disks over all tuples of neighbours among eight servers, made by all clients, then written and read by others."""
    lines, count = ["servers 8 slots 64", *(net.replace("_", " ") for net in nets)], int(count)
    for disk in range(count):
        first, second = disk % 8, (disk + 1 + disk // 8) % 8
        lines.append(f"{CLIENTS[disk % 8]} disk d{disk} on {first} {second}")
    lines.append("wait")
    lines += [f"{CLIENTS[(disk + 1) % 8]} write d{disk} {block} fill {disk + 16 * block}" for disk in range(count) for block in (0, 1)]
    lines.append("wait")
    lines += [f"{CLIENTS[(disk + 2) % 8]} read d{disk} {block}" for disk in range(count) for block in (0, 1, 2)]
    return joined(lines)

# More slots than all writes of a mixed script can take.
PLENTY = 160

def mixed_line(draw, clients, names, makes, snaps):
    """A request of one of the clients, about one of the disks or a name that none has, or about a snapshot where these names are given. A
    line that makes a disk lacks its servers."""
    client, name = draw.choice(clients), draw.choice(names)
    if makes and draw.randrange(6) == 0:
        return f"{client} disk {name}"
    if snaps and draw.randrange(8) == 0:
        return f"{client} snap {name} {draw.choice(snaps)}"
    if snaps and draw.randrange(6) == 0:
        return f"{client} read {name}@{draw.choice(snaps)} {draw.randrange(4)}"
    block = draw.choice((0, 1, 2, 3, draw.randrange(2**48), 2**48 - 1))
    if draw.randrange(5) < 2:
        return f"{client} read {name} {block}"
    byte, other = draw.randrange(256), draw.randrange(256)
    return f"{client} write {name} {block} " + draw.choice((f"fill {byte}", f"halves {byte} {other}", f"ramp {byte}"))

def made_disk(draw, client, name, servers):
    """A line that makes a disk over some of so many servers."""
    return f"{client} disk {name} on " + " ".join(map(str, draw.sample(range(servers), draw.randint(2, servers))))

def mixed_phase(draw, clients, names, servers, makes, snaps):
    """The lines of a phase of these clients, of which at most so many make a disk."""
    lines = []
    for _ in range(draw.randint(1, 20)):
        line = mixed_line(draw, clients, names, makes, snaps)
        if line[1:6] == " disk":
            makes -= 1
            line = made_disk(draw, line[0], line.split()[2], servers)
        lines.append(line)
    return lines

def moved_disk(draw, name, servers):
    """A line that moves a disk to some of so many servers, often to few or to all."""
    return f"a move {name} on " + " ".join(map(str, draw.sample(range(servers), draw.choice((2, draw.randint(2, servers), servers)))))

def mixed_phases(draw, servers, most, nets, stops_of=None, snaps=(), moves=0):
    """Phases of a mixed script of at most so many disks, of snapshots of these names, and of at most so many moves. Where servers stop, most disks are made first, and
    `stops_of` gives the phases that come before the next one, and the lines that stand in it."""
    alone = draw.randrange(2 if stops_of else 4) == 0
    names = [f"d{number}" for number in range(draw.randint(1, most))]
    lines = [f"servers {servers} slots {draw.randint(1, 6) if alone else PLENTY}", *(net.replace("_", " ") for net in nets)]
    makes, clients = 16, list(CLIENTS[: draw.randint(1, 8)])
    if stops_of:
        makes -= len(names)
        lines += [made_disk(draw, "a", name, servers) for name in names if draw.randrange(4)] + ["wait"]
    for _ in range(draw.randint(1, 7)):
        here = [draw.choice(clients)] if alone else clients
        before, beside = stops_of() if stops_of else ([], [])
        phase = mixed_phase(draw, here, names, servers, makes, snaps)
        makes -= sum(line[1:6] == " disk" for line in phase)
        for _ in range(min(moves, draw.choice((0, 1, 1, 2)))):
            moves -= 1
            phase.insert(draw.randint(0, len(phase)), moved_disk(draw, draw.choice(names), servers))
        lines += [*before, *phase, *beside, "wait"]
    spots = sorted({tuple(line.split()[2:4]) for line in lines if line.split()[1:2] == ["write"]})
    taken = sorted({tuple(line.split()[2:4]) for line in lines if line.split()[1:2] == ["snap"]})
    lines += [f"{draw.choice(CLIENTS)} read {name} {block}" for name, block in spots]
    reads = [f"{draw.choice(CLIENTS)} read {name}@{snap} {block}" for name, snap in taken for other, block in spots if other == name]
    return lines + draw.sample(reads, min(len(reads), 400))

def mixed(seed, *nets):
    """Up to 16 disks, made at any time by any client, some under a name that is taken, with writes and reads of disks that are
    there and of some that are not. Either slots are plenty, or one client works at a time. At the end each block is read that a
    line wrote."""
    draw = random.Random(int(seed))
    return joined(mixed_phases(draw, draw.randint(2, 8), 18, nets))

def stops(seed, *nets):
    """A mixed script of few disks in which servers stop, at most as many as may, often neighbours: in phases of their own, and
    beside writes and reads. A server that has stopped is stopped again, which takes the operator a while: so others stop in the
    middle of writes."""
    draw = random.Random(int(seed))
    servers = draw.choice((3, 4, 5, 5, 6, 7, 7, 8))
    first = draw.randrange(servers)
    order = [(first + step) % servers for step in range(servers)] if draw.randrange(2) else draw.sample(range(servers), servers)
    waiting, stopped = order[: servers - servers // 2 - 1], []

    def some():
        lines = []
        for _ in range(draw.choice((0, 0, 1, 1, 2))):
            lines += [f"op stop {draw.choice(stopped)}" for _ in range(draw.randint(0, 6)) if stopped]
            if waiting:
                stopped.append(waiting.pop(0))
                lines.append(f"op stop {stopped[-1]}")
        return lines

    def stops_of():
        before = [*some(), "wait"] if draw.randrange(3) == 0 else []
        return before, some()

    return joined(mixed_phases(draw, servers, 4, nets, stops_of))

def snaps(seed, *nets):
    """A mixed script in which snapshots are taken and read; in two of three, servers stop, start, settle and come back with nothing. At the
    end each snapshot is read."""
    names = [f"s{number}" for number in range(random.Random(int(seed)).randint(1, 6))]
    if int(seed) % 3 == 0:
        draw = random.Random(int(seed))
        return joined(mixed_phases(draw, draw.randint(2, 8), 6, nets, snaps=names))
    return starts(seed, *nets, settles=True, blanks=True, snaps=names)

def moves(seed, *nets):
    """A mixed script in which disks move, often while they are written and read; in two of three, snapshots are taken too, and servers stop,
    start, settle and come back with nothing."""
    draw = random.Random(int(seed))
    names = [f"s{number}" for number in range(draw.randint(0, 3))]
    if int(seed) % 3 == 0:
        return joined(mixed_phases(draw, draw.randint(2, 8), 4, nets, snaps=names, moves=8))
    return starts(seed, *nets, settles=True, blanks=int(seed) % 3 == 2, snaps=names, moves=8)

def settles(seed, *nets):
    """The same, where the operator often waits until all is settled."""
    return starts(seed, *nets, settles=True)

def blanks(seed, *nets):
    """The same, where servers also come back with nothing."""
    return starts(seed, *nets, settles=True, blanks=True)

def faults(seed, *nets):
    """The same, where most servers stop by a plan: at a call of their data device, or where one of their devices fails. Some plans are never
    met, and some stand over many phases. In one of three, servers also come back with nothing, and in one, snapshots are taken and disks
    move."""
    moves = int(seed) % 3 == 1
    return starts(seed, *nets, settles=True, blanks=int(seed) % 3 == 2, plans=True, snaps=("s0", "s1") if moves else (), moves=8 if moves else 0)

def stop_amid(call):
    """A server stops in this call of its data device, amid the write of a block that another client reads. Then it starts again."""
    stop = f"a_write_vol_1_fill_1;wait;op_stop_1_at_{call};a_write_vol_1_fill_2;b_read_vol_1;wait;a_read_vol_1;wait;"
    return text(FIVE + stop + "op_start_1;op_settle;wait;a_read_vol_1;")

def fault_before(server, device, kind, call):
    """A call of one of the server's devices is to fail, before server 2 stops, misses a write and returns, and server 1 stops."""
    fault = f"op_fault_{server}_{device}_{kind}_{call};"
    return text(FIVE + fault + "a_write_vol_1_fill_1;wait;op_stop_2;wait;a_write_vol_1_fill_2;wait;op_start_2;op_settle;op_stop_1;wait;a_read_vol_1;")

def planned(draw, server):
    """A line that plans that a server stops, soon or late."""
    call = draw.choice((draw.randint(1, 6), draw.randint(1, 20), draw.randint(1, 80)))
    if draw.randrange(2):
        return f"op stop {server} at {call}"
    return f"op fault {server} {draw.choice(('data', 'state'))} {draw.choice(('read', 'write', 'sync'))} {call}"

def starts(seed, *nets, settles=False, blanks=False, snaps=(), moves=0, plans=False):
    """A mixed script of few disks in which servers stop and start again, so that a majority runs: mostly in phases of their own, and
    beside writes and reads. Some are stopped that have stopped, and started that run."""
    draw = random.Random(int(seed))
    servers = draw.choice((3, 3, 4, 5, 5, 6, 7, 8))
    stopped, left = [], [64]

    def stop(server):
        return planned(draw, server) if plans and draw.randrange(4) else f"op stop {server}"

    def order():
        if settles and draw.randrange(3) == 0:
            return "op settle"
        if left[0] and (stopped and draw.randrange(2) or not draw.randrange(8)):
            left[0] -= 1
            server = draw.choice(stopped) if stopped and draw.randrange(8) else draw.randrange(servers)
            if server in stopped:
                stopped.remove(server)
            return f"op {'blank' if blanks and draw.randrange(3) == 0 else 'start'} {server}"
        if len(stopped) < servers - servers // 2 - 1:
            server = draw.randrange(servers)
            if server not in stopped:
                stopped.append(server)
            return stop(server)
        return stop(draw.choice(stopped))

    def orders_of():
        before = [order() for _ in range(draw.choice((0, 1, 1, 2, 4)))]
        return [*before, "wait"] if before else [], [order() for _ in range(draw.choice((0, 0, 0, 1, 3)))]

    return joined(mixed_phases(draw, servers, 4, nets, orders_of, snaps, moves))

def frozen(servers, count, *nets):
    """So many snapshots, a block written before each, and two of each read at the end."""
    servers, count = int(servers), int(count)
    lines = head(servers, 2 * count + 8, *(net.replace("_", " ") for net in nets))
    for turn in range(count):
        lines += [f"a write vol {turn % 7} fill {turn + 1}", f"a snap vol s{turn}"]
    lines.append("wait")
    return joined(lines + [f"b read vol@s{turn} {block}" for turn in range(count) for block in (turn % 7, (turn + 3) % 7)])

def race(turns, *nets):
    """In each phase two clients take snapshots of one disk, one of them of a name that both want, while two write its blocks and one reads.
    Then each snapshot is read twice: what it holds is the same."""
    lines = head(4, 200, *(net.replace("_", " ") for net in nets))
    for turn in range(int(turns)):
        lines += [f"a write vol 0 fill {10 * turn + 1}", f"b write vol 1 fill {10 * turn + 2}", f"c snap vol s{turn}", f"d snap vol s{turn}"]
        lines += [f"a write vol 0 fill {10 * turn + 3}", f"d snap vol t{turn}", f"e read vol 0", f"b write vol 1 fill {10 * turn + 4}", "wait"]
        lines += [f"{client} read vol@{name}{turn} {block}" for client in "fg" for name in "st" for block in (0, 1)] + ["wait"]
    return joined(lines + [f"h read vol@{name}{turn} {block}" for turn in range(int(turns)) for name in "st" for block in (0, 1)])

def thousand():
    """A disk of 1,000 written blocks, of which a snapshot is taken, with no slot to spare for a copy of them; some are read from it."""
    lines = head(8, 260)
    lines += [f"{CLIENTS[block % 8]} write vol {block} fill {block % 256}" for block in range(1000)]
    lines += ["wait", "a snap vol all", "wait", "a write vol 0 fill 7", "wait"]
    return joined(lines + [f"{CLIENTS[block % 8]} read vol@all {block}" for block in range(0, 1000, 50)] + ["b read vol 0"])

def moved_thousand():
    """A disk of 1,000 written blocks moves from five servers to four of them; some are read afterwards."""
    lines = ["servers 5 slots 1024", "a disk vol on 0 1 2 3 4", "wait"]
    lines += [f"{CLIENTS[block % 8]} write vol {block} fill {block % 256}" for block in range(1000)]
    lines += ["wait", "a move vol on 0 2 3 4", "wait", "op settle", "wait"]
    return joined(lines + [f"{CLIENTS[block % 8]} read vol {block}" for block in range(0, 1000, 50)])

def on_the_move(servers, turns, *nets, stops=False):
    """A disk moves again and again, over all servers and over few, while its blocks are written and read and snapshots are taken; where
    `stops` is given, one server after the other stops meanwhile, or comes back with nothing."""
    servers, turns = int(servers), int(turns)
    lines = head(servers, 12 * turns + 40, *(net.replace("_", " ") for net in nets))
    for turn in range(turns):
        first = turn % servers
        tuple_ = [(first + step) % servers for step in range(2 + turn % (servers - 1))]
        lines += [f"a write vol {8 * block + turn % 5} fill {turn + block}" for block in range(6)] + ["wait"]
        lines += ["a move vol on " + " ".join(map(str, tuple_)), f"b write vol {turn} fill {turn + 100}", f"c read vol {8 + turn % 5}"]
        lines += [f"d snap vol s{turn}", f"b read vol {turn}"]
        if stops:
            lines += [f"op {'blank' if turn % 2 else 'stop'} {first}", "wait", f"c write vol {turn + 8} fill {turn}", f"op start {first}"]
        lines += ["wait", "op settle", "wait"]
    lines += [f"e read vol@s{turn} {block}" for turn in range(turns) for block in range(turns)]
    return joined(lines + [f"f read vol {block}" for block in range(8 * 6)])

def moved_and_stopped(servers, turns, *nets):
    return on_the_move(servers, turns, *nets, stops=True)

def upgrade(servers, turns, *nets):
    """One server after the other stops, blocks of its are written, and it starts again and is brought up to date, before the next one
    stops: all is served at any time."""
    return rolling(servers, turns, *nets, settles=True)

def renewal(servers, turns, *nets, snaps=False):
    """One server after the other gets a blank device, and is filled before the next one does: all is served at any time."""
    servers, turns = int(servers), int(turns)
    lines = head(servers, (4 if snaps else 2) * turns, *(net.replace("_", " ") for net in nets))
    for turn in range(turns):
        lines += [f"a write vol {turn} fill {turn}", "wait", f"op blank {turn % servers}", *([f"d snap vol s{turn}"] if snaps else [])]
        lines += ["op settle", f"b write vol {turn} fill {turn + 100}", "wait"]
    lines += [f"e read vol@s{turn} {block}" for turn in range(turns) if snaps for block in range(turns)]
    return joined(lines + [f"c read vol {block}" for block in range(turns)])

def renewal_snaps(servers, turns, *nets):
    """The same, with a snapshot while each is filled."""
    return renewal(servers, turns, *nets, snaps=True)

def rolling_snaps(servers, turns, *nets):
    """One server after the other stops, and starts again, each time with a snapshot meanwhile."""
    return rolling(servers, turns, *nets, settles=True, snaps=True)

def rolling(servers, turns, *nets, settles=False, snaps=False):
    """One server after the other stops, a block of its is written and read, and it starts again; at the end each block is read."""
    servers, turns = int(servers), int(turns)
    lines = head(servers, (6 if snaps else 2) * turns, *(net.replace("_", " ") for net in nets))
    for turn in range(turns):
        server = turn % servers
        lines += [f"op stop {server}", "wait", f"a write vol {turn} fill {turn}", f"b write vol {turn + servers - 1} fill {turn + 100}"]
        lines += [f"c read vol {turn}", *([f"d snap vol s{turn}"] if snaps else []), "wait"]
        lines += [f"op start {server}", *(["op settle"] if settles else []), "wait"]
    lines += [f"e read vol@s{turn} {block}" for turn in range(turns) if snaps for block in range(turns)]
    return joined(lines + [f"a read vol {block}" for block in range(turns)])

def neighbours(*nets):
    """Two neighbours stop, one after the other or both at once, and start again, with writes and reads before, between and after."""
    lines = ["servers 5 slots 16", *(net.replace("_", " ") for net in nets), "a disk vol on 0 1 2 3 4", "wait"]
    fill = 0
    for orders in ("op stop 1|op stop 2|op start 1|op start 2", "op stop 2;op stop 1|op start 2|op stop 0|op start 1;op start 0", "op stop 1;op stop 2;op start 1;op start 2"):
        for order in orders.split("|"):
            lines += [*order.split(";"), "wait"]
            for block, client in enumerate("abc"):
                fill += 1
                lines += [f"{client} write vol {block} fill {fill}", f"{client} read vol {block}"]
            lines.append("wait")
    return joined(lines + [f"d read vol {block}" for block in range(5)])

def amid(slots, stopped, delay, *nets):
    """A client writes block 2, on servers 2 and 3, again and again, and reads it. After so many lines of the operator one of the two
    stops. Then blocks are written until the slots run out."""
    lines = [f"servers 5 slots {slots}", *(net.replace("_", " ") for net in nets), "a disk vol on 0 1 2 3 4", "wait"]
    lines += ["a write vol 2 fill 1", "op stop 0", "wait"]
    lines += ["op stop 0"] * int(delay) + [f"op stop {stopped}"]
    lines += [line for turn in range(4) for line in (f"a write vol 2 fill {10 + turn}", "a read vol 2", "b read vol 2")]
    lines += ["wait", "b read vol 2", "wait"]
    lines += [f"b write vol {block} fill {block}" for block in range(2, 22, 5)] + ["wait"]
    return joined(lines + [f"c read vol {block}" for block in range(2, 22, 5)])

def most_disks(*nets):
    """As many disks as there may be, each over all of eight servers in an order of its own, written and read by all clients."""
    lines = ["servers 8 slots 200", *(net.replace("_", " ") for net in nets)]
    for disk in range(16):
        order = [(disk + (3 if disk < 8 else 5) * step) % 8 for step in range(8)]
        lines.append(f"{CLIENTS[disk % 8]} disk d{disk} on " + " ".join(map(str, order)))
    lines.append("wait")
    for turn in range(24):
        lines += [f"{CLIENTS[(disk + turn) % 8]} write d{disk} {turn} fill {disk + 16 * (turn % 16)}" for disk in range(16)]
    lines.append("wait")
    for turn in range(25):
        lines += [f"{CLIENTS[(disk + turn + 3) % 8]} read d{disk} {turn}" for disk in range(16)]
    return joined(lines)

def most_moves(servers, *nets):
    """A disk of as many snapshots as there may be moves as often as a disk may, over all servers and over few; each snapshot is read
    afterwards, and the last one after each move."""
    servers = int(servers)
    lines = head(servers, 400, *(net.replace("_", " ") for net in nets))
    for turn in range(64):
        lines += [f"a write vol {(turn * 9) % 20} fill {turn + 1}", f"a snap vol s{turn}"]
    lines.append("wait")
    for turn in range(8):
        some = [(turn + step) % servers for step in range(2 + turn % (servers - 1))]
        lines += ["a move vol on " + " ".join(map(str, some)), f"a write vol {turn} fill {100 + turn}", "wait", "op settle", "wait"]
        lines += [f"b read vol@s63 {turn}", f"c read vol {turn}", "wait"]
    return joined(lines + [f"{CLIENTS[turn % 8]} read vol@s{turn} {block}" for turn in range(64) for block in range(0, 20, 4)])

def most_boots(servers, *nets):
    """One server after the other is blanked, or stops and starts, as often as there may be such lines; all is served at any time."""
    servers = int(servers)
    lines = head(servers, 100, *(net.replace("_", " ") for net in nets))
    for turn in range(64):
        server = turn % servers
        down = [f"op blank {server}"] if turn // servers % 2 else [f"op stop {server}", "wait"]
        up = [] if turn // servers % 2 else [f"op start {server}"]
        lines += [f"a write vol {turn % 40} fill {turn}", *down, f"b write vol {40 + turn % 40} fill {turn + 100}", "wait", *up, "op settle", "wait"]
    return joined(lines + [f"c read vol {block}" for block in range(80)])

def full_server(slots):
    """Two servers have a block in each of their slots, but for those that a script has no lines for. One of them gets a blank device and is
    filled, the other one stops, and blocks are read from the first."""
    slots, written = int(slots), min(int(slots), 1000)
    lines = [f"servers 3 slots {slots}", "a disk vol on 0 1", "wait"]
    lines += [f"a write vol {block} ramp {block % 251}" for block in range(written)]
    lines += ["wait", "op blank 1", "op settle", "wait", "op stop 0", "wait"]
    return joined(lines + [f"{CLIENTS[block % 8]} read vol {block}" for block in range(0, written, written // 16)])

def ramps(seed):
    """As many requests as there may be, all but the first in one phase: each client writes ramps to blocks of its own, and reads them."""
    draw = random.Random(int(seed))
    lines = head(8, 300)
    for turn in range(1023):
        client = draw.randrange(8)
        block = 8 * draw.randrange(30) + client
        lines.append(f"{CLIENTS[client]} " + (f"read vol {block}" if draw.randrange(2) else f"write vol {block} ramp {draw.randrange(256)}"))
    return joined(lines)

def empty_lines(count):
    """So many empty lines, half of them before a request and half after it."""
    half = b"\n" * (int(count) // 2)
    return b"servers 3 slots 4\na disk vol on 0 1 2\n" + half + b"a write vol 1 fill 2\n" + half + b"a read vol 1\n"

def empty_phases(count):
    """So many phases without requests, between two that have one."""
    return b"servers 3 slots 4\na disk vol on 0 1 2\n" + b"wait\n" * int(count) + b"a read vol 1\n"

def snaps_at_once(*nets):
    """Each of eight clients takes eight snapshots of two disks, all at once, so that many fences wait; then each snapshot is read."""
    lines = ["servers 8 slots 300", *(net.replace("_", " ") for net in nets)]
    lines += ["a disk v on 0 1 2 3 4 5 6 7", "a disk w on 7 5 3 1", "wait"]
    lines += [f"{client} write {name} {block} fill {10 * block + at}" for block in range(4) for at, (client, name) in enumerate((("a", "v"), ("b", "w")))]
    lines.append("wait")
    lines += [f"{client} snap {'vw'[turn % 2]} {client}{turn}" for turn in range(8) for client in CLIENTS]
    lines.append("wait")
    lines += [f"a write {name} {block} fill {200 + block}" for name in "vw" for block in range(4)]
    lines.append("wait")
    return joined(lines + [f"h read {'vw'[turn % 2]}@{client}{turn} {block}" for client in CLIENTS for turn in range(8) for block in (0, 3)])

def many_contents(*nets):
    """A block with as many contents as it can have, one for each snapshot and its own, is copied to a blank server, read from it alone,
    and moved."""
    lines = ["servers 5 slots 140", *(net.replace("_", " ") for net in nets), "a disk vol on 0 1", "wait"]
    for turn in range(64):
        lines += [f"a write vol 5 fill {turn + 1}", f"a snap vol s{turn}"]
    lines += ["a write vol 5 fill 65", "wait", "op blank 0", "op settle", "wait", "op stop 1", "wait"]
    lines += [f"b read vol@s{turn} 5" for turn in range(0, 64, 9)] + ["b read vol 5", "wait", "op start 1", "op settle", "wait"]
    lines += ["c move vol on 2 3 4", "wait", "op settle", "wait", "op stop 3", "wait"]
    return joined(lines + [f"{CLIENTS[turn % 8]} read vol@s{turn} 5" for turn in range(64)] + ["b read vol 5"])

def many_copies(count, *nets):
    """A server that has stopped misses so many blocks, and is brought up to date by one other in its one life; it is read alone then."""
    count = int(count)
    lines = ["servers 3 slots 1024", *(net.replace("_", " ") for net in nets), "a disk vol on 0 1", "wait", "op stop 1", "wait"]
    lines += [f"{CLIENTS[block % 8]} write vol {block} fill {block % 256}" for block in range(count)]
    lines += ["wait", "op start 1", "op settle", "wait", "op stop 0", "wait"]
    return joined(lines + [f"{CLIENTS[block % 8]} read vol {block}" for block in range(count)])

MAKERS = {
    "many_disks": many_disks, "mixed": mixed, "stops": stops, "starts": starts, "settles": settles, "blanks": blanks,
    "faults": faults, "stop_amid": stop_amid, "fault_before": fault_before, "snaps": snaps, "moves": moves,
    "frozen": frozen, "race": race, "thousand": thousand, "moved_thousand": moved_thousand, "on_the_move": on_the_move,
    "moved_and_stopped": moved_and_stopped, "renewal": renewal, "renewal_snaps": renewal_snaps, "rolling_snaps": rolling_snaps, "rolling": rolling,
    "upgrade": upgrade, "neighbours": neighbours, "amid": amid, "text": text, "bytes": bytes_of, "nothing": nothing, "work": work, "busy": busy,
    "all_servers": all_servers, "patterns": patterns, "sized": sized, "requests": requests, "phases": phases, "large": large,
    "most_disks": most_disks, "most_moves": most_moves, "most_boots": most_boots, "full_server": full_server, "ramps": ramps,
    "empty_lines": empty_lines, "empty_phases": empty_phases, "snaps_at_once": snaps_at_once, "many_contents": many_contents,
    "many_copies": many_copies, "faulted_drill": faulted_drill,
}

def made(words):
    """The script that words such as `work,3,1,40,8,1,net_lose_2` name, split at commas."""
    name, *given = words.split(",")
    return MAKERS[name](*given)
