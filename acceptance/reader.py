"""Reads a script by docs/SCRIPT.md alone, apart from the program, and tells its first refusal."""
import re

CLIENTS = "abcdefgh"
NAME = re.compile(r"[a-z][a-z0-9_-]{0,15}")
NUMBER = re.compile(r"[0-9]{1,20}")
BLOCKS, COUNTS = range(2**48), range(1, 1_000_001)

class Refused(Exception):
    """Why a line is refused."""

class Reader:
    """What is known of the lines so far: how many servers there are, which net lines were given, how many requests there were of
    each kind, and which servers are possibly down."""

    def __init__(self):
        self.servers, self.nets, self.down = 0, set(), set()
        self.requests = self.disks = self.snaps = self.moves = self.starts = 0

    def read(self, words):
        """Takes a line that counts, or raises why it is refused."""
        first = words[0]
        if not self.servers:
            if first != "servers":
                raise Refused("no servers line")
            return self.read_servers(words)
        if first == "net":
            return self.read_net(words)
        if first == "wait":
            return need(len(words) == 1, "bad line")
        need(first in (*CLIENTS, "op"), "bad line")
        (self.read_operator if first == "op" else self.read_client)(words[1:])
        self.count(words[1:])
        if first == "op":
            self.note_down(words[1:])

    def read_servers(self, words):
        need(len(words) == 4 and words[2] == "slots", "bad line")
        number(words[1], range(2, 9))
        number(words[3], range(1, 1025))
        self.servers = int(words[1])

    def read_net(self, words):
        need(len(words) == 3 and words[1] in ("lose", "twice"), "bad line")
        need(not self.requests and words[1] not in self.nets, "bad line")
        number(words[2], range(2, 1_000_001))
        self.nets.add(words[1])

    def read_client(self, words):
        verb = words[0] if words else ""
        if verb in ("disk", "move"):
            need(len(words) >= 4 and words[2] == "on", "bad line")
            name(words[1])
            self.read_tuple(words[3:])
        elif verb == "write":
            bytes_given = {"fill": 1, "halves": 2, "ramp": 1}.get(words[3] if words[3:] else "")
            need(bytes_given is not None and len(words) == 4 + bytes_given, "bad line")
            name(words[1])
            number(words[2], BLOCKS)
            for word in words[4:]:
                number(word, range(256))
        elif verb == "read":
            need(len(words) == 3, "bad line")
            for word in words[1].split("@", 1):
                name(word)
            number(words[2], BLOCKS)
        else:
            need(verb == "snap" and len(words) == 3, "bad line")
            name(words[1])
            name(words[2])

    def read_tuple(self, words):
        for word in words:
            need(NUMBER.fullmatch(word), "bad number")
        servers = [int(word) for word in words]
        distinct = len(set(servers)) == len(servers)
        need(2 <= len(servers) <= 8 and distinct and all(server < self.servers for server in servers), "bad tuple")

    def read_operator(self, words):
        verb = words[0] if words else ""
        if verb == "settle":
            return need(len(words) == 1, "bad line")
        planned = verb == "stop" and len(words) == 4 and words[2] == "at"
        faulty = verb == "fault" and len(words) == 5 and words[2] in ("data", "state") and words[3] in ("read", "write", "sync")
        need(planned or faulty or verb in ("stop", "start", "blank") and len(words) == 2, "bad line")
        number(words[1], range(self.servers))
        if planned or faulty:
            number(words[-1], COUNTS)

    def count(self, words):
        """One request more, where there may be one."""
        self.requests += 1
        self.disks += words[0] == "disk"
        self.snaps += words[0] == "snap"
        self.moves += words[0] == "move"
        self.starts += words[0] in ("start", "blank")
        need(self.requests <= 1024 and self.disks <= 16 and self.snaps <= 64 and self.moves <= 8 and self.starts <= 64, "too many")

    def note_down(self, words):
        """Which servers are possibly down after an operator's line: a majority must not be."""
        if words[0] in ("stop", "fault"):
            self.down.add(int(words[1]))
        elif words[0] in ("start", "blank"):
            self.down.discard(int(words[1]))
        need(self.servers - len(self.down) >= self.servers // 2 + 1, "no majority")

def need(is_so, cause):
    if not is_so:
        raise Refused(cause)

def name(word):
    need(NAME.fullmatch(word), "bad name")

def number(word, limits):
    need(NUMBER.fullmatch(word) and int(word) in limits, "bad number")

def lines_of(script):
    """Each line with its number, without its end, and how many bytes the script has up to its end."""
    end = 0
    for at, line in enumerate(script.split(b"\n"), 1):
        is_ended = end + len(line) < len(script)
        end += len(line) + is_ended
        if line or is_ended:
            yield at, line[:-1] if is_ended and line.endswith(b"\r") else line, end

def refusal_of(script):
    """The first refused line and why, or None."""
    reader = Reader()
    for at, line, end in lines_of(script):
        try:
            need(line.isascii(), "not ascii")
            need(len(line) <= 256 and end <= 1048576, "too long")
            words = line.decode().replace("\t", " ").split(" ")
            words = [word for word in words if word]
            if words and not line.startswith(b"#"):
                reader.read(words)
        except Refused as why:
            return at, str(why)
    return None if reader.servers else (1, "no servers line")
