"""What `petal drill SEED COUNT` has to print: the drill's script, drawn here once more, and what the plain model answers to it."""
from functools import cache
import model

class Draws:
    """Numbers that are drawn one after the other from a seed."""

    def __init__(self, seed):
        self.last = seed

    def below(self, bound):
        self.last = (self.last * 1103515245 + 12345) % 2**31
        return self.last // 65536 % bound

def request(draws):
    """A read or a write of a client's own block."""
    client, row, byte, kind = [draws.below(bound) for bound in (8, 8, 255, 3)]
    block = 8 * row + client
    return model.CLIENTS[client] + (f" write vol {block} fill {byte + 1}" if kind else f" read vol {block}")

def script_of(seed, count):
    draws, stopped = Draws(seed), None
    lines = ["servers 5 slots 256", "a disk vol on 0 1 2 3 4", "wait"]
    for turn in range(count):
        if turn % 16 == 8:
            stopped = draws.below(5)
            lines += ["wait", f"op stop {stopped}"]
        if turn % 16 == 0 and turn:
            lines += ["wait", f"op start {stopped}", "op settle", "wait"]
        lines.append(request(draws))
    return "".join(line + "\n" for line in [*lines, "wait"]).encode()

@cache
def line_of(seed, count):
    """The line that the words of a call are answered with."""
    seed, count = int(seed), int(count)
    script = script_of(seed, count)
    answers = model.answers_in(model.answers_of(script))
    kinds = [(words[1], answers.get(number)) for number, words in model.lines_of(script) if len(words) > 1]
    written = [answer for kind, answer in kinds if kind == "write" and answer == "ok"]
    found = [answer for kind, answer in kinds if kind == "read" and answer.startswith("data ")]
    stops = [answer for kind, answer in kinds if kind == "stop"]
    total = sum(int(answer.split("x")[1]) for answer in found)
    return f"drill {seed} {count}: writes {len(written)} reads {len(found)} stops {len(stops)} sum {total}\n".encode()
