"""Good scripts with a few mistakes in them, at random."""
import random, re

LINES = (b"servers 3 slots 4", b"net lose 2", b"net twice 1000000", b"wait", b"wait now", b"# a comment", b"#", b"", b" \t", b"op settle", b"op stop 0",
         b"op start 1", b"op blank 7", b"op stop 1 at 3", b"op fault 0 data sync 1", b"op fault 1 state read 0", b"h disk d-_9 on 0 1", b"a disk d0 on 1 1",
         b"b move d0 on 0 1", b"c snap d0 t", b"d read d0@t 3", b"e read d0@ 3", b"f write d0 1 ramp 255", b"g write d0 1 halves 1", b"i read d0 1")
# At the limits of places, and of what is a number.
NUMBERS = (b"0", b"1", b"2", b"7", b"8", b"9", b"255", b"256", b"1024", b"1025", b"1000000", b"1000001", b"281474976710655", b"281474976710656",
           b"18446744073709551615", b"18446744073709551616", b"99999999999999999999", b"100000000000000000000", b"00000000000000000001",
           b"000000000000000000001", b"-1", b"+1", b"1.", b"0x1")
NAMES = (b"d0", b"D0", b"0d", b"-d", b"d" * 16, b"d" * 17, b"d0@t", b"d0@t@u", b"@t", b"on", b"vol", b"op", b"a", b"d_-")
BYTES = (b"\r", b"\n", b"\t", b"\0", b" ", b"#", b"@", b"\x7f", b"\x80", b"\xff", b"0", b"9", b"a", b"z", b"A")

def at_byte(draw, script):
    at = draw.randrange(len(script) + 1)
    return script[:at] + draw.choice(BYTES) * draw.choice((1, 1, 1, 2)) + script[at + draw.randrange(2) :]

def without_some(draw, script):
    at = draw.randrange(len(script) + 1)
    return script[:at] + script[at + draw.choice((1, 1, 2, 7, 100)) :]

def at_word(draw, script):
    """A word of a line is another one, or is missing, or stands twice."""
    lines = script.split(b"\n")
    at = draw.randrange(len(lines))
    words = lines[at].split(b" ")
    place = draw.randrange(len(words))
    words[place : place + 1] = draw.choice(([draw.choice(NUMBERS)], [draw.choice(NUMBERS)], [draw.choice(NAMES)], [], words[place : place + 1] * 2))
    lines[at] = b" ".join(words)
    return b"\n".join(lines)

def at_number(draw, script):
    """A number is another one."""
    places = [found.span() for found in re.finditer(rb"(?<![^ ])[0-9]+(?![^ \n])", script)]
    if not places:
        return script
    start, end = draw.choice(places[:2] + places) if draw.randrange(4) else places[draw.randrange(min(2, len(places)))]
    return script[:start] + draw.choice(NUMBERS) + script[end:]

def at_line(draw, script):
    """A line more, or one missing, or two that change places, or one that stands many times."""
    lines = script.split(b"\n")
    at, other = draw.randrange(len(lines)), draw.randrange(len(lines))
    kind = draw.randrange(4)
    if kind == 0:
        lines.insert(at, draw.choice(LINES))
    elif kind == 1:
        del lines[at]
    elif kind == 2:
        lines[at], lines[other] = lines[other], lines[at]
    else:
        lines[at:at] = [lines[at]] * draw.choice((1, 1, 8, 64, 70))
    return b"\n".join(lines)

def spread(draw, script):
    """A line with room between its words, up to and beyond the longest that a line may be."""
    lines = script.split(b"\n")
    at = draw.randrange(len(lines))
    missing = draw.choice((1, 20, 256, 257)) - len(lines[at])
    lines[at] = lines[at].replace(b" ", b" " * max(1, missing), 1) if b" " in lines[at] else lines[at] + b"\t" * max(0, missing)
    return b"\n".join(lines)

def ends(draw, script):
    """Lines that end with CR LF, or a last line without an end."""
    return script.replace(b"\n", b"\r\n") if draw.randrange(2) else script.rstrip(b"\n") + draw.choice((b"", b"\r", b" "))

def mutated(script, seed):
    """The script's first lines, with up to four mistakes."""
    draw = random.Random(seed)
    script = b"".join(script.splitlines(True)[: draw.choice((3, 12, 40, 80))])
    for _ in range(draw.choice((1, 1, 1, 2, 2, 3, 4))):
        script = draw.choice((at_byte, without_some, at_word, at_word, at_number, at_number, at_number, at_line, at_line, spread, ends))(draw, script)
    return script
