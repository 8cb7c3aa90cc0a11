#!/usr/bin/env python3
"""Writes the texts and the expected accounts of the program dumpsuite.

An independent reading of docs/DUMPS.md and docs/REFUSALS.md: it shares nothing with the Rattle code. It makes sound
dumps by chance, spoils most of them in one to three places, and works out the account of each.

    python3 tools/dumpsuite.py crates/dumpsuite/stdin crates/dumpsuite/stdout
"""
import random
import sys

SEPARATOR = b"~"
REASONS = {
    1: "foreign character, odd digit count, empty line or no line feed",
    2: "unknown kind or wrong length",
    3: "frame out of its order or no end",
    4: "domain set outside its limits",
    5: "one flip-flop, gate or wire too many",
    6: "smaller delay above the larger",
    7: "wire names a class or number that is not there",
    8: "wire between gates does not start at the smaller number",
    9: "gate with no wire in or no wire out",
}
LIMITS = {2: 256, 3: 1024, 4: 4096}
LENGTHS = {2: (1, 5), 3: (5,), 4: (9,), 5: (1,)}


def word(frame, at):
    return frame[at] * 256 + frame[at + 1]


def sound_domains(parts, skews):
    if not (1 <= parts <= 256 and 1 <= len(skews) <= 8 and skews[0] == 0):
        return False
    return all(a < b for a, b in zip(skews, skews[1:])) and skews[-1] < parts


def bytes_of(line):
    """The bytes of a line with its line feed, or None."""
    if not line.endswith(b"\n"):
        return None
    digits = line[:-1]
    if len(digits) == 0 or len(digits) % 2 or any(c not in b"0123456789abcdef" for c in digits):
        return None
    return bytes.fromhex(digits.decode())


def well_shaped(frame):
    if frame[0] == 1:
        return len(frame) >= 4 and len(frame) == 4 + 2 * frame[3]
    return frame[0] in LENGTHS and len(frame) in LENGTHS[frame[0]]


class Reader:
    def __init__(self):
        self.last = 0
        self.parts, self.skews = 1, [0]
        self.count = {2: 0, 3: 0, 4: 0}
        self.entered, self.left = set(), set()

    def there(self, place):
        return place[0] in (0, 1) and place[1] < self.count[2 + place[0]]

    def fault(self, line):
        """The number that refuses the line, or 0."""
        frame = bytes_of(line)
        if frame is None:
            return 1
        if not well_shaped(frame):
            return 2
        kind = frame[0]
        if (kind == 1) != (self.last == 0) or kind < self.last or self.last == 5:
            return 3
        self.last = kind
        return self.take(kind, frame)

    def take(self, kind, frame):
        if kind == 1:
            self.parts = word(frame, 1)
            self.skews = [word(frame, 4 + 2 * k) for k in range(frame[3])]
            return 0 if sound_domains(self.parts, self.skews) else 4
        if kind == 5:
            gates = set(range(self.count[3]))
            return 0 if gates <= self.entered and gates <= self.left else 9
        if self.count[kind] == LIMITS[kind]:
            return 5
        if kind == 3 and word(frame, 1) > word(frame, 3):
            return 6
        if kind == 4:
            start, end = (frame[1], word(frame, 2)), (frame[4], word(frame, 5))
            if not (self.there(start) and self.there(end)):
                return 7
            if start[0] == 1 and end[0] == 1 and start[1] >= end[1]:
                return 8
            if start[0] == 1:
                self.left.add(start[1])
            if end[0] == 1:
                self.entered.add(end[1])
        self.count[kind] += 1
        return 0


def account(text):
    if len(text) > 65536:
        return "refused 20: more than 65536 bytes\n"
    reader = Reader()
    lines = split(text)
    for n, line in enumerate(lines, 1):
        number = reader.fault(line)
        if number:
            return refusal(number, n)
    if reader.last != 5:
        return refusal(3, len(lines) + 1)
    skews = " ".join(map(str, reader.skews))
    count = reader.count
    return f"accepted\nQ {reader.parts} skews {skews}\nflip-flops {count[2]}\ngates {count[3]}\nwires {count[4]}\n"


def split(text):
    """Lines end at line feeds alone."""
    pieces = text.split(b"\n")
    return [p + b"\n" for p in pieces[:-1]] + ([pieces[-1]] if pieces[-1] else [])


def refusal(number, line):
    return f"refused {number} at line {line}: {REASONS[number]}\n"


def line(*frame):
    return bytes(frame).hex().encode() + b"\n"


def two(n):
    return [n >> 8 & 255, n & 255]


def sound(chance):
    """The lines of a sound dump."""
    domains = chance.randint(1, 8)
    parts = chance.randint(domains, 256)
    skews = [0] + sorted(chance.sample(range(1, parts), domains - 1))
    out = [line(1, *two(parts), domains, *[b for v in skews for b in two(v)])]
    flops, gates = chance.randint(1, 5), chance.randint(0, 5)
    for _ in range(flops):
        out.append(line(2) if chance.random() < 0.3 else line(2, *two(chance.randrange(65536)), *two(chance.randrange(65536))))
    for _ in range(gates):
        small, large = sorted((chance.randrange(65536), chance.randrange(65536)))
        out.append(line(3, *two(small), *two(large)))
    wires = []
    for g in range(gates):
        source = (1, chance.randrange(g)) if g and chance.random() < 0.5 else (0, chance.randrange(flops))
        wires.append((source, (1, g)))
        wires.append(((1, g), (0, chance.randrange(flops))))
    for _ in range(chance.randint(0, 3)):
        wires.append(((0, chance.randrange(flops)), (0, chance.randrange(flops))))
    chance.shuffle(wires)
    for start, end in wires:
        out.append(line(4, start[0], *two(start[1]), end[0], *two(end[1]), *two(chance.randrange(65536))))
    return out + [line(5)]


def aimed(chance, lines):
    """A change of one figure that another figure bears on: delays, ends of a wire, a wire left out, a skew."""
    kind = chance.choice([b"01", b"03", b"04", b"04"])
    places = [k for k, text in enumerate(lines) if text.startswith(kind)]
    if not places:
        return
    at = chance.choice(places)
    text = lines[at]
    if kind == b"03" and len(text) == 11:
        lines[at] = text[:2] + text[6:10] + text[2:6] + b"\n"
    elif kind == b"04" and len(text) == 19 and chance.random() < 0.6:
        lines[at] = text[:2] + text[8:14] + text[2:8] + text[14:]
    elif kind == b"04":
        del lines[at]
    elif len(text) > 12:
        lines[at] = text[:8] + text[12:-1] + text[8:12] + b"\n"


def spoil(chance, lines):
    """One change by chance, which may leave the dump sound."""
    if chance.random() < 0.5:
        aimed(chance, lines)
        return
    at = chance.randrange(len(lines))
    way = chance.randrange(9)
    if way == 0:
        del lines[at]
    elif way == 1:
        lines.insert(at, lines[chance.randrange(len(lines))])
    elif way == 2:
        other = chance.randrange(len(lines))
        lines[at], lines[other] = lines[other], lines[at]
    elif way == 3:
        k = chance.randrange(len(lines[at]))
        lines[at] = lines[at][:k] + bytes([chance.choice(b"0123456789abcdefA \rg")]) + lines[at][k + 1:]
    elif way == 4:
        k = chance.randrange(len(lines[at]))
        lines[at] = lines[at][:k] + lines[at][k + 1:]
    elif way == 5:
        k = chance.randrange(len(lines[at]) - 1) & ~1
        lines[at] = lines[at][:k] + b"%02x" % chance.choice([0, 1, 2, 3, 4, 5, 8, 9, 255]) + lines[at][k + 2:]
    elif way == 6:
        lines[at] = lines[at][:-1] + b"00\n"
    elif way == 7:
        lines.insert(at, b"\n")
    else:
        k = chance.randrange(len(lines[at]) - 1)
        lines[at] = lines[at][:k] + bytes([chance.choice(b"0123456789abcdef")]) + lines[at][k + 1:]


def texts():
    chance = random.Random(20261117)
    yield b""
    yield b"05"
    yield b"x" * 65536
    yield b"x" * 65537
    yield b"\n" * 3
    yield line(1, 0, 1, 1, 0, 0) + line(2) * 256 + line(5)
    yield line(1, 0, 1, 1, 0, 0) + line(2) * 257 + line(5)
    yield line(1, 0, 1, 1, 0, 0) + line(3, 0, 0, 0, 1) * 1025 + line(5)
    for n in range(400):
        lines = sound(chance)
        for _ in range(0 if n % 8 == 0 else chance.randint(1, 3)):
            if lines:
                spoil(chance, lines)
        text = b"".join(lines)
        yield text[:-1] if chance.random() < 0.03 else text


def main():
    all_texts = list(texts())
    with open(sys.argv[1], "wb") as out:
        out.write(SEPARATOR.join(all_texts))
    with open(sys.argv[2], "w") as out:
        out.writelines(map(account, all_texts))


if __name__ == "__main__":
    main()
