#!/usr/bin/env python3
"""Writes the books and the expected answers of the program booksuite.

An independent reading of docs/BOOKS.md and docs/SCHEDULING.md: it shares nothing with the Rattle code. It tries every
assignment of a small book; the answers of the large books are worked out by hand.

    python3 tools/booksuite.py crates/booksuite/stdin crates/booksuite/stdout
"""
import itertools
import math
import random
import sys

MOST_FIGURE = 1_000_000_000
UNTOUCHED = 9


class Book:
    def __init__(self, flops, domains, floor, tables, checks, cut=0, periods=()):
        self.flops, self.domains, self.floor = flops, domains, floor
        self.tables, self.checks, self.cut, self.periods = tables, checks, cut, periods

    def numbers(self):
        yield from (self.flops, self.domains, self.floor, len(self.tables))
        for rows in self.tables:
            yield len(rows)
            for row in rows:
                yield len(row)
                yield from row
        yield len(self.checks)
        for check in self.checks:
            yield from check
        yield from (self.cut, len(self.periods))
        for period in self.periods:
            yield from period

    def fits(self):
        if self.flops > 256 or len(self.checks) > 65_536 or not 1 <= self.domains <= 8 or self.floor > MOST_FIGURE:
            return False
        for rows in self.tables:
            if len(rows) != self.domains or any(len(row) != self.domains for row in rows):
                return False
            if any(figure > MOST_FIGURE for row in rows for figure in row):
                return False
        return all(s < self.flops and e < self.flops and t < len(self.tables) for s, e, t in self.checks)

    def lawful(self):
        for rows in self.tables:
            if any(a > b for upper, lower in zip(rows, rows[1:]) for a, b in zip(upper, lower)):
                return False
            if any(a < b for row in rows for a, b in zip(row, row[1:])):
                return False
        return True

    def period(self, domains):
        return max([self.floor] + [self.tables[t][domains[s]][domains[e]] for s, e, t in self.checks])


def lowest(assignments):
    low = tuple(min(column) for column in zip(*assignments))
    assert low in assignments
    return low


def line(word, answer, domains):
    return " ".join([word, answer] + [str(d) for d in domains])


def settled(book, numerator, denominator, every):
    if numerator > 40_000_000_000 or not 1 <= denominator <= 4095:
        return line("settle", "refused 12", [UNTOUCHED] * book.flops)
    meeting = [a for a, period in every if period * denominator <= numerator]
    if not meeting:
        return line("settle", "refused 13", [0] * book.flops)
    common = math.gcd(numerator, denominator)
    return line("settle", f"{numerator // common}/{denominator // common}", lowest(meeting))


def answers(book):
    if not book.fits():
        return ["refused 17"]
    if not book.lawful():
        return ["refused 18"]
    every = [(a, book.period(a)) for a in itertools.product(range(book.domains), repeat=book.flops)]
    shortest = min(period for _, period in every)
    schedule = line("schedule", f"{shortest}/1", lowest([a for a, period in every if period <= shortest]))
    lines = ["filled", schedule, schedule]
    for numerator, denominator in book.periods:
        lines += [settled(book, numerator, denominator, every)] * 2
    return lines


def table(chance, domains, most):
    """A table that keeps both laws: sums of steps down from row to row and back from column to column."""
    rows = [[0] * domains for _ in range(domains)]
    for m in range(domains):
        for n in reversed(range(domains)):
            least = max(rows[m - 1][n] if m else 0, rows[m][n + 1] if n + 1 < domains else 0)
            rows[m][n] = least + chance.choice([0, 0, 1, 2, chance.randint(0, most)])
    return rows


def chance_book(chance):
    domains = chance.choice([1, 2, 2, 3, 3, 4])
    flops = chance.randint(1, {1: 6, 2: 6, 3: 4, 4: 3}[domains])
    tables = [table(chance, domains, chance.choice([3, 10])) for _ in range(chance.randint(1, 4))]
    count = chance.randint(0, 8)
    checks = [(chance.randrange(flops), chance.randrange(flops), chance.randrange(len(tables))) for _ in range(count)]
    figures = [figure for rows in tables for row in rows for figure in row]
    periods = [(chance.choice(figures) * 6 + chance.randint(-1, 1) * chance.randint(0, 4), 6) for _ in range(3)]
    periods = [(max(numerator, 0), denominator) for numerator, denominator in periods]
    return Book(flops, domains, chance.choice([0, 0, 1, max(figures)]), tables, checks, chance.randint(0, count), periods)


def spoilt(chance, book):
    way = chance.randrange(7)
    rows = chance.choice(book.tables)
    row = chance.choice(rows)
    if way == 0:
        chance.choice([rows.pop, lambda: rows.append(list(rows[0]))])()
    elif way == 1:
        chance.choice([row.pop, lambda: row.append(0)])()
    elif way == 2:
        row[0] = MOST_FIGURE + chance.randint(0, 1)
    elif way == 3:
        row[chance.randrange(len(row))] += chance.randint(1, 9)
    elif way == 4:
        book.checks.append((chance.randint(0, book.flops), chance.randint(0, book.flops), chance.randint(0, len(book.tables))))
    elif way == 5:
        book.floor = MOST_FIGURE + chance.randint(0, 1)
    else:
        book.domains = chance.choice([0, book.domains - 1, book.domains + 1])
    return book


# Books whose answers are known without a program.
FALLING = [[100 - n for n in range(8)] for _ in range(8)]
CHAIN = Book(256, 8, 0, [FALLING], [(k, k + 1, 0) for k in range(255)], 100, [(95, 1), (191, 2), (92, 1)])
CHAIN_ANSWERS = (
    ["filled"]
    + [line("schedule", "93/1", [0] + [7] * 255)] * 2
    + [line("settle", "95/1", [0] + [5] * 255)] * 2
    + [line("settle", "191/2", [0] + [5] * 255)] * 2
    + [line("settle", "refused 13", [0] * 256)] * 2
)
EXAMPLES = [
    Book(2, 2, 0, [[[10, 4], [12, 10]]], [(0, 1, 0)], 0, [(10, 1), (8, 2), (3, 1), (0, 0), (1, 4096), (40_000_000_001, 1)]),
    Book(2, 2, 0, [[[10, 11], [12, 12]]], [(0, 1, 0)]),
    Book(2, 2, 0, [[[10, 4], [9, 4]]], []),
    Book(3, 2, 0, [[[8, 4], [12, 8]]], [(0, 1, 0), (0, 2, 0)], 1),
    Book(3, 2, 0, [[[8, 4], [12, 8]]], [(0, 2, 0), (0, 1, 0)], 1),
    Book(3, 2, 0, [[[8, 4], [12, 8]]], [(0, 1, 0), (0, 1, 0), (0, 1, 0)], 2),
    Book(1, 3, 0, [[[9, 8, 7], [9, 8, 7], [9, 8, 7]]], [(0, 0, 0)], 0, [(8, 1)]),
    Book(2, 3, 0, [[[6, 4, 3], [12, 6, 4], [20, 12, 6]]], [(0, 1, 0), (1, 0, 0)], 1, [(5, 1)]),
    Book(2, 2, 50, [[[10, 4], [12, 10]]], [(0, 1, 0)], 1, [(50, 1), (49, 1)]),
    Book(4, 3, 7, [], [], 0, [(7, 1), (6, 1)]),
    Book(0, 1, 0, [], [], 0, [(0, 7)]),
    Book(3, 1, 2, [[[5]], [[6]]], [(0, 1, 0), (1, 2, 1)], 1, [(6, 1), (11, 2)]),
    Book(256, 1, 0, [[[5]]], [(255, 0, 0)]),
    Book(257, 1, 0, [[[5]]], [(255, 0, 0)]),
]


# What may stand between two numbers besides a blank: any bytes but digits.
BETWEEN = [b",", b"; ", b" -", b"\t+", b" / x", b"\r\n", b"\0", b"\xff", b"."]


def main():
    chance = random.Random(20)
    books = [(book, answers(book)) for book in EXAMPLES] + [(CHAIN, CHAIN_ANSWERS)]
    for _ in range(260):
        book = chance_book(chance)
        if chance.random() < 0.4:
            book = spoilt(chance, book)
        books.append((book, answers(book)))
    written = [(book, lines, b" ") for book, lines in books] + [(*books[0], between) for between in BETWEEN]
    with open(sys.argv[1], "wb") as texts, open(sys.argv[2], "w") as expected:
        texts.write(b"%d\n" % len(written))
        for book, lines, between in written:
            texts.write(between.join(b"%d" % n for n in book.numbers()) + b"\n")
            expected.write("\n".join(lines) + "\n")


main()
