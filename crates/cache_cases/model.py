#!/usr/bin/env python3
"""Tile caches by their rules: a list of tiles, most recent first, and three counts. It shares no code with the engine.

    python3 model.py cases > stdin       the runs
    python3 model.py expected > stdout   what they should give

A picture here is grey, with an 11-byte or longer header before its bytes; a place whose byte is missing is a hole.
"""
import random
import sys

MASK = 2 ** 64 - 1


class Source:
    def __init__(self, w, h, data, start):
        self.w, self.h, self.data, self.start, self.count = w, h, data, start, 0

    def at(self, x, y):
        p = self.start + y * self.w + x
        return self.data[p] if p < len(self.data) else (1, 0, x, y)

    def prepare(self, rect):
        self.count += 1
        return answer(self, rect)

    def forget(self):
        pass


class Turned:
    """rot d90: at (u, v) stands (v, H - 1 - u) of below."""

    def __init__(self, below):
        self.below, self.w, self.h, self.count = below, below.h, below.w, 0

    def at(self, u, v):
        return self.below.at(v, self.below.h - 1 - u)

    def prepare(self, rect):
        self.count += 1
        return answer(self, rect)

    def forget(self):
        self.below.forget()


class Shrunk:
    """shrink 2 2: the mean of a box of four."""

    def __init__(self, below):
        self.below, self.w, self.h, self.count = below, below.w // 2, below.h // 2, 0

    def at(self, u, v):
        box = [self.below.at(2 * u + i, 2 * v + j) for j in (0, 1) for i in (0, 1)]
        holes = [p for p in box if isinstance(p, tuple)]
        return holes[0] if holes else (sum(box) + 2) // 4

    def prepare(self, rect):
        self.count += 1
        return answer(self, rect)

    def forget(self):
        self.below.forget()


def answer(picture, rect):
    left, top, width, height = rect
    if left + width > picture.w or top + height > picture.h:
        return 10
    codes = []
    for y in range(top, top + height):
        for x in range(left, left + width):
            p = picture.at(x, y)
            if isinstance(p, tuple):
                return p
            codes.append(p)
    return codes


class Cache:
    def __init__(self, below, tw, th, slots):
        self.below, self.w, self.h, self.count = below, below.w, below.h, 0
        self.tw, self.th, self.slots = tw, th, slots
        self.tiles, self.hits, self.fetches, self.bypasses = [], 0, 0, 0

    def at(self, x, y):
        return self.below.at(x, y)

    def prepare(self, rect):
        self.count += 1
        left, top, width, height = rect
        if left + width > self.w or top + height > self.h:
            return 10
        for r in range(top // self.th, (top + height - 1) // self.th + 1):
            for c in range(left // self.tw, (left + width - 1) // self.tw + 1):
                if (c, r) in self.tiles:
                    self.tiles.remove((c, r))
                    self.tiles.insert(0, (c, r))
                    self.hits += 1
                    continue
                x, y = c * self.tw, r * self.th
                got = self.below.prepare((x, y, min(self.tw, self.w - x), min(self.th, self.h - y)))
                if not isinstance(got, list):
                    self.bypasses += 1
                    return self.below.prepare(rect)
                self.tiles.insert(0, (c, r))
                self.fetches += 1
                del self.tiles[self.slots:]
        return answer(self, rect)

    def forget(self):
        self.tiles = []
        self.below.forget()

    def told(self):
        return "%d %d %d" % (self.hits, self.fetches, self.bypasses)


def file_of(w, h, cut, dice):
    head = b"P5\n%d %d\n255\n" % (w, h)
    data = head + bytes(dice.randint(0, 255) for _ in range(w * h))
    return data[:len(data) - cut], len(head)


def runs():
    """(w, h, data, start, form, shapes, commands)"""
    dice = random.Random(4)
    sample = b"P5\n3 2\n255\n" + bytes([10, 20, 30, 40, 50, 60])
    yield (3, 2, sample[:15], 11, "one", [(2, 2, 1)], [("d", 0, 0, 1, 1, 0, 0, 1)])
    yield (3, 2, sample, 11, "one", [(1, 1, 2)], [("d", x, 0, 1, 1, 0, 0, 1) for x in (0, 1, 0, 2, 1)])
    # shapes at their limits and past them
    for shape in ((2, 2, 16), (2, 2, 17), (2, 2, 0), (0, 2, 1), (2, 0, 1), (256, 1, 1), (257, 1, 1), (1, 256, 1), (16, 17, 1), (65536, 65536, 1)):
        yield (3, 2, sample, 11, "one", [shape], [("d", 1, 0, 2, 2, 0, 0, 2)])
    for cut in (0, 37):
        for form, count in (("one", 1), ("two", 2), ("stack", 3)):
            for shapes in ([(4, 3, 2), (5, 5, 4), (2, 2, 16)], [(16, 16, 1), (1, 1, 16), (7, 3, 3)], [(3, 16, 16), (8, 2, 5), (6, 6, 1)]):
                w, h = 40, 31
                data, start = file_of(w, h, cut, dice)
                pw, ph = (w, h) if form != "stack" else (h // 2, w // 2)
                commands = []
                for _ in range(12):
                    rw, rh = dice.randint(1, 9), dice.randint(1, 8)
                    left, top = dice.randint(0, pw - rw), dice.randint(0, ph - rh)
                    dx = dice.choice([0, 1, 1, 2])
                    dy = dice.choice([0, 0, 1])
                    n = 10
                    commands.append(("d", left, top, rw, rh, dx, dy, n))
                    commands.append(("b", left, top, rw, rh, dx, dy, n))
                    if dice.random() < 0.25:
                        commands.append(("f",))
                yield (w, h, data, start, form, shapes[:count], commands)


def allowed(tw, th, slots):
    return tw >= 1 and th >= 1 and tw * th <= 256 and 1 <= slots <= 16


def result(w, h, data, start, form, shapes, commands):
    if not all(allowed(*shape) for shape in shapes):
        return "refused 5"
    source = Source(w, h, data, start)
    if form == "one":
        caches = [Cache(source, *shapes[0])]
    elif form == "two":
        lower = Cache(source, *shapes[0])
        caches = [Cache(lower, *shapes[1]), lower]
    else:
        # how often a step prepares below is left free, so only the uppermost cache's counts are known
        caches = [Cache(Shrunk(Turned(source)), *shapes[2])]
    top = caches[0]
    digest, answered, outside, holes = 0, 0, 0, 0
    for command in commands:
        if command[0] == "f":
            top.forget()
            continue
        word, left, upper, width, height, dx, dy, n = command
        for i in range(n) if word == "d" else reversed(range(n)):
            got = top.prepare((left + i * dx, upper + i * dy, width, height))
            if isinstance(got, list):
                answered += 1
                numbers = got
            elif isinstance(got, tuple):
                holes += 1
                numbers = list(got)
            else:
                outside += 1
                numbers = [got]
            for x in numbers:
                digest = ((digest * 1099511628211) & MASK) ^ x
    line = "answered %d outside %d holes %d digest %d" % (answered, outside, holes, digest)
    line += " prepares %d below %d" % (top.count, top.below.count)
    return line + "".join(" | " + c.told() for c in caches)


if __name__ == "__main__":
    for run in runs():
        if sys.argv[1] == "cases":
            w, h, data, start, form, shapes, commands = run
            words = [form] + [str(n) for shape in shapes for n in shape] + [data.hex()]
            for command in commands:
                words += [str(n) for n in command]
            print(" ".join(words))
        else:
            print(result(*run))
