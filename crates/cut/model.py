#!/usr/bin/env python3
"""What the program cut should print and write for a picture, by the rules; it shares no code with the engine.

    python3 model.py expected < picture > stdout    the summary
    python3 model.py files FOLDER < picture         compares the files in a folder with what they should be

The pipeline is source, cache, rot d90, shrink 2 2, cache; both caches have tiles of 16 by 16 and 16 slots.
A picture with a side of 1 is refused with 7, since shrink does not fit; that line is not foretold.
How often a step asks below is its own choice. Of a tile of the upper cache, shrink asks for one region of twice the sides,
and rot for that region turned, since both have room for it; the counts of the lower cache rest on that, and are not foretold where there are holes.
"""
import os
import re
import sys

CAUSES = {1: "missing byte", 2: "unread byte", 3: "sample above maxval", 4: "no pixel"}


class Hole(Exception):
    pass


class File:
    def __init__(self, data):
        head = re.match(rb"P([56])\s(?:\s|#[^\n]*\n)*(\d+)\s(?:\s|#[^\n]*\n)*(\d+)\s(?:\s|#[^\n]*\n)*(\d+)\s", data)
        self.depth = 3 if head.group(1) == b"6" else 1
        self.w, self.h, self.maxval = (int(head.group(k)) for k in (2, 3, 4))
        self.data, self.start = data, head.end()
        self.wide = 1 if self.maxval < 256 else 2

    def at(self, x, y):
        n = self.depth * self.wide
        p = self.start + (y * self.w + x) * n
        got = self.data[p:p + n]
        if len(got) < n:
            raise Hole((1, 0, x, y))
        s = [int.from_bytes(got[k:k + self.wide], "big") for k in range(0, n, self.wide)]
        if max(s) > self.maxval:
            raise Hole((3, 0, x, y))
        return s

    def prepare(self, left, top, width, height):
        for y in range(top, top + height):
            for x in range(left, left + width):
                self.at(x, y)


class Cache:
    def __init__(self, below):
        self.below, self.w, self.h = below, below.w, below.h
        self.tiles, self.hits, self.fetches, self.bypasses, self.count = [], 0, 0, 0, 0

    def prepare(self, left, top, width, height):
        self.count += 1
        for r in range(top // 16, (top + height - 1) // 16 + 1):
            for c in range(left // 16, (left + width - 1) // 16 + 1):
                if (c, r) in self.tiles:
                    self.tiles.remove((c, r))
                    self.tiles.insert(0, (c, r))
                    self.hits += 1
                    continue
                try:
                    self.below.prepare(c * 16, r * 16, min(16, self.w - c * 16), min(16, self.h - r * 16))
                except Hole:
                    self.bypasses += 1
                    return self.below.prepare(left, top, width, height)
                self.fetches += 1
                self.tiles = [(c, r)] + self.tiles[:15]


class Steps:
    """rot d90 and then shrink 2 2"""

    def __init__(self, below, source):
        self.below, self.source = below, source
        self.w, self.h = source.h // 2, source.w // 2

    def at(self, u, v):
        # the turned picture has (v, H - 1 - u) of the source at (u, v); holes come in the order of the turned picture
        box = [self.source.at(2 * v + j, self.source.h - 1 - (2 * u + i)) for j in (0, 1) for i in (0, 1)]
        return [(sum(p[k] for p in box) + 2) // 4 for k in range(self.source.depth)]

    def prepare(self, left, top, width, height):
        if 4 * width * height <= 4096:
            # one region of the source: rows 2 * top .. of the turned picture are columns of the source
            try:
                self.below.prepare(2 * top, self.source.h - 2 * left - 2 * width, 2 * height, 2 * width)
            except Hole:
                pass
        for v in range(top, top + height):
            for u in range(left, left + width):
                self.at(u, v)


def sample(value, maxval):
    return value.to_bytes(1 if maxval < 256 else 2, "big")


def file_of(picture, width, height, rows):
    head = b"P%d\n%d %d\n%d\n" % (6 if picture.source.depth == 3 else 5, width, height, picture.source.maxval)
    return head + b"".join(sample(s, picture.source.maxval) for row in rows for p in row for s in p)


def why(fault):
    return "refused 12: there is a hole: cause %d (%s), source %d, column %d, row %d" % (fault[0], CAUSES[fault[0]], fault[1], fault[2], fault[3])


def run(data):
    source = File(data)
    lower = Cache(source)
    steps = Steps(lower, source)
    upper = Cache(steps)
    ending = "ppm" if source.depth == 3 else "pgm"
    lines, files = [], {}
    lines.append("picture: %d by %d, maxval %d" % (source.w, source.h, source.maxval))
    lines.append("turned and shrunk: %d by %d" % (steps.w, steps.h))
    w, h = steps.w, steps.h
    rows, strips, fault = [], 0, None
    for top in range(0, h, 16):
        high = min(16, h - top)
        try:
            upper.prepare(0, top, w, high)
        except Hole as hole:
            fault = hole.args[0]
            break
        rows += [[steps.at(u, v) for u in range(w)] for v in range(top, top + high)]
        strips += 1
    written = file_of(steps, w, h, rows)
    if fault is None:
        files["turned." + ending] = written
        lines.append("turned.%s: %d bytes, %d rows in %d strips" % (ending, len(written), h, strips))
        # the file is compared with the picture, strip by strip
        for top in range(0, h, 16):
            upper.prepare(0, top, w, min(16, h - top))
        lines.append("read back: %d of %d rows agree" % (h, h))
    else:
        lines.append("turned.%s: abandoned at row %d of %d, behind %d bytes in %d strips: %s" % (ending, len(rows), h, len(written), strips, why(fault)))
    left_out, count = [], 0
    for r in range(-(-h // 64)):
        for c in range(-(-w // 64)):
            count += 1
            wide, high = min(64, w - 64 * c), min(64, h - 64 * r)
            name = "tile-%d-%d.%s" % (c, r, ending)
            try:
                upper.prepare(64 * c, 64 * r, wide, high)
            except Hole as hole:
                left_out.append("  %s: %s" % (name, why(hole.args[0])))
                continue
            black = [0] * source.depth
            square = [[steps.at(64 * c + i, 64 * r + j) if i < wide and j < high else black for i in range(64)] for j in range(64)]
            files[name] = file_of(steps, 64, 64, square)
    tiles = [f for f in files if f.startswith("tile")]
    lines.append("tiles: %d of %d written, %d bytes" % (len(tiles), count, sum(len(files[f]) for f in tiles)))
    if left_out:
        lines += ["left out:"] + left_out
    lines.append("prepares: %d" % upper.count)
    lines.append("upper cache: %d hits, %d fetches, %d bypasses" % (upper.hits, upper.fetches, upper.bypasses))
    lines.append("lower cache: %d hits, %d fetches, %d bypasses" % (lower.hits, lower.fetches, lower.bypasses))
    return lines, files


if __name__ == "__main__":
    data = sys.stdin.buffer.read()
    if min(File(data).w, File(data).h) < 2:
        sys.exit("refused with 7: nothing is written, and the line is not foretold")
    lines, files = run(data)
    if sys.argv[1] == "expected":
        print("\n".join(lines))
    else:
        there = {f for f in os.listdir(sys.argv[2]) if re.match(r"turned|tile-", f)}
        bad = [f for f in sorted(there | set(files)) if f not in there or f not in files or open(os.path.join(sys.argv[2], f), "rb").read() != files[f]]
        print("%d files compared, %d differ%s" % (len(there | set(files)), len(bad), "".join(" " + f for f in bad)))
        sys.exit(1 if bad else 0)
