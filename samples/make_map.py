#!/usr/bin/env python3
"""Writes map.pgm, a drawn map of 300 by 200: land and water, contour lines and four marked sites.

    python3 make_map.py > map.pgm
"""
import math
import sys

W, H = 300, 200


def height(x, y):
    return (90 * math.sin(x / 37.0) * math.cos(y / 29.0) + 60 * math.sin((x + 2 * y) / 53.0) + 40 * math.cos((2 * x - y) / 71.0))


def sample(x, y):
    for k, (cx, cy) in enumerate([(60, 50), (150, 120), (240, 60), (220, 160)]):
        d = (x - cx) ** 2 + (y - cy) ** 2
        if 36 <= d <= 64:
            return 0
        if d < 36:
            return 255 - 40 * k
    h = height(x, y)
    if h < -20:
        return 60 + (x + y) % 4
    if int(h + 200) % 24 == 0:
        return 90
    return min(250, 150 + int(h / 2))


if __name__ == "__main__":
    out = sys.stdout.buffer
    out.write(b"P5\n%d %d\n255\n" % (W, H))
    out.write(bytes(sample(x, y) for y in range(H) for x in range(W)))
