#!/usr/bin/env python3
"""How long cut takes beside netpbm and libvips on the same picture, in one run.

    ./demo && python3 bench/cut.py [WIDTH HEIGHT]

Prints processor seconds (user and system, the best of five runs) and their ratio to cut's. The peers only turn and shrink
the picture into one file; cut does that and also writes it again as tiles. Peers that are not installed are left out.
"""
import os
import random
import resource
import shutil
import subprocess
import sys
import tempfile

HERE = os.path.dirname(os.path.dirname(os.path.abspath(__file__)))


def seconds(command, folder, picture):
    best = None
    for _ in range(5):
        before = resource.getrusage(resource.RUSAGE_CHILDREN)
        with open(picture, "rb") as given:
            subprocess.run(["bash", "-c", "set -e -o pipefail; " + command], cwd=folder, stdin=given, check=True, stdout=subprocess.DEVNULL, stderr=subprocess.DEVNULL)
        after = resource.getrusage(resource.RUSAGE_CHILDREN)
        spent = after.ru_utime - before.ru_utime + after.ru_stime - before.ru_stime
        best = spent if best is None else min(best, spent)
    return best


def main():
    width, height = (int(n) for n in sys.argv[1:3]) if len(sys.argv) > 2 else (6000, 4000)
    folder = tempfile.mkdtemp()
    dice = random.Random(1)
    for ending, mark, depth in (("pgm", 5, 1), ("ppm", 6, 3)):
        picture = os.path.join(folder, "in." + ending)
        with open(picture, "wb") as out:
            out.write(b"P%d\n%d %d\n255\n" % (mark, width, height) + dice.randbytes(width * height * depth))
        ways = [("cut", os.path.join(HERE, "crates/cut/out/cut"), None),
                ("netpbm", "pamflip -cw | pamscale -reduce 2 > out." + ending, "pamscale"),
                ("libvips", "vips rot in.%s turned.v d90 && vips shrink turned.v out.%s 2 2" % (ending, ending), "vips")]
        own = None
        print("%s, %d by %d" % ("grey" if depth == 1 else "colour", width, height))
        for name, command, needs in ways:
            if needs and not shutil.which(needs):
                continue
            spent = seconds(command, folder, picture)
            own = own or spent
            print("  %-8s %6.2f s  %5.2f" % (name, spent, spent / own))
    shutil.rmtree(folder)


if __name__ == "__main__":
    main()
