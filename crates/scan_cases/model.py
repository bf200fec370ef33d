#!/usr/bin/env python3
"""The cases of scan_cases, and what must come of them.

    python3 model.py cases > stdin
    python3 model.py expected < stdin > stdout

This is a model of the rules, written apart from the engine: it shares no code and no data with it.
The cases are the same at each run.

A case is a line. `#` begins a title, which is answered by itself.

    grey|colour STORE BYTES NUMBER LEFT TOP WIDTH HEIGHT LENGTH
    memory grey|colour WIDTH HEIGHT MAXVAL NUMBER CODES LEFT TOP WIDTH HEIGHT LENGTH

STORE is `bytes`, `sectors:K,K` (these sectors of 2,048 places are unread; `sectors:-` is none), `joined:N`
(the bytes before place N are one store's and the others another's, joined at N) or `joined:N:M` (cut at M, joined at N).
BYTES are pairs of hexadecimal digits and repeated bytes, joined by `+`, as `5035+31*4000+20`; `-` is no byte.
CODES are numbers parted by commas; `-` is none. LENGTH is that of the buffer, which is all 7 before the call.

The answer is `refused N` where no picture is made, and else

    opened WIDTH HEIGHT MAXVAL HEADER | ANSWER ENTRIES count COUNT

with the length of the header (0 in memory), the prepare's answer (`ok`, `refused N` or
`hole CAUSE SOURCE COLUMN ROW`), all entries of the buffer (more than 9 equal ones in a row as `E*N`) and the count of prepares.
"""

import random
import re
import sys

WHITE = b" \t\r\n"
LIMIT = 65535
MISSING, UNREAD = "missing", "unread"
CAUSE = {MISSING: 1, UNREAD: 2}


# The rules.

class Refuse(Exception):
    def __init__(self, number):
        self.number = number


def store_cell(store, data):
    """What stands at a place: a byte, MISSING or UNREAD."""
    def slice_cell(part, place):
        return part[place] if place < len(part) else MISSING

    if store == "bytes":
        return lambda place: slice_cell(data, place)
    name, _, rest = store.partition(":")
    if name == "sectors":
        unread = set() if rest == "-" else {int(k) for k in rest.split(",")}

        def sector_cell(place):
            cell = slice_cell(data, place)
            return UNREAD if cell != MISSING and place // 2048 in unread else cell
        return sector_cell
    numbers = [int(n) for n in rest.split(":")]
    joint, cut = numbers[0], numbers[-1]
    first, second = data[:cut], data[cut:]
    return lambda place: slice_cell(first, place) if place < joint else slice_cell(second, place - joint)


def read_header(cell, mark):
    """Width, height, maxval and the length of the header; or Refuse."""
    def byte(place):
        if place >= 4096 or cell(place) in (MISSING, UNREAD):
            raise Refuse(2)
        return cell(place)

    if bytes([byte(0), byte(1)]) != mark:
        raise Refuse(1)
    place = 2
    found = []
    for _ in range(3):
        if byte(place) not in WHITE:
            raise Refuse(3)
        place += 1
        while byte(place) in b" \t\r\n#":
            if byte(place) == ord("#"):
                while byte(place) != ord("\n"):
                    place += 1
            place += 1
        digits = ""
        while ord("0") <= byte(place) <= ord("9"):
            digits += chr(byte(place))
            place += 1
        if not digits or byte(place) not in WHITE:
            raise Refuse(3)
        if not 1 <= int(digits) <= LIMIT:
            raise Refuse(4)
        found.append(int(digits))
    return found, place + 1


def file_pixel(cell, kind, size, start, column, row):
    """A pixel's code, or the cause of the hole in its place."""
    width, _, maxval = size
    depth = 3 if kind == "colour" else 1
    wide = 1 if maxval < 256 else 2
    first = start + (row * width + column) * depth * wide
    cells = [cell(first + k) for k in range(depth * wide)]
    for c in cells:
        if c in CAUSE:
            return None, CAUSE[c]
    samples = [int.from_bytes(bytes(cells[k:k + wide]), "big") for k in range(0, depth * wide, wide)]
    if max(samples) > maxval:
        return None, 3
    return sum(s << 16 * k for k, s in enumerate(reversed(samples))), None


def memory_pixel(codes, kind, size, column, row):
    width, _, maxval = size
    code = codes[row * width + column]
    if kind == "grey":
        samples = [code]
    else:
        samples = [code >> 32, code >> 16 & 65535, code & 65535]
    if max(samples) > maxval:
        return None, 4
    return code, None


def prepare(size, source, pixel, rect, entries):
    """The answer, the entries afterwards and the count of prepares."""
    left, top, width, height = rect
    if width < 1 or height < 1 or left + width > LIMIT or top + height > LIMIT:
        return "refused 10", entries, 0
    if left + width > size[0] or top + height > size[1]:
        return "refused 10", entries, 1
    if len(entries) < width * height:
        return "refused 11", entries, 1
    rest = entries[width * height:]
    codes = []
    for row in range(top, top + height):
        for column in range(left, left + width):
            code, cause = pixel(column, row)
            if cause:
                return f"hole {cause} {source} {column} {row}", [0] * (width * height) + rest, 1
            codes.append(code)
    return "ok", codes + rest, 1


# The lines.

def unpack(text):
    data = b""
    for part in ([] if text == "-" else text.split("+")):
        byte, star, times = part.partition("*")
        data += bytes.fromhex(byte) * (int(times) if star else 1)
    return data


def pack(data):
    """A run of 16 or more equal bytes as one repeated byte."""
    if not data:
        return "-"
    parts, plain = [], ""
    for run in re.finditer(rb"(.)\1*", data, re.S):
        run = run.group()
        if len(run) < 16:
            plain += run.hex()
            continue
        parts += [plain] if plain else []
        parts.append(f"{run[0]:02x}*{len(run)}")
        plain = ""
    return "+".join(parts + ([plain] if plain else []))


def listed(entries):
    words, k = [], 0
    while k < len(entries):
        end = k
        while end < len(entries) and entries[end] == entries[k]:
            end += 1
        words += [f"{entries[k]}*{end - k}"] if end - k > 9 else [str(entries[k])] * (end - k)
        k = end
    return words


def answer(line):
    if line.startswith("#"):
        return line
    words = line.split()
    *rect, length = [int(w) for w in words[-5:]]
    try:
        if words[0] == "memory":
            kind = words[1]
            *size, source = [int(w) for w in words[2:6]]
            codes = [] if words[6] == "-" else [int(c) for c in words[6].split(",")]
            if source > 255 or not all(1 <= n <= LIMIT for n in size) or len(codes) < size[0] * size[1]:
                raise Refuse(5)
            start = 0
            pixel = lambda column, row: memory_pixel(codes, kind, size, column, row)
        else:
            kind, store, data, source = words[:4]
            if int(source) > 255:
                raise Refuse(5)
            cell = store_cell(store, unpack(data))
            size, start = read_header(cell, b"P6" if kind == "colour" else b"P5")
            pixel = lambda column, row: file_pixel(cell, kind, size, start, column, row)
    except Refuse as refused:
        return f"refused {refused.number}"
    told, entries, count = prepare(size, source, pixel, rect, [7] * length)
    return " ".join(["opened", *map(str, size), str(start), "|", told, *listed(entries), "count", str(count)])


# The cases.

def file(kind, data, rect, length=None, store="bytes", number=0):
    length = rect[2] * rect[3] if length is None else length
    return " ".join(map(str, [kind, store, pack(data), number, *rect, length]))


def memory(kind, size, codes, rect, length=None, number=0):
    length = rect[2] * rect[3] if length is None else length
    codes = ",".join(map(str, codes)) or "-"
    return " ".join(map(str, ["memory", kind, *size, number, codes, *rect, length]))


SAMPLE = b"P5\n3 2\n255\n" + bytes([10, 20, 30, 40, 50, 60])
COLOUR = b"P6\n2 2\n255\n" + bytes(range(1, 13))
GREY16 = b"P5 2 2 65535\n" + bytes([0, 1, 1, 0, 255, 255, 18, 52])
COLOUR16 = b"P6 2 1 65535\n" + bytes([1, 2, 3, 4, 5, 6, 255, 255, 0, 0, 128, 9])
ALL = (0, 0, 3, 2)
DOT = (0, 0, 1, 1)


def padded(mark, numbers, length):
    """A header of so many bytes, most of them a comment's."""
    return mark + b" #" + b"x" * (length - len(mark) - len(numbers) - 3) + b"\n" + numbers


def whole_cases():
    yield "# samples that are whole, and parts of them"
    yield file("grey", SAMPLE, ALL)
    yield file("grey", SAMPLE, ALL, 9)
    yield file("grey", SAMPLE + b"more", ALL, 7, number=255)
    for rect in [DOT, (2, 1, 1, 1), (1, 0, 2, 2), (1, 0, 1, 2), (0, 1, 3, 1)]:
        yield file("grey", SAMPLE, rect, rect[2] * rect[3] + 1)
    yield file("colour", COLOUR, (0, 0, 2, 2))
    yield file("colour", COLOUR, (1, 0, 1, 2), 4, number=200)
    yield "# 16 bits, the high byte first; maxval 255 has one byte and 256 two"
    yield file("grey", GREY16, (0, 0, 2, 2), 5)
    yield file("colour", COLOUR16, (0, 0, 2, 1), 3)
    yield file("grey", b"P5 2 1 255 \x01\x00\x00\x02", (0, 0, 2, 1))
    yield file("grey", b"P5 2 1 256 \x01\x00\x00\x02", (0, 0, 2, 1))
    yield file("colour", b"P6 1 1 256 \x01\x00\x00\x02\x00\x03", DOT)
    yield file("colour", b"P6 1 1 255 \xff\x00\x02\x00\x03", DOT)


def hole_cases():
    yield "# cause 1: a missing byte"
    yield file("grey", SAMPLE[:15], ALL)
    yield file("grey", SAMPLE[:15], ALL, 9, number=7)
    yield file("grey", SAMPLE[:15], (0, 0, 3, 1), 4)
    yield file("grey", SAMPLE[:15], (0, 0, 1, 2), 4)
    yield file("grey", SAMPLE[:15], (2, 0, 1, 2), 4)
    yield file("grey", SAMPLE[:11], (1, 1, 2, 1), 4, number=255)
    yield file("colour", COLOUR[:-1], (0, 0, 2, 2), 5)
    yield file("colour", COLOUR[:-4], (0, 0, 2, 2), 5)
    yield file("grey", GREY16[:-1], (0, 0, 2, 2), 5)
    yield file("colour", COLOUR16[:-1], (0, 0, 2, 1), 5)
    yield file("colour", COLOUR16[:-7], (0, 0, 2, 1), 5)
    yield "# cause 3: a sample above maxval; a hole by a byte before it or by a later pixel"
    yield file("grey", b"P5 3 2 50\n" + SAMPLE[11:], ALL, 7, number=3)
    yield file("grey", b"P5 3 2 60\n" + SAMPLE[11:], ALL, 7, number=3)
    yield file("colour", b"P6 2 1 9 \x09\x09\x09\x09\x09\x0a", (0, 0, 2, 1))
    yield file("colour", b"P6 2 1 9 \x0a\x09\x09\x09\x09\x09", (0, 0, 2, 1))
    yield file("colour", b"P6 2 1 9 \x09\x0a\x09\x09\x09\x09", (1, 0, 1, 1))
    yield file("colour", b"P6 2 1 9 \x09\x09\x09\x0a\x09", (0, 0, 2, 1))
    yield file("colour", b"P6 2 1 9 \x09\x0a\x09\x09\x09", (0, 0, 2, 1))
    yield file("grey", b"P5 2 1 256 \x01\x01\x00\x00", (0, 0, 2, 1))
    yield file("grey", b"P5 2 1 65534 \xff\xfe\xff\xff", (0, 0, 2, 1))
    yield file("colour", b"P6 1 1 300 \x01\x2c\x01\x2c\x01\x2d", DOT)


def sector_cases():
    long = padded(b"P5", b"3 2 255\n", 2046) + SAMPLE[11:]
    wide = padded(b"P6", b"2 2 65535\n", 2050) + bytes(range(24))
    yield "# cause 2: an unread sector; it is unread only inside the file"
    yield file("grey", long, ALL, 7, "sectors:1")
    yield file("grey", long, (0, 0, 2, 1), 3, "sectors:1")
    yield file("grey", long, (0, 1, 1, 1), 3, "sectors:7,1,9", 9)
    yield file("grey", long, ALL, 7, "sectors:2,3")
    yield file("grey", long, ALL, 7, "sectors:-")
    yield file("grey", long, ALL, 7, "sectors:0")
    yield file("grey", long[:2048], ALL, 7, "sectors:1")
    yield file("grey", long[:2049], ALL, 7, "sectors:1")
    yield file("grey", long[:2050], ALL, 7, "sectors:2")
    yield file("grey", SAMPLE, ALL, 7, "sectors:1,2,18446744073709551615")
    yield file("grey", SAMPLE, ALL, 7, "sectors:0")
    yield file("grey", b"", ALL, 7, "sectors:0")
    yield file("grey", b"P6", ALL, 7, "sectors:0")
    yield file("colour", wide, (0, 0, 2, 2), 5, "sectors:1")
    yield file("colour", wide, (0, 0, 2, 2), 5, "sectors:2")
    yield "# a pixel with a byte on each side of the edge of a sector, above maxval or not; a header up to it"
    yield file("grey", padded(b"P5", b"2 1 300\n", 2045) + b"\x00\x01\x02\x00", (0, 0, 2, 1), 3, "sectors:1")
    yield file("grey", padded(b"P5", b"2 1 300\n", 2045) + b"\x02\x00\x00\x01", (0, 0, 2, 1), 3, "sectors:1")
    yield file("grey", padded(b"P5", b"2 1 300\n", 2047) + b"\x02\x00\x00\x01", (0, 0, 2, 1), 3, "sectors:1")
    yield file("grey", padded(b"P5", b"2 1 300\n", 2047) + b"\x02", (0, 0, 2, 1), 3, "sectors:1")
    yield file("grey", padded(b"P5", b"2 1 300\n", 2048) + b"\x02", (0, 0, 2, 1), 3, "sectors:1")
    yield file("colour", padded(b"P6", b"1 1 9\n", 2047) + b"\x02\x02", DOT, 3, "sectors:1", 8)
    yield file("colour", padded(b"P6", b"1 1 9\n", 2047) + b"\x0a\x02", DOT, 3, "sectors:-", 8)
    yield file("colour", padded(b"P6", b"1 1 9\n", 2047) + b"\x0a\x02\x02", DOT, 3, "sectors:1", 8)
    yield file("grey", padded(b"P5", b"2 1 300\n", 2048) + b"\x00\x01\x00\x02", (0, 0, 2, 1), 3, "sectors:1")
    yield file("grey", padded(b"P5", b"2 1 300\n", 2049) + b"\x00\x01\x00\x02", (0, 0, 2, 1), 3, "sectors:1")


def joined_cases():
    yield "# two stores joined: at each place of a grey file and a colour file of 16 bits"
    for n in range(len(SAMPLE) + 2):
        yield file("grey", SAMPLE, ALL, 7, f"joined:{n}")
    for n in range(len(COLOUR16) + 1):
        yield file("colour", COLOUR16, (0, 0, 2, 1), 3, f"joined:{n}")
    yield "# a gap before the joint, and an overlap"
    for cut in range(11, 18):
        yield file("grey", SAMPLE, ALL, 7, f"joined:15:{cut}")
    for joint in (1, 5, 11, 12, 16, 17, 18, 100, 1 << 48, (1 << 64) - 1):
        yield file("grey", SAMPLE, ALL, 7, f"joined:{joint}:11", 5)
    yield file("colour", COLOUR16, (0, 0, 2, 1), 3, "joined:20:19")
    yield file("colour", COLOUR16, (0, 0, 2, 1), 3, "joined:19:20")
    yield file("colour", COLOUR16, (0, 0, 2, 1), 3, "joined:14:13")
    yield file("grey", b"", ALL, 7, "joined:0")


def header_cases():
    yield "# the mark"
    for data in [b"", b"P", b"Q", b"P5", b"P6", b"P6\n3 2\n255\n123456", b"p5 3 2 255 123456", b"5P 3 2 255 123456", b"\x00\x00"]:
        yield file("grey", data, ALL)
    for data in [b"", b"P", b"P6", SAMPLE, b"P3\n1 1\n255\n123"]:
        yield file("colour", data, DOT)
    yield "# gaps: all four white bytes, comments, and what cannot stand there"
    for data in [b"P5 3 2 255 ", b"P5\t3\r2\n255\t", b"P5\r\n3\r\n2\r\n255\r", b"P5 \t\r\n3\n\r\t 2\t\t255\n",
                 b"P5\n#\n3 2 255\n", b"P5 #c\n#d\n 3 #\n2\t#2 3\r4\n#\n255\n", b"P5 # 3 2 255\n3 2 255\r",
                 b"P5\n##\n3 2 255\n", b"P5 3 2\n#a\r255\n255\n", b"P5 003 0000002 00255\n"]:
        yield file("grey", data + SAMPLE[11:], ALL)
    yield file("grey", b"P5 3 2 255 #10 20", ALL)
    yield file("grey", b"P5 3 2 255\n\n#\n30 ", ALL)
    for data in [b"P5#\n3 2 255\n", b"P5", b"P53 2 255\n", b"P5\x0b3 2 255\n", b"P5 12#3", b"P5 12#\n 3 255 ", b"P5 3#\n2 255\n",
                 b"P5 3 2 255#\n", b"P5 x", b"P5 -3 2 255\n", b"P5 +3 2 255\n", b"P5 3.0 2 255\n", b"P5 3,2 255\n", b"P5 3 2 25a5\n",
                 b"P5 0x3 2 255\n", b"P5 3 2 255", b"P5 3 2 255x", b"P5 3 2 ", b"P5 3 2", b"P5 ", b"P5 #", b"P5 #3 2 255\r", b"P5 3\x002 255\n",
                 b"P5 3 2 255\x00", b"P5 3 2 255\x0c", b"P5 70000x 2 255\n", b"P5 0# 2 255\n", b"P5 \x803 2 255\n", b"P5 /3 2 255\n", b"P5 :3 2 255\n"]:
        yield file("grey", data, DOT)


def number_cases():
    yield "# numbers from 1 to 65,535"
    for numbers in [b"65535 1 255", b"65536 1 255", b"1 65535 255", b"1 65536 255", b"1 1 65535", b"1 1 65536", b"1 1 65534", b"0 1 255", b"1 0 255",
                    b"1 1 0", b"1 1 00", b"0001 01 00000000001", b"65535 65535 65535", b"4294967296 1 255", b"4294967297 1 255", b"1 4294967297 255",
                    b"1 1 4294967297", b"18446744073709551617 1 255", b"1 1 65537", b"1 1 131072", b"1 99999 1", b"0 x", b"65536 x", b"70000", b"0"]:
        yield file("grey", b"P5 " + numbers + b"\n" + b"\x00\x01", DOT, 2)
    yield file("grey", b"P5 65535 2 255\n" + b"\x05" * 65535 + b"\x06", (65533, 0, 2, 1))
    yield file("grey", b"P5 65535 2 255\n" + b"\x05" * 65535 + b"\x06", (0, 1, 2, 1))
    yield file("grey", b"P5 65535 65535 65535\n", (65534, 65534, 1, 1))
    yield file("colour", b"P6 65535 65535 65535\n", (65534, 65534, 1, 1))
    yield "# numbers of thousands of digits"
    for digit in b"019":
        long = b"P5 " + bytes([digit]) * 4000
        for tail in [b"", b" ", b" 1 255 ", b"x", b"#", b"1 1 255\n\x09"]:
            yield file("grey", long + tail, DOT)
    for count in (4092, 4093, 5000):
        yield file("grey", b"P5 " + b"1" * count + b" 1 255\n\x09", DOT)
        yield file("grey", b"P5 " + b"0" * count + b"1 1 255\n\x09", DOT)
    yield file("grey", b"P5 1 1 " + b"0" * 4087 + b"7\n\x07", DOT)
    yield file("grey", b"P5 1 1 " + b"0" * 4088 + b"7\n\x07", DOT)
    yield file("grey", b"P5 1 1 " + b"0" * 4089 + b"\n\x07", DOT)
    yield "# a header's last byte is at most byte number 4,096"
    for length in (4094, 4095, 4096, 4097, 4098):
        yield file("grey", padded(b"P5", b"3 2 255\n", length) + SAMPLE[11:], ALL)
    yield file("colour", padded(b"P6", b"2 1 65535\n", 4096) + COLOUR16[13:], (0, 0, 2, 1))
    yield file("colour", padded(b"P6", b"2 1 65535\n", 4096) + COLOUR16[13:], (0, 0, 2, 1), 3, "sectors:2", 4)
    yield file("colour", padded(b"P6", b"2 1 65535\n", 4096) + COLOUR16[13:], (0, 0, 2, 1), 3, "joined:4096")
    yield file("colour", padded(b"P6", b"2 1 65535\n", 4097) + COLOUR16[13:], (0, 0, 2, 1))
    yield file("grey", b"P5" + b" " * 5000 + b"1 1 1 ", DOT)
    yield file("grey", b"P5 #" + b"x" * 5000 + b"\n1 1 1 ", DOT)


def refusal_cases():
    yield "# a source's number is at most 255, and is judged first"
    for number in (0, 1, 254, 255, 256, 65536, 4294967295):
        yield file("grey", SAMPLE[:15], ALL, 7, number=number)
    for data in [b"", b"P", b"XX", b"P5 x", b"P5 0 ", COLOUR]:
        yield file("grey", data, ALL, 7, number=256)
    yield file("grey", SAMPLE, (0, 0, 0, 0), 7, number=256)
    yield "# rectangles that do not exist, that are not inside, and buffers that are too short"
    for rect in [(0, 0, 0, 1), (0, 0, 1, 0), (0, 0, 65536, 1), (1, 0, 65535, 1), (0, 65535, 1, 1), (65535, 0, 1, 1), (4294967295, 0, 1, 1), (0, 4294967295, 1, 4294967295),
                 (65534, 0, 1, 1), (0, 65534, 1, 1), (0, 0, 65535, 65535), (0, 0, 4, 2), (0, 0, 3, 3), (3, 0, 1, 1), (0, 2, 1, 1), (1, 0, 3, 1), (0, 1, 1, 2)]:
        yield file("grey", SAMPLE, rect, 6)
        yield file("grey", SAMPLE, rect, 0)
    for length in (0, 1, 5, 6, 7):
        yield file("grey", SAMPLE, ALL, length)
        yield file("grey", SAMPLE[:11], ALL, length)
    yield memory("grey", (3, 2, 255), range(6), (0, 0, 3, 3), 6)
    yield memory("grey", (3, 2, 255), range(6), (0, 0, 0, 3), 6)
    yield memory("grey", (3, 2, 255), range(6), ALL, 5)
    yield memory("grey", (3, 2, 255), range(6), (1, 1, 3, 1), 2)


def memory_cases():
    full = 65535
    white = (1 << 48) - 1
    yield "# pictures in memory"
    yield memory("grey", (3, 2, 255), range(6), ALL, 8)
    yield memory("grey", (3, 2, 255), range(8), ALL, 8, 255)
    yield memory("grey", (3, 2, full), [0, 1, 256, 255, full, 9], (1, 0, 2, 2), 8)
    yield memory("colour", (2, 1, full), [white, 1 << 32], (0, 0, 2, 1), 3)
    yield memory("colour", (2, 1, 1), [(1 << 32) + (1 << 16) + 1, 1 << 16], (0, 0, 2, 1), 3)
    yield "# cause 4: a code that is no pixel, or one with a sample above maxval"
    for code in (full, full + 1, 1 << 32, (1 << 64) - 1):
        yield memory("grey", (2, 2, full), [1, 2, code, 4], (0, 0, 2, 2), 5, 17)
    for code in (200, 201, full, full + 1):
        yield memory("grey", (2, 2, 200), [1, 2, code, 4], (0, 0, 2, 2), 5, 17)
    for code in (white, white + 1, 1 << 63, (1 << 64) - 1):
        yield memory("colour", (2, 2, full), [1, 2, 3, code], (0, 0, 2, 2), 5, 255)
    for samples in [(9, 9, 9), (10, 9, 9), (9, 10, 9), (9, 9, 10), (0, 0, full), (0, full, 0), (full, 0, 0), (full, full, full)]:
        code = samples[0] * 2 ** 32 + samples[1] * 2 ** 16 + samples[2]
        yield memory("colour", (2, 2, 9), [1, code, 3, 1 << 48], (0, 0, 2, 1), 3, 1)
    yield memory("grey", (2, 2, 9), [10, 10, 3, 4], (0, 1, 2, 1), 3)
    yield memory("grey", (2, 2, 9), [1, 2, 3, 10], (0, 0, 1, 2), 3)
    yield memory("grey", (2, 2, 9), [1, 2, 3, 4, 10], (0, 0, 2, 2), 5)
    yield "# numbers outside their limits, and slices that are too short"
    yield memory("grey", (3, 2, 255), range(5), ALL)
    yield memory("grey", (3, 2, 255), [], ALL)
    for size in [(0, 2, 255), (3, 0, 255), (65536, 1, 255), (1, 65536, 255), (3, 2, 0), (3, 2, 65536), (3, 2, 65535), (65535, 1, 1), (65535, 65535, 1),
                 (4294967295, 4294967295, 255), (0, 0, 0), (6, 1, 1), (1, 6, 65535), (7, 1, 255)]:
        yield memory("grey", size, [0, 1, 1, 0, 0, 0], DOT, 2)
        yield memory("colour", size, [0, 1, 1, 0, 0, 0], DOT, 2, 6)
    for number in (255, 256, 4294967295):
        yield memory("colour", (3, 2, 255), range(6), ALL, number=number)
    yield memory("grey", (1, 1, 255), [65536], DOT, number=256)


def run_cases():
    yield "# rows of more than 1,024 and more than 2,048 pixels"
    grey = b"P5 2100 2 200\n"
    rows = bytes([1]) * 1024 + bytes([2]) * 1024 + bytes([3]) * 52 + bytes([4]) * 2100
    yield file("grey", grey + rows, (0, 0, 2100, 2), 4203)
    yield file("grey", grey + rows, (1000, 0, 1100, 2), 2200)
    for at in (1023, 1024, 1025, 2047, 2048, 2099):
        yield file("grey", grey + rows[:at], (0, 0, 2100, 1), 2101)
        yield file("grey", grey + rows[:at] + b"\xc9" + rows[at + 1:], (0, 0, 2100, 1), 2101)
        yield file("grey", grey + rows[:at] + b"\xc9" + rows[at + 1:], (at - 1022, 0, 1023, 1), 1025)
    yield file("grey", grey + rows, (0, 0, 2100, 2), 4201, "sectors:1")
    yield file("grey", grey + rows, (2033, 0, 67, 1), 68, "sectors:0,1")
    yield file("grey", grey + rows, (0, 0, 2100, 2), 4201, "sectors:2")
    for at in (1024, 1038, 1039, 2000, 2062, 2063):
        yield file("grey", grey + rows, (5, 0, 2090, 2), 4181, f"joined:{at}")
    colour = b"P6 1030 1 65535\n" + b"\x01\x02\x03\x04\x05\x06" * 1024 + b"\x09" * 36
    yield file("colour", colour.replace(b"\x01\x02\x03\x04\x05\x06", b"\x03" * 6), (0, 0, 1030, 1), 1031)
    yield file("colour", colour.replace(b"\x01\x02\x03\x04\x05\x06", b"\x03" * 6)[:-7], (0, 0, 1030, 1), 1031)
    yield file("colour", colour.replace(b"\x01\x02\x03\x04\x05\x06", b"\x03" * 6), (1, 0, 1029, 1), 1031, "joined:6161")


# Random cases.

def gap(rng):
    parts = [bytes([rng.choice(WHITE)])]
    while rng.random() < 0.35:
        if rng.random() < 0.4:
            parts.append(b"#" + bytes(rng.choice(b"ab 12#\t\r") for _ in range(rng.randrange(4))) + b"\n")
        else:
            parts.append(bytes([rng.choice(WHITE)]))
    return b"".join(parts)


def digits(rng, n):
    return b"0" * rng.choice([0, 0, 0, 0, 1, 2, 7]) + str(n).encode()


def sides(rng):
    return rng.choice([1, 1, 2, 2, 3, 4, 5]), rng.choice([1, 1, 2, 2, 3, 4])


def random_maxval(rng):
    return rng.choice([1, 2, 15, 100, 200, 254, 255, 256, 257, 1000, 4095, 65534, 65535])


def random_samples(rng, count, maxval):
    top = maxval if rng.random() < 0.75 else min(65535, maxval + max(1, maxval // (4 * count)))
    return [rng.choice([rng.randint(0, top), rng.randint(0, top), top, 0, 1]) for _ in range(count)]


def random_rect(rng, width, height):
    if rng.random() < 0.12:
        return tuple(rng.choice([0, 0, 1, 2, 3, 5, 65534, 65535, 65536, 4294967295]) for _ in range(4))
    if rng.random() < 0.4:
        return 0, 0, width, height
    left, top = rng.randrange(width), rng.randrange(height)
    more = 1 if rng.random() < 0.15 else 0
    return left, top, rng.randint(1, width - left + more), rng.randint(1, height - top + more)


def random_length(rng, rect):
    area = min(rect[2] * rect[3], 40)
    return max(0, area + rng.choice([0, 0, 0, 1, 2, 3, 5, -1, -area]))


def random_file(rng, kind, width, height, maxval):
    """The bytes of a file, and the length of its header."""
    mark = b"P6" if kind == "colour" else b"P5"
    if rng.random() < 0.03:
        mark = rng.choice([b"P5", b"P6", b"P4", b"p6", b"P"])
    numbers = [width, height, maxval]
    if rng.random() < 0.06:
        numbers[rng.randrange(3)] = rng.choice([0, 65535, 65536, 65537, 99999, 4294967297])
    header = mark
    for n in numbers:
        header += gap(rng) + digits(rng, n)
    header += bytes([rng.choice(WHITE)])
    count = width * height * (3 if kind == "colour" else 1)
    wide = 1 if maxval < 256 else 2
    raster = b"".join(min(s, 256 ** wide - 1).to_bytes(wide, "big") for s in random_samples(rng, count, maxval))
    return header, raster + rng.choice([b"", b"", b"", b"\x00", b"ab"])


def damage(rng, data, end):
    """The bytes, with a few of them flipped, taken out or put in before `end`; or cut off."""
    data = bytearray(data)
    for _ in range(rng.choice([1, 1, 1, 2, 3])):
        at = rng.randrange(max(1, min(end, len(data))))
        deed = rng.randrange(4)
        if deed == 0 and data:
            data[at] ^= 1 << rng.randrange(8)
        elif deed == 1 and data:
            del data[at]
        elif deed == 2:
            data.insert(at, rng.choice(b" \t\r\n#0123456789xP\x00\x0b\xff"))
        else:
            del data[rng.randrange(len(data) + 1):]
    return bytes(data)


def random_file_case(rng):
    kind = rng.choice(["grey", "colour"])
    width, height = sides(rng)
    maxval = random_maxval(rng)
    header, raster = random_file(rng, kind, width, height, maxval)
    store = rng.choice(["bytes", "bytes", "sectors", "joined", "joined"])
    if store == "sectors":
        # The edge of a sector falls near the header's end or into the raster.
        edge = 2048 * rng.choice([1, 1, 1, 2])
        fill = edge - len(header) - rng.randrange(-3, max(1, len(raster))) - 2
        header = header[:2] + b"\n#" + b"y" * max(0, fill - 1) + b"\n" + header[2:]
    data = header + raster
    if rng.random() < 0.25:
        data = damage(rng, data, len(header))
    elif rng.random() < 0.2:
        data = data[:len(header) + rng.randrange(len(raster) + 1)]
    if store == "sectors":
        ks = [rng.choice([0, 1, 1, 1, 2, 2, 3, 5]) for _ in range(rng.choice([0, 1, 1, 1, 2, 3]))]
        if rng.random() < 0.8:
            ks = [k for k in ks if k > 0 and (k > 1 or len(header) <= 2048 + 3)]
        store = "sectors:" + (",".join(map(str, ks)) or "-")
    if store == "joined":
        at = rng.randrange(len(data) + 2)
        store = f"joined:{at}"
        if rng.random() < 0.4:
            store += f":{max(0, at + rng.randrange(-3, 4))}"
    rect = random_rect(rng, width, height)
    number = rng.choice([0, 1, rng.randrange(256), rng.randrange(256), 255, rng.choice([0, 0, 0, 256, 300])])
    return file(kind, data, rect, random_length(rng, rect), store, number)


def random_memory_case(rng):
    kind = rng.choice(["grey", "colour"])
    width, height = sides(rng)
    maxval = random_maxval(rng)
    depth = 3 if kind == "colour" else 1
    codes = []
    for _ in range(width * height + rng.choice([0, 0, 0, 1, 2, -1])):
        code = 0
        for s in random_samples(rng, depth, maxval):
            code = code * 65536 + s
        codes.append(code)
    if codes and rng.random() < 0.2:
        codes[rng.randrange(len(codes))] = rng.choice([65535, 65536, 1 << 32, 1 << 47, 1 << 48, (1 << 64) - 1])
    size = [width, height, maxval]
    if rng.random() < 0.1:
        size[rng.randrange(3)] = rng.choice([0, 65535, 65536, 4294967295])
    rect = random_rect(rng, width, height)
    return memory(kind, size, codes, rect, random_length(rng, rect), rng.choice([0, rng.randrange(256), 255, rng.choice([0, 256])]))


def random_cases():
    rng = random.Random(20)
    yield "# random files"
    for _ in range(240):
        yield random_file_case(rng)
    yield "# random pictures in memory"
    for _ in range(60):
        yield random_memory_case(rng)


def all_cases():
    for part in (whole_cases, hole_cases, sector_cases, joined_cases, header_cases, number_cases, refusal_cases, memory_cases, run_cases, random_cases):
        yield from part()


def main():
    if sys.argv[1:] == ["cases"]:
        print("\n".join(all_cases()))
    elif sys.argv[1:] == ["expected"]:
        for line in sys.stdin:
            print(answer(line.rstrip("\n")))
    else:
        sys.exit(__doc__)


main()
