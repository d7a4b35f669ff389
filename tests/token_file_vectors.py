#!/usr/bin/env python3
"""Makes the cases of crates/token_file_cases (stdin) and the answers that they must have (stdout).

The format and the record rules are written here a second time, from document 01 and change request #101 alone. Run it from the repository's root.
  w COUNT ROOM NUMBER ..   write these records into ROOM bytes, all 170 before
  r ROOM HEX               read this file into ROOM numbers, all 77 before
An answer is its number, its value and the buffer after the call."""
import os
import random
import struct

MOST = 67108864


def good(records):
    """Whether rows of (kind, reason, start, end, line, column) keep the record rules."""
    if not records:
        return False
    before = 0
    for place, (kind, reason, start, end, line, column) in enumerate(records):
        if not 0 <= kind <= 25:
            return False
        if kind == 1 and reason != 21 and not 1 <= reason <= 18:
            return False
        if kind != 1 and reason != 0:
            return False
        if kind == 0 and start != end:
            return False
        if kind != 0 and start >= end:
            return False
        if start < 0 or start < before or end > MOST:
            return False
        if not 1 <= line <= MOST + 1 or not 1 <= column <= MOST + 1:
            return False
        if (kind == 0) != (place == len(records) - 1):
            return False
        before = end
    return True


def rows_of(numbers, count):
    return [(r[0], r[1], r[3], r[4], r[5], r[6]) for r in (numbers[12 * i : 12 * i + 12] for i in range(count))]


def written(numbers, count, room):
    """The answer, its value and the bytes that go into the buffer."""
    if len(numbers) < 12 * count or not good(rows_of(numbers, count)):
        return 8, 0, b""
    rows = rows_of(numbers, count)
    if any(row[5] > 65535 for row in rows):
        return 9, 0, b""
    if room < 9 + 16 * count:
        return 10, 0, b""
    data = b"OFT" + struct.pack("<HI", 1, count) + b"".join(struct.pack("<BBIIIH", *row) for row in rows)
    return 0, len(data), data


def loaded(data, room):
    """The answer, its value and the numbers that go into the slice."""
    if len(data) < 9 or data[:3] != b"OFT":
        return 7, 0, []
    version, count = struct.unpack("<HI", data[3:9])
    if version != 1 or len(data) != 9 + 16 * count:
        return 7, 0, []
    rows = [struct.unpack("<BBIIIH", data[9 + 16 * i : 25 + 16 * i]) for i in range(count)]
    if not good(rows):
        return 8, 0, []
    if room < 12 * count:
        return 4, 0, []
    return 0, count, [n for k, r, s, e, l, c in rows for n in (k, r, 0, s, e, l, c, 0, 0, 0, 0, 0)]


lines, answers = [], []


def write_case(numbers, count, room):
    number, value, data = written(numbers, count, room)
    lines.append("w %d %d %s" % (count, room, " ".join(map(str, numbers))))
    answers.append("%d %d %s" % (number, value, (data + bytes([170] * room)[len(data) :]).hex()))


def read_case(data, room):
    number, value, numbers = loaded(data, room)
    lines.append("r %d %s" % (room, data.hex()))
    after = numbers + [77] * (room - len(numbers))
    answers.append("%d %d%s" % (number, value, "".join(" %d" % n for n in after)))


def record(kind, reason, start, end, line, column, other=0):
    return [kind, reason, other, start, end, line, column, other, other, other, other, other]


def flat(rows, other=0):
    return [n for row in rows for n in record(*row, other)]


def file_of(rows):
    numbers = flat(rows)
    number, _, data = written(numbers, len(rows), 9 + 16 * len(rows))
    assert number == 0
    return data


# `a = 1.5s` and a newline, as document 01 lists it
listed = [(4, 0, 0, 1, 1, 1), (19, 0, 2, 3, 1, 3), (12, 0, 4, 8, 1, 5), (2, 0, 8, 9, 1, 9), (0, 0, 9, 9, 2, 1)]
empty = [(0, 0, 0, 0, 1, 1)]
edges = [(1, 1, 0, 1, 1, 1), (1, 18, 1, 67108863, 67108865, 65535), (25, 0, 67108863, MOST, 1, 65535), (0, 0, MOST, MOST, 67108865, 1)]
three = [(4, 0, 0, 1, 1, 1), (1, 18, 2, 300, 1, 258), (0, 0, 300, 300, 2, 1)]
stamp = [(1, 21, 0, 5, 1, 1), (0, 0, 5, 5, 1, 6)]

# accepted, with room to the byte, with room to spare, and the six other numbers arbitrary
for rows in (listed, empty, edges, three, stamp):
    size = 9 + 16 * len(rows)
    for other in (0, -5, 9223372036854775807, -9223372036854775807):
        write_case(flat(rows, other), len(rows), size)
    write_case(flat(rows) + [1, 2, 3], len(rows), size + 7)
    read_case(file_of(rows), 12 * len(rows))
    read_case(file_of(rows), 12 * len(rows) + 3)

# no room: 10 and 4; a count that the slice is too short for: 8
for rows in (listed, empty):
    size = 9 + 16 * len(rows)
    for room in (0, 8, 9, size - 1):
        write_case(flat(rows), len(rows), room)
    for room in (0, 11, 12 * len(rows) - 1):
        read_case(file_of(rows), room)
    for count in (0, len(rows) + 1, 4294967295, 4294967296, 1537228672809129302, 9999999999999999999):
        write_case(flat(rows), count, 9)
    write_case(flat(rows)[:-1], len(rows), size)
write_case([], 0, 9)
write_case([], 1, 9)

# each rule broken alone, at the middle record or at the last: place of the number, new number
broken = [
    (0, 26), (0, -1), (0, 256), (0, 0), (1, 1), (1, 19), (1, -1), (3, -1), (3, 0), (3, 3), (4, 2), (4, 67108865), (4, -1),
    (5, 0), (5, 67108866), (5, -1), (6, 0), (6, 67108866), (6, 65536), (6, 67108865), (6, -1), (3, 4294967298), (2, 5), (7, -3), (11, 1),
]  # fmt: skip
middle = [(4, 0, 0, 2, 1, 1), (4, 0, 2, 3, 1, 3), (0, 0, 3, 3, 1, 4)]
for place, number in broken:
    for which in (0, 1, 2):
        numbers = flat(middle)
        numbers[12 * which + place] = number
        write_case(numbers, 3, 57)
# 256 and 2^32 above 21 are 21 in the widths of a file and of a place
for reason in (*range(-1, 24), 277, 4294967317):
    for kind in (0, 1, 2):
        rows = [(kind, reason, 0, 0 if kind == 0 else 1, 1, 1)] + [(0, 0, 1, 1, 1, 2)] * (kind != 0)
        write_case(flat(rows), len(rows), 9 + 16 * len(rows))
for kind in range(0, 28):
    write_case(flat([(kind, 0, 0, 1, 1, 1), (0, 0, 1, 1, 1, 2)]), 2, 41)
write_case(flat(empty + empty), 2, 64)
write_case(flat(middle[:2]), 2, 64)
write_case(flat(middle[:2] + [(0, 0, 4, 5, 1, 4)]), 3, 64)
write_case(flat([(4, 0, 0, 2, 1, 1), (4, 0, 1, 3, 1, 3), (0, 0, 3, 3, 1, 4)]), 3, 64)
# a long column is named only where the rules hold, and before a short buffer
write_case(flat([(4, 0, 0, 2, 1, 65536), (0, 0, 2, 2, 1, 1)]), 2, 0)
write_case(flat([(4, 0, 0, 2, 1, 65536), (0, 0, 2, 1, 1, 1)]), 2, 0)

# the same in files: each rule of the rows, packed by hand
def packed(rows, count=None, version=1, mark=b"OFT"):
    head = mark + struct.pack("<HI", version, len(rows) if count is None else count)
    return head + b"".join(struct.pack("<BBIIIH", *row) for row in rows)


for place, number in [(0, 26), (0, 255), (0, 0), (1, 1), (1, 19), (2, 1), (2, 3), (3, 2), (3, 67108865), (3, 4294967295), (4, 0), (4, 67108866), (5, 0), (5, 65535)]:
    for which in (0, 1, 2):
        rows = [list(row) for row in middle]
        rows[which][place] = number
        read_case(packed(rows), 36)
for reason in (*range(0, 24), 149, 255):
    for kind in (0, 1, 2):
        rows = [(kind, reason, 0, 0 if kind == 0 else 1, 1, 1)] + [(0, 0, 1, 1, 1, 2)] * (kind != 0)
        read_case(packed(rows), 12 * len(rows))
read_case(packed([]), 12)
read_case(packed([], count=4294967295), 12)
read_case(packed(middle, count=4294967295), 36)
read_case(packed(middle, count=268435459), 36)
for count in (0, 1, 2, 4, 256, 65539):
    read_case(packed(middle, count=count), 3)
for version in (0, 2, 256, 257, 65535):
    read_case(packed(middle, version=version), 3)
for mark in (b"OFU", b"oFT", b"TFO", b"\0\0\0"):
    read_case(packed(middle, mark=mark), 3)
read_case(packed(empty + empty), 24)
read_case(packed(middle[:2]), 24)

# cut short and made long; with no room for the tokens either, 7 comes before 4
whole = file_of(three)
for size in range(len(whole)):
    read_case(whole[:size], 3)
for more in (b"\0", b"\0" * 16, whole[9:25], whole):
    read_case(whole + more, 3)

# the lowest and the highest bit of each byte flipped
for place in range(len(whole)):
    for bit in (0, 7):
        data = bytearray(whole)
        data[place] ^= 1 << bit
        read_case(bytes(data), 36)


def all_refused(number, first):
    """Whether each answer from this one on has this number, though its call has faults that are looked for later."""
    return all(answer.split(" ")[0] == str(number) for answer in answers[first:])


# the reader's order is 7, 8, 4: rows that break a rule, with a slice that is too short as well
bad_rows = [
    middle[:2],
    empty + empty,
    [(26, 0, 0, 2, 1, 1)] + middle[1:],
    [(4, 1, 0, 2, 1, 1)] + middle[1:],
    [(1, 19, 0, 2, 1, 1)] + middle[1:],
    [(1, 20, 0, 2, 1, 1)] + middle[1:],
    [(1, 22, 0, 2, 1, 1)] + middle[1:],
    [(4, 0, 2, 2, 1, 1)] + middle[1:],
    [(4, 0, 0, 3, 1, 1)] + middle[1:],
    [(4, 0, 0, 2, 0, 1)] + middle[1:],
    [(4, 0, 0, 2, 1, 0)] + middle[1:],
    middle[:2] + [(0, 0, 3, 67108865, 1, 4)],
    middle[:2] + [(0, 0, 67108865, 67108865, 1, 4)],
]
first = len(answers)
for rows in bad_rows:
    for room in (0, 11, 12 * len(rows) - 1):
        read_case(packed(rows), room)
read_case(packed([]), 0)
assert all_refused(8, first)

# no token file either, and no rows at all
first = len(answers)
for rows in bad_rows[:4]:
    for data in (packed(rows, mark=b"OFU"), packed(rows, version=2), packed(rows, count=len(rows) + 1), packed(rows) + b"\0", packed(rows)[:-1]):
        for room in (0, 12 * len(rows) - 1):
            read_case(data, room)
for data in (packed([], mark=b"OFU"), packed([], version=2), packed([], count=1), packed([]) + b"\0"):
    read_case(data, 0)
assert all_refused(7, first)

# the writer's order is 8, 9, 10: rows that break a rule, with no room and with a long column before the fault or after it
first = len(answers)
for rows in bad_rows:
    write_case(flat(rows), len(rows), 0)
for which, column in ((0, 65536), (2, 65536), (2, 67108865)):
    for place, number in ((0, 26), (1, 1), (3, 3), (4, 2), (5, 0), (6, 0)):
        numbers = flat(middle)
        numbers[12 * which + 6] = column
        numbers[12 + place] = number
        for room in (0, 57):
            write_case(numbers, 3, room)
for room in (0, 57):
    write_case(flat([(4, 0, 0, 2, 1, 65536)] + middle[1:])[:-1], 3, room)
write_case([], 0, 0)
write_case(flat(empty), 0, 0)
assert all_refused(8, first)

# a long column at each record, with room one short and none; with room to the byte it is among those above
first = len(answers)
for which in (0, 1, 2):
    for column in (65536, 67108865):
        numbers = flat(middle)
        numbers[12 * which + 6] = column
        for room in (56, 0):
            write_case(numbers, 3, room)
assert all_refused(9, first)

# random rows and files, from a fixed start
rng = random.Random(1951)
for _ in range(20):
    rows, end = [], 0
    for _ in range(rng.randrange(0, 6)):
        kind = rng.randrange(1, 26)
        start = end + rng.choice((0, 0, 1, 5))
        end = start + rng.choice((1, 1, 2, 300, 70000))
        rows.append((kind, rng.randrange(1, 19) if kind == 1 else 0, start, end, rng.choice((1, 2, 70000)), rng.choice((1, 9, 65535))))
    rows.append((0, 0, end, end, 1, 1))
    size = 9 + 16 * len(rows)
    write_case(flat(rows, rng.choice((0, -1, 12345678901))), len(rows), size + rng.choice((0, 0, 1, -1)))
    read_case(file_of(rows), 12 * len(rows) + rng.choice((0, 0, 1, -1)))

folder = os.path.join(os.path.dirname(os.path.abspath(__file__)), "..", "crates", "token_file_cases")
for name, text in (("stdin", lines), ("stdout", answers)):
    with open(os.path.join(folder, name), "w", encoding="ascii") as f:
        f.write("\n".join(text) + "\n")
print(len(lines), "cases")
