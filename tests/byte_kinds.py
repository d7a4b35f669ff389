#!/usr/bin/env python3
"""The reference card of byte kinds, docs/BYTE-KINDS.md, and the table that it is made from.

With the argument `card`, the card is printed, made from the constant BYTE_KINDS. Without it, the constant is held to the words of change request #103,
and to it the list of the definition and the card. The last line is then `N passed, M failed`; the status is 1 where M is not 0."""
import os
import re
import string
import sys

ROOT = os.path.join(os.path.dirname(os.path.abspath(__file__)), "..")
CONSTANT = "crates/base/src/kinds.rt"
DEFINITION = "crates/base/specs/Kinds.antt"
CARD = "docs/BYTE-KINDS.md"

HEAD = """# Byte kinds

The table has an entry for each byte, which adds up what the byte is:

| adds | for |
|-----:|-----|
|    1 | a digit, `0` to `9` |
|    2 | an ASCII letter, `A` to `Z` and `a` to `z` |
|    4 | a byte that can go on a name: a digit, an ASCII letter, `_` and `.` |
|    8 | the first byte of a unit: `h`, `m`, `n`, `s`, `u`, and 0xC2, which begins `µs` |

The entry of `h`, byte 0x68, stands in row `0x6_` and column `_8`: 14, that is 2 + 4 + 8.

`µ` is U+00B5, the bytes 0xC2 0xB5; no other character that begins with 0xC2 begins a unit. `μ`, U+03BC, begins none: 0xCE has 0.
"""

FOOT = f"Made from `BYTE_KINDS` in `{CONSTANT}` by `python3 tests/byte_kinds.py card`."


def read(path):
    with open(os.path.join(ROOT, path), encoding="utf-8") as file:
        return file.read()


def numbers(path, pattern):
    """The numbers of the list that the pattern finds in a file without its comments; none where it finds no list of numbers alone."""
    found = re.search(pattern, re.sub(r" *(//|--) .*", "", read(path)), re.M)
    return [int(number) for number in re.findall(r"\d+", found[1])] if found else []


def sum_of_kinds(byte):
    """The entry by the words of the request; the units of lexer.rs are ns, us, µs, ms, s, m and h."""
    character = chr(byte)
    digit = character in string.digits
    letter = character in string.ascii_letters
    name = digit or letter or character in "_."
    unit = character in "hmsnu" or byte == 0xC2
    return digit + 2 * letter + 4 * name + 8 * unit


def card(table):
    """The whole document; a row for each high hexadecimal digit, a column for each low one."""
    rows = [["    "] + [f"_{low:X}" for low in range(16)]]
    rows += [[f"0x{high:X}_"] + [f"{entry:2}" for entry in table[16 * high : 16 * high + 16]] for high in range(16)]
    lines = ["| " + " | ".join(row) + " |" for row in rows]
    lines.insert(1, "|------|" + "---:|" * 16)
    return "\n".join([HEAD, *lines, "", FOOT, ""])


def main():
    table = numbers(CONSTANT, r"^pub const BYTE_KINDS: \[u8; 256\] = \[\s*((?:\d+,\s*)*)\];")
    if sys.argv[1:] == ["card"]:
        print(card(table), end="")
        return 0
    sums = [sum_of_kinds(byte) for byte in range(256)]
    wrong = " ".join(f"0x{byte:02X}" for byte, (entry, expected) in enumerate(zip(table, sums)) if entry != expected)
    checks = [
        (len(table) == 256, f"{CONSTANT}: {len(table)} entries"),
        (not wrong, f"{CONSTANT}, no sum of its kinds: {wrong}"),
        (numbers(DEFINITION, r"^kinds =\s*((?:\d+ ∷\s*)*)\[\]") == table, f"{DEFINITION}: the list `kinds` is another"),
        (read(CARD) == card(table), f"{CARD} is another than `card` prints"),
    ]
    failed = [message for holds, message in checks if not holds]
    for message in failed:
        print("failed:", message)
    print(f"{len(checks) - len(failed)} passed, {len(failed)} failed")
    return 1 if failed else 0


if __name__ == "__main__":
    sys.exit(main())
