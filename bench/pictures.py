#!/usr/bin/env python3
"""pictures.py COUNT DIR

Writes to DIR, for each store below, COUNT picture calls on it as test_held_stores' cases (tests/reference/README.md), NAME.cases, and as many
that are refused by 15 after the valid lines are counted, NAME.refused. Prints the names.
"""
import struct
import sys

# a store's n, c and m (L is 1), and the block that line i of lane k has, if it is valid
STORES = {
    "full": (8, 8, 64, lambda k, i: 63 - 8 * k - i),
    "few": (8, 8, 64, lambda k, i: i if k < 2 else None),
    "one": (8, 8, 64, lambda k, i: 63 if (k, i) == (7, 7) else None),
    "small": (2, 1, 2, lambda k, i: 1 - k),
}


def line(block, word):
    return bytes(19) if block is None else bytes([1, 0, block]) + struct.pack("<4I", word, 0, 0, 0)


def store(n, c, m, block_of):
    lanes = b""
    for k in range(8):
        for i in range(8):
            lanes += line(block_of(k, i) if k < n and i < c else None, 8 * k + i)
        lanes += bytes(range(8)) + bytes(145 + 145 + 8)
    return bytes([n, c, m, 1]) + bytes(4 + 8 * 6) + lanes + bytes(64 * 25)


def main():
    count, folder = int(sys.argv[1]), sys.argv[2]
    for name, shape in STORES.items():
        for kind, lent in (("cases", 1300), ("refused", 0)):
            case = store(*shape) + bytes([0x10, 0, 0]) + struct.pack("<I", lent) + bytes(1)
            with open(f"{folder}/{name}.{kind}", "wb") as file:
                file.write(case * count)
        print(name)


if __name__ == "__main__":
    main()
