#!/usr/bin/env python3
"""serves.py COUNT DIR

Writes to DIR, for serves that send 0, 1 and 7 orders: COUNT of them as test_held_stores' cases (tests/reference/README.md), N.cases; and for the C
machine, which has no held stores, a tape that ends with the serve, N.tape, and the tape without it, N.before.tape. Prints each N. The store has
8 lanes of one line, one block and L = 1, and lane 3 is served.
"""
import sys

LANE, LANES = 3, 8
OTHERS = [0, 1, 2, 4, 5, 6, 7]
READ_SHARED, READ_EXCLUSIVE = 0, 1
OPEN, LOAD, STORE, SERVE, DELIVER = 0, 1, 2, 5, 7

# what waits on lane 3, as operation and command, the lanes that have the block, and whether it is MODIFIED
SERVES = {
    0: (LOAD, READ_SHARED, OTHERS, False),
    1: (STORE, READ_EXCLUSIVE, [7], True),
    7: (STORE, READ_EXCLUSIVE, OTHERS, False),
}


def line(has, private):
    return bytes([1, private]) + bytes(17) if has else bytes(19)


def lane(k, operation, command, present, modified):
    waiting = bytes([1, command, operation - LOAD]) + bytes(5) if k == LANE else bytes(8)
    return line(k in present, modified) + bytes(7 * 19) + bytes(range(8)) + bytes(145 + 145) + waiting


def case(operation, command, present, modified):
    lanes = b"".join(lane(k, operation, command, present, modified) for k in range(LANES))
    block = bytes(16) + bytes(k in present for k in range(LANES)) + bytes([modified])
    return bytes([LANES, 1, 1, 1]) + bytes(4 + 8 * 6) + lanes + block + bytes(63 * 25) + bytes([SERVE, LANE]) + bytes(6)


def begin(k, operation):
    return bytes([operation, k, 0]) + bytes(4 if operation == STORE else 0)


def tape(operation, command, present, modified):
    records = bytes([OPEN, LANES, 1, 1])
    for k in present:
        records += begin(k, STORE if modified else LOAD) + bytes([SERVE, k, DELIVER, k])
    return records + begin(LANE, operation)


def main():
    count, folder = int(sys.argv[1]), sys.argv[2]
    for orders, parts in SERVES.items():
        files = {"cases": case(*parts) * count, "before.tape": tape(*parts), "tape": tape(*parts) + bytes([SERVE, LANE])}
        for name, data in files.items():
            with open(f"{folder}/{orders}.{name}", "wb") as file:
                file.write(data)
        print(orders)


if __name__ == "__main__":
    main()
