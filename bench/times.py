#!/usr/bin/env python3
"""times.py RUNS REPEATS PROGRAM... -- TAPE...

Prints, program by program and within it tape by tape, a line with the nanoseconds of processor time (user
and system) of one replay, start-up included: the least of RUNS runs, each the mean of REPEATS replays. Each
run goes through all tapes and programs in turn, so that a busy moment of the machine harms all alike.
"""
import os
import sys


def replay(program, tape):
    files = [
        (os.POSIX_SPAWN_OPEN, 0, tape, os.O_RDONLY, 0),
        (os.POSIX_SPAWN_OPEN, 1, os.devnull, os.O_WRONLY, 0),
    ]
    process = os.posix_spawn(program, [program], os.environ, file_actions=files)
    _, status, usage = os.wait4(process, 0)
    if status:
        sys.exit(f"{program} failed on {tape}")
    return usage.ru_utime + usage.ru_stime


def main():
    runs, repeats = int(sys.argv[1]), int(sys.argv[2])
    split = sys.argv.index("--")
    programs, tapes = sys.argv[3:split], sys.argv[split + 1 :]
    least = {}
    for run in range(runs):
        if run % 20 == 0:
            print(f"   run {run + 1} of {runs}", file=sys.stderr)
        for tape in tapes:
            for i, program in enumerate(programs):
                mean = sum(replay(program, tape) for _ in range(repeats)) / repeats
                least[i, tape] = min(mean, least.get((i, tape), mean))
    for i in range(len(programs)):
        for tape in tapes:
            print(round(least[i, tape] * 1e9))


if __name__ == "__main__":
    main()
