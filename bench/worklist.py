#!/usr/bin/env python3
"""Closes worlds over drawn rules by one worker and by several, and prints what that took.

    bench/worklist.py [PROGRAM]

PROGRAM is a proved build of crates/worklist_bench; without it that crate is proved and built first. Each row closes one
world: how many members, slots and kinds it has, how many slots a member copies, by how many workers, the seconds, how
many times as fast as one worker that is, and the peak memory in megabytes; the least of three runs. What the
program says of the world must be the same for every number of workers.
"""
import os
import subprocess
import sys
import time

TOP = os.path.dirname(os.path.dirname(os.path.abspath(__file__)))
CRATE = os.path.join(TOP, "crates", "worklist_bench")

# members, slots, kinds, copies of a member
WORLDS = [
    (2_000, 50, 4, 50),
    (20_000, 64, 4, 50),
    (20_000, 20_000, 4, 50),
]
WORKERS = (1, 2, 4)


def run(program, words):
    """Seconds, peak memory in kilobytes, and what was said."""
    start = time.perf_counter()
    child = subprocess.Popen([program, *map(str, words)], stdout=subprocess.PIPE)
    said = child.stdout.read()
    child.stdout.close()
    _, status, usage = os.wait4(child.pid, 0)
    seconds = time.perf_counter() - start
    code = os.waitstatus_to_exitcode(status)
    if code != 0:
        sys.exit(f"the program ended with status {code}")
    return seconds, usage.ru_maxrss, said


def built():
    """The program, proved and built."""
    done = subprocess.run(["rt", "run", "--", "3", "1", "1", "2", "2"], cwd=CRATE, capture_output=True, text=True)
    if done.returncode != 0:
        sys.exit(done.stdout + done.stderr)
    return os.path.join(CRATE, "out", "worklist_bench")


def main():
    program = os.path.abspath(sys.argv[1]) if len(sys.argv) > 1 else built()
    print(f"{'members':>8}{'slots':>8}{'kinds':>7}{'copies':>7}{'workers':>9}{'seconds':>9}{'ratio':>7}{'MB':>7}")
    for world in WORLDS:
        alone, same = None, None
        for workers in WORKERS:
            runs = [run(program, (*world, workers)) for _ in range(3)]
            seconds, memory = min(taken[0] for taken in runs), min(taken[1] for taken in runs)
            if alone is None:
                alone, same = seconds, runs[0][2]
            if any(taken[2] != same for taken in runs):
                sys.exit(f"another world by {workers} workers")
            members, slots, kinds, copies = world
            print(
                f"{members:>8}{slots:>8}{kinds:>7}{copies:>7}{workers:>9}{seconds:>9.2f}"
                f"{alone / seconds:>7.2f}{memory / 1024:>7.0f}",
                flush=True,
            )


if __name__ == "__main__":
    main()
