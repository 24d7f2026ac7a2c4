#!/usr/bin/env python3
"""Has natives work on a store of a run of Dart, and prints what that took.

    bench/dart_store.py [PROGRAM]

PROGRAM is a proved build of crates/store_bench; without it that crate is proved and built first. Up to 1,000,000 keys are
put into a map and got again, and up to 1,000,000 times one unit is appended to a text: seconds for the largest number, the
limit, how many times as long each doubling takes, peak memory in bytes for each key or unit, and the answer.

Seconds are the processor's, the least of five runs. Linear is 2.0; a dash stands where under two milliseconds tell nothing.
"""
import os
import subprocess
import sys

TOP = os.path.dirname(os.path.dirname(os.path.abspath(__file__)))
CRATE = os.path.join(TOP, "crates", "store_bench")
COUNTS = [125_000, 250_000, 500_000, 1_000_000]
LIMIT = 1.0


def run(program, command, count):
    """The answer, the processor's seconds and the peak memory in bytes of one run."""
    child = subprocess.Popen([program, command, str(count)], stdout=subprocess.PIPE, stderr=subprocess.STDOUT, text=True)
    said = child.stdout.read().strip()
    child.stdout.close()
    _, status, usage = os.wait4(child.pid, 0)
    if os.waitstatus_to_exitcode(status) != 0:
        said = f"status {os.waitstatus_to_exitcode(status)} {said}"
    return said, usage.ru_utime + usage.ru_stime, usage.ru_maxrss * 1024


def measured(program, command, count):
    """The answer, the least seconds and the least peak memory of five runs."""
    runs = [run(program, command, count) for _ in range(5)]
    return runs[0][0], min(seconds for _, seconds, _ in runs), min(memory for _, _, memory in runs)


def ratios(seconds):
    """How many times as long each takes as the one before it, where that one is long enough to tell."""
    return "".join(f"{b / a:>5.1f}" if a >= 0.002 else f"{'-':>5}" for a, b in zip(seconds, seconds[1:]))


def built():
    """The program, proved and built."""
    done = subprocess.run(["rt", "run", "--", "map", "1"], cwd=CRATE, capture_output=True, text=True)
    if done.returncode != 0:
        sys.exit(done.stdout + done.stderr)
    return os.path.join(CRATE, "out", "store_bench")


def main():
    program = os.path.abspath(sys.argv[1]) if len(sys.argv) > 1 else built()
    print(f"{'work':<10}{'seconds':>8}{'limit':>6}{'times':>15}{'memory':>8}  answer for the largest")
    for command in ["map", "text"]:
        taken, said, memory = [], "", 0
        for count in COUNTS:
            said, seconds, memory = measured(program, command, count)
            taken.append(seconds)
        print(
            f"{command:<10}{taken[-1]:>8.3f}{LIMIT:>6.1f}{ratios(taken)}{memory / COUNTS[-1]:>8.1f}  {said}", flush=True
        )


if __name__ == "__main__":
    main()
