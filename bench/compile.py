#!/usr/bin/env python3
"""Compiles a generated program of 1,048,000 bytes and prints what that took.

    bench/compile.py [PROGRAM]

PROGRAM is the proved program (default: what bin/zikvorb runs). Nothing is built here. The rows are: what the file is
made of, its bytes, the bytes put, seconds, bytes per second, and peak memory in megabytes; the least of three runs.
"""
import os
import resource
import subprocess
import sys
import tempfile
import time

TOP = os.path.dirname(os.path.dirname(os.path.abspath(__file__)))
SIZE = 1_048_000
# So many operators may stand between the brackets of a print: no token's load is above 200 then.
LONGEST_SUM = 198


def fill(statement):
    """A program of SIZE bytes that repeats a statement."""
    head, tail = "main(){\n", "}\n"
    count = (SIZE - len(head) - len(tail)) // len(statement)
    body = statement * count
    blanks = SIZE - len(head) - len(body) - len(tail)
    return head + body + " " * blanks + tail


def all_forms():
    """A program of SIZE bytes with all forms and thousands of names, each used near and far."""
    head, tail = "main(){\n", "}\n"
    parts, size, i = [], len(head) + len(tail), 0
    while True:
        part = f"var a{i}={i}*2-1;print(a{i}+3*a{i // 2});var t{i}='text {i}.';print(t{i // 2});\n"
        if size + len(part) > SIZE:
            break
        parts.append(part)
        size += len(part)
        i += 1
    return head + "".join(parts) + " " * (SIZE - size) + tail


PROGRAMS = {
    "all forms": all_forms(),
    "short sums": fill("  print(1 + 20 + 300);\n"),
    "longest sums": fill("print(1" + "+1" * LONGEST_SUM + ");\n"),
    "prints alone": fill("print(7);"),
    "blanks": fill(" " * 64),
}


def run(program, folder):
    """Seconds and peak memory in kilobytes of one run."""
    start = time.perf_counter()
    child = subprocess.Popen([program, "compile", "a.dart", "out.js"], cwd=folder)
    _, status, usage = os.wait4(child.pid, 0)
    seconds = time.perf_counter() - start
    code = os.waitstatus_to_exitcode(status)
    if code != 0:
        sys.exit(f"the program ended with status {code}")
    return seconds, usage.ru_maxrss


def main():
    default = os.path.join(TOP, "crates", "dart_web_cli", "out", "dart_web_cli")
    program = os.path.abspath(sys.argv[1] if len(sys.argv) > 1 else default)
    print(f"{'file':<14}{'bytes':>10}{'put':>12}{'seconds':>9}{'bytes/s':>12}{'MB':>7}")
    for name, text in PROGRAMS.items():
        with tempfile.TemporaryDirectory() as folder:
            with open(os.path.join(folder, "a.dart"), "w", encoding="ascii") as file:
                file.write(text)
            seconds, memory = min(run(program, folder) for _ in range(3))
            put = os.path.getsize(os.path.join(folder, "out.js"))
        print(f"{name:<14}{len(text):>10}{put:>12}{seconds:>9.3f}{len(text) / seconds:>12.0f}{memory / 1024:>7.0f}")


if __name__ == "__main__":
    main()
