#!/usr/bin/env python3
"""Runs scripts of the JavaScript subset by `runjs`, and prints what that took.

    bench/runs.py [PROGRAM] [-- NAME ..]

PROGRAM is a proved build of crates/dart_web_cli; without it that crate is proved and built first. A row is one endless
script, which is run for up to 10,000,000 steps: the processor's seconds for the largest number, the limit, how many times as
long each doubling takes, and the peak memory in MiB for the largest number. NAME picks rows.

Seconds are the least of three runs. Linear is 2.0; a dash stands where under two milliseconds tell nothing. What a run prints
is thrown away.
"""
import os
import subprocess
import sys
import tempfile

TOP = os.path.dirname(os.path.dirname(os.path.abspath(__file__)))
CRATE = os.path.join(TOP, "crates", "dart_web_cli")
STEPS = [1_250_000, 2_500_000, 5_000_000, 10_000_000]
LIMIT = 20.0
SPENT = 7


def endless(head, *turn):
    """A script that runs the statements of a turn again and again, with a count in `i$`."""
    return "\n".join([head, "let i$ = 0;", "l$: {", "while (true) {", "i$ = i$ + 1;", *turn, "}", "}", ""])


# The keys of a map, an object and an array stay 1,000 in number, or grow with each turn.
ROWS = {
    "counting": endless("let a$ = 0;"),
    "names far out": endless("".join(f"var n{i}$ = {i};\n" for i in range(1000)), "n7$ = n993$;"),
    "calls": endless("function add$(a$, b$) {\nreturn a$ + b$;\n}", "let s$ = add$(i$, 1);"),
    "closures": endless("let f$ = null;", "f$ = function (a$) {\nreturn i$;\n};", "f$(1);"),
    "a map": endless("let m$ = new Map();", "m$.set(i$ % 1000, i$);", "m$.get(i$ % 1000);"),
    "a growing map": endless("let m$ = new Map();", "m$.set(i$, i$);", "m$.get(i$);"),
    "removed keys": endless("let m$ = new Map();", "m$.set(i$, i$);", "m$.delete(i$ - 1);"),
    "an object": endless("let o$ = {};", 'o$["k" + String(i$ % 1000)] = i$;', 'o$["k" + String(i$ % 1000)];'),
    "a growing object": endless("let o$ = {};", "o$[String(i$)] = i$;", "o$[String(i$)];"),
    "a growing array": endless("let x$ = [0];", "x$.push(i$);", "x$[i$] = x$[i$ - 1];"),
    "a growing string": endless('let s$ = "";', 's$ = s$ + "a";', "s$.charCodeAt(i$ - 1);"),
    "caught throws": endless("let a$ = 0;", "try {\nthrow i$;\n} catch (e$) {\na$ = e$;\n}"),
    "printing": endless("let a$ = 0;", "host$.print(String(i$));"),
}


def run(program, out, steps):
    """The processor's seconds and the peak memory in bytes of one run."""
    words = [program, "runjs", out, "--steps", str(steps)]
    child = subprocess.Popen(words, stdout=subprocess.DEVNULL, stderr=subprocess.STDOUT)
    _, status, usage = os.wait4(child.pid, 0)
    if os.waitstatus_to_exitcode(status) != SPENT:
        sys.exit(f"{out}: status {os.waitstatus_to_exitcode(status)}, where all steps are to be taken")
    return usage.ru_utime + usage.ru_stime, usage.ru_maxrss * 1024


def measured(program, out, steps):
    """The least seconds and the least peak memory of three runs."""
    runs = [run(program, out, steps) for _ in range(3)]
    return min(seconds for seconds, _ in runs), min(memory for _, memory in runs)


def ratios(seconds):
    """How many times as long each takes as the one before it, where that one is long enough to tell."""
    return "".join(f"{b / a:>5.1f}" if a >= 0.002 else f"{'-':>5}" for a, b in zip(seconds, seconds[1:]))


def built():
    """The program, proved and built."""
    done = subprocess.run(["rt", "run"], cwd=CRATE, capture_output=True, text=True)
    program = os.path.join(CRATE, "out", "dart_web_cli")
    if not os.path.exists(program):
        sys.exit(done.stdout + done.stderr)
    return program


def main():
    words = sys.argv[1:]
    names = words[words.index("--") + 1 :] if "--" in words else list(ROWS)
    given = words[: words.index("--")] if "--" in words else words
    program = os.path.abspath(given[0]) if given else built()
    print(f"{'script':<18}{'seconds':>8}{'limit':>6}{'times':>15}{'MiB':>8}")
    with tempfile.TemporaryDirectory() as folder:
        for name in names:
            out = os.path.join(folder, name.replace(" ", "_") + ".js")
            with open(out, "w") as file:
                file.write(ROWS[name])
            taken, memory = [], 0
            for steps in STEPS:
                seconds, memory = measured(program, out, steps)
                taken.append(seconds)
            print(f"{name:<18}{taken[-1]:>8.2f}{LIMIT:>6.1f}{ratios(taken)}{memory / 2**20:>8.1f}", flush=True)


if __name__ == "__main__":
    main()
