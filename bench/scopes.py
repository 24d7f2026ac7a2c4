#!/usr/bin/env python3
"""Finds what names mean and which members classes have in generated programs, and prints what that took.

    bench/scopes.py [PROGRAM] [-- NAME ..]

PROGRAM is a proved build of crates/scope_bench; without it that crate is proved and built first. NAME picks rows. There
are three tables.

- Programs of up to 10,000 declarations: seconds of `resolve` for the largest, which looks for broken rules too, and how
  many times as long each doubling takes.
- Look-ups of each of up to 10,000 names, ten times over: seconds for the largest, nanoseconds for one of its 100,000
  look-ups, and how many times as long each doubling takes.
- Programs of up to 4,000 classes with 10,000 selectors: seconds to make the hierarchy of the largest, which looks for
  broken rules of classes too, the limit, and how many times as long each doubling takes; and the same for the rules of
  bodies.

Seconds are the processor's, the least of five runs, less what the run takes without: to read the files, for look-ups and
hierarchies also to resolve them, and for rules of bodies also to make the hierarchy. Linear is 2.0; a dash stands where under two milliseconds tell nothing.
"""
import os
import subprocess
import sys
import tempfile

TOP = os.path.dirname(os.path.dirname(os.path.abspath(__file__)))
CRATE = os.path.join(TOP, "crates", "scope_bench")
COUNTS = [1_250, 2_500, 5_000, 10_000]
TURNS = 10


def of_each(part, count):
    """A part for each number."""
    return "".join(part.replace("#", str(i)) for i in range(count))


def declared(count):
    """Classes, functions, getters and pairs of accessors, as many as their names."""
    kinds = ["class n#{}\n", "n#(a) => a;\n", "get n# => 1;\n", "get n# => 1; set n#(v) {}\n"]
    return "".join(kinds[i % len(kinds)].replace("#", str(i)) for i in range(count))


def named(count):
    """The names, with commas between."""
    return ", ".join(f"n{i}" for i in range(count))


MAIN = "main() {}\n"
IMPORT = "import 'b.dart';\n" + MAIN

# The texts of the entry and of the files behind it.
RESOLVED = {
    "declarations": lambda n: [MAIN + declared(n)],
    "another file's": lambda n: [IMPORT, declared(n)],
    "variables": lambda n: [MAIN + of_each("var n#, m#;\n", n // 2)],
    "classes": lambda n: [MAIN + of_each("class n# { var a; n#(); n#.b(); get c => 1; set c(v) {} }\n", n // 5)],
    "one class": lambda n: [MAIN + "class A {\n" + declared(n).replace("class n", "var m").replace("{}\n", ";\n") + "}\n"],
    "uses of own": lambda n: ["main() {\n" + of_each("n#(n#);\n", n) + "}\n" + of_each("n#(a) => a;\n", n)],
    "uses of another's": lambda n: [
        "import 'b.dart';\nimport 'c.dart';\nmain() {\n" + of_each("n#(n#);\n", n) + "}\n",
        of_each("n#(a) => a;\n", n),
        of_each("m#(a) => a;\n", n),
    ],
    "uses of a prefix": lambda n: [
        "import 'b.dart' as p;\nmain() {\n" + of_each("p.n#(1);\n", n) + "}\n",
        of_each("n#(a) => a;\n", n),
    ],
    "uses of a class": lambda n: [
        "import 'b.dart';\nmain() {}\nclass A {\nf() {\n" + of_each("n#(1);\n", n) + "}\n" + of_each("n#(a) => a;\n", n) + "}\n",
        of_each("n#(a) => a;\n", n),
    ],
    "uses of a scope": lambda n: [
        "import 'b.dart';\nmain() {\n" + of_each("var n#;\n", n) + of_each("n# = 1;\n", n) + "}\n",
        of_each("n#(a) => a;\n", n),
    ],
    "imports": lambda n: ["import 'b.dart';\n" * n + MAIN, "class A {}\n"],
    "shown names": lambda n: [f"import 'b.dart' show {named(n)};\n" + MAIN, of_each("n#(a) => a;\n", n)],
    "prefixes": lambda n: [of_each("import 'b.dart' deferred as p#;\n", n) + MAIN, "class A {}\n"],
}

# The command, and the texts of the files, of which the last declares the names.
LOOKED = {
    "own": ("look", lambda n: [MAIN + declared(n)]),
    "imported": ("look", lambda n: [IMPORT, declared(n)]),
    "shown": ("look", lambda n: [f"import 'b.dart' show {named(n)};\n" + MAIN, declared(n)]),
    "of eight imports": ("look", lambda n: ["import 'b.dart';\n" * 7 + "import 'c.dart';\n" + MAIN, "var a;\n", declared(n)]),
    "absent": ("look", lambda n: [IMPORT, declared(n).replace("n", "_n")]),
    "behind a prefix": ("behind", lambda n: ["import 'b.dart' as p;\n" + MAIN, declared(n)]),
}

CLASSES = [500, 1_000, 2_000, 4_000]
LIMIT = 2.0


def members(names):
    """A method, a field and a setter of another name, over and over."""
    kinds = ["#(a) => a; ", "var #; ", "set #(v) {} "]
    return "".join(kinds[i % len(kinds)].replace("#", name) for i, name in enumerate(names))


def hierarchy(count, above):
    """So many classes, each behind the one that `above` gives, with two and a half members on the mean, each of its own name."""
    text = [MAIN]
    for i in range(count):
        names = [f"m{i}", f"n{i}"] + ([f"o{i}"] if i % 2 else [])
        other = above(i)
        head = f" extends c{other}" if other is not None else ""
        text.append(f"class c{i}{head} {{ {members(names)}f() {{ m{i}; return this.n{i}; }} }}\n")
    return ["".join(text)]


# The texts of the files.
BUILT = {
    "flat": lambda n: hierarchy(n, lambda i: None),
    "one above all": lambda n: hierarchy(n, lambda i: 0 if i else None),
    "a chain": lambda n: hierarchy(n, lambda i: i - 1 if i else None),
    "a tree": lambda n: hierarchy(n, lambda i: (i - 1) // 2 if i else None),
    "interfaces": lambda n: [t.replace(" extends", " implements") for t in hierarchy(n, lambda i: (i - 1) // 2 if i else None)],
    "mixins": lambda n: [
        MAIN + of_each("class m# { p#(a) => a; q#() { p#(1); } }\n", n // 4)
        + of_each("class s# { r#() {} }\n", n // 4) + of_each("class c# extends s# with m# { t#() {} }\n", n // 4)
    ],
}


def run(program, words):
    """The answer and the processor's seconds of one run."""
    child = subprocess.Popen([program, *words], stdout=subprocess.PIPE, stderr=subprocess.STDOUT, text=True)
    said = child.stdout.read().strip()
    child.stdout.close()
    _, status, usage = os.wait4(child.pid, 0)
    if os.waitstatus_to_exitcode(status) != 0:
        sys.exit(f"{words[0]}: {said}")
    return said, usage.ru_utime + usage.ru_stime


def measured(program, command, count, paths):
    """The answer and the least seconds of five runs."""
    runs = [run(program, [command, str(count), *paths]) for _ in range(5)]
    return runs[0][0], min(seconds for _, seconds in runs)


def written(folder, texts):
    """The paths of files of these texts."""
    paths = []
    for name, text in zip("abc", texts):
        path = os.path.join(folder, f"{name}.dart")
        with open(path, "w", encoding="utf-8") as file:
            file.write(text)
        paths.append(path)
    return paths


def ratios(seconds):
    """How many times as long each takes as the one before it, where that one is long enough to tell."""
    return "".join(f"{b / a:>5.1f}" if a >= 0.002 else f"{'-':>5}" for a, b in zip(seconds, seconds[1:]))


def resolving(program, folder, of):
    """Seconds to resolve programs of each number of declarations, and the answer for the largest."""
    taken = []
    for count in COUNTS:
        paths = written(folder, of(count))
        _, read = measured(program, "read", 0, paths)
        said, both = measured(program, "resolve", 0, paths)
        taken.append(max(both - read, 0))
    return taken, said


def looking(program, folder, command, of):
    """Seconds to look each number of names up, and the answer for the largest."""
    taken = []
    for count in COUNTS:
        paths = written(folder, of(count))
        _, none = measured(program, command, 0, paths)
        said, both = measured(program, command, TURNS * count, paths)
        taken.append(max(both - none, 0))
    return taken, said


def building(program, folder, of):
    """Seconds to make hierarchies of each number of classes and to look for broken rules of bodies, and the answer."""
    taken, looked = [], []
    for count in CLASSES:
        paths = written(folder, of(count))
        _, resolved = measured(program, "resolve", 0, paths)
        said, made = measured(program, "build", 0, paths)
        _, both = measured(program, "bodies", 0, paths)
        taken.append(max(made - resolved, 0))
        looked.append(max(both - made, 0))
    return taken, looked, said


def built():
    """The program, proved and built."""
    with tempfile.TemporaryDirectory() as folder:
        paths = written(folder, [MAIN])
        done = subprocess.run(["rt", "run", "--", "read", "0", *paths], cwd=CRATE, capture_output=True, text=True)
    if done.returncode != 0:
        sys.exit(done.stdout + done.stderr)
    return os.path.join(CRATE, "out", "scope_bench")


def main():
    words = sys.argv[1:]
    names = set(words[words.index("--") + 1 :]) if "--" in words else None
    words = words[: words.index("--")] if "--" in words else words
    program = os.path.abspath(words[0]) if words else built()
    with tempfile.TemporaryDirectory() as folder:
        print(f"{'resolved':<20}{'seconds':>9}{'times':>15}  answer for the largest")
        for name in [name for name in RESOLVED if names is None or name in names]:
            taken, said = resolving(program, folder, RESOLVED[name])
            print(f"{name:<20}{taken[-1]:>9.3f}{ratios(taken)}  {said}", flush=True)
        print(f"\n{'looked up':<20}{'seconds':>9}{'each, ns':>10}{'times':>15}  answer for the largest")
        for name in [name for name in LOOKED if names is None or name in names]:
            taken, said = looking(program, folder, *LOOKED[name])
            each = taken[-1] / (TURNS * COUNTS[-1]) * 1e9
            print(f"{name:<20}{taken[-1]:>9.3f}{each:>10.0f}{ratios(taken)}  {said}", flush=True)
        print(f"\n{'hierarchies':<20}{'seconds':>9}{'limit':>7}{'times':>15}{'bodies, s':>11}{'times':>15}  answer for the largest")
        for name in [name for name in BUILT if names is None or name in names]:
            taken, looked, said = building(program, folder, BUILT[name])
            print(
                f"{name:<20}{taken[-1]:>9.3f}{LIMIT:>7.1f}{ratios(taken)}{looked[-1]:>11.3f}{ratios(looked)}  {said}",
                flush=True,
            )


if __name__ == "__main__":
    main()
