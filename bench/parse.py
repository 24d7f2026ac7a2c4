#!/usr/bin/env python3
"""Scans and parses generated expressions and files, and prints what that took.

    bench/parse.py [PROGRAM] [-- NAME ..]

PROGRAM is a proved build of crates/parse_bench; without it that crate is proved and built first. NAME picks rows. There
are four tables.

- Up to 100,000 expressions of one kind, each with a `;` behind it: seconds to parse the largest number, and how many
  times as long each doubling takes.
- The same for one large expression of up to 1,048,000 bytes, or for a few that nest.
- Files of up to 1,048,000 bytes: seconds to scan and parse the largest, the limit, how many times as long each
  doubling takes, seconds of the scan alone, peak memory in bytes for each byte of the file, and the answer.
- Files whose trees nest though no token's load is great: how many links the machine's stack holds, to a fiftieth of
  those that the largest file has, and how many those are.

Seconds are the processor's, the least of five runs. To parse expressions takes what the run takes, less what it takes
to scan them. Linear is 2.0; a dash stands where under two milliseconds tell nothing.
"""
import os
import subprocess
import sys
import tempfile

TOP = os.path.dirname(os.path.dirname(os.path.abspath(__file__)))
CRATE = os.path.join(TOP, "crates", "parse_bench")
COUNTS = [12_500, 25_000, 50_000, 100_000]
SIZES = [131_000, 262_000, 524_000, 1_048_000]
LIMIT = 1.0

EXPRESSIONS = {
    "names": ["a"],
    "sums": ["a + b * c - -d ~/ e"],
    "comparisons": ["a < b == c && d || !e"],
    "selectors": ["a.b(c, d)[e].f++"],
    "assignments": ["a.b[c] = d ? e : f"],
    "lists and maps": ["[a, {b: 1, 'c': d}, <e>[f]]"],
    "texts": ["'a$b${c + d}e' \"f\" r'g'"],
    "objects": ["new A<b, c<d>>.e(f, 1)"],
    "parentheses": ["((a + b) * (c - d))"],
    "arrows": ["(a, [b = 1]) => a + b"],
    "blocks": ["(a) { if (a) b; else { return c; } }"],
}
EXPRESSIONS["several kinds"] = [kind for kinds in list(EXPRESSIONS.values()) for kind in kinds]


def some(kinds):
    """So many expressions, of the kinds in turn."""
    return lambda count: "".join(kinds[i % len(kinds)] + ";\n" for i in range(count))


def repeated(part, head="", tail=""):
    """Files that repeat a part between a head and a tail, of this size or a little less."""
    return lambda size: head + part * ((size - len(head) - len(tail)) // len(part)) + tail


def paired(opening, inside, closing, head="", tail=""):
    """Files in which as many openings as closings stand round the inside, of this size or a little less."""

    def of(size):
        left = size - len(head) - len(inside) - len(tail)
        count = left // (len(opening) + len(closing))
        return head + opening * count + inside + closing * count + tail

    return of


def around(depth, opening, closing, of, head="", tail=""):
    """Files in which so many openings and closings stand round another file."""
    front, back = head + opening * depth, closing * depth + tail
    return lambda size: front + of(size - len(front) - len(back)) + back


def within(of, head, tail):
    """Files between a head and a tail."""
    return lambda size: head + of(size - len(head) - len(tail)) + tail


def deep(opening, inside, closing, depth):
    """A part in which so many openings and closings stand round the inside."""
    return opening * depth + inside + closing * depth


LONG_LIST = repeated("a, ", "[", "a]")

LARGE = {
    "parentheses": repeated(deep("(", "a", ")", 190) + ";\n"),
    "and a list": around(190, "(", ")", LONG_LIST, "", ";"),
    "in one list": repeated(deep("(", "a", ")", 190) + ", ", "[", "a];"),
    "lists": repeated(deep("[", "", "]", 190) + ";\n"),
    "arguments": repeated("a, ", "f(", "a);"),
    "sums": repeated("a + " * 100 + "a, ", "f(", "a);"),
    "chain": repeated("[0](a)", "a", ";"),
    "texts": repeated("'a' ", "", ";"),
    "interpolations": repeated("'a$b' ", "", ";"),
    "one text": repeated("a$b", "'", "';"),
    "entries": repeated("a: b, ", "{", "a: b};"),
    "parameters": repeated("a, ", "(", "a) => a;"),
    "functions": repeated("a(b, [c = 1]), ", "(", "d) => a;"),
    "types": repeated("b, ", "new A<", "b>();"),
    "nested types": paired("A<b, ", "c", ", d>", "new ", "();"),
    "closed lists": around(65, "([a = ", "])", LONG_LIST, "", ";"),
    "defaults": around(60, "([a = ", "]) => b", LONG_LIST, "", ";"),
    "typed defaults": around(60, "([a = ", "]) => b", repeated("new A<b>(), ", "[", "a]"), "", ";"),
    "metadata": around(90, "(@a(", ") b) => c", LONG_LIST, "", ";"),
    "statements": repeated("a = b;\n", "() {", "};"),
    "nested blocks": repeated(deep("f(() { ", "a;", " });", 60), "() {", "};"),
}


def ordinary(size):
    """A file of classes, methods, comments and texts with interpolations."""
    parts, left, i = [], size, 0
    while True:
        part = f"""/// An account of customer {i}.
class Account{i} extends Account implements Comparable<Account{i}> {{
  final String owner;
  int _balance = {i * 37 % 1000};
  final List<Entry> entries = <Entry>[];

  Account{i}(this.owner, [int start = 0x{i:x}]) : super(owner, start); // opens it

  /* Takes an amount off, unless the balance is /* far */ too small for it. */
  bool withdraw(int amount, String reason) {{
    if (amount < 0 || _balance - amount <= -1000) {{
      throw new ArgumentError('bad amount $amount for ${{owner.substring(0, {i % 9})}}\\n');
    }} else if (isLocked) {{
      return false;
    }}
    for (var k = 0; k < entries.length; k++) {{
      total += entries[k].amount ~/ 100 * (k % 7) + {i};
    }}
    try {{
      entries.forEach((entry) => entry.check(owner, [1, 2, {{'a': b}}]));
    }} on StateError catch (error) {{
      print(error);
    }}
    _balance -= amount;
    entries.add(new Entry("withdraw", amount, r'$reason\\'));
    return _balance >= 0 && !isLocked ? true : false;
  }}

  get balance => _balance == null ? 0 : _balance;
  toString() => "Account{i}(${{owner}}: ${{_balance > 0 ? '+$_balance' : 'none'}})";
}}

"""
        if len(part) > left:
            return "".join(parts)
        parts.append(part)
        left -= len(part)
        i += 1


FILES = {
    "ordinary source": ordinary,
    "variables": repeated("var a;\n"),
    "typed variables": repeated("A<b, c<d>> e = 1;\n"),
    "functions": repeated("f(a, b) { return a; }\n"),
    "accessors": repeated("get a => b; set a(b) {}\n"),
    "classes": repeated("class A {}\n"),
    "members": repeated("f(a); ", "class A {", "}"),
    "fields": repeated("static final A<b> c = 1; ", "class A {", "}"),
    "constructors": repeated("A.b(this.c) : d = 1, super(2); ", "class A {", "}"),
    "operators": repeated("operator []=(a, b) => c; ", "class A {", "}"),
    "imports": repeated("import 'a' deferred as b show c, d;\n"),
    "metadata": repeated("@a(b) ", "", "var c;"),
    "type parameters": repeated("a extends b, ", "class A<", "c> {}"),
    "interfaces": repeated("a, ", "class A implements ", "b {}"),
    "statements": repeated("a = b + c;\n", "f() {", "}"),
    "empty statements": repeated(";", "f() {", "}"),
    "empty blocks": repeated("{}", "f() {", "}"),
    "calls": repeated("a();\n", "f() {", "}"),
    "local variables": repeated("a.b<c> d;\n", "f() {", "}"),
    "comparisons": repeated("a >= b, ", "f() { g(", "a); }"),
    "choices": repeated("if (a) b; else c;\n", "f() {", "}"),
    "loops": repeated("for (a in b) c;\n", "f() {", "}"),
    "tries": repeated("try {} on A {}\n", "f() {", "}"),
    "one list": within(LONG_LIST, "var a = ", ";"),
    "short names": repeated("a,", "var ", "a;"),
    "numbers": repeated("1,", "var a = [", "1];"),
    "names in a text": repeated("$a", "var a = '", "';"),
    "empty texts": repeated("'' ", "var a = ", ";"),
    "parentheses": repeated("var a = " + deep("(", "b", ")", 190) + ";\n"),
    "around a list": around(190, "(", ")", LONG_LIST, "var a = ", ";"),
    "closed lists": around(65, "([a=", "])", repeated("1,", "[", "1]"), "var a=", ";"),
    "and a text": around(65, "([a=", "])", repeated("$a", "'", "'"), "var a=", ";"),
    "defaults": around(60, "([a=", "])=>b", repeated("1,", "[", "1]"), "var a=", ";"),
    "typed defaults": around(60, "([a=", "])=>b", repeated("new A<b>(),", "[", "a]"), "var a=", ";"),
    "metadata in literals": around(96, "(@a(", ")b)=>c", repeated("1,", "[", "1]"), "var a=", ";"),
    "and one text": around(96, "(@a(", ")b)=>c", repeated("$a", "'", "'"), "var a=", ";"),
    "nested types": paired("A<b, ", "c", ", d>", "", " e;"),
    "nested too deep": repeated("(", "var a = "),
    "no file": repeated("a ", "var "),
}

# A head, a link and a tail. In each link the run of counted tokens begins anew, and the links' trees stand in one
# another.
LINKS = {
    "else behind `;`": ("f() {", "if (a) b; else ", "c; }"),
    "`:` behind `}`": ("var a = ", "b ? {} : ", "c;"),
    "`=` behind `}[0]`": ("var a = ", "{}[0] = ", "b;"),
    "`+` behind `}[0]`": ("var a = ", "{}[0] + ", "b;"),
}


def run(program, command, path):
    """The answer, the processor's seconds and the peak memory in bytes of one run."""
    child = subprocess.Popen([program, path, command], stdout=subprocess.PIPE, stderr=subprocess.STDOUT, text=True)
    said = child.stdout.read().strip()
    child.stdout.close()
    _, status, usage = os.wait4(child.pid, 0)
    code = os.waitstatus_to_exitcode(status)
    if code not in (0, 1):
        said = f"status {code} {said}"
    return said, usage.ru_utime + usage.ru_stime, usage.ru_maxrss * 1024


def measured(program, command, path):
    """The answer, the least seconds and the least peak memory of five runs."""
    runs = [run(program, command, path) for _ in range(5)]
    return runs[0][0], min(seconds for _, seconds, _ in runs), min(memory for _, _, memory in runs)


def written(path, of, size):
    """How many bytes were written. Another process writes them: the peak memory of a program that this one starts counts
    what this one had when it started it."""
    writer = os.fork()
    if writer == 0:
        with open(path, "w", encoding="utf-8") as file:
            file.write(of(size))
        os._exit(0)
    _, status = os.waitpid(writer, 0)
    if status != 0:
        sys.exit("no file was written")
    return os.path.getsize(path)


def ratios(seconds):
    """How many times as long each takes as the one before it, where that one is long enough to tell."""
    return "".join(f"{b / a:>5.1f}" if a >= 0.002 else f"{'-':>5}" for a, b in zip(seconds, seconds[1:]))


def parsing(program, path, of, sizes):
    """Seconds to parse expressions of each size, and the answer for the largest."""
    taken, said = [], ""
    for size in sizes:
        written(path, of, size)
        _, scan, _ = measured(program, "scan", path)
        said, both, _ = measured(program, "expressions", path)
        taken.append(max(both - scan, 0))
    return taken, said


def whole(program, path, of, sizes):
    """Seconds to scan and parse a file of each size; of the largest the answer, seconds to scan, memory for a byte."""
    taken = []
    for size in sizes:
        length = written(path, of, size)
        said, seconds, memory = measured(program, "file", path)
        taken.append(seconds)
    _, scan, _ = measured(program, "scan", path)
    return taken, said, scan, memory / length


def is_held(program, path, parts, count):
    """Whether the stack holds so many links."""
    head, link, tail = parts
    written(path, lambda _: head + link * count + tail, 0)
    return not run(program, "file", path)[0].startswith("status")


def held(program, path, parts):
    """How many links the stack holds, and how many are in the largest file."""
    most = (SIZES[-1] - len(parts[0]) - len(parts[2])) // len(parts[1])
    if is_held(program, path, parts, most):
        return most, most
    low, high = 0, most
    while high - low > max(high // 50, 1):
        middle = (low + high) // 2
        low, high = (middle, high) if is_held(program, path, parts, middle) else (low, middle)
    return low, most


def built():
    """The program, proved and built."""
    with tempfile.TemporaryDirectory() as folder:
        path = os.path.join(folder, "a.dart")
        open(path, "w", encoding="utf-8").close()
        done = subprocess.run(["rt", "run", "--", path, "scan"], cwd=CRATE, capture_output=True, text=True)
    if done.returncode != 0:
        sys.exit(done.stdout + done.stderr)
    return os.path.join(CRATE, "out", "parse_bench")


def main():
    words = sys.argv[1:]
    names = set(words[words.index("--") + 1 :]) if "--" in words else None
    words = words[: words.index("--")] if "--" in words else words
    program = os.path.abspath(words[0]) if words else built()
    expressions = {name: some(kinds) for name, kinds in EXPRESSIONS.items()}
    tables = [("expressions", expressions, COUNTS), ("one expression", LARGE, SIZES)]
    with tempfile.TemporaryDirectory() as folder:
        path = os.path.join(folder, "a.dart")
        for title, kinds, sizes in tables:
            print(f"{title:<22}{'parse':>8}{'times':>15}  answer for the largest")
            for name in [name for name in kinds if names is None or name in names]:
                taken, said = parsing(program, path, kinds[name], sizes)
                print(f"{name:<22}{taken[-1]:>8.3f}{ratios(taken)}  {said}", flush=True)
            print()
        print(f"{'file':<22}{'whole':>8}{'limit':>6}{'times':>15}{'scan':>8}{'memory':>8}  answer for the largest")
        for name in [name for name in FILES if names is None or name in names]:
            taken, said, scan, memory = whole(program, path, FILES[name], SIZES)
            print(
                f"{name:<22}{taken[-1]:>8.3f}{LIMIT:>6.1f}{ratios(taken)}{scan:>8.3f}{memory:>8.1f}  {said}", flush=True
            )
        print(f"\n{'links':<22}{'held':>8}{'of':>8}")
        for name in [name for name in LINKS if names is None or name in names]:
            low, most = held(program, path, LINKS[name])
            print(f"{name:<22}{low:>8}{most:>8}", flush=True)


if __name__ == "__main__":
    main()
