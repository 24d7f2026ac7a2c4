#!/usr/bin/env python3
"""Reads generated JavaScript files of 1 to 16 MiB and prints their trees, and prints what that took.

    bench/js_reader.py [PROGRAM] [-- NAME ..]

PROGRAM is a proved build of crates/js_bench; without it that crate is proved and built first. A row is one kind of file:
the processor's seconds to read a file of 16 MiB and how many times as long each doubling takes, the same for printing
its tree and comparing the text with the file, and the peak memory of both in bytes for each byte of the file. NAME
picks rows. Seconds are the least of three runs, and a dash stands where under a hundredth of a second tells nothing.
Each file is in the canonical spelling, so that what is printed must be the file.
"""
import os
import subprocess
import sys
import tempfile

TOP = os.path.dirname(os.path.dirname(os.path.abspath(__file__)))
CRATE = os.path.join(TOP, "crates", "js_bench")
SIZES = [mib << 20 for mib in (1, 2, 4, 8, 16)]


def numbered(part, head="", tail=""):
    """Files of a head, a part for each number, and a tail, of this size or a little less."""

    def of(size):
        parts, left, i = [head], size - len(head) - len(tail), 0
        while True:
            text = part(i)
            if len(text) > left:
                parts.append(tail)
                return "".join(parts)
            parts.append(text)
            left -= len(text)
            i += 1

    return of


def ordinary(i):
    """What a class with a method and its callers may be emitted as."""
    return f"""function $withdraw_{i}($this, $amount, $reason) {{
if ($amount < 0) {{
throw {{"kind": "bad amount", "value": $amount}};
}}
let $balance = $this[{i % 9}];
let $next = $balance - $amount;
$loop: {{
while (true) {{
if ($next >= {i * 37 % 1000}) {{
break $loop;
}} else {{
$next = $add($next, $this[{i % 7}][$index($next)]);
}}
}}
}}
$this[{i % 9}] = $next;
$entries_{i % 5}.push([$amount, $reason, null, true, -{i}]);
try {{
$check($this, "account {i}\\n", $next === $balance);
}} catch ($error) {{
$report($error, String($amount), $this[0].length);
}}
return $next;
}}
var $name_{i} = "Account \\u00e9 \\"{i}\\"";
""".replace("\\n", "\\u000a")


def nested(opening, inside, closing, depth):
    """A statement that has brackets so deep in one another."""
    return lambda i: "$f(" + opening * depth + inside + closing * depth + ");\n"


FILES = {
    "ordinary code": numbered(ordinary),
    "long chain": numbered(lambda i: f"[{i % 1000}].push($a)", "$a", ";\n"),
    "nested indices": numbered(nested("$a[", "0", "]", 1000)),
    "nested lists": numbered(nested("[", "", "]", 1000)),
    "nested functions": numbered(nested("function () {\nreturn ", "0", ";\n}", 300)),
    "strings": numbered(lambda i: f'$a("\\u00e9\\u{i % 0xD000 + 0x2000:04x} \\"text {i}\\" \\\\");\n'),
    "one string": numbered(lambda i: "\\u00e9 a text ", '$a("', '");\n'),
    "one list": numbered(lambda i: f"{i}, ", "var $a = [", "0];\n"),
    "small numbers": numbered(lambda i: f"{i % 10}, ", "var $a = [", "0];\n"),
    "one object": numbered(lambda i: f'"key {i}": $a, ', "$a = {", '"": null};\n'),
    "one call": numbered(lambda i: f"$a{i}, ", "$a(", "0);\n"),
    "names of a file": numbered(lambda i: f"var $name_{i} = {i};\n"),
    "names of a block": numbered(lambda i: f"let $name_{i} = {i};\n", "function $f() {\n", "}\n"),
    "parameters": numbered(lambda i: f"$p{i}, ", "function $f(", "$p) {\n}\n"),
    "small statements": numbered(lambda i: "$();\n"),
    "empty blocks": numbered(lambda i: "$: {\n}\n"),
    "stores": numbered(lambda i: "$[0] = $;\n"),
    "sums": numbered(lambda i: "$ = $ + $;\n"),
    "one name": numbered(lambda i: "a", "$", ";\n"),
}


def run(program, command, path):
    """What was said, the processor's seconds, and the peak memory in bytes."""
    child = subprocess.Popen([program, command, path], stdout=subprocess.PIPE, stderr=subprocess.STDOUT, text=True)
    said = child.stdout.read().strip()
    child.stdout.close()
    _, status, usage = os.wait4(child.pid, 0)
    code = os.waitstatus_to_exitcode(status)
    if code != 0:
        sys.exit(f"the program ended with status {code}: {said}")
    return said, usage.ru_utime + usage.ru_stime, usage.ru_maxrss * 1024


def measured(program, command, path, wanted=None):
    """The least seconds and the least peak memory of three runs."""
    runs = [run(program, command, path) for _ in range(3)]
    for said, _, _ in runs:
        if wanted is not None and said != wanted:
            sys.exit(f"{said} was printed")
    return min(seconds for _, seconds, _ in runs), min(memory for _, _, memory in runs)


def ratios(seconds):
    """How many times as long each takes as the one before it, where that one is long enough to tell."""
    return "".join(f"{b / a:>5.1f}" if a >= 0.01 else f"{'-':>5}" for a, b in zip(seconds, seconds[1:]))


def built():
    """The program, proved and built."""
    with tempfile.TemporaryDirectory() as folder:
        path = os.path.join(folder, "a.js")
        open(path, "w", encoding="utf-8").close()
        done = subprocess.run(["rt", "run", "--", "read", path], cwd=CRATE, capture_output=True, text=True)
    if done.returncode != 0:
        sys.exit(done.stdout + done.stderr)
    return os.path.join(CRATE, "out", "js_bench")


def written(path, of, size):
    """How many bytes were written. Another process writes them: the peak memory of a program that this one starts counts
    what this one had when it started it."""
    writer = os.fork()
    if writer == 0:
        with open(path, "w", encoding="utf-8") as file:
            file.write(of(size))
        os._exit(0)
    _, status = os.waitpid(writer, 0)
    if status != 0:
        sys.exit("no file was written")
    return os.path.getsize(path)


def row(program, folder, of):
    """Seconds to read and to print, and the peak memory of each for a byte of the largest file."""
    reading, printing, memory = [], [], (0, 0)
    for size in SIZES:
        path = os.path.join(folder, "a.js")
        length = written(path, of, size)
        read, least = measured(program, "read", path)
        both, most = measured(program, "print", path, "the same")
        reading.append(read)
        printing.append(max(both - read, 0))
        memory = (least / length, most / length)
    return reading, printing, memory


def main():
    words = sys.argv[1:]
    names = words[words.index("--") + 1 :] if "--" in words else list(FILES)
    words = words[: words.index("--")] if "--" in words else words
    program = os.path.abspath(words[0]) if words else built()
    print(f"{'file':<17}{'read':>7}{'times':>20}{'print':>7}{'times':>20}{'bytes':>9}{'and print':>10}")
    with tempfile.TemporaryDirectory() as folder:
        for name in names:
            reading, printing, memory = row(program, folder, FILES[name])
            print(
                f"{name:<17}{reading[-1]:>7.2f}{ratios(reading)}{printing[-1]:>7.2f}{ratios(printing)}"
                f"{memory[0]:>9.1f}{memory[1]:>10.1f}",
                flush=True,
            )


if __name__ == "__main__":
    main()
