#!/usr/bin/env python3
"""Scans generated files of a quarter, a half and the whole of 1,048,000 bytes, and prints what that took.

    bench/scan.py [PROGRAM]

PROGRAM is a proved build of crates/scan_bench; without it that crate is proved and built first. The rows are: what the
file is made of, seconds for each size, how many times as long each doubling takes, and the answer for the whole file.
Seconds are the processor's, the least of nine runs, less those of an empty file. Linear is 2.0; a dash stands where
under two milliseconds tell nothing.
"""
import os
import subprocess
import sys
import tempfile

TOP = os.path.dirname(os.path.dirname(os.path.abspath(__file__)))
CRATE = os.path.join(TOP, "crates", "scan_bench")
SIZES = [262_000, 524_000, 1_048_000]


def repeated(part, head="", tail=""):
    """Files that repeat a part between a head and a tail, and then have blanks."""

    def of(size):
        text = head + part * ((size - len(head) - len(tail)) // len(part)) + tail
        return text + " " * (size - len(text))

    return of


def nested(opening, inside, closing):
    """Files in which an opening and a closing stand one in another round the inside, and then blanks."""

    def of(size):
        depth = (size - len(inside)) // (len(opening) + len(closing))
        text = opening * depth + inside + closing * depth
        return text + " " * (size - len(text))

    return of


def ordinary(size):
    """A file of classes, methods, comments and texts with interpolations, and then blanks."""
    parts, left, i = [], size, 0
    while True:
        part = f"""/// An account of customer {i}.
class Account{i} extends Account {{
  final String owner;
  int _balance = {i * 37 % 1000};
  final List<Entry> entries = <Entry>[];

  Account{i}(this.owner, [int start = 0x{i:x}]) : super(owner, start); // opens it

  /* Takes an amount off, unless the balance is /* far */ too small for it. */
  bool withdraw(int amount, String reason) {{
    if (amount < 0 || _balance - amount <= -1000) {{
      throw new ArgumentError('bad amount $amount for ${{owner.substring(0, {i % 9})}}\\n');
    }}
    for (var k = 0; k < entries.length; k++) {{
      total += entries[k].amount ~/ 100 * (k % 7) + {i};
    }}
    _balance -= amount;
    entries.add(new Entry("withdraw", amount, r'$reason\\'));
    return _balance >= 0 && !isLocked ? true : false;
  }}

  get balance => _balance == null ? 0 : _balance;
  toString() => "Account{i}(${{owner}}: ${{_balance > 0 ? '+$_balance' : 'none'}})";
}}

"""
        if len(part) > left:
            return "".join(parts) + " " * left
        parts.append(part)
        left -= len(part)
        i += 1


FILES = {
    "ordinary source": ordinary,
    "nested comment": nested("/*", "", "*/"),
    "open comments": repeated("/*"),
    "nested holes": nested("'${", "1", "}'"),
    "open holes": repeated("'${"),
    "braces in a hole": lambda size: "'${" + nested("{", "", "}")(size - 5) + "}'",
    "names": repeated("abcdefg "),
    "short names": repeated("a "),
    "one name": repeated("a"),
    "words": repeated("with "),
    "signs": repeated("~/=+;"),
    "last signs": repeated("!-"),
    "numbers": repeated("1234567 "),
    "one long number": repeated("0"),
    "one long text": repeated("a", "'", "'"),
    "one open text": repeated("a", "'"),
    "escapes": repeated("\\u{1F600}\\n", "'", "'"),
    "names in a text": repeated("$a", "'", "'"),
    "bad in a text": repeated("\\x", "'", "'"),
    "empty texts": repeated("'' "),
    "line comments": repeated("// a\n"),
    "blanks": repeated(" "),
}


def run(program, path):
    """The answer and the processor's seconds of one run, which a busy machine changes less than those of the clock."""
    child = subprocess.Popen([program, path], stdout=subprocess.PIPE, stderr=subprocess.STDOUT, text=True)
    answer = child.stdout.read().strip()
    _, status, usage = os.wait4(child.pid, 0)
    code = os.waitstatus_to_exitcode(status)
    if code not in (0, 1):
        sys.exit(f"the program ended with status {code}: {answer}")
    return answer, usage.ru_utime + usage.ru_stime


def measured(program, folder, text):
    """The answer for a file of this text, and the least seconds of nine runs."""
    path = os.path.join(folder, "a.dart")
    with open(path, "w", encoding="utf-8") as file:
        file.write(text)
    runs = [run(program, path) for _ in range(9)]
    return runs[0][0], min(seconds for _, seconds in runs)


def times(longer, shorter):
    """How many times as long the longer takes, where the shorter is long enough to tell."""
    return f"{longer / shorter:.1f}" if shorter >= 0.002 else "-"


def built():
    """The program, proved and built."""
    with tempfile.TemporaryDirectory() as folder:
        path = os.path.join(folder, "a.dart")
        open(path, "w", encoding="utf-8").close()
        done = subprocess.run(["rt", "run", "--", path], cwd=CRATE, capture_output=True, text=True)
    if done.returncode != 0:
        sys.exit(done.stdout + done.stderr)
    return os.path.join(CRATE, "out", "scan_bench")


def main():
    program = os.path.abspath(sys.argv[1]) if len(sys.argv) > 1 else built()
    with tempfile.TemporaryDirectory() as folder:
        _, nothing = measured(program, folder, "")
        print(f"{'file':<18}{'1/4':>8}{'1/2':>8}{'whole':>8}{'times':>7}{'times':>7}  answer for the whole")
        for name, of in FILES.items():
            taken = [measured(program, folder, of(size)) for size in SIZES]
            quarter, half, whole = (max(seconds - nothing, 0) for _, seconds in taken)
            print(
                f"{name:<18}{quarter:>8.4f}{half:>8.4f}{whole:>8.4f}{times(half, quarter):>7}{times(whole, half):>7}"
                f"  {taken[-1][0]}"
            )


if __name__ == "__main__":
    main()
