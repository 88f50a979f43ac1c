#!/usr/bin/env python3
"""How long a command takes on long rows of each kind: on 100 KB and on 1 MB of it.

    parse_rows.py COMMAND [WORD ..]

The command gets the name of a source file behind its words. With a parser of linear cost no kind takes much more than
ten times as long on 1 MB as on 100 KB, once the time for an empty source is taken off. The sources keep the grammar
and its limits, but not always the rules of names and types.
"""

import subprocess
import sys
import tempfile
import time

BODY = "class Main{void main(){"
END = "}}"

# a name, what stands in front, the part that is repeated, and what stands behind
KINDS = [
    ("declarations", "", "class A{}", ""),
    ("members", "class A{", "int a;", "}"),
    ("methods", "class A{", "void m(){}", "}"),
    ("parents", "class A extends B", "&B", "{}"),
    ("sharing", "class A{void m()sharing A->A", ",A->A", "{}}"),
    ("statements", BODY, "x=1;", END),
    ("blocks", BODY, "{}", END),
    ("branches", BODY, "if(x){}else{}", END),
    ("sums", BODY + "x=1", "+1", ";" + END),
    ("products", BODY + "x=1", "*1", ";" + END),
    ("conjunctions", BODY + "x=a", "&&a", ";" + END),
    ("disjunctions", BODY + "x=a", "||a", ";" + END),
    ("parts", BODY + "x=a", ".f", ";" + END),
    ("calls", BODY + "x=a", ".f()", ";" + END),
    ("arguments", BODY + "x.f(1", ",1", ");" + END),
    ("path of a type", BODY + "a", ".a", " x=null;" + END),
    ("path of a target", BODY + "a", ".a", "=null;" + END),
    ("texts", BODY, 'print("a");', END),
    ("comments", "", "/**/", ""),
    ("line ends", "", "\n", ""),
]


def seconds(command, source):
    with tempfile.NamedTemporaryFile(suffix=".jand") as file:
        file.write(source.encode())
        file.flush()
        start = time.monotonic()
        subprocess.run(command + [file.name], stdout=subprocess.DEVNULL, stderr=subprocess.DEVNULL, check=False)
        return time.monotonic() - start


def row(front, part, back, size):
    return front + part * ((size - len(front) - len(back)) // len(part)) + back


def main():
    command = sys.argv[1:]
    if not command:
        sys.exit(__doc__)
    empty = min(seconds(command, "") for _ in range(3))
    print(f"empty source: {empty:.3f} s")
    for name, front, part, back in KINDS:
        less, more = (seconds(command, row(front, part, back, size)) for size in (100_000, 1_000_000))
        print(f"{name:18} 100 KB {less:8.3f} s   1 MB {more:8.3f} s   {(more - empty) / max(less - empty, 0.001):6.1f}")


if __name__ == "__main__":
    main()
