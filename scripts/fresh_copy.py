"""A copy of the repository in which every crate is proved from nothing.

`rt` begins a check with what it kept of the same text, from whichever copy on this machine. So each crate of the copy
gets a comment that no other copy has, and an empty folder of kept work.
"""

import os
import subprocess
import sys
import uuid

from crate_lists import crates_of

TOP = os.path.dirname(os.path.dirname(os.path.abspath(__file__)))


def root_file(top, crate):
    """The file that a crate begins with."""
    for name in ("lib.rt", "main.rt"):
        path = f"{top}/crates/{crate}/src/{name}"
        if os.path.isfile(path):
            return path
    sys.exit(f"{crate} has no root file")


def fresh_copy(folder):
    """Copies what is committed into a folder that isn't there yet, so that nothing kept fits it."""
    subprocess.run(["git", "clone", "--quiet", TOP, folder], check=True)
    mark = uuid.uuid4().hex
    order, below = crates_of(folder)
    for crate in order:
        with open(root_file(folder, crate), "a", encoding="utf-8") as root:
            root.write(f"\n// a copy to be measured: {mark}\n")
        os.makedirs(f"{folder}/crates/{crate}/out/incremental")
    return order, below
