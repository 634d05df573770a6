#!/usr/bin/env python3
"""Tries the edits that the gate doesn't try: those in the folders `edits` of crates.

    python3 bench/edits.py [NAME ..]

An edit is a wrong program: it changes a line or two of a crate, and the prover must refuse what comes of it. The gate
tries those in `must-fail`. Those in `edits` are the same for crates for which the gate has no time. Here a copy of the
sources is made in which each folder `edits` stands in the place of `must-fail`, with the libraries that are built, and
the toolchain tries all of them, or those of the crates that are named. Libraries that aren't built are proved first,
each with all below it. The status is 0 where each edit is refused, and 1 where one isn't or wasn't tried.
"""

import os
import pathlib
import shutil
import subprocess
import sys
import tempfile

sys.path.append(str(pathlib.Path(__file__).resolve().parent.parent))
import build

# The folder of a crate with the edits that are tried here, and that with those that the gate tries.
EDITS, TRIED = "edits", "must-fail"


def with_edits():
    """The crates that have such edits, in the order of crates.txt."""
    return [it for it in build.listed() if (build.CRATES / it / EDITS).is_dir()]


def linked(one, other):
    """Links a file, or copies it where the two places are on different disks."""
    try:
        os.link(one, other)
    except OSError:
        shutil.copy(one, other)


def copy(name, there):
    """Copies a crate's sources, with its edits where the toolchain looks for them, and links its library."""
    here = build.CRATES / name
    for part in build.SOURCES:
        if (here / part).is_dir():
            shutil.copytree(here / part, there / part)
    if (here / EDITS).is_dir():
        shutil.copytree(here / EDITS, there / TRIED)
    if (here / "out" / build.LENT).is_dir():
        shutil.copytree(here / "out" / build.LENT, there / "out" / build.LENT, copy_function=linked)


def main(names):
    found = with_edits()
    unknown = [it for it in names if it not in found]
    if unknown:
        print(f"no edits of {' '.join(unknown)}; there are some of {' '.join(found)}", file=sys.stderr)
        return 1
    with tempfile.TemporaryDirectory() as room:
        top = pathlib.Path(room)
        for name in build.listed():
            copy(name, top / "crates" / name)
        for file in ("crates.txt", "HANDLES"):
            shutil.copy(build.ROOT / file, top)
        return 1 if subprocess.run(["rt", TRIED, *(names or found)], cwd=top).returncode else 0


if __name__ == "__main__":
    sys.exit(main(sys.argv[1:]))
