#!/usr/bin/env python3
"""Plays and probes programs that others wrote: the folders of examples/real. Standard library alone.

    python3 docs/check_peers.py PROGRAM            all of them; the status is 0 where each that is there does as it stands
    python3 docs/check_peers.py PROGRAM NAME ..    these alone
    python3 docs/check_peers.py PROGRAM --write    writes what came into the files `expected`

A folder has `setup`, a script for sh that is sourced, and `expected`. As root, setup installs the peer by apt-get where it
isn't there. It starts what the commands don't start themselves, and writes a last line, `peer: ..` with what it found;
where the peer can't be had here it fails, and its last line says why. What it starts it ends by a trap; what is left when
the shell ends is killed here.

In `expected` a line `$ ..` is a command for that shell, in a copy of the folder with `anb` on the path, and what follows is
what it writes, errors too. A line `-- ..` is said of the command behind it. One that begins with `-- asked for: `,
`-- harmless: ` or `-- lacks: ` is said of the line before it: what the peer takes is asked for by the standard, or harmless,
or needs a check that the peer lacks. Each `not ok` has such a line.

This is no part of the gate, and takes at most ten minutes.
"""

import contextlib
import difflib
import os
import pathlib
import re
import shutil
import signal
import subprocess
import sys
import tempfile
import time

import check

# Seconds of all peers together.
LIMIT = 600
# How what stands behind a `not ok` begins.
KINDS = ("-- asked for: ", "-- harmless: ", "-- lacks: ")


def is_said(line):
    """Whether a line of `expected` is said by us, and isn't written by a command."""
    return line.startswith("-- ")


def peers(names):
    """The folders of the real peers, or of these."""
    there = [folder for folder in check.charts.folders() if folder.parent == check.charts.REAL]
    if lost := set(names) - {folder.name for folder in there}:
        sys.exit(f"no such peer: {' '.join(sorted(lost))}")
    return [folder for folder in there if not names or folder.name in names]


def ran(folder, commands, seconds):
    """The last line of setup, and what each command writes. One shell runs all of it, and what it leaves is killed."""
    script = "exec 2>&1 < /dev/null\n. ./setup || exit\n" + "".join(f"printf '{check.MARK}'\n{it}\n" for it in commands)
    path = f"{folder.parents[2] / 'bin'}:{os.environ['PATH']}"
    words = {**os.environ, "PATH": path, "LC_ALL": "C.UTF-8", "DEBIAN_FRONTEND": "noninteractive"}
    with tempfile.TemporaryFile() as output:
        shell = subprocess.Popen(["sh", "-c", script], cwd=folder, env=words, stdout=output, start_new_session=True)
        try:
            shell.wait(seconds)
        finally:
            with contextlib.suppress(ProcessLookupError):
                os.killpg(shell.pid, signal.SIGKILL)
            shell.wait()
        output.seek(0)
        setup, *outputs = output.read().decode(errors="replace").split(check.MARK)
    return (setup.strip().splitlines() or ["setup says nothing"])[-1], outputs


def unnumbered(line):
    return re.sub(r"^(not )?ok \d+ - ", r"\1ok - ", line)


def written_anew(lines, found):
    """The lines found, with what is said of each, and at the end what is said of lines that didn't come."""
    before, behind, command, last = {}, {}, 0, ""
    for line in lines:
        if line.startswith(KINDS):
            behind.setdefault((command, last), []).append(line)
        elif is_said(line):
            before.setdefault(command + 1, []).append(line)
        else:
            command, last = command + line.startswith("$ "), unnumbered(line)
    anew, command = [], 0
    for line in found:
        if line.startswith("$ "):
            command += 1
            anew += before.pop(command, [])
        anew += [line, *behind.pop((command, unnumbered(line)), [])]
    return anew + [it for rest in (*before.values(), *behind.values()) for it in rest]


def unexplained(lines):
    """The cases that aren't ok of which no line says what kind they are."""
    case = None
    for line in [*lines, "$ "]:
        if re.match(r"(not )?ok |\$ ", line):
            if case:
                yield f"not explained: {case}"
            case = line if line.startswith("not ok ") else None
        elif line.startswith(KINDS):
            case = None


def check_peer(program, folder, seconds, write):
    """Whether a peer is there, what is said of it, and what is wrong."""
    file = folder / "expected"
    lines = file.read_text().splitlines()
    commands = [line[2:] for line in lines if line.startswith("$ ")]
    place = check.scratch(program)
    try:
        told, outputs = ran(place / "examples" / "real" / folder.name, commands, seconds)
    finally:
        shutil.rmtree(place)
    if not outputs:
        return False, told, []
    found = [line for command, output in zip(commands, outputs) for line in (f"$ {command}", *output.splitlines())]
    if write:
        lines = written_anew(lines, found)
        file.write_text("\n".join(lines) + "\n")
    due = [line for line in lines if not is_said(line)]
    faults = list(difflib.unified_diff(due, found, f"examples/real/{folder.name}/expected", "found", lineterm="", n=1))
    cases = sum(bool(re.match(r"(not )?ok \d+ - ", line)) for line in found)
    bad = sum(line.startswith("not ok ") for line in found)
    return True, f"{told}: {len(commands)} commands, {cases} cases, of which {bad} are not ok", faults + list(unexplained(lines))


def main():
    words = [word for word in sys.argv[1:] if word != "--write"]
    if not words or words[0].startswith("-"):
        sys.exit(__doc__)
    program, start = pathlib.Path(words[0]).resolve(), time.monotonic()
    folders, there, faulty = peers(words[1:]), 0, 0
    for folder in folders:
        left = LIMIT - (time.monotonic() - start)
        try:
            is_there, told, faults = check_peer(program, folder, max(left, 1), "--write" in sys.argv)
        except subprocess.TimeoutExpired:
            is_there, told, faults = True, "takes too long", ["more than ten minutes for all peers"]
        print(f"{folder.name}: {told}", *faults, sep="\n  ", flush=True)
        there, faulty = there + is_there, faulty + bool(faults)
    print(f"checked: {there} of {len(folders)} peers are there, {faulty} with faults, {time.monotonic() - start:.0f} s")
    sys.exit(faulty > 0)


if __name__ == "__main__":
    main()
