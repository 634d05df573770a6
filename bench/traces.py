"""Seconds, growth and memory of `trace`, `replay` and `check` on records of hard narrations.

    python3 bench/traces.py [--program FILE] [--limit SECONDS] [--runs N] [ROW ..]

The rows are some of narrations.py. Both roles are played against each other with values that `values` writes and
`--record`, and what the row's role said and heard is traced and replayed. Beside these stands `check` of the narration,
whose report says what each role takes, what comes of a recording, and what somebody without a key can send.
"""
import os
import subprocess
import tempfile

from measure import Case, asked_for, report
from narrations import ROWS

COMMANDS = ("trace", "replay", "check")
# Those whose length is in their messages: the values of the others' knowledge don't fit into a file.
LONG = ("format_trees", "nested_seals", "sent_back", "late_keys", "mac_trees", "same_trees")


def written(program, folder, words, name):
    """Writes what the program says to a file of this name."""
    with open(os.path.join(folder, name), "wb") as file:
        subprocess.run([program, *words], cwd=folder, stdout=file, check=True)


def play(program, folder, role, source, sink):
    """Plays a role between two pipes, with a record in the folder of its name."""
    words = [program, "play", "bench.anb", role, f"{role}.values", "--record", role]
    child = subprocess.Popen(words, cwd=folder, stdin=source, stdout=sink)
    os.close(source)
    os.close(sink)
    return child


def record(program, text, role):
    """The files of a play of the narration: its text, and the role's values and transcript."""
    with tempfile.TemporaryDirectory() as folder:
        with open(os.path.join(folder, "bench.anb"), "w") as file:
            file.write(text)
        written(program, folder, ["values", "bench.anb"], "all.values")
        for name in "AB":
            written(program, folder, ["values", "bench.anb", name, "all.values"], f"{name}.values")
        (from_a, to_b), (from_b, to_a) = os.pipe(), os.pipe()
        children = [play(program, folder, "A", from_b, to_b), play(program, folder, "B", from_a, to_a)]
        if any(child.wait() for child in children):
            raise SystemExit("a role wasn't played to its end")
        files = {"bench.anb": text}
        for name in ("values", "transcript"):
            with open(os.path.join(folder, role, name)) as file:
                files[name] = file.read()
        return files


def case(program, command, row, size):
    make, role, _ = ROWS[row]
    if command == "check":
        return Case({"bench.anb": make(size).text()}, ["check", "bench.anb"])
    files = record(program, make(size).text(), role)
    return Case(files, [command, "bench.anb", role, "values", "transcript"])


def main():
    asked = asked_for()
    rows = [
        (f"{command} {row}", ROWS[row][2], lambda size, command=command, row=row: case(asked.program, command, row, size))
        for row in asked.rows or LONG
        for command in COMMANDS
    ]
    with tempfile.TemporaryDirectory() as folder:
        report(asked.program, folder, rows, asked.limit, asked.runs)


if __name__ == "__main__":
    main()
