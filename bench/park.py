"""Seconds and memory of parking a session with a long record, and of going on from it.

    python3 bench/park.py [--program FILE] [--arrivals N] [--bytes N]

The role takes so many messages of so many bytes, and waits for one more. `play` of the same input is
what the play itself costs; `resume` goes on to the end, and `again` parks the session again; `seals` is
one sealing of as many bytes as the record has, by a role that seals a message of that size or, where
that is longer than an arrival may be, several of them. The program is crates/anb/out/anb unless another
is named. Seconds are the least of three runs; memory is the most that was resident.
"""
import argparse
import os
import struct
import subprocess
import sys
import tempfile
import time

PROGRAM = os.path.join(os.path.dirname(os.path.abspath(__file__)), "..", "crates", "anb", "out", "anb")

# the most bytes of an arrival
ARRIVAL = 262144

# the statuses of a play whose input ends before an arrival, and of a session that is parked
WAITING, PARKED = 11, 29


def frame(message):
    return struct.pack(">I", len(message)) + message


def listening(arrivals):
    """A narration in which B hears so many numbers and one more."""
    numbers = [f"N{i}" for i in range(arrivals + 1)]
    actions = "".join(f"  A -> B: {n};\n" for n in numbers)
    return f"Protocol: P;\nTypes:\n  Agent A, B;\n  Number {', '.join(numbers)};\nActions:\n{actions}"


def sealing(messages):
    """A narration in which A sends a message that it knows, sealed so many times."""
    actions = "".join(f"  A -> B: scrypt(K{i},M);\n" for i in range(messages))
    keys = ", ".join(f"K{i}" for i in range(messages))
    return f"Protocol: S;\nTypes:\n  Agent A, B;\n  Number M;\n  Key {keys};\nKnowledge:\n  A: M, {keys};\nActions:\n{actions}"


def ran(words, source, out, status):
    """The least seconds of three runs that end with this status, and the memory of the last, in bytes."""
    least = None
    for _ in range(3):
        with open(source, "rb") as given, open(out, "wb") as taken:
            begun = time.monotonic()
            child = subprocess.Popen(words, stdin=given, stdout=taken, stderr=subprocess.PIPE)
            _, ended, usage = os.wait4(child.pid, 0)
            spent = time.monotonic() - begun
        child.returncode = os.waitstatus_to_exitcode(ended)
        if child.returncode != status:
            sys.exit(f"{' '.join(words)}: status {child.returncode}, {child.stderr.read().decode().strip()}")
        least = spent if least is None else min(least, spent)
    return least, usage.ru_maxrss * 1024


def main():
    words = argparse.ArgumentParser()
    words.add_argument("--program", default=PROGRAM)
    words.add_argument("--arrivals", type=int, default=250)
    words.add_argument("--bytes", type=int, default=ARRIVAL)
    asked = words.parse_args()
    with tempfile.TemporaryDirectory() as folder:

        def file(name, content):
            path = os.path.join(folder, name)
            with open(path, "wb") as out:
                out.write(content)
            return path

        narration = file("p.anb", listening(asked.arrivals).encode())
        values, key, none = file("b.values", b""), file("key", b"a key"), file("none", b"")
        given = file("input", b"".join(frame(os.urandom(asked.bytes)) for _ in range(asked.arrivals)))
        out, record = os.path.join(folder, "out"), os.path.join(folder, "record")
        anb = [asked.program]
        play, _ = ran(anb + ["play", narration, "B", values], given, out, WAITING)
        park, parked = ran(anb + ["park", narration, "B", values, key], given, out, PARKED)
        with open(out, "rb") as source, open(record, "wb") as to:
            source.read(4)
            to.write(source.read())
        size = os.path.getsize(record)
        last = file("last", frame(b"the last"))
        resume, resumed = ran(anb + ["resume", narration, "B", record, key], last, out, 0)
        again, parked_again = ran(anb + ["resume", narration, "B", record, key], none, out, PARKED)
        pieces = -(-size // ARRIVAL)
        seals = file("s.anb", sealing(pieces).encode())
        keys = "".join(f'K{i} = "{i}"\n' for i in range(pieces))
        known = file("a.values", f"M = x{'00' * ARRIVAL}\n{keys}".encode())
        seal, _ = ran(anb + ["play", seals, "A", known], none, os.devnull, 0)
        print(f"a record of {size:,} bytes, {asked.arrivals} arrivals of {asked.bytes:,}")
        print(f"{'play':<8}{play:>8.3f} s")
        print(f"{'seals':<8}{seal:>8.3f} s of as many bytes")
        print(f"{'park':<8}{park:>8.3f} s, {parked / size:.2f} times the record in memory")
        print(f"{'resume':<8}{resume:>8.3f} s, {resumed / size:.2f} times the record in memory")
        print(f"{'again':<8}{again:>8.3f} s, {parked_again / size:.2f} times the record in memory")


if __name__ == "__main__":
    main()
