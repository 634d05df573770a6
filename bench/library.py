#!/usr/bin/env python3
"""Times libanb. Standard library, a C compiler and openssl.

    python3 bench/library.py crates/anb/out/anb [<prefix of an installed libanb>]

- An opening, and a whole run of both roles of `mutual` in one process: two openings, three messages, two closings.
- Messages a second through anb_next and anb_arrive: a role that sends 60 messages of 12 bytes to one that takes them.
- Bytes a second of messages of 64 kB that one role seals and the other opens, beside what OpenSSL needs for its HMAC and its
  ChaCha20 on as many bytes, twice each. A shared machine gives figures that vary; the best of five runs is printed.
"""

import pathlib
import re
import subprocess
import sys
import tempfile

ROOT = pathlib.Path(__file__).resolve().parent.parent
CAPI = ROOT / "capi"


def out_of(*words):
    return subprocess.run([*map(str, words)], check=True, capture_output=True, text=True).stdout


def narration(count, message):
    names = ",".join(f"D{i}" for i in range(count))
    actions = "".join(f"  A -> B: {message(i)};\n" for i in range(count))
    return f"Protocol: Bench;\nTypes:\n  Agent A,B;\n  Number {names};\n  Key K;\nKnowledge:\n  A: A,B,K,{names};\n  B: A,B,K;\nActions:\n{actions}"


def made(program, folder, name, count, message, size):
    """Roles and values of a narration in which A sends so many messages of so many bytes."""
    story = folder / f"{name}.anb"
    story.write_text(narration(count, message))
    shared = f'A = "alice"\nB = "bob"\nK = x{"0b" * 32}\n'
    data = "".join(f"D{i} = x{bytes([i]).hex() * size}\n" for i in range(count))
    words = []
    for role, values in (("A", shared + data), ("B", shared)):
        (folder / f"{name}.{role}").write_text(out_of(program, "compile", story, role))
        (folder / f"{name}.{role}.values").write_text(values)
        words += [folder / f"{name}.{role}", folder / f"{name}.{role}.values"]
    return words


def timed(bench, words, rounds):
    best = {}
    for _ in range(5):
        for line in out_of(bench, *words, rounds).splitlines():
            name, value = line.split()
            value = float(value)
            best[name] = max(best.get(name, 0), value) if name.endswith("per_s") else min(best.get(name, value), value)
    return best


def openssl_speed(*words):
    """Bytes a second of OpenSSL on 64 kB."""
    lines = out_of("openssl", "speed", "-seconds", "2", "-bytes", "65536", *words).splitlines()
    return float(re.search(r"([\d.]+)k\s*$", lines[-1]).group(1)) * 1000


def main(program, prefix=None):
    program = pathlib.Path(program).resolve()
    with tempfile.TemporaryDirectory() as name:
        folder = pathlib.Path(name)
        if prefix is None:
            prefix = folder / "prefix"
            subprocess.run([CAPI / "build.sh", "--prefix", prefix], check=True)
        bench = folder / "bench"
        out_of("cc", "-O2", f"-I{prefix}/include", CAPI / "bench/bench.c", f"{prefix}/lib/libanb.a", "-o", bench)

        mutual = ROOT / "examples/mutual"
        words = []
        for role in "AB":
            (folder / role).write_text(out_of(program, "compile", mutual / "mutual.anb", role))
            words += [folder / role, mutual / f"{role}.values"]
        run = timed(bench, words, 2000)
        print(f"mutual: an opening {run['opening_us']:.1f} us, a whole run of both roles {run['run_us']:.1f} us")

        small = timed(bench, made(program, folder, "small", 60, lambda i: f"D{i}", 12), 300)
        print(f"messages of 12 bytes: {small['messages_per_s']:,.0f} a second")

        large = timed(bench, made(program, folder, "large", 7, lambda i: f"scrypt(K,D{i})", 65536), 20)
        ours = large["messages_per_s"] * 65536
        mac, stream = openssl_speed("-hmac", "sha256"), openssl_speed("-evp", "chacha20")
        theirs = 1 / (2 / mac + 2 / stream)
        print(f"sealed and opened, 64 kB: {ours / 1e6:.1f} MB a second; OpenSSL's HMAC and ChaCha20 twice on as much: {theirs / 1e6:.1f} MB a second")


if __name__ == "__main__":
    main(*sys.argv[1:])
