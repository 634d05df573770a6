"""Events a second and memory a session of `host`: 1,024 sessions in turn, from a file.

    python3 bench/host.py [--program FILE] [--exchanges N] [--bytes N] [--sessions N] [--write FOLDER]

The role gets a message and answers with its content in another format, so many times. The program
is crates/anb/out/anb unless another is named. Seconds are the least of five runs, less those of a
run without input. The rates of a single session and of `play` come from the means of
many runs. With --write the narration, the values and the inputs are written, and nothing is run.
Memory is read from /proc.
"""
import argparse
import os
import struct
import subprocess
import sys
import tempfile
import time

PROGRAM = os.path.join(os.path.dirname(os.path.abspath(__file__)), "..", "crates", "anb", "out", "anb")

# the status of a play whose input ends before an arrival
WAITING = 11


def narration(exchanges):
    numbers = [f"N{i}" for i in range(exchanges)]
    actions = "".join(f"  A -> B: ask({n});\n  B -> A: answer({n});\n" for n in numbers)
    return (
        f"Protocol: Host;\nTypes:\n  Agent A, B;\n  Number {', '.join(numbers)};\n"
        f'Formats:\n  ask = "Q" len;\n  answer = "R" len;\nActions:\n{actions}'
    )


def leb128(n):
    digits = b""
    while n > 127:
        digits += bytes([n % 128 + 128])
        n //= 128
    return digits + bytes([n])


def ask(size):
    return b"Q" + leb128(size) + b"x" * size


def start(session):
    return struct.pack(">BI", 0, session)


def arrival(session, message):
    return struct.pack(">BII", 1, session, len(message)) + message


def in_turn(sessions, exchanges, message):
    """All sessions are started, and then each gets its next message in turn."""
    rounds = [b"".join(arrival(s, message) for s in sessions)] * exchanges
    return b"".join(start(s) for s in sessions) + b"".join(rounds)


def one_by_one(sessions, exchanges, message):
    """Each session gets all its messages before the next one is started."""
    return b"".join(start(s) + arrival(s, message) * exchanges for s in sessions)


def seconds(words, path, runs, status=0):
    """The seconds of some runs with the file as input, which end with this status."""
    found = []
    for _ in range(runs):
        with open(path, "rb") as source, open(os.devnull, "w") as nothing:
            begun = time.monotonic()
            child = subprocess.run(words, stdin=source, stdout=nothing, stderr=subprocess.PIPE)
            found.append(time.monotonic() - begun)
        if child.returncode != status:
            sys.exit(f"{' '.join(words)}: {child.stderr.decode()}")
    return found


def mean(numbers):
    return sum(numbers) / len(numbers)


def kilobytes(words, source):
    """The most memory that is resident when the input has come and isn't at its end."""
    with open(os.devnull, "w") as nothing:
        child = subprocess.Popen(words, stdin=subprocess.PIPE, stdout=nothing)
        child.stdin.write(source)
        child.stdin.flush()
        time.sleep(1)
        with open(f"/proc/{child.pid}/status") as status:
            [peak] = [line.split()[1] for line in status if line.startswith("VmHWM")]
        child.stdin.close()
        child.wait()
    return int(peak)


def main():
    words = argparse.ArgumentParser()
    words.add_argument("--program", default=PROGRAM)
    words.add_argument("--exchanges", type=int, default=100)
    words.add_argument("--bytes", type=int, default=16)
    words.add_argument("--sessions", type=int, default=1024)
    words.add_argument("--write")
    asked = words.parse_args()
    message = ask(asked.bytes)
    every = range(asked.sessions)
    inputs = {
        "in turn": in_turn(every, asked.exchanges, message),
        "one by one": one_by_one(every, asked.exchanges, message),
        "the first alone": in_turn([0], asked.exchanges, message),
        "the last alone": in_turn([asked.sessions - 1], asked.exchanges, message),
        "none": b"",
    }
    frames = (struct.pack(">I", len(message)) + message) * asked.exchanges
    with tempfile.TemporaryDirectory() as temporary:
        folder = asked.write or temporary

        def file(name, content):
            path = os.path.join(folder, name)
            with open(path, "wb") as out:
                out.write(content)
            return path

        files = [file("host.anb", narration(asked.exchanges).encode()), "B", file("host.values", b"")]
        paths = {row: file(row.replace(" ", "-") + ".input", content) for row, content in inputs.items()}
        played = file("play.input", frames)
        if asked.write:
            return
        host = [asked.program, "host"] + files
        idle = min(seconds(host, paths["none"], 5))
        print(f"{'sessions':<18}{'events':>9}{'seconds':>10}{'events a second':>17}")
        for row in ["in turn", "one by one"]:
            events = asked.sessions * (asked.exchanges + 1)
            spent = min(seconds(host, paths[row], 5)) - idle
            print(f"{row:<18}{events:>9}{spent:>10.3f}{events / spent:>17,.0f}", flush=True)
        for row in ["the first alone", "the last alone"]:
            spent = mean(seconds(host, paths[row], 200)) - mean(seconds(host, paths["none"], 200))
            print(f"{row:<18}{asked.exchanges + 1:>9}{spent:>10.6f}{(asked.exchanges + 1) / spent:>17,.0f}", flush=True)
        play = [asked.program, "play"] + files
        spent = mean(seconds(play, played, 200)) - mean(seconds(play, paths["none"], 200, WAITING))
        print(f"{'play':<18}{asked.exchanges:>9}{spent:>10.6f}{asked.exchanges / spent:>17,.0f}", flush=True)
        most = kilobytes(host, in_turn(every, asked.exchanges - 1, message))
        least = kilobytes(host, in_turn([0], asked.exchanges - 1, message))
        print(f"{most} kB, with one session {least} kB: {(most - least) / max(asked.sessions - 1, 1):.2f} kB a session")


if __name__ == "__main__":
    main()
