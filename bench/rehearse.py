"""Seconds of rehearsals and drills.

    python3 bench/rehearse.py [--program FILE] [--turns N]

32 roles hand 256 messages round, by a schedule of many turns of which all but two for each action are
passed over, in front of the others, between them, or behind them. The program is crates/anb/out/anb
unless another is named. Seconds are the least of five runs, as whole processes.
"""
import argparse
import os
import string
import subprocess
import sys
import tempfile
import time

PROGRAM = os.path.join(os.path.dirname(os.path.abspath(__file__)), "..", "crates", "anb", "out", "anb")
ROLES = string.ascii_uppercase + string.ascii_lowercase[:6]
ACTIONS = 256


def narration():
    numbers = [f"N{i}" for i in range(ACTIONS)]
    actions = "".join(f"  {sender(i)} -> {receiver(i)}: hop({n});\n" for i, n in enumerate(numbers))
    return (
        f"Protocol: Round;\nTypes:\n  Agent {', '.join(ROLES)};\n  Number {', '.join(numbers)};\n"
        f'Formats:\n  hop = "H" len;\nActions:\n{actions}'
    )


def sender(action):
    return ROLES[action % len(ROLES)]


def receiver(action):
    return ROLES[(action + 1) % len(ROLES)]


def schedules(turns):
    """All schedules have so many turns; the role of a turn that is passed over waits for its sender."""
    taken = [role for i in range(ACTIONS) for role in (sender(i), receiver(i))]
    spare = turns - len(taken)
    late = ROLES[-1]
    between = []
    for i in range(ACTIONS):
        # the role after the receiver has nothing to do before the receiver has sent
        between += [ROLES[(i + 2) % len(ROLES)]] * (spare // ACTIONS) + [sender(i), receiver(i)]
    between += [late] * (turns - len(between))
    return {"in front": [late] * spare + taken, "between": between, "behind": taken + [late] * spare, "none": taken}


def least(words, status=0):
    found = []
    for _ in range(5):
        begun = time.monotonic()
        child = subprocess.run(words, stdin=subprocess.DEVNULL, stdout=subprocess.PIPE, stderr=subprocess.PIPE)
        found.append(time.monotonic() - begun)
        if child.returncode != status:
            sys.exit(f"{' '.join(words)}: {child.stderr.decode()}")
    return min(found), child.stdout.decode().splitlines()[-1]


def main():
    words = argparse.ArgumentParser()
    words.add_argument("--program", default=PROGRAM)
    words.add_argument("--turns", type=int, default=500_000)
    asked = words.parse_args()
    for exchanges in [1, 100, 200]:
        spent, last = least([asked.program, "drill", str(exchanges)])
        print(f"{spent:.4f} s  {last}")
    with tempfile.TemporaryDirectory() as folder:

        def file(name, content):
            path = os.path.join(folder, name)
            with open(path, "w") as out:
                out.write(content)
            return path

        text, values = file("round.anb", narration()), file("all.values", "@seed = x" + "00" * 32 + "\n")
        for where, turns in schedules(asked.turns).items():
            spent, last = least([asked.program, "rehearse", text, values, file("schedule", " ".join(turns))])
            print(f"{spent:.4f} s  passed over {where}: {last}")


if __name__ == "__main__":
    main()
