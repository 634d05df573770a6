"""Seconds, growth and memory of the program on files that are hard for it.

    python3 bench/measure.py [--program FILE] [--limit SECONDS] [--runs N] [ROW ..]

The rows are those of narrations.py, which are compiled; `explained` and `checked`, where such a narration
is explained or reported on; `refused`, where `check` refuses a text at its end; and role files that are
run, `takes` with a value for each of its takes, `most_takes` up to the size that a role file may have,
with as many values as fit into theirs. The program is crates/anb/out/anb unless another is named. A size
that takes longer than the limit is cut off, and the larger ones of its row are left out. With several
runs of each size the least time and the most memory stand; more than a few tell what the program takes,
and not what else the machine does.
"""
import argparse
import os
import subprocess
import sys
import tempfile
import time

from narrations import ROWS, name

PROGRAM = os.path.join(os.path.dirname(os.path.abspath(__file__)), "..", "crates", "anb", "out", "anb")


ROLE_FILE_LIMIT, VALUES_LIMIT = 16_777_216, 1_048_576


class Case:
    """Files, the words of a run on them, and the statuses that it may end with."""

    def __init__(self, files, words, statuses=(0,)):
        self.files, self.words, self.statuses = files, words, statuses


def narration_case(command, row, size):
    make, role, _ = ROWS[row]
    return Case({"bench.anb": make(size).text()}, [command, "bench.anb", role])


def checked_case(text, statuses):
    return Case({"bench.anb": text}, ["check", "bench.anb"], statuses)


def takes_case(size, statuses):
    """A role file of so many takes, and values for as many of them as fit."""
    names = [name("x", k) for k in range(size)]
    code = "".join(f"r{k} = take {title}\n" for k, title in enumerate(names))
    role = f"anb-role 2\nprotocol Bench\nrole A\nsuite sha256\ncode\n{code}end\n"
    if len(role) > ROLE_FILE_LIMIT:
        sys.exit(f"{size} takes don't fit into a role file")
    values = "".join(f"{title}=x\n" for title in names)[:VALUES_LIMIT]
    values = values[: values.rfind("\n") + 1]
    return Case({"bench.role": role, "bench.values": values}, ["enact", "bench.role", "bench.values"], statuses)


# each row's case, and its sizes, which double up to the largest within the limits
CASES = {
    **{row: (lambda size, row=row: narration_case("compile", row, size), ROWS[row][2]) for row in ROWS},
    "checked": (lambda size: checked_case(ROWS["format_trees"][0](size).text(), (0,)), ROWS["format_trees"][2]),
    "refused": (lambda size: checked_case(ROWS["declared_names"][0](size).text() + ";", (4,)), ROWS["declared_names"][2]),
    "explained": (lambda size: narration_case("explain", "format_trees", size), ROWS["format_trees"][2]),
    "takes": (lambda size: takes_case(size, (0,)), [17500, 35000, 70000, 140000]),
    "most_takes": (lambda size: takes_case(size, (0, 7)), [95000, 190000, 380000, 760000]),
}


def run(program, folder, case, limit):
    """The seconds and megabytes of one run, or None where it was cut off."""
    for title, text in case.files.items():
        with open(os.path.join(folder, title), "w") as file:
            file.write(text)
    start = time.monotonic()
    with open(os.devnull, "w") as nothing:
        child = subprocess.Popen([program, *case.words], cwd=folder, stdout=nothing, stderr=subprocess.PIPE)
        while True:
            pid, status, usage = os.wait4(child.pid, os.WNOHANG)
            if pid:
                break
            if time.monotonic() - start > limit:
                child.kill()
                os.wait4(child.pid, 0)
                return None
            time.sleep(0.001)
    seconds = time.monotonic() - start
    if os.waitstatus_to_exitcode(status) not in case.statuses:
        sys.exit(f"{' '.join(case.words)}: {child.stderr.read().decode()}")
    return seconds, usage.ru_maxrss / 1024


def best(program, folder, case, limit, runs):
    """The least seconds and the most megabytes of so many runs, or None where one was cut off."""
    found = [run(program, folder, case, limit) for _ in range(runs)]
    if None in found:
        return None
    return min(seconds for seconds, _ in found), max(memory for _, memory in found)


def report(program, folder, rows, limit, runs):
    """Prints a line for each size of the rows, which are names, sizes, and what makes a case of a size."""
    print(f"{'row':<20}{'size':>8}{'seconds':>10}{'growth':>8}{'MB':>8}")
    for row, sizes, make in rows:
        before = None
        for size in sizes:
            found = best(program, folder, make(size), limit, runs)
            if found is None:
                print(f"{row:<20}{size:>8}{'over ' + format(limit, 'g'):>10}", flush=True)
                break
            seconds, memory = found
            growth = f"{seconds / before:.1f}" if before else ""
            print(f"{row:<20}{size:>8}{seconds:>10.3f}{growth:>8}{memory:>8.0f}", flush=True)
            before = seconds


def asked_for(limit=60):
    """What the words ask for: the program, a limit in seconds, how many runs, and rows."""
    words = argparse.ArgumentParser()
    words.add_argument("--program", default=PROGRAM)
    words.add_argument("--limit", type=float, default=limit)
    words.add_argument("--runs", type=int, default=1)
    words.add_argument("rows", nargs="*")
    asked = words.parse_args()
    asked.program = os.path.abspath(asked.program)
    return asked


def main():
    asked = asked_for()
    rows = [(row, CASES[row][1], CASES[row][0]) for row in asked.rows or CASES]
    with tempfile.TemporaryDirectory() as folder:
        report(asked.program, folder, rows, asked.limit, asked.runs)


if __name__ == "__main__":
    main()
