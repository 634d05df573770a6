"""Seconds of a text with eight arms under `branch`, beside those of compiling one of its arms.

    python3 bench/branch.py [--program FILE] [--limit SECONDS] [--runs N] [ROW ..]

The actions of a row of narrations.py are common to eight arms, each of which has one message more.
The role that chooses is told no arm, so `branch` ends when all roles of all arms are compiled, before
the values are read. Beside it stands `compile` of the narration that the common actions and the first
arm are. Seconds are the least of so many runs, as whole processes. The program is crates/anb/out/anb
unless another is named.
"""
import tempfile

from measure import Case, asked_for, best
from narrations import ROWS

ARMS = [f"arm{number}" for number in range(1, 9)]
# a narration has at most 256 actions, and each arm has one of its own
MOST_ACTIONS = 255


def texts(make, size):
    """The text with its arms, and the narration of the first."""
    story = make(size)
    for arm in ARMS:
        story.formats.append(f'{arm} = "{arm}:"')
    stem = story.text()
    arms = "".join(f"Actions:\n  A -> B: {arm}();\n" for arm in ARMS)
    return f"{stem}Choice: A;\n{arms}", f"{stem}  A -> B: {ARMS[0]}();\n"


def main():
    asked = asked_for()
    print(f"{'row':<20}{'size':>8}{'one':>10}{'eight':>10}{'times':>8}{'MB':>8}")
    with tempfile.TemporaryDirectory() as folder:
        for row in asked.rows or ROWS:
            make, role, sizes = ROWS[row]
            for size in (size for size in sizes if len(make(size).actions) <= MOST_ACTIONS):
                branched, straight = texts(make, size)
                one = Case({"bench.anb": straight}, ["compile", "bench.anb", role])
                eight = Case({"bench.anb": branched}, ["branch", "bench.anb", "A", "bench.values"], (27,))
                found = [best(asked.program, folder, case, asked.limit, asked.runs) for case in (one, eight)]
                if None in found:
                    print(f"{row:<20}{size:>8}{'over ' + format(asked.limit, 'g'):>10}", flush=True)
                    break
                (first, _), (all_arms, memory) = found
                print(f"{row:<20}{size:>8}{first:>10.3f}{all_arms:>10.3f}{all_arms / first:>8.1f}{memory:>8.0f}", flush=True)


if __name__ == "__main__":
    main()
