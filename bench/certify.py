"""Seconds, growth and memory of `certify` on codes that are hard for it.

    python3 bench/certify.py [--program FILE] [--limit SECONDS] [--runs N] [ROW ..]

The rows are those of narrations.py: the code that `compile` writes of each is certified. `squared` is a
role file, almost as long as one may be, that squares a term at each line, and compares what it received
with what it knows; `uncompared` is the same without the comparison, and is refused. Seconds are the
least of so many runs, as whole processes. The program is crates/anb/out/anb unless another is named.
"""
import os
import subprocess
import sys
import tempfile

from measure import ROLE_FILE_LIMIT, Case, asked_for, report
from narrations import ROWS

SQUARED = """Protocol: P;
Types:
  Agent A, B;
  Number N;
Formats:
  ok = "OK";
Knowledge:
  A: N;
  B: N;
Actions:
  B -> A: N;
  A -> B: ok();
"""


def compiled(program, folder, make, role, size):
    """A narration and the role file that `compile` writes of it."""
    text = make(size).text()
    with open(os.path.join(folder, "compiled.anb"), "w") as file:
        file.write(text)
    child = subprocess.run([program, "compile", "compiled.anb", role], cwd=folder, capture_output=True, text=True)
    if child.returncode:
        sys.exit(child.stderr)
    return Case({"bench.anb": text, "bench.role": child.stdout}, ["certify", "bench.anb", role, "bench.role"])


def squared(size, compares):
    """A role file that makes so many macs of what it received, each of the one before under itself."""
    head = 'anb-role 2\nprotocol P\nrole A\nsuite sha256\nformat ok "OK"\ncode\nr0 = take N\nr1 = recv\n'
    macs = "".join(f"r{i + 2} = mac r{i + 1} r{i + 1}\n" for i in range(size))
    equal = "equal r0 r1\n" if compares else ""
    role = f"{head}{macs}{equal}r{size + 2} = build ok\nsend r{size + 2}\nend\n"
    if len(role) > ROLE_FILE_LIMIT:
        sys.exit(f"{size} macs don't fit into a role file")
    words = ["certify", "bench.anb", "A", "bench.role"]
    return Case({"bench.anb": SQUARED, "bench.role": role}, words, (0 if compares else 28,))


def cases(program, folder):
    for row, (make, role, sizes) in ROWS.items():
        yield row, sizes, lambda size, make=make, role=role: compiled(program, folder, make, role, size)
    for row, compares in (("squared", True), ("uncompared", False)):
        yield row, [62500, 125000, 250000, 500000], lambda size, compares=compares: squared(size, compares)


def main():
    asked = asked_for()
    with tempfile.TemporaryDirectory() as folder:
        rows = [case for case in cases(asked.program, folder) if not asked.rows or case[0] in asked.rows]
        report(asked.program, folder, rows, asked.limit, asked.runs)


if __name__ == "__main__":
    main()
