#!/usr/bin/env python3
"""What `probe` says of right programs, of programs that lack a check, and of programs that play no role at all.

    python3 bench/probe.py PROGRAM [--all] [--timeout SECONDS] [FOLDER ..]

For each role of each example, or of these folders of examples, the program is tested as

- the role file that `compile` writes, played by `enact`, and the role itself, by `play`: all must be ok;
- the role file less one `equal` behind the first arrival; and with the one value used for the other in what follows;
- the role file in Python, by bench/lax_role.py, that compares first bytes alone, or values as far as both go; that
  compares no tags, or reads formats by their lengths alone.

A mutant is told where the status is 36. One that isn't has a reason: `certify` says that it is the same program, or a
line `# not tried` says what has no case; who compares a part of a hash of what comes takes what has that part, which is
hard to find; and for mutants in Python, nothing of the kind is tried. Otherwise it is listed. Below stand programs that
refuse everything, say nothing, hang, are killed or aren't there. The status is 0 where all is as it should be. Standard
library alone. What becomes of children is tried by bench/edge.py.
"""
import argparse
import collections
import concurrent.futures
import os
import pathlib
import re
import subprocess
import sys
import tempfile
import time

ROOT = pathlib.Path(__file__).resolve().parent.parent
LAX = ROOT / "bench" / "lax_role.py"
PEER = ROOT / "examples" / "peer"
MUTUAL = ROOT / "examples" / "mutual"

Report = collections.namedtuple("Report", "status cases ok skipped missing untried text")

# What a title has that only a program of this kind takes.
ROWS = {
    "front": r"with its last byte changed",
    "came": r"without its last byte",
    "tags": r"with another tag",
    "formats": r"with another byte in|isn't minimal|beyond the end|after its end",
}

LESS, OTHER = "less an equal", "the other value used"

NAMES = {
    "front": "first bytes compared",
    "came": "compared as far as it goes",
    "tags": "tags ignored",
    "formats": "formats ignored",
}


class Bench:
    def __init__(self, asked, folder):
        self.program, self.folder = str(pathlib.Path(asked.program).resolve()), pathlib.Path(folder)
        self.words = ["--all"] * asked.all + ["--timeout", str(asked.timeout)]

    def run(self, *words):
        done = subprocess.run([self.program, *map(str, words)], stdin=subprocess.DEVNULL, capture_output=True, timeout=3600)
        return done.returncode, done.stdout.decode()

    def probe(self, narration, role, values, *program):
        status, text = self.run("probe", narration, role, values, *self.words, "--", *program)
        return read_report(status, text)

    def file(self, name, text):
        path = self.folder / name
        path.write_text(text)
        return path


def read_report(status, text):
    """What a report says. Its cases are numbered, and the counts are those of its lines."""
    lines = [re.match(r"(not )?ok (\d+) - (.*)", line) for line in text.splitlines()]
    lines = [line for line in lines if line]
    planned = re.search(r"^1\.\.(\d+)$", text, re.M)
    if status in (0, 36) and (not planned or [int(line[2]) for line in lines] != list(range(1, int(planned[1]) + 1))):
        raise ValueError(f"not a report: {text[:500]}")
    skipped = sum("# SKIP" in line[3] for line in lines)
    good = sum(not line[1] for line in lines) - skipped
    said = re.search(r"^# (\d+) of (\d+) ok(?:, (\d+) skipped)?$", text, re.M)
    if status in (0, 36) and (not said or (int(said[1]), int(said[2]), int(said[3] or 0)) != (good, len(lines), skipped)):
        raise ValueError(f"the last line counts otherwise: {text[-500:]}")
    return Report(status, len(lines), good, skipped, re.findall(r"^# missing: .*", text, re.M), re.findall(r"^# not tried: .*", text, re.M), text)


# Mutants.


def checks_of(code):
    """The lines of a role file that are an `equal` behind the first arrival."""
    lines = code.splitlines()
    first = next((at for at, line in enumerate(lines) if line.endswith(" = recv")), len(lines))
    return [at for at, line in enumerate(lines) if at > first and line.startswith("equal ")]


def without(code, at):
    lines = code.splitlines()
    return "\n".join(lines[:at] + lines[at + 1 :]) + "\n"


def with_other(code, at, gone, used):
    """The code less a check, where what follows uses the one register for the other."""
    lines = code.splitlines()
    after = [re.sub(rf"\b{gone}\b", used, line) for line in lines[at + 1 :]]
    return "\n".join(lines[:at] + after) + "\n"


def mutants_of(code):
    """Each mutant as its kind and its role file."""
    for at in checks_of(code):
        one, other = code.splitlines()[at].split()[1:]
        less = without(code, at)
        yield LESS, less
        for gone, used in ((one, other), (other, one)):
            mutant = with_other(code, at, gone, used)
            if mutant != less:
                yield OTHER, mutant


def compares_hashes(code):
    """Whether each check compares a hash, or a mac, of what came."""
    came, hashed = set(), set()
    for line in code.splitlines():
        written, _, did = line.rpartition(" = ")
        did, *read = did.split() or [""]
        if written and (did == "recv" or came.intersection(read)):
            came.update(written.split())
            if did in ("hash", "mac"):
                hashed.update(written.split())
    lines = code.splitlines()
    return all(hashed.intersection(lines[at].split()) for at in checks_of(code))


def kinds_in(code):
    """The kinds of checks in Python that a role's code has."""
    behind = code.partition(" = recv\n")[2]
    if checks_of(code):
        yield from ("front", "came")
    if re.search(r" = (unseal|unwrap) ", behind):
        yield "tags"
    if re.search(r"(^| = )parse ", behind, re.M):
        yield "formats"


# One role.


def roles_of(bench, narration):
    """The roles of a narration, by what `check` writes."""
    return re.findall(r"^role (\w+):", bench.run("check", narration)[1], re.M)


def check_role(bench, folder, role):
    """The rows of a role: its kind, the cases of the right program, and what became of the mutant."""
    narration, values = folder / f"{folder.name}.anb", folder / "all.values"
    own = re.sub(r"(?m)^@seed.*\n", "", (folder / f"{role}.values").read_text())
    name = f"{folder.name}.{role}"
    own = bench.file(f"{name}.values", own)
    code = bench.run("compile", narration, role)[1]
    right = bench.probe(narration, role, values, bench.program, "enact", bench.file(f"{name}.role", code), own)
    played = bench.probe(narration, role, values, bench.program, "play", narration, role, own)
    for kind, found in (("right", right), ("played", played)):
        good = found.status == 0 and found.ok == found.cases
        yield kind, found.cases, "ok" if good else "NOT OK", f"{name}: status {found.status}\n{found.text}"
    for number, (kind, mutant) in enumerate(mutants_of(code)):
        file = bench.file(f"{name}.{number}.role", mutant)
        found = bench.probe(narration, role, values, bench.program, "enact", file, own)
        outcome = verdict_on(bench, narration, role, file, found)
        yield kind, found.cases, outcome, f"{file.name}: {mutant}\n{found.text}"
    for lax in kinds_in(code):
        file = bench.folder / f"{name}.role"
        found = bench.probe(narration, role, values, sys.executable, LAX, lax, file, own)
        untried = not re.search(ROWS[lax], right.text)
        outcome = "told" if found.status == 36 else "no case" if untried else "NOT TOLD"
        if outcome == "NOT TOLD" and lax in ("front", "came") and found.status == 0 and compares_hashes(code):
            outcome = "a hash of it"
        yield NAMES[lax], found.cases, outcome, f"{name} in Python, {NAMES[lax]}: status {found.status}\n{found.text}"


def verdict_on(bench, narration, role, file, found):
    if found.status == 36:
        return "told"
    if bench.run("certify", narration, role, file)[0] == 0:
        return "the same program"
    return "not tried" if found.status == 0 and found.untried else "NOT TOLD"


def rows_of(bench, folder, role):
    try:
        return list(check_role(bench, folder, role))
    except (ValueError, OSError, subprocess.TimeoutExpired) as fault:
        return [("right", 0, "NOT OK", f"{folder.name} {role}: {fault}")]


# Programs that play no role.


def is_passed(report):
    """Whether a line says something for the program."""
    return report.ok > 0


def programs():
    """A name, the words of a program, the status of the test, and what stands in its report."""
    peer, wrong = str(PEER / "responder.py"), str(PEER / "wrong_responder.py")
    yield "right", [sys.executable, peer, "-"], 0, "ok 1 - all as narrated"
    yield "lax", [sys.executable, wrong, "lax", "-"], 36, "# too lax: it ended with 0, where it must stop at event 3"
    yield "swapped", [sys.executable, wrong, "swapped", "-"], 36, "# wrong: its message of event 2 isn't scrypt(K,response(B,NA,NB))"
    yield "true", ["true"], 36, "# too strict: no message of event 2 came, it ended with 0"
    yield "false", ["false"], 36, "# too strict: no message of event 2 came, it ended with 1"
    yield "says nothing", ["sh", "-c", "exec cat > /dev/null"], 36, "# too strict: no message of event 2 came, it ended with 0"
    yield "says nothing and hears on", ["sh", "-c", "cat > /dev/null; exit 0"], 36, "# silent for too long"
    yield "cat", ["cat"], 36, "# wrong: its message of event 2 isn't scrypt(K,response(B,NA,NB))"
    yield "hangs", ["sleep", "100"], 36, "# silent for too long"
    yield "hangs and has closed its output", ["sh", "-c", "exec > /dev/null; exec sleep 100"], 36, "# silent for too long"
    yield "killed", ["sh", "-c", "kill -9 $$"], 36, "# ended by signal 9"
    yield "not there", ["/no/such/program"], 31, ""
    yield "no program", [str(PEER / "anbwire.py") + "/"], 31, ""


# Those that play the role, and refuse at least what isn't a message.
PLAYERS = ("right", "lax", "swapped")


def check_programs(bench):
    faults = 0
    for name, words, status, line in programs():
        limit = "1" if "silent" in line else "20"
        found = subprocess.run([bench.program, "probe", MUTUAL / "mutual.anb", "B", MUTUAL / "all.values", "--timeout", limit, "--", *words],
                               stdin=subprocess.DEVNULL, capture_output=True, timeout=600)
        report = read_report(found.returncode, found.stdout.decode())
        as_due = report.status == status and (not line or line in report.text) and (name in PLAYERS or not is_passed(report))
        faults += not as_due
        print(f"{name}: status {report.status}, {report.ok} of {report.cases} ok, {report.skipped} skipped{'' if as_due else '  NOT AS DUE'}")
    return faults


def folders_of(names):
    folders = [pathlib.Path(name).resolve() for name in names] or sorted(path.parent for path in (ROOT / "examples").rglob("all.values"))
    return [folder for folder in folders if (folder / f"{folder.name}.anb").exists()]


def print_table(rows, roles, seconds):
    """What became of all: a row a kind."""
    outcomes = ["told", "the same program", "a hash of it", "not tried", "no case", "NOT TOLD"]
    right = [row for row in rows if row[0] == "right"]
    cases = [row[1] for row in right]
    print(f"{roles} roles, {sum(cases)} cases, {max(cases, default=0)} of one role at most, {seconds:.0f} s")
    for kind, name in (("right", "right role files"), ("played", "roles that `play` plays")):
        all_ok = [row[2] == "ok" for row in rows if row[0] == kind]
        print(f"{name} that are all ok: {sum(all_ok)} of {len(all_ok)}")
    print(f"{'mutants':27} {'all':>6} " + " ".join(f"{it:>17}" for it in outcomes))
    for kind in dict.fromkeys(row[0] for row in rows if row[0] not in ("right", "played")):
        found = collections.Counter(row[2] for row in rows if row[0] == kind)
        print(f"{kind:27} {sum(found.values()):6} " + " ".join(f"{found[it]:17}" for it in outcomes))


def main():
    reader = argparse.ArgumentParser(usage=__doc__)
    reader.add_argument("program")
    reader.add_argument("--all", action="store_true")
    reader.add_argument("--timeout", type=int, default=60)
    reader.add_argument("folders", nargs="*")
    asked = reader.parse_args()
    start = time.monotonic()
    with tempfile.TemporaryDirectory() as scratch:
        bench = Bench(asked, scratch)
        jobs = [(folder, role) for folder in folders_of(asked.folders) for role in roles_of(bench, folder / f"{folder.name}.anb")]
        with concurrent.futures.ThreadPoolExecutor(os.cpu_count()) as pool:
            found = list(pool.map(lambda job: rows_of(bench, *job), jobs))
        rows = [row for rows in found for row in rows]
        for kind, _, outcome, text in rows:
            if outcome.startswith("NOT"):
                print(f"{outcome}, {kind}: {text}\n")
        print_table(rows, len(jobs), time.monotonic() - start)
        faults = sum(row[2].startswith("NOT") for row in rows) + check_programs(bench)
    print(f"{faults} faults")
    sys.exit(faults > 0)


if __name__ == "__main__":
    main()
