#!/usr/bin/env python3
"""Proves and builds the program, several crates side by side.

    python3 build.py [--jobs N] [--write]

Builds what the crate anb stands on by crates.txt, and no crate of tests, cases or examples: as many crates side by
side as there are processors and memory, the longest chain of crates first. Each is proved from nothing in a folder of
its own below .lanes/, over the libraries below it as they were built, since a check holds the crates below it. A library
is built as the gate builds it, with its statements and without its proofs (out/statements), so a check above reads a
small part of it. Crates that were proved are kept, so an interrupted build goes on with those that are left. Where a
crate fails, the build goes on with all that doesn't stand on it, and what was said of each that failed is shown at the
end. The program is replaced only by one that was built. What a crate was made from is told by contents, and not by times.

At the end the libraries are lent to `rt check` (out/rlib), so whoever changes a crate begins to check it at once.

Progress stands on standard error: the minutes gone, and those left by the times that bench/minutes.tsv has. With --write
what the crates took this time stands there after. The status is 0 where the program was built, else 125, and what failed
is shown.
"""

import fcntl
import hashlib
import importlib.machinery
import importlib.util
import os
import pathlib
import re
import shutil
import signal
import subprocess
import sys
import time

ROOT = pathlib.Path(__file__).resolve().parent
CRATES = ROOT / "crates"
LANES = ROOT / ".lanes"
MINUTES = ROOT / "bench" / "minutes.tsv"
PROGRAM = "anb"
# What a check of one crate takes of memory, in kilobytes.
ROOM = 3_500_000
# The least seconds between two lines of progress, at a terminal and elsewhere.
EACH = {True: 1, False: 30}
# The folders of a crate that it is made from.
SOURCES = ("src", "specs", "proofs")
# The folder in out/ that a library is kept in, and the one where `rt` looks for it.
KEPT, LENT = "statements", "rlib"
# The most processors that one check makes use of.
JOBS = 4


def listed():
    """The crates of this repository that each crate stands on, in the order of crates.txt."""
    lines = re.findall(r"^(\w+)(?: staticlib)?:(.*)", (ROOT / "crates.txt").read_text(), re.M)
    names = {name for name, _ in lines}
    return {name: [it for it in below.split() if it in names] for name, below in lines}


def standing_on(crates, name):
    """The crates below this one, lowest first, and then itself."""
    found = []

    def visit(it):
        if it not in found:
            for below in crates[it]:
                visit(below)
            found.append(it)

    visit(name)
    return found


def minutes_of(crates):
    """The minutes of one processor that proving each crate took, where they were measured, else two."""
    measured = {row[0]: float(row[1] or 0) for row in rows_of(MINUTES)}
    return {name: measured.get(name, 2.0) for name in crates}


def rows_of(file):
    """The rows of a table that is separated by tabs, without its head."""
    return [it.split("\t") for it in file.read_text().splitlines()[1:]]


def write_minutes(seconds):
    """Puts what the proofs of these crates took of one processor into their rows."""
    head = MINUTES.read_text().splitlines()[0]
    rows = {row[0]: row for row in rows_of(MINUTES)}
    for name, used in seconds.items():
        row = rows.setdefault(name, [name, "", "", "", "0"])
        row[1] = f"{used / 60:.1f}"
    MINUTES.write_text("\n".join([head, *("\t".join(it) for it in rows.values())]) + "\n")


def chains(crates, order, minutes):
    """The minutes of the longest chain of crates that begins with each and goes up."""
    longest = {}
    for name in reversed(order):
        above = [longest[it] for it in order if name in crates[it]]
        longest[name] = minutes[name] + max(above, default=0)
    return longest


def contents(crates, name, known):
    """A sum over all that the crate is made from, also below it."""
    if name not in known:
        found = hashlib.sha256()
        for part in SOURCES:
            for file in sorted((CRATES / name / part).rglob("*")):
                if file.suffix in (".rt", ".antt"):
                    found.update(f"{file.relative_to(CRATES)}\0".encode() + file.read_bytes() + b"\0")
        for below in crates[name]:
            found.update(contents(crates, below, known).encode())
        known[name] = found.hexdigest()
    return known[name]


def move(one, other):
    """Moves what stands at one place to the other, in the place of what is there."""
    if one.exists():
        shutil.rmtree(other, ignore_errors=True)
        other.parent.mkdir(parents=True, exist_ok=True)
        shutil.move(one, other)


class Lane:
    """A folder in which one crate is proved, with the sources of all that it stands on."""

    def __init__(self, crates, name, jobs):
        self.name, self.begun = name, time.time()
        self.top = LANES / name
        self.folder = self.top / "crates" / name
        shutil.rmtree(self.top, ignore_errors=True)
        below = standing_on(crates, name)
        for it in below:
            self.fill(it)
        lines = (ROOT / "crates.txt").read_text().splitlines()
        wanted = [it for it in lines if re.split(r"[ :]", it)[0] in below]
        (self.top / "crates.txt").write_text("\n".join(wanted) + "\n")
        if (ROOT / "HANDLES").exists():
            shutil.copy(ROOT / "HANDLES", self.top)
        words = [sys.executable, ROOT / "build.py", "--crate", name, "--jobs", str(jobs)]
        with open(self.top / "log", "w") as log:
            self.process = subprocess.Popen(
                words, cwd=self.folder, stdin=subprocess.DEVNULL, stdout=log, stderr=log, start_new_session=True
            )

    def fill(self, name):
        """Copies a crate's sources, and links the library that was built of a crate below."""
        here, there = CRATES / name, self.top / "crates" / name
        there.mkdir(parents=True)
        for part in SOURCES:
            if (here / part).is_dir():
                shutil.copytree(here / part, there / part)
        if name != self.name:
            shutil.copytree(here / "out" / KEPT, there / "out" / LENT, copy_function=os.link)

    def has_ended(self):
        """Whether the check has ended; then what it took of one processor is noted, in seconds."""
        ended, status, used = os.wait4(self.process.pid, os.WNOHANG)
        if ended:
            self.process.returncode = os.waitstatus_to_exitcode(status)
            self.seconds = used.ru_utime + used.ru_stime
        return ended != 0

    def end(self):
        """Ends the check with all that it started."""
        for number in (signal.SIGTERM, signal.SIGKILL):
            try:
                os.killpg(self.process.pid, number)
                self.process.wait(5)
            except (ProcessLookupError, subprocess.TimeoutExpired):
                continue

    def close(self, made):
        """Keeps what was proved, and the program; gives whether the crate was built, and what was said."""
        out, program = CRATES / self.name / "out", self.folder / "out" / PROGRAM
        said = (self.top / "log").read_text(errors="replace")
        is_program = self.name == PROGRAM
        is_well = self.process.returncode == 0 and (program.is_file() or not is_program)
        if is_well:
            move(self.folder / "out" / LENT, out / KEPT)
            if is_program:
                out.mkdir(parents=True, exist_ok=True)
                os.replace(program, out / PROGRAM)
            made_file(self.name).write_text(made)
        shutil.rmtree(self.top, ignore_errors=True)
        return is_well, said


def made_file(name):
    """Where it stands what a library or the program was made from."""
    out = CRATES / name / "out"
    return out / "made" if name == PROGRAM else out / KEPT / "made"


def lend(names):
    """Puts these crates' libraries where `rt check` looks for them, with the sum by which it knows them."""
    rt = toolchain()
    # So each crate's sources are read once.
    rt.STAMPS.seen = {}
    for crate in rt.rtlib.crates_below(str(ROOT)):
        if crate.name not in names or not crate.makes_rlib() or crate.is_built():
            continue
        there = CRATES / crate.name / "out" / LENT
        shutil.rmtree(there, ignore_errors=True)
        shutil.copytree(CRATES / crate.name / "out" / KEPT, there, copy_function=os.link)
        (there / "made").unlink()
        (there / "stamp").write_text(crate.stamp())


def toolchain():
    """The program rt as a module, without its verbs being run."""
    path = os.path.realpath(shutil.which("rt"))
    loader = importlib.machinery.SourceFileLoader("rt_main", path)
    module = importlib.util.module_from_spec(importlib.util.spec_from_loader("rt_main", loader))
    sys.modules["rt_main"] = module
    loader.exec_module(module)
    return module


def prove(name, jobs):
    """Proves the crate in this folder from nothing, and builds its library or the program; gives the status."""
    rt = toolchain()
    rt.rtlib.guarded()
    rt.rtlib.Crate = rt.Crate
    top = os.path.dirname(os.path.dirname(os.getcwd()))
    rt.Crate.allowed = rt.handles_of(top)
    crate = next(it for it in rt.rtlib.crates_below(top) if it.name == name)
    words = crate.words(["--jobs", str(jobs)])
    if not crate.is_program:
        os.makedirs(os.path.dirname(crate.rlib))
        return crate.call(rt.rtlib.RATTLE, "build", *words, "--statements", "-o", crate.rlib)
    os.makedirs(f"{crate.folder}/out")
    words += ["--toolchain", f"{rt.rtlib.KIT}/toolchain", "--backend", "llvm"]
    made = crate.call(rt.rtlib.RATTLE, "build", *words, "-o", f"out/{name}.o")
    return made or crate.link(f"out/{name}.o", f"out/{name}")


class Build:
    """The crates that are to be built, and how far that is."""

    def __init__(self, jobs):
        self.crates, self.jobs, self.known = listed(), jobs, {}
        self.order = standing_on(self.crates, PROGRAM)
        self.minutes = minutes_of(self.crates)
        self.chain = chains(self.crates, self.order, self.minutes)
        for top in LANES.glob("*/"):
            shutil.rmtree(top, ignore_errors=True)
        self.left = [it for it in self.order if not self.is_made(it)]
        self.running, self.failed, self.seconds = {}, {}, {}
        self.begun, self.done, self.told = time.time(), 0.0, 0.0
        self.is_terminal = sys.stderr.isatty()

    def is_made(self, name):
        made = made_file(name)
        is_there = name != PROGRAM or (CRATES / name / "out" / PROGRAM).is_file()
        return is_there and made.is_file() and made.read_text() == contents(self.crates, name, self.known)

    def ready(self):
        """The crates that can be begun, the longest chain first."""
        waiting = {*self.left, *self.running, *self.failed}
        found = [it for it in self.left if not waiting & {*self.crates[it]}]
        return sorted(found, key=lambda it: -self.chain[it])

    def begin(self):
        """Begins what can be begun; processors that no crate waits for help those that are."""
        ready = self.ready()
        while ready and len(self.running) < self.jobs and (not self.running or has_room()):
            name = ready.pop(0)
            idle = self.jobs - len(self.running)
            self.left.remove(name)
            self.running[name] = Lane(self.crates, name, max(1, min(JOBS, idle // (len(ready) + 1))))

    def close_ended(self):
        """Closes what has ended. Nothing that stands on a crate that failed is begun."""
        for name, lane in [*self.running.items()]:
            if lane.has_ended():
                del self.running[name]
                self.done += self.minutes[name]
                self.seconds[name] = lane.seconds
                is_well, said = lane.close(contents(self.crates, name, self.known))
                if not is_well:
                    print(f"\nanb: {name} couldn't be built", file=sys.stderr, flush=True)
                    self.failed[name] = said
                    self.left = [it for it in self.left if name not in standing_on(self.crates, it)]

    def minutes_left(self):
        """The minutes left by the table, at the speed of what is done so far."""
        gone = (time.time() - self.begun) / 60
        current = sum(min(self.minutes[it], (time.time() - lane.begun) / 60) for it, lane in self.running.items())
        rest = [*self.left, *self.running]
        work = sum(self.minutes[it] for it in rest) - current
        least = max(work / self.jobs, max((self.chain[it] for it in rest), default=0) - current / self.jobs)
        speed = min(max(gone * self.jobs / max(self.done + current, 1), 1), 4) if gone > 2 else 1
        return max(1, round(least * speed))

    def tell(self):
        """Says how far the build is, at most once each half minute or, at a terminal, in one line that changes."""
        now = time.time()
        if now - self.told < EACH[self.is_terminal] or not self.running:
            return
        self.told = now
        gone = int((now - self.begun) / 60)
        line = f"anb: {gone} minutes gone, about {self.minutes_left()} left: {', '.join(sorted(self.running))}"
        width = shutil.get_terminal_size().columns - 1
        print(f"\r{line[:width]:<{width}}" if self.is_terminal else line, end="" if self.is_terminal else "\n", file=sys.stderr, flush=True)

    def run(self):
        """Builds all; gives whether it could."""
        while self.left or self.running:
            self.begin()
            self.tell()
            time.sleep(0.2)
            self.close_ended()
        for name, said in self.failed.items():
            show(name, said)
        return not self.failed

    def stop(self):
        """Ends what runs."""
        for lane in self.running.values():
            lane.end()
            shutil.rmtree(lane.top, ignore_errors=True)
        self.running = {}


def has_room():
    """Whether there is memory for one more check."""
    with open("/proc/meminfo") as file:
        free = int(re.search(r"MemAvailable:\s+(\d+)", file.read())[1])
    return free > ROOM


def show(name, said):
    """What a check said that isn't about its progress."""
    lines = [it for it in said.splitlines() if not re.match(r"so far|statements |rt: chose|crate \w+: modules", it)]
    print(f"\nanb: why {name} couldn't be built", *lines, sep="\n", file=sys.stderr)


def main():
    words = sys.argv[1:]
    jobs = int(words[words.index("--jobs") + 1]) if "--jobs" in words else len(os.sched_getaffinity(0))
    if words[:1] == ["--crate"]:
        return prove(words[1], jobs)
    LANES.mkdir(exist_ok=True)
    with open(LANES / "lock", "w") as lock:
        fcntl.flock(lock, fcntl.LOCK_EX)
        build = Build(jobs)
        signal.signal(signal.SIGTERM, lambda *_: sys.exit(125))
        signal.signal(signal.SIGHUP, lambda *_: sys.exit(125))
        try:
            if not build.run():
                return 125
        except (KeyboardInterrupt, SystemExit):
            build.stop()
            gone = int((time.time() - build.begun) / 60)
            print(f"\nanb: stopped after {gone} minutes; what is proved so far is kept", file=sys.stderr)
            return 125
        finally:
            lend({it for it in build.order if it != PROGRAM and build.is_made(it)})
            if "--write" in words:
                write_minutes(build.seconds)
    (CRATES / PROGRAM / "out" / "crates").write_text("\n".join(build.order) + "\n")
    shutil.rmtree(LANES, ignore_errors=True)
    return 0


if __name__ == "__main__":
    sys.exit(main())
