"""Processor minutes of each part of the gate, crate by crate, as a table in Markdown.

    python3 bench/gate.py [--log FILE] [--kept] [--write] [NAME ..]
    python3 bench/gate.py --table

Runs `rt ci --anew` with a prover that notes the processor time of each of its calls, and then writes a row
a crate: proof, tests, and edits, the slowest edits, and the longest chain of crates. With names it does the
same for these crates alone, one after another, over libraries that are built first. The tries of a crate's
edits begin with one more proof of the crate and end with a check that it stands, which count among them.
With --log the notes go to this file, behind those of earlier runs, and the table is that of all notes; of a
part that was done again its last run counts, and an edit that is gone counts no more. With --kept it runs
`rt ci` with the names, which takes what earlier runs on this machine passed. With --write what was measured
stands in bench/minutes.tsv after, which build.py reads and writes too, and the table of all figures there in
docs/PROVING.md; a run of the whole gate in which all is well leaves no older figure there. --table writes the page
alone.
"""
import collections
import glob
import json
import os
import resource
import shutil
import signal
import sys
import tempfile
import time

sys.path.append(os.path.dirname(os.path.dirname(os.path.abspath(__file__))))
import build

SHIM = "import sys; sys.path.insert(0, {folder!r}); import gate; gate.noted({prover!r}, {log!r}, {root!r}, {run!r})"


PARTS = ("proof", "tests", "edits")

# How many of the slowest edits are listed.
SLOWEST = 12


def part_of(words, folder):
    """The part of the gate that a call of the prover belongs to."""
    if "rt-edit-" in folder:
        return "edits"
    return "tests" if "--test" in words else "proof"


def edit_in(folder, crate):
    """The name of the edit that stands in this copy of a crate, or None where it is as it was."""
    def text_of(path):
        with open(path) as file:
            return file.read()

    for edit in glob.glob(f"{crate}/must-fail/*.edit"):
        path, old, texts = "", "", {}
        for line in text_of(edit).split("\n"):
            word, _, rest = line.partition(": ")
            if word == "file":
                path = rest.strip()
            elif word == "old":
                old = rest
            elif word.startswith("new"):
                texts[path] = texts.get(path, text_of(f"{crate}/{path}")).replace(old, rest)
        if all(text_of(f"{folder}/{it}") == text for it, text in texts.items()):
            return os.path.basename(edit).removesuffix(".edit")
    return None


def noted(prover, log, root, run=None):
    """Runs the prover in place of this program, and notes its processor seconds."""
    words, begun = sys.argv[1:], time.time()
    child = os.fork()
    if not child:
        os.execv(prover, [prover, *words])
    for number in (signal.SIGTERM, signal.SIGINT):
        signal.signal(number, lambda number, _: os.kill(child, number))
    _, status, used = os.wait4(child, 0)
    if "--crate-name" in words:
        crate, part = words[words.index("--crate-name") + 1], part_of(words, os.getcwd())
        note = {
            "crate": crate,
            "part": part,
            "edit": edit_in(os.getcwd(), f"{root}/crates/{crate}") if part == "edits" else None,
            "run": run,
            "processor": used.ru_utime + used.ru_stime,
            "begun": begun,
            "wall": time.time() - begun,
        }
        with open(log, "a") as file:
            file.write(json.dumps(note) + "\n")
    if os.WIFSIGNALED(status):
        signal.signal(os.WTERMSIG(status), signal.SIG_DFL)
        os.kill(os.getpid(), os.WTERMSIG(status))
    os._exit(os.waitstatus_to_exitcode(status))


def gate(shim):
    """The program rt as a module, whose prover is the shim."""
    module = build.toolchain()
    prover, module.rtlib.RATTLE = module.rtlib.RATTLE, shim
    return module, prover


def some(module, names):
    """The parts of these crates alone; whether all is well."""
    # (its first call sets a signal's handler, which only the main thread may)
    module.rtlib.guarded()
    module.rtlib.Crate = module.Crate
    module.Crate.allowed = module.handles_of(os.getcwd())
    is_well = True
    for crate in module.rtlib.crates_below(os.getcwd()):
        if crate.name not in names:
            continue
        for below in crate.below():
            is_well &= not below.build_rlib(["--jobs", "1"], anew=False)
        os.makedirs(f"{crate.folder}/out", exist_ok=True)
        for tests in [False] + [True] * crate.has_tests():
            is_well &= not crate.ci(["--jobs", "1"], tests)
        is_well &= all_refused(module, crate)
    return is_well


def all_refused(module, crate):
    """Whether the prover refuses each edit of a crate, over what a check of the crate proved."""
    edits, flags = module.edits_of(crate)[0], ["--jobs", "1"]
    room = module.seeded(crate, flags) if edits else None
    if not room:
        return not edits
    is_well = True
    for number, edit in enumerate(edits):
        module.linked(f"{room}/seed", f"{room}/{number}")
        kind, text = module.must_fail(crate, edit, flags, f"{room}/{number}")[:2]
        print(text, flush=True)
        is_well &= kind in (module.REFUSED, module.AT_LIMIT)
    shutil.rmtree(room, ignore_errors=True)
    return is_well


def edits_in(crate):
    """How many edits the prover must refuse in a crate."""
    return len(glob.glob(f"crates/{crate}/must-fail/*.edit"))


def minutes(seconds):
    return f"{seconds / 60:.1f}" if seconds else ""


def last_notes(log, names):
    """The notes of each part's last run, of these crates or of all, without those of edits that are gone."""
    last = {}
    with open(log) as file:
        for note in map(json.loads, file):
            key, run = (note["crate"], note["part"]), note.get("run")
            if names and note["crate"] not in names:
                continue
            if key not in last or last[key][0] != run:
                last[key] = run, []
            last[key][1].append(note)
    is_gone = lambda it: it["edit"] and not os.path.exists(f"crates/{it['crate']}/must-fail/{it['edit']}.edit")
    return [note for _, notes in last.values() for note in notes if not is_gone(note)]


def slowest(notes):
    """The edits that took longest, each with its seconds."""
    sums = collections.Counter()
    for note in notes:
        if note["edit"]:
            sums[f"{note['crate']}/{note['edit']}"] += note["processor"]
    yield f"The slowest edits: {', '.join(f'{name} {seconds:.0f} s' for name, seconds in sums.most_common(SLOWEST))}"


def sums_of(notes):
    """The processor seconds of each part of each crate."""
    sums = collections.defaultdict(collections.Counter)
    for note in notes:
        sums[note["crate"]][note["part"]] += note["processor"]
    return sums


def table(sums):
    """The rows of a table, the longest first."""
    yield "| crate | proof | tests | edits |"
    yield "|---|---|---|---|"
    for crate, parts in sorted(sums.items(), key=lambda it: -it[1].total()):
        proof, tests, edits = (minutes(parts[it]) for it in PARTS)
        yield f"| {crate} | {proof} | {tests} | {edits}{f' ({edits_in(crate)})' if edits else ''} |"
    total = sum(sums.values(), collections.Counter())
    yield f"| all | {' | '.join(minutes(total[it]) for it in PARTS)} |"


def chain(sums):
    """The longest chain of crates below the program, by the minutes of their proofs."""
    crates = build.listed()
    order = build.standing_on(crates, build.PROGRAM)
    minutes_of = {name: sums[name]["proof"] / 60 for name in order}
    longest = build.chains(crates, order, minutes_of)
    found = [max(order, key=longest.get)]
    while above := [it for it in order if found[-1] in crates[it]]:
        found.append(max(above, key=longest.get))
    named = ", ".join(f"{name} {minutes_of[name]:.1f}" for name in found)
    yield f"The program's {len(order)} crates take {sum(minutes_of.values()):.0f} minutes of one processor to prove, and their longest chain {longest[found[0]]:.1f}: {named}."


def figures():
    """The figures that stand in bench/minutes.tsv, in seconds, of the crates that there are."""
    crates, found = build.listed(), collections.defaultdict(collections.Counter)
    for crate, *parts in build.rows_of(build.MINUTES):
        if crate in crates:
            found[crate].update({part: 60 * float(it) for part, it in zip(PARTS, parts) if it})
    return found


def write(sums, is_whole):
    """Puts what was measured into bench/minutes.tsv, in the place of what stands there, or of all of it."""
    all_sums = collections.defaultdict(collections.Counter, {} if is_whole else figures())
    for crate, parts in sums.items():
        all_sums[crate] = collections.Counter({**all_sums[crate], **parts})
    with open(build.MINUTES, "w") as file:
        print("crate", *PARTS, "tried", sep="\t", file=file)
        for crate in (it for it in build.listed() if it in all_sums):
            print(crate, *(minutes(all_sums[crate][it]) for it in PARTS), edits_in(crate), sep="\t", file=file)


def write_page():
    """Puts the table and the chain into docs/PROVING.md, by the figures that stand."""
    page, sums = "docs/PROVING.md", figures()
    rows = [*table(sums)]
    with open(page) as file:
        lines = file.read().split("\n")
    first = lines.index(rows[0])
    last = next(at for at in range(first, len(lines)) if not lines[at].startswith("|"))
    lines[first:last] = rows
    lines = [it if not it.startswith("The program's ") else "".join(chain(sums)) for it in lines]
    with open(page, "w") as file:
        file.write("\n".join(lines))


def processor_ticks():
    """How long the processors were there, and how much of that others took, in ticks."""
    with open("/proc/stat") as file:
        ticks = [int(it) for it in file.readline().split()[1:9]]
    return sum(ticks), ticks[7]


def main(words):
    if words == ["--table"]:
        write_page()
        return 0
    with tempfile.TemporaryDirectory() as room:
        log = f"{room}/log"
        if words[:1] == ["--log"]:
            log, words = os.path.abspath(words[1]), words[2:]
        is_kept, is_written = "--kept" in words, "--write" in words
        words = [it for it in words if it not in ("--kept", "--write")]
        shim = f"{room}/prover"
        module, prover = gate(shim)
        folder, begun, before = os.path.dirname(os.path.abspath(__file__)), time.time(), processor_ticks()
        with open(shim, "w") as file:
            file.write(f"#!{sys.executable}\n{SHIM.format(folder=folder, prover=prover, log=log, root=os.getcwd(), run=begun)}\n")
        os.chmod(shim, 0o755)
        try:
            if words and not is_kept:
                status = 0 if some(module, words) else 1
            else:
                status = module.main(["ci", *words] if is_kept else ["ci", "--anew"])
        except SystemExit as end:
            status = end.code
        all_ticks, taken = (now - then for now, then in zip(processor_ticks(), before))
        print(f"\n{(time.time() - begun) / 60:.0f} minutes; others took {100 * taken / all_ticks:.1f} % of the processors\n")
        notes = last_notes(log, [] if is_kept else words)
        sums = sums_of(notes)
        print(*table(sums), "", *slowest(notes), "", *chain(sums), sep="\n")
        if is_written:
            write(sums, not words and not is_kept and not status)
            write_page()
    return status


if __name__ == "__main__":
    sys.exit(main(sys.argv[1:]))
