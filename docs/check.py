#!/usr/bin/env python3
"""Checks the examples and the pages against a built program. Standard library alone.

    python3 docs/check.py crates/anb/out/anb           compares; the status is 0 where all is as it stands
    python3 docs/check.py crates/anb/out/anb --write   writes what the program gives into the pages
    python3 docs/check.py crates/anb/out/anb --no-library   where the C library isn't to be built

Examples: `fmt` gives the narration's text, each role compiles, all roles play to their ends over pipes, the codes that
`compile` wrote send the same under `enact`, and each message has the bytes that docs/narration.py computes apart. What
came of it is compared with examples/expected, and the index of the examples with what docs/charts.py writes. Where the
program has `rehearse`, all roles are rehearsed too, by `schedule` and by each other file `*.schedule`, which has turns
that are passed over; where it has `chart`, the charts are those of docs/charts.py; and where it has `certify`, each code
that `compile` wrote is certified, and less one of its checks it is not, where it then runs otherwise on spoiled arrivals. A role's transcript stands
beside its values. What the gate runs of each example is a copy, in crates/anb_cases.

Texts with a choice, `choice.anb` in a folder of their own: in each arm all roles play to their ends under `branch`, and
the messages are those of the narration that the common actions and the arm are; and `check` says of each arm what it
says of that narration.

Pages: in a fenced block that begins with a line `$ ...` each such line is a command for sh, and what follows is what
it writes, errors too. The commands run in a folder of their own with a copy of examples/, block by block, with `anb` on
the path. A fenced block with two words after its fence, such as ```anb mine.anb, is a file that the reader writes. A
narration that is shown for itself is the text of an example. README has at most 110 lines. The examples of the manual
page end with 0, and its narration is one. The page of each program that others wrote, in examples/real, has a table of
what `check` derives for each role; docs/check_peers.py plays and probes these programs.

Words: what `help` lists is what REFERENCE and the manual page list, and both say what each file is; README names each
command, pages and completions have the options of `help`, and completions are tried in their shells
(docs/check_completions.py). The program ends with each status of REFERENCE, and its line (docs/check_statuses.py). The
overview of `--help` has the commands in the groups that README, REFERENCE and the manual page have; the page of `help`
on each command begins with the words that `help` lists, and its example ends with one of the page's statuses; and the
version is CHANGELOG's.

The edge to the machine: the rows of bench/edge.py that take little time.

The C library: anb.h, its manual page, the Python module and the sources have the same calls and statuses; and
docs/check_library.py builds the library and compares it with the program.
"""

import hashlib
import hmac
import os
import pathlib
import re
import shutil
import signal
import struct
import subprocess
import sys
import tempfile

import charts
import check_completions
import check_statuses
import house
import narration

ROOT = pathlib.Path(__file__).resolve().parent.parent
EXAMPLES = ROOT / "examples"
EXPECTED = EXAMPLES / "expected"
PAGES = ["README.md", "docs/TUTORIAL.md", "docs/REFERENCE.md", "docs/LIBRARY.md", "docs/EDGE.md"]
# How many lines README has at most: the first ten minutes.
README_LINES = 110
# What the gate runs of the examples: the files and the commands in data/examples, and what they print behind the cases.
GATE = ROOT / "crates" / "anb_cases"
# What names each command of the program.
LISTS = ["README.md", "docs/REFERENCE.md", "anb.1", "completions/anb.bash", "completions/_anb", "completions/anb.fish"]
# The words of commands that stand for no file.
NO_FILES = {"role", "name", "n", "folder", "place", "seconds", "file", "program", "word", "where"}
# The options of a place, which `help` lists as one word.
PLACES = {"--dial", "--listen"}
# What the program takes beside the words that `help` lists.
ASKS = ["anb help <command>", "anb --help", "anb --version"]
# Where REFERENCE says what each file is that the words name.
FILES = {
    "narration": "## Narrations",
    "values": "**Values.**",
    "rolefile": "**Role files.**",
    "transcript": "**Transcripts.**",
    "schedule": "**Schedules.**",
    "record": "**Records.**",
    "key": "key of a parked session",
}
# What makes the files of the pages' examples.
MADE = """anb compile examples/mutual/mutual.anb B > b.role
printf 'a key of my own' > my.key
anb park examples/ping/ping.anb A examples/ping/A.values my.key | tail -c +11 > a.record"""
MARK = "\x1e"


def commands_of(program):
    return [line.split()[1] for line in run(program, "help").splitlines()]


def run(program, *words):
    done = subprocess.run([program, *map(str, words)], stdin=subprocess.DEVNULL, capture_output=True, timeout=300)
    if done.returncode:
        raise ValueError(f"{' '.join(map(str, words))}: status {done.returncode}, {done.stderr.decode().strip()}")
    return done.stdout.decode()


# Examples.


def values_file(folder, role):
    return folder / f"{role}.values"


def without_comment(text):
    return re.sub(r"\A(#[^\n]*\n)*", "", text)


def names_of(story, folder):
    """The bytes of each name: known ones by the files, fresh ones by the seeds."""
    files = {role: narration.read_values(values_file(folder, role).read_text()) for role in story.roles}
    whole = folder / "all.values"
    tables = list(files.values()) + ([narration.read_values(whole.read_text())] if whole.exists() else [])
    names = {name: value for table in tables for name, value in table.items() if name in story.sorts}
    for role, table in files.items():
        known = {narration.text_of(t): story.bytes_of(t, names) for t in story.knows.get(role, [])}
        if known != {text: value for text, value in table.items() if text != "@seed"}:
            raise ValueError(f"the values of {role} aren't those of the others")
        for number, name in enumerate(story.fresh_names(role)):
            names[name] = narration.anbwire.draw(table["@seed"], 0, number)
    return names


def relay(program, story, words_of):
    """Runs all roles by their words, one process each, and carries every message from its sender to its receiver."""
    pipes = {"stdin": subprocess.PIPE, "stdout": subprocess.PIPE, "stderr": subprocess.PIPE}
    roles = {role: subprocess.Popen([program, *words_of(role)], **pipes) for role in story.roles}
    carried = []
    try:
        for sender, receiver, _ in story.actions:
            message = narration.anbwire.take_frame(roles[sender].stdout)
            if message is None:
                raise ValueError(f"{sender} ended: {roles[sender].stderr.read().decode().strip()}")
            narration.anbwire.put_frame(roles[receiver].stdin, message)
            carried.append(message)
        for role, process in roles.items():
            left, error = process.communicate(timeout=60)
            if process.returncode or left or error:
                raise ValueError(f"{role}: status {process.returncode}, {error.decode().strip()}")
    finally:
        for process in roles.values():
            process.kill()
            process.communicate()
    return carried


def enacted(program, story, folder, codes):
    """What the codes that `compile` wrote send, where `enact` runs them."""
    with tempfile.TemporaryDirectory() as scratch:
        for role, code in codes.items():
            (pathlib.Path(scratch) / role).write_text(code)
        return relay(program, story, lambda role: ["enact", pathlib.Path(scratch) / role, values_file(folder, role)])


def certified(program, narration, role, code):
    """The status of `certify` on a code."""
    with tempfile.TemporaryDirectory() as scratch:
        file = pathlib.Path(scratch) / "code"
        file.write_text(code)
        return subprocess.run([program, "certify", narration, role, file], capture_output=True, timeout=300).returncode


def instruction(line):
    """The registers that a line of a code writes, its words, and the registers that it reads."""
    written, _, did = line.rpartition(" = ") if not line.startswith(("equal ", "send ")) else ("", "", line)
    word, _, rest = did.partition(" ")
    if word == "take":
        return written.split(), did, []
    names = 1 if word in ("build", "parse") else 0
    operands = rest.split()
    return written.split(), " ".join([word, *operands[:names]]), operands[names:]


def without_line(code, dropped):
    """The code less a line and what reads its registers, with the others numbered anew. None, where a send does."""
    head, mark, body = code.partition("\ncode\n")
    lines, gone, numbers, kept = body.splitlines()[:-1], set(), {}, []
    for at, line in enumerate(lines):
        written, words, read = instruction(line)
        if at == dropped or gone & set(read):
            if words == "send":
                return None
            gone |= set(written)
            continue
        for register in written:
            numbers[register] = f"r{len(numbers)}"
        names = " ".join(numbers[register] for register in written)
        kept.append((names + " = " if names else "") + " ".join([words, *(numbers[register] for register in read)]))
    return head + mark + "\n".join([*kept, "end\n"])


def spoiled(arrivals):
    """The arrivals, and others with one byte changed, or one more or less."""
    yield arrivals
    for at, message in enumerate(arrivals):
        places = range(0, len(message), max(1, len(message) // 8))
        others = [message[:k] + bytes([message[k] ^ 1]) + message[k + 1 :] for k in places]
        for other in [*others, message[:-1], message + b"\0"]:
            yield [*arrivals[:at], other, *arrivals[at + 1 :]]


def runs(program, code, values, inputs):
    """What a code writes over each of these inputs, and how it ends, but for the instruction of a stop."""
    ends = []
    with tempfile.TemporaryDirectory() as scratch:
        file = pathlib.Path(scratch) / "code"
        file.write_text(code)
        for arrivals in inputs:
            sent = b"".join(struct.pack(">I", len(message)) + message for message in arrivals)
            done = subprocess.run([program, "enact", file, values], input=sent, capture_output=True, timeout=60)
            ends.append((done.returncode, done.stdout, re.sub(rb", instruction \d+", b"", done.stderr)))
    return ends


def check_certificates(program, story, narration, folder, codes, messages):
    """Each code is certified. So is no code less a check that then runs otherwise, on arrivals that are spoiled."""
    for role, code in codes.items():
        if certified(program, narration, role, code) != 0:
            raise ValueError(f"the code of {role} isn't certified")
        heard = [message for (_, receiver, _), message in zip(story.actions, messages) if receiver == role]
        inputs = list(spoiled(heard))
        whole = runs(program, code, values_file(folder, role), inputs)
        for at, line in enumerate(code.partition("\ncode\n")[2].splitlines()):
            if not re.match(r"equal |r[0-9 r]* = (unseal|unwrap|parse) ", line):
                continue
            less = without_line(code, at)
            if less is None:
                continue
            status = certified(program, narration, role, less)
            if status not in (0, 28):
                raise ValueError(f"the code of {role} without its instruction {at + 1}: status {status}")
            if status == 0 and runs(program, less, values_file(folder, role), inputs) != whole:
                raise ValueError(f"the code of {role} without its instruction {at + 1} is certified, and runs otherwise")


def played(story, words):
    """The actions that are sent by these turns, and how many turns are taken: a role's turn is taken where its next
    action is one that it sends, or one that was sent to it."""
    left = {role: [n for n, action in enumerate(story.actions) if role in action[:2]] for role in story.roles}
    sent, taken = set(), 0
    for role in words:
        if not left[role]:
            continue
        number = left[role][0]
        if story.actions[number][0] == role:
            sent.add(number)
        elif number not in sent:
            continue
        left[role].pop(0)
        taken += 1
    return sorted(sent), taken


def rehearsal(story, folder, words):
    """What `rehearse` writes: each message, with the draws of a role in the session of its number."""
    names = narration.read_values((folder / "all.values").read_text())
    for session, role in enumerate(story.roles):
        for number, name in enumerate(story.fresh_names(role)):
            names[name] = narration.anbwire.draw(names["@seed"], session, number)
    sent, taken = played(story, words)
    lines = [f"{number + 1} {story.bytes_of(story.actions[number][2], names).hex()}\n" for number in sent]
    return "".join(lines) + f"turns {len(words)}, taken {taken}, passed {len(words) - taken}\n"


def schedules(folder):
    """The schedule in order, and those with turns that are passed over."""
    return [folder / "schedule", *sorted(folder.glob("*.schedule"))]


def check_schedules(program, story, folder, commands):
    for path in schedules(folder):
        words = path.read_text().split()
        if path.suffix == "" and words != [role for action in story.actions for role in action[:2]]:
            raise ValueError("the schedule isn't the actions' senders and receivers")
        expected = rehearsal(story, folder, words)
        if path.suffix and expected.endswith(" passed 0\n"):
            raise ValueError(f"{path.name} has no turn that is passed over")
        if "rehearse" in commands:
            report = run(program, "rehearse", folder / f"{folder.name}.anb", folder / "all.values", path)
            if report != expected:
                raise ValueError(f"rehearse by {path.name}: {report.splitlines()[-1]}")


def without_seed(text):
    """The lines of a values file but the comments and the seed."""
    return [line for line in text.splitlines() if line and not line.startswith(("#", "@seed"))]


def check_values(program, story, folder, commands):
    """The roles' values files are those that `values` makes of all.values; each has a fixed seed of its own."""
    path, whole = folder / f"{folder.name}.anb", folder / "all.values"
    if "values" not in commands or not whole.exists():
        return
    made = narration.read_values(run(program, "values", path))
    if set(made) != {*narration.read_values(whole.read_text()), "@seed"}:
        raise ValueError("values writes other names than all.values has")
    if any(value != name.encode() if story.sorts.get(name) == "Agent" else len(value) != 32 for name, value in made.items()):
        raise ValueError("values writes another kind of value")
    seed = narration.read_values(whole.read_text()).get("@seed")
    for role in story.roles:
        text = run(program, "values", path, role, whole)
        if without_seed(text) != without_seed(values_file(folder, role).read_text()):
            raise ValueError(f"{role}.values isn't what values writes")
        own = seed and hmac.new(seed, role.encode(), hashlib.sha256).digest()
        if narration.read_values(text).get("@seed") != own:
            raise ValueError(f"values gives {role} another seed")


def transcript(story, role, messages):
    """What a role sends and receives, a line each."""
    turns = [(sender == role, message) for (sender, receiver, _), message in zip(story.actions, messages)
             if role in (sender, receiver)]
    return "".join(f"{'>' if sends else '<'} {message.hex()}\n" for sends, message in turns)


def check_transcripts(story, folder, messages, write):
    for role in story.roles:
        path = values_file(folder, role).with_suffix(".transcript")
        found = transcript(story, role, messages)
        if write:
            path.write_text(found)
        if path.read_text() != found:
            raise ValueError(f"{path.name} isn't what {role} sends and receives")


def gate_commands(folder, roles):
    """What the gate runs of an example, with the names of files from the repository's folder."""
    at = folder.relative_to(ROOT)
    whole = f"{at}/{folder.name}.anb"
    yield from (f"fmt {at}/{path.name}" for path in sorted(folder.glob("*.anb")))
    yield from (f"compile {whole} {role}" for role in roles)
    for role in roles:
        values = values_file(folder, role)
        yield f"replay {whole} {role} {at}/{values.name} {at}/{values.stem}.transcript"
    for path in schedules(folder):
        yield f"rehearse {whole} {at}/all.values {at}/{path.name}"


def gate_files():
    """The files that the gate wants, by their paths in crates/anb_cases."""
    commands = []
    for folder in charts.folders():
        roles = narration.Narration((folder / f"{folder.name}.anb").read_text()).roles
        commands += gate_commands(folder, roles)
    cases = [line for line in (GATE / "stdout").read_text().splitlines() if not line[:1].isdigit()]
    files = {"data/examples/commands": "".join(f"{command}\n" for command in commands)}
    files["stdout"] = "".join(f"{line}\n" for line in cases + [f"0 {command}" for command in commands])
    for word in {word for command in commands for word in command.split() if "/" in word}:
        files[f"data/{word}"] = (ROOT / word).read_text()
    return files


def check_gate(write):
    """The gate's copies are those of the examples."""
    wanted = gate_files()
    if write:
        shutil.rmtree(GATE / "data" / "examples", ignore_errors=True)
        for path, text in wanted.items():
            (GATE / path).parent.mkdir(parents=True, exist_ok=True)
            (GATE / path).write_text(text)
    there = {str(path.relative_to(GATE)) for path in (GATE / "data" / "examples").rglob("*") if path.is_file()} | {"stdout"}
    faults = [path for path in sorted(there | set(wanted))
              if path not in there or path not in wanted or (GATE / path).read_text() != wanted[path]]
    for path in faults:
        print(f"crates/anb_cases/{path}: not that of the examples")
    return len(faults)


def summary(story, carried):
    """What was carried, in one line."""
    size = sum(map(len, carried))
    sums = hashlib.sha256(b"".join(struct.pack(">I", len(message)) + message for message in carried)).hexdigest()
    return f"{len(story.roles)} roles, {len(carried)} messages, {size} bytes, frames {sums}"


def check_example(program, folder, commands, write):
    text = (folder / f"{folder.name}.anb").read_text()
    story = narration.Narration(text)
    for path in folder.glob("*.anb"):
        if run(program, "fmt", path) != without_comment(text):
            raise ValueError(f"{path.name} isn't what fmt writes")
    if story.canonical() != without_comment(text):
        raise ValueError("docs/narration.py reads another text")
    path = folder / f"{folder.name}.anb"
    if "chart" in commands and run(program, "chart", path) != charts.chart(story):
        raise ValueError("chart writes something else than docs/charts.py")
    codes = {role: run(program, "compile", path, role) for role in story.roles}
    for role, code in codes.items():
        if not re.fullmatch(r"anb-role 2\n.*\nend\n", code, re.S):
            raise ValueError(f"no role file for {role}")
    check_schedules(program, story, folder, commands)
    check_values(program, story, folder, commands)
    names = names_of(story, folder)
    carried = relay(program, story, lambda role: ["play", path, role, values_file(folder, role)])
    if enacted(program, story, folder, codes) != carried:
        raise ValueError("the role files' codes sent something else than the roles' plays")
    if carried != [story.bytes_of(message, names) for _, _, message in story.actions]:
        raise ValueError("a message has other bytes than those computed apart")
    if "certify" in commands:
        check_certificates(program, story, path, folder, codes, carried)
    check_transcripts(story, folder, carried, write)
    return f"{folder.name}: {summary(story, carried)}"


def arms_of(text):
    """Who chooses in a text with a choice, and the narration of each arm."""
    stem, chooser, arms = re.fullmatch(r"(.*)\bChoice:\s*(\w+);(.*)", re.sub(r"#[^\n]*", "", text), re.S).groups()
    return chooser, [stem + arm for arm in re.split(r"\bActions:", arms)[1:]]


def check_reported(program, path, arms):
    """`check` says of each arm what it says of the narration that the common actions and this arm are."""
    told = ""
    for number, text in enumerate(arms, 1):
        with tempfile.NamedTemporaryFile("w", suffix=".anb") as file:
            file.write(text)
            file.flush()
            told += f"arm {number}:\n" + run(program, "check", file.name)
    if run(program, "check", path) != told:
        raise ValueError("`check` doesn't say of each arm what it says of its narration")


def check_choice(program, folder):
    """A line for each arm of a text with a choice."""
    path = folder / "choice.anb"
    chooser, arms = arms_of(path.read_text())
    check_reported(program, path, arms)
    for number, text in enumerate(arms, 1):
        story = narration.Narration(text)
        told = {chooser: ["--arm", str(number)]}
        carried = relay(program, story, lambda role: ["branch", path, role, values_file(folder, role), *told.get(role, [])])
        if carried != [story.bytes_of(message, names_of(story, folder)) for _, _, message in story.actions]:
            raise ValueError(f"arm {number}: a message has other bytes than those computed apart")
        yield f"{folder.name}, arm {number}: {summary(story, carried)}"


def check_examples(program, write):
    faults = 0
    commands = commands_of(program)
    narration.anbwire.check_vectors()
    lines = []
    for folder in charts.folders() + sorted(path.parent for path in EXAMPLES.glob("*/choice.anb")):
        signal.alarm(300)
        try:
            if (folder / "choice.anb").exists():
                lines += check_choice(program, folder) if "branch" in commands else []
            else:
                lines.append(check_example(program, folder, commands, write))
        except (ValueError, KeyError, OSError, narration.anbwire.Refused) as fault:
            print(f"{folder.name}: {fault}")
            faults += 1
        signal.alarm(0)
    found = "".join(line + "\n" for line in lines)
    if write and not faults:
        EXPECTED.write_text(found)
    expected = EXPECTED.read_text() if EXPECTED.exists() else ""
    for line in sorted(set(lines) ^ set(expected.splitlines())):
        print(f"{'found' if line in lines else 'expected'}: {line}")
        faults += 1
    return len(lines), faults


# Pages.


def blocks_of(lines):
    """Each fenced block as its first line's number, the fence's words and its lines."""
    start = None
    for at, line in enumerate(lines):
        if line.startswith("```") and start is None:
            start = at
        elif line.startswith("```"):
            yield start + 1, lines[start][3:].split(), lines[start + 1 : at]
            start = None


def outputs_of(commands, folder, program):
    """What each command of a block writes."""
    script = "exec 2>&1\n" + "".join(f"printf '{MARK}'\n{command}\n" for command in commands)
    path = f"{folder / 'bin'}:{os.environ['PATH']}"
    done = subprocess.run(["sh", "-c", script], cwd=folder, env={**os.environ, "PATH": path}, timeout=120,
                          stdin=subprocess.DEVNULL, stdout=subprocess.PIPE)
    return done.stdout.decode(errors="replace").split(MARK)[1:]


def with_outputs(block, folder, program):
    """The block as the program would have it."""
    commands = [line[2:] for line in block if line.startswith("$ ")]
    shown = []
    for command, output in zip(commands, outputs_of(commands, folder, program)):
        shown += [f"$ {command}", *output.splitlines()]
    return shown


def scratch(program):
    folder = pathlib.Path(tempfile.mkdtemp())
    shutil.copytree(EXAMPLES, folder / "examples", ignore=shutil.ignore_patterns("__pycache__"))
    (folder / "bin").mkdir()
    started = folder / "bin" / "anb"
    started.write_text(f'#!/bin/sh\nexec "{program}" "$@"\n')
    started.chmod(0o755)
    return folder


def check_lists(program):
    """Each command stands in the lists of commands."""
    gaps = [(name, command) for name in LISTS for command in commands_of(program)
            if not re.search(rf"\b{command}\b", (ROOT / name).read_text())]
    for name, command in gaps:
        print(f"{name}: nothing on {command}")
    return len(gaps)


def plain(form):
    """A command's words without what sets them off, in `help`, a page or the manual page."""
    return " ".join(re.sub(r"^\.BI? |\\f[A-Z]|[\"<>]", "", form).replace(r"\-", "-").split())


def check_words(program):
    """The pages list the words that `help` does, and the manual page has an entry for each file among them."""
    wanted = {plain(line): line for line in [*run(program, "help").splitlines(), *ASKS]}
    reference, manual = (ROOT / "docs" / "REFERENCE.md").read_text(), (ROOT / "anb.1").read_text()
    synopsis, files = (manual.partition(f".SH {name}\n")[2].partition(".SH ")[0] for name in ("SYNOPSIS", "FILES"))
    told = {
        "docs/REFERENCE.md": re.findall(r"^\| `(anb [^`]+)` \|", reference, re.M),
        "anb.1": re.findall(r"^\.BI? .*anb .*$", synopsis, re.M),
    }
    gaps = [f"{name}: {form}" for name, forms in told.items() for form in sorted(set(wanted) ^ set(map(plain, forms)))]
    named = {word for line in wanted.values() for word in re.findall(r"<(\w+)>", line)} - NO_FILES - {"command"}
    gaps += [f"anb.1: nothing on the file {word}" for word in sorted(named) if f".I {word}\n" not in files]
    gaps += [f"docs/REFERENCE.md: nothing on the file {word}" for word in sorted(named) if FILES.get(word, word) not in reference]
    print(*gaps, sep="\n", end="\n" * bool(gaps))
    return len(gaps)


def options_of(name):
    """The options that a page or a completion names."""
    text = re.sub(r"\\f[A-Z]", "", (ROOT / name).read_text()).replace("\\-", "-")
    told = set(re.findall(r"(?<![\w-])--[a-z]+\b", text))
    if name.endswith(".fish"):
        told = {f"--{option}" for line in text.splitlines() if line.startswith("complete ") for option in re.findall(r" -l (\w+)", line)}
    return told


def check_options(program):
    """Pages and completions have the options of `help` and of places; no completion has another."""
    wanted = set(re.findall(r"--[a-z]+", "\n".join([run(program, "help"), *ASKS]))) | PLACES
    gaps = []
    for name in LISTS[1:]:
        others = options_of(name) - wanted if name.startswith("completions/") else set()
        gaps += [f"{name}: nothing on {option}" for option in sorted(wanted - options_of(name))]
        gaps += [f"{name}: the program has no {option}" for option in sorted(others)]
    print(*gaps, sep="\n", end="\n" * bool(gaps))
    return len(gaps)


def groups_of(text, heading, command, commands):
    """The groups of a text by patterns for their headings and their commands."""
    found = []
    for line in text.splitlines():
        if title := re.match(heading, line):
            found.append((title[1].lower(), set()))
        elif found and (it := re.match(command, line)) and it[1] in commands:
            found[-1][1].add(it[1])
    return [group for group in found if group[1]]


def check_groups(program):
    """The overview and the pages have the same commands in the same groups."""
    commands = set(commands_of(program)) - {"help"}
    overview = run(program, "--help")
    told = set(re.findall(r"^  (\w+) ", overview, re.M))
    wanted = groups_of(overview, r"(\w[\w ]*)$", r"  (\w+) ", commands)
    readme, reference, manual = ((ROOT / name).read_text() for name in ("README.md", "docs/REFERENCE.md", "anb.1"))
    manual = manual.partition(".SH COMMANDS\n")[2].partition(".SH ")[0]
    rows = re.findall(r"^\| (?:look|play|records|whole|codes)[\w ]* \| (`.*) \|$", readme, re.M)
    gaps = [f"anb --help: {command} stands in it or in the words of help alone" for command in sorted(commands ^ told)]
    if [set(re.findall(r"`(\w+)`", row)) & commands for row in rows] != [group[1] for group in wanted]:
        gaps.append("README.md: its groups of commands aren't those of the overview")
    if groups_of(reference, r"\| ([a-z ]+) \| \|$", r"\| `anb (\w+)", commands) != wanted:
        gaps.append("docs/REFERENCE.md: its groups of commands aren't those of the overview")
    if groups_of(manual, r"\.SS (.+)", r"\.BI? (\w+)", commands) != wanted:
        gaps.append("anb.1: its groups of commands aren't those of the overview")
    return gaps


def numbers_in(text):
    """The statuses that a page tells, also as `4 to 8`."""
    ranges = [range(int(first), int(last) + 1) for first, last in re.findall(r"(\d+) to (\d+)", text)]
    return {int(number) for number in re.findall(r"\d+", text)}.union(*ranges)


def page_gaps(page, form, statuses, folder):
    """What is wrong with the page on a command: its words, its length, its statuses and its example."""
    lines = page.splitlines()
    told = numbers_in(page.partition("\nStatuses: ")[2].partition("\nExample: ")[0])
    if lines[0] != form or len(lines) > 10:
        yield "its words or its length"
    if not told or told - statuses:
        yield f"statuses {sorted(told - statuses)}"
    example = page.partition("\nExample: ")[2]
    if "--listen" in example:
        return
    path = f"{folder / 'bin'}:{os.environ['PATH']}"
    done = subprocess.run(["sh", "-c", example], cwd=folder, env={**os.environ, "PATH": path}, timeout=120,
                          stdin=subprocess.DEVNULL, capture_output=True)
    if not example or done.returncode not in told:
        yield f"its example ends with {done.returncode}"


def check_pages_of(program):
    """What the program says of itself agrees with `help` and with the pages."""
    gaps = check_groups(program)
    rows = re.findall(r"^\| (\d+) \|", (ROOT / "docs" / "REFERENCE.md").read_text(), re.M)
    folder = scratch(program)
    outputs_of([MADE], folder, program)
    for form in run(program, "help").splitlines():
        command = form.split()[1]
        page = run(program, "help", command)
        gaps += [f"anb help {command}: {gap}" for gap in page_gaps(page, form, set(map(int, rows)), folder)]
    shutil.rmtree(folder)
    if (ROOT / "CHANGELOG.md").read_text().splitlines()[0] != f"# {run(program, '--version').strip()}":
        gaps.append("CHANGELOG.md: its first version isn't the program's")
    print(*gaps, sep="\n", end="\n" * bool(gaps))
    return len(gaps)


def check_completions_of(program):
    """The completions offer what they should, in each shell that is installed."""
    found = list(check_completions.faults(commands_of(program)))
    print(*found, sep="\n", end="\n" * bool(found))
    return len(found)


def check_statuses_of(program):
    """The program ends with each status as REFERENCE has it."""
    found = list(check_statuses.faults(program))
    print(*found, sep="\n", end="\n" * bool(found))
    return len(found)


def check_house():
    """crates.txt and the pages agree with the sources."""
    found = house.faults()
    print(*found, sep="\n", end="\n" * bool(found))
    return len(found)


def check_index(program, write):
    """The index of the examples is as docs/charts.py writes it."""
    index = EXAMPLES / "README.md"
    found = charts.page(str(program))
    if write:
        index.write_text(found)
    if index.read_text() == found:
        return 0
    print("examples/README.md: not what docs/charts.py writes")
    return 1


def lacks(words):
    """Whether a block's first line names a program, after `where`, that isn't installed."""
    return "where" in words and not shutil.which(words[-1])


def derived(program, path):
    """What each role checks at each event, by what `check` writes."""
    found = set()
    for line in run(program, "check", path).splitlines():
        if head := re.match(r"role (\S+): |  event (\d+), ", line):
            role, event = (head[1], None) if head[1] else (role, head[2])
        elif checks := re.match(r"    (?:.*; )?checks (.*?)(?:; |$)", line):
            found |= {(role, event, term) for term in checks[1].split(", ")}
    return found


def check_peer_pages(program):
    """The page of each real peer has a table whose second cells are what `check` derives, no more and no less."""
    gaps = []
    for folder in (folder for folder in charts.folders() if folder.parent == charts.REAL):
        page = folder / "README.md"
        rows = re.findall(r"^\| (\w+), event (\d+) \| (.*?) \|", page.read_text() if page.exists() else "", re.M)
        told = {(role, event, term) for role, event, cell in rows for term in re.findall(r"`([^`]+)`", cell)}
        due = derived(program, folder / f"{folder.name}.anb")
        gaps += [f"{page.relative_to(ROOT)}: {role}, event {event}: {term}" for role, event, term in sorted(told ^ due)]
    print(*gaps, sep="\n", end="\n" * bool(gaps))
    return len(gaps)


def check_page(name, program, write):
    """The number of commands, and how many blocks write something else."""
    lines = (ROOT / name).read_text().splitlines()
    folder = scratch(program)
    commands, faults, moved = 0, 0, 0
    for at, words, block in list(blocks_of(lines)):
        if len(words) == 2:
            (folder / words[1]).write_text("\n".join(block) + "\n")
        if not block or not block[0].startswith("$ ") or lacks(words):
            continue
        found = with_outputs(block, folder, program)
        commands += sum(line.startswith("$ ") for line in block)
        if found == block:
            continue
        if write:
            lines[at + moved : at + moved + len(block)] = found
            moved += len(found) - len(block)
        else:
            print(f"{name}:{at + 1}: another output:", *found, sep="\n  ")
            faults += 1
    if write:
        (ROOT / name).write_text("\n".join(lines) + "\n")
    shutil.rmtree(folder)
    return commands, faults


def check_shown():
    """README isn't too long, and each narration that a page shows for itself is the text of an example."""
    gaps = []
    lines = (ROOT / "README.md").read_text().splitlines()
    if len(lines) > README_LINES:
        gaps.append(f"README.md: {len(lines)} lines, more than {README_LINES}")
    there = {without_comment(path.read_text()) for path in EXAMPLES.rglob("*.anb")}
    for name in PAGES:
        for at, words, block in blocks_of((ROOT / name).read_text().splitlines()):
            if len(words) < 2 and block and block[0].startswith("Protocol: ") and "\n".join(block) + "\n" not in there:
                gaps.append(f"{name}:{at + 1}: the text of no example")
    print(*gaps, sep="\n", end="\n" * bool(gaps))
    return len(gaps)


def check_manual(program):
    """What the manual page shows: a narration, and examples that end with 0."""
    text = (ROOT / "anb.1").read_text().replace("\\-", "-").replace("\\e", "\\")
    files, examples = (text.partition(f".SH {name}\n")[2].partition("\n.SH ")[0] for name in ("FILES", "EXAMPLES"))
    folder = scratch(program)
    (folder / "shown.anb").write_text(re.search(r"^\.nf\n(Protocol:.*?)^\.fi$", files, re.M | re.S)[1])
    scripts = ["anb check shown.anb", *re.findall(r"^\.nf\n(.*?)^\.fi$", examples, re.M | re.S)]
    gaps = []
    for script in scripts:
        script = "".join(line.strip() + "\n" for line in script.splitlines())
        # What runs beside is waited for, and its status counts too; it ends where a command fails.
        end = "trap 'jobs -p > beside; kill $(cat beside) 2> /dev/null' EXIT"
        found = outputs_of([f"set -e; {end}\n{script}jobs -p > beside; for job in $(cat beside); do wait $job; done", "echo done"], folder, program)
        if "done\n" not in found:
            gaps.append(f"anb.1: an example fails: {script.strip()}\n{''.join(found)}")
    shutil.rmtree(folder)
    print(*gaps, sep="\n", end="\n" * bool(gaps))
    return len(gaps)


def check_edge(program):
    """The rows of bench/edge.py that take little time."""
    words = [sys.executable, ROOT / "bench" / "edge.py", program, "--quick"]
    done = subprocess.run(words, stdin=subprocess.DEVNULL, stdout=subprocess.PIPE, text=True)
    failed = [line for line in done.stdout.splitlines() if " FAILED " in line]
    print(*failed, sep="\n", end="\n" if failed else "")
    return max(len(failed), done.returncode)


# The C library.


def prototypes(text):
    """The calls that a header or a synopsis declares."""
    return re.findall(r"\w+ anb_\w+\([^)]*\);", " ".join(text.split()))


def check_interface():
    """What says the calls and statuses of the C library says the same."""
    header, manual = (ROOT / "capi/anb.h").read_text(), (ROOT / "capi/anb.3").read_text()
    synopsis = re.sub(r'^\.B "?|"$', "", manual.split(".SH DESCRIPTION")[0], flags=re.M)
    told = set(re.findall(r"^\.B (anb_\w+)$", manual.split(".SH DESCRIPTION")[1].split(".SH")[0], re.M))
    statuses = re.findall(r"^    ANB_(\w+) = (\d+)", header, re.M)
    module = re.findall(r"^([A-Z_, ]+) = ([\d, ]+)$", (ROOT / "capi/anb.py").read_text(), re.M)
    python = [pair for names, numbers in module for pair in zip(names.split(", "), numbers.split(", "))]
    sources = (ROOT / "crates/anb_c/src/statuses.rt").read_text()
    sides = {
        "capi/anb.3: the synopsis": (prototypes(synopsis), prototypes(re.sub(r"/\*.*?\*/", "", header, flags=re.S))),
        "capi/anb.3: the calls": (told, set(re.findall(r"\b(anb_\w+)\(", synopsis))),
        "capi/anb.3: the statuses": (re.findall(r'^\.BR ANB_(\w+) " (\d+)"', manual, re.M), statuses),
        "capi/anb.py: the statuses": ([pair for pair in statuses if pair in python], statuses),
        "crates/anb_c/src/statuses.rt": (re.findall(r"^pub\(crate\) const (\w+): i32 = (\d+);", sources, re.M), statuses),
    }
    gaps = [name for name, (found, due) in sides.items() if found != due]
    print(*(f"{name}: not those of capi/anb.h" for name in gaps), sep="\n", end="\n" * bool(gaps))
    return len(gaps)


def check_library(program):
    """The C library, which is built first, against the program."""
    words = [sys.executable, ROOT / "docs" / "check_library.py", program]
    done = subprocess.run(words, stdin=subprocess.DEVNULL, stdout=subprocess.PIPE, stderr=subprocess.STDOUT, text=True)
    if done.returncode:
        print("docs/check_library.py:", *done.stdout.splitlines()[-10:], sep="\n  ")
    return int(done.returncode != 0)


def main():
    switches = {"--write", "--no-library"}
    words = [word for word in sys.argv[1:] if word not in switches]
    if len(words) != 1:
        sys.exit(__doc__)
    program, write = pathlib.Path(words[0]).resolve(), "--write" in sys.argv
    examples, faults = check_examples(program, write)
    faults += check_lists(program) + check_words(program) + check_options(program) + check_pages_of(program)
    faults += check_completions_of(program) + check_statuses_of(program) + check_manual(program) + check_shown()
    faults += check_index(program, write) + check_gate(write) + check_house()
    faults += check_peer_pages(program)
    commands = 0
    for name in PAGES:
        if (ROOT / name).exists():
            found, wrong = check_page(name, program, write)
            commands, faults = commands + found, faults + wrong
    faults += check_edge(program) + check_interface()
    if "--no-library" in sys.argv:
        print("not checked: the C library against the program")
    else:
        faults += check_library(program)
    print(f"checked: {examples} examples, {commands} commands, {faults} faults")
    sys.exit(faults > 0)


if __name__ == "__main__":
    main()
