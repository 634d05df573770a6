#!/usr/bin/env python3
"""Builds libanb, and checks it against a built program. Standard library alone.

    python3 docs/check_library.py crates/anb/out/anb           of this checkout
    python3 docs/check_library.py crates/anb/out/anb --fresh   of a fresh clone of what is committed

- The line of LIBRARY builds and installs it, but into a folder of its own. Its names outside are those of anb.h, it needs
  nothing but the C library, anb.h is taken by a C and a C++ compiler with all warnings, and pkg-config finds it.
- Each narration of examples/ through the library, by capi/anb.py: each role file is that of `anb compile`, each message
  has the bytes that `anb stage` relays, all roles end, and they end so too where each session is parked and resumed
  wherever it waits. Where a role without a seed of its own makes names, the bytes aren't compared.
- What is refused has the status of the program, and what is misused loses nothing.
- Each allocation of the library fails in turn, and the call tells it and leaves what anb.h says (capi/tests/fail.c).
- The examples of capi/examples in C, Python, and Rust and Go where their compilers are there, each with `anb play` on the
  other side of the wire, and with another key there.

Where valgrind is installed, the C programs run under it.
"""

import os
import pathlib
import re
import shutil
import socket
import subprocess
import sys
import tempfile

ROOT = pathlib.Path(__file__).resolve().parent.parent
EXAMPLES = ROOT / "examples"
CAPI = ROOT / "capi"
# The line of LIBRARY that builds the library.
BUILD = re.compile(r"^capi/build\.sh --prefix \S+$", re.M)
WARNS = ["-Wall", "-Wextra", "-Wpedantic", "-Werror"]
VALGRIND = ["valgrind", "-q", "--error-exitcode=77", "--leak-check=full", "--show-leak-kinds=all"]
# What the archive may need of the C library.
NEEDS = {"malloc", "realloc", "free", "memcpy", "memmove", "memset", "memcmp"}


def run(*words, status=0):
    done = subprocess.run([*map(str, words)], stdin=subprocess.DEVNULL, capture_output=True, timeout=1200)
    if done.returncode != status:
        raise ValueError(f"{' '.join(map(str, words))}: status {done.returncode}, {done.stderr.decode().strip()[-500:]}")
    return done.stdout


# The library.


def installed(fresh, folder):
    """The folder under which the line of LIBRARY installs the library, from this checkout or a fresh clone."""
    prefix, source = folder / "prefix", ROOT
    if fresh:
        source = folder / "clone"
        run("git", "clone", "-q", ROOT, source)
    line = BUILD.search((source / "docs/LIBRARY.md").read_text())
    if not line:
        raise ValueError("LIBRARY has no line that builds the library")
    words = line[0].split()[:-1]
    subprocess.run([source / words[0], *words[1:], prefix], stdin=subprocess.DEVNULL, check=True)
    return prefix


def check_names(prefix):
    declared = set(re.findall(r"^\w+ \*?(anb_\w+)\(", (CAPI / "anb.h").read_text(), re.M))
    names = run("nm", prefix / "lib/libanb.a").decode().splitlines()
    given = {line.split()[-1] for line in names if " T " in line}
    needed = {line.split()[-1] for line in names if " U " in line}
    shared = {line.split()[-1] for line in run("nm", "-D", "--defined-only", prefix / "lib/libanb.so.0").decode().splitlines()}
    if given != declared or shared != declared:
        raise ValueError(f"the library has {sorted(given ^ declared)} or {sorted(shared ^ declared)} beside anb.h")
    if not needed <= NEEDS:
        raise ValueError(f"the library needs {sorted(needed - NEEDS)}")


def check_header(prefix, folder):
    for compiler, name in (("cc", "header.c"), ("c++", "header.cc")):
        if shutil.which(compiler):
            (folder / name).write_text("#include <anb.h>\nint main(void) { anb_session s = ANB_SESSION_INIT; anb_close(&s); return 0; }\n")
            run(compiler, *WARNS, f"-I{prefix}/include", folder / name, prefix / "lib/libanb.a", "-o", folder / "header")
            run(folder / "header")
    if not (prefix / "share/man/man3/anb.3").is_file():
        raise ValueError("no manual page is installed")
    if shutil.which("pkg-config"):
        os.environ["PKG_CONFIG_PATH"] = str(prefix / "lib/pkgconfig")
        flags = run("pkg-config", "--cflags", "--libs", "anb").decode().split()
        run("cc", folder / "header.c", *flags, f"-Wl,-rpath,{prefix}/lib", "-o", folder / "header")
        run(folder / "header")


# Narrations.


def actions_of(text):
    return re.findall(r"^\s*(\w+)\s*->\s*(\w+)\s*:", re.sub(r"#.*", "", text), re.M)


def parked(anb, session, role, key):
    """The session, gone on from its record."""
    record = session.park(key)
    session.close()
    return anb.Session.resume(role, key, record)


def play_all(anb, roles, values, actions, seeds, park):
    """The messages of all actions, each role a session."""
    sessions = {name: anb.Session(roles[name], values[name], seeds[name]) for name in roles}
    sent = []
    for sender, receiver in actions:
        turn, wait = sessions[sender].next(), sessions[receiver].next()
        if not isinstance(turn, anb.Message) or not isinstance(wait, anb.Waiting):
            raise ValueError(f"action {len(sent) + 1}: {turn}, {wait}")
        if park:
            sessions[receiver] = parked(anb, sessions[receiver], roles[receiver], b"a key")
        sessions[receiver].arrive(turn.bytes)
        sent.append(turn.bytes.hex())
    ends = {name: session.next() for name, session in sessions.items()}
    if any(end is not None for end in ends.values()):
        raise ValueError(f"not all roles are done: {ends}")
    for session in sessions.values():
        session.close()
    return sent


def check_narration(anb, program, path):
    folder, text = path.parent, path.read_text()
    actions = actions_of(text)
    names = list(dict.fromkeys(name for action in actions for name in action))
    roles = {name: anb.compile(text.encode(), name) for name in names}
    for name, role in roles.items():
        if role != run(program, "compile", path, name):
            raise ValueError(f"the role file of {name} differs")
    values = {name: (folder / f"{name}.values").read_bytes() for name in names}
    seeded = {name: b"@seed" in values[name] for name in names}
    seeds = {name: b"" if seeded[name] or b"fresh" not in roles[name] else os.urandom(32) for name in names}
    sent = play_all(anb, roles, values, actions, seeds, False)
    if play_all(anb, roles, values, actions, seeds, True) != sent:
        raise ValueError("parked sessions send other bytes")
    if any(seeds.values()):
        return len(sent), False
    report = run(program, "stage", path, folder).decode().splitlines()[:-1]
    if [line.split(" ", 1)[1] if " " in line else "" for line in report] != sent:
        raise ValueError("`stage` relays other bytes")
    return len(sent), True


# Refusals and misuse.


def status_of(anb, call, *words):
    try:
        call(*words)
    except anb.Error as error:
        return error.status
    return 0


def check_refusals(anb, program, folder):
    text = (EXAMPLES / "mutual/mutual.anb").read_bytes()
    role = anb.compile(text, "A")
    values = (EXAMPLES / "mutual/A.values").read_bytes()
    seedless = re.sub(rb"^@seed.*\n", b"", values, flags=re.M)
    (folder / "bad.anb").write_bytes(b"Protocol")
    (folder / "bad.values").write_bytes(b"nothing\n")
    cases = [
        (anb.compile, (b"Protocol", "A"), ("compile", folder / "bad.anb", "A")),
        (anb.compile, (text, "Z"), ("compile", EXAMPLES / "mutual/mutual.anb", "Z")),
        (anb.compile, (b" " * 1048577, "A"), None),
        (anb.Session, (b"anb", values), ("enact", folder / "bad.anb", EXAMPLES / "mutual/A.values")),
        (anb.Session, (role, b"nothing\n"), None),
        (anb.Session, (role, seedless), None),
        (anb.Session, (role, values, b"short"), None),
        (anb.Session.resume, (role, b"key", b"no record"), None),
    ]
    due = [4, 5, 3, 16, 7, 8, 102, 30]
    for (call, words, command), status in zip(cases, due):
        if status_of(anb, call, *words) != status:
            raise ValueError(f"status {status_of(anb, call, *words)} in place of {status}")
        if command:
            run(program, *command, status=status)

    session = anb.Session(role, values)
    for early in (session.arrive, session.park):
        if status_of(anb, early, b"too soon") != anb.MISUSED:
            raise ValueError("a call out of turn isn't told")
    if not isinstance(session.next(), anb.Message) or not isinstance(session.next(), anb.Waiting):
        raise ValueError("a call out of turn lost a message")
    if status_of(anb, session.arrive, bytes(anb.ARRIVAL_MAX + 1)) != anb.TOO_LARGE:
        raise ValueError("a large arrival isn't told")
    session.arrive(b"no answer")
    for _ in range(2):
        if status_of(anb, session.next) != anb.STOPPED:
            raise ValueError("a bad arrival isn't told")
    session.close()
    session.close()
    if status_of(anb, session.next) != anb.MISUSED:
        raise ValueError("a closed session isn't told")


# Want of memory.


def under_valgrind(words):
    return [*VALGRIND, *words] if shutil.which("valgrind") else words


def check_memory(anb, prefix, folder):
    """How many allocations failed in turn."""
    built, mutual = folder / "fail", EXAMPLES / "mutual"
    run("cc", *WARNS, "-O2", f"-I{prefix}/include", CAPI / "tests/fail.c", prefix / "lib/libanb.a",
        "-Wl,--wrap=malloc,--wrap=realloc", "-o", built)
    words = [built, mutual / "mutual.anb", "A"]
    for role in "AB":
        (folder / f"{role}.role").write_bytes(anb.compile((mutual / "mutual.anb").read_bytes(), role))
        words += [folder / f"{role}.role", mutual / f"{role}.values"]
    return run(*under_valgrind(words)).decode().strip()


# Examples over a wire.


def free_port():
    with socket.socket() as probe:
        probe.bind(("127.0.0.1", 0))
        return probe.getsockname()[1]


def check_wire(program, example, folder):
    """Each role by the example, with `anb play` as the other; and with another key there."""
    mutual = EXAMPLES / "mutual"
    other = folder / "other.values"
    text, changed = re.subn(r"^K = .*$", f"K = x{'11' * 16}", (mutual / "B.values").read_text(), flags=re.M)
    if changed != 1:
        raise ValueError("the values of B have no line for K")
    other.write_text(text)
    for ours, theirs, listens, values, status in (
            ("A", "B", False, mutual / "B.values", 0), ("B", "A", True, mutual / "A.values", 0), ("A", "B", False, other, 10)):
        port = free_port()
        role = folder / f"{ours}.role"
        role.write_bytes(run(program, "compile", mutual / "mutual.anb", ours))
        way = ["--dial", f"127.0.0.1:{port}", "--timeout", "10"] if listens else ["--listen", f"127.0.0.1:{port}"]
        partner = subprocess.Popen([program, "play", mutual / "mutual.anb", theirs, values, *way], stdin=subprocess.DEVNULL, stderr=subprocess.PIPE)
        run(*example, role, mutual / f"{ours}.values", "listen" if listens else "dial", port, status=status)
        partner.communicate(timeout=60)
        if status == 0 and partner.returncode:
            raise ValueError(f"the program ended with {partner.returncode}")


def examples_of(prefix, folder):
    built = folder / "play"
    run("cc", *WARNS, "-O2", f"-I{prefix}/include", CAPI / "examples/play.c", prefix / "lib/libanb.a", "-o", built)
    yield "C", [built]
    if shutil.which("valgrind"):
        yield "C, under valgrind,", [*VALGRIND, built]
    yield "Python", [sys.executable, CAPI / "examples/play.py"]
    if shutil.which("rustc"):
        run("rustc", "--edition", "2024", "-O", CAPI / "examples/play.rs", "-L", prefix / "lib", "-l", "static=anb", "-o", folder / "play_rs")
        yield "Rust", [folder / "play_rs"]
    if shutil.which("go"):
        shutil.copy(CAPI / "examples/play.go", folder / "play.go")
        os.environ.update(CGO_CFLAGS=f"-I{prefix}/include", CGO_LDFLAGS=f"{prefix}/lib/libanb.a", GO111MODULE="off")
        run("go", "build", "-o", folder / "play_go", folder / "play.go")
        yield "Go", [folder / "play_go"]


def main(program, fresh):
    program = pathlib.Path(program).resolve()
    with tempfile.TemporaryDirectory() as name:
        folder = pathlib.Path(name)
        prefix = installed(fresh, folder)
        check_names(prefix)
        check_header(prefix, folder)
        print("the library stands alone, and anb.h is taken")

        os.environ["ANB_LIBRARY"] = str(prefix / "lib/libanb.so.0")
        sys.path.insert(0, str(CAPI))
        import anb
        counts = [0, 0, 0]
        for path in sorted(EXAMPLES.rglob("*.anb")):
            if "Choice" in path.read_text():
                continue
            messages, compared = check_narration(anb, program, path)
            counts = [counts[0] + 1, counts[1] + messages, counts[2] + compared]
        print(f"{counts[0]} narrations, {counts[1]} messages; the bytes of {counts[2]} are those of `stage`")
        check_refusals(anb, program, folder)
        print("refusals and misuse are told")
        print(f"each allocation fails in turn: {check_memory(anb, prefix, folder)}{'' if shutil.which('valgrind') else ', without valgrind'}")
        for language, example in examples_of(prefix, folder):
            check_wire(program, example, folder)
            print(f"the example in {language} plays against the program")


if __name__ == "__main__":
    told = [word for word in sys.argv[1:] if word != "--fresh"]
    if len(told) != 1:
        sys.exit(__doc__)
    try:
        main(told[0], "--fresh" in sys.argv)
    except (ValueError, subprocess.SubprocessError) as why:
        sys.exit(f"check_library: {why}")
