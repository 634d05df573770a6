"""Rows of bench/edge.py on stages: what becomes of their children."""
import concurrent.futures
import contextlib
import os
import re
import shutil
import signal
import subprocess
import time

from edge_runs import AT_ONCE, LATE, PATIENCE, Fault, can_unshare, is_process, wait_until, want, want_below, write_ping

# A child of a stage, with what A does, and what B does.
CHILD = r"""#!/bin/sh
echo $$ >> pids
case $3 in
    A) %s ;;
    B) %s ;;
esac
"""

SAYS, HEARS, WAITS = r"printf '\0\0\0\2ab'", "head -c 6 > /dev/null", "exec sleep 1000"

# An answer of B, and A's part with B's answer.
ANSWERS, PLAYS = "head -c 6", f"{SAYS}; {HEARS}"

REPORT = b"1 6162\n2 6162\nrelayed 2\n"

# How long a child may write after its last message, and what a stage takes beside it, in seconds.
DROPPING, SHORT = 2.0, 10.0

# What A and B do, and the status and the lines.
CHILDREN = (
    (PLAYS, ANSWERS, 0, ""),
    (f"{SAYS}; {WAITS}", f"{HEARS}; exit 0", 32, "child B ended with 0\nno message of action 2"),
    (f"{SAYS}; {WAITS}", HEARS + r"; printf '\0\0'", 33, "child B ended with 0\nmessage of action 2 ends after 2 of 4 bytes"),
    (f"{SAYS}; {WAITS}", HEARS + r"; printf '\0\4\0\1'", 34, "message of action 2 has 262145 bytes"),
    (PLAYS, f"{ANSWERS}; exit 10", 35, "child B ended with 10"),
    (PLAYS, f"{ANSWERS}; kill -9 $$", 31, "child B failed"),
    (PLAYS, f"{HEARS}; kill -9 $$", 32, "child B ended by signal 9\nno message of action 2"),
    (PLAYS, f"{ANSWERS}; head -c 1000000 /dev/zero", 0, ""),
)


def lines(text):
    return "".join(f"anb: {line}\n" for line in text.splitlines()).encode()


def ended(status, text=""):
    return status, REPORT if status == 0 else b"", lines(text)


def write_child(program, a, b, name="child"):
    program.write("pids", "")
    program.write_script(name, CHILD % (a, b))


def pids(program):
    return program.read("pids").decode().split()


def want_nobody(program, what):
    want(what, [pid for pid in pids(program) if is_process(pid)], [])


def start_stage(program, *words, child="./child", **how):
    return program.start("stage", "ping.anb", ".", *words, before=f"export ANB_CHILD={child};", **how)


def stage(program, *words, within=PATIENCE, **how):
    run = start_stage(program, *words, **how)
    return run, run.end(within=within)


def children_of_stages(program):
    """a stage leaves no child behind, whatever the children do"""
    write_ping(program)
    want("a stage of the program itself", program.run("stage", "ping.anb", ".")[1], ended(0))
    for a, b, *wanted in CHILDREN:
        write_child(program, a, b)
        want(f"the children {a!r} and {b!r}", stage(program)[1], ended(*wanted))
        want("children", len(pids(program)), 2)
        want_nobody(program, "children that are left")
    examples = os.path.join(os.path.dirname(os.path.abspath(__file__)), "..", "examples")
    for name, before, messages in (("nssk", "", 5), ("mutual", f"export ANB={program.path} ANB_CHILD={examples}/peer/child.py;", 3)):
        found = program.run("stage", f"{examples}/{name}/{name}.anb", f"{examples}/{name}", before=before)[1]
        want(f"a stage of {name}", (found[0], found[1].splitlines()[-1:]), (0, [b"relayed %d" % messages]))
    return f"{len(CHILDREN)} pairs of children, none left; nssk, and mutual with a role in Python"


def full_pipe():
    """The ends of a pipe that has no room left."""
    ours, theirs = os.pipe()
    os.set_blocking(theirs, False)
    with contextlib.suppress(BlockingIOError):
        while True:
            os.write(theirs, b"\n" * 4096)
    os.set_blocking(theirs, True)
    return ours, theirs


def children_end_first(program):
    """a stage ends its children before it tells its line, also where nobody reads that"""
    write_ping(program)
    write_child(program, f"{SAYS}; {WAITS}", f"{HEARS}; exit 0")
    ours, theirs = full_pipe()
    run = start_stage(program, stderr=theirs)
    os.close(theirs)
    wait_until("two children", lambda: len(pids(program)) == 2)
    wait_until("nobody is left", lambda: not any(map(is_process, pids(program))), SHORT)
    want("that the line isn't written yet", is_process(run.child.pid), True)
    with open(ours, "rb") as reader:
        told = reader.read()
    want("the line", told.strip(), ended(32, CHILDREN[1][3])[2].strip())
    want("the status", run.end()[0], 32)
    for _ in range(program.times):
        write_child(program, f"echo one >&2; {SAYS}; {WAITS}", f"echo two >&2; {HEARS}; exit 0")
        command = f'ANB_CHILD=./child "{program.path}" stage ping.anb . 2>&1 | head -n 1'
        said = subprocess.run(command, shell=True, cwd=program.folder, stdout=subprocess.PIPE, timeout=PATIENCE).stdout
        want("the first line", said in (b"one\n", b"two\n"), True)
        wait_until("nobody is left", lambda: not any(map(is_process, pids(program))), SHORT)
    return f"they end while the line waits; none left in {program.times} runs of | head -n 1"


def named_children(program):
    """a child program that can't be named or found is refused, and never another one is started"""
    write_ping(program)
    refused = ended(31, "child A failed")
    for value in (b"", b"\xff", b"./\xfe\xff", b"./nothing"):
        env = {**os.environb, b"ANB_CHILD": value}
        want(f"ANB_CHILD={value!r}", program.run("stage", "ping.anb", ".", env=env)[1], refused)
    folder = os.path.join(os.fsencode(program.folder), b"\xff\xfe")
    os.mkdir(folder)
    path = os.path.join(folder, b"anb")
    shutil.copy(program.path, path)
    want("in a folder that isn't UTF-8", program.run("stage", "ping.anb", ".", path=path)[1], ended(0))

    # It reads its narration, and starts its children, once the file of the program is gone.
    narration = os.path.join(program.folder, "fifo.anb")
    os.mkfifo(narration)
    run = program.start("stage", "fifo.anb", ".", path=path)
    with open(narration, "wb") as fifo:
        os.remove(path)
        os.remove(narration)
        program.write("fifo.anb", program.read("ping.anb"))
        fifo.write(program.read("ping.anb"))
    want("where the file of the program is gone", run.end(), ended(0))
    says = "4 names refused, a path of other bytes, a file that is gone"
    if not can_unshare():
        return f"{says}; without /proc not tried"
    command = ["unshare", "-rm", "sh", "-c", 'mount -t tmpfs none /proc && exec "$0" stage ping.anb .', program.path]
    done = subprocess.run(command, cwd=program.folder, capture_output=True, timeout=PATIENCE)
    line = "no /proc/self/exe, so ANB_CHILD must name a program\nchild A failed"
    want("without /proc", (done.returncode, done.stdout, done.stderr), ended(31, line))
    return f"{says}; without /proc"


def cast_roles(program):
    """a role that has a program is played by it, and all others as without it"""
    write_ping(program)
    write_child(program, PLAYS, 'echo "$@" > words; ' + ANSWERS)
    write_child(program, PLAYS, "exit 9", "other")
    program.write_script("spare", "#!/bin/sh\necho spare >> pids\nshift\nexec ./child \"$@\"\n")

    def staged(*casts, child=None):
        program.write("pids", "")
        before = f"export ANB_CHILD={child};" if child else ""
        behind = [word for role, what in casts for word in ("--as", role, what)]
        return program.run("stage", "ping.anb", ".", *behind, before=before)[1]

    want("a program for B", staged(("B", "./child")), ended(0))
    want("children of that program", len(pids(program)), 1)
    want("its words", program.read("words"), b"play ping.anb B ./B.values\n")
    want("a program with words", staged(("B", "  ./spare -x  ")), ended(0))
    want("children of that one", pids(program)[0], "spare")
    want("a program that is looked for", staged(("B", "sh ./child")), ended(0))
    want("a program for B beside ANB_CHILD", staged(("B", "./child"), child="./other"), ended(0))
    want("programs for both", staged(("B", "./child"), ("A", "./other"), child="./nothing"), ended(0))
    want("no such program", staged(("B", "./nothing -x")), ended(31, "can't start ./nothing\nchild B failed"))
    want("no such role", staged(("C", "./child")), ended(5, "no role C"))
    want("that nothing was started", pids(program), [])
    for what, casts in (("a role that stands twice", (("B", "./child"), ("B", "./child"))), ("no program", (("B", " "),))):
        want(what, staged(*casts), ended(1, "the words fit no command"))
    return "with words, beside ANB_CHILD, for one role and for both; 4 refused"


def ended_children(program):
    """a child that has ended is found to have ended, whoever holds its pipes"""
    write_ping(program)
    leaves = "sleep 1000 & echo $! >> left"
    found = []
    for a, b, *wanted in (
        (f"{PLAYS}; {leaves}", ANSWERS, 0),
        (PLAYS, f"{ANSWERS}; {leaves}", 0),
        (PLAYS, f"{HEARS}; {leaves}; exit 4", 32, "child B ended with 4\nno message of action 2"),
    ):
        program.write("left", "")
        write_child(program, a, b)
        try:
            run, outcome = stage(program, within=SHORT)
        finally:
            for pid in program.read("left").split():
                os.kill(int(pid), signal.SIGKILL)
        want(f"the children {a!r} and {b!r}", outcome, ended(*wanted))
        want_below("seconds", run.seconds, DROPPING + AT_ONCE)
        want_nobody(program, "children that are left")
        found.append(f"{run.seconds:.1f}")
    return f"{', '.join(found)} s"


def dropped_output(program):
    """after its last message a child may write four mebibytes in two seconds, in however many pieces"""
    write_ping(program)
    bytewise = "import os; [os.write(1, b'x') and os.sched_yield() for _ in range(5000)]"
    slowly = "while :; do echo x; sleep 0.1; done"
    found = []
    for what, b, *wanted in (
        ("5,000 single bytes", f'python3 -c "{bytewise}"', 0),
        ("5,000 bytes", "head -c 5000 /dev/zero", 0),
        ("4 MiB less a pipe", "head -c 4128768 /dev/zero", 0),
        ("8,000,000 bytes", "exec head -c 8000000 /dev/zero", 31, "child B failed"),
        ("a byte now and then", slowly, 31, "child B failed"),
        ("silence, then an end", "sleep 2.5", 0),
    ):
        write_child(program, PLAYS, f"{ANSWERS}; {b}")
        run, outcome = stage(program, within=SHORT)
        want(what, outcome, ended(*wanted))
        want_nobody(program, "children that are left")
        found.append(f"{run.seconds:.1f}")
    return f"{', '.join(found)} s"


def three_streams(program):
    """a child has three open streams, whatever the caller's were"""
    write_ping(program)
    looks = "ls /proc/$$/fd >> streams"
    write_child(program, f"{looks}; {SAYS}; head -c 6 > heard", f"{looks}; {ANSWERS}")

    def want_streams(what, found):
        streams = program.read("streams").decode().split()
        want(f"what the children have open, {what}", [streams.count(one) for one in "012"], [2, 2, 2])
        want(f"the status, {what}", found, 0)

    for closed in ("", "2>&-", "0<&- 2>&-", "0<&-", "0<&- 1>&- 2>&-"):
        program.write("streams", "")
        report = {"stdout": subprocess.DEVNULL} if "1>" in closed else {}
        status = stage(program, redirections=closed, **report)[1][0]
        # What a closed standard output doesn't take is a fault of writing.
        want_streams(closed, 0 if status == 15 and "1>" in closed else status)
    if not can_unshare():
        return "5 sets of closed streams; without /dev not tried"
    program.write("streams", "")
    inner = 'mount -t tmpfs none /dev && exec "$0" stage ping.anb . 2>&- 0<&-'
    command = ["unshare", "-rm", "sh", "-c", inner, program.path]
    env = {**os.environ, "ANB_CHILD": "./child"}
    done = subprocess.run(command, cwd=program.folder, env=env, capture_output=True, timeout=PATIENCE)
    want_streams("without /dev", done.returncode)
    want("what is heard, without /dev", program.read("heard"), b"\0\0\0\2ab")
    return "5 sets of closed streams, and without /dev"


def unkillable_child(program):
    """a child that can't be killed is told and left"""
    if os.getuid() != 0:
        return "not tried: only root can make such a child"
    write_ping(program)
    os.chmod(program.folder, 0o777)
    for name, source in (("anb", program.path), ("as_root", shutil.which("setpriv"))):
        shutil.copy(source, os.path.join(program.folder, name))
        os.chmod(os.path.join(program.folder, name), 0o755)
    os.chmod(os.path.join(program.folder, "as_root"), 0o4755)
    write_child(program, f"{SAYS}; exec ./as_root --reuid=0 --clear-groups sleep 4", f"{HEARS}; sleep 0.5; exit 0")
    os.chmod(os.path.join(program.folder, "pids"), 0o666)
    command = ["setpriv", "--reuid=65534", "--regid=65534", "--clear-groups", "./anb", "stage", "ping.anb", "."]
    began = time.monotonic()
    env = {**os.environ, "ANB_CHILD": "./child"}
    # The child that is left holds standard error.
    with open(os.path.join(program.folder, "told"), "wb") as told:
        done = subprocess.run(command, cwd=program.folder, env=env, stdout=told, stderr=told, timeout=PATIENCE)
    seconds = time.monotonic() - began
    first = [pid for pid in pids(program) if is_process(pid)]
    want("the status", done.returncode, 32)
    want("that one is left", len(first), 1)
    line = f"child B ended with 0\nprocess {first[0]} can't be killed\nno message of action 2"
    want("the lines", program.read("told"), lines(line))
    os.kill(int(first[0]), signal.SIGKILL)
    want_below("seconds", seconds, 2.5)
    return f"{seconds:.1f} s"


# What A and B do, with the values of the role, and the one answer.
FAULTS = (
    ("A ends at once", "exit 0", ANSWERS, 32, "child A ended with 0\nno message of action 1"),
    ("A ends late", "sleep 0.2; exit 3", ANSWERS, 32, "child A ended with 3\nno message of action 1"),
    ("B ends at once", PLAYS, "exit 0", 32, "child B ended with 0\nno message of action 2"),
    ("B ends late", PLAYS, "sleep 0.2; exit 3", 32, "child B ended with 3\nno message of action 2"),
    ("A ends before it hears", f"{SAYS}; exit 5", ANSWERS, 35, "child A ended with 5"),
    ("A hears nothing", f"{SAYS}; sleep 0.2; exit 5", ANSWERS, 35, "child A ended with 5"),
)


def one_answer(program):
    """one fault of a child has one status and one line"""
    write_ping(program)
    found = []
    # More at once than there are processors.
    with concurrent.futures.ThreadPoolExecutor(8) as side_by_side:
        for number, (what, a, b, *wanted) in enumerate(FAULTS):
            write_child(program, a, b, f"child{number}")
            outcomes = side_by_side.map(lambda _: stage(program, child=f"./child{number}")[1], range(program.times))
            want(f"the answers where {what}", set(outcomes), {ended(*wanted)})
        os.mkdir(os.path.join(program.folder, "refused"))
        for role, values in (("A", "N = x00"), ("B", "M = x00")):
            program.write(f"refused/{role}.values", values)
        outcomes = side_by_side.map(lambda _: program.run("stage", "ping.anb", "refused")[1], range(program.times))
        line = "values: M isn't asked for\nchild B ended with 7\nno message of action 2"
        want("the answers where B refuses its values", set(outcomes), {ended(32, line)})
    return f"{len(FAULTS) + 1} kinds of children, {program.times} runs each, 8 at once"


def stopped_children(program):
    """a stage goes on where it and its children are stopped and continued"""
    write_ping(program)
    write_child(program, f"sleep 0.3; {PLAYS}", f"{HEARS}; sleep 0.3; {SAYS}")
    for _ in range(min(program.times, 3)):
        program.write("pids", "")
        run = start_stage(program)
        wait_until("two children", lambda: len(pids(program)) == 2)
        for _ in range(10):
            for kind in (signal.SIGSTOP, signal.SIGCONT):
                for pid in (run.child.pid, *map(int, pids(program))):
                    # Where one has ended already, the stage's end says so.
                    with contextlib.suppress(ProcessLookupError):
                        os.kill(pid, kind)
                time.sleep(0.01)
        want("the stage", run.end(), ended(0))
    return "10 stops of a stage and its children"


def signalled_stages(program):
    """a signal that ends a stage ends its children"""
    write_ping(program)
    kinds = (signal.SIGINT, signal.SIGTERM, signal.SIGHUP, signal.SIGKILL)
    for kind in kinds:
        for to_group in (False, True):
            write_child(program, f"{SAYS}; {WAITS}", WAITS)
            run = start_stage(program)
            wait_until("two children", lambda: len(pids(program)) == 2)
            # A child is watched over just after it was started.
            time.sleep(0.1)
            if to_group:
                os.killpg(run.child.pid, kind)
            else:
                os.kill(run.child.pid, kind)
            wait_until(f"nobody is left after {kind.name}", lambda: not any(map(is_process, pids(program))), SHORT)
            want("the status", run.end()[0], -kind)
    return f"{', '.join(kind.name for kind in kinds)}, to the stage alone and to its group"


def own_values(program):
    """from a values file each child gets a file that its owner alone sees, and none is left, whatever ends the stage"""
    write_ping(program)
    program.write("all.values", 'N = "ab"\n@seed = x' + "00" * 32 + "\n")
    scratch = os.path.join(program.folder, "scratch")
    os.mkdir(scratch)
    looks = 'stat -c "%a %n" "${4%/*}" "$4" > seen.$3; cat "$4" >> seen.$3; '

    def start(a, b, folder="scratch"):
        write_child(program, looks + a, looks + b)
        return program.start("stage", "ping.anb", "all.values", before=f"export TMPDIR={folder} ANB_CHILD=./child;")

    want("children with files of their own", start(PLAYS, ANSWERS).end(), ended(0))
    for role in "AB":
        own = program.run("values", "ping.anb", role, "all.values")[1][1]
        folder, file, content = program.read(f"seen.{role}").split(b"\n", 2)
        want(f"what {role} gets", content, own)
        want("the folder", bool(re.fullmatch(rb"700 scratch/anb-\d+-0", folder)), True)
        want("the file", file, b"600 " + folder[4:] + b"/%s.values" % role.encode())
    want("what is left", os.listdir(scratch), [])
    before = "export TMPDIR=scratch;"
    want("a stage of the program itself", program.run("stage", "ping.anb", "all.values", before=before)[1], ended(0))
    want("without a seed", program.run("stage", "ping.anb", "ping.values", before=before)[1], ended(0))
    wrong = start(PLAYS, f"{HEARS}; exit 4").end()
    want("a child that fails", wrong, ended(32, "child B ended with 4\nno message of action 2"))
    want("what is left of all these", os.listdir(scratch), [])

    status, said, told = start(PLAYS, ANSWERS, "nothing").end()
    want("where no folder can be made", (status, said), (31, b""))
    want("its lines", bool(re.fullmatch(rb"anb: can't write nothing/anb-\d+-0\nanb: child A failed\n", told)), True)
    want("children", pids(program), [])

    kinds = (signal.SIGINT, signal.SIGTERM, signal.SIGHUP, signal.SIGKILL)
    for kind in kinds:
        run = start(f"{SAYS}; {WAITS}", WAITS)
        wait_until("two children", lambda: len(pids(program)) == 2)
        # A child is watched over just after it was started.
        time.sleep(0.1)
        want("folders", len(os.listdir(scratch)), 1)
        os.kill(run.child.pid, kind)
        wait_until(f"no folder is left after {kind.name}", lambda: not os.listdir(scratch), SHORT)
        wait_until(f"nobody is left after {kind.name}", lambda: not any(map(is_process, pids(program))), SHORT)
        want("the status", run.end()[0], -kind)
    return f"modes 700 and 600; gone after the end, a child that fails, and {', '.join(kind.name for kind in kinds)}"


# A transcript of A, and of B.
TRANSCRIPTS = {"A": b"> 6162\n< 6162\n", "B": b"< 6162\n> 6162\n"}


def recorded_stages(program):
    """a record has what was carried, whatever ends the stage, and each child's errors in a file of its own"""
    write_ping(program)
    program.write("all.values", 'N = "ab"\n@seed = x' + "00" * 32 + "\n")
    numbers = iter(range(100))

    def start(a, b, values=".", folder=None):
        write_child(program, f"echo a >&2; {a}", f"echo b >&2; {b}")
        folder = folder or f"record{next(numbers)}"
        run = program.start("stage", "ping.anb", values, "--record", folder, before="export ANB_CHILD=./child;")
        return run, folder

    def want_record(what, folder, report, **transcripts):
        for name, found in (("report", report), *((f"{role}.transcript", said) for role, said in transcripts.items())):
            want(f"the file {name}, {what}", program.read(f"{folder}/{name}"), found)
        for role in "AB":
            want(f"the errors of {role}, {what}", program.read(f"{folder}/{role}.errors"), role.lower().encode() + b"\n")
        at = os.path.join(program.folder, folder)
        modes = {oct(os.stat(os.path.join(at, name)).st_mode & 0o777) for name in os.listdir(at)}
        want(f"modes, {what}", (oct(os.stat(at).st_mode & 0o777), modes), ("0o700", {"0o600"}))

    run, folder = start(PLAYS, ANSWERS)
    want("a stage with a record", run.end(), ended(0))
    want_record("a whole one", folder, REPORT, **TRANSCRIPTS)
    want("what is left over", program.read(f"{folder}/left"), b"")
    for role in "AB":
        words = ("ping.anb", role, f"{role}.values", f"{folder}/{role}.transcript")
        want(f"a replay of {role}", program.run("replay", *words)[1], (0, b"", b""))
    run, _ = start(PLAYS, ANSWERS, folder=folder)
    want("the same folder", run.end(), (38, b"", lines(f"can't write {folder}/report")))
    want("children", pids(program), [])
    want_record("which stays", folder, REPORT, **TRANSCRIPTS)

    run, folder = start(PLAYS, f"{ANSWERS}; {SAYS}; printf x")
    want("a child that says too much", run.end(), ended(0))
    want_record("too much", folder, REPORT, **TRANSCRIPTS)
    want("what is left over", program.read(f"{folder}/left"), b"B 1 7\n")

    run, folder = start(PLAYS, ANSWERS, "all.values")
    want("a stage from a values file", run.end(), ended(0))
    want_record("with values", folder, REPORT, **TRANSCRIPTS)
    for role in "AB":
        own = program.run("values", "ping.anb", role, "all.values")[1][1]
        want(f"the values of {role}", program.read(f"{folder}/{role}.values"), own)

    run, folder = start(PLAYS, f"{HEARS}; exit 4")
    told = f"child B ended with 4\nsee {folder}/B.transcript and {folder}/B.errors\nno message of action 2"
    status, said, line = run.end()
    want("a child that ends early", (status, said, sorted(line.splitlines())), (32, b"", sorted(lines(told).splitlines())))
    want_record("one message", folder, b"1 6162\n", A=b"> 6162\n", B=b"< 6162\n")

    for kind in (signal.SIGTERM, signal.SIGKILL):
        run, folder = start(f"{SAYS}; {WAITS}", f"{HEARS}; {WAITS}")
        at = os.path.join(program.folder, folder, "report")
        wait_until("a line", lambda: os.path.exists(at) and os.path.getsize(at) > 0)
        errors = [os.path.join(program.folder, folder, f"{role}.errors") for role in "AB"]
        wait_until("the errors of both", lambda: all(os.path.getsize(it) > 0 for it in errors))
        os.kill(run.child.pid, kind)
        wait_until(f"nobody is left after {kind.name}", lambda: not any(map(is_process, pids(program))), SHORT)
        want("the status", run.end()[0], -kind)
        want_record(kind.name, folder, b"1 6162\n", A=b"> 6162\n", B=b"< 6162\n")

    os.mkdir(os.path.join(program.folder, "full"))
    os.symlink("/dev/full", os.path.join(program.folder, "full", "A.errors"))
    run, _ = start(PLAYS, ANSWERS, folder="full")
    want("a file of A", run.end(), (38, b"", lines("can't write full/A.errors")))
    return "whole, too much said, from a values file, refused, and after SIGTERM and SIGKILL"


# A message of 200,000 bytes, which no pipe takes at once, and one whose bytes come one after another.
LONG = r"printf '\0\3\15\100'; head -c 200000 /dev/zero"
SLOW = "; ".join(f"printf '{byte}'; sleep 0.6" for byte in (r"\0", r"\0", r"\0", r"\2", "a", "b"))

# What A and B do with a limit of a second, and whose child was silent.
SILENT = (
    ("A says nothing", WAITS, ANSWERS, "A"),
    ("A stops within its message", rf"printf '\0\0'; {WAITS}", ANSWERS, "A"),
    ("B says nothing", f"{SAYS}; {WAITS}", f"{HEARS}; {WAITS}", "B"),
    ("B hears nothing", f"{LONG}; {WAITS}", WAITS, "B"),
    ("A doesn't end", f"{PLAYS}; {WAITS}", ANSWERS, "A"),
    ("B ends its output and runs on", PLAYS, f"{ANSWERS}; exec >&-; {WAITS}", "B"),
)


def silent_children(program):
    """with --timeout no child is waited for longer without a byte, and all are ended"""
    write_ping(program)
    found = []
    for what, a, b, role in SILENT:
        write_child(program, a, b)
        run, outcome = stage(program, "--timeout", "1", within=SHORT)
        want(what, outcome, ended(37, f"child {role} was silent for 1 seconds"))
        want_below("seconds", run.seconds, 1 + LATE)
        want_below("seconds of the processor", run.processor, LATE)
        want_nobody(program, "children that are left")
        found.append(f"{run.seconds:.2f}")
    write_child(program, f"{SLOW}; {HEARS}", f"{ANSWERS}; sleep 0.6; exit 0")
    run, outcome = stage(program, "--timeout", "1", within=SHORT)
    want("children that are slow", outcome, ended(0))
    for words in (("--timeout",), ("--timeout", "0"), ("--timeout", "86401"), ("--timeout", "1s"), ("--limit", "1")):
        want(f"the words {words}", program.run("stage", "ping.anb", ".", *words)[1], ended(1, "the words fit no command"))
    return f"{', '.join(found)} s; slow children {run.seconds:.1f} s"


STAGES = (
    children_of_stages,
    children_end_first,
    named_children,
    cast_roles,
    own_values,
    recorded_stages,
    ended_children,
    dropped_output,
    silent_children,
    three_streams,
    unkillable_child,
    one_answer,
    stopped_children,
    signalled_stages,
)
