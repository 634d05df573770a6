"""The edge of the built program to the machine: sockets, descriptors, memory, time; a line for each row.

    python3 bench/edge.py PROGRAM [--quick] [ROW ..]

Each row runs the program over loopback or pipes, and looks at what no proof can see. A row waits for
what the system says of the program and never for a fixed time. With --quick the rows that take long are
left out, and what may go well by chance is tried less often; docs/check.py runs these. The status is 1
where a row fails. Wants Linux and /bin/sh. What needs mounts of its own, or another user, says where it
wasn't tried.
"""
import contextlib
import os
import resource
import shutil
import signal
import socket
import subprocess
import sys
import tempfile
import time

from edge_runs import (
    ARRIVAL,
    AT_ONCE,
    FRAME,
    LATE,
    MOST_MEMORY,
    OTHER,
    PING,
    PATIENCE,
    Fault,
    Program,
    accept,
    can_unshare,
    dial,
    free_address,
    in_time,
    listener,
    read_all,
    want,
    want_below,
    write_ping,
)
from edge_records import RECORDS
from edge_stages import STAGES
from edge_probes import PROBES


def closed_streams(program):
    """what is closed at the start never becomes the socket: the peer gets frames alone"""
    write_ping(program)
    for closed in ("2>&-", "0<&- 2>&-", "1>&- 2>&-", "0<&- 1>&- 2>&-"):
        made, at = listener()
        run = program.start("play", "ping.anb", "A", "ping.values", "--dial", at, redirections=closed)
        peer = accept(made)
        peer.sendall(OTHER)
        want(f"what a listener got, {closed}", read_all(peer), (FRAME, False))
        peer.close()
        want(f"dialling, {closed}", run.end()[0], 10)

        at = free_address()
        run = program.start("play", "ping.anb", "B", "ping.values", "--listen", at, redirections=closed)
        peer = dial(at)
        peer.sendall(OTHER)
        want(f"what a dialling peer got, {closed}", read_all(peer), (b"", False))
        peer.close()
        want(f"listening, {closed}", run.end()[0], 10)
    return "dialling and listening, 4 sets of closed streams each"


def unread_bytes(program):
    """a byte that is unread at the end costs a slow peer nothing of what was written"""
    program.write(
        "long.anb",
        "Protocol: Long; Types: Agent A, B; Number M, N; Knowledge: A: M, N; B: M, N;"
        "Actions: A -> B: M; A -> B: N;",
    )
    program.write("long.values", "".join(f'{name} = "{"a" * ARRIVAL}"\n' for name in "MN"))
    sent = (ARRIVAL.to_bytes(4, "big") + b"a" * ARRIVAL) * 2
    for surplus in (0, 1, 1, 1, 1, 60_000):
        made, at = listener(buffer=4096)
        run = program.start("play", "long.anb", "A", "long.values", "--dial", at)
        peer = accept(made)
        peer.sendall(b"x" * surplus)
        # The program is always as far as it can be when the peer reads on.
        got, was_reset = read_all(peer, 4096, run.wait_until_it_waits)
        want(f"bytes that came, {surplus} in surplus", (len(got), was_reset), (len(sent), False))
        want("the bytes", got == sent, True)
        peer.close()
        want(f"the status, {surplus} in surplus", run.end()[::2], (0, b""))
    return f"all {len(sent)} bytes came in 6 of 6 runs"


def write_alternating(program):
    actions = "".join("A -> B: N;\nB -> A: N;\n" for _ in range(128))
    program.write("turns.anb", f"Protocol: Turns; Types: Agent A, B; Number N; Knowledge: A: N; B: N; Actions:\n{actions}")
    program.write("turns.values", 'N = "ab"\n')


def small_frames(program):
    """256 alternating messages between two programs over TCP"""
    write_alternating(program)
    found = []
    for _ in range(5):
        at = free_address()
        b = program.start("play", "turns.anb", "B", "turns.values", "--listen", at, "--timeout", "30")
        a = program.start("play", "turns.anb", "A", "turns.values", "--dial", at, "--timeout", "30")
        want("A", a.end(), (0, b"", b""))
        want("B", b.end(), (0, b"", b""))
        found.append(max(a.seconds, b.seconds))
    want_below("seconds", min(found), AT_ONCE)
    return f"{min(found):.3f} to {max(found):.3f} s in 5 runs"


def small_frames_over_pipes(program):
    """256 alternating messages between two programs over pipes"""
    write_alternating(program)
    (one, to_one), (two, to_two) = os.pipe(), os.pipe()
    a = program.start("play", "turns.anb", "A", "turns.values", stdin=one, stdout=to_two)
    b = program.start("play", "turns.anb", "B", "turns.values", stdin=two, stdout=to_one)
    for end in (one, to_one, two, to_two):
        os.close(end)
    want("A", a.end()[::2], (0, b""))
    want("B", b.end()[::2], (0, b""))
    want_below("seconds", max(a.seconds, b.seconds), AT_ONCE)
    return f"{max(a.seconds, b.seconds):.3f} s"


def small_role_file(program):
    """a role file of 1,415 bytes and one frame don't fill the memory"""
    lines = ["anb-role 2", "protocol P", "role A", "suite sha256", 'format d "d" len len', "code", "r0 = recv"]
    lines += [f"r{k} = build d r{k - 1} r{k - 1}" for k in range(1, 8)]
    text, number = "\n".join(lines), 8
    while len(text) + len(f"\nr{number} = build d r6 r7\nend\n") <= 1415:
        text, number = f"{text}\nr{number} = build d r6 r7", number + 1
    program.write("wide.role", text + "\nend\n")
    program.write("no.values", "")
    frame = ARRIVAL.to_bytes(4, "big") + b"a" * ARRIVAL
    run, ended = program.run("enact", "wide.role", "no.values", given=frame)
    want("the run", ended, (0, b"", b""))
    want_below("megabytes", run.memory, MOST_MEMORY)
    return f"{run.memory:.0f} MB, {run.processor:.1f} s of a processor"


def small_narration(program):
    """100 hashes over 58 levels of a literal of 20,000 bytes, with a value of one byte"""
    levels, found = 58, []
    for kinds in (1, 100):
        names = [f"N{k}" for k in range(kinds)]
        actions = "".join(f"A->B:h({'f(' * levels}{names[k % kinds]}{')' * levels});" for k in range(100))
        known = ",".join(names)
        program.write(
            "deep.anb",
            f'Protocol: Deep; Types: Agent A, B; Number {known}; Formats: f = "{"a" * 20_000}" len;'
            f"Knowledge: A: {known}; B: {known}; Actions: {actions}",
        )
        program.write("deep.values", "".join(f'{name} = "x"\n' for name in names))
        run, (status, wrote, line) = program.run("play", "deep.anb", "A", "deep.values")
        want("the run", (status, len(wrote), line), (0, 100 * 36, b""))
        want_below(f"megabytes, {kinds} names", run.memory, MOST_MEMORY)
        found.append(f"{run.memory:.0f} MB, {run.processor:.1f} s of a processor with {kinds} names")
    return "; ".join(found)


def no_memory_for_words(program):
    """where memory runs out while the words are read, the line is told with the status"""
    found = []
    for words in (["help"], ["fmt", "a" * 120_000]):
        _, (usual, _, usual_line) = program.run(*words)
        runs, told, as_usual, limit = 0, 0, 0, 1000
        while as_usual < 10:
            _, (status, _, line) = program.run(*words, before=f"ulimit -v {limit};")
            is_usual = (status, line) == (usual, usual_line)
            if status == 99:
                want(f"the line at {limit} kB", line, b"anb: no memory\n")
                told += 1
            elif line.startswith(b"anb: "):
                want(f"the status and the line at {limit} kB", (status, line), (usual, usual_line))
            # Below these limits the program isn't started at all.
            runs, as_usual, limit = runs + 1, as_usual + 1 if is_usual else 0, limit + 16
        want("that memory ran out", told > 0, True)
        found.append(f"{told} of {runs}")
    return f"{', '.join(found)} runs had no memory, each with its line"


def letters(number):
    """A short name: names of different numbers are different."""
    digits = "abcdefghijklmnopqrstuvwxyzABCDEFGHIJKLMNOPQRSTUVWXYZ"
    text = digits[number % 52]
    while number >= 52:
        number = number // 52 - 1
        text = digits[number % 52] + text
    return text + "0" if text in ("h", "mac", "Key") else text


def long_refusals(program):
    """what is beyond a limit is refused at once, however far; what is built 20,000 times is dropped"""
    names = [letters(k) for k in range(105_000)]
    roles = "Protocol:P;Types:Agent " + ",".join(names) + ";Knowledge:" + "".join(f"{name}:;" for name in names)
    program.write("roles.anb", roles + "Actions:a->b:a;")
    head = "anb-role 2\nprotocol P\nrole A\nsuite sha256\n"
    takes = "".join(f"r{k} = take {letters(k)}\n" for k in range(120_000))
    program.write("takes.role", f"{head}code\n{takes}r120000 = take a\nend\n")
    pieces = "format f " + " ".join(['"a"'] * 80_000)
    builds = "".join(f"r{k} = build f\n" for k in range(20_000))
    program.write("pieces.role", f"{head}{pieces}\ncode\n{builds}end\n")
    program.write("no.values", "")
    found = []
    for file, words, status, seconds in (
        ("roles.anb", ["compile", "roles.anb", "a"], 4, AT_ONCE),
        ("takes.role", ["enact", "takes.role", "no.values"], 16, AT_ONCE),
        # 1.6 gigabytes are built here, a byte at a time.
        ("pieces.role", ["enact", "pieces.role", "no.values"], 0, PATIENCE),
    ):
        # The time of a processor is what counts: a busy machine takes several times as long.
        run, (ended, _, line) = program.run(*words, within=10 * PATIENCE)
        want(f"the status of {file}, which says {line[:80]}", ended, status)
        want_below(f"seconds of a processor for {file}", run.processor, seconds)
        want_below(f"megabytes of {file}", run.memory, MOST_MEMORY)
        found.append(f"{file} {run.processor:.2f} s, {run.memory:.0f} MB, {line[:60].decode().strip() or 'no line'}")
    return "; ".join(found)


def path_of_other_bytes(program):
    """a path of the program that isn't UTF-8 changes nothing"""
    folder = os.path.join(os.fsencode(program.folder), b"\xff\xfe")
    os.mkdir(folder)
    path = os.path.join(folder, b"anb")
    shutil.copy(program.path, path)
    _, wanted = program.run("help")
    want("help", wanted[::2], (0, b""))
    want("the same in that folder", program.run("help", path=path)[1], wanted)
    want("a word that isn't UTF-8", program.run(b"fmt", b"\xff", path=path)[1], (1, b"", b"anb: the words fit no command\n"))
    return "help runs there"


def shared_error_pipe(program):
    """48 programs at once write whole lines to one pipe"""
    count, side_by_side = 4_000, 48
    names = [f"/nope/file{k}" for k in range(count)]
    command = ["xargs", "-P", str(side_by_side), "-n", "1", program.path, "fmt"]
    ran = subprocess.run(command, input="\n".join(names).encode(), stdout=subprocess.PIPE, stderr=subprocess.STDOUT, timeout=600)
    found = sorted(ran.stdout.splitlines())
    wanted = sorted(f"anb: can't read {name}".encode() for name in names)
    torn = len(set(found) - set(wanted))
    want("torn lines", torn, 0)
    want("lines", len(found), count)
    return f"{count} lines, none torn"


def silent_peers(program):
    """--timeout ends each wait for a peer that does nothing, and makes dialling wait for one"""
    write_ping(program)
    program.write("big.anb", "Protocol: Big; Types: Agent A, B; Number N; Knowledge: A: N; B: N; Actions:" + "A -> B: N;" * 64)
    program.write("big.values", f'N = "{"a" * ARRIVAL}"\n')
    nobody = free_address()
    made, silent = listener(buffer=4096)
    unreached = f"anb: can't reach {nobody}\n".encode()
    found = []
    for limit in (1, 2):
        for what, words, status, line in (
            ("a peer that sends nothing", ["ping.anb", "A", "ping.values", "--dial", silent], 14, b"anb: read failed\n"),
            ("a peer that reads nothing", ["big.anb", "A", "big.values", "--dial", silent], 15, b"anb: write failed\n"),
            ("nobody listens", ["ping.anb", "A", "ping.values", "--dial", nobody], 9, unreached),
            ("nobody dials", ["ping.anb", "B", "ping.values", "--listen", nobody], 9, unreached),
        ):
            run, ended = program.run("play", *words, "--timeout", str(limit))
            want(what, ended, (status, b"", line))
            want_below(f"seconds, {what}", run.seconds, limit + LATE)
            want(f"{what}: that it waits for {limit} s", run.seconds >= limit, True)
            found.append(f"{run.seconds:.2f}")
    at = free_address()
    run = program.start("play", "ping.anb", "A", "ping.values", "--dial", at, "--timeout", "30")
    run.wait_until_it_waits()
    peer = accept(listener_at(at))
    peer.sendall(FRAME)
    want("what a late listener got", read_all(peer), (FRAME, False))
    peer.close()
    want("with a late listener", run.end(), (0, b"", b""))
    return f"{', '.join(found)} s with limits of 1 and 2; a late listener is reached"


def listener_at(at):
    """A socket that listens there, once the address is free."""
    host, port = at.split(":")
    made = socket.socket()
    made.setsockopt(socket.SOL_SOCKET, socket.SO_REUSEADDR, 1)
    end = time.monotonic() + PATIENCE
    while True:
        try:
            made.bind((host, int(port)))
            break
        except OSError:
            if time.monotonic() > end:
                raise
            time.sleep(0.001)
    made.listen()
    made.settimeout(PATIENCE)
    return made


def parked_in_silence(program):
    """park and resume with --timeout park a role whose peer is silent before a frame, and none within one"""
    write_ping(program)
    program.write("key", "a key of its own")
    made, at = listener()

    def dials(*words, says=b""):
        def once():
            run = program.start(*words, "--dial", at, "--timeout", "1")
            peer = accept(made)
            peer.sendall(says)
            got, _ = read_all(peer)
            peer.close()
            return run, (got, run.end())

        return in_time(words[0], 1 + LATE, once)

    parked = (29, b"", b"anb: parked at event 2\n")
    got, ended = dials("park", "ping.anb", "A", "ping.values", "key")
    want("park, a silent peer", ended, parked)
    record = got[len(FRAME) + 4 :]
    want("the message and the record's length", got[: len(FRAME) + 4], FRAME + len(record).to_bytes(4, "big"))
    program.write("record", record)
    want("resume, a silent peer", dials("resume", "ping.anb", "A", "record", "key"), (got[len(FRAME) :], parked))
    want("resume, an answer", dials("resume", "ping.anb", "A", "record", "key", says=FRAME), (b"", (0, b"", b"")))
    failed = (14, b"", b"anb: read failed\n")
    words = ("ping.anb", "A", "ping.values")
    want("park, silence within a frame", dials("park", *words, "key", says=FRAME[:2]), (FRAME, failed))
    want("play, a silent peer", dials("play", *words), (FRAME, failed))
    return "parked and resumed in silence; within a frame it is a fault"


def slow_peers(program):
    """--timeout bounds a whole frame, from its first byte to its last, and a whole piece that is written"""
    write_ping(program)
    frame = (100).to_bytes(4, "big") + b"a" * 100
    found = []
    for what, at_once in (("a byte each 0.2 s", 0), ("a length, then a byte each 0.2 s", 4)):
        made, at = listener()
        run = program.start("play", "ping.anb", "B", "ping.values", "--dial", at, "--timeout", "2")
        peer = accept(made)
        began = time.monotonic()
        with contextlib.suppress(BrokenPipeError, ConnectionResetError):
            peer.sendall(frame[:at_once] or frame[:1])
            for byte in frame[at_once or 1 : at_once + 20]:
                time.sleep(0.2)
                peer.sendall(bytes([byte]))
                if run.state() in "ZX":
                    break
        want(what, run.end(), (14, b"", b"anb: read failed\n"))
        want_below(f"seconds, {what}", time.monotonic() - began, 2 + 2 * LATE)
        found.append(f"{time.monotonic() - began:.1f}")
    # Frames that are whole in time may come for as long as they like.
    write_alternating(program)
    made, at = listener()
    run = program.start("play", "turns.anb", "B", "turns.values", "--dial", at, "--timeout", "1")
    peer = accept(made)
    for _ in range(4):
        for piece in (FRAME[:3], FRAME[3:]):
            time.sleep(0.4)
            peer.sendall(piece)
        want("an answer", peer.recv(6, socket.MSG_WAITALL), FRAME)
    peer.close()
    want("frames in time", run.end()[0] in (11, 14, 15), True)
    return f"{', '.join(found)} s with a limit of 2"


def with_hosts(program, hosts, words):
    """The words under a file of hosts that is this row's, which it may write."""
    program.write("hosts", hosts)
    # Nobody else is asked for a name.
    program.write("nobody", "nameserver 127.0.0.1\noptions timeout:1 attempts:1\n")
    inner = 'mount --bind hosts /etc/hosts && mount --bind nobody /etc/resolv.conf && exec "$0" "$@"'
    command = ["unshare", "-rm", "sh", "-c", inner, program.path, *words]
    pipes = {"stdin": subprocess.DEVNULL, "stdout": subprocess.PIPE, "stderr": subprocess.PIPE}
    return subprocess.Popen(command, cwd=program.folder, **pipes)


def names_of_hosts(program):
    """--timeout bounds connecting over all addresses of a name, and a name may come late"""
    if not can_unshare():
        return "not tried: no mounts of its own"
    write_ping(program)
    words = ["play", "ping.anb", "A", "ping.values", "--timeout", "1", "--dial"]
    # Each of these takes no more connections, and answers none: it is full.
    port, full = None, []
    for number in range(2, 8):
        made = socket.socket()
        made.bind((f"127.0.0.{number}", port or 0))
        port = made.getsockname()[1]
        made.listen(0)
        full.append(made)
        for _ in range(3):
            filler = socket.socket()
            filler.setblocking(False)
            filler.connect_ex((f"127.0.0.{number}", port))
            full.append(filler)
    hosts = "".join(f"127.0.0.{number} many.test\n" for number in range(2, 8))
    found = []
    for what, name, text in (("6 addresses", "many.test", hosts), ("no address", "none.test", hosts)):
        began = time.monotonic()
        words[5:] = ["--dial", f"{name}:{port}", "--timeout", "1"]
        run = with_hosts(program, text, words[:4] + words[5:])
        _, line = run.communicate(timeout=PATIENCE)
        seconds = time.monotonic() - began
        want(what, (run.returncode, line), (9, f"anb: can't reach {name}:{port}\n".encode()))
        want(f"{what}: that it waits for a second", seconds >= 1, True)
        want_below(f"seconds, {what}", seconds, 1 + LATE)
        found.append(f"{seconds:.2f}")
    made, at = listener()
    port = at.split(":")[1]
    run = with_hosts(program, "", ["play", "ping.anb", "A", "ping.values", "--dial", f"late.test:{port}", "--timeout", "30"])
    time.sleep(0.3)
    with open(os.path.join(program.folder, "hosts"), "w") as file:
        file.write("127.0.0.1 late.test\n")
    peer = accept(made)
    peer.sendall(FRAME)
    want("a name that comes late", read_all(peer), (FRAME, False))
    peer.close()
    want("its status", (run.communicate(timeout=PATIENCE)[1], run.returncode), (b"", 0))
    return f"{', '.join(found)} s with a limit of 1; a name that comes late is dialled"


def free_ports(program):
    """--listen with port 0 tells the port that it took"""
    write_ping(program)
    for host, limit in (("127.0.0.1", []), ("127.0.0.1", ["--timeout", "30"]), ("localhost", [])):
        run = program.start("play", "ping.anb", "B", "ping.values", "--listen", f"{host}:0", *limit, stderr=subprocess.PIPE)
        told = run.first_line()
        want("what is told", told.startswith(b"anb: listening at ") and told.endswith(b"\n"), True)
        peer = dial_to(told.split()[-1].decode())
        peer.sendall(FRAME)
        want("what the peer got", read_all(peer), (FRAME, False))
        peer.close()
        want("the status", run.end()[0], 0)
    return "a peer dials what was told"


def dial_to(at):
    host, _, port = at.rpartition(":")
    return socket.create_connection((host.strip("[]"), int(port)), PATIENCE)


def dials_itself(program):
    """dialling never connects with itself"""
    write_ping(program)
    with open("/proc/sys/net/ipv4/ip_local_port_range") as file:
        low, high = map(int, file.read().split())
    most = resource.getrlimit(resource.RLIMIT_NOFILE)[1]
    resource.setrlimit(resource.RLIMIT_NOFILE, (most, most))
    # The system takes even ports first, so the next one that it takes is the only one that is left.
    taken, port = [], None
    for number in range(low + low % 2, high, 2):
        made = socket.socket()
        try:
            made.bind(("127.0.0.1", number))
        except OSError:
            made.close()
            continue
        if port is None:
            port = number
            made.close()
        else:
            taken.append(made)
    at = f"127.0.0.1:{port}"
    run, ended = program.run("play", "ping.anb", "A", "ping.values", "--dial", at, "--timeout", "1")
    want("with nobody", ended, (9, b"", f"anb: can't reach {at}\n".encode()))
    run, ended = program.run("play", "ping.anb", "A", "ping.values", "--dial", at)
    want("with nobody, and no limit", ended, (9, b"", f"anb: can't reach {at}\n".encode()))
    run = program.start("play", "ping.anb", "A", "ping.values", "--dial", at, "--timeout", "30")
    time.sleep(0.2)
    peer = accept(listener_at(at))
    peer.sendall(FRAME)
    want("what a late listener got", read_all(peer), (FRAME, False))
    peer.close()
    want("with a late listener", run.end(), (0, b"", b""))
    for made in taken:
        made.close()
    return f"{len(taken)} ports taken, so that the first try would"


def stop_and_go(pid):
    os.kill(pid, signal.SIGSTOP)
    time.sleep(0.01)
    os.kill(pid, signal.SIGCONT)
    time.sleep(0.01)


def stopped_roles(program):
    """a role that is stopped and continued while it waits goes on as if nothing had been"""
    write_ping(program)
    for flag in ("--dial", "--listen"):
        made, at = listener()
        if flag == "--listen":
            made.close()
        run = program.start("play", "ping.anb", "B", "ping.values", flag, at, "--timeout", "60")
        if flag == "--listen":
            run.wait_until_it_waits()
            stop_and_go(run.child.pid)
            peer = dial(at)
        else:
            peer = accept(made)
        for piece in (FRAME[:5], FRAME[5:]):
            run.wait_until_it_waits()
            for _ in range(5):
                stop_and_go(run.child.pid)
            peer.sendall(piece)
        want(f"what the peer got, {flag}", read_all(peer), (FRAME, False))
        peer.close()
        want(f"the status, {flag}", run.end(), (0, b"", b""))
    run = program.start("play", "ping.anb", "B", "ping.values")
    for piece in (FRAME[:5], FRAME[5:]):
        run.wait_until_it_waits()
        for _ in range(5):
            stop_and_go(run.child.pid)
        run.child.stdin.write(piece)
        run.child.stdin.flush()
    want("on pipes", run.end(), (0, FRAME, b""))
    return "while it reads over TCP and pipes, and while it listens"


def dropped_bytes(program):
    """a peer may send four mebibytes too much, in however many pieces, and loses nothing"""
    write_ping(program)
    found = []
    for what, pieces in (("5,000 single bytes", [b"x"] * 5000), ("1,000,000 bytes", [b"x" * 1_000_000])):
        made, at = listener()
        run = program.start("play", "ping.anb", "A", "ping.values", "--dial", at)
        peer = accept(made)
        peer.setsockopt(socket.IPPROTO_TCP, socket.TCP_NODELAY, 1)
        peer.sendall(FRAME)
        time.sleep(0.05)
        began = time.monotonic()
        try:
            for piece in pieces:
                peer.sendall(piece)
                os.sched_yield()
        except OSError as fault:
            # The program hears them for two seconds. A machine that is too busy to send them by then shows nothing.
            if time.monotonic() - began > 1.8:
                found.append(f"not {what}: this machine sends them too slowly")
                peer.close()
                run.end()
                continue
            raise Fault(f"{what}: {fault}") from None
        peer.shutdown(socket.SHUT_WR)
        want(f"what the peer got, {what}", read_all(peer), (FRAME, False))
        peer.close()
        want(f"the status, {what}", run.end(), (0, b"", b""))
        found.append(what)
    return "; ".join(found)


# The commands with words for which they end with 0, and with a word that makes them write a line.
def commands(program):
    write_ping(program)
    program.write("choice.anb", PING.replace("B -> A: N;", "Choice: B; Actions: B -> A: f(N); Actions: B -> A: g(N);")
                  .replace("Knowledge", 'Formats: f = "F" len; g = "G" len;\nKnowledge'))
    program.write("transcript", "> 6162\n< 6162\n")
    program.write("schedule", "A B B A\n")
    program.write("key", "key")
    role = ["ping.anb", "A", "ping.values"]
    program.write("A.role", program.run("compile", "ping.anb", "A")[1][1])
    program.write("record", program.run("park", *role, "key")[1][1][10:])
    return [
        ["fmt", "ping.anb"],
        ["compile", "ping.anb", "A"],
        ["explain", "ping.anb", "A"],
        ["play", *role],
        ["enact", "A.role", "ping.values"],
        ["replay", *role, "transcript"],
        ["host", *role],
        ["rehearse", "ping.anb", "ping.values", "schedule"],
        ["drill", "1"],
        ["branch", "choice.anb", "A", "ping.values"],
        ["certify", "ping.anb", "A", "A.role"],
        ["why", "ping.anb"],
        ["park", *role, "key"],
        ["resume", "ping.anb", "A", "record", "key"],
        ["chart", "ping.anb"],
        ["check", "ping.anb"],
        ["trace", *role, "transcript"],
        ["judge", *role, "transcript"],
        ["stage", "ping.anb", "."],
        ["probe", *role, "--", "cat"],
        ["values", "ping.anb"],
        ["help"],
    ]


SIGNALS = {
    "at its default": lambda: signal.signal(signal.SIGPIPE, signal.SIG_DFL),
    "ignored": lambda: signal.signal(signal.SIGPIPE, signal.SIG_IGN),
    "blocked": lambda: signal.pthread_sigmask(signal.SIG_BLOCK, [signal.SIGPIPE]),
}


def closed_pipes(program):
    """a reader that has gone is a fault of writing for every command, and never a signal"""
    all_words = commands(program)
    want("the commands", sorted(words[0] for words in all_words), sorted(line.split()[1].decode() for line in program.run("help")[1][1].splitlines()))
    gone, closed = os.pipe()
    os.close(gone)
    given = os.path.join(program.folder, "given")
    program.write("given", b"\0\0\0\0\0")

    def run(words, prepare, out, err):
        with open(given if words[0] == "host" else os.devnull, "rb") as stdin:
            return subprocess.run([program.path, *words], cwd=program.folder, stdin=stdin, stdout=out, stderr=err,
                                  preexec_fn=prepare, restore_signals=False, timeout=PATIENCE)

    for how, prepare in SIGNALS.items():
        for words in all_words:
            # What writes nothing can't fail to.
            status, line = (0, b"") if words[0] in ("replay", "judge") else (15, b"anb: write failed\n")
            wrong = [words[0], *(["nothing"] * (len(words) - 1) or ["nothing"])]
            usual = run(wrong, prepare, subprocess.DEVNULL, subprocess.PIPE)
            for _ in range(program.times):
                done = run(words, prepare, closed, subprocess.PIPE)
                want(f"standard output of {words[0]}, SIGPIPE {how}", (done.returncode, done.stderr), (status, line))
                done = run(words, prepare, closed, closed)
                want(f"both of {words[0]}, SIGPIPE {how}", done.returncode, status)
                done = run(wrong, prepare, subprocess.DEVNULL, closed)
                want(f"standard error of {words[0]}, SIGPIPE {how}", done.returncode, usual.returncode)
    os.close(closed)
    return f"{len(all_words)} commands, 3 ways of SIGPIPE, {program.times} times each"


# Rows that take less than a few seconds, and those that take longer.
QUICK = (
    closed_streams,
    closed_pipes,
    small_frames,
    small_frames_over_pipes,
    path_of_other_bytes,
    silent_peers,
    parked_in_silence,
    slow_peers,
    names_of_hosts,
    free_ports,
    dials_itself,
    stopped_roles,
    dropped_bytes,
    *RECORDS,
    *STAGES,
    *PROBES,
)

LONG = (unread_bytes, small_role_file, small_narration, no_memory_for_words, long_refusals, shared_error_pipe)

ROWS = {row.__name__: row for row in (*QUICK, *LONG)}

# How often what may go well by chance is tried.
TIMES, QUICK_TIMES = 50, 3


def main():
    words = [word for word in sys.argv[1:] if word != "--quick"]
    if not words:
        sys.exit(__doc__)
    is_quick = "--quick" in sys.argv
    # What runs in the background may ignore these, and would hand that on.
    signal.signal(signal.SIGINT, signal.default_int_handler)
    signal.signal(signal.SIGHUP, signal.SIG_DFL)
    failed = 0
    for name in words[1:] or [row.__name__ for row in QUICK] + [row.__name__ for row in LONG if not is_quick]:
        with tempfile.TemporaryDirectory() as folder:
            began = time.monotonic()
            try:
                says, sign = ROWS[name](Program(words[0], folder, QUICK_TIMES if is_quick else TIMES)), "ok"
            except (Fault, OSError, subprocess.TimeoutExpired) as fault:
                says, sign, failed = f"{type(fault).__name__}: {fault}", "FAILED", failed + 1
        print(f"{name:<24} {sign:<7} {time.monotonic() - began:5.1f} s  {says}", flush=True)
    sys.exit(1 if failed else 0)


if __name__ == "__main__":
    main()
