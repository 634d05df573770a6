"""Rows of edge.py on records that go to files."""
import contextlib
import os
import random
import socket
import subprocess
import time

from edge_runs import ARRIVAL, FRAME, LATE, accept, in_time, listener, read_all, want, write_ping

ROLE = ("ping.anb", "A")
PARKED = (29, b"", b"anb: parked at event 2\n")
UNWRITTEN = b"anb: can't write %s\n"


def prepared(program):
    """A record over the wire, and the files of a role that is parked."""
    write_ping(program)
    program.write("key", "a key of its own")
    return program.run("park", *ROLE, "ping.values", "key")[1][1][len(FRAME) + 4 :]


def resumes(program, name):
    """Whether the role goes on from the record of this name, to its end."""
    return program.run("resume", *ROLE, name, "key", given=FRAME)[1] == (0, b"", b"")


def records_in_files(program):
    """--record keeps a record in its file, for its owner alone, and a fault of the file is status 38"""
    length = len(prepared(program))
    parks = ("park", *ROLE, "ping.values", "key", "--record")
    want("park", program.run(*parks, "a.record", before="umask 0;")[1], (29, FRAME, PARKED[2]))
    want("the record's length", len(program.read("a.record")), length)
    want("the record's mode", oct(os.stat(os.path.join(program.folder, "a.record")).st_mode & 0o7777), "0o600")
    first = program.read("a.record")
    want("resume over the same file", program.run("resume", *ROLE, "a.record", "key", "--record", "a.record")[1], PARKED)
    want("the record of a role that heard nothing", program.read("a.record"), first)
    os.mkdir(os.path.join(program.folder, "folder"))
    for name in ("nowhere/a.record", "folder", "folder/", "/dev/null", "a" * 300):
        line = UNWRITTEN % name.encode()
        want(f"a record at {name:.40}", program.run(*parks, name)[1], (38, FRAME, line))
    want("no device is replaced", os.path.exists("/dev/null") and not os.path.isfile("/dev/null"), True)
    # A role that is done, or that the wire fails, leaves the file as it was.
    want("done", program.run(*parks, "a.record", given=FRAME)[1], (0, FRAME, b""))
    want("cut short", program.run(*parks, "a.record", given=FRAME[:3])[1][0], 12)
    want("the record is as it was", program.read("a.record"), first)
    want("an absolute name", program.run(*parks, os.path.join(program.folder, "b.record"))[1][0], 29)
    want("going on", [resumes(program, name) for name in ("a.record", "b.record")], [True, True])
    names = {"A.values", "B.values", "a.record", "b.record", "folder", "key", "ping.anb", "ping.values"}
    want("what stays in the folder", set(os.listdir(program.folder)), names)
    return "written for its owner alone, over itself too; six names that are no file to write"


def silent_records(program):
    """a role that waits for a silent peer is parked in its file, and the peer gets no record"""
    prepared(program)
    made, at = listener()

    def parks():
        run = program.start("park", *ROLE, "ping.values", "key", "--dial", at, "--timeout", "1", "--record", "a.record")
        peer = accept(made)
        got = read_all(peer)
        peer.close()
        return run, (got, run.end())

    want("what the peer got, and park's end", in_time("park", 1 + LATE, parks), ((FRAME, False), PARKED))
    want("going on", resumes(program, "a.record"), True)
    return "parked in silence; the peer got the message alone"


BIG = """Protocol: Big;
Types: Agent A, B; Number N, K, L, M;
Knowledge: A: N, K, L, M; B: N;
Actions: A -> B: N; B -> A: N;
"""


def killed_records(program):
    """a program that is killed while it keeps a record leaves the old one or the new one"""
    program.write("big.anb", BIG)
    # What takes a while to write.
    program.write("big.values", 'N = "ab"\n' + "".join(f'{name} = "{"a" * ARRIVAL}"\n' for name in "KLM"))
    program.write("key", "a key of its own")
    words = ("park", "big.anb", "A", "big.values", "key", "--record", "a.record")
    first, _ = program.run(*words)
    kills = left = 0
    for turn in range(4 * program.times):
        # The record alone, or all in its folder.
        watched = "a.record" if turn % 2 else ""
        before = seen(program, watched)
        run = program.start(*words, stdin=subprocess.DEVNULL)
        if turn % 4 == 0:
            time.sleep(random.uniform(0, 1.2 * first.seconds))
        else:
            while seen(program, watched) == before and run.state() not in "ZX":
                pass
        run.kill()
        with contextlib.suppress(BrokenPipeError):
            kills += run.end()[0] < 0
        goes_on = program.run("resume", "big.anb", "A", "a.record", "key", given=FRAME)[1]
        want(f"going on after {turn + 1} kills", goes_on, (0, b"", b""))
        for name in os.listdir(program.folder):
            if name.startswith("a.record."):
                os.remove(os.path.join(program.folder, name))
                left += 1
    return f"{kills} kills, {left} files left beside the record"


def seen(program, name):
    """What is seen of the file of this name, or of all in the folder where there is no name."""
    found = []
    with os.scandir(program.folder) as all_files:
        for file in all_files:
            # One that is gone by now isn't seen.
            with contextlib.suppress(FileNotFoundError):
                if name in ("", file.name):
                    found.append((file.name, file.stat().st_ino, file.stat().st_size, file.stat().st_mtime_ns))
    return sorted(found)


def recorded_plays(program):
    """play --record leaves the values and the transcript, for their owner alone, and replay ends as the play did"""
    write_ping(program)
    plays = ("play", *ROLE, "ping.values", "--record")
    want("play", program.run(*plays, "r", given=FRAME, before="umask 0;")[1], (0, FRAME, b""))
    modes = [oct(os.stat(os.path.join(program.folder, name)).st_mode & 0o7777) for name in ("r", "r/values", "r/transcript")]
    want("modes", modes, ["0o700", "0o600", "0o600"])
    digits = FRAME[4:].hex().encode()
    want("the transcript", program.read("r/transcript"), b"> " + digits + b"\n< " + digits + b"\n")
    want("its replay", program.run("replay", *ROLE, "r/values", "r/transcript")[1], (0, b"", b""))
    want("the folder again", program.run(*plays, "r", given=FRAME)[1], (38, b"", UNWRITTEN % b"r/values"))
    want("what is in it", program.read("r/transcript"), b"> " + digits + b"\n< " + digits + b"\n")
    want("a play that waits", program.run(*plays, "s")[1], (11, FRAME, b"anb: waiting at event 2\n"))
    want("its replay", program.run("replay", *ROLE, "s/values", "s/transcript")[1][0], 19)
    for name in ("nowhere/r", "a" * 300):
        line = UNWRITTEN % (name + "/values").encode()
        want(f"a recording at {name:.40}", program.run(*plays, name, given=FRAME)[1], (38, FRAME, line))
    return "modes 700 and 600; refused where it is there; done and waiting are replayed so"


def killed_plays(program):
    """a play that is killed leaves the lines so far, each whole"""
    write_ping(program)
    digits = FRAME[4:].hex().encode()
    whole = (b"", b"> " + digits + b"\n")
    kills = 0
    for turn in range(4 * program.times):
        made, at = listener()
        run = program.start("play", *ROLE, "ping.values", "--dial", at, "--record", f"r{turn}")
        peer = accept(made)
        want("what the peer got", peer.recv(len(FRAME), socket.MSG_WAITALL), FRAME)
        run.kill()
        kills += run.end()[0] < 0
        peer.close()
        want("the lines so far", program.read(f"r{turn}/transcript"), whole[1])
        want("their replay", program.run("replay", *ROLE, f"r{turn}/values", f"r{turn}/transcript")[1][0], 19)
    return f"{kills} kills after the first message"


def recorded_hosts(program):
    """host --record leaves the values and a transcript of each session, for their owner alone, also where it is killed"""
    write_ping(program)
    hosts = ("host", *ROLE, "ping.values")
    digits = FRAME[4:].hex().encode()

    def number(session):
        return session.to_bytes(4, "big")

    def start(session):
        return b"\0" + number(session)

    given = start(1) + start(0) + b"\1" + number(1) + FRAME
    told = b"\0" + number(1) + FRAME + b"\0" + number(0) + FRAME + b"\2" + number(1)
    want("host", program.run(*hosts, "--record", "r", given=given, before="umask 0;")[1], (0, told, b""))
    names = ("r", "r/values", "r/transcript-0", "r/transcript-1")
    modes = [oct(os.stat(os.path.join(program.folder, name)).st_mode & 0o7777) for name in names]
    want("modes", modes, ["0o700", "0o600", "0o600", "0o600"])
    want("session 1", program.read("r/transcript-1"), b"> " + digits + b"\n< " + digits + b"\n")
    want("session 0", program.read("r/transcript-0"), b"> " + digits + b"\n")
    for session, status in (("1", 0), ("0", 19)):
        words = ("replay", *ROLE, "r/values", f"r/transcript-{session}", "--session", session)
        want("its replay", program.run(*words)[1][0], status)
    want("the folder again", program.run(*hosts, "--record", "r", given=given)[1], (38, b"", UNWRITTEN % b"r/values"))
    os.remove(os.path.join(program.folder, "r/values"))
    line = UNWRITTEN % b"r/transcript-0"
    want("a session's file alone", program.run(*hosts, "--record", "r", given=given)[1], (38, b"", line))
    for turn in range(program.times):
        made, at = listener()
        run = program.start(*hosts, "--dial", at, "--record", f"s{turn}")
        peer = accept(made)
        peer.sendall(start(3))
        want("what the peer got", peer.recv(5 + len(FRAME), socket.MSG_WAITALL), b"\0" + number(3) + FRAME)
        run.kill()
        run.end()
        peer.close()
        want("the lines so far", program.read(f"s{turn}/transcript-3"), b"> " + digits + b"\n")
    return "modes 700 and 600; each session is replayed; killed after a message"


def removed_transcripts(program):
    """a transcript that somebody removes isn't begun anew: what was played is told, and status 38 in the end"""
    write_ping(program)
    number = (1).to_bytes(4, "big")
    tries = (
        ("play", "transcript", b"", b"", FRAME, b""),
        ("host", "transcript-1", b"\0" + number, b"\0" + number, b"\1" + number + FRAME, b"\2" + number),
    )
    for command, name, first, before, then, behind in tries:
        made, at = listener()
        run = program.start(command, *ROLE, "ping.values", "--dial", at, "--record", command)
        peer = accept(made)
        peer.sendall(first)
        want("what the peer got", peer.recv(len(before + FRAME), socket.MSG_WAITALL), before + FRAME)
        os.remove(os.path.join(program.folder, command, name))
        peer.sendall(then)
        peer.shutdown(socket.SHUT_WR)
        want("and then", peer.recv(len(behind) + 1, socket.MSG_WAITALL), behind)
        want(command, run.end(), (38, b"", UNWRITTEN % f"{command}/{name}".encode()))
        peer.close()
        want("what is in the folder", os.listdir(os.path.join(program.folder, command)), ["values"])
    return "status 38 of a play and of a host, which go on, and no transcript"


RECORDS = (
    records_in_files,
    silent_records,
    killed_records,
    recorded_plays,
    killed_plays,
    recorded_hosts,
    removed_transcripts,
)
