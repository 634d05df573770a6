"""Rows of bench/edge.py on tests of programs: what becomes of the children."""
import os
import signal
import time

from edge_runs import FRAME, LATE, accept, free_address, is_process, listener, read_all, wait_until, want, want_below, write_ping
from edge_stages import HEARS, SAYS, SHORT, WAITS, lines, pids, want_nobody

# A child of a test, with what A does after its message.
CHILD = rf"""#!/bin/sh
echo $$ >> pids
printf '%%s|' "$@" >> words
{SAYS}
%s
"""

COMPARES = '[ "$(head -c 6 | od -An -tx1)" = " 00 00 00 02 61 62" ]'

# How many cases A of Ping has.
CASES = 3

GOOD = "all as narrated", "event 2, from B: N, with its last byte changed", "event 2, from B: N, without its last byte"

# What A does, and how many of its cases aren't ok.
CHILDREN = (
    (COMPARES, 0),
    (HEARS, 2),
    ("exit 0", 2),
    (f"{HEARS}; exit 7", 1),
    (f"{HEARS}; kill -9 $$", 3),
    (rf"{HEARS}; printf '\0\0'", 3),
    (f"{HEARS}; {SAYS}", 3),
)


# What A does over TCP, and how many of its cases aren't ok: where it stops isn't seen.
PEERS = (
    ("says its message, hears and closes", 0, lambda peer: (peer.sendall(FRAME), read_all(peer))),
    ("closes and leaves bytes unread", 0, lambda peer: (peer.sendall(FRAME), peer.recv(1))),
    ("closes at once", 3, lambda peer: None),
    ("says its message twice", 3, lambda peer: (peer.sendall(FRAME * 2), read_all(peer))),
    ("says a part of it", 3, lambda peer: peer.sendall(FRAME[:-1])),
)


def write_child(program, does):
    program.write("pids", "")
    program.write("words", "")
    program.write_script("child", CHILD % does)


def start_test(program, *options, words=("./child",), **how):
    return program.start("probe", "ping.anb", "A", "ping.values", *options, "--", *words, **how)


def not_ok(bad):
    return (36, lines(f"{bad} of {CASES} cases not ok")) if bad else (0, b"")


def children_of_tests(program):
    """a test starts its program once a case, with its words as they stand, and leaves no child behind"""
    write_ping(program)
    for does, bad in CHILDREN:
        write_child(program, does)
        status, report, line = start_test(program, words=("./child", "a  b", "'$HOME'", "")).end()
        want(f"the status and the line where A does {does!r}", (status, line), not_ok(bad))
        want("lines of cases", [row.split(b" - ")[1].split(b" # ")[0].decode() for row in report.splitlines() if b" - " in row], list(GOOD))
        want("children", len(set(pids(program))), CASES)
        want("their words", program.read("words"), b"a  b|'$HOME'||" * CASES)
        want_nobody(program, "children that are left")
    want("a program that isn't there", start_test(program, words=("./none",)).end()[::2], (31, lines("child A failed")))
    return f"{len(CHILDREN)} kinds of children, none left"


def silent_tests(program):
    """with --timeout a program that is silent is killed, and the next case goes on"""
    write_ping(program)
    found = []
    for does in (WAITS, f"{HEARS}; {WAITS}", f"exec >&-; {WAITS}"):
        write_child(program, does)
        run = start_test(program, "--timeout", "1")
        status, report, line = run.end(within=SHORT + CASES)
        want("the status and the line", (status, line), not_ok(CASES))
        want("silent cases", report.count(b"# silent for too long\n"), CASES)
        want_below("seconds", run.seconds, CASES * (2 + LATE))
        want_nobody(program, "children that are left")
        found.append(f"{run.seconds:.2f}")
    return f"{', '.join(found)} s for {CASES} cases"


def dial_test(program, at, limit):
    return program.start("probe", "ping.anb", "A", "ping.values", "--timeout", limit, "--dial", at)


def dialled_tests(program):
    """with --dial a test makes a connection a case, one after the other, and needs no status of its peer"""
    write_ping(program)
    for what, bad, does in PEERS:
        made, at = listener()
        run = dial_test(program, at, "10")
        for _ in range(CASES):
            peer = accept(made)
            does(peer)
            peer.close()
        status, _, line = run.end()
        want(f"the status and the line of a peer that {what}", (status, line), not_ok(bad))
    made, at = listener()
    run = dial_test(program, at, "1")
    peers = [accept(made) for _ in range(CASES)]
    status, report, line = run.end(within=SHORT + CASES)
    want("the status and the line of silent peers", (status, line), not_ok(CASES))
    want("silent cases", report.count(b"# silent for too long\n"), CASES)
    for peer in peers:
        peer.close()
    want("where nobody listens", dial_test(program, free_address(), "1").end()[::2], (31, lines("child A failed")))
    return f"{len(PEERS)} kinds of peers, and silent ones"


def signalled_tests(program):
    """a signal that ends a test ends its program"""
    write_ping(program)
    kinds = (signal.SIGINT, signal.SIGTERM, signal.SIGHUP, signal.SIGKILL)
    for kind in kinds:
        for to_group in (False, True):
            write_child(program, f"{HEARS}; {WAITS}")
            run = start_test(program)
            wait_until("a child", lambda: len(pids(program)) == 1)
            # A child is watched over just after it was started.
            time.sleep(0.1)
            (os.killpg if to_group else os.kill)(run.child.pid, kind)
            wait_until(f"nobody is left after {kind.name}", lambda: not any(map(is_process, pids(program))), SHORT)
            want("the status", run.end()[0], -kind)
    return f"{', '.join(kind.name for kind in kinds)}, to the test alone and to its group"


PROBES = (children_of_tests, silent_tests, dialled_tests, signalled_tests)
