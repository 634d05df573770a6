#!/usr/bin/env python3
"""Role B of examples/mutual/mutual.anb in Python, as an implementation that `anb` can test.

    python3 responder.py 127.0.0.1:4070    awaits one connection there
    python3 responder.py -                 speaks over standard streams; words after the - are passed over

Prints `done` on standard error, or what it refused; the status is then 1.
"""

import os
import socket
import sys

import anbwire

SUITE = "sha256"
A = b"alice"
B = b"bob"
K = bytes.fromhex("6d3f09e2c4a1785b90cde81fb7a25436")
CHALLENGE = [b"C", "len"]
RESPONSE = [b"R", "len", "len", "len"]
CONFIRM = [b"F", "len", "len"]


def response(na, nb):
    return anbwire.seal(SUITE, K, anbwire.build(RESPONSE, B, na, nb))


def check_confirmation(message, nb):
    if message != anbwire.mac(SUITE, K, anbwire.build(CONFIRM, A, nb)):
        raise anbwire.Refused("the confirmation is wrong")


def next_message(source):
    message = anbwire.take_frame(source)
    if message is None:
        raise anbwire.Refused("the input has ended")
    return message


def respond(source, sink, response=response, check_confirmation=check_confirmation):
    (na,) = anbwire.parse(CHALLENGE, next_message(source))
    nb = os.urandom(32)
    anbwire.put_frame(sink, response(na, nb))
    check_confirmation(next_message(source), nb)


def talk(source, sink, **parts):
    """Responds once, and says on standard error what came of it. True where all was right."""
    try:
        respond(source, sink, **parts)
    except (anbwire.Refused, OSError) as refused:
        print(f"responder: {refused}", file=sys.stderr, flush=True)
        return False
    print("responder: done", file=sys.stderr, flush=True)
    return True


def main(where, **parts):
    if where == "-":
        return talk(sys.stdin.buffer, sys.stdout.buffer, **parts)
    host, port = where.rsplit(":", 1)
    with socket.create_server((host, int(port))) as listener, listener.accept()[0] as peer:
        with peer.makefile("rb") as source, peer.makefile("wb") as sink:
            return talk(source, sink, **parts)


if __name__ == "__main__":
    sys.exit(not main(sys.argv[1]))
