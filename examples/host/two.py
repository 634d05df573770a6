"""Two sessions of Ping's role B in turn: session 1 gets what it knows, session 0 something else."""
import struct
import sys


def start(session):
    return struct.pack(">BI", 0, session)


def arrival(session, message):
    return struct.pack(">BII", 1, session, len(message)) + message


sys.stdout.buffer.write(
    start(0) + start(1) + arrival(1, b"ab") + arrival(0, b"ac") + arrival(1, b"ab")
)
