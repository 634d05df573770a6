"""Role S or C over standard streams, for `anb probe`: the two functions that Listener and Client call.

The words of a refusal, b"#FAILURE#", are no message of the narration: they aren't sent, and the program ends with 1.
"""
import multiprocessing
import sys
from multiprocessing.connection import Connection, answer_challenge, deliver_challenge


class Pipes:
    """What both functions use of a connection."""

    def __init__(self):
        self.source, self.sink = Connection(0, writable=False), Connection(1, readable=False)

    def recv_bytes(self, limit):
        return self.source.recv_bytes(limit)

    def send_bytes(self, message):
        if message != b"#FAILURE#":
            self.sink.send_bytes(message)


# In the order of Listener.accept, and of Client.
STEPS = {"S": (deliver_challenge, answer_challenge), "C": (answer_challenge, deliver_challenge)}

try:
    pipes = Pipes()
    for step in STEPS[sys.argv[1]]:
        step(pipes, b"correct horse")
except (multiprocessing.AuthenticationError, OSError, EOFError) as refusal:
    sys.exit(f"refused: {type(refusal).__name__}: {refusal}")
