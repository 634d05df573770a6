"""Role S is a plain Listener: takes one connection at 127.0.0.1:4071, and ends with 0 where it authenticates."""
import multiprocessing
import sys
from multiprocessing.connection import Listener

with Listener(("127.0.0.1", 4071), authkey=b"correct horse") as listener:
    try:
        listener.accept().close()
    except (multiprocessing.AuthenticationError, OSError, EOFError) as refusal:
        sys.exit(f"refused: {type(refusal).__name__}: {refusal}")
