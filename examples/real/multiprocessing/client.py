"""Role C is a plain Client: dials 127.0.0.1:4071 once somebody listens, and ends with 0 where it authenticates."""
import multiprocessing
import sys
import time
from multiprocessing.connection import Client

for _ in range(100):
    try:
        Client(("127.0.0.1", 4071), authkey=b"correct horse").close()
        break
    except ConnectionRefusedError:
        time.sleep(0.1)
    except (multiprocessing.AuthenticationError, OSError, EOFError) as refusal:
        sys.exit(f"refused: {type(refusal).__name__}: {refusal}")
else:
    sys.exit("nobody listens")
