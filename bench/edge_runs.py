"""How rows of bench/edge.py run the built program, and what they compare."""
import contextlib
import os
import signal
import socket
import subprocess
import tempfile
import threading
import time

PING = """Protocol: Ping;
Types: Agent A, B; Number N;
Knowledge: A: N; B: N;
Actions: A -> B: N; B -> A: N;
"""

# What A sends in Ping with the value "ab", and an answer that isn't the same.
FRAME, OTHER = b"\0\0\0\x02ab", b"\0\0\0\x02ac"

ARRIVAL = 262_144

# What a row may take where it says "at once" (of a processor, but for messages), what a time limit may
# be passed by, and how long a program is waited for at most, in seconds.
AT_ONCE, LATE, PATIENCE = 1.0, 0.5, 60.0

# The most memory that stays in use, in megabytes. What is found is at least what this script takes.
MOST_MEMORY = 200


class Fault(Exception):
    """What a row found in place of what it wants."""


def want(what, found, wanted):
    if found != wanted:
        raise Fault(f"{what}: {found!r:.200} and not {wanted!r:.200}")


def want_below(what, found, most):
    if found > most:
        raise Fault(f"{what}: {found:.2f}, above {most}")


def in_time(what, most, runs):
    """What a run gives: a pair of the run and what it ended with. It is in time in one of three tries, since a busy
    machine makes any single one late, and one that waits too long is late in all."""
    for _ in range(3):
        run, found = runs()
        if run.seconds <= most:
            break
    want_below(f"seconds in each of three tries, {what}", run.seconds, most)
    return found


class Run:
    """A run of the program, in a folder that is its own."""

    def __init__(self, path, folder, words, before="", redirections="", **streams):
        line = f'{before} exec "$0" "$@" {redirections}'
        # A file takes any line while standard output is read.
        self.line = tempfile.TemporaryFile()
        pipes = {"stdin": subprocess.PIPE, "stdout": subprocess.PIPE, "stderr": self.line}
        self.began = time.monotonic()
        self.child = subprocess.Popen(
            ["/bin/sh", "-c", line, path, *words], cwd=folder, start_new_session=True, **{**pipes, **streams}
        )
        self.memory = self.seconds = self.processor = None

    def state(self):
        """The letter of the child's state: S sleeps, Z has ended."""
        with open(f"/proc/{self.child.pid}/stat", "rb") as file:
            return file.read().rpartition(b")")[2].split()[0].decode()

    def wait_until_it_waits(self):
        """Returns once the program waits for something, or has ended."""
        end = time.monotonic() + PATIENCE
        while self.state() not in "SZX" or self.is_shell():
            if time.monotonic() > end:
                raise Fault("the program never waits")
            os.sched_yield()

    def is_shell(self):
        with contextlib.suppress(OSError):
            return os.path.basename(os.readlink(f"/proc/{self.child.pid}/exe")) in ("sh", "dash", "bash", "busybox")
        return False

    def end(self, given=b"", within=PATIENCE):
        """The status, what was written and the line, once the program has ended."""
        late = threading.Timer(within, self.kill)
        late.start()
        with contextlib.suppress(BrokenPipeError):
            if self.child.stdin:
                self.child.stdin.write(given)
                self.child.stdin.close()
        wrote = self.child.stdout.read() if self.child.stdout else b""
        _, status, usage = os.wait4(self.child.pid, 0)
        late.cancel()
        self.seconds, self.memory = time.monotonic() - self.began, usage.ru_maxrss / 1024
        self.processor = usage.ru_utime + usage.ru_stime
        self.child.returncode = os.waitstatus_to_exitcode(status)
        if self.seconds > within:
            raise Fault(f"the program never ends: {self.child.args[3:]!r:.100}")
        self.line.seek(0)
        return self.child.returncode, wrote, self.line.read()

    def first_line(self, within=10.0):
        """The first line on standard error, which is a pipe. The program is killed where none comes."""
        late = threading.Timer(within, self.kill)
        late.start()
        line = self.child.stderr.readline()
        late.cancel()
        return line

    def kill(self):
        """Kills the program with all that it started."""
        with contextlib.suppress(ProcessLookupError):
            os.killpg(self.child.pid, signal.SIGKILL)


class Program:
    """The program, a folder for its files, and how often a row tries what may go well by chance."""

    def __init__(self, path, folder, times):
        self.path, self.folder, self.times = os.path.abspath(path), folder, times

    def write(self, name, content):
        with open(os.path.join(self.folder, name), "wb") as file:
            file.write(content if isinstance(content, bytes) else content.encode())

    def write_script(self, name, content):
        self.write(name, content)
        os.chmod(os.path.join(self.folder, name), 0o755)

    def read(self, name):
        with open(os.path.join(self.folder, name), "rb") as file:
            return file.read()

    def start(self, *words, path=None, **how):
        return Run(path or self.path, self.folder, words, **how)

    def run(self, *words, given=b"", within=PATIENCE, **how):
        run = self.start(*words, **how)
        return run, run.end(given, within)


def listener(buffer=None):
    """A socket that listens, and its address."""
    made = socket.socket()
    if buffer:
        made.setsockopt(socket.SOL_SOCKET, socket.SO_RCVBUF, buffer)
    made.bind(("127.0.0.1", 0))
    made.listen()
    made.settimeout(PATIENCE)
    return made, "127.0.0.1:%d" % made.getsockname()[1]


def free_address():
    made, at = listener()
    made.close()
    return at


def accept(made):
    peer, _ = made.accept()
    peer.settimeout(PATIENCE)
    return peer


def dial(at):
    """Dials until someone listens."""
    host, port = at.split(":")
    end = time.monotonic() + PATIENCE
    while True:
        try:
            return socket.create_connection((host, int(port)), PATIENCE)
        except ConnectionRefusedError:
            if time.monotonic() > end:
                raise Fault("nobody listens") from None
            os.sched_yield()


def write_ping(program):
    program.write("ping.anb", PING)
    for role in ("ping", "A", "B"):
        program.write(f"{role}.values", 'N = "ab"\n')


def wait_until(what, is_so, within=PATIENCE):
    end = time.monotonic() + within
    while not is_so():
        if time.monotonic() > end:
            raise Fault(f"never: {what}")
        time.sleep(0.002)


def is_process(pid):
    """Whether there is such a process, and it hasn't ended."""
    try:
        with open(f"/proc/{pid}/stat", "rb") as file:
            return file.read().rpartition(b")")[2].split()[0] not in (b"Z", b"X")
    except OSError:
        return False


def can_unshare():
    """Whether this user may have mounts of its own."""
    return subprocess.run(["unshare", "-rm", "true"], stderr=subprocess.DEVNULL).returncode == 0


def read_all(peer, size=65_536, before_each=lambda: None):
    """All that the peer gets, and whether its connection was reset."""
    got = []
    while True:
        before_each()
        try:
            piece = peer.recv(size)
        except ConnectionResetError:
            return b"".join(got), True
        if not piece:
            return b"".join(got), False
        got.append(piece)


