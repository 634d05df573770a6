"""Plays a role over TCP, in the frames of `anb play`, so either may be on the other side:

    python3 play.py <rolefile> <values> listen|dial <port>

It exits with the status of the role: 0 where it is played, 10 where a check failed.
"""
import os
import socket
import sys
import time

sys.path.insert(0, os.path.join(os.path.dirname(os.path.abspath(__file__)), ".."))
import anb


def connection(way: str, port: int) -> socket.socket:
    if way == "listen":
        with socket.create_server(("127.0.0.1", port)) as server:
            return server.accept()[0]
    for _ in range(50):
        try:
            return socket.create_connection(("127.0.0.1", port))
        except ConnectionRefusedError:
            time.sleep(0.1)
    raise ConnectionRefusedError("can't reach port %d" % port)


def taken(wire: socket.socket, size: int) -> bytes:
    parts = bytearray()
    while len(parts) < size:
        part = wire.recv(size - len(parts))
        if not part:
            raise EOFError("the input ends")
        parts += part
    return bytes(parts)


def play(role: bytes, values: bytes, way: str, port: int) -> None:
    with anb.Session(role, values, os.urandom(32)) as session, connection(way, port) as wire:
        for turn in session:
            if isinstance(turn, anb.Message):
                wire.sendall(len(turn.bytes).to_bytes(4, "big") + turn.bytes)
                continue
            size = int.from_bytes(taken(wire, 4), "big")
            if size > anb.ARRIVAL_MAX:
                raise anb.Error(anb.TOO_LARGE)
            session.arrive(taken(wire, size))


def main(role: str, values: str, way: str, port: str) -> int:
    try:
        with open(role, "rb") as role_file, open(values, "rb") as values_file:
            play(role_file.read(), values_file.read(), way, int(port))
    except anb.Stopped as stop:
        print("stopped at event %d, instruction %d" % (stop.event, stop.instruction), file=sys.stderr)
        return anb.STOPPED
    except anb.Error as error:
        print(error, file=sys.stderr)
        return error.status
    return 0


if __name__ == "__main__":
    if len(sys.argv) != 5:
        sys.exit("play.py <rolefile> <values> listen|dial <port>")
    sys.exit(main(*sys.argv[1:]))
