"""Plays a role file in Python over standard streams, with one kind of check left out.

    python3 bench/lax_role.py LAX FILE VALUES

LAX is `none`, `equals` (no two values are compared), `front` (of two values the first bytes are compared), `came` (two
values are compared as far as both go), `tags` (sealed and wrapped bytes are opened without a look at the tag) or
`formats` (of a message the lengths alone are read: literals, longer forms of a length and bytes at the end pass). What
is drawn is the machine's. The status is 1 where a message is refused or is missing.
"""
import os
import pathlib
import re
import sys

sys.path.insert(0, str(pathlib.Path(__file__).resolve().parent.parent / "examples" / "peer"))
import anbwire

KINDS = ("none", "equals", "front", "came", "tags", "formats")


def literal(text):
    """The bytes of a literal in quotes."""
    signs = re.findall(r'\\x[0-9a-fA-F]{2}|\\.|.', text[1:-1])
    return b"".join(bytes([int(it[2:], 16)]) if it[:2] == "\\x" else it[-1].encode() for it in signs)


def values_of(text):
    """The bytes of each term of a values file."""
    values = {}
    for line in text.splitlines():
        if line.strip() and not line.lstrip().startswith("#"):
            name, _, value = (part.strip() for part in line.partition("="))
            values[re.sub(r"\s", "", name)] = literal(value) if value.startswith('"') else bytes.fromhex(value[1:])
    return values


class Role:
    """A role file: its suite, its formats and its instructions."""

    def __init__(self, text):
        head, _, code = text.partition("\ncode\n")
        self.suite, self.formats = "sha256", {}
        for line in head.splitlines():
            words = re.findall(r'"(?:[^"\\]|\\.)*"|\S+', line)
            if words[0] == "suite":
                self.suite = words[1]
            elif words[0] == "format":
                self.formats[words[1]] = [literal(it) if it[0] == '"' else it for it in words[2:]]
        self.code = code.splitlines()[:-1]


def fields_by_length(pieces, message):
    """The fields of a message that is read by its lengths alone."""
    values, data = [], message
    for piece in pieces:
        if isinstance(piece, bytes):
            data = data[len(piece) :]
        else:
            value, data = anbwire.first_field(piece, data)
            values.append(value)
    return values


def opened(role, lax, did, *values):
    """What is sealed, or wrapped, under a key, or a key and a context."""
    if lax == "tags":
        head = b"\x01" if did == "unseal" else b"\x03"
        return anbwire.opened_with(role.suite, anbwire.digest(role.suite, head + values[0]), values[-1])
    return (anbwire.unseal if did == "unseal" else anbwire.unwrap)(role.suite, *values)


def passes(lax, one, other):
    """Whether these two are equal enough."""
    if lax == "equals":
        return True
    if lax == "front":
        return one[:1] == other[:1]
    if lax == "came":
        return all(a == b for a, b in zip(one, other))
    return one == other


def received(source):
    message = anbwire.take_frame(source)
    if message is None:
        raise anbwire.Refused("the input has ended")
    return message


def step(role, lax, values, source, line, registers):
    """What an instruction writes."""
    did, *rest = line.split()
    if did == "take":
        return [values["".join(rest)]]
    if did == "fresh":
        return [os.urandom(32)]
    if did == "recv":
        return [received(source)]
    if did in ("build", "parse"):
        pieces, read = role.formats[rest[0]], [registers[it] for it in rest[1:]]
        if did == "build":
            return [anbwire.build(pieces, *read)]
        return fields_by_length(pieces, *read) if lax == "formats" else anbwire.parse(pieces, *read)
    read = [registers[it] for it in rest]
    if did in ("unseal", "unwrap"):
        return [opened(role, lax, did, *read)]
    return [{"hash": anbwire.digest, "mac": anbwire.mac, "seal": anbwire.seal, "wrap": anbwire.wrap}[did](role.suite, *read)]


def play(role, lax, values, source, sink):
    registers = {}
    for line in role.code:
        did, *read = line.split()
        if did == "send":
            anbwire.put_frame(sink, registers[read[0]])
        elif did == "equal":
            if not passes(lax, registers[read[0]], registers[read[1]]):
                raise anbwire.Refused(line)
        elif did == "parse":
            step(role, lax, values, source, line, registers)
        else:
            written, _, did = line.partition(" = ")
            registers.update(zip(written.split(), step(role, lax, values, source, did, registers)))


def main(lax, code, values):
    if lax not in KINDS:
        sys.exit(__doc__)
    role = Role(pathlib.Path(code).read_text())
    try:
        play(role, lax, values_of(pathlib.Path(values).read_text()), sys.stdin.buffer, sys.stdout.buffer)
    except (anbwire.Refused, OSError) as refused:
        print(f"role: {refused}", file=sys.stderr)
        sys.exit(1)


if __name__ == "__main__":
    if len(sys.argv) != 4:
        sys.exit(__doc__)
    main(*sys.argv[1:])
