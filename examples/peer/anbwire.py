"""The bytes of anb in Python: hashes, sealing, fields, draws and frames. Standard library alone.

Written from docs/REFERENCE.md, without a look at the program's source. Each function is a line or two of that
page; `python3 anbwire.py` compares the worked vectors of the page with what it computes.
"""

import hashlib
import hmac
import struct


class Refused(Exception):
    """Bytes that no honest partner would have sent."""


# Hashes. A suite is "sha256" or "sha512".


def digest(suite, message):
    return hashlib.new(suite, message).digest()


def mac(suite, key, message):
    return hmac.new(key, message, suite).digest()


# ChaCha20 (RFC 8439's block function) with a 64-bit counter and a 64-bit stream number.


def quarter(s, a, b, c, d):
    for x, y, z, turn in ((a, b, d, 16), (c, d, b, 12), (a, b, d, 8), (c, d, b, 7)):
        s[x] = (s[x] + s[y]) & 0xFFFFFFFF
        mixed = s[z] ^ s[x]
        s[z] = ((mixed << turn) | (mixed >> (32 - turn))) & 0xFFFFFFFF


def block(key, counter, stream):
    start = struct.unpack("<16I", b"expand 32-byte k" + key + struct.pack("<QQ", counter, stream))
    s = list(start)
    for _ in range(10):
        quarter(s, 0, 4, 8, 12)
        quarter(s, 1, 5, 9, 13)
        quarter(s, 2, 6, 10, 14)
        quarter(s, 3, 7, 11, 15)
        quarter(s, 0, 5, 10, 15)
        quarter(s, 1, 6, 11, 12)
        quarter(s, 2, 7, 8, 13)
        quarter(s, 3, 4, 9, 14)
    return struct.pack("<16I", *((x + y) & 0xFFFFFFFF for x, y in zip(s, start)))


def stream_bytes(key, count, stream=0):
    return b"".join(block(key, n, stream) for n in range((count + 63) // 64))[:count]


def draw(seed, session, number):
    """The fresh value with this number, from 0, of a session: 32 bytes."""
    return stream_bytes(seed, 32 * (number + 1), session)[32 * number :]


# Sealing.


def sealed_with(suite, tag, key_of_stream, message):
    stream = stream_bytes(mac(suite, key_of_stream, tag)[:32], len(message))
    return tag + bytes(x ^ y for x, y in zip(message, stream))


def opened_with(suite, key_of_stream, sealed):
    tag, body = sealed[:32], sealed[32:]
    return sealed_with(suite, tag, key_of_stream, body)[32:]


def seal(suite, key, message):
    """scrypt(key, message)"""
    tag = mac(suite, digest(suite, b"\x02" + key), message)[:32]
    return sealed_with(suite, tag, digest(suite, b"\x01" + key), message)


def unseal(suite, key, sealed):
    message = opened_with(suite, digest(suite, b"\x01" + key), sealed)
    if seal(suite, key, message) != sealed:
        raise Refused("not sealed under this key")
    return message


def wrap(suite, key, context, message):
    """wrap(key, context, message)"""
    tag = mac(suite, digest(suite, b"\x04" + key), digest(suite, context) + message)[:32]
    return sealed_with(suite, tag, digest(suite, b"\x03" + key), message)


def unwrap(suite, key, context, wrapped):
    message = opened_with(suite, digest(suite, b"\x03" + key), wrapped)
    if wrap(suite, key, context, message) != wrapped:
        raise Refused("not wrapped under this key and context")
    return message


# Formats. A format is a list of pieces: bytes for a literal, or one of "len", "net", "hex", "rest".


def length_bytes(length):
    out = b""
    while length > 127:
        out += bytes([length & 127 | 128])
        length >>= 7
    return out + bytes([length])


def field_bytes(kind, value):
    if kind == "len":
        return length_bytes(len(value)) + value
    if kind == "net":
        return b"%d:%s," % (len(value), value)
    if kind == "hex":
        return value.hex().encode() + b";"
    return value


def build(pieces, *values):
    left = list(values)
    return b"".join(p if isinstance(p, bytes) else field_bytes(p, left.pop(0)) for p in pieces)


def first_length(data):
    """The length that stands in front in LEB128, and what is after it."""
    length = 0
    for place, byte in enumerate(data[:10]):
        length |= (byte & 127) << (7 * place)
        if byte < 128:
            return length, data[place + 1 :]
    raise Refused("no length")


def first_field(kind, data):
    """The value of a field in front, and what is after it. Other forms than the one of `field_bytes` pass here."""
    if kind == "len":
        length, data = first_length(data)
        return data[:length], data[length:]
    if kind == "rest":
        return data, b""
    digits, mark, behind = data.partition(b":" if kind == "net" else b";")
    try:
        if kind == "hex":
            return bytes.fromhex(digits.decode()), behind
        return behind[: int(digits)], behind[int(digits) + 1 :]
    except ValueError:
        raise Refused("no field") from None


def parse(pieces, message):
    """The values of the fields. A message is taken exactly where `build` gives it back."""
    values, data = [], message
    for piece in pieces:
        if isinstance(piece, bytes):
            data = data[len(piece) :]
        else:
            value, data = first_field(piece, data)
            values.append(value)
    if build(pieces, *values) != message:
        raise Refused("not in this format")
    return values


# Frames.


def put_frame(out, message):
    out.write(struct.pack(">I", len(message)) + message)
    out.flush()


def take_frame(source):
    """The next message, or None where the input has ended."""
    head = source.read(4)
    if not head:
        return None
    length = struct.unpack(">I", head)[0] if len(head) == 4 else 0
    message = source.read(length)
    if len(head) < 4 or len(message) < length:
        raise Refused("the input ends within a frame")
    if length > 262144:
        raise Refused("a frame is too long")
    return message


VECTORS = """
2618cd56c6fc1ea29b80c476c16909349037e201b1aecaa6db76e9fc7aea39182194f11668
c2d89eb4d395a4ff09419d55cabc104b68b7603dcd6bace9617be093adbbc18454dcc0f959
926d10bc7f3350e7cdb7a6e845fe403069f0b64cd4dec442d5987838766b729aa6abb2e54a
62f8471e16d7e1e5f7e98cd0a83f977a654ca7773875cda04551907872aed3c8e9cc8ee482
76b8e0ada0f13d90405d6ae55386bd28bdd219b8a08ded1aa836efcc8b770dc7
da41597c5157488d7724e03fb8d84a376a43b8f41518a11cc387b669b2ee6586
ef3fdfd6c61578fbf5cf35bd3dd33b8009631634d21e42ac33960bd138e50d32
"""


def check_vectors():
    found = [f(suite) for suite in ("sha256", "sha512") for f in (
        lambda s: seal(s, b"k", b"hello"), lambda s: wrap(s, b"k", b"d", b"hello"))]
    found += [draw(bytes(32), 0, 0), draw(bytes(32), 0, 1), draw(bytes(32), 1, 0)]
    assert [value.hex() for value in found] == VECTORS.split()
    for suite in ("sha256", "sha512"):
        assert unseal(suite, b"k", seal(suite, b"k", b"hello")) == b"hello"
        assert unwrap(suite, b"k", b"d", wrap(suite, b"k", b"d", b"hello")) == b"hello"
    assert parse([b"M", "len", "net", "hex", "rest"], b"M\x01a0:,ff;z") == [b"a", b"", b"\xff", b"z"]


if __name__ == "__main__":
    check_vectors()
    print("all vectors agree")
