#!/usr/bin/python3
"""Role S is pymacaroons: verifies the macaroon that comes on standard input behind its length, and ends with 0 or 1."""
import struct
import sys

from pymacaroons import Verifier
from pymacaroons.serializers import BinarySerializer

# What S knows: the secret by the macaroon's identifier, and the caveat that holds.
SECRETS = {b"we used our secret key": "this is our super secret key; only we should know it"}
CAVEAT = "account = 3735928559"

(length,) = struct.unpack(">I", sys.stdin.buffer.read(4))
try:
    macaroon = BinarySerializer().deserialize_raw(sys.stdin.buffer.read(length))
    verifier = Verifier()
    verifier.satisfy_exact(CAVEAT)
    verifier.verify(macaroon, SECRETS[macaroon.identifier_bytes])
except Exception as refusal:
    sys.exit(f"refused: {type(refusal).__name__}: {refusal}")
print("verified", file=sys.stderr)
