#!/usr/bin/python3
"""Role U is pymacaroons: adds a caveat to a macaroon, and writes it to standard output behind its length."""
import struct
import sys

from pymacaroons import MACAROON_V2, Macaroon
from pymacaroons.serializers import BinarySerializer

# What U knows: a macaroon without caveats, and not the secret that it was made with.
macaroon = Macaroon(
    version=MACAROON_V2,
    location="http://mybank/",
    identifier="we used our secret key",
    signature="e3d9e02908526c4c0039ae15114115d97fdd68bf2ba379b342aaf0f617d0552f",
)
macaroon.add_first_party_caveat("account = 3735928559")
message = BinarySerializer().serialize_raw(macaroon)
sys.stdout.buffer.write(struct.pack(">I", len(message)) + message)
