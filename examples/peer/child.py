#!/usr/bin/env python3
"""A child of `anb stage` with a role of its own: B of examples/mutual/mutual.anb is the one of responder.py.

    ANB_CHILD=examples/peer/child.py anb stage examples/mutual/mutual.anb examples/mutual

A child takes the words `play NARRATION ROLE VALUES` and speaks frames over its standard streams. This one plays B
itself, and runs `anb`, or the program that ANB names, for each other role.
"""

import os
import sys

import responder

ANB = os.environ.get("ANB", "anb")


def main(play, narration, role, values):
    if role != "B":
        os.execvp(ANB, [ANB, play, narration, role, values])
    return responder.main("-")


if __name__ == "__main__":
    sys.exit(not main(*sys.argv[1:]))
