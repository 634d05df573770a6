#!/usr/bin/env python3
"""Role B of examples/mutual/mutual.anb with one mistake, to see how `anb` finds it.

    python3 wrong_responder.py swapped 127.0.0.1:4070   gives the two challenges back in the wrong order
    python3 wrong_responder.py lax 127.0.0.1:4070       doesn't look at the confirmation
    python3 wrong_responder.py lax -                    the same over standard streams, where `anb probe` finds it out
"""

import sys

import responder

MISTAKES = {
    "swapped": {"response": lambda na, nb: responder.response(nb, na)},
    "lax": {"check_confirmation": lambda message, nb: None},
}

if __name__ == "__main__":
    sys.exit(not responder.main(sys.argv[2], **MISTAKES[sys.argv[1]]))
