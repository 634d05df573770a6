#!/usr/bin/env python3
"""Makes the program end with each status of docs/REFERENCE.md. Standard library alone.

    python3 docs/check_statuses.py PROGRAM    says what ends otherwise; the status is 0 where all is as the page has it

Each status of the page's table has a command below that ends so, and the last line on standard error is that row's line.
Statuses that no command can be made to end with here are named too, so none is forgotten.
"""

import os
import pathlib
import re
import shutil
import subprocess
import sys
import tempfile

ROOT = pathlib.Path(__file__).resolve().parent.parent
PAGE = ROOT / "docs" / "REFERENCE.md"
# Without memory, without the machine's random bytes, or after 4294967295 frames.
NOT_HERE = {8, 21, 99}
PING = "examples/ping/ping.anb"
A = f"{PING} A examples/ping/A.values"
WIDE = "Protocol: W; Types: Agent A, B; Number N, M; Formats: f = \"f\" len len; Knowledge: A: N, M; B: N, M; Actions: A -> B: f(N,M);"
# Each status with a script for sh whose last command ends with it.
TABLE = {
    0: "anb --version",
    1: "anb nonsense",
    2: "anb fmt nothing.anb",
    3: "head -c 2000000 /dev/zero > long; anb fmt long",
    4: "printf 'Protocol' > text; anb fmt text",
    5: f"anb explain {PING} Z",
    6: "sed 's/B: A, B, K;/B: A, B;/' examples/mutual/mutual.anb > nokey.anb; anb explain nokey.anb A",
    7: f"anb play {PING} A examples/mutual/A.values",
    9: f"anb play {A} --dial 127.0.0.1:1",
    10: rf"printf '\000\000\000\002ac' | anb play {A}",
    11: f"anb play {A} < /dev/null",
    12: rf"printf '\000\000' | anb play {A}",
    13: rf"printf '\177\000\000\000' | anb play {A}",
    14: f"anb play {A} <&-",
    15: f"anb fmt {PING} >&-",
    16: "printf 'anb' > file; anb enact file examples/ping/A.values",
    17: f"printf 'x\\n' > lines; anb replay {A} lines",
    18: f"printf '> 00\\n' > lines; anb replay {A} lines",
    19: f": > lines; anb replay {A} lines",
    20: rf"printf '\007' | anb host {PING} B examples/ping/B.values",
    22: f"""printf '%s' '{WIDE}' > wide.anb; n=$(head -c 200000 /dev/zero | tr '\\0' n)
        printf 'N = "%s"\\nM = "%s"\\n' $n $n > wide.values; printf 'A B' > turns; anb rehearse wide.anb wide.values turns""",
    23: f"printf 'Z' > turns; anb rehearse {PING} examples/ping/all.values turns",
    24: f"printf 'A' > turns; anb rehearse {PING} examples/ping/all.values turns",
    25: f"anb branch {A} < /dev/null",
    26: """sed 's/Key K;/Key K, L;/; s/B: K;/B: K, L;/; s/pay(mac(K,R))/pay(mac(L,R))/' examples/offer/choice.anb > poor.anb
        anb branch poor.anb B examples/offer/B.values --arm 1 < /dev/null""",
    27: "anb branch examples/offer/choice.anb B examples/offer/B.values < /dev/null",
    28: f"anb compile {PING} A | grep -v '^equal' > short.role; anb certify {PING} A short.role",
    29: f"printf 'k' > key; anb park {A} key < /dev/null",
    30: f"printf 'k' > key; printf 'x' > record; anb resume {PING} A record key < /dev/null",
    31: "ANB_CHILD= anb stage examples/ping/ping.anb examples/ping",
    32: "ANB_CHILD=true anb stage examples/ping/ping.anb examples/ping",
    33: r"""printf '#!/bin/sh\nprintf "\\000\\000"\n' > child; chmod +x child; ANB_CHILD=./child anb stage examples/ping/ping.anb examples/ping""",
    34: r"""printf '#!/bin/sh\nprintf "\\177\\000\\000\\000"\n' > child; chmod +x child; ANB_CHILD=./child anb stage examples/ping/ping.anb examples/ping""",
    35: r"""printf '#!/bin/sh\nanb "$@"; exit 3\n' > child; chmod +x child; ANB_CHILD=./child anb stage examples/ping/ping.anb examples/ping""",
    36: f"anb probe {PING} A examples/ping/all.values -- true",
    37: r"""printf '#!/bin/sh\nexec sleep 20\n' > child; chmod +x child; ANB_CHILD=./child anb stage examples/ping/ping.anb examples/ping --timeout 1""",
    38: f"mkdir there; : > there/values; anb play {A} --record there < /dev/null",
    125: f"cp {ROOT}/anb script; PATH=/usr/bin:/bin ./script help",
}


def rows():
    """Each status of the page's table with the lines that it may have, as patterns."""
    table = PAGE.read_text().partition("\n## Statuses\n")[2].partition("\n### ")[0]
    for cells in (line.split(" | ") for line in table.splitlines() if re.match(r"\| \d+ \|", line)):
        lines = re.findall(r"`(anb: [^`]*)`", cells[2])
        yield int(cells[0].strip("| ")), [".+".join(map(re.escape, re.split(r"<[^>]*>", line))) for line in lines]


def ended(script, folder):
    """The status of a script, and the last line that it wrote on standard error."""
    path = f"{folder / 'bin'}:{os.environ['PATH']}"
    done = subprocess.run(["sh", "-c", script], cwd=folder, env={**os.environ, "PATH": path}, timeout=120,
                          stdin=subprocess.DEVNULL, stdout=subprocess.DEVNULL, stderr=subprocess.PIPE)
    return done.returncode, (done.stderr.decode(errors="replace").splitlines() or [""])[-1]


def faults(program):
    """What ends otherwise than the page has it, a line each."""
    told = dict(rows())
    yield from (f"docs/check_statuses.py: nothing on status {number}" for number in sorted(set(told) ^ set(TABLE) ^ NOT_HERE))
    for number, script in TABLE.items():
        with tempfile.TemporaryDirectory() as scratch:
            folder = pathlib.Path(scratch)
            shutil.copytree(ROOT / "examples", folder / "examples", ignore=shutil.ignore_patterns("__pycache__"))
            (folder / "bin").mkdir()
            (folder / "bin" / "anb").write_text(f'#!/bin/sh\nexec "{program}" "$@"\n')
            (folder / "bin" / "anb").chmod(0o755)
            status, line = ended(script, folder)
        if status != number or told.get(number) and not any(re.fullmatch(it, line) for it in told[number]):
            yield f"docs/REFERENCE.md: status {number}: {script!r} ends with {status} and the line {line!r}"


if __name__ == "__main__":
    if len(sys.argv) != 2:
        sys.exit(__doc__)
    found = list(faults(pathlib.Path(sys.argv[1]).resolve()))
    print(*found, f"statuses: {len(found)} faults", sep="\n")
    sys.exit(bool(found))
