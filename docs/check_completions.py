#!/usr/bin/env python3
"""Tries the completions of bash, zsh and fish, each in its shell where it is installed. Standard library alone.

    python3 docs/check_completions.py PROGRAM    says what else a shell offers; the status is 0 where all is as it should

What is offered is compared with the table below, and for the first word with the commands that `help` of the program
lists. bash is asked by the function that it calls, fish by `complete -C`, and zsh on a terminal of its own.
"""

import os
import pathlib
import pty
import re
import select
import shutil
import subprocess
import sys
import tempfile
import time

ROOT = pathlib.Path(__file__).resolve().parent.parent
COMPLETIONS = ROOT / "completions"
# Agents in two lists, of which one goes over two lines, and names in comments and literals that are none.
NARRATION = """# Agent X, Y;
Protocol: M;
Types:
  Agent A,
    B;  # Agent Z;
  Number N;
  Agent S;
Formats:
  f = "Agent T;" len;
Knowledge:
  A: N;
Actions:
  A -> B: f(N);
  B -> S: N;
"""
ROLES = "A B S"
ARMS = "1 2 3 4 5 6 7 8"
PLAY, PARK, BRANCH = "anb play m.anb A A.values", "anb park m.anb A A.values key", "anb branch m.anb A A.values"
PROBE = "anb probe m.anb A all.values"
# The line up to the word to complete, and what is offered there.
TABLE = [
    ("anb --help", ""),
    ("anb help check", ""),
    ("anb play m.anb", ROLES),
    ("anb explain ~/m.anb", ROLES),
    ("anb trace $HOME/m.anb", ROLES),
    ('anb play "$HOME/my file.anb"', ROLES),
    ("anb certify 'my file.anb'", ROLES),
    (r"anb play my\ file.anb", ROLES),
    (PLAY, "--dial --listen --record"),
    (f"{PLAY} --dial", ""),
    (f"{PLAY} --dial 127.0.0.1:4070", "--timeout --record"),
    (f"{PLAY} --dial 127.0.0.1:4070 --timeout", ""),
    (f"{PLAY} --listen 127.0.0.1:0 --timeout 5", "--record"),
    (f"{PLAY} --record r", ""),
    (PARK, "--dial --listen --record"),
    (f"{PARK} --dial 127.0.0.1:4070", "--timeout --record"),
    (f"{PARK} --dial 127.0.0.1:4070 --timeout 5", "--record"),
    (f"{PARK} --listen 127.0.0.1:0 --record a.record", ""),
    (f"{PARK} --record a.record", ""),
    (BRANCH, "--arm --dial --listen --record"),
    (f"{BRANCH} --arm", ARMS),
    (f"{BRANCH} --arm 1", "--dial --listen --record"),
    (f"{BRANCH} --arm 1 --dial 127.0.0.1:4070", "--timeout --record"),
    (f"{BRANCH} --arm 1 --dial 127.0.0.1:4070 --timeout 5", "--record"),
    ("anb chart m.anb", "--role"),
    ("anb chart m.anb --role", ROLES),
    ("anb chart m.anb --role A", ""),
    ("anb check m.anb", ROLES),
    ("anb values m.anb", ROLES),
    ("anb stage m.anb .", "--as --timeout --record"),
    ("anb stage m.anb . --as", ROLES),
    ("anb stage m.anb . --as A ./a", "--as --timeout --record"),
    ("anb stage m.anb . --as A ./a --as", ROLES),
    ("anb stage m.anb . --timeout", ""),
    ("anb stage m.anb . --as A ./a --as B ./b --timeout 5", "--record"),
    ("anb stage m.anb . --timeout 5", "--record"),
    ("anb stage m.anb . --timeout 5 --record r", ""),
    ("anb stage m.anb . --as A ./a --record", ""),
    ("anb replay m.anb A A.values a.transcript", "--session"),
    ("anb trace m.anb A A.values a.transcript --session", ""),
    ("anb trace m.anb A A.values a.transcript --session 1", ""),
    ("anb judge m.anb A all.values a.transcript", ""),
    ("anb probe m.anb", ROLES),
    (PROBE, "--all --case --timeout --record --dial --"),
    (f"{PROBE} --all", "--case --timeout --record --dial --"),
    (f"{PROBE} --all --case 3", "--timeout --record --dial --"),
    (f"{PROBE} --case", ""),
    (f"{PROBE} --timeout", ""),
    (f"{PROBE} --timeout 5", "--record --dial --"),
    (f"{PROBE} --timeout 5 --record", ""),
    (f"{PROBE} --record r", "--dial --"),
    (f"{PROBE} --dial", ""),
    (f"{PROBE} --dial 127.0.0.1:4070", ""),
    ("anb enact a.role A.values", "--dial --listen --record"),
    ("anb host m.anb A A.values", "--dial --listen --record"),
    ("anb host m.anb A A.values --listen 127.0.0.1:0 --timeout 5", "--record"),
    ("anb host m.anb A A.values --record r", ""),
    ("anb resume m.anb A a.record key", "--dial --listen --record"),
    ("anb judge m.anb", ROLES),
    ("anb check m.anb A A.values", ""),
    ("anb fmt m.anb", ""),
]


def in_bash(lines, folder):
    """What bash offers after each line."""
    script = ['. "$1"', "compopt() { :; }"]
    for line in lines:
        # bash takes words apart at colons too, and leaves quotes, backslashes and dollars in them.
        words = [part for word in re.findall(r"""(?:"[^"]*"|'[^']*'|\\.|[^\s"'\\])+""", line) for part in re.split("(:)", word)]
        quoted = " ".join("'" + part.replace("'", r"'\''") + "'" for part in [*words, ""])
        script.append(f"COMP_WORDS=({quoted}); COMP_CWORD={len(words)}; _anb; echo \"${{COMPREPLY[*]}}\"")
    done = subprocess.run(["bash", "--norc", "-c", "\n".join(script), "bash", COMPLETIONS / "anb.bash"], cwd=folder,
                          env={**os.environ, "HOME": str(folder)}, stdin=subprocess.DEVNULL, capture_output=True, text=True, timeout=60)
    return [line.split() for line in done.stdout.splitlines()]


def in_fish(lines, folder):
    """What fish offers after each line. It offers options where a word begins with a minus."""
    found = []
    for line, wanted in lines.items():
        is_value = line.split()[-1].startswith("--") and not wanted.startswith("--")
        asked = f"{line} " if is_value or wanted and not wanted.startswith("--") else f"{line} -"
        done = subprocess.run(["fish", "--no-config", "-c", "source $argv[1]; complete -C $argv[2]", COMPLETIONS / "anb.fish", asked], cwd=folder,
                              env={**os.environ, "HOME": str(folder)}, stdin=subprocess.DEVNULL, capture_output=True, text=True, timeout=60)
        found.append([it.split("\t")[0] for it in done.stdout.splitlines()])
    return found


def in_zsh(lines, folder):
    """What zsh offers after each line, listed on a terminal."""
    pid, terminal = pty.fork()
    if pid == 0:
        os.chdir(folder)
        os.environ.update(HOME=str(folder), TERM="dumb", COLUMNS="200", LINES="200")
        os.execvp("zsh", ["zsh", "-f", "-i"])

    def read_to(mark):
        said, end = "", time.monotonic() + 30
        while mark not in said:
            if not select.select([terminal], [], [], max(0, end - time.monotonic()))[0]:
                raise TimeoutError(f"zsh: {said[-200:]}")
            said += os.read(terminal, 65536).decode(errors="replace")
        return said.partition(mark)[0]

    def tell(text):
        os.write(terminal, text.encode())

    tell(f"stty -echo; PS1= PS2= RPS1=; fpath=({COMPLETIONS} $fpath); autoload -Uz compinit; compinit -u -D; "
         "setopt no_list_ambiguous; zstyle ':completion:*' format ''; zstyle ':completion:*' list-separator '@'; "
         "LISTMAX=0; bindkey '^G' list-choices; bindkey '^U' kill-whole-line; echo set'up'\n")
    read_to("setup")
    found = []
    for line in lines:
        tell(f"{line} \x07")
        time.sleep(0.3)
        tell("\x15echo list'ed'\n")
        shown = re.sub(r"\x1b\[[0-9;?]*[a-zA-Z]|\r|\x08", " ", read_to("listed\r\n")).replace(line, " ")
        shown = re.sub(r"@[^\n]*", " ", shown).replace("echo list'ed'", " ")
        found.append([word for word in shown.split() if re.fullmatch(r"[\w-]+", word)])
    tell("exit\n")
    os.waitpid(pid, 0)
    os.close(terminal)
    return found


def faults(commands):
    """What the shells offer otherwise, a line each. What isn't installed is told, and is no fault."""
    table = {"anb": " ".join(commands), "anb help": " ".join(commands), **dict(TABLE)}
    for shell, ask in (("bash", in_bash), ("zsh", in_zsh), ("fish", in_fish)):
        if not shutil.which(shell):
            print(f"completions: {shell} isn't installed, so its completion wasn't tried")
            continue
        with tempfile.TemporaryDirectory() as scratch:
            folder = pathlib.Path(scratch)
            for name in ("m.anb", "my file.anb"):
                (folder / name).write_text(NARRATION)
            for (line, wanted), found in zip(table.items(), ask(table, folder)):
                if sorted(found) != sorted(wanted.split()):
                    yield f"completions: {shell} offers {' '.join(found) or 'nothing'} after {line}, and should {wanted or 'nothing'}"


if __name__ == "__main__":
    if len(sys.argv) != 2:
        sys.exit(__doc__)
    listed = subprocess.run([sys.argv[1], "help"], capture_output=True, text=True, check=True).stdout
    said = list(faults([line.split()[1] for line in listed.splitlines()]))
    print(*said, f"completions: {len(said)} faults", sep="\n")
    sys.exit(bool(said))
