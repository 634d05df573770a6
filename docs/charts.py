#!/usr/bin/env python3
"""Writes examples/README.md: python3 docs/charts.py crates/anb/out/anb. Standard library alone.

An index in groups, the last of which has what stands in examples/real, and for each protocol its comment, its messages as a Mermaid chart, and what each role takes: what
`anb check` writes of it is compared with what docs/narration.py finds by the narration alone.
"""

import pathlib
import re
import subprocess
import sys

import narration

EXAMPLES = pathlib.Path(__file__).resolve().parent.parent / "examples"

# The words that Mermaid takes for its own where a participant may stand, in any case of letters.
WORDS = set("""
    participant actor create destroy activate deactivate note over autonumber off
    end box rect loop opt alt else par par_over and critical option break
    sequencediagram title acctitle accdescr link links properties details
""".split())

# What stands before the terms in lines of a report.
UNCHECKED = "takes unchecked: "
RESTING = "rests on arrivals alone: "
RECORDING = "a recording of another run: "
STRANGER = "whoever knows only "
IDLE = "nothing that it takes afterwards depends on: "
NOTE = "note: "

# The folders of programs that others wrote.
REAL = EXAMPLES / "real"

# The groups but the last, each with a sentence and its examples in the order to read them in.
GROUPS = [
    ("Two parties", "Challenges and answers under a key that both have.", """
        ping mutual chap iso9798-2-1 iso9798-2-2 iso9798-2-3 iso9798-2-4 iso9798-4-1 iso9798-4-2 iso9798-4-3 iso9798-4-4
        skid3 map1 andrew andrew-amended http-digest totp commitment
    """.split()),
    ("With a server", "A server that shares a key with each gives two others a new one, or vouches for them.", """
        nssk nssk-amended denning-sacco otway-rees yahalom wide-mouthed-frog woo-lam woo-lam-mutual kao-chow
        neuman-stubblebine kerberos5 iso9798-2-5 iso9798-2-6 spins-keys radius
    """.split()),
    ("Derived keys", "Keys for one session, made from a longer-lived one and what was sent.", """
        akep2 eap-psk wpa2 umts-aka lorawan-join snep noise-nnpsk0 tls13-psk
    """.split()),
    ("Chains and trees", "Hashes over hashes: what is shown later is checked by what was had before.", """
        skey tesla merkle ratchet
    """.split()),
]

# The last group, and what is said of it.
PEERS = ("Real peers", "Programs that others wrote, byte for byte. The page of each has what it takes and what not.")

OPENING = """# Examples

{count} narrations, most of them protocols of the literature over symmetric keys and hashes; those in `real/` are what programs speak that others wrote. This page is written by `docs/charts.py`; `docs/check.py` plays each example and compares each byte.

A folder has the narration, `ROLE.values` for each role, `all.values` with a value for each name that some role knows, and `schedule`, the roles in the order in which they take their turns; `nssk/eager.schedule` has turns that come too soon and are passed over. [expected](expected) has what comes of playing all roles against each other, with the SHA-256 of all frames in a row. Seeds are fixed, so that each run gives the same bytes. A folder in `real/` also has its page, `setup`, which installs the peer, and an `expected` of its own, with the commands that play and probe the peer and what came; `docs/check_peers.py` runs them.

**Where to begin**: `ping` and `mutual` are the smallest. `nssk` and `nssk-amended` show what a server adds, and what an amendment changes for B. `wpa2` derives its keys, `skey` and `ratchet` carry something from one message to the next. Within a group the examples stand in an order to read them in.

Under each chart stands which messages a role takes, as `anb check` says it: the pattern of each arrival that isn't fixed, with `?1`, `?2`, .. where any term may come, one wherever the same must come. What it **takes unchecked** are the terms whose variable stands once: whatever comes there, the role goes on. A nonce of the partner is often among them, and rightly; a key or a ticket there deserves a thought. What **rests on arrivals alone** is compared with other arrivals, or is a key or an operand of one; who can make the arrival that holds it isn't said. What came out of a seal is still from someone who had the seal's key, and so is what a mac is of. The index has both. **A recording of another run** is what came in a run in which the role drew other names: the role stops at the first event that needs one of its new names, or takes all of it. **Whoever knows only** the agents' names, hears what the role sends and picks all else himself can send all that it takes, or as far as an event, where a line says so; where there is none, nothing is claimed. **Nothing that it takes afterwards depends on** a name that the role drew: whatever it drew, it would take the same from there on. In `lorawan-join` that is the device's nonce, in others a payload. **Notes** say of a key that it stands in clear in a message, or that nobody knows it from the start, who draws it, and where it is a key that another role receives. All this says which messages a role takes, and is no search for attacks. Fewer unchecked parts are not more security: nothing here is a claim that a protocol is secure, and some of these are known not to be.

`peer/` has a role in Python, and one with mistakes, and `offer/` a text with a choice; the [tutorial](../docs/TUTORIAL.md) uses them.
"""


def comment_of(text):
    """The first line of the narration's comment, and its other parts by their first words."""
    lines = [line[1:].strip() for line in re.match(r"(#[^\n]*\n)*", text).group().splitlines()]
    parts = re.split(r" (?=(?:Source|Changed): )", " ".join(lines))
    return parts[0], parts[1:]


def participant(role):
    """A role's name; one that is a word of Mermaid's has an entity code in place of its first letter."""
    return f"#{ord(role[0])};{role[1:]}" if role.lower() in WORDS else role


def chart(story):
    """What `anb chart` writes, made apart from it."""
    lines = ["sequenceDiagram", *(f"    participant {participant(role)}" for role in story.roles)]
    for number, ((sender, receiver, message), made) in enumerate(zip(story.actions, story.made_names()), 1):
        if made:
            lines.append(f"    Note over {participant(sender)}: new {', '.join(made)}")
        lines.append(f"    {participant(sender)}->>{participant(receiver)}: {number} {narration.text_of(message)}")
    return "".join(line + "\n" for line in lines)


def written(program, *words):
    return subprocess.run([program, *words], capture_output=True, check=True, timeout=300).stdout.decode()


def reported(program, path):
    """What `anb check` writes of what each role takes: for each event a pattern or nothing, and the lines at its end;
    and the notes at the end of all."""
    patterns, lines, notes, role = {}, {}, [], None
    for line in written(program, "check", path).splitlines():
        head = re.match(r"role (\S+): ", line)
        if head:
            role = head[1]
            patterns[role], lines[role] = [], []
        elif re.match(r"  event [1-9]\d*, .* from \S+: ", line):
            patterns[role].append(None)
        elif line.startswith("    ") and "accepts " in line:
            patterns[role][-1] = line.split("accepts ", 1)[1]
        elif re.match(r"  (\?1 stands for|takes|rests|a recording|whoever|nothing that it takes) ", line):
            lines[role].append(line.strip())
        elif line.startswith(NOTE):
            notes.append(line.removeprefix(NOTE))
    return patterns, lines, notes


def end_lines(meanings, once):
    """The lines at a role's end: what its variables stand for, those that stand once, and the others."""
    stand = ", ".join(f"?{i}{' stands' if i == 1 else ''} for {term}" for i, term in enumerate(meanings, 1))
    unchecked = ", ".join(term for term, one in zip(meanings, once) if one)
    resting = ", ".join(term for term, one in zip(meanings, once) if not one)
    lines = [stand, UNCHECKED + unchecked if unchecked else "takes nothing unchecked", resting and RESTING + resting]
    return [line for line in lines if line]


def recording_lines(story, role):
    """The line on a recording of another run, where the role receives something."""
    if all(receiver != role for _, receiver, _ in story.actions):
        return []
    stop = narration.recording(story, role)
    return [RECORDING + (f"stops at event {stop[0]}, since {stop[1]} is new" if stop else "is taken to the end")]


def stranger_lines(story, role):
    """The line on somebody without a key, where he can make something that the role takes."""
    last, is_all = narration.stranger(story, role)
    agents = ", ".join(name for name, sort in story.sorts.items() if sort == "Agent")
    end = "" if is_all else f" up to event {last}"
    return [f"{STRANGER}{agents} can send all that {role} takes{end}"] if last else []


def idle_lines(story, role):
    """The line on new names of the role on which nothing depends that it takes afterwards, where there are such."""
    names = narration.idle(story, role)
    return [IDLE + ", ".join(names)] if names else []


def key_notes(story, path, report):
    """The notes on keys: the last ones of the program's report are those that are found apart from it."""
    found = narration.notes(story)
    if report[2][len(report[2]) - len(found) :] != found or any(" key in " in note for note in report[2][: len(report[2]) - len(found)]):
        raise ValueError(f"{path}: `check` notes {report[2]}, and not {found}")
    return found


def taken(story, path, role, report):
    """What the role takes: the program's report says what is found apart from it."""
    found, meanings, once = narration.taken(story, role)
    lines = end_lines(meanings, once) + recording_lines(story, role) + stranger_lines(story, role) + idle_lines(story, role)
    if (report[0][role], report[1][role]) != (found, lines):
        raise ValueError(f"{path}: `check` says of {role} {report[0][role]}, {report[1][role]}, and not {found}, {lines}")
    return found, lines


def quoted(line):
    """A line with its terms and variables in the signs of code."""
    if line.startswith(RECORDING):
        return re.sub(r"since (\w+) is", r"since `\1` is", line)
    if line.startswith(STRANGER):
        names, can, rest = line.removeprefix(STRANGER).partition(" can ")
        return f"{STRANGER}{', '.join(f'`{name}`' for name in names.split(', '))}{can}{rest}"
    words, colon, terms = line.partition(": ")
    if colon:
        return f"{words}: {', '.join(f'`{term}`' for term in terms.split(', '))}"
    return re.sub(r"(\?\d+)( stands)? for ([^ ,]+(?:,[^ ,]+)*)", r"`\1`\2 for `\3`", line)


def sentences(story, path, role, report):
    """What the role takes, as items of a list: what it takes unchecked, its patterns, what their variables stand for."""
    found, lines = taken(story, path, role, report)
    stand = [line for line in lines if line.startswith("?")]
    yield f"- {role} {'; '.join(quoted(line) for line in lines if line not in stand)}."
    heard = [number for number, (_, receiver, _) in enumerate(story.actions, 1) if receiver == role]
    shown = ", ".join(f"`{pattern}` as message {number}" for number, pattern in zip(heard, found) if pattern)
    if shown:
        yield f"  It accepts {shown}: {quoted(stand[0])}."


def section(program, folder):
    path = folder / f"{folder.name}.anb"
    text = path.read_text()
    story = narration.Narration(text)
    first, others = comment_of(text)
    lines = [f"### {folder.name}", "", f"[{path.name}]({path.relative_to(EXAMPLES)}): {first}"]
    lines += [line for other in others for line in ("", other)]
    if folder.parent == REAL:
        lines += ["", f"Peer: [what it takes]({folder.relative_to(EXAMPLES)}/README.md)."]
    lines += ["", f"```mermaid\n{chart(story)}```", ""]
    report = reported(program, path)
    for role in story.roles:
        lines += sentences(story, path, role, report)
    lines += [f"- Note: {note}." for note in key_notes(story, path, report)]
    return "\n".join(lines)


def folders():
    """The folders of all examples; behind the others those in examples/real."""
    there = [path.parent for path in EXAMPLES.rglob("*.anb") if path.stem == path.parent.name]
    return sorted(there, key=lambda folder: (folder.parent == REAL, folder))


def row(folder):
    """An example in the index: what it is, its messages, and for each role what is taken unchecked or rests on arrivals."""
    path = folder / f"{folder.name}.anb"
    text = path.read_text()
    story = narration.Narration(text)
    found = [(role, end_lines(*narration.taken(story, role)[1:])) for role in story.roles]
    cells = [comment_of(text)[0], len(story.actions), *(listed(found, words) for words in (UNCHECKED, RESTING))]
    return f"| [{folder.name}](#{folder.name}) | {' | '.join(map(str, cells))} |"


def listed(found, words):
    """For each role with such a line, the terms in it."""
    rows = [(role, line.removeprefix(words)) for role, lines in found for line in lines if line.startswith(words)]
    return "; ".join(f"{role}: {', '.join(f'`{term}`' for term in terms.split(', '))}" for role, terms in rows) or "nothing"


def grouped():
    """The groups with the folders of their examples. Each example stands in one group."""
    groups = [(title, says, [EXAMPLES / name for name in names]) for title, says, names in GROUPS]
    groups.append((*PEERS, [folder for folder in folders() if folder.parent == REAL]))
    there, told = folders(), [folder for _, _, members in groups for folder in members]
    names = [folder.name for folder in told]
    if set(told) != set(there) or len(set(names)) < len(names):
        lost = [folder.name for folder in set(there) ^ set(told)]
        raise ValueError(f"in no group, in two or not there: {' '.join(sorted(lost or names))}")
    return groups


def page(program):
    parts = [OPENING.format(count=len(folders())).rstrip()]
    for title, says, members in grouped():
        head = f"**[{title}](#{title.lower().replace(' ', '-')})**: {says}"
        table = ["| example | what it is | messages | taken unchecked | rests on arrivals alone |", "|---|---|---|---|---|"]
        parts.append("\n".join([head, "", *table, *(row(folder) for folder in members)]))
    for title, _, members in grouped():
        parts += [f"## {title}", *(section(program, folder) for folder in members)]
    return "\n\n".join(parts) + "\n"


if __name__ == "__main__":
    if len(sys.argv) != 2:
        sys.exit(__doc__)
    (EXAMPLES / "README.md").write_text(page(str(pathlib.Path(sys.argv[1]).resolve())))
