#!/usr/bin/env python3
"""Cases of codes that check too little, computed apart from the program. Standard library alone.

    python3 docs/lessened.py crates/anb/out/anb           compares; the status is 0 where all is as it stands
    python3 docs/lessened.py crates/anb/out/anb --write   writes crates/anb_cases/data/lessened

Each code that `compile` gives for a role of some examples is taken less one of its checks, with what reads its
registers. Where it then ends otherwise on arrivals of which one has another value of a name, or another byte, it can't
be certified, and that is a case, beside what `enact` does of both codes there. What a code does is found here: of the
program stand the codes alone.
"""

import functools
import pathlib
import re
import subprocess
import sys

import check
import narration

FILE = check.ROOT / "crates" / "anb_cases" / "data" / "lessened"
ROLES = [("nssk", "A"), ("mutual", "A"), ("mutual", "B"), ("snep", "A")]
HEAD = """# Codes that `compile` gives, less one of their checks and what reads its registers. Over the arrivals here, of which one
# is another than the narrated one, each ends otherwise than the whole code, so none is certified. Written by
# docs/lessened.py, which finds apart from the program what codes do.
"""
UNCERTIFIED = "    status: 28\n    line begins: anb: not certified at instruction\\s\n"
WORKS = {"hash": "digest", "mac": "mac", "seal": "seal", "unseal": "unseal", "wrap": "wrap", "unwrap": "unwrap"}


def parts_of(code):
    """A role file's lines up to the code, and its instructions."""
    head, _, body = code.partition("\ncode\n")
    return f"{head}\ncode\n", body.splitlines()[:-1]


def worked(story, line, table):
    """What an instruction that is no message makes of the registers, or why it fails."""
    wire = narration.anbwire
    written, words, read = check.instruction(line)
    word, _, name = words.partition(" ")
    values = [table[register] for register in read]
    if word == "equal":
        if values[0] != values[1]:
            raise wire.Refused("not equal")
        made = []
    elif word == "build":
        made = [wire.build(story.formats[name], *values)]
    elif word == "parse":
        made = wire.parse(story.formats[name], *values)
    else:
        made = [getattr(wire, WORKS[word])(story.suite, *values)]
    return zip(written, made)


def enacted(story, code, values, arrivals):
    """How a code ends over these arrivals: the status, the line, and what it sends."""
    table, sent, event, drawn, left = {}, [], 0, 0, list(arrivals)
    for at, line in enumerate(parts_of(code)[1], 1):
        written, words, read = check.instruction(line)
        word, _, label = words.partition(" ")
        if word == "send":
            event += 1
            sent.append(table[read[0]])
        elif word == "recv":
            event += 1
            if not left:
                return 11, f"anb: waiting at event {event}", sent
            table[written[0]] = left.pop(0)
        elif word == "take":
            table[written[0]] = values[label]
        elif word == "fresh":
            table[written[0]] = narration.anbwire.draw(values["@seed"], 0, drawn)
            drawn += 1
        else:
            try:
                table.update(worked(story, line, table))
            except narration.anbwire.Refused:
                return 10, f"anb: stopped at event {event}, instruction {at}", sent
    return 0, None, sent


def untold(result):
    """An end without the instruction of a stop, whose number is another one in a code less a line."""
    status, line, sent = result
    return status, re.sub(r", instruction \d+", "", line or ""), sent


def inputs_of(story, folder, role):
    """Arrivals of which one is another than the narrated one: another value of a name stands in it, or another byte."""
    names = check.names_of(story, folder)
    heard = [message for _, receiver, message in story.actions if receiver == role]
    arrivals = [story.bytes_of(message, names) for message in heard]
    for at, message in enumerate(heard):
        for name in dict.fromkeys(narration.names_in(message)):
            other = story.bytes_of(message, {**names, name: names[name][:-1] + bytes([names[name][-1] ^ 1])})
            yield [*arrivals[:at], other, *arrivals[at + 1 :]]
    yield from check.spoiled(arrivals)


def frames(messages):
    return " ".join(f"{len(message):08x} {message.hex()}" for message in messages)


def ending(result):
    """What a case says of an end."""
    status, line, sent = result
    said = f"    status: {status}\n" + (f"    line: {line}\\n\n" if line else "")
    return said + f"    output hex: {frames(sent)}\n"


def escaped(text):
    """A text, or lines, as one line of a case."""
    text = text if isinstance(text, str) else "".join(f"{line}\n" for line in [*text, "end"])
    return text.replace("\\", "\\\\").replace("\n", "\\n")


def cases_of(name, role, code):
    """The cases of a role's code."""
    folder = check.EXAMPLES / name
    text = check.without_comment((folder / f"{name}.anb").read_text())
    story = narration.Narration(text)
    given = "".join(f"{line}\n" for line in check.values_file(folder, role).read_text().splitlines() if not line.startswith("#"))
    values = narration.read_values(given)
    inputs = list(inputs_of(story, folder, role))
    whole = [enacted(story, code, values, arrivals) for arrivals in inputs]
    head, body = parts_of(code)
    key = f"{name}_{role}".upper()
    yield f"\nnames\n    {key}: {' '.join(text.split())}\n    {key}_VALUES: {escaped(given)}\n    {key}_HEAD: {escaped(head)}\n"
    for at, line in enumerate(body):
        less = check.without_line(code, at) if re.match(r"equal |r[0-9 r]* = (unseal|unwrap|parse) ", line) else None
        ends = [enacted(story, less, values, arrivals) for arrivals in inputs] if less else whole
        other = [number for number, pair in enumerate(zip(ends, whole)) if untold(pair[0]) != untold(pair[1])]
        if other:
            yield from rows(key, role, code, less, f"{at + 1}, `{line}`", inputs[other[0]], whole[other[0]], ends[other[0]])


def rows(key, role, code, less, dropped, arrivals, whole, end):
    """That a code less a check isn't certified, and what both codes do on these arrivals."""
    yield f"\ngroup {key} without instruction {dropped}\n    n: {{{key}}}\n    v: {{{key}_VALUES}}\n    input hex: {frames(arrivals)}\n"
    for title, body, ends in ("without the check", less, end), ("with it", code, whole):
        text = "{" + key + "_HEAD}" + escaped(parts_of(body)[1])
        if body == less:
            yield f"\nrow it isn't certified\n    words: certify n {role} r\n    r: {text}\n{UNCERTIFIED}"
        yield f"\nrow {title}\n    words: enact r v\n    r: {text}\n{ending(ends)}"


def compiled(program, name, role):
    path = check.EXAMPLES / name / f"{name}.anb"
    return subprocess.run([program, "compile", path, role], capture_output=True, text=True, check=True, timeout=60).stdout


def main():
    compile_of = functools.partial(compiled, sys.argv[1])
    text = HEAD + "".join(part for name, role in ROLES for part in cases_of(name, role, compile_of(name, role)))
    if "--write" in sys.argv:
        FILE.write_text(text)
    if not FILE.exists() or FILE.read_text() != text:
        print("crates/anb_cases/data/lessened: not what docs/lessened.py writes")
        return 1
    return 0


if __name__ == "__main__":
    sys.exit(main())
