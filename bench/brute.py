#!/usr/bin/env python3
"""Whether a role takes exactly what `check` says that it accepts, tried with all terms up to a size. Standard library alone.

    python3 bench/brute.py [--program FILE] [--nodes N] [--most N] [FILE..]

For each role of some small narrations (those below, or the files) the patterns are read out of the program's report. Then
arrivals come as bytes: each term of at most N nodes over the narration's names, two names of a stranger's and its
operators in the place of each arrival, the others as narrated; every narrated message with one part replaced, in all
combinations; and instances of the patterns, as they are and with one part replaced. At most `--most` lists of arrivals a
role and kind, taken evenly. The program plays the role on each, as a session of `host`. It must go on to its end exactly where
these terms are an instance of the patterns, and send what the narration says of it, which docs/narration.py works out.
Lists one line a role: how many lists were tried, and how many of them were taken. The status is 1 where one differs.
"""
import argparse
import itertools
import pathlib
import random
import re
import struct
import subprocess
import sys
import tempfile

ROOT = pathlib.Path(__file__).resolve().parent.parent
sys.path.insert(0, str(ROOT / "docs"))
sys.path.insert(0, str(ROOT / "examples" / "peer"))
import anbwire  # noqa: E402
import narration  # noqa: E402

# The sessions of one `host`.
SESSIONS = 1024
SEED = bytes(range(32))
STRANGER = ["X", "Y"]
HEADS = {"agents": "Agent A, B, S", "formats": 'one = "1" len; two = "2" len len; three = "3" len len len'}
# Each is what its roles know, and its messages.
NARRATIONS = {
    "a secret that a name was sealed with": ("A: A, B; B: B", "A -> B: one(K); A -> B: scrypt(K,two(A,N))"),
    "a nonce that comes twice": ("A: A, B; B: B", "A -> B: one(N); A -> B: two(N,B)"),
    "a nonce that comes back": ("A: A, B, K; B: A, B, K", "A -> B: one(N); B -> A: scrypt(K,two(N,B)); A -> B: mac(K,two(A,N))"),
    "a ticket that is a mac under the key in it": ("A: A, B; B: B", "A -> B: two(K,mac(K,one(K)))"),
    "a ticket under a public name": ("A: A, B; B: A, B", "A -> B: scrypt(A,two(N,B)); B -> A: one(N)"),
    "one nonce where two are due": ("A: A, B, K; B: A, B, K", "A -> B: one(N); B -> A: scrypt(K,two(N,N))"),
    "two nonces": ("A: A, B, K; B: A, B, K", "A -> B: one(N); B -> A: scrypt(K,two(N,M))"),
    "a commitment that is opened": ("A: A, B; B: B", "A -> B: h(two(N,M)); A -> B: two(N,M)"),
    "a commitment that is known": ("A: A, B, N; B: h(N), B", "A -> B: one(N); B -> A: h(one(N))"),
    "an envelope opened twice": ("A: K, L; B: K, L", "A -> B: scrypt(K,scrypt(L,one(N))); B -> A: scrypt(L,one(N))"),
    "an envelope whose key comes later": ("A: A, B; B: B", "A -> B: scrypt(K,one(N)); B -> A: one(B); A -> B: one(K)"),
    "a chain of hashes": ("A: B, N; B: B, h(h(N))", "A -> B: h(N); A -> B: N"),
    "NSSK, its B knows A": (
        "A: A, B, KAS, S; B: A, B, KBS, S; S: A, B, KAS, KBS, S",
        "S -> A: scrypt(KAS,three(B,K,scrypt(KBS,two(K,A)))); A -> B: scrypt(KBS,two(K,A)); B -> A: scrypt(K,one(N)); A -> B: scrypt(K,two(N,N))",
    ),
    "NSSK, its B doesn't know A": (
        "A: A, B, KAS, S; B: B, KBS, S; S: A, B, KAS, KBS, S",
        "S -> A: scrypt(KAS,three(B,K,scrypt(KBS,two(K,A)))); A -> B: scrypt(KBS,two(K,A)); B -> A: scrypt(K,one(N)); A -> B: scrypt(K,two(N,N))",
    ),
    "a body in the context of another": ("A: A, B, K; B: B, K", "A -> B: two(N,wrap(K,one(N),one(M))); B -> A: one(M)"),
}


def text_of(knows, actions):
    """The text of one of the narrations above: what is in capitals and no agent is a number or, by its first letter, a key."""
    names = [it for it in dict.fromkeys(re.findall(r"\b[A-Z]+\b", f"{knows} {actions}")) if it not in ("A", "B", "S")]
    sorts = "".join(f"  {'Key' if it[0] in 'KL' else 'Number'} {it};\n" for it in names)
    lines = [f"  {it.strip()};\n" for part in (HEADS["formats"], knows, actions) for it in part.split(";")]
    count = HEADS["formats"].count(";") + 1, knows.count(";") + 1
    formats, known, sent = lines[: count[0]], lines[count[0] : sum(count)], lines[sum(count) :]
    head = f"Protocol: P;\nTypes:\n  {HEADS['agents']};\n{sorts}"
    return head + "Formats:\n" + "".join(formats) + "Knowledge:\n" + "".join(known) + "Actions:\n" + "".join(sent)


# Terms, as docs/narration.py has them: a name, or a tuple of an operator and its arguments.


def term_in(text):
    """A term with names and variables, as the report writes it."""
    tokens = re.findall(r"[?\w]+|[(),]", text)

    def term():
        name = tokens.pop(0)
        if not tokens or tokens[0] != "(":
            return name
        tokens.pop(0)
        parts = []
        while tokens[0] != ")":
            parts.append(term())
            if tokens[0] == ",":
                tokens.pop(0)
        tokens.pop(0)
        return (name, *parts)

    return term()


def matches(pattern, term, found):
    """Whether the term is the pattern's where the variables are what was found, and what is found of them here."""
    if isinstance(pattern, str):
        return found.setdefault(pattern, term) == term if pattern[0] == "?" else pattern == term
    is_such = isinstance(term, tuple) and term[0] == pattern[0] and len(term) == len(pattern)
    return is_such and all(matches(*it, found) for it in zip(pattern[1:], term[1:]))


def filled(pattern, found):
    if isinstance(pattern, str):
        return found[pattern] if pattern[0] == "?" else pattern
    return (pattern[0], *(filled(part, found) for part in pattern[1:]))


def variables(pattern):
    return [it for it in narration.names_in(pattern) if it[0] == "?"]


def operators(term, found):
    """The operators of a term with the numbers of their arguments."""
    if isinstance(term, tuple):
        found.add((term[0], len(term) - 1))
        for part in term[1:]:
            operators(part, found)


def terms_up_to(nodes, names, built):
    """All terms of at most so many nodes."""
    sized = {1: [*names, *((name,) for name, count in sorted(built) if count == 0)]}
    for size in range(2, nodes + 1):
        sized[size] = [
            (name, *parts)
            for name, count in sorted(built)
            for sizes in itertools.product(range(1, size), repeat=count)
            if sum(sizes) == size - 1
            for parts in itertools.product(*(sized[it] for it in sizes))
        ]
    return [it for size in sorted(sized) for it in sized[size]]


def replaced(term, others):
    """The term with one part, or the whole, replaced by each of the others."""
    yield from others
    if isinstance(term, tuple):
        for place in range(1, len(term)):
            for part in replaced(term[place], others):
                yield (*term[:place], part, *term[place + 1 :])


def evenly(lists, count, most):
    """At most so many of these, taken evenly."""
    step = max(1, -(-count // most))
    return itertools.islice(lists, step // 2, None, step)


def product_of(choices):
    count = 1
    for it in choices:
        count *= len(it)
    return itertools.product(*choices), count


class Role:
    """A role of a narration with the patterns that the program's report has."""

    def __init__(self, story, name, patterns):
        self.story, self.name, self.patterns = story, name, patterns
        self.heard = [message for _, receiver, message in story.actions if receiver == name]
        built = set()
        for _, _, message in story.actions:
            operators(message, built)
        self.built, self.names = built, [*story.sorts, *STRANGER]

    def lists(self, nodes, most, choice):
        """The lists of arrivals that are tried."""
        every = terms_up_to(nodes, self.names, self.built)
        for place in range(len(self.heard)):
            for term in evenly(every, len(every), most):
                yield [*self.heard[:place], term, *self.heard[place + 1 :]]
        others = [[it, *replaced(it, self.names)] for it in self.heard]
        yield from map(list, evenly(*product_of(others), most))
        few = terms_up_to(3, self.names, self.built)
        names = list(dict.fromkeys(it for pattern in self.patterns for it in variables(pattern)))
        for _ in range(most // 10):
            made = [filled(it, found) for found in [{v: choice.choice(few) for v in names}] for it in self.patterns]
            yield made
            place = choice.randrange(len(made))
            wrong = choice.choice(list(replaced(made[place], [choice.choice(few)])))
            yield [*made[:place], wrong, *made[place + 1 :]]

    def accepts(self, arrivals):
        found = {}
        return all(matches(*it, found) for it in zip(self.patterns, arrivals))

    def bytes_in(self, session):
        """What each name stands for in this session: its hash, an agent's name, or what the role draws."""
        drawn = self.story.fresh_names(self.name)
        named = {it: anbwire.digest("sha256", it.encode())[:12] for it in self.names if self.story.sorts.get(it) != "Agent"}
        named.update({it: it.encode() for it in self.story.sorts if self.story.sorts[it] == "Agent"})
        return {**named, **{it: anbwire.draw(SEED, session, number) for number, it in enumerate(drawn)}}

    def says(self, arrivals):
        """What the role sends where these arrive, by the narration alone."""
        _, awaited, said = narration.patterns(self.story, self.name)
        for one, other in zip(awaited, arrivals):
            narration.unify(one, other)
        return [narration.found(it) for it in said]


def roles_of(program, path):
    """The roles that receive something, each with its patterns as `check` writes them."""
    story = narration.Narration(pathlib.Path(path).read_text())
    report = subprocess.run([program, "check", path], capture_output=True, text=True, check=True).stdout
    for block in re.split(r"^role ", report, flags=re.M)[1:]:
        name = block.split(":")[0]
        rows = re.findall(r"^  event \d+, action \d+, from \w+: (.*)\n((?:    .*\n)*)", block, re.M)
        accepted = [(message, re.search(r"accepts (.*)", below)) for message, below in rows]
        patterns = [term_in(found[1] if found else message) for message, found in accepted]
        if patterns:
            yield Role(story, name, patterns)


def frames_of(role, session, arrivals, named):
    yield struct.pack(">BI", 0, session)
    for term in arrivals:
        message = role.story.bytes_of(term, named)
        yield struct.pack(">BII", 1, session, len(message)) + message


def notices_in(data):
    """What each session sent, and how it ended."""
    sent, ends, place = {}, {}, 0
    while place < len(data):
        kind, session = struct.unpack_from(">BI", data, place)
        place += 5
        if kind == 0:
            (length,) = struct.unpack_from(">I", data, place)
            sent.setdefault(session, []).append(data[place + 4 : place + 4 + length])
            place += 4 + length
        else:
            ends.setdefault(session, "done" if kind == 2 else "stopped")
            place += {1: 4, 2: 0, 3: 1}[kind]
    return sent, ends


def played(program, path, role, values, lists):
    """Plays the role on these lists of arrivals; gives those that differ from what was said of them."""
    named = [role.bytes_in(session) for session in range(len(lists))]
    source = b"".join(it for s, arrivals in enumerate(lists) for it in frames_of(role, s, arrivals, named[s]))
    ran = subprocess.run([program, "host", path, role.name, values], input=source, capture_output=True)
    if ran.returncode:
        sys.exit(f"{path}, {role.name}: {ran.stderr.decode()}")
    sent, ends = notices_in(ran.stdout)
    taken = 0
    for session, arrivals in enumerate(lists):
        is_taken, is_due = ends.get(session) == "done", role.accepts(arrivals)
        taken += is_taken
        said = [role.story.bytes_of(it, named[session]) for it in role.says(arrivals)] if is_due else None
        if is_taken != is_due or is_taken and said != sent.get(session, []):
            yield arrivals, is_taken
    yield None, taken


def try_role(program, path, role, folder, asked):
    """Tries all lists of a role; gives how many were tried, were taken, and differ."""
    values = folder / "values"
    known = [(narration.text_of(it), role.story.bytes_of(it, role.bytes_in(0))) for it in role.story.knows.get(role.name, [])]
    values.write_text("".join(f"{it} = x{value.hex()}\n" for it, value in known) + f"@seed = x{SEED.hex()}\n")
    tried = taken = differ = 0
    lists = role.lists(asked.nodes, asked.most, random.Random(1))
    while some := list(itertools.islice(lists, SESSIONS)):
        tried += len(some)
        for arrivals, said in played(program, path, role, values, some):
            if arrivals is None:
                taken += said
                continue
            differ += 1
            if differ < 4:
                print("  taken:" if said else "  refused:", ", ".join(map(narration.text_of, arrivals)))
    return tried, taken, differ


def main():
    words = argparse.ArgumentParser()
    words.add_argument("--program", default=ROOT / "crates" / "anb" / "out" / "anb")
    words.add_argument("--nodes", type=int, default=4)
    words.add_argument("--most", type=int, default=5000)
    words.add_argument("files", nargs="*")
    asked = words.parse_args()
    all_tried = all_taken = all_differ = 0
    with tempfile.TemporaryDirectory() as top:
        folder = pathlib.Path(top)
        files = [(it, it) for it in asked.files]
        for number, (title, parts) in enumerate({} if files else NARRATIONS.items()):
            path = folder / f"{number}.anb"
            path.write_text(text_of(*parts))
            files.append((title, path))
        for title, path in files:
            for role in roles_of(asked.program, path):
                tried, taken, differ = try_role(asked.program, path, role, folder, asked)
                print(f"{title}, {role.name}: {tried} tried, {taken} taken, {differ} differ", flush=True)
                all_tried, all_taken, all_differ = all_tried + tried, all_taken + taken, all_differ + differ
    print(f"{all_tried} tried, {all_taken} taken, {all_differ} differ")
    return 1 if all_differ else 0


if __name__ == "__main__":
    sys.exit(main())
