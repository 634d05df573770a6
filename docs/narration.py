"""Narrations in Python, as far as the checks of the examples need them: reading a well-formed text, what each role
knows and draws, and the bytes of every term. Standard library alone, apart from the program's own code."""

import pathlib
import re
import sys

sys.path.insert(0, str(pathlib.Path(__file__).resolve().parent.parent / "examples" / "peer"))
import anbwire  # noqa: E402

TOKEN = re.compile(r'\s+|#[^\n]*|([A-Za-z][A-Za-z0-9_]*)|("(?:[^"\\]|\\.)*")|(->|[:;,()=])')
HEADS = ("Types", "Formats", "Knowledge", "Actions")


def tokens_of(text):
    # a literal may have the sign in it that begins a comment
    text = re.sub(r'("(?:\\.|[^"\\])*")|#[^\n]*', r"\1", text)
    text = re.split(r"\bGoals\s*:", text)[0]
    return [m.group().strip() for m in TOKEN.finditer(text) if m.group().strip()]


def literal_bytes(text):
    """What a literal in quotes stands for."""
    parts = re.findall(r'\\x[0-9A-Fa-f]{2}|\\["\\]|[^\\]', text[1:-1])
    return b"".join(bytes([int(p[2:], 16)]) if p[:2] == "\\x" else p[-1].encode() for p in parts)


def literal_text(data):
    plain = {34: '\\"', 92: "\\\\"}
    return '"' + "".join(plain.get(b) or (chr(b) if 32 <= b < 127 else f"\\x{b:02x}") for b in data) + '"'


class Narration:
    """A term is a name, or a tuple of an operator or format and its arguments."""

    def __init__(self, text):
        self.suite, self.sorts, self.formats, self.knows, self.actions = "sha256", {}, {}, {}, []
        self.types = []
        self.left = tokens_of(text)
        self.expect("Protocol", ":")
        self.name = self.next()
        self.expect(";")
        if self.left[0] == "Suite":
            self.expect("Suite", ":")
            self.suite = self.next()
            self.expect(";")
        while self.left:
            head = self.next()
            self.expect(":")
            while self.left and self.left[0] not in HEADS:
                getattr(self, "read_" + head.lower())()
        roles = list(self.knows) + [name for sender, receiver, _ in self.actions for name in (sender, receiver)]
        self.roles = list(dict.fromkeys(roles))

    def next(self):
        return self.left.pop(0)

    def expect(self, *tokens):
        for token in tokens:
            found = self.next()
            if found != token:
                raise ValueError(f"{found} in place of {token}")

    def names_or(self, read, close=";"):
        """What stands between here and the closing token, with commas between."""
        found = []
        while self.left[0] != close:
            found.append(read())
            if self.left[0] == ",":
                self.next()
        self.next()
        return found

    def read_types(self):
        sort = self.next()
        names = self.names_or(self.next)
        self.types.append((sort, names))
        self.sorts.update((name, sort) for name in names)

    def read_formats(self):
        name = self.next()
        self.expect("=")
        pieces = []
        while self.left[0] != ";":
            piece = self.next()
            pieces.append(literal_bytes(piece) if piece[0] == '"' else piece)
        self.next()
        self.formats[name] = pieces

    def read_knowledge(self):
        role = self.next()
        self.expect(":")
        self.knows[role] = self.names_or(self.term)

    def read_actions(self):
        sender = self.next()
        self.expect("->")
        receiver = self.next()
        self.expect(":")
        self.actions.append((sender, receiver, self.term()))
        self.expect(";")

    def term(self):
        name = self.next()
        if self.left[0] != "(":
            return name
        self.next()
        return (name, *self.names_or(self.term, ")"))

    # What the narration says.

    def known_names(self):
        return [n for n in self.sorts if any(n in names_in(t) for terms in self.knows.values() for t in terms)]

    def made_names(self):
        """For each action, the names that its sender draws."""
        seen, made = set(self.known_names()), []
        for _, _, message in self.actions:
            new = [n for n in dict.fromkeys(names_in(message)) if n not in seen and self.sorts[n] != "Agent"]
            seen.update(new)
            made.append(new)
        return made

    def fresh_names(self, role):
        """The names that this role draws, in the order of its plan."""
        return [n for (sender, _, _), made in zip(self.actions, self.made_names()) if sender == role for n in made]

    def bytes_of(self, term, names):
        """The honest bytes of a term, where `names` gives those of each name."""
        if isinstance(term, str):
            return names[term]
        values = [self.bytes_of(argument, names) for argument in term[1:]]
        if term[0] == "h":
            return anbwire.digest(self.suite, *values)
        calls = {"mac": anbwire.mac, "scrypt": anbwire.seal, "wrap": anbwire.wrap}
        if term[0] in calls:
            return calls[term[0]](self.suite, *values)
        return anbwire.build(self.formats[term[0]], *values)

    def canonical(self):
        """The text that `anb fmt` writes."""
        suite = "Suite: sha512;\n" if self.suite == "sha512" else ""
        out = f"Protocol: {self.name};\n{suite}Types:\n"
        out += "".join(f"  {sort} {', '.join(names)};\n" for sort, names in self.types)
        if self.formats:
            out += "Formats:\n"
        for name, pieces in self.formats.items():
            shown = "".join(" " + (literal_text(p) if isinstance(p, bytes) else p) for p in pieces)
            out += f"  {name} ={shown};\n"
        if self.knows:
            out += "Knowledge:\n"
        for role, terms in self.knows.items():
            out += f"  {role}:{' ' if terms else ''}{', '.join(map(text_of, terms))};\n"
        out += "Actions:\n"
        return out + "".join(f"  {s} -> {r}: {text_of(m)};\n" for s, r, m in self.actions)


def names_in(term):
    """The names of a term from left to right."""
    if isinstance(term, str):
        return [term]
    return [name for argument in term[1:] for name in names_in(argument)]


def text_of(term):
    return term if isinstance(term, str) else f"{term[0]}({','.join(map(text_of, term[1:]))})"


def read_values(text):
    """A values file as a table from a term's text to its bytes."""
    found = {}
    for line in text.split("\n"):
        line = line.strip(" \t\r")
        if line and line[0] != "#":
            label, value = line.split("=", 1)
            value = value.strip(" \t")
            label = label.replace(" ", "").replace("\t", "")
            found[label] = literal_bytes(value) if value[0] == '"' else bytes.fromhex(value[1:])
    return found


class Variable:
    """A part of an arrival that isn't determined yet, or the term that it was found to be."""

    def __init__(self):
        self.term = None


def found(term):
    """A term with what its variables were found to be."""
    while isinstance(term, Variable) and term.term is not None:
        term = term.term
    return (term[0], *map(found, term[1:])) if isinstance(term, tuple) else term


def unify(one, other):
    """Finds out what variables are where two terms are one. There is always an answer: the narrated terms."""
    one, other = found(one), found(other)
    if isinstance(one, Variable):
        if one is not other:
            one.term = other
    elif isinstance(other, Variable):
        other.term = one
    elif isinstance(one, tuple):
        for a, b in zip(one[1:], other[1:]):
            unify(a, b)


KEYS = {"h": None, "mac": None, "scrypt": 1, "wrap": 2}


def composing(has):
    """What makes a term of narrated terms, each with what is known of it; it gives None where the term can't be made."""

    def composed(term):
        for narrated, known in has:
            if narrated == term:
                return known
        parts = [composed(part) for part in term[1:]] if isinstance(term, tuple) else [None]
        return None if None in parts else (term[0], *parts)

    return composed


def open_all(has, composed, opens):
    """Opens all that can be opened, by a function of a narrated term, what is known of it and its keys, which gives the
    parts. Says whether each gave some."""
    opened, more = set(), True
    while more:
        more = False
        for at, (narrated, known) in enumerate(has):
            count = KEYS.get(narrated[0], 0) if isinstance(narrated, tuple) else None
            keys = [] if count is None else [composed(key) for key in narrated[1 : 1 + count]]
            if count is not None and at not in opened and None not in keys:
                parts = opens(narrated, known, keys)
                if parts is None:
                    return False
                has += zip(narrated[1 + count :], parts)
                opened.add(at)
                more = True
    return True


def patterns(story, role):
    """The messages that a role hears, with a variable in place of each part that isn't determined, and what it sends
    where these come: made apart from `anb`, of the narration alone. What the role has are pairs of a narrated term and
    what is known of it. All that can be opened is opened, and each is compared with all that can be made in its place."""
    heard = [message for _, receiver, message in story.actions if receiver == role]
    arrivals = [Variable() for _ in heard]
    own = [*story.knows.get(role, []), *story.fresh_names(role)]
    has = [*zip(own, own), *zip(heard, arrivals)]
    composed = composing(has)

    def opens(narrated, known, keys):
        parts = [Variable() for _ in narrated[1 + len(keys) :]]
        unify(known, (narrated[0], *keys, *parts))
        return parts

    open_all(has, composed, opens)
    for narrated, known in has:
        for other, same in has:
            if narrated == other:
                unify(known, same)
        parts = [composed(part) for part in narrated[1:]] if isinstance(narrated, tuple) else [None]
        if None not in parts:
            unify(known, (narrated[0], *parts))
    said = [found(composed(message)) for sender, _, message in story.actions if sender == role]
    return heard, [found(arrival) for arrival in arrivals], said


def places(pattern, narrated):
    """The variables of a pattern from left to right, each with what is narrated in its place."""
    if isinstance(pattern, Variable):
        return [(pattern, narrated)]
    if isinstance(pattern, str):
        return []
    return [place for a, b in zip(pattern[1:], narrated[1:]) for place in places(a, b)]


def taken(story, role):
    """What a role takes: its patterns as texts, what `?1`, `?2`, .. stand for, and which of these stand once."""
    heard, arrivals, _ = patterns(story, role)
    stand = [place for pattern, narrated in zip(arrivals, heard) for place in places(pattern, narrated)]
    variables = list(dict.fromkeys(variable for variable, _ in stand))
    meanings = [next(text_of(term) for variable, term in stand if variable is v) for v in variables]
    once = [sum(variable is v for variable, _ in stand) == 1 for v in variables]

    def text(pattern):
        if isinstance(pattern, Variable):
            return f"?{variables.index(pattern) + 1}"
        return pattern if isinstance(pattern, str) else f"{pattern[0]}({','.join(map(text, pattern[1:]))})"

    return [None if text(p) == text_of(m) else text(p) for p, m in zip(arrivals, heard)], meanings, once


def goes_on(story, role, arrivals):
    """Whether a role takes these terms as its first arrivals: it opens all that it can, and whatever the narration has
    in two ways must be one. Made apart from `anb`, by going through the terms that come."""
    heard = [message for _, receiver, message in story.actions if receiver == role]
    own = [*story.knows.get(role, []), *story.fresh_names(role)]
    has = [*zip(own, own), *zip(heard, arrivals)]
    composed = composing(has)

    def opens(narrated, value, keys):
        is_such = isinstance(value, tuple) and value[: 1 + len(keys)] == (narrated[0], *keys)
        return value[1 + len(keys) :] if is_such else None

    if not open_all(has, composed, opens):
        return False
    for narrated, value in has:
        parts = [composed(part) for part in narrated[1:]] if isinstance(narrated, tuple) else [None]
        if None not in parts and value != (narrated[0], *parts) or value != composed(narrated):
            return False
    return True


def with_others(term, names):
    """A term with other names in the places of these."""
    if isinstance(term, str):
        return term + "'" if term in names else term
    return (term[0], *(with_others(part, names) for part in term[1:]))


def recording(story, role):
    """What comes of a recording of a run in which a role drew other names: the first event up to which the role doesn't
    take it, and the first name that it draws for which alone it doesn't; or nothing."""
    own = [message for message in story.actions if role in message[:2]]
    events = [event for event, (_, receiver, _) in enumerate(own, 1) if receiver == role]
    heard = [message for _, receiver, message in own if receiver == role]
    drawn = story.fresh_names(role)
    for count, event in enumerate(events, 1):
        def goes(names):
            return goes_on(story, role, [with_others(message, names) for message in heard[:count]])

        if not goes(drawn):
            return event, next(name for name in drawn if not goes([name]))
    return None


def makes(having, term):
    """Whether a term can be made of others: all that can be opened is opened first."""
    has = [(other, other) for other in having]
    composed = composing(has)
    open_all(has, composed, lambda narrated, known, keys: narrated[1 + len(keys) :])
    return composed(term) is not None


def stranger(story, role):
    """How far somebody gets who knows only the agents' names, and picks all that the role takes from anybody: the number
    of the last event whose message he can make, of what he has and what the role has sent by then; and whether that is
    the last one that the role receives."""
    own = [message for message in story.actions if role in message[:2]]
    _, arrivals, said = patterns(story, role)
    variables = [variable for arrival in arrivals for variable, _ in places(arrival, arrival)]
    having = [name for name, sort in story.sorts.items() if sort == "Agent"] + variables
    last = 0
    for event, (sender, _, _) in enumerate(own, 1):
        if sender == role:
            having.append(said.pop(0))
        elif makes(having, arrivals.pop(0)):
            last = event
        else:
            return last, False
    return last, True


def idle(story, role):
    """The names that a role draws before it receives something, and that no pattern of what it receives has."""
    _, arrivals, _ = patterns(story, role)
    needed = {name for arrival in arrivals for name in fixed_names(arrival)}
    heard = [number for number, (_, receiver, _) in enumerate(story.actions) if receiver == role]
    made = [(number, name) for number, names in enumerate(story.made_names()) for name in names if story.actions[number][0] == role]
    return [name for number, name in made if heard and number < heard[-1] and name not in needed]


def fixed_names(pattern):
    """The names in a pattern, without its variables."""
    if isinstance(pattern, Variable):
        return []
    return [pattern] if isinstance(pattern, str) else [name for part in pattern[1:] for name in fixed_names(part)]


def keys_in(term):
    """The names that are keys of a mac, a seal or a wrap somewhere in a term."""
    if isinstance(term, str):
        return []
    key = [term[1]] if term[0] in ("mac", "scrypt", "wrap") and isinstance(term[1], str) else []
    return key + [name for part in term[1:] for name in keys_in(part)]


def clear_in(term):
    """The names that everybody reads in a message."""
    if isinstance(term, str):
        return [term]
    return [] if term[0] in KEYS else [name for part in term[1:] for name in clear_in(part)]


def inside(term):
    """The names that somebody with all keys takes out of a message."""
    if isinstance(term, str):
        return [term]
    count = KEYS.get(term[0], 0)
    return [] if count is None else [name for part in term[1 + count :] for name in inside(part)]


def notes(story):
    """The notes on a protocol's keys: what stands in the messages, name by name."""
    lines = []
    messages = [(number, message) for number, (_, _, message) in enumerate(story.actions, 1)]
    makers = {name: story.actions[number][0] for number, names in enumerate(story.made_names()) for name in names}
    for name, sort in story.sorts.items():
        keys = [number for number, message in messages if name in keys_in(message)]
        clear = [number for number, message in messages if name in clear_in(message)]
        bare = [number for number in keys if clear and clear[0] <= number]
        others = [number for number in keys if name in makers and story.actions[number - 1][1] != makers[name]]
        if sort == "Agent" and keys:
            lines.append(f"{name} is an agent's name, and a key in action {keys[0]}")
        if sort != "Agent" and bare:
            lines.append(f"{name} stands in clear in action {clear[0]}, and is a key in action {bare[0]}")
        elif sort == "Key" and clear:
            lines.append(f"{name} is of type Key, and stands in clear in action {clear[0]}")
        if sort == "Key" and others:
            brought = "" if any(name in inside(message) for _, message in messages) else ", and no message brings it"
            receiver = story.actions[others[0] - 1][1]
            lines.append(f"nobody knows {name} from the start: {makers[name]} draws it, and it is a key in action {others[0]}, which {receiver} receives{brought}")
    return lines
