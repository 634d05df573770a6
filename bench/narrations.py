"""Narrations that are hard to compile, each at a size that is asked for.

    python3 bench/narrations.py ROW SIZE

writes the narration to standard output. Without words it lists the rows, each with the role to
compile and the largest size within the limits.
"""
import sys

DIGITS = "0123456789ABCDEFGHIJKLMNOPQRSTUVWXYZabcdefghijklmnopqrstuvwxyz"


def name(prefix, number):
    """A short name: all names of one prefix are different."""
    text = ""
    while True:
        number, digit = divmod(number, 62)
        text = DIGITS[digit] + text
        if number == 0:
            return prefix + text


class Narration:
    def __init__(self):
        self.numbers, self.formats, self.knowledge, self.actions = [], [], {"A": [], "B": []}, []

    def fresh(self, prefix, count):
        """That many further names."""
        start = len(self.numbers)
        names = [name(prefix, start + k) for k in range(count)]
        self.numbers += names
        return names

    def format(self, title, fields):
        self.formats.append(f'{title} = "{title}:" ' + " ".join(["net"] * fields))

    def send(self, sender, message):
        self.actions.append((sender, "AB"["BA".index(sender)], message))

    def text(self):
        lines = ["Protocol: Bench;", "Types:", "  Agent A, B;"]
        if self.numbers:
            lines.append("  Number " + ",".join(self.numbers) + ";")
        if self.formats:
            lines += ["Formats:"] + [f"  {f};" for f in self.formats]
        lines.append("Knowledge:")
        for role, terms in self.knowledge.items():
            lines.append(f"  {role}: {','.join(terms)};" if terms else f"  {role}:;")
        lines.append("Actions:")
        lines += [f"  {a} -> {b}: {m};" for a, b, m in self.actions]
        return "\n".join(lines) + "\n"


def apply(operator, operands):
    return f"{operator}({','.join(operands)})"


def tree(operator, leaves):
    """A balanced tree of one operator with two operands."""
    while len(leaves) > 1:
        leaves = [apply(operator, leaves[i : i + 2]) for i in range(0, len(leaves), 2)]
    return leaves[0]


def declared_names(n):
    """A narration that declares n names and mentions one."""
    w = Narration()
    w.send("A", w.fresh("x", n)[0])
    return w


def known_names(n):
    """A role that knows n names and sends one."""
    w = Narration()
    names = w.fresh("x", n)
    w.knowledge["A"] = names
    w.send("A", names[0])
    return w


def format_trees(n):
    """n messages that are format trees of 255 nodes, all names different, all opened."""
    w = Narration()
    w.format("pair", 2)
    for _ in range(n):
        w.send("A", tree("pair", w.fresh("x", 128)))
    return w


def nested_seals(n):
    """n bodies sealed 60 times under one known key."""
    w = Narration()
    w.numbers.append("K")
    w.knowledge = {"A": ["K"], "B": ["K"]}
    for body in w.fresh("x", n):
        for _ in range(60):
            body = apply("scrypt", ["K", body])
        w.send("A", body)
    return w


def sent_back(n):
    """n messages of a format with 32 names, each sent back."""
    w = Narration()
    w.format("row", 32)
    for _ in range(n):
        message = apply("row", w.fresh("x", 32))
        w.send("A", message)
        w.send("B", message)
    return w


def late_keys(n):
    """n messages of 32 sealed names, the 32 keys last."""
    w = Narration()
    w.format("row", 32)
    w.format("keys", 32)
    keys = w.fresh("k", 32)
    for _ in range(n):
        w.send("A", apply("row", [apply("scrypt", pair) for pair in zip(keys, w.fresh("x", 32))]))
    w.send("A", apply("keys", keys))
    return w


def mac_trees(n):
    """n arrivals of 32 names, each answered by a tree of macs over them."""
    w = Narration()
    w.format("row", 32)
    for _ in range(n):
        names = w.fresh("x", 32)
        w.send("A", apply("row", names))
        w.send("B", tree("mac", names))
    return w


def kept(n, wrap):
    """n terms in one knowledge line that can be neither opened nor composed."""
    w = Narration()
    w.numbers.append("K")
    w.knowledge["A"] = ["B"] + [wrap(x) for x in w.fresh("x", n)]
    w.send("A", "B")
    return w


def kept_seals(n):
    """n seals under a key that is not known, in one knowledge line."""
    return kept(n, lambda x: apply("scrypt", ["K", x]))


def kept_hashes(n):
    """n hashes of names that are not known, in one knowledge line."""
    return kept(n, lambda x: apply("h", [x]))


def seals_and_openings(n):
    """n seals under a key that is not known, and then 2n formats that are opened."""
    w = kept_seals(n)
    w.format("one", 1)
    w.knowledge["A"] += [apply("one", [x]) for x in w.fresh("y", 2 * n)]
    return w


def same_trees(n):
    """One message with n copies of a hash over seven nested formats."""
    w = Narration()
    w.formats = ['hexed = "hexed:" hex', 'copies = "copies:" ' + " ".join(["net"] * n)]
    [term] = w.fresh("x", 1)
    w.knowledge = {"A": [term], "B": [term]}
    for _ in range(7):
        term = apply("hexed", [term])
    w.send("A", apply("copies", [apply("h", [term])] * n))
    return w


def hidden_names(n):
    """n hashes of a new name each, each sent back."""
    w = Narration()
    for _ in range(n):
        message = apply("h", w.fresh("x", 1))
        w.send("A", message)
        w.send("B", message)
    return w


# each row's narration, the role to compile, and the sizes to measure, which double up to the largest
ROWS = {
    "declared_names": (declared_names, "A", [18750, 37500, 75000, 150000]),
    "known_names": (known_names, "A", [8125, 16250, 32500, 65000]),
    "format_trees": (format_trees, "B", [32, 64, 128, 256]),
    "nested_seals": (nested_seals, "B", [32, 64, 128, 256]),
    "sent_back": (sent_back, "B", [16, 32, 64, 128]),
    "late_keys": (late_keys, "B", [32, 64, 127, 255]),
    "mac_trees": (mac_trees, "B", [16, 32, 64, 128]),
    "kept_seals": (kept_seals, "A", [2700, 5400, 10800, 21600]),
    "kept_hashes": (kept_hashes, "A", [4000, 8000, 16000, 32000]),
    "seals_and_openings": (seals_and_openings, "A", [1100, 2200, 4400, 8800]),
    "same_trees": (same_trees, "B", [4, 8, 16, 32]),
    "hidden_names": (hidden_names, "A", [16, 32, 64, 128]),
}


def main():
    if len(sys.argv) != 3:
        for row, (make, role, sizes) in ROWS.items():
            print(f"{row} {role} {sizes[-1]}: {make.__doc__}")
        return
    sys.stdout.write(ROWS[sys.argv[1]][0](int(sys.argv[2])).text())


if __name__ == "__main__":
    main()
