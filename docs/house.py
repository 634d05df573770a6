#!/usr/bin/env python3
"""Compares the pages and crates.txt with the sources. Standard library alone.

    python3 docs/house.py      says what doesn't agree; the status is 0 where all does

- crates.txt lists the crates under comment lines, one a layer, and each library that a crate lists it uses.
- docs/ARCHITECTURE.md has these layers as headings, in the same order, each with exactly its crates, and the picture
  of them that docs/layers.py writes.
- A module that specs/Lib.antt lists under `-- for proofs alone` is named by no other crate.
- What a page calls `crate/specs/File`, or `crate, src/file.rt`, is there; and in docs/THEOREMS.md each clause of a row
  is a clause of the crates that the row names, and each edit that it says refuses something is one of theirs.
- Each edit, also those that the gate doesn't try, can still be made: what it changes stands in its file, once.
- docs/REFERENCE.md and anb.1 have each status of the program, and the 125 of the script `./anb`.
- What a page links to is there, down to the heading; docs/REFERENCE.md and docs/THEOREMS.md list their parts; and each
  row that docs/EDGE.md names is one of bench/edge.py.
- No row, item or paragraph of a page begins as an earlier one, as it may after a merge.
"""

import functools
import pathlib
import re
import sys

import layers as drawn

ROOT = pathlib.Path(__file__).resolve().parent.parent
CRATES = ROOT / "crates"
PAGES = [ROOT / "README.md", *sorted((ROOT / "docs").glob("*.md"))]
PROOFS_ALONE = "-- for proofs alone"
# The calls of the C library, whose names begin as those of crates do.
CALLS = tuple(f"anb_{it}" for it in ("version", "status_text", "compile", "open", "next", "arrive", "park", "resume", "close"))
# The folders of a crate with edits: those that the gate tries, and those that bench/edits.py does.
EDITS = ("must-fail", "edits")
# Words that stand in the place of a clause's name.
NO_CLAUSE = {"", "each"}


def layers():
    """The layers of crates.txt: each heading with its crates."""
    found = []
    for line in (ROOT / "crates.txt").read_text().splitlines():
        heading, crate = re.match(r"# (\w+): (.+)", line), re.match(r"(\w+)(?: staticlib)?:", line)
        if heading and heading[1] != "NAME":
            found.append((heading[1], []))
        elif crate and found:
            found[-1][1].append(crate[1])
        elif crate:
            found.append(("", [crate[1]]))
    return found


def libraries():
    lines = re.findall(r"^(\w+)(?: staticlib)?:(.*)", (ROOT / "crates.txt").read_text(), re.M)
    return {name: below.split() for name, below in lines}


@functools.cache
def sources(crate, parts=("src", "specs", "proofs")):
    """All that a crate's files say, by file."""
    files = [file for part in parts for file in sorted((CRATES / crate / part).rglob("*"))]
    return {file: file.read_text() for file in files if file.suffix in (".rt", ".antt")}


def unused(crates):
    """The libraries that crates list and don't use."""
    for crate, below in crates.items():
        said = "\n".join(sources(crate).values())
        for library in below:
            if not re.search(rf"\b{library}\b", said):
                yield f"crates.txt: {crate} doesn't use {library}"


def misplaced():
    """Where the layers of docs/ARCHITECTURE.md aren't those of crates.txt."""
    page = (ROOT / "docs" / "ARCHITECTURE.md").read_text()
    parts = re.split(r"^### (\w+).*$", page, flags=re.M)
    told = [(name, re.findall(r"^\| `?(anb\w*)`? \|", text, re.M)) for name, text in zip(parts[1::2], parts[2::2])]
    told = [(name, crates) for name, crates in told if crates]
    for one, other in zip(layers() + [("", [])] * len(told), told + [("", [])] * len(layers())):
        if one != other and (one[1] or other[1]):
            yield f"docs/ARCHITECTURE.md: layer {other[0]} has {' '.join(other[1])}, where crates.txt has {one[0]}: {' '.join(one[1])}"


def undrawn():
    """Whether the picture of the layers is that of crates.txt."""
    page = drawn.PAGE.read_text()
    if drawn.in_page(page) != page:
        yield "docs/ARCHITECTURE.md: another picture of the layers; python3 docs/layers.py writes it"


def intruded(crates):
    """The modules for proofs alone that another crate names."""
    inner = []
    for crate in crates:
        lines = CRATES / crate / "specs" / "Lib.antt"
        if lines.is_file() and PROOFS_ALONE in lines.read_text():
            behind = lines.read_text().split(PROOFS_ALONE, 1)[1]
            inner += [(crate, name) for name in re.findall(r"^pub mod (\w+)", behind, re.M)]
    for other in crates:
        said = sources(other)
        for crate, name in inner:
            users = [file for file, text in said.items() if re.search(rf"\b{crate}\.specs\.{name}\b", text)]
            if crate != other and users:
                yield f"{users[0].relative_to(ROOT)}: names {name} of {crate}, which is for proofs alone"


def is_there(crate, path):
    """Whether a crate has this file, which may be named without its ending."""
    file = CRATES / crate / path
    return file.exists() or any(file.parent.glob(f"{file.name}.*"))


def lost_files(crates):
    """The files that pages name and that aren't there."""
    for page in PAGES:
        for number, line in enumerate(page.read_text().splitlines(), 1):
            named = re.findall(r"\b(?:crates/)?(anb\w*)/((?:src|specs|proofs|must-fail|edits)/[\w/.-]*\w)", line)
            named += re.findall(r"\b(anb\w*), ((?:src|specs|proofs)/[\w/.-]*\w)", line)
            for crate, path in named:
                if crate in crates and not is_there(crate, path):
                    yield f"{page.relative_to(ROOT)}:{number}: {crate} has no {path}"
            for crate in re.findall(r"\banb_\w+", line):
                if crate not in crates and crate not in CALLS:
                    yield f"{page.relative_to(ROOT)}:{number}: there is no crate {crate}"


def anchors(text, level="#+"):
    """The headings of a text, as links name them."""
    headings = re.findall(rf"^{level} (.+)$", re.sub(r"^```.*?^```", "", text, flags=re.M | re.S), re.M)
    return {re.sub(r"[^\w -]", "", it.lower()).replace(" ", "-") for it in headings}


def lost_links():
    """The links of pages to files and headings that aren't there."""
    for page in [*PAGES, *sorted((ROOT / "examples").rglob("*.md"))]:
        for number, line in enumerate(page.read_text().splitlines(), 1):
            for path, heading in re.findall(r"\]\(([^()#:]*)(?:#([\w-]+))?\)", re.sub(r"`[^`]*`", "", line)):
                there = page.parent / path if path else page
                if not there.exists() or heading and heading not in anchors(there.read_text()):
                    yield f"{page.relative_to(ROOT)}:{number}: there is no {path}{'#' * bool(heading)}{heading}"


def unlisted():
    """The parts of long pages that their lists of contents don't have."""
    for name in ("REFERENCE.md", "THEOREMS.md"):
        _, mark, behind = (ROOT / "docs" / name).read_text().partition("\n- [")
        for heading in sorted(anchors(behind, "##")):
            if f"](#{heading})" not in mark + behind:
                yield f"docs/{name}: its contents don't list {heading}"


def doubled():
    """The lines of pages that begin as an earlier one does, but for short ones and those of fenced blocks."""
    for page in [*PAGES, ROOT / "CHANGELOG.md"]:
        there = set()
        for line in re.sub(r"^```.*?^```", "", page.read_text(), flags=re.M | re.S).splitlines():
            if len(line) > 60 and line[:100] in there:
                yield f"{page.relative_to(ROOT)}: stands twice: {line[:60]}"
            there.add(line[:100])


def lost_rows():
    """The rows of docs/EDGE.md that bench/edge.py doesn't have."""
    said = "".join((ROOT / "bench" / name).read_text() for name in ("edge.py", "edge_records.py", "edge_stages.py", "edge_probes.py"))
    for line in (ROOT / "docs" / "EDGE.md").read_text().splitlines():
        for name in re.findall(r"`(\w+)`", line.rpartition(" | ")[2]) if line.startswith("| ") else []:
            if f"def {name}(" not in said:
                yield f"docs/EDGE.md: bench/edge.py has no row {name}"


def lost_statuses():
    """The statuses that the pages don't have, or that the program doesn't."""
    said = (CRATES / "anb_status" / "src" / "status.rt").read_text()
    there = {int(it) for it in re.findall(r"^ +Status::\w+.* => (\d+),$", said, re.M)} | {125}
    table = (ROOT / "docs" / "REFERENCE.md").read_text().partition("\n## Statuses\n")[2].partition("\n### ")[0]
    manual = (ROOT / "anb.1").read_text().partition(".SH EXIT STATUS\n")[2].partition(".SH ")[0]
    told = {
        "docs/REFERENCE.md": re.findall(r"^\| (\d+) \|", table, re.M),
        "anb.1": re.findall(r"^\.B (\d+)$", manual, re.M) + re.findall(r"\b(125)\b", manual),
    }
    for page, numbers in told.items():
        for number in sorted(there ^ set(map(int, numbers))):
            yield f"{page}: status {number} {'is missing' if number in there else 'is none'}"


@functools.cache
def clauses(crate):
    """The names of the clauses and functions of a crate, and of the fields of its records."""
    said = "\n".join(sources(crate, ("src", "specs")).values())
    return set(re.findall(r"\b(?:ensures|pub) (\w+)", said)) | set(re.findall(r"\bfn (\w+)", said))


def edits(crates):
    """The files of the edits of these crates."""
    return [file for crate in crates for folder in EDITS for file in sorted((CRATES / crate / folder).glob("*.edit"))]


def unfit_edits(crates):
    """The edits that can't be made any more."""
    for edit in edits(crates):
        path, old, texts = None, "", {}
        for line in edit.read_text().splitlines():
            word, _, rest = line.partition(": ")
            if word == "file":
                path = edit.parent.parent / rest.strip()
                texts.setdefault(path, path.read_text() if path.is_file() else "")
            elif word == "old":
                old = rest
            elif word.rstrip(":") == "new":
                if not old or texts.get(path, "").count(old) != 1:
                    yield f"{edit.relative_to(ROOT)}: what it changes doesn't stand once in its file: {old.strip()}"
                    break
                texts[path] = texts[path].replace(old, rest)


def lost_clauses(crates):
    """The clauses and edits that rows of docs/THEOREMS.md name and that aren't there."""
    page = ROOT / "docs" / "THEOREMS.md"
    heading = []
    for number, line in enumerate(page.read_text().splitlines(), 1):
        if line.startswith("## "):
            heading = [it for it in re.findall(r"\banb\w*", line) if it in crates]
        cells = [it.strip() for it in line.split(" | ")]
        if not line.startswith("| ") or len(cells) < 4 or cells[0] == "| promise":
            continue
        named = [it for it in re.findall(r"\banb\w*", line) if it in crates] + heading
        known = set().union(*map(clauses, named)) if named else set()
        at = f"docs/THEOREMS.md:{number}"
        spans = [it for cell in cells[1:-2] for it in re.findall(r"`([^`]+)`", cell)]
        for name in {part for it in spans for part in re.findall(r"\w+", it)} - NO_CLAUSE:
            if known and name not in known and name not in crates and not any(name in text for crate in named for text in sources(crate, ("src",)).values()):
                yield f"{at}: no clause or function {name} in {' '.join(dict.fromkeys(named))}"
        stems = {file.stem for file in edits(crates)}
        for name in re.findall(r"\b\w+\b", re.sub(r"\(anb\w*\)", "", cells[-1].strip("| "))):
            if name not in stems:
                yield f"{at}: there is no edit {name}"


def faults():
    """All that doesn't agree, a line each."""
    crates = libraries()
    return [
        *unused(crates),
        *misplaced(),
        *undrawn(),
        *intruded(crates),
        *lost_files(crates),
        *lost_clauses(crates),
        *unfit_edits(crates),
        *lost_statuses(),
        *lost_links(),
        *unlisted(),
        *doubled(),
        *lost_rows(),
    ]


if __name__ == "__main__":
    found = faults()
    print(*found, f"house: {len(found)} faults", sep="\n")
    sys.exit(bool(found))
