#!/usr/bin/env python3
"""Which names and paths in README.md and docs/ stand nowhere in the repository.

Run by hand, from anywhere: `python3 docs/check_names.py`. It reads the words between backquotes, and paths of sources also
where they stand without. A path has to be a file or a folder, below the root, below crates/, or below a crate that is named
before it under the same heading. A name has to be a word of some source; of `a::b` each part has to be one, in crate `a` if that is a crate.
The tables of docs/MAP.md have to name each crate, and nothing else, and README.md has to say how many crates the program has
of how many. It ends with status 1 where it has something to tell.
"""

import re
import sys
from pathlib import Path

ROOT = Path(__file__).resolve().parent.parent
CRATES = {folder.name: folder for folder in sorted((ROOT / "crates").iterdir()) if folder.is_dir()}
PATH = re.compile(r"[\w.*-]+(?:/[\w.*-]+)+/?|[\w-]+\.(?:rt|antt|md|sh|sql|pag|txt|edit|py)")
NAME = re.compile(r"[A-Za-z_][\w-]*(?:(?:::|\.)[A-Za-z_][\w-]*)*(?:!|\(\))?")
SOURCE = re.compile(r"(?<![\w/])(?:[\w-]+/)*(?:src|specs|proofs)/[\w/]+\.(?:rt|antt)")
# words of other programs and of the kit, and names that files of a database have
FOREIGN = set("mysql sqlite3 valgrind strace flock fsync fdatasync rt std clap first.pag first.log first.dbl fnv".split())


def words_of(folder):
    """All words of the sources below a folder; a name may have hyphens in it."""
    found = set()
    for path in folder.rglob("*"):
        if "out" in path.parts or path.suffix not in {".rt", ".antt", ".edit", ".sh", ".sql"}:
            continue
        found.add(path.stem)
        text = path.read_text(encoding="utf-8", errors="replace")
        found.update(re.findall(r"[\w-]+", text))
        found.update(re.findall(r"\w+", text))
    return found


WORDS = {name: words_of(folder) for name, folder in CRATES.items()}
EVERYWHERE = set().union(*WORDS.values(), CRATES, words_of(ROOT / "bench"), words_of(ROOT / "examples"), FOREIGN)


def has_path(path, named):
    """Whether a path is there: as it stands, below crates/, or below a crate that is named. What is built is not looked at."""
    if "NAME" in path or "out" in path.split("/"):
        return True
    pattern = path.rstrip("/")
    bases = [ROOT, ROOT / "crates", ROOT / "docs"] + [CRATES[name] for name in named]
    bases += [base / part for base in bases[3:] for part in ("src", "specs", "proofs")]
    return any(True for base in bases for _ in base.glob(pattern))


def has_name(name):
    """Whether each part of a name is a word: of its crate, if the first one is a crate."""
    parts = [part for part in re.split(r"::|\.", name.rstrip("!()")) if part]
    if parts[0] in WORDS and len(parts) > 1:
        return all(part in WORDS[parts[0]] for part in parts[1:])
    return all(part in EVERYWHERE or part.endswith("_") for part in parts)


def faults_of(text):
    """The words of a text that stand nowhere, each with the line that it is on. A heading begins anew with no crate named."""
    named = set()
    for number, row in enumerate(text.split("\n"), start=1):
        if row.startswith("#"):
            named = set()
        named.update(word for word in re.findall(r"\w+", row) if word in CRATES)
        quoted = re.findall(r"(?<!`)`([^`\n]+)`(?!`)", row)
        paths = {word for word in quoted if PATH.fullmatch(word)} | set(SOURCE.findall(row))
        for path in sorted(paths):
            if not has_path(path, named) and path not in FOREIGN:
                yield number, path
        for word in quoted:
            if NAME.fullmatch(word) and not PATH.fullmatch(word) and not has_name(word):
                yield number, word


def map_faults(text):
    """Crates that the tables of the map don't name, and what they name that is no crate."""
    tables = text[text.index("## Crates"):text.index("## Where to change what")]
    first_cells = re.findall(r"^\| (`[^|]*)\|", tables, flags=re.M)
    named = {name for cell in first_cells for name in re.findall(r"`(\w+)`", cell)}
    return sorted(named ^ set(CRATES))


def counts():
    """How many crates the program stands on, itself among them, and how many there are: `(71 of 112)`, say."""
    lines = [line for line in (ROOT / "crates.txt").read_text().split("\n") if ":" in line and not line.startswith("#")]
    below = {line.split(":")[0].split()[0]: line.split(":")[1].split() for line in lines}
    reached, left = set(), ["innod"]
    while left:
        name = left.pop()
        if name in below and name not in reached:
            reached.add(name)
            left += below[name]
    return f"({len(reached)} of {len(below)})"


def main():
    files = [ROOT / "README.md"] + sorted((ROOT / "docs").glob("*.md"))
    told = 0
    for file in files:
        for line, word in faults_of(file.read_text(encoding="utf-8")):
            print(f"{file.relative_to(ROOT)}:{line}: {word}")
            told += 1
    for name in map_faults((ROOT / "docs/MAP.md").read_text(encoding="utf-8")):
        print(f"docs/MAP.md: the tables and crates/ differ in {name}")
        told += 1
    if counts() not in (ROOT / "README.md").read_text(encoding="utf-8"):
        print(f"README.md: the crates of the program are {counts()}")
        told += 1
    print(f"{told} things to mend", file=sys.stderr)
    return 1 if told else 0


if __name__ == "__main__":
    sys.exit(main())
