#!/usr/bin/env python3
"""Counts what makes the sources hard to change: facts that clauses repeat, limits written as numbers, names that stand for
several things, twins, and how many files a command touches. It proves and runs nothing.

  bench/house.py [-v] [TOP]

With -v it lists what it counts.
"""
import collections
import pathlib
import re
import sys

LISTED = "-v" in sys.argv[1:]
WORDS = [word for word in sys.argv[1:] if word != "-v"]
TOP = pathlib.Path(WORDS[0] if WORDS else pathlib.Path(__file__).resolve().parent.parent)
TESTS = {"unit_tests", "run_tests", "cases", "benchmarks"}
LIMITS = {"4000000": "items", "1000000000": "columns", "50000000": "nodes"}
COMMANDS = ["aiger", "explain", "assume", "storm", "equal", "rewrite"]


def read(folder, ending):
    """The texts of a folder of each crate of the program, by their paths."""
    return {
        path.relative_to(TOP / "crates"): path.read_text()
        for crate in sorted((TOP / "crates").iterdir())
        if crate.name not in TESTS
        for path in sorted((crate / folder).rglob(f"*{ending}"))
    }


SOURCES, SPECS, PROOFS = read("src", ".rt"), read("specs", ".antt"), read("proofs", ".antt")


def show(what, found):
    """A line with the number of what was found."""
    print(f"{len(found):5}  {what}")
    if LISTED:
        for one in found:
            print(f"         {one}")


def lines_with(texts, pattern):
    return [f"{path}:{n + 1}" for path, text in texts.items() for n, line in enumerate(text.splitlines()) if re.search(pattern, line)]


def files_with(texts, pattern):
    return [str(path) for path, text in texts.items() if re.search(pattern, text)]


def shared_names(texts, pattern):
    """Names that the pattern finds in more than one crate, each with its crates."""
    crates = collections.defaultdict(set)
    for path, text in texts.items():
        for name in re.findall(pattern, text, re.M):
            crates[name].add(path.parts[0])
    return [f"{name}: {', '.join(sorted(found))}" for name, found in sorted(crates.items()) if len(found) > 1]


def definitions():
    """Each definition of a chapter: its name, its text without comments and blanks, and its file."""
    for path, text in SPECS.items():
        for block in re.split(r"\n\s*\n", re.sub(r"--.*", "", text)):
            name = re.match(r"\s*(?:abbrev pub|pub record|pub data) (\S+)", block)
            if name:
                yield name.group(1), " ".join(block.split()), path


def twins():
    """Definitions of one text in several files."""
    places = collections.defaultdict(list)
    for name, text, path in definitions():
        places[text].append(f"{path}")
    return [f"{text.split(':')[0].strip()}: {', '.join(found)}" for text, found in sorted(places.items()) if len(found) > 1]


def main():
    print(f"{TOP.name}: {len({path.parts[0] for path in SOURCES})} crates of the program")
    print("Facts that clauses repeat")
    show("clauses that there is a number for each block", lines_with(SOURCES, r"length sweeps\.now\.per_block"))
    show("clauses that there are at most 1,000,000,000 columns", lines_with(SOURCES, r"columns.*≤ (MAX_COLUMNS|most_columns|max_columns|1000000000)"))
    show("places that find the blocks of a netlist", [at for at in lines_with(SOURCES, r"\bfind_blocks\(") if not at.startswith("loops/")])
    print("Limits by number, files")
    for number, what in LIMITS.items():
        show(f"{number} {what}", files_with({**SOURCES, **SPECS, **PROOFS}, rf"\b{number}\b"))
    print("Names")
    show("types in several crates", shared_names(SOURCES, r"^\s*(?:pub(?:\(crate\))? )?(?:struct|enum|trait) (\w+)"))
    show("definitions of one name in several crates", shared_names(SPECS, r"^(?:abbrev pub|pub record|pub abbrev) (\S+)"))
    show("functions that are one participle", lines_with(SOURCES, r"^\s*(?:pub(?:\(crate\))? )?fn (?!seed\b|need\b|feed\b)[a-z]+ed\b\s*[(<]"))
    print("Twins")
    show("definitions of one text in several files", twins())
    print("What only a prover needs")
    show("calls of laws", lines_with(SOURCES, r"\blaws\(\)"))
    show("values made for a proof alone (let _ =)", lines_with(SOURCES, r"\blet _ ="))
    print("Errors turned by hand")
    show("closures that drop an error", lines_with(SOURCES, r"map_err\(\|_\|"))
    print("Files that name a command")
    for command in COMMANDS:
        title = command.title()
        variant = rf"\b(?:Command|Purpose|Making|Telling|Topic)\.?:{{0,2}}{title}\b|\b{title}\(|\b{title} ?=>"
        show(command, files_with({**SOURCES, **SPECS}, rf'"{command}"|{variant}'))


main()
