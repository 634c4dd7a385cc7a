#!/usr/bin/env python3
"""Writes the lines of crates.txt: each crate's has the libraries that its text names, and no others.

    python3 tools/crate_lines.py                    ends with 1 where a line differs, and prints a line for each
    python3 tools/crate_lines.py --write            writes the lines; comments and the order of crates stay
    python3 tools/crate_lines.py --ways             prints how many ways lead down from the crates, and which
                                                    libraries a crate should name through another one

A crate's text is its src/, specs/ and proofs/. Code names a library as `NAME::`, clauses, definitions and proofs as
`Rattle.NAME.`. What the types of a library are made of needn't be named: the compiler finds it. So a crate is
proved again only where a library changes that it uses, or that one of these uses.

The gate walks all ways down from each crate, along the lines, again and again. Each line that has both a library and
one that is made of it doubles them, so there are bounds. A crate can name a library through another one that passes
it on: `Rattle.E.specs.D.X` is `Rattle.D.specs.X` where `specs/Lib.antt` of `E` has `pub use Rattle.D.specs as D`, and
`E::x` is `D::x` where `E` has `pub use D::x`.
"""
import pathlib
import re
import sys

TOP = pathlib.Path(__file__).resolve().parent.parent
LINES = TOP / "crates.txt"
# (the gate takes some 45 seconds for each million)
MOST_WAYS = 6_000_000

def bare(path):
    """The text of a file without its comments."""
    text = path.read_text(errors="replace")
    if path.suffix == ".antt":
        text = re.sub(r"\{-.*?-\}", "", text, flags=re.S)
        return re.sub(r'(?m)(^|(?<=[ (){};.,@"]))--.*$', "", text)
    return re.sub(r"(?m)//.*$", "", text)


def names_of(crate):
    """What the crate's text names before a `::` or after `Rattle.`."""
    found = set()
    for part in ("src", "specs", "proofs"):
        for path in sorted((TOP / "crates" / crate / part).glob("**/*")):
            if path.suffix == ".rt":
                found.update(re.findall(r"\b(\w+)\s*::", bare(path)))
                found.update(re.findall(r"\bRattle[.·](\w+)[.·]", bare(path)))
            elif path.suffix == ".antt":
                found.update(re.findall(r"\bRattle[.·](\w+)[.·]", bare(path)))
    return found


def read(text):
    """The crates of crates.txt in order, each with what stands before its libraries, and these."""
    found = {}
    for line in text.splitlines():
        head, colon, rest = line.partition("#")[0].partition(":")
        if colon:
            found[head.split()[0]] = (head, rest.split())
    return found


def made(text):
    """The text of crates.txt with the libraries that each crate names: those of the toolchain last."""
    crates = read(text)
    kit = sorted({library for _, line in crates.values() for library in line} - set(crates))
    order = list(reversed(crates)) + kit
    lines = []
    for line in text.splitlines():
        head, colon, rest = line.partition("#")[0].partition(":")
        if colon:
            crate = head.split()[0]
            named = names_of(crate)
            before = [library for library in crates[crate][1] if library in named]
            more = [library for library in order if library in named - set(before) - {crate}]
            line = " ".join([head + ":"] + before + more)
        lines.append(line)
    return "\n".join(lines) + "\n"


def lines_below(text):
    """For each crate, lowest first, the libraries of this repository in its line."""
    crates, found = read(text), {}

    def visit(crate):
        if crate not in found:
            own = [library for library in crates[crate][1] if library in crates]
            for library in own:
                visit(library)
            found[crate] = own

    for crate in crates:
        visit(crate)
    return found


def ways_below(below):
    """How many ways lead down from each crate, with the one that ends at once."""
    ways = {}
    for crate, own in below.items():
        ways[crate] = 1 + sum(ways[library] for library in own)
    return ways


def costly(below):
    """The libraries that cost most ways and that a crate can name through another one: ways, crate, library, others."""
    ways, reached, above = ways_below(below), {}, dict.fromkeys(below, 1)
    for crate, own in below.items():
        reached[crate] = set(own).union(*(reached[library] for library in own))
    for crate in reversed(below):
        for library in below[crate]:
            above[library] += above[crate]
    for crate, own in below.items():
        for library in own:
            through = [it for it in own if library in reached[it]]
            if through:
                yield above[crate] * ways[library], crate, library, through


def tell_ways():
    """Prints the ways, and ten libraries that cost most of them."""
    below = lines_below(LINES.read_text())
    print("%d ways, of at most %d" % (sum(ways_below(below).values()), MOST_WAYS))
    for ways, crate, library, through in sorted(costly(below), reverse=True)[:10]:
        print("%s has %s: %d ways; it can name it through %s" % (crate, library, ways, " or ".join(through)))


def faults():
    """A line for each crate whose libraries aren't those that it names, and one where there are too many ways."""
    text = LINES.read_text()
    now, wanted = read(text), read(made(text))
    ways = sum(ways_below(lines_below(text)).values())
    if ways > MOST_WAYS:
        yield "crates.txt: %d ways lead down from the crates, more than %d: see --ways" % (ways, MOST_WAYS)
    for crate, (_, libraries) in wanted.items():
        listed = now[crate][1]
        for library in [it for it in listed if it not in libraries]:
            yield "crates.txt: %s has %s, which its text doesn't name" % (crate, library)
        for library in [it for it in libraries if it not in listed]:
            yield "crates.txt: %s lacks %s, which its text names" % (crate, library)


def main():
    if sys.argv[1:] == ["--write"]:
        LINES.write_text(made(LINES.read_text()))
        return 0
    if sys.argv[1:] == ["--ways"]:
        tell_ways()
        return 0
    if sys.argv[1:]:
        print(__doc__)
        return 2
    found = list(faults())
    print("\n".join(found + ["%d faults" % len(found)]))
    return 1 if found else 0


if __name__ == "__main__":
    sys.exit(main())
