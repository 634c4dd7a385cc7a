#!/usr/bin/env python3
"""Checks README.md and the pages of docs/, and prints a line for each fault.

    python3 tools/check_docs.py                     ends with 1 where there is a fault
    python3 tools/check_docs.py --wrap [PAGE...]    wraps the prose of all pages, or of these, first

Checked is that links lead to files and headings that exist; that each example is linked from some page;
that each sentence has its definitions, and each crate its room, as tools/check_definitions.py says;
that programs which a page quotes are those of their files, and recipes pieces of theirs; that counts of
examples, wrong bodies and crates are right; that names of code in the pages about the code exist, and headings
that the code cites; that TOOL.md, RULES.md and ERRORS.md have the same codes; that prose is at most 100 columns
wide, keeps to one word for one idea and cites nothing that isn't here; that ERRORS.md, WHAT_IT_FINDS.md and
LEFT_OUT.md are what tools/errors_page.py, tools/what_it_finds.py and tools/left_out_page.py make; and that
crates.txt is what tools/crate_lines.py makes.
"""
import pathlib
import re
import sys

sys.dont_write_bytecode = True
import crate_lines
import errors_page
import left_out_page
import what_it_finds
import check_definitions

TOP = pathlib.Path(__file__).resolve().parent.parent
WIDTH = 100
DATA = TOP / "crates" / "spark_examples" / "data"

# The folders of examples of one file.
FOLDERS = ["accepted", "commands", "leaks", "refusals", "rules", "runs"]

# The page, and the file whose program it quotes.
QUOTED = [
    ("README.md", DATA / "queue" / "queues.ads"),
    ("README.md", DATA / "queue" / "main.adb"),
    ("docs/ARCHITECTURE.md", TOP / "crates" / "spark" / "data" / "f.adb"),
    ("docs/RUN.md", DATA / "runs" / "leak_before_an_exception.adb"),
]

# Words that another word stands for here, as a pattern, and that word.
REPLACED = [
    (r"want of memory", "out of memory"),
    (r"\bone too many\b", "exceeds the limit"),
    (r"\bmutants?\b", "wrong body"),
    (r"\bsources? goes? on\b", "viable prefix"),
]

# What a page never cites: papers and issues that nobody who opens the repository has.
CITED = [
    r"(?i)\b(document|paper)s? 0?\d",
    r"\bthe papers\b",
    r"(?i)\bissues? #?\d",
    r"\B#\d+\b",
    r"(?<!\w)/w[o]rk/",
    r"\b[DTRW]\d+(\.\d+)?\b",
]


class Page:
    """A page: its name from the top, its text, and its lines with what each is."""

    def __init__(self, path):
        self.path = path
        self.name = path.relative_to(TOP).as_posix()
        self.text = path.read_text()
        self.lines = self.text.split("\n")
        self.kinds = kinds_of(self.lines)
        self.prose = "\n".join(
            line if kind in ("text", "heading", "table") else "" for line, kind in zip(self.lines, self.kinds)
        )

    def at(self, offset):
        """The position of an offset of the text, as a fault shows it."""
        return "%s:%d" % (self.name, self.prose.count("\n", 0, offset) + 1)


def kinds_of(lines):
    """For each line whether it is code, a table, a heading, blank or text."""
    kinds, fence = [], False
    for line in lines:
        if line.lstrip().startswith("```"):
            kinds.append("code")
            fence = not fence
        elif fence:
            kinds.append("code")
        elif line.lstrip().startswith("|"):
            kinds.append("table")
        elif line.startswith("#"):
            kinds.append("heading")
        else:
            kinds.append("text" if line.strip() else "blank")
    return kinds


def headings(page):
    """The anchors of a page."""
    found = set()
    for line, kind in zip(page.lines, page.kinds):
        if kind == "heading":
            title = re.sub(r"\[([^\]]*)\]\([^)]*\)", r"\1", line.lstrip("#"))
            found.add(errors_page.slug(title))
    return found


def links(page):
    """Each target with its position."""
    for link in re.finditer(r"\]\(([^)\s]+)\)", page.prose):
        yield link[1], page.at(link.start())


def faults_of_links(pages):
    anchors = {page.path: headings(page) for page in pages}
    linked = set()
    for page in pages:
        for target, at in links(page):
            if re.match(r"[a-z]+:", target):
                continue
            name, _, anchor = target.partition("#")
            path = (page.path.parent / name).resolve() if name else page.path
            linked.add(path)
            if not path.exists():
                yield "%s: no file %s" % (at, name)
            elif anchor and anchor not in anchors.get(path, ()):
                yield "%s: no heading %s" % (at, target)
    for path in sorted(DATA.glob("*/*")):
        if path not in linked:
            yield "%s: no page links to this example or table" % path.relative_to(TOP)


def counted():
    """How many there are of what a page may count."""
    crates = [line for line in (TOP / "crates.txt").read_text().splitlines() if re.match(r"\w+:", line)]
    return {
        "examples": sum(len(list(DATA.glob(folder + "/*.adb"))) for folder in FOLDERS),
        "wrong bodies": len(list(TOP.glob("crates/*/must-fail/*.edit"))),
        "crates": len(crates),
    }


def faults_of_counts(pages):
    counts = counted()
    for page in pages:
        for count in re.finditer(r"\b(\d[\d,]*)\s+(examples|wrong\s+bodies|crates)\b", page.prose):
            what = " ".join(count[2].split())
            if int(count[1].replace(",", "")) != counts[what]:
                yield "%s: there are %d %s" % (page.at(count.start()), counts[what], what)


def faults_of_prose(pages):
    for page in pages:
        for number, (line, kind) in enumerate(zip(page.lines, page.kinds), 1):
            if kind == "text" and len(line) > WIDTH and len(tokens_of(line)) > 1:
                yield "%s:%d: %d columns" % (page.name, number, len(line))
        for pattern, word in REPLACED:
            for found in re.finditer(pattern.replace(" ", r"\s+"), page.prose):
                yield "%s: write: %s" % (page.at(found.start()), word)
        for pattern in CITED:
            for found in re.finditer(pattern.replace(" ", r"\s+"), page.prose):
                yield "%s: nobody has what this cites: %s" % (page.at(found.start()), found[0])


def faults_of_quotes(pages):
    texts = {page.name: page.text for page in pages}
    for name, path in QUOTED:
        lines = path.read_text().splitlines()
        head = [line for line in lines if line.startswith("--> ")]
        program = "\n".join(lines[len(head) + 1 :] if head else lines)
        if "```ada\n%s\n```" % program not in texts[name]:
            yield "%s: it doesn't quote %s as it is" % (name, path.relative_to(TOP))
        for line in head:
            word, _, expected = line[4:].partition(" ")
            if word in ("err", "out") and expected.partition(".adb:")[2] not in texts[name]:
                yield "%s: it lacks the line %s" % (name, expected)


def faults_of_recipes(pages):
    """Each piece of a program in FROM_SPARK.md is a piece of the recipe that its section names last."""
    text = next(page.text for page in pages if page.name == "docs/FROM_SPARK.md")
    for block in re.finditer(r"^```ada\n(.*?)^```$", text, re.M | re.S):
        name = re.findall(r"data/recipes/(\w+\.adb)", text[: block.start()])[-1]
        if block[1] not in (DATA / "recipes" / name).read_text():
            yield "docs/FROM_SPARK.md:%d: it isn't a piece of %s" % (text.count("\n", 0, block.start()) + 1, name)


def code_files():
    """The path from the top and the text of each file of code, definitions and proofs."""
    for path in sorted(TOP.glob("crates/*/*/**/*")):
        place = path.relative_to(TOP)
        if path.suffix in (".rt", ".antt") and "out" not in place.parts:
            yield place, path.read_text(errors="replace")


def faults_of_code(pages):
    """Names of code in pages, as `Cursor` or `ParseRefusal::Syntax`, exist; so do pages and headings that code cites."""
    words = set()
    anchors = {page.name: headings(page) for page in pages}
    for place, text in code_files():
        words.update(re.findall(r"[A-Za-z_]\w*", text))
        words.update(place.with_suffix("").parts)
        for name, title in re.findall(r'(docs/[A-Z_]+\.md)`?, "([^"\n]+)"', text):
            if errors_page.slug(title) not in anchors.get(name, ()):
                yield "%s: %s has no heading %s" % (place, name, title)
    for page in pages:
        for name, title in re.findall(r'`([A-Z_]+\.md)`,\s+"([^"]+)"', page.prose):
            if errors_page.slug(" ".join(title.split())) not in anchors.get("docs/" + name, ()):
                yield "%s: %s has no heading %s" % (page.name, name, title)
    for page in pages:
        if page.name not in ("docs/PROVED.md", "docs/ARCHITECTURE.md", "docs/LANGUAGE.md"):
            continue
        until = page.prose.find("## When the whole stands")
        for span in re.finditer(r"`([A-Za-z_]\w*(?:(?:::|\.)[A-Za-z_]\w*)*)`", page.prose[:until]):
            names = re.split(r"::|\.", span[1])
            if page.name.endswith("LANGUAGE.md") and not (len(names) > 1 and span[1][0].isupper()):
                continue
            if names[-1] in ("md", "txt", "adb"):
                continue
            for name in names:
                if name not in words:
                    yield "%s: no code has the name %s" % (page.at(span.start()), name)


def faults_of_codes(pages):
    """The codes that can come, by TOOL.md and RULES.md, are those of ERRORS.md."""
    texts = {page.name: page.text for page in pages}
    can_come = set(re.findall(r"^\| ([A-Z]\d+) \|.*\| yes[^|]*\|$", texts["docs/TOOL.md"], re.M))
    can_come |= set(re.findall(r"^### (\w\d+):", texts["docs/RULES.md"], re.M))
    told = {row.code for row in errors_page.ROWS}
    for code in sorted(can_come - told):
        yield "tools/errors_page.py: no row for %s" % code
    for code in sorted(told - can_come):
        yield "docs/ERRORS.md: neither TOOL.md nor RULES.md says that %s can come" % code
    table = re.findall(r"^\| (\w\d+) \| `([^`]*)` \|", texts["docs/TOOL.md"], re.M)
    source = (TOP / "crates" / "rule_reports" / "src" / "code.rt").read_text()
    for code, text in table:
        if '"%s"' % text not in source or not re.search(r"\b%s\b" % code, source):
            yield "docs/TOOL.md: crates/rule_reports/src/code.rt has no %s `%s`" % (code, text)


def faults(pages):
    yield from faults_of_links(pages)
    yield from check_definitions.faults(pages)
    yield from faults_of_counts(pages)
    yield from faults_of_prose(pages)
    yield from faults_of_quotes(pages)
    yield from faults_of_recipes(pages)
    yield from faults_of_code(pages)
    yield from faults_of_codes(pages)
    yield from crate_lines.faults()
    for maker in (errors_page, what_it_finds, left_out_page):
        if not maker.PAGE.is_file() or maker.PAGE.read_text() != maker.made():
            name = pathlib.Path(maker.__file__).name
            yield "docs/%s: it isn't what tools/%s makes" % (maker.PAGE.name, name)


# ---- wrapping


CODE = r"`[^`]*`"
LINK = r"\[(?:`[^`]*`|[^\]`])*\]\([^)\s]*\)"


def tokens_of(text):
    """The words of a text, where a piece of code is one word, and a link too that fits a line."""
    found = []
    for word in re.findall(r"(?:%s|%s|[^\s`])+" % (LINK, CODE), text):
        word = re.sub(r"\s+", " ", word)
        found += [word] if len(word) < WIDTH else re.findall(r"(?:%s|[^\s`])+" % CODE, word)
    return found


def filled(text, indent, first):
    """The words in lines; a word that would begin a list or a heading stays on the line of the word before it."""
    lines, line = [], first
    for word in tokens_of(text):
        fits = len(line) + 1 + len(word) <= WIDTH or re.fullmatch(r"[-+*#>|]+|\d+[.)]", word)
        if line.strip() == "" or line == first:
            line = line + word
        elif fits:
            line = line + " " + word
        else:
            lines.append(line)
            line = indent + word
    return lines + [line]


def wrap(page):
    """The text of a page with its prose wrapped."""
    made, number = [], 0
    while number < len(page.lines):
        line = page.lines[number]
        number += 1
        if page.kinds[number - 1] != "text" or line.lstrip().startswith("<!--"):
            made.append(line)
            continue
        item = re.match(r"(\s*(?:[-*]|\d+\.)\s+)|\s*", line)
        first = item[0]
        paragraph = [line.strip()[len(first.strip()) :]]
        while number < len(page.lines) and page.kinds[number] == "text" and not re.match(r"\s*(?:[-*]|\d+\.)\s", page.lines[number]):
            paragraph.append(page.lines[number].strip())
            number += 1
        made += filled(" ".join(paragraph), " " * len(first), first)
    return "\n".join(made)


def main():
    paths = [TOP / "README.md"] + sorted((TOP / "docs").glob("*.md"))
    if sys.argv[1:2] == ["--wrap"]:
        for path in [pathlib.Path(name).resolve() for name in sys.argv[2:]] or paths:
            if path not in (errors_page.PAGE, what_it_finds.PAGE, left_out_page.PAGE):
                path.write_text(wrap(Page(path)))
    elif sys.argv[1:]:
        print(__doc__)
        return 2
    found = list(faults([Page(path) for path in paths]))
    print("\n".join(found + ["%d pages, %d faults" % (len(paths), len(found))]))
    return 1 if found else 0


if __name__ == "__main__":
    sys.exit(main())
