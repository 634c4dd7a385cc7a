"""What tools/check_docs.py checks of DEFINITIONS.md and of the rooms in ARCHITECTURE.md.

    python3 tools/check_definitions.py --labels     writes each link's label from its file, as after a crate is renamed

A heading of DEFINITIONS.md links a section of another page, and the table below it has a row for each sentence of
that section, with the definitions that carry it. A row begins with the sentence, or with how it begins and two dots.
Where the first column is "sentence", each row of a table, each paragraph and each item of a list is a sentence, but
what leads in to these, examples and what speaks of tests; where it is "row", the rows of tables and the rules alone;
where it is "what", the rows say in their own words what is defined. Each definition has to be in its file, each
section of the pages of the rules has to be linked, and each code of ERRORS.md has to have a row.

The tables below the rooms of ARCHITECTURE.md have each crate of crates.txt once. Where crates.txt has headings, as
`# ==== Names`, they are the same rooms.
"""
import pathlib
import re
import sys

sys.dont_write_bytecode = True
import errors_page

TOP = pathlib.Path(__file__).resolve().parent.parent

# The pages whose sentences have definitions, and the sections of them that have none to be named.
DEFINED = ["docs/LANGUAGE.md", "docs/RULES.md", "docs/FLOW.md"]
UNDEFINED = [
    "What differs from Ada 2012",
    "What typing leaves out of Ada 2012",
    "Examples of typing",
    "Reserved words",
    "Grammar",
    "A program with its facts",
]

# ---- sections


def plain(text):
    """A text without the targets of its links, on one line."""
    return " ".join(re.sub(r"\[([^\]]*)\]\([^)]*\)", r"\1", text).split())


def cells(line):
    return [cell.strip() for cell in re.split(r"(?<!\\)\|", line.strip())[1:-1]]


class Section:
    """A section up to the next heading: its title and level, the titles right below it, its tables and its prose."""

    def __init__(self, level, title):
        self.level, self.title, self.below, self.tables, self.prose = level, title, [], [], []

    def rows(self):
        """The rows of its tables but those of examples, each with its cells one after the other."""
        for table in self.tables:
            if not {"breaks the rule", "refused"} & set(table[0]):
                yield from (", ".join(row) for row in table[2:] if row[0])

    def sentences(self):
        """Its rows, its paragraphs and the items of its lists, but what leads in to these or speaks of tests."""
        yield from self.rows()
        for text in map(plain, self.prose):
            if not text.endswith(":") and not text.startswith(("More sources", "`crates/")):
                yield text


def sections(page):
    found = [Section(0, "")]
    before = "blank"
    for line, kind in zip(page.lines, page.kinds):
        now = found[-1]
        if kind == "heading":
            level = len(line) - len(line.lstrip("#"))
            found.append(Section(level, line.lstrip("# ").strip()))
            above = [section for section in found[:-1] if section.level == level - 1]
            if above:
                above[-1].below.append(found[-1].title)
        elif kind == "table":
            if before != "table":
                now.tables.append([])
            now.tables[-1].append(cells(line))
        elif kind == "text":
            if before != "text" or re.match(r"\s*(?:[-*]|\d+\.)\s", line):
                now.prose.append(re.sub(r"^\s*(?:[-*]|\d+\.)\s+", "", line))
            else:
                now.prose[-1] += " " + line
        before = kind
    return found


# ---- rooms


def rooms_of_page(page):
    """The crates of each room of ARCHITECTURE.md, by the room's heading."""
    found = {}
    for section in sections(page):
        named = [re.findall(r"`(\w+)`", row[0]) for table in section.tables for row in table[2:]]
        if section.level == 3 and named:
            found[section.title] = [name for names in named for name in names]
    return found


def rooms_of_list():
    """The crates below each heading of crates.txt, as `# ==== Names`; those before the first one are in the room ""."""
    found, room = {}, ""
    for line in (TOP / "crates.txt").read_text().splitlines():
        heading = re.match(r"# ==== (.*)", line)
        crate = re.match(r"(\w+)[^#:]*:", line)
        room = heading[1] if heading else room
        if crate:
            found.setdefault(room, []).append(crate[1])
    return found


def faults_of_rooms(pages):
    page = next(page for page in pages if page.name == "docs/ARCHITECTURE.md")
    in_page, in_list = rooms_of_page(page), rooms_of_list()
    told = sorted(name for names in in_page.values() for name in names)
    there = sorted(name for names in in_list.values() for name in names)
    for name in sorted(set(told) ^ set(there)):
        yield "%s: no room has the crate %s, or no crate has that name" % (page.name, name)
    for name in sorted(set(told)):
        if told.count(name) > 1:
            yield "%s: two rows for the crate %s" % (page.name, name)
    if set(in_list) - {""}:
        for room in sorted(set(in_page) | set(in_list)):
            if sorted(in_page.get(room, [])) != sorted(in_list.get(room, [])):
                yield "crates.txt: the room %s isn't that of %s" % (room, page.name)


# ---- sentences and their definitions


def begins(key, sentence):
    """Whether a row of DEFINITIONS.md is about a sentence: it has the sentence, or how that begins and two dots."""
    return sentence.startswith(key[:-2].strip()) if key.endswith("..") else sentence == key


def labelled(text):
    """A text with the crate and the file as the label of each link to a file of a crate."""
    return re.sub(r"\[[^\]]*\](\(\.\./crates/(\w+)/\w+/(\w+)\.\w+\))", r"[\2/\3]\1", text)


def is_defined(name, path, texts):
    """Whether a file defines the name, or has it as a variant or a part of what it defines."""
    if path not in texts:
        texts[path] = path.read_text()
    before = r"^\s*(?:(?:abbrev|unfoldable|pub|data|record|enum|struct|fn|const)\s+)*"
    after = r"[^\n=]*?:(?!:)" if path.suffix == ".antt" else r"\s*[({,:]"
    return re.search(before + re.escape(name) + r"(?![\w'])" + after, texts[path], re.M) is not None


def faults_of_names(page, section, texts):
    """The definitions that the tables of a section of DEFINITIONS.md name are in the files that stand before them."""
    for row in (row for table in section.tables for row in table[2:]):
        named = list(re.finditer(r"\]\(([^)#]+)\): (`[^`]+`(?:, `[^`]+`)*)", row[1]))
        if labelled(row[1]) != row[1]:
            yield "%s: %s: a link's label isn't CRATE/FILE" % (page.name, row[0])
        if not named:
            yield "%s: %s: no definition" % (page.name, row[0])
        for group in named:
            path = (page.path.parent / group[1]).resolve()
            for name in re.findall(r"`([^`]+)`", group[2]):
                if path.is_file() and not is_defined(name, path, texts):
                    yield "%s: %s defines no %s" % (page.name, group[1], name)


def faults_of_rows(page, section, kind, of_page, about):
    """Each sentence of a section has one row, and each row a sentence: of kind "row" those of tables and rules alone."""
    keys = [plain(row[0]) for row in section.tables[0][2:]]
    wanted = [plain(text) for text in (about.rows() if kind == "row" else about.sentences())]
    wanted += [plain(title) for title in about.below if re.match(r"\w\d+: ", title) and kind == "row"]
    for sentence in wanted:
        count = sum(begins(key, sentence) for key in keys)
        if count != 1:
            yield "%s: %d rows for the sentence of %s: %s" % (page.name, count, of_page, sentence)
    for key in keys:
        if not any(begins(key, sentence) for sentence in wanted):
            yield "%s: %s has no such sentence: %s" % (page.name, of_page, key)


def faults_of_definitions(pages):
    """DEFINITIONS.md: the sentences of the section that a heading links, and where each is defined."""
    by_name = {page.name: page for page in pages}
    page = by_name["docs/DEFINITIONS.md"]
    stated = {name: {errors_page.slug(plain(s.title)): s for s in sections(by_name[name])} for name in by_name}
    linked, texts, keys = {}, {}, []
    for section in sections(page):
        yield from faults_of_names(page, section, texts)
        keys += [row[0] for table in section.tables for row in table[2:]]
        target = re.search(r"\]\((\w+\.md)#([^)]+)\)", section.title)
        if target:
            kind = section.tables[0][0][0] if section.tables else "what"
            linked[("docs/" + target[1], target[2])] = kind
            about = stated["docs/" + target[1]].get(target[2])
            if about and kind != "what":
                yield from faults_of_rows(page, section, kind, target[1], about)
    for name in DEFINED:
        yield from faults_of_sections(page.name, name, stated[name], linked)
    for row in errors_page.ROWS:
        if not any(re.match(r"%s\b" % row.code, key) for key in keys):
            yield "%s: no row for %s" % (page.name, row.code)


def faults_of_sections(page, name, stated, linked):
    """Each section with sentences is linked by a heading of DEFINITIONS.md, or is a row of one that is."""
    covered = set()
    for slug, section in stated.items():
        if linked.get((name, slug)) == "row":
            covered.update(errors_page.slug(plain(title)) for title in section.below if re.match(r"\w\d+: ", title))
        if (name, slug) in linked or slug in covered or section.title in UNDEFINED:
            continue
        if section.level > 1 and list(section.sentences()):
            yield "%s: no heading links %s#%s" % (page, name, slug)


def faults(pages):
    yield from faults_of_definitions(pages)
    yield from faults_of_rooms(pages)


if __name__ == "__main__":
    if sys.argv[1:] != ["--labels"]:
        print(__doc__)
        sys.exit(2)
    PAGE = TOP / "docs" / "DEFINITIONS.md"
    PAGE.write_text(labelled(PAGE.read_text()))
