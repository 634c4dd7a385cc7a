#!/usr/bin/env python3
"""Writes the trees of Ada sources as terms of the proofs, and lemmas over them.

    tools/tree_terms.py term FILE...      prints the term of the units of each file
    tools/tree_terms.py resolved FILE...  prints the term of the resolved program of the files
    tools/tree_terms.py check FILE...     compares the tokens of each file with the spelling of its
                                          tree, and ends with 1 where they differ
    tools/tree_terms.py lemmas            writes the lemmas of the crates of tests that have data/
    tools/tree_terms.py lemmas --check    ends with 1 where they aren't what would be written, or
                                          where identifiers denote other declarations than those
                                          that the lemmas over small sources have

data/cases.txt says which lemmas a crate has. A line `== MODULE: TITLE` begins a module. A line as
`no_body_1 N5 no_body_1.adb:24:29` is a case: the name of the lemma, the rule that is broken first,
and where; or `one none one.adb`, where none is. After it may stand `of COUNT`: then its files are
1.adb to COUNT.adb in a folder of its name. Any other line stands above the cases after it.
"""
import argparse
import pathlib
import re
import sys
import textwrap
from typing import NamedTuple, Optional

import ada_trees
import resolved_trees
from ada_trees import Identifier, Pos, Tree
from resolved_trees import Mark

TOP = pathlib.Path(__file__).resolve().parent.parent
WIDTH = 120
QUOTED = r'"(?:\\.|[^"\\])*"'

# ---- terms


class Word(str):
    """A word of the proofs, which stands as it is; other texts stand in quotes."""


class Terms:
    """Writes trees as terms. A tuple is a word and its arguments."""

    def term(self, part):
        if part is None:
            return "None"
        if isinstance(part, bool):
            return str(part).lower()
        if isinstance(part, (int, Word)):
            return str(part)
        if isinstance(part, str):
            return '"%s"' % part.replace("\\", "\\\\").replace('"', '\\"')
        if isinstance(part, list):
            return self.listed(part)
        if isinstance(part, Pos):
            return "at%s %d %d" % (part.file or "", part.line, part.column)
        word, *parts = self.shortened(part) if isinstance(part, Tree) else part
        return " ".join([word] + [self.argument(it) for it in parts])

    def argument(self, part):
        written = self.term(part)
        return "(%s)" % written if " " in written and written[0] != '"' else written

    def listed(self, parts):
        written = [self.argument(it) if isinstance(it, list) else self.term(it) for it in parts]
        return " ∷ ".join(written + ["[]"])

    def shortened(self, tree):
        """The word of a tree and its arguments."""
        return (tree.form, *tree.parts)


class SourceTerms(Terms):
    """Writes the trees of sources. What recurs has a word of its own, in SourceTrees.antt."""

    # The levels of an expression, with the word that stands for a primary alone at each.
    LEVELS = {
        "expr.LoneRelation": "expr_of",
        "rel.LoneSum": "rel_of",
        "sum.Unsigned": "sum_of",
        "term.Product": "term_of",
        "factor.LonePrimary": "factor_of",
    }

    # Forms that begin with an identifier or a part that has its position: the words that leave it
    # out.
    PLACED = {
        "arg.Association": "association_of",
        "component.Fields": "fields_of",
        "context.Pragma": "pragma_context",
        "context.Use": "use_context",
        "formal.Anonymous": "anonymous_of",
        "formal.Moded": "moded_of",
        "indication.Mark": "indication_of",
        "item.InitializedObjects": "initialized_of",
        "item.Numbers": "numbers_of",
        "item.Objects": "objects_of",
        "item.Pragma": "pragma_item",
        "item.Use": "use_item",
        "range.Constrained": "constrained_of",
        "range.Marked": "marked_of",
    }

    def term(self, part):
        if isinstance(part, Identifier):
            return super().term(("id", *part))
        return super().term(part)

    def shortened(self, tree):
        form, parts = tree.form, tree.parts
        if form in self.LEVELS and self.lone_primary(tree):
            return self.LEVELS[form], parts[0], self.lone_primary(tree)
        if form == "dotted_of":
            return self.dotted(*parts[1:])
        if form == "next_id.FurtherIdentifier":
            return ("next_id_of", parts[0], *parts[1])
        if form == "arg.Positional" and self.lone_primary(parts[1]):
            return "actual_of", parts[0], self.lone_primary(parts[1])
        if form in ("stmt.Assign", "stmt.Call"):
            word = "assign_of" if form == "stmt.Assign" else "call_of"
            return (word, *self.name(parts[1]), *parts[2:])
        if form in ("primary.Named", "name.Prefixed"):
            return self.named(form, tree)
        if form == "stmts.Sequence" and not parts[2]:
            return ("sole", *parts[:2])
        if form == "primary.Text":
            return form, parts[0], ("codes", parts[1])
        return self.plain(tree)

    def lone_primary(self, tree):
        """The primary that an expression, or a level of one, is; None where it is more."""
        while tree.form in self.LEVELS:
            if tree.parts[2:] not in ([], [[]]):
                return None
            tree = tree.parts[1]
        return tree if tree.form.startswith("primary.") else None

    def dotted(self, first, rest):
        if not rest:
            return ("mark", *first)
        if len(rest) == 1:
            return ("selected", *first, rest[0].parts[0], *rest[0].parts[1])
        return "dotted_of", first, rest

    def name(self, tree):
        """The position, the text and the suffixes of a name."""
        pos, (_, text), suffixes = tree.parts
        return pos, text, suffixes

    def named(self, form, tree):
        """A name, as such or as a primary."""
        is_primary = form == "primary.Named"
        pos, text, suffixes = self.name(tree.parts[1] if is_primary else tree)
        if suffixes:
            return "named" if is_primary else "prefixed", pos, text, suffixes
        return "object" if is_primary else "name_of", pos, text

    def plain(self, tree):
        parts = [self.optional(*both) for both in ada_trees.parts_of(tree)]
        if tree.form in self.PLACED:
            return (self.PLACED[tree.form], *parts[1:])
        return (tree.form, *parts)

    def optional(self, writing, part):
        """A part that may be missing, as an option; any other one as it is."""
        if writing == "operator":
            return Word(part)
        may_be_missing = writing[0] == "[" or writing[-1] == "?"
        return ("Some", part) if may_be_missing and part is not None else part


class ResolvedTerms(Terms):
    """Writes resolved trees. What recurs has a word of its own, in ResolvedTrees.antt."""

    # Where a part is the variant of another type.
    VARIANT = {"Unary": "unary", "Binary": "operator", "Attr": "attribute", "Formals": "mode"}

    # Forms that have a text.
    TEXTS = {"Declared": "declared", "Selected": "selected", "Text": "string"}

    def term(self, part):
        if isinstance(part, Mark):
            pos, decl = part
            return super().term(("unresolved", pos) if decl is None else ("mark", pos, decl))
        return super().term(part)

    def listed(self, parts):
        if not parts:
            return "NoMore"
        return super().term(("More", parts[0], parts[1:]))

    def shortened(self, tree):
        form, parts = tree.form, tree.parts
        if form == "Arguments":
            return self.arguments(*parts)
        if form in self.VARIANT:
            front = self.VARIANT[form] + "."
            return (form, *[Word(front + it) if isinstance(it, str) else it for it in parts])
        return (self.TEXTS.get(form, form), *parts)

    def arguments(self, *parts):
        if not parts:
            return ("NoMore",)
        (name, value), *rest = parts
        others = Tree("Arguments", rest)
        return ("actual", value, others) if name is None else ("given", name, value, others)

    def program(self, files):
        count, units = resolved_trees.resolved(files)
        return "program %d (%s)" % (count, super().listed(units))


def comment(text):
    """A text as lines of a comment, as `rt fmt` wraps them."""
    return textwrap.wrap(text, 100, initial_indent="-- ", subsequent_indent="-- ", break_long_words=False, break_on_hyphens=False)


def wrapped(text, indent="    "):
    """The lines of a text, broken at blanks outside of quotes."""
    lines, line = [], ""
    for word in re.findall("(?:%s|[^ \"])+" % QUOTED, text):
        if line and len(line) + 1 + len(word) > WIDTH:
            lines.append(line)
            line = indent + word
        else:
            line = line + " " + word if line else word
    return lines + [line]


# ---- lemmas


class Case(NamedTuple):
    """A lemma's name, the code of the rule, the files of the source, and where it is broken."""

    name: str
    code: str
    files: list
    pos: Optional[Pos]


class Module(NamedTuple):
    name: str
    title: str
    # cases, and texts that stand above those after them
    parts: list


def case_of(line):
    where = r"(\S+\.adb)(?::(\d+):(\d+))?(?: of (\d+))?"
    found = re.fullmatch(r"(\w+) ([A-Z]\d|none) " + where, line)
    if not found:
        return None
    name, code, file, row, column, count = found.groups()
    files = ["%s/%d.adb" % (name, n + 1) for n in range(int(count))] if count else [file]
    return Case(name, code, files, row and Pos(files.index(file), int(row), int(column)))


class Lemmas:
    """The lemmas of a crate, which data/cases.txt tells of."""

    crate = ""
    # what is computed
    unfolding = ""
    proof = "refl"
    # modules of the proofs, and what a lemma may use of each
    words = {}

    def __init__(self):
        self.folder = TOP / "crates" / self.crate

    def modules(self):
        made = []
        for line in (self.folder / "data" / "cases.txt").read_text().splitlines():
            head = re.fullmatch(r"== (\w+): (.*)", line)
            if head:
                made.append(Module(head[1], head[2], []))
            elif made and line:
                made[-1].parts.append(case_of(line) or line)
        return made

    def units(self, file, number):
        text = (self.folder / "data" / file).read_bytes().decode("latin-1")
        units = ada_trees.read(text, number)
        found = ada_trees.difference(text, units)
        if found:
            raise ValueError("%s: %s" % (file, found))
        return units

    def statement(self, case, files):
        """What the lemma of a case says of its files."""
        raise NotImplementedError

    def variants(self, name):
        """The line that brings in the variants of a type under this name."""
        raise NotImplementedError

    def lemma(self, case):
        files = [self.units(file, number) for number, file in enumerate(case.files)]
        statement = wrapped("%s : %s" % (case.name, self.statement(case, files)))
        return statement + ["unfolding " + self.unfolding, "%s = %s" % (case.name, self.proof)]

    def imports(self, text):
        text = re.sub(QUOTED, "", text)
        used = set(re.findall(r"\w+", text))
        lines = ["use Rattle.std.proofs.Common.{refl, [], ◌∷◌}"]
        for module, words in self.words.items():
            names = sorted(used & set(words.split()))
            if names:
                lines.append("use Rattle.%s.{%s}" % (module, ", ".join(names)))
        variants = sorted(set(re.findall(r"\b([a-z_]+)\.[A-Z]", text)))
        return lines[:2] + [self.variants(it) for it in variants] + lines[2:]

    def text(self, module):
        lines = []
        for part in module.parts:
            lines += [""] + (self.lemma(part) if isinstance(part, Case) else comment(part))
        body = re.sub(r"(\n-- .*\n)\n", r"\1", "\n".join(lines) + "\n")
        made = "this of the sources that data/cases.txt has under its name."
        head = ["-- " + module.title, "--", "-- tools/tree_terms.py makes " + made]
        return "\n".join(head + self.imports(body)) + "\n" + body


class NameLemmas(Lemmas):
    """Which rule of names a source breaks first."""

    crate = "name_tests"
    unfolding = "computes resolves"
    rules = {
        "N1": "Unknown",
        "N2": "Twice",
        "N3": "NotVisible",
        "N4": "TooEarly",
        "N5": "NoBody",
        "N6": "WrongEnd",
    }
    # The types of variants, by the names that the forms have them under, and their modules.
    types = {
        "adding": "operator.AddingOperator",
        "aggregate": "expression.Aggregate",
        "alternative": "statement.When",
        "arg": "expression.Arg",
        "branch": "statement.Elsif",
        "choice": "range.Choice",
        "component": "declaration.Component",
        "context": "unit.Context",
        "decl": "subprogram.Decl",
        "expr": "expression.Expr",
        "factor": "expression.Factor",
        "formal": "subprogram.Formal",
        "indication": "declaration.Indication",
        "item": "declaration.Item",
        "multiplying": "operator.MultiplyingOperator",
        "name": "expression.Name",
        "next_arg": "expression.NextArg",
        "next_choice": "range.NextChoice",
        "next_dotted": "identifier.NextDotted",
        "next_factor": "expression.NextFactor",
        "next_formal": "subprogram.NextFormal",
        "next_id": "identifier.NextIdentifier",
        "next_part": "identifier.NextPart",
        "next_term": "expression.NextTerm",
        "operand": "expression.Operand",
        "part": "unit.BodyPart",
        "primary": "expression.Primary",
        "range": "range.Range",
        "rel": "expression.Rel",
        "relational": "operator.RelationalOperator",
        "short_operand": "expression.ShortOperand",
        "sign": "operator.Sign",
        "stmt": "statement.Stmt",
        "stmts": "statement.Stmts",
        "subspec": "subprogram.Subspec",
        "suffix": "expression.Suffix",
        "sum": "expression.Sum",
        "term": "expression.Term",
        "unit": "unit.SourceUnit",
    }
    words = {
        "std.specs.Prelude": "None Some codes",
        "ada_grammar.proofs.SmallSources": "computes",
        "name_events.specs.declared.declaration.NameRule.TheVariants": " ".join(rules.values()),
        "name_tests.proofs.SmallRules": "resolves",
        "name_tests.proofs.SourceTrees": """IsFirstBrokenOf actual_of anonymous_of assign_of
            association_of at at1 at2 at3 at4 call_of constrained_of dotted_of expr_of factor_of
            fields_of formals_of id indication_of initialized_of mark marked_of mode_of mode_on
            moded_of name_of named next_id_of numbers_of object objects_of package_body_of
            package_of pragma_context pragma_item pragma_of pragma_on prefixed private_part rel_of
            selected sole subprogram_of sum_of term_of use_context use_item use_of""",
    }

    def statement(self, case, files):
        written = SourceTerms().argument
        parts = self.rules[case.code], written(case.pos), written(files)
        return "IsFirstBrokenOf " + " ".join(parts)

    def variants(self, name):
        tree = "use Rattle.ada_tree.specs.declared."
        return "%s%s.TheVariants as %s" % (tree, self.types[name], name)


class TypeLemmas(Lemmas):
    """Which rule of typing a program breaks first, or that it breaks none."""

    crate = "type_tests"
    unfolding = "typing"
    types = {
        "attribute": "resolved_tree.specs.declared.operator.Attribute",
        "mode": "place_names.specs.declared.act.Mode",
        "operator": "resolved_tree.specs.declared.operator.Operator",
        "unary": "resolved_tree.specs.declared.operator.UnaryOperator",
    }
    words = {
        "std.specs.Prelude": "false true",
        "resolved_tree.specs.Trees": """Access Aggregate All Anonymous Applied Array Assign Attr
            Binary Block Bounds Branch Call Case Components Constrained ConstrainedSubtype
            Enumeration Exit For Formals Front If Incomplete Instance Interval Loop Marked More
            Named New NoMore Null Number Numbers Objects Others OthersChoice Package PackageBody
            Parens Plain Private RangeOf Record Return Skip SubBody SubDecl Subtype TypeDecl Unary
            Value When While""",
        "type_tests.proofs.ResolvedTrees": """actual at at1 at2 at3 at4 at5 declared given mark
            program selected string unresolved""",
        "type_tests.proofs.TypeRules": "BreaksSentence HasSize IsTyped typing",
    }

    def statement(self, case, files):
        program = "(%s)" % ResolvedTerms().program(files)
        if case.code == "none":
            return "IsTyped " + program
        word = {"K": "BreaksSentence", "Y": "HasSize"}[case.code[0]]
        return "%s %s %s %s" % (word, case.code[1], Terms().argument(case.pos), program)

    def variants(self, name):
        return "use Rattle.%s.TheVariants as %s" % (self.types[name], name)


class TypedLemmas(TypeLemmas):
    """That a program breaks no rule of typing, and which typed program it means."""

    crate = "typed_tests"
    proof = "(refl, refl)"
    words = {
        **{of: words for of, words in TypeLemmas.words.items() if "type_tests" not in of},
        "typed_tests.proofs.ResolvedTrees": TypeLemmas.words["type_tests.proofs.ResolvedTrees"],
        "typed_tests.proofs.TypedRules": "IsTypedAs typing",
    }

    def statement(self, case, files):
        return "IsTypedAs (%s) expected.%s" % (ResolvedTerms().program(files), case.name)

    def imports(self, text):
        return super().imports(text) + ["use Rattle.typed_tests.proofs.Expected as expected"]


# ---- modes


def read_all(paths):
    """The text and the units of each file."""
    for number, path in enumerate(paths):
        text = pathlib.Path(path).read_bytes().decode("latin-1")
        yield path, text, ada_trees.read(text, number)


def print_terms(paths):
    for _, _, units in read_all(paths):
        print("\n".join(wrapped(SourceTerms().term(units))))
    return 0


def print_resolved(paths):
    files = [units for _, _, units in read_all(paths)]
    print("\n".join(wrapped(ResolvedTerms().program(files))))
    return 0


def check(paths):
    found = [(path, ada_trees.difference(text, units)) for path, text, units in read_all(paths)]
    for path, difference in found:
        if difference:
            print("%s: %s" % (path, difference))
    return 1 if any(difference for _, difference in found) else 0


def write_lemmas(only_check):
    status = 0
    for lemmas in (NameLemmas(), TypeLemmas(), TypedLemmas()):
        for module in lemmas.modules():
            path, text = lemmas.folder / "proofs" / (module.name + ".antt"), lemmas.text(module)
            if not only_check:
                path.write_text(text)
            elif not path.exists() or path.read_text() != text:
                print("%s isn't what tools/tree_terms.py writes" % path.relative_to(TOP))
                status = 1
    for name in denoted_otherwise():
        print("%s: its identifiers are resolved otherwise" % name)
        status = 1
    return status


def denoted_otherwise():
    """The names of the lemmas of small sources whose identifiers are resolved otherwise here."""
    for path in sorted((TOP / "crates" / "name_tests" / "proofs").glob("Small*.antt")):
        stated = r"^(\w+) : IsResolved (%s) (\(.*?\[\]\)|\[\])" % QUOTED
        for name, text, numbers in re.findall(stated, path.read_text(), re.M):
            units = ada_trees.read(re.sub(r"\\(.)", r"\1", text[1:-1]))
            if resolved_trees.denoted([units]) != [int(it) for it in re.findall(r"\d+", numbers)]:
                yield name


def main():
    layout = argparse.RawDescriptionHelpFormatter
    words = argparse.ArgumentParser(description=__doc__, formatter_class=layout)
    modes = words.add_subparsers(dest="mode", required=True)
    over_files = {"term": print_terms, "resolved": print_resolved, "check": check}
    for mode in over_files:
        modes.add_parser(mode).add_argument("files", nargs="+")
    modes.add_parser("lemmas").add_argument("--check", action="store_true")
    given = words.parse_args()
    if given.mode == "lemmas":
        return write_lemmas(given.check)
    return over_files[given.mode](given.files)


if __name__ == "__main__":
    sys.exit(main())
