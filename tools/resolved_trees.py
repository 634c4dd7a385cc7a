"""Finds what the identifiers of a program denote, and makes its resolved trees.

The rules are those of docs/LANGUAGE.md, "Names". The program breaks none of them: nothing is
looked for here that would refuse it. The resolved trees are those of the crate `resolved_tree`: a
Tree has the form of a constructor there, as `Named`, and its parts in order. A list is a Python
list, but that of arguments is a Tree `Arguments` of pairs: the identifier before `=>` or None, and
the expression.
"""
from typing import NamedTuple, Optional

from ada_trees import Pos, Tree


class Mark(NamedTuple):
    """A name of identifiers alone: its position, and the number of what it denotes or None."""

    pos: Pos
    decl: Optional[int]


class Declaration:
    """A declaration: what it is, its region with the part of that, and the region of its own."""

    def __init__(self, number, name, form, place, own_region):
        self.number = number
        self.name = name
        self.form = form
        self.region, self.part = place
        self.own_region = own_region


# Name, form, region and own region. The regions 1, 2 and 3 are those of Ada, Text_IO and
# Integer_Text_IO.
PREDEFINED = [
    ("integer", "type", 0, 0),
    ("natural", "type", 0, 0),
    ("positive", "type", 0, 0),
    ("boolean", "type", 0, 0),
    ("false", "literal", 0, 0),
    ("true", "literal", 0, 0),
    ("ada", "package", 0, 1),
    ("text_io", "package", 1, 2),
    ("put", "procedure", 2, 0),
    ("put_line", "procedure", 2, 0),
    ("new_line", "procedure", 2, 0),
    ("end_of_file", "function", 2, 0),
    ("integer_text_io", "package", 1, 3),
    ("get", "procedure", 3, 0),
    ("unchecked_deallocation", "generic", 1, 0),
]

# Which forms complete a declaration of a form.
COMPLETED_BY = {
    "incomplete type": ("type",),
    "private type": ("type",),
    "subprogram declaration": ("procedure", "function"),
}


class Scopes:
    """What is known of names at one point of a text."""

    def __init__(self):
        self.declared = []
        for name, form, region, own_region in PREDEFINED:
            number = len(self.declared)
            self.declared.append(Declaration(number, name, form, (region, "visible"), own_region))
        self.ended = list(self.declared)
        self.pending = []
        self.completed = set()
        self.region_count = 4
        # the enclosing regions with their open parts, the innermost last
        self.open = []
        # for each `use` of a package its region and the package
        self.uses = []
        # the packages in `use` in the context of each package's specification
        self.contexts = {}
        # the package within whose body this is
        self.own_body = None
        # what each occurrence so far denotes
        self.occurrences = []

    # -- what is declared

    def declare(self, identifier, form, own_region=None):
        """The number of what an identifier declares or completes."""
        name = identifier.text.lower()
        completed = self.completed_by(name, form)
        if completed:
            self.completed.add(completed.number)
            return completed.number
        made = Declaration(len(self.declared), name, form, self.open[-1], own_region)
        self.declared.append(made)
        self.pending.append(made)
        return made.number

    def completed_by(self, name, form):
        """The declaration of a name in the innermost region that this form completes, or None."""
        for it in self.declared:
            is_named = it.region == self.open[-1][0] and it.name == name
            awaits = form in COMPLETED_BY.get(it.form, ()) and it.number not in self.completed
            if is_named and awaits:
                return it
        return None

    def end(self, outer=0):
        """The declarations of the innermost region, or of one further out, end."""
        region = self.open[-1 - outer][0]
        self.ended += [it for it in self.pending if it.region == region]
        self.pending = [it for it in self.pending if it.region != region]

    def open_region(self):
        self.open.append((self.region_count, "visible"))
        self.region_count += 1

    def close_region(self):
        self.open.pop()

    # -- units

    def begin_unit(self, package=None):
        """Begins a unit, which is the body of this package, or none."""
        self.open = [(0, "visible")]
        self.own_body = None
        self.uses = [it for it in self.uses if it[0] != 0]
        self.uses += [(0, it) for it in self.contexts.get(package, [])]

    def begin_package(self, identifier):
        number = self.declare(identifier, "package", self.region_count)
        self.contexts[number] = [package for region, package in self.uses if region == 0]
        self.end()
        self.open_region()
        return number

    def turn_private(self):
        self.open[-1] = (self.open[-1][0], "private")

    def open_body(self, package):
        self.open.append((package.own_region, "body"))
        self.own_body = package.number

    def source_package(self, name):
        """The package of the program with this name."""
        ended = [it for it in self.ended if it.region == 0 and it.number >= len(PREDEFINED)]
        return next(it for it in ended if it.name == name and it.form == "package")

    # -- what identifiers denote

    def last(self, region, name):
        """The last declaration of a name that ended in a region, or None."""
        found = [it for it in self.ended if it.region == region and it.name == name]
        return found[-1] if found else None

    def denoted(self, name):
        """The declaration that an identifier denotes, no package standing before it."""
        for region, _ in reversed(self.open):
            found = self.last(region, name)
            if found:
                return found
        enclosing = [region for region, _ in self.open]
        for region, package in self.uses:
            member = self.last(self.declared[package].own_region, name)
            if region in enclosing and member and member.part == "visible":
                return member
        raise LookupError(name)

    def along(self, names):
        """The declarations that identifiers with dots between them denote, from the first on."""
        found = [self.denoted(names[0].lower())]
        for name in names[1:]:
            if found[-1].form != "package":
                break
            member = self.last(found[-1].own_region, name.lower())
            if not member or (member.part != "visible" and self.own_body != found[-1].number):
                raise LookupError(name)
            found.append(member)
        self.occurrences += [it.number for it in found]
        return found


OPERATORS = {
    "expr.And": "And",
    "expr.Or": "Or",
    "expr.Xor": "Xor",
    "expr.AndThen": "AndThen",
    "expr.OrElse": "OrElse",
}
ATTRIBUTES = ("First", "Last", "Length", "Image")


class Resolver:
    """Makes the resolved tree of each tree: one method for each kind, in the order of the text."""

    def __init__(self):
        self.scopes = Scopes()

    # -- identifiers

    def declared(self, identifier, form):
        number = self.scopes.declare(identifier, form)
        return Tree("Declared", [identifier.pos, number, identifier.text])

    def declared_all(self, first, rest, form):
        return [self.declared(it, form) for it in [first] + [it.parts[1] for it in rest]]

    def component(self, identifier):
        return Tree("Declared", [identifier.pos, 0, identifier.text])

    def mark(self, dotted):
        pos, first, rest = dotted.parts
        names = [first.text] + [it.parts[1].text for it in rest]
        found = self.scopes.along(names)
        return Mark(pos, found[-1].number if len(found) == len(names) else None)

    # -- names and expressions

    def name(self, tree):
        pos, first, suffixes = tree.parts
        names = [first.text]
        for it in suffixes:
            if it.form != "suffix.Selected":
                break
            names.append(it.parts[1].text)
        found = self.scopes.along(names)
        rest = [self.suffix(it) for it in suffixes[len(found) - 1:]]
        return Tree("Named", [pos, found[-1].number, rest])

    def suffix(self, tree):
        kind = tree.form.partition(".")[2]
        if kind == "Selected":
            return Tree("Selected", [tree.parts[1].text])
        if kind == "Dereferenced":
            return Tree("All", [])
        if kind == "Applied":
            return Tree("Applied", [self.args(tree.parts[1], tree.parts[2])])
        if kind == "RangeAttribute":
            return Tree("Attr", ["Range"])
        text = tree.parts[1].text.capitalize()
        return Tree("Attr", [text if text in ATTRIBUTES else "Other"])

    def args(self, *parts):
        """The arguments of trees and lists of trees."""
        flat = []
        for part in parts:
            flat += [it.parts[1] for it in part] if isinstance(part, list) else [part]
        return Tree("Arguments", [self.arg(it) for it in flat])

    def arg(self, tree):
        name = tree.parts[1].text if tree.form == "arg.Association" else None
        return name, self.expr(tree.parts[-1])

    def expr(self, tree):
        return self.LEVELS[tree.form](self, tree)

    def chain(self, tree):
        operands = [tree.parts[1], tree.parts[-2]] + [it.parts[-1] for it in tree.parts[-1]]
        return self.grouped(tree.parts[0], [(OPERATORS[tree.form], it) for it in operands])

    def grouped(self, pos, operands, first=None):
        """Operands from left to right, each with the operator before it."""
        made = first or self.expr(operands.pop(0)[1])
        for operator, operand in operands:
            made = Tree("Binary", [pos, operator, made, self.expr(operand)])
        return made

    def lone(self, tree):
        return self.expr(tree.parts[1])

    def compared(self, tree):
        pos, left, operator, _, right = tree.parts
        return self.grouped(pos, [(None, left), (word_of(operator), right)])

    def unsigned(self, tree):
        pos, first, rest = tree.parts
        return self.grouped(pos, [(None, first)] + self.operands(rest))

    def signed(self, tree):
        pos, sign, first, rest = tree.parts
        operand = Tree("Unary", [pos, word_of(sign), self.expr(first)])
        return self.grouped(pos, self.operands(rest), operand)

    def operands(self, rest):
        return [(word_of(it.parts[1]), it.parts[2]) for it in rest]

    def unary(self, tree):
        return Tree("Unary", [tree.parts[0], tree.form.partition(".")[2], self.expr(tree.parts[1])])

    def number(self, tree):
        return Tree("Number", tree.parts)

    def text(self, tree):
        return Tree("Text", tree.parts)

    def null(self, tree):
        return Tree("Null", tree.parts)

    def named(self, tree):
        return self.name(tree.parts[1])

    def parenthesized(self, tree):
        return Tree("Parens", [tree.parts[0], self.expr(tree.parts[1])])

    def several(self, tree):
        left, first, _, second, rest, _ = tree.parts
        return Tree("Aggregate", [left, self.args(first, second, rest)])

    def single(self, tree):
        left, name, _, value, _ = tree.parts
        return Tree("Aggregate", [left, Tree("Arguments", [(name.text, self.expr(value))])])

    def others(self, tree):
        return Tree("Others", [tree.parts[0], self.expr(tree.parts[3])])

    def allocator(self, tree):
        pos, mark, *rest = tree.parts
        made = self.mark(mark)
        values = [(None, self.expr(it)) for it in rest if isinstance(it, Tree)]
        return Tree("New", [pos, made, Tree("Arguments", values)])

    LEVELS = {
        "expr.LoneRelation": lone,
        "expr.And": chain,
        "expr.Or": chain,
        "expr.Xor": chain,
        "expr.AndThen": chain,
        "expr.OrElse": chain,
        "rel.LoneSum": lone,
        "rel.Compared": compared,
        "sum.Unsigned": unsigned,
        "sum.Signed": signed,
        "term.Product": unsigned,
        "factor.LonePrimary": lone,
        "factor.Abs": unary,
        "factor.Not": unary,
        "primary.Number": number,
        "primary.Text": text,
        "primary.Null": null,
        "primary.Named": named,
        "primary.Parenthesized": parenthesized,
        "primary.Aggregated": lone,
        "primary.Allocated": allocator,
        "primary.AllocatedAggregate": allocator,
        "primary.AllocatedValue": allocator,
        "aggregate.Several": several,
        "aggregate.Single": single,
        "aggregate.Others": others,
    }

    # -- ranges, choices and items

    def range(self, tree):
        kind, parts = tree.form.partition(".")[2], tree.parts
        if kind == "Bounds":
            return Tree("Bounds", [self.expr(parts[1]), self.expr(parts[3])])
        if kind == "Marked":
            return Tree("Marked", [self.mark(parts[1])])
        if kind == "Constrained":
            mark = self.mark(parts[1])
            return Tree("Constrained", [mark, self.expr(parts[3]), self.expr(parts[5])])
        return Tree("RangeOf", [self.name(parts[1])])

    def choice(self, tree):
        if tree.form == "choice.Others":
            return Tree("OthersChoice", tree.parts)
        if tree.form == "choice.Value":
            return Tree("Value", [self.expr(tree.parts[1])])
        return Tree("Interval", [self.expr(tree.parts[1]), self.expr(tree.parts[3])])

    def indication(self, tree):
        if tree.form == "indication.Mark":
            return Tree("Plain", [self.mark(tree.parts[1])])
        pos, constant, mark = tree.parts
        return Tree("Anonymous", [pos, constant is not None, self.mark(mark)])

    def items(self, trees):
        """The declarations, without clauses and pragmas."""
        made = [self.item(it) for it in trees]
        return [it for it in made if it is not None]

    def item(self, tree):
        kind = tree.form.partition(".")[2]
        if kind == "Use":
            self.use_clause(tree.parts[1])
            return None
        if kind == "Pragma":
            return None
        made = self.ITEMS[kind](self, tree.parts)
        self.scopes.end()
        return made

    def use_clause(self, tree):
        _, type_word, first, rest, _ = tree.parts
        packages = [self.mark(it).decl for it in [first] + [it.parts[1] for it in rest]]
        if type_word is None:
            self.scopes.uses += [(self.scopes.open[-1][0], it) for it in packages]

    def incomplete_type(self, parts):
        return Tree("Incomplete", [self.declared(parts[1], "incomplete type")])

    def private_type(self, parts):
        return Tree("Private", [self.declared(parts[1], "private type")])

    def enumeration_type(self, parts):
        made = self.declared(parts[1], "type")
        literals = self.declared_all(parts[4], parts[5], "literal")
        return Tree("TypeDecl", [made, Tree("Enumeration", [literals]), parts[-1]])

    def record_type(self, parts):
        made = self.declared(parts[1], "type")
        groups = []
        for it in [parts[4]] + parts[5]:
            identifiers = [it.parts[1]] + [next.parts[1] for next in it.parts[2]]
            names = [self.component(identifier) for identifier in identifiers]
            groups.append(Tree("Components", [names, self.mark(it.parts[4])]))
        return Tree("TypeDecl", [made, Tree("Record", [groups]), parts[-1]])

    def array_type(self, parts):
        made = self.declared(parts[1], "type")
        definition = Tree("Array", [self.range(parts[5]), self.mark(parts[8])])
        return Tree("TypeDecl", [made, definition, parts[-1]])

    def access_type(self, parts):
        made = self.declared(parts[1], "type")
        return Tree("TypeDecl", [made, Tree("Access", [self.mark(parts[4])]), parts[-1]])

    def subtype(self, parts):
        made = self.declared(parts[1], "type")
        return Tree("Subtype", [made, self.mark(parts[3])])

    def constrained_subtype(self, parts):
        made, mark = self.declared(parts[1], "type"), self.mark(parts[3])
        return Tree("ConstrainedSubtype", [made, mark, self.expr(parts[5]), self.expr(parts[7])])

    def objects(self, parts):
        names = self.declared_all(parts[1], parts[2], "object")
        of = self.indication(parts[5])
        value = [self.expr(it) for it in parts[6:] if isinstance(it, Tree)]
        return Tree("Objects", [names, parts[4] is not None, of, value])

    def numbers(self, parts):
        names = self.declared_all(parts[1], parts[2], "object")
        return Tree("Numbers", [names, self.expr(parts[6])])

    def instance(self, parts):
        made = self.declared(parts[1], "instance")
        return Tree("Instance", [made, self.mark(parts[4]), self.args(parts[6], parts[7])])

    ITEMS = {
        "IncompleteType": incomplete_type,
        "PrivateType": private_type,
        "EnumerationType": enumeration_type,
        "RecordType": record_type,
        "ArrayType": array_type,
        "AccessType": access_type,
        "Subtype": subtype,
        "ConstrainedSubtype": constrained_subtype,
        "Objects": objects,
        "InitializedObjects": objects,
        "Numbers": numbers,
        "Instance": instance,
    }

    # -- statements

    def stmts(self, tree):
        return [self.stmt(it) for it in [tree.parts[1]] + tree.parts[2]]

    def stmt(self, tree):
        return self.STMTS[tree.form.partition(".")[2]](self, tree.parts)

    def skip(self, parts):
        return Tree("Skip", parts[:1])

    def assign(self, parts):
        return Tree("Assign", [self.name(parts[1]), self.expr(parts[3])])

    def call(self, parts):
        return Tree("Call", [self.name(parts[1])])

    def exit(self, parts):
        return Tree("Exit", [parts[0], [self.expr(it) for it in parts if isinstance(it, Tree)]])

    def return_statement(self, parts):
        return Tree("Return", [parts[0], [self.expr(it) for it in parts if isinstance(it, Tree)]])

    def branch(self, pos, condition, stmts):
        return Tree("Branch", [pos, self.expr(condition), self.stmts(stmts)])

    def if_statement(self, parts):
        branches = [self.branch(parts[0], parts[1], parts[3])]
        branches += [self.branch(it.parts[0], it.parts[1], it.parts[3]) for it in parts[4]]
        otherwise = self.stmts(parts[6]) if isinstance(parts[6], Tree) else []
        return Tree("If", [parts[0], branches, otherwise])

    def case(self, parts):
        selector = self.expr(parts[1])
        return Tree("Case", [parts[0], selector, [self.when(it) for it in [parts[3]] + parts[4]]])

    def when(self, tree):
        _, first, rest, _, stmts = tree.parts
        choices = [self.choice(it) for it in [first] + [it.parts[1] for it in rest]]
        return Tree("When", [choices, self.stmts(stmts)])

    def loop(self, parts):
        return Tree("Loop", [parts[0], self.stmts(parts[1])])

    def while_loop(self, parts):
        return Tree("While", [parts[0], self.expr(parts[1]), self.stmts(parts[3])])

    def for_loop(self, parts):
        pos, parameter, _, reverse, over, _, stmts = parts[:7]
        self.scopes.open_region()
        made, steps = self.declared(parameter, "object"), self.range(over)
        self.scopes.end()
        body = self.stmts(stmts)
        self.scopes.close_region()
        return Tree("For", [pos, made, reverse is not None, steps, body])

    def block(self, parts):
        self.scopes.open_region()
        items = self.items(parts[1]) if isinstance(parts[1], list) else []
        made = Tree("Block", [parts[0], items, self.stmts(parts[-3]), parts[-2]])
        self.scopes.close_region()
        return made

    STMTS = {
        "Null": skip,
        "Assign": assign,
        "Call": call,
        "Exit": exit,
        "ExitWhen": exit,
        "Return": return_statement,
        "ReturnValue": return_statement,
        "If": if_statement,
        "IfElse": if_statement,
        "Case": case,
        "Loop": loop,
        "While": while_loop,
        "For": for_loop,
        "Block": block,
        "DeclareBlock": block,
    }

    # -- subprograms

    def front(self, tree, form=None):
        """The front of a subprogram, whose region is open after it."""
        is_function = tree.form == "subspec.Function"
        made = self.declared(tree.parts[1], form or ("function" if is_function else "procedure"))
        self.scopes.open_region()
        formals = self.formals(tree.parts[2])
        result = [self.indication(tree.parts[4])] if is_function else []
        self.scopes.end(outer=1)
        return Tree("Front", [made, formals, result])

    def formals(self, tree):
        groups = [tree.parts[1]] + [it.parts[1] for it in tree.parts[2]] if tree else []
        return [self.formal(it) for it in groups]

    def formal(self, tree):
        names = self.declared_all(tree.parts[1], tree.parts[2], "object")
        if tree.form == "formal.Anonymous":
            _, _, _, _, pos, constant, mark = tree.parts
            mode, of = "In", Tree("Anonymous", [pos, constant is not None, self.mark(mark)])
        else:
            _, _, _, _, is_in, is_out, mark = tree.parts
            mode = "In" if not is_out else "InOut" if is_in else "Out"
            of = Tree("Plain", [self.mark(mark)])
        self.scopes.end()
        return Tree("Formals", [names, mode, of])

    def decl(self, tree):
        if tree.form == "decl.OfItem":
            return self.item(tree.parts[1])
        made = Tree("SubDecl", [self.front(tree.parts[1], "subprogram declaration")])
        self.scopes.close_region()
        return made

    def decls(self, trees):
        return [it for it in [self.decl(it) for it in trees] if it is not None]

    def subprogram(self, tree):
        _, spec, _, _, items, _, stmts, end, _, _ = tree.parts
        made = Tree("SubBody", [self.front(spec), self.items(items), self.stmts(stmts), end])
        self.scopes.close_region()
        return made

    def body_part(self, tree):
        is_body = tree.form == "part.Completed"
        return self.subprogram(tree.parts[1]) if is_body else self.decl(tree.parts[1])

    # -- units

    def context(self, clauses):
        for it in clauses:
            if it.form == "context.Use":
                self.use_clause(it.parts[1])
            if it.form == "context.With":
                for name in [it.parts[1]] + [next.parts[1] for next in it.parts[2]]:
                    self.mark(name)

    def unit(self, tree):
        _, clauses, body = tree.parts
        return self.UNITS[tree.form](self, clauses, body)

    def package(self, clauses, tree):
        _, name, _, _, visible, private, _, _, _ = tree.parts
        self.scopes.begin_unit()
        self.context(clauses)
        made = Tree("Declared", [name.pos, self.scopes.begin_package(name), name.text])
        parts = [made, self.decls(visible), []]
        if private:
            self.scopes.turn_private()
            parts[2] = self.decls(private.parts[1])
        self.scopes.close_region()
        return Tree("Package", parts)

    def package_body(self, clauses, tree):
        _, _, name, _, _, parts, _, _, _ = tree.parts
        package = self.scopes.source_package(name.text.lower())
        self.scopes.begin_unit(package.number)
        self.context(clauses)
        self.scopes.open_body(package)
        made = [it for it in [self.body_part(it) for it in parts] if it is not None]
        self.scopes.close_region()
        return Tree("PackageBody", [Tree("Declared", [name.pos, package.number, name.text]), made])

    def procedure(self, clauses, tree):
        self.scopes.begin_unit()
        self.context(clauses)
        return self.subprogram(tree)

    UNITS = {"unit.OfPackage": package, "unit.OfBody": package_body, "unit.OfSubprogram": procedure}


def word_of(operator):
    return operator.partition(".")[2]


def resolved(files):
    """The count of declarations of these files of units, and the resolved trees of their units."""
    resolver = Resolver()
    units = [resolver.unit(it) for units in files for it in units]
    return len(resolver.scopes.declared), units


def denoted(files):
    """The declaration of each occurrence in these files of units, in the order of the text."""
    resolver = Resolver()
    for units in files:
        for it in units:
            resolver.unit(it)
    return resolver.scopes.occurrences
