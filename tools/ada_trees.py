"""Reads sources of the grammar of docs/LANGUAGE.md into trees, and spells trees as tokens.

The trees are those of the crate `ada_tree`. A Tree has the form of a variant or struct there, as
`stmt.Assign`, and its parts in the order of the fields: a Pos for a token, an Identifier, a number,
a text, a Tree, a list of trees, or None where an optional part is missing. FORMS says what each
form is spelled by. A source that breaks the grammar raises SyntaxError: nothing more is said of it
than its first wrong token.
"""
import re
import sys
from typing import NamedTuple


class Pos(NamedTuple):
    """A file by its number from 0, a line and a column by their numbers from 1."""

    file: int
    line: int
    column: int


class Token(NamedTuple):
    """A token with its first byte. Kinds: word (a reserved word or delimiter, in lower case),
    identifier, number, string, end."""

    pos: Pos
    kind: str
    text: str


class Identifier(NamedTuple):
    pos: Pos
    text: str


class Tree(NamedTuple):
    form: str
    parts: list


# ---- tokens

RESERVED = set(
    """abort abs abstract accept access aliased all and array at begin body case constant declare
    delay delta digits do else elsif end entry exception exit for function generic goto if in
    interface is limited loop mod new not null of or others out overriding package pragma private
    procedure protected raise range record rem renames requeue return reverse select separate some
    subtype synchronized tagged task terminate then type until use when while with xor""".split()
)
TOKEN = re.compile(
    r"(?P<separator>[ \t\n\v\f\r]+|--[^\n]*)|(?P<identifier>[A-Za-z][A-Za-z0-9_]*)"
    r'|(?P<number>[0-9][0-9_]*)|(?P<string>"(?:[ !#-~]|"")*")'
    r"|(?P<word>=>|\.\.|:=|/=|>=|<=|[&'()*+,\-./:;<=>|])"
)


def tokens(text, file=0):
    """The tokens of a text of bytes, given as latin-1, in which no lexical fault stands."""
    found, index, line, line_start = [], 0, 1, 0
    while index < len(text):
        match = TOKEN.match(text, index)
        pos = Pos(file, line, index - line_start + 1)
        if not match:
            raise SyntaxError("no token at %d:%d" % (pos.line, pos.column))
        kind, word = match.lastgroup, match[0]
        if kind == "identifier" and word.lower() in RESERVED:
            kind, word = "word", word.lower()
        if kind != "separator":
            found.append(Token(pos, kind, word))
        line += word.count("\n")
        line_start = max(line_start, text.rfind("\n", 0, match.end()) + 1)
        index = match.end()
    return found + [Token(Pos(file, line, index - line_start + 1), "end", "")]


# ---- what each form is spelled by

# The parts of each form, in the order of the fields. `@` is the position of the first token, where
# another part has that token too; "word" is the position of that token, and ["word"] that of one
# that may be missing. `pos` is the position of the operator, number or text beside it. A part in
# any other writing is spelled by its own parts, and read by the method of that name: one that may
# be missing has a question mark. After it may stand in braces the operator of the further
# operands, which they have as {0} and {1}.
FORMS = {
    "identifier": "pos text",
    "next_id.FurtherIdentifier": '"," identifier',
    "dotted_of": "@ identifier next_parts",
    "next_part.FurtherPart": '"." identifier',
    "next_dotted.FurtherDotted": '"," dotted',
    # names and expressions
    "name.Prefixed": "@ identifier suffixes",
    "suffix.Selected": '"." identifier',
    "suffix.Dereferenced": '"." "all"',
    "suffix.Applied": '"(" arg next_args ")"',
    "suffix.Attribute": '"\'" identifier',
    "suffix.RangeAttribute": '"\'" "range"',
    "arg.Positional": "@ expr",
    "arg.Association": '@ identifier "=>" expr',
    "next_arg.FurtherArg": '"," arg',
    "expr.LoneRelation": "@ rel",
    "expr.And": '@ rel "and" rel operands{and}',
    "expr.Or": '@ rel "or" rel operands{or}',
    "expr.Xor": '@ rel "xor" rel operands{xor}',
    "expr.AndThen": '@ rel "and" "then" rel operands{and,then}',
    "expr.OrElse": '@ rel "or" "else" rel operands{or,else}',
    "operand.FurtherOperand": "{0} rel",
    "short_operand.FurtherShortOperand": "{0} {1} rel",
    "rel.LoneSum": "@ sum",
    "rel.Compared": "@ sum operator pos sum",
    "sum.Unsigned": "@ term next_terms",
    "sum.Signed": "pos operator term next_terms",
    "next_term.FurtherTerm": "pos operator term",
    "term.Product": "@ factor next_factors",
    "next_factor.FurtherFactor": "pos operator factor",
    "factor.LonePrimary": "@ primary",
    "factor.Abs": '"abs" primary',
    "factor.Not": '"not" primary',
    "primary.Number": "pos number",
    "primary.Text": "pos string",
    "primary.Null": '"null"',
    "primary.Named": "@ name",
    "primary.Parenthesized": '"(" expr ")"',
    "primary.Aggregated": "@ aggregate",
    "primary.Allocated": '"new" mark',
    "primary.AllocatedAggregate": '"new" mark "\'" aggregate',
    "primary.AllocatedValue": '"new" mark "\'" "(" expr ")"',
    "aggregate.Several": '"(" arg "," arg next_args ")"',
    "aggregate.Single": '"(" identifier "=>" expr ")"',
    "aggregate.Others": '"(" "others" "=>" expr ")"',
    # ranges and choices
    "range.Bounds": '@ expr ".." expr',
    "range.Marked": "@ mark",
    "range.Constrained": '@ mark "range" expr ".." expr',
    "range.RangeOf": '@ name "\'" "range"',
    "choice.Value": "@ expr",
    "choice.Interval": '@ expr ".." expr',
    "choice.Others": '"others"',
    "next_choice.Bar": '"|" choice',
    # items
    "indication.Mark": "@ mark",
    "indication.Anonymous": '"access" ["constant"] mark',
    "component.Fields": '@ identifier next_ids ":" mark ";"',
    "item.IncompleteType": '"type" identifier ";"',
    "item.PrivateType": '"type" identifier "is" "private" ";"',
    "item.EnumerationType": '"type" identifier "is" "(" identifier next_ids ")" ";"',
    "item.RecordType": '"type" identifier "is" "record" component components "end" "record" ";"',
    "item.ArrayType": '"type" identifier "is" "array" "(" range ")" "of" mark ";"',
    "item.AccessType": '"type" identifier "is" "access" mark ";"',
    "item.Subtype": '"subtype" identifier "is" mark ";"',
    "item.ConstrainedSubtype": '"subtype" identifier "is" mark "range" expr ".." expr ";"',
    "item.Objects": '@ identifier next_ids ":" ["constant"] indication ";"',
    "item.InitializedObjects": '@ identifier next_ids ":" ["constant"] indication ":=" expr ";"',
    "item.Numbers": '@ identifier next_ids ":" "constant" ":=" expr ";"',
    "item.Instance": '"procedure" identifier "is" "new" dotted "(" arg next_args ")" ";"',
    "item.Use": "@ use_clause",
    "item.Pragma": "@ pragma_clause",
    "use_of": '"use" ["type"] dotted next_dotteds ";"',
    "pragma_on": '"(" on ")"',
    "pragma_of": '"pragma" spark_mode pragma_on? ";"',
    # statements
    "stmts.Sequence": "@ stmt next_stmts",
    "stmt.Null": '"null" ";"',
    "stmt.Assign": '@ name ":=" expr ";"',
    "stmt.Call": '@ name ";"',
    "stmt.Exit": '"exit" ";"',
    "stmt.ExitWhen": '"exit" "when" expr ";"',
    "stmt.Return": '"return" ";"',
    "stmt.ReturnValue": '"return" expr ";"',
    "stmt.If": '"if" expr "then" stmts elsifs "end" "if" ";"',
    "stmt.IfElse": '"if" expr "then" stmts elsifs "else" stmts "end" "if" ";"',
    "branch.Branch": '"elsif" expr "then" stmts',
    "stmt.Case": '"case" expr "is" when whens "end" "case" ";"',
    "alternative.Alternative": '"when" choice next_choices "=>" stmts',
    "stmt.Loop": '"loop" stmts "end" "loop" ";"',
    "stmt.While": '"while" expr "loop" stmts "end" "loop" ";"',
    "stmt.For": '"for" identifier "in" ["reverse"] range "loop" stmts "end" "loop" ";"',
    "stmt.Block": '"begin" stmts "end" ";"',
    "stmt.DeclareBlock": '"declare" items "begin" stmts "end" ";"',
    # subprograms
    "mode_on": '"=>" on',
    "mode_of": '"with" spark_mode mode_on?',
    "subspec.Procedure": '"procedure" identifier formals?',
    "subspec.Function": '"function" identifier formals? "return" indication',
    "formals_of": '"(" formal next_formals ")"',
    "next_formal.Semicolon": '";" formal',
    "formal.Moded": '@ identifier next_ids ":" ["in"] ["out"] mark',
    "formal.Anonymous": '@ identifier next_ids ":" "access" ["constant"] mark',
    "decl.OfItem": "@ item",
    "decl.Subprogram": '@ subspec mode? ";"',
    # units
    "subprogram_of": '@ subspec mode? "is" items "begin" stmts "end" identifier? ";"',
    "part.Declared": "@ decl",
    "part.Completed": "@ subprogram",
    "private_part": '"private" decls',
    "package_of": '"package" identifier mode? "is" decls private_part? "end" identifier? ";"',
    "package_body_of": '"package" "body" identifier mode? "is" body_parts "end" identifier? ";"',
    "context.With": '"with" dotted next_dotteds ";"',
    "context.Use": "@ use_clause",
    "context.Pragma": "@ pragma_clause",
    "unit.OfPackage": "@ contexts package",
    "unit.OfBody": "@ contexts package_body",
    "unit.OfSubprogram": "@ contexts subprogram",
}
SYMBOLS = {
    "sign.Plus": "+",
    "sign.Minus": "-",
    "relational.Equal": "=",
    "relational.NotEqual": "/=",
    "relational.Less": "<",
    "relational.LessEqual": "<=",
    "relational.Greater": ">",
    "relational.GreaterEqual": ">=",
    "adding.Add": "+",
    "adding.Subtract": "-",
    "adding.Concatenate": "&",
    "multiplying.Multiply": "*",
    "multiplying.Divide": "/",
    "multiplying.Modulo": "mod",
    "multiplying.Remainder": "rem",
}


def operator_of(group, symbol):
    """The operator of a group that has this symbol."""
    names = [name for name, it in SYMBOLS.items() if it == symbol]
    return next(name for name in names if name.startswith(group + "."))


# ---- spelling

# The writing of a part that has no operator: its class of token and its text.
LONE = {"number": "number", "string": "string", "text": "identifier", "operator": "word"}


def spelling(tree, operator=()):
    """The tokens that a tree is spelled by. An operand has the words of its operator."""
    if isinstance(tree, list):
        return [token for part in tree for token in spelling(part, operator)]
    if tree is None:
        return []
    if isinstance(tree, Identifier):
        return [Token(tree.pos, "identifier", tree.text)]
    found, waiting, first = [], {}, None
    for writing, part in parts_of(tree):
        if writing == "@":
            first = part
        elif writing in LONE or writing == "pos":
            waiting[writing] = part
            if len(waiting) == 2:
                found.append(lone_token(waiting))
                waiting = {}
        elif writing[0] in '"[{' and part is not None:
            word = operator[int(writing[1])] if writing[0] == "{" else writing.strip('[]"')
            found.append(Token(part, "word", word))
        elif writing[0] not in '"[{':
            words = re.search(r"{(.*)}", writing)
            found += spelling(part, words[1].split(",") if words else ())
    if first is not None and found[0].pos != first:
        raise ValueError("%s at %s begins at %s" % (tree.form, first, found[0].pos))
    return found


def parts_of(tree):
    """The parts of a tree, each after its writing."""
    return zip(FORMS[tree.form].split(" "), tree.parts, strict=True)


def lone_token(parts):
    """The token of an operator, number or text and its position."""
    pos = parts.pop("pos")
    (writing, value), = parts.items()
    return Token(pos, LONE[writing], SYMBOLS[value] if writing == "operator" else value)


# ---- reading


class Reader:
    """Reads trees from tokens: one method for each production, which reads what it is named for.
    A list is read by the method in the plural."""

    def __init__(self, found):
        self.found = found
        self.index = 0

    # -- tokens

    def here(self):
        return self.found[self.index].pos

    def token(self, ahead=0):
        return self.found[min(self.index + ahead, len(self.found) - 1)]

    def is_at(self, *words, ahead=0):
        token = self.token(ahead)
        return token.kind == "word" and token.text in words

    def next(self):
        self.index += 1
        return self.found[self.index - 1]

    def refuse(self):
        token = self.token()
        place = "%d:%d" % (token.pos.line, token.pos.column)
        raise SyntaxError("%s: %s" % (place, token.text or token.kind))

    def word(self, word):
        """The position of this word, which has to stand here."""
        return self.next().pos if self.is_at(word) else self.refuse()

    def maybe(self, word):
        return self.next().pos if self.is_at(word) else None

    # -- forms and lists

    def form(self, form, *given):
        """A tree of this form with these first parts, and the others as FORMS writes them."""
        parts = list(given)
        for writing in FORMS[form].split(" ")[len(given):]:
            parts.append(self.part(writing))
        return Tree(form, parts)

    def part(self, writing):
        if writing == "@":
            return self.here()
        if writing[0] == '"':
            return self.word(writing[1:-1])
        if writing[0] == "[":
            return self.maybe(writing[2:-2])
        return getattr(self, writing.replace("?", "_if_any"))()

    def each(self, first, read):
        """A list whose elements begin with this word."""
        parts = []
        while self.is_at(first):
            parts.append(read())
        return parts

    def until(self, words, read):
        """A list that ends before one of these words."""
        parts = []
        while not self.is_at(*words):
            parts.append(read())
        return parts

    def further(self, first, form):
        """A list of trees of a form, each of which begins with this word."""
        return self.each(first, lambda: self.form(form))

    # -- identifiers

    def identifier(self):
        token = self.token()
        if token.kind != "identifier":
            self.refuse()
        self.next()
        return Identifier(token.pos, token.text)

    def identifier_if_any(self):
        return self.identifier() if self.token().kind == "identifier" else None

    def fixed(self, name):
        """An identifier with this spelling, in any letter case."""
        return self.identifier() if self.token().text.lower() == name else self.refuse()

    def spark_mode(self):
        return self.fixed("spark_mode")

    def on(self):
        return self.fixed("on")

    def next_ids(self):
        return self.further(",", "next_id.FurtherIdentifier")

    def dotted(self):
        return self.form("dotted_of")

    mark = dotted

    def next_parts(self):
        return self.further(".", "next_part.FurtherPart")

    def next_dotteds(self):
        return self.further(",", "next_dotted.FurtherDotted")

    # -- names and expressions

    def name(self):
        return self.form("name.Prefixed")

    def suffixes(self):
        parts = []
        while self.is_at(".", "(", "'"):
            parts.append(self.form(self.form_of_suffix()))
        return parts

    def form_of_suffix(self):
        if self.is_at("("):
            return "suffix.Applied"
        if self.is_at("."):
            return "suffix.Dereferenced" if self.is_at("all", ahead=1) else "suffix.Selected"
        return "suffix.RangeAttribute" if self.is_at("range", ahead=1) else "suffix.Attribute"

    def arg(self):
        is_named = self.token().kind == "identifier" and self.is_at("=>", ahead=1)
        return self.form("arg.Association" if is_named else "arg.Positional")

    def next_args(self):
        return self.further(",", "next_arg.FurtherArg")

    def expr(self):
        pos, first = self.here(), self.rel()
        if not self.is_at("and", "or", "xor"):
            return Tree("expr.LoneRelation", [pos, first])
        word = self.token().text
        words, form = [word], "expr." + word.capitalize()
        if word == "and" and self.is_at("then", ahead=1):
            words, form = ["and", "then"], "expr.AndThen"
        if word == "or" and self.is_at("else", ahead=1):
            words, form = ["or", "else"], "expr.OrElse"
        operand, rest = self.operand(words), self.each(word, lambda: self.operand(words))
        return Tree(form, [pos, first, *operand.parts, rest])

    def operand(self, words):
        """A further operand, after these words."""
        short = len(words) == 2
        form = "short_operand.FurtherShortOperand" if short else "operand.FurtherOperand"
        return Tree(form, [self.word(word) for word in words] + [self.rel()])

    def rel(self):
        pos, left = self.here(), self.sum()
        if not self.is_at("=", "/=", "<", "<=", ">", ">="):
            return Tree("rel.LoneSum", [pos, left])
        token = self.next()
        operator = operator_of("relational", token.text)
        return self.form("rel.Compared", pos, left, operator, token.pos)

    def sum(self):
        if not self.is_at("+", "-"):
            return self.form("sum.Unsigned")
        sign = self.next()
        return self.form("sum.Signed", sign.pos, operator_of("sign", sign.text))

    def next_terms(self):
        return self.operations("next_term.FurtherTerm", "adding", ["+", "-", "&"])

    def term(self):
        return self.form("term.Product")

    def next_factors(self):
        return self.operations("next_factor.FurtherFactor", "multiplying", ["*", "/", "mod", "rem"])

    def operations(self, form, group, words):
        """A list of trees of a form, each of which begins with an operator of a group."""
        parts = []
        while self.is_at(*words):
            operator = self.next()
            parts.append(self.form(form, operator.pos, operator_of(group, operator.text)))
        return parts

    def factor(self):
        word = self.token().text if self.is_at("abs", "not") else "LonePrimary"
        return self.form("factor." + word[0].upper() + word[1:])

    def primary(self):
        token = self.token()
        if token.kind == "number":
            self.next()
            return Tree("primary.Number", [token.pos, int(token.text.replace("_", ""))])
        if token.kind == "string":
            self.next()
            return Tree("primary.Text", [token.pos, token.text])
        if self.is_at("null"):
            return self.form("primary.Null")
        if self.is_at("new"):
            return self.allocator()
        if self.is_at("("):
            return self.parenthesized()
        return self.form("primary.Named")

    def parenthesized(self):
        """An expression in parentheses, or an aggregate."""
        pos = self.here()
        if self.is_at("others", ahead=1):
            return Tree("primary.Aggregated", [pos, self.form("aggregate.Others")])
        left, first = self.word("("), self.arg()
        if self.is_at(","):
            return Tree("primary.Aggregated", [pos, self.form("aggregate.Several", left, first)])
        right = self.word(")")
        if first.form == "arg.Positional":
            return Tree("primary.Parenthesized", [left, first.parts[1], right])
        aggregate = Tree("aggregate.Single", [left, *first.parts[1:], right])
        return Tree("primary.Aggregated", [pos, aggregate])

    def allocator(self):
        pos, mark = self.word("new"), self.mark()
        apostrophe = self.maybe("'")
        if apostrophe is None:
            return Tree("primary.Allocated", [pos, mark])
        value = self.parenthesized()
        if value.form == "primary.Aggregated":
            return Tree("primary.AllocatedAggregate", [pos, mark, apostrophe, value.parts[1]])
        return Tree("primary.AllocatedValue", [pos, mark, apostrophe, *value.parts])

    # -- ranges and choices

    def range(self):
        pos, low = self.here(), self.expr()
        if self.is_at(".."):
            return self.form("range.Bounds", pos, low)
        name = lone_name(low) or self.refuse()
        mark = as_dotted(name)
        if mark:
            has_bounds = self.is_at("range")
            return self.form("range.Constrained" if has_bounds else "range.Marked", pos, mark)
        *suffixes, last = name.parts[2]
        if last.form != "suffix.RangeAttribute":
            self.refuse()
        prefix = Tree(name.form, [*name.parts[:2], suffixes])
        return Tree("range.RangeOf", [pos, prefix, *last.parts])

    def choice(self):
        if self.is_at("others"):
            return self.form("choice.Others")
        pos, low = self.here(), self.expr()
        return self.form("choice.Interval" if self.is_at("..") else "choice.Value", pos, low)

    def next_choices(self):
        return self.further("|", "next_choice.Bar")

    # -- items

    def item(self):
        if self.is_at("type"):
            return self.type()
        if self.is_at("subtype"):
            return self.subtype()
        if self.is_at("procedure"):
            return self.form("item.Instance")
        if self.is_at("use"):
            return self.form("item.Use")
        if self.is_at("pragma"):
            return self.form("item.Pragma")
        return self.objects()

    def items(self):
        return self.until(["begin"], self.item)

    def type(self):
        pos, name = self.word("type"), self.identifier()
        if self.is_at(";"):
            return self.form("item.IncompleteType", pos, name)
        is_word = self.word("is")
        forms = {
            "private": "item.PrivateType",
            "(": "item.EnumerationType",
            "record": "item.RecordType",
            "array": "item.ArrayType",
            "access": "item.AccessType",
        }
        return self.form(forms.get(self.token().text) or self.refuse(), pos, name, is_word)

    def component(self):
        return self.form("component.Fields")

    def components(self):
        return self.until(["end"], self.component)

    def subtype(self):
        front = self.word("subtype"), self.identifier(), self.word("is"), self.mark()
        has_bounds = self.is_at("range")
        return self.form("item.ConstrainedSubtype" if has_bounds else "item.Subtype", *front)

    def objects(self):
        front = [self.here(), self.identifier(), self.next_ids(), self.word(":")]
        front.append(self.maybe("constant"))
        if front[-1] and self.is_at(":="):
            return self.form("item.Numbers", *front)
        front.append(self.indication())
        return self.form("item.InitializedObjects" if self.is_at(":=") else "item.Objects", *front)

    def indication(self):
        return self.form("indication.Anonymous" if self.is_at("access") else "indication.Mark")

    def use_clause(self):
        return self.form("use_of")

    def pragma_clause(self):
        return self.form("pragma_of")

    def pragma_on_if_any(self):
        return self.form("pragma_on") if self.is_at("(") else None

    # -- statements

    def stmts(self):
        return self.form("stmts.Sequence")

    def next_stmts(self):
        return self.until(["end", "else", "elsif", "when"], self.stmt)

    def stmt(self):
        forms = {
            "null": "stmt.Null",
            "exit": "stmt.ExitWhen" if self.is_at("when", ahead=1) else "stmt.Exit",
            "return": "stmt.Return" if self.is_at(";", ahead=1) else "stmt.ReturnValue",
            "case": "stmt.Case",
            "loop": "stmt.Loop",
            "while": "stmt.While",
            "for": "stmt.For",
            "begin": "stmt.Block",
            "declare": "stmt.DeclareBlock",
        }
        token = self.token()
        if self.is_at("if"):
            return self.if_statement()
        if token.kind == "word":
            return self.form(forms.get(token.text) or self.refuse())
        pos, name = self.here(), self.name()
        return self.form("stmt.Assign" if self.is_at(":=") else "stmt.Call", pos, name)

    def if_statement(self):
        front = self.word("if"), self.expr(), self.word("then"), self.stmts(), self.elsifs()
        return self.form("stmt.IfElse" if self.is_at("else") else "stmt.If", *front)

    def elsifs(self):
        return self.further("elsif", "branch.Branch")

    def when(self):
        return self.form("alternative.Alternative")

    def whens(self):
        return self.further("when", "alternative.Alternative")

    # -- subprograms

    def mode_if_any(self):
        return self.form("mode_of") if self.is_at("with") else None

    def mode_on_if_any(self):
        return self.form("mode_on") if self.is_at("=>") else None

    def subspec(self):
        return self.form("subspec.Procedure" if self.is_at("procedure") else "subspec.Function")

    def formals_if_any(self):
        return self.form("formals_of") if self.is_at("(") else None

    def formal(self):
        front = self.here(), self.identifier(), self.next_ids(), self.word(":")
        return self.form("formal.Anonymous" if self.is_at("access") else "formal.Moded", *front)

    def next_formals(self):
        return self.further(";", "next_formal.Semicolon")

    def is_at_subprogram(self):
        """Whether a subprogram stands here, and no instance."""
        is_instance = self.is_at("new", ahead=3)
        return self.is_at("function") or self.is_at("procedure") and not is_instance

    def decl(self):
        return self.form("decl.Subprogram" if self.is_at_subprogram() else "decl.OfItem")

    def decls(self):
        return self.until(["private", "end"], self.decl)

    # -- units

    def subprogram(self):
        return self.form("subprogram_of")

    def body_part(self):
        pos = self.here()
        if not self.is_at_subprogram():
            return self.form("part.Declared", pos)
        spec, mode = self.subspec(), self.mode_if_any()
        if self.is_at(";"):
            return Tree("part.Declared", [pos, self.form("decl.Subprogram", pos, spec, mode)])
        return Tree("part.Completed", [pos, self.form("subprogram_of", pos, spec, mode)])

    def body_parts(self):
        return self.until(["end"], self.body_part)

    def package(self):
        return self.form("package_of")

    def private_part_if_any(self):
        return self.form("private_part") if self.is_at("private") else None

    def package_body(self):
        return self.form("package_body_of")

    def contexts(self):
        forms = {"with": "context.With", "use": "context.Use", "pragma": "context.Pragma"}
        parts = []
        while self.is_at(*forms):
            parts.append(self.form(forms[self.token().text]))
        return parts

    def unit(self):
        pos, clauses = self.here(), self.contexts()
        if self.is_at("package"):
            is_body = self.is_at("body", ahead=1)
            return self.form("unit.OfBody" if is_body else "unit.OfPackage", pos, clauses)
        return self.form("unit.OfSubprogram", pos, clauses)

    def source(self):
        units = [self.unit()]
        while self.token().kind != "end":
            units.append(self.unit())
        return units


def lone_name(expr):
    """The name that an expression is, or None."""
    forms = "expr.LoneRelation", "rel.LoneSum", "sum.Unsigned", "term.Product"
    for form in forms + ("factor.LonePrimary", "primary.Named"):
        if expr.form != form or expr.parts[2:] not in ([], [[]]):
            return None
        expr = expr.parts[1]
    return expr


def as_dotted(name):
    """A name of identifiers alone as a dotted name, or None."""
    pos, first, suffixes = name.parts
    if any(part.form != "suffix.Selected" for part in suffixes):
        return None
    rest = [Tree("next_part.FurtherPart", it.parts) for it in suffixes]
    return Tree("dotted_of", [pos, first, rest])


def read(text, file=0):
    """The units of a text."""
    # (64 constructs may be open, and each takes some twenty calls)
    sys.setrecursionlimit(max(10000, sys.getrecursionlimit()))
    return Reader(tokens(text, file)).source()


def difference(text, units):
    """What a text and the spelling of these units first differ in, or None."""
    wanted = [by_value(token) for token in tokens(text, units[0].parts[0].file)[:-1]]
    spelled = spelling(units)
    for one, other in zip(wanted, spelled):
        if one != other:
            return "%s is spelled as %s" % (one, other)
    if len(wanted) != len(spelled):
        return "%d tokens are spelled as %d" % (len(wanted), len(spelled))
    return None


def by_value(token):
    """A token, a number with its value in place of its text: a tree has no more of it."""
    if token.kind != "number":
        return token
    return token._replace(text=int(token.text.replace("_", "")))
