"""Looks in sources for the constructs that docs/LEFT_OUT.md lists, by their words alone.

`spark check` refuses a program at one place, the first. `Finder.found` tells each place of a text that it can tell.
A question below is about one construct of the page, and is asked at the words that it is registered for. No rule of
names or types is applied, so a construct may be missed. tools/check_show.py tries that each row of the page is told,
and that nothing is told of an accepted program.

What stands in an aspect, in a pragma or after `raise` is passed over, since it goes with it.
"""
import re

RESERVED = set(
    """abort abs abstract accept access aliased all and array at begin body case constant declare delay delta digits do
    else elsif end entry exception exit for function generic goto if in interface is limited loop mod new not null of or
    others out overriding package pragma private procedure protected raise range record rem renames requeue return reverse
    select separate some subtype synchronized tagged task terminate then type until use when while with xor""".split()
)
REALS = {"float", "long_float", "short_float", "long_long_float"}
OTHER_TYPES = {"character", "wide_character", "long_integer", "short_integer", "long_long_integer", "duration"}
READ_ATTRIBUTES = {"first", "last", "length", "range", "image"}
READ_UNITS = {"text_io", "integer_text_io", "unchecked_deallocation"}
WITH_ONE_ACTUAL = ("put", "put_line", "get", "new_line")
NOT_IN_TEXT_IO = {"get_line", "get_immediate", "skip_line", "end_of_line", "set_col"}


def is_identifier(word):
    return bool(re.match(r"[a-z]", word)) and word not in RESERVED


# ---- what is asked at a word

# The questions by the word at which they are asked, each with its construct.
QUESTIONS = {}
IDENTIFIER, NUMBER = "an identifier", "a number"


def left_out(construct, *words):
    """Registers a question about a construct. It answers whether the construct stands at a place, or, where that
    isn't the page's, the code that it is refused with."""

    def register(question):
        for word in words:
            QUESTIONS.setdefault(word, []).append((construct, question))
        return question

    return register


class Place:
    """A token of a text, and what stands around it."""

    def __init__(self, finder, text, at):
        self.finder, self.program, self.text, self.at = finder, finder.program, text, at
        self.word = text.words[at]

    def before(self, count=1):
        return self.text.word(self.at - count)

    def after(self, count=1):
        return self.text.word(self.at + count)

    @property
    def opening(self):
        """The place of the parenthesis that is open here, or -1."""
        return self.finder.openings[self.text.name][self.at]

    @property
    def applied(self):
        """The word before the open parenthesis."""
        return self.text.word(self.opening - 1) if self.opening > 0 else ""

    @property
    def constructs(self):
        return [construct for construct, _ in self.text.tokens[self.at].around]

    @property
    def innermost(self):
        return self.constructs[-1].kind if self.constructs else ""

    @property
    def starts(self):
        """The first word of the declaration or statement."""
        return self.text.word(self.head)

    @property
    def head(self):
        """The place of that word."""
        at = self.at
        while self.finder.openings[self.text.name][at] >= 0:
            at = self.finder.openings[self.text.name][at]
        return self.text.head(at)

    def is_in_formals(self, *kinds):
        kinds = kinds or ("procedure", "function")
        return self.opening >= 2 and self.text.word(self.opening - 2) in kinds

    def is_in_record(self):
        return self.innermost == "record" and self.opening < 0

    def joins(self, count=1):
        """Whether the tokens up to the one so far on have nothing between them."""
        tokens = self.text.tokens[self.at : self.at + count + 1]
        ends = [it.offset + len(it.text) for it in tokens]
        return len(tokens) == count + 1 and all(end == it.offset for end, it in zip(ends, tokens[1:]))

    def mark_start(self):
        """The first place of the mark that ends before this one."""
        at = self.at - 1
        while self.text.word(at - 1) == ".":
            at -= 2
        return at

    def name_start(self):
        """The first place of the name whose last identifier is here."""
        at = self.at
        while self.text.word(at - 1) == ".":
            at -= 2
        return at

    def is_call_of_function(self):
        """Whether this is the identifier of a function of the program, in a call."""
        start = self.name_start()
        is_package = self.text.word(start) in self.program.packages
        if self.word not in self.finder.functions or self.word in self.program.packages or start != self.at and not is_package:
            return False
        return self.text.word(start - 1) not in ("function", "end", "'", "with") and not self.finder.is_object(self)

    def is_traversal(self):
        return self.program.functions.get(self.word, [])[:1] == ["access"]

    def call_end(self):
        """The place after the call that begins here, with or without actuals."""
        return self.text.closing(self.at + 1) + 1 if self.after() == "(" else self.at + 1

    def mark_end(self, at):
        """The last place of the mark that begins at a place."""
        while self.text.word(at + 1) == ".":
            at += 2
        return at

    def name_is(self, *kinds):
        """Whether the type of the name that begins here is of one of these kinds, as the text declares it."""
        parts, _ = self.text.name_from(self.at)
        found = self.program.type_of(self.text, self.at, parts)
        return found is not None and found[0] in kinds

    def after_name(self):
        """The place after the name that begins here."""
        return self.text.name_from(self.at)[1]

    def is_compared(self, *kinds):
        """Whether the name that begins here is of one of these kinds of type, and compared with something not null."""
        after = self.after_name() if self.begins_name() else -1
        return self.text.word(after) in ("=", "/=") and self.text.word(after + 1) != "null" and self.name_is(*kinds)

    def begins_mark(self):
        """Whether a mark begins here, of a type that the program doesn't declare itself."""
        return self.before() not in (".", "'") and self.word not in self.program.types and self.after() not in (":", ",", ".")

    def begins_name(self):
        return self.before() not in (".", "'", ":", "end", "new", "procedure", "function", "package", "type", "subtype")


# ---- contracts and aspects


@left_out("`SPARK_Mode => Off`", "off")
def mode(it):
    return it.before() == "=>" and it.before(2) == "spark_mode" or it.before() == "(" and it.before(2) == "spark_mode"


# ---- subprograms


@left_out("a subprogram within a subprogram", "procedure", "function")
def inner_subprogram(it):
    return it.finder.heading(it.text, it.at).kind in ("specification", "body", "expression", "null") and any(
        construct.kind in ("procedure", "function", "declare") for construct in it.constructs
    )


@left_out("an expression function", "function")
def expression_function(it):
    return it.finder.heading(it.text, it.at).kind == "expression"


@left_out("a null procedure", "procedure")
def null_procedure(it):
    return it.finder.heading(it.text, it.at).kind == "null"


@left_out("a default of a formal", ":=")
def default_of_formal(it):
    return it.is_in_formals()


@left_out("two subprograms of one name", "procedure", "function")
def overloaded(it):
    return it.finder.heading(it.text, it.at).is_second and it.finder.heading(it.text, it.at).kind != "instance"


@left_out("two instances of one name", "procedure", "function")
def second_instance(it):
    return it.finder.heading(it.text, it.at).is_second and it.finder.heading(it.text, it.at).kind == "instance"


@left_out("an operator of its own", "function")
def operator(it):
    return it.after().startswith('"') and it.before() not in ("end", "with")


@left_out("an anonymous access formal, but the first one of a traversal function", "access")
def anonymous_formal(it):
    if not it.is_in_formals() or it.before() != ":" or it.after() in ("procedure", "function", "protected"):
        return False
    after = it.text.closing(it.opening) + 1
    is_traversal = it.text.word(after) == "return" and it.text.word(after + 1) == "access"
    is_first = ";" not in it.text.words[it.opening : it.at] and "," not in it.text.words[it.opening : it.at]
    return not (is_traversal and is_first)


@left_out("`not null`", "not")
def not_null(it):
    return it.after() == "null"


@left_out("a function with an `out` or `in out` formal", "out")
def function_with_out(it):
    return it.is_in_formals("function")


@left_out("a `return` with an object of its own", "return")
def extended_return(it):
    return is_identifier(it.after()) and it.after(2) == ":"


@left_out("positions and names mixed in a call", "(")
def mixed_actuals(it):
    if it.before() not in it.finder.subprograms or it.before(2) in ("procedure", "function"):
        return False
    kinds = {"=>" in actual for actual in it.finder.actuals(it.text, it.at)}
    return len(kinds) == 2


@left_out("an access-to-subprogram type", "access")
def access_to_subprogram(it):
    return it.after() in ("procedure", "function", "protected")


# ---- types and objects


@left_out("a default of a component", ":=")
def default_of_component(it):
    return it.is_in_record()


@left_out("a constraint in a component, an object or a formal", "(", "range")
def constraint(it):
    start = it.mark_start()
    outer = it.text.word(start - 1)
    if not is_identifier(it.before()) or it.text.word(start) == "string":
        return False
    if outer in ("in", "constant"):
        outer = it.text.word(start - 2)
        return outer == ":"
    return outer in (":", "out", "of")


@left_out("an integer type of its own", "range")
def integer_type(it):
    return it.before() == "is" and it.before(3) == "type"


@left_out("a modular type", "mod")
def modular_type(it):
    return it.before() == "is" and it.before(3) == "type"


@left_out("a derived type", "new")
def derived_type(it):
    return it.before() == "is" and it.before(3) == "type"


@left_out("a tagged, limited or abstract type, an interface", "tagged", "limited", "abstract", "interface", "overriding")
def tagged_type(it):
    return True


@left_out("a real type", "digits", "delta")
def real_type(it):
    return it.before() == "is" and "P1"


@left_out("a real type", *REALS)
def predefined_real(it):
    return it.begins_mark()


@left_out("any other predefined type, as `Character`, `Long_Integer`, `Duration`", *OTHER_TYPES)
def predefined_type(it):
    return it.begins_mark()


@left_out("an object of type `String`", "string")
def string(it):
    if not it.begins_mark():
        return False
    return "P1" if it.after() == "(" and it.before() != "new" else "N1"


@left_out("a character literal", "'")
def character(it):
    if is_identifier(it.before()) or it.before() in (")", "all"):
        return False
    return it.after() == "'" or it.after(2) == "'" and it.joins(2)


@left_out("an unconstrained array type", "range")
def unconstrained(it):
    return it.after() == "<" and it.after(2) == ">" and it.applied in ("array", ",")


@left_out("an array type without a name", "array")
def array_without_name(it):
    return it.before() in (":", "constant", "aliased")


@left_out("an array with two indexes", ",")
def two_indexes(it):
    return it.applied == "array"


@left_out("an array with an index that isn't of Integer", "array")
def other_index(it):
    index = it.mark_end(it.at + 2)
    return it.after() == "(" and it.text.word(index) in it.finder.enumerations and it.text.word(index + 1) in (")", "range", ",")


@left_out("bounds that aren't static", IDENTIFIER)
def bound(it):
    if ".." not in (it.before(), it.after()) or it.starts not in ("type", "subtype"):
        return False
    return it.finder.is_variable(it)


@left_out("a record without components", "null")
def empty_record(it):
    return it.after() == "record" or it.before() == "record"


@left_out("a discriminant, a variant part", "(")
def discriminant(it):
    return it.before(2) == "type"


@left_out("a discriminant, a variant part", "case")
def variant(it):
    return it.before() != "end" and "record" in [construct.kind for construct in it.constructs[-2:-1]]


@left_out("a component of an anonymous access type", "access")
def anonymous_component(it):
    return it.before() == "of" or it.before() == ":" and it.is_in_record()


@left_out("`aliased`", "aliased")
def aliased(it):
    return True


@left_out("`access all`", "all")
def access_all(it):
    return it.before() == "access"


@left_out("a named access-to-constant type (to come)", "constant")
def access_to_constant(it):
    return it.before() == "access" and it.before(2) == "is" and it.starts == "type"


@left_out("a constant of an access type, or of a type with one", "constant")
def owning_constant(it):
    if it.before() != ":" or it.after() == "access":
        return False
    mark = it.mark_end(it.at + 1)
    return it.text.word(mark + 1) == ":=" and it.finder.owns(it.text.word(mark))


@left_out("a constant borrower or observer", "constant")
def constant_holder(it):
    return it.before() == ":" and it.after() == "access"


@left_out("a deferred constant", "constant")
def deferred_constant(it):
    if it.before() != ":" or it.text.word(it.mark_end(it.at + 1) + 1) != ";":
        return False
    name = it.before(2)
    later = range(it.at + 1, len(it.text.words) - 2)
    return any(it.text.words[at : at + 3] == [name, ":", "constant"] for at in later)


@left_out("a call in the initial value of a package object", IDENTIFIER)
def call_in_package(it):
    if it.word not in it.finder.functions or it.innermost != "package" or it.constructs[-1].is_begun and it.starts == "begin":
        return False
    return it.text.word(it.head + 1) in (":", ",") and ":=" in it.text.words[it.head : it.at]


@left_out("a literal of two enumerations", IDENTIFIER)
def second_literal(it):
    return (it.text.name, it.at) in it.finder.second_literals


# ---- expressions


@left_out("an `if` or `case` expression", "if", "case")
def conditional(it):
    return it.before() == "("


@left_out("a quantified expression", "for")
def quantified(it):
    return it.before() == "("


@left_out("a membership test", "in")
def membership(it):
    return it.before() != ":" and it.before(2) not in ("for", "all", "some")


@left_out("a type conversion", IDENTIFIER)
def conversion(it):
    if it.word not in it.program.types or it.before() in (":", "of", "new", "type", "subtype", "is", "access", "constant", "in", "out", "'"):
        return False
    if it.before() == "." and it.before(2) not in it.program.packages or it.before() in ("procedure", "function"):
        return False
    return it.after() == "("


@left_out("a qualified expression", "(")
def qualified(it):
    if it.before() != "'":
        return False
    start = it.at - 2
    while it.text.word(start - 1) == ".":
        start -= 2
    return it.text.word(start - 1) != "new"


@left_out("any other attribute than First, Last, Length, Range and Image, as `Integer'Max`", "'")
def other_attribute(it):
    if not (is_identifier(it.before()) or it.before() in (")", "all")):
        return False
    return is_identifier(it.after()) and it.after() not in READ_ATTRIBUTES or it.after() in ("mod", "delta", "digits")


@left_out("the attribute `'Access`", "access")
def access_attribute(it):
    return it.before() == "'"


@left_out("`X'Image` of an object", "image")
def image(it):
    return it.before() == "'" and it.after() != "("


@left_out("an attribute of a name of an access type", IDENTIFIER)
def attribute_of_access(it):
    after = it.after_name() if it.begins_name() else -1
    return it.text.word(after) == "'" and it.text.word(after + 1) in READ_ATTRIBUTES and it.name_is("access")


@left_out("`=` of two access objects", IDENTIFIER)
def equal_accesses(it):
    return it.is_compared("access")


@left_out("`=` of two records or two arrays", IDENTIFIER)
def equal_composites(it):
    return it.is_compared("record", "array")


@left_out("a slice of an array", "..")
def array_slice(it):
    if it.opening < 0 or not (is_identifier(it.applied) or it.applied in (")", "all")) or it.before(2) == "range":
        return False
    mark = Place(it.finder, it.text, it.opening)
    return it.text.word(mark.mark_start() - 1) not in (":", "of", "new", "constant", "is", "out")


@left_out("a box in an aggregate", "<")
def box(it):
    return it.after() == ">" and it.before() == "=>"


@left_out("two choices of one value in an aggregate", "|")
def two_choices(it):
    return it.opening >= 0


@left_out("`others` after other values", "others")
def others_after(it):
    return it.before() == "," and it.opening >= 0


@left_out("indexes in an array aggregate", "=>")
def index_in_aggregate(it):
    return it.opening >= 0 and it.text.word(it.opening + 1) != "for" and re.match(r"\d", it.before()) is not None


@left_out("an allocator with a constraint", "(")
def constrained_allocator(it):
    start = it.mark_start()
    return is_identifier(it.before()) and it.text.word(start - 1) == "new" and it.text.word(start - 2) != "is"


@left_out("`**`", "*")
def power(it):
    return it.after() == "*" and it.joins()


@left_out("a real number, a based one, an exponent", NUMBER)
def other_number(it):
    offset = it.text.tokens[it.at].offset
    return re.match(r"\d[\d_]*(\.\d|#|[eE])", it.text.text[offset : offset + 40]) is not None and it.before() != "#"


@left_out("a component or an element of what a call gives", IDENTIFIER)
def part_of_call(it):
    return it.is_call_of_function() and not it.is_traversal() and it.text.word(it.call_end()) in (".", "(")


@left_out("an access value that is no name, as an `in` actual", "new")
def allocated_actual(it):
    return it.applied in it.finder.subprograms and it.before() in ("(", ",", "=>") and it.text.word(it.opening - 2) != "new"


@left_out("a call of a traversal function as a name or an actual", IDENTIFIER)
def traversal_call(it):
    if not it.is_call_of_function() or not it.is_traversal():
        return False
    return it.text.word(it.name_start() - 1) not in (":=", "return") or it.text.word(it.call_end()) in (".", "(")


# ---- statements


@left_out("a loop over elements", "of")
def over_elements(it):
    return it.before(2) == "for"


@left_out("a name of a loop or a block", ":")
def name_of_loop(it):
    return it.after() in ("loop", "for", "while", "declare", "begin")


@left_out("a name of a loop or a block", "exit")
def named_exit(it):
    return is_identifier(it.after())


@left_out("`raise`", "raise")
def raised(it):
    return True


@left_out("an exception, an exception handler", "exception")
def handler(it):
    return True


@left_out("`goto` and labels", "goto")
def jump(it):
    return True


@left_out("`goto` and labels", "<")
def label(it):
    return it.after() == "<" and it.joins()


@left_out("`delay`", "delay")
def delay(it):
    return True


# ---- packages and programs


@left_out("statements in the body of a package", "begin")
def package_statements(it):
    return it.innermost == "package"


@left_out("a package within a subprogram or a package", "package")
def inner_package(it):
    return bool(it.constructs) and it.before() not in ("end", "with") and not it.finder.is_instance(it)


@left_out("a child package", "package")
def child_package(it):
    name = it.at + (2 if it.after() == "body" else 1)
    return it.text.word(name + 1) == "."


@left_out("a generic", "generic")
def generic(it):
    return True


@left_out("an instance of a generic, but of Ada.Unchecked_Deallocation", "procedure", "function", "package")
def instance(it):
    return it.finder.is_instance(it) and "unchecked_deallocation" not in it.text.words[it.at : it.at + 8]


@left_out("a renaming", "renames")
def renaming(it):
    return True


@left_out("a task, a protected object", "task", "protected", "select", "accept", "entry", "requeue", "abort")
def task(it):
    return it.before() not in ("end", "access")


@left_out("a separate body", "separate")
def separate(it):
    return True


@left_out("a second library procedure, a library function", "procedure", "function")
def second_library(it):
    return (it.text.name, it.at) in it.finder.second_library


@left_out("`use all type`", "all")
def use_all(it):
    return it.before() == "use"


@left_out("any other predefined unit, as Ada.Strings", "ada", "interfaces", "system", "gnat")
def other_unit(it):
    if it.starts != "with" or it.before() == "." or it.constructs:
        return False
    return it.word != "ada" or it.after() == "." and it.after(2) not in READ_UNITS


@left_out("a second or a named actual of `Put`, `Put_Line`, `New_Line` and `Get`", *WITH_ONE_ACTUAL)
def two_actuals(it):
    if it.word in it.finder.subprograms or it.after() != "(" or it.before() in ("'", "procedure", "function"):
        return False
    actuals = it.finder.actuals(it.text, it.at + 1)
    return len(actuals) > 1 or it.word == "new_line" or any("=>" in actual for actual in actuals)


@left_out("`Put` of a number, and any other subprogram of Ada.Text_IO and Ada.Integer_Text_IO", "put", *NOT_IN_TEXT_IO)
def other_of_text_io(it):
    if it.word in it.finder.subprograms or it.before() in ("'", "procedure", "function"):
        return False
    return it.word != "put" or it.before() == "." and it.before(2) == "integer_text_io"


# ---- the search


class Heading:
    """The heading of a subprogram: its name, what follows it, and whether the region has one such before."""

    def __init__(self, name, kind):
        self.name, self.kind, self.is_second = name, kind, False


class Finder:
    """Finds constructs in the files of a command, whose texts and declarations a `Program` of spark-show has."""

    def __init__(self, program):
        self.program = program
        self.openings, self.headings = {}, {}
        self.subprograms, self.functions, self.enumerations = set(), set(), {"boolean"}
        self.second_library, self.second_literals = set(), set()
        mains = 0
        for text in program.texts.values():
            self.openings[text.name] = open_parentheses(text.words)
            mains = self.take(text, mains)

    def take(self, text, mains):
        """Takes the headings and the enumerations of a text. The answer counts the library procedures."""
        seen, literals = set(), {}
        for at, word in enumerate(text.words):
            if word in ("procedure", "function"):
                heading = self.headings[text.name, at] = read_heading(text, at)
                around = text.tokens[at].around
                if heading.kind:
                    self.subprograms.add(heading.name)
                    if word == "function":
                        self.functions.add(heading.name)
                region = around[-1][0] if around else None
                key = (region, heading.name, heading.kind)
                heading.is_second = region is not None and heading.kind in ("specification", "body", "instance") and key in seen
                seen.add(key)
                if not around and heading.kind == "body" and text.word(at - 1) in (";", ""):
                    mains += 1
                    if word == "function" or mains > 1:
                        self.second_library.add((text.name, at))
            elif word == "type" and text.word(at + 2) == "is" and text.word(at + 3) == "(":
                self.enumerations.add(text.word(at + 1))
                around = text.tokens[at].around
                region = around[-1][0] if around else None
                for place in range(at + 4, text.closing(at + 3), 2):
                    if (region, text.word(place)) in literals:
                        self.second_literals.add((text.name, place))
                    literals[region, text.word(place)] = place
        return mains

    def heading(self, text, at):
        return self.headings[text.name, at]

    def actuals(self, text, opening):
        """The words of each actual between two parentheses, without those within further ones."""
        actuals, depth = [[]], 0
        for word in text.words[opening + 1 : text.closing(opening)]:
            depth += (word == "(") - (word == ")")
            if depth == 0 and word == ",":
                actuals.append([])
            elif depth == 0:
                actuals[-1].append(word)
        return actuals

    def is_instance(self, it):
        at = it.at + 1
        while at < len(it.text.words) and (is_identifier(it.text.words[at]) or it.text.words[at] == "."):
            at += 1
        return it.before() != "end" and it.text.word(at) == "is" and it.text.word(at + 1) == "new"

    def declared(self, it):
        """The place of the identifier where the object of this name is declared, or nothing."""
        found = self.program.object(it.text, it.at, it.word)
        return found and (found[0], found[1])

    def is_object(self, it):
        return self.declared(it) is not None and it.before() != "."

    def is_variable(self, it):
        found = self.declared(it) if it.before() != "." else None
        if found is None:
            return False
        text, at = found
        while text.word(at) not in (":", ""):
            at += 1
        return text.word(at + 1) != "constant"

    def owns(self, mark, depth=0):
        """Whether a type is known to be an access type, or to have one in it."""
        kind = self.program.resolved(mark)
        if kind[0] == "access" or depth > 8:
            return kind[0] == "access"
        marks = kind[1].values() if kind[0] == "record" else kind[1:] if kind[0] == "array" else ()
        return any(self.owns(it, depth + 1) for it in marks)

    def found(self, text):
        """Each place of a text where a construct stands: the token, the construct, and its code where that isn't the
        page's."""
        after = 0
        for at, word in enumerate(text.words):
            if at < after:
                continue
            if word == "pragma":
                after = end_of(text, at)
                yield from of_pragma(text, at)
                continue
            if word == "with" and text.word(at - 1) not in (";", "", "private", "limited"):
                after = yield from of_aspects(text, at)
                continue
            if word == "raise":
                after = end_of(text, at)
            yield from self.asked(Place(self, text, at))

    def asked(self, it):
        kind = NUMBER if re.match(r"\d", it.word) else IDENTIFIER if is_identifier(it.word) else None
        for construct, question in QUESTIONS.get(it.word, []) + QUESTIONS.get(kind, []):
            answer = question(it)
            if answer:
                yield it.text.tokens[it.at], construct, answer if isinstance(answer, str) else None


def open_parentheses(words):
    """For each token the place of the parenthesis that is open before it, or -1."""
    found, opened = [], []
    for at, word in enumerate(words):
        if word == ")" and opened:
            opened.pop()
        found.append(opened[-1] if opened else -1)
        if word == "(":
            opened.append(at)
    return found


def end_of(text, at):
    while at < len(text.words) and text.words[at] != ";":
        at += 1
    return at


def read_heading(text, at):
    """The heading that begins at `procedure` or `function`. It has no kind where none begins there."""
    name = text.word(at + 1)
    if text.word(at - 1) in ("access", "with", "protected", "end") or not is_identifier(name):
        return Heading(name, "")
    after = at + 2
    if text.word(after) == "(":
        after = text.closing(after) + 1
    if text.word(after) == "return":
        after += 1
        while text.word(after) in ("not", "null", "access", "constant", ".") or is_identifier(text.word(after)):
            after += 1
    depth = 0
    while text.word(after) not in (";", "is", "") or depth:
        depth += (text.word(after) == "(") - (text.word(after) == ")")
        if text.word(after) in ("renames", ""):
            return Heading(name, "")
        after += 1
    kinds = {"new": "instance", "(": "expression", "null": "null", "abstract": "", "separate": ""}
    return Heading(name, "specification" if text.word(after) != "is" else kinds.get(text.word(after + 1), "body"))


def of_pragma(text, at):
    name = text.word(at + 1)
    if name == "spark_mode":
        if "off" in text.words[at : end_of(text, at)]:
            yield text.tokens[at], "`SPARK_Mode => Off`", None
        return
    other = "any other pragma but `SPARK_Mode`, as `Loop_Invariant`, `Inline`"
    yield text.tokens[at], "`pragma Assert` (to come)" if name == "assert" else other, None


def of_aspects(text, at):
    """The aspects that begin at a `with`. The answer is the place after them."""
    head = text.head(at)
    is_object = text.word(head) in ("type", "subtype") or text.word(head + 1) in (":", ",")
    depth, begins, last = 0, True, ""
    while True:
        at += 1
        word = text.word(at)
        if word == "" or depth == 0 and word in (";", "is", "do"):
            return at
        if begins and word == "spark_mode":
            if text.word(at + 2) == "off":
                yield text.tokens[at + 2], "`SPARK_Mode => Off`", None
        elif begins and is_object:
            yield text.tokens[at], "an aspect of a type or of an object", None
        elif begins and word in ("pre", "post"):
            yield text.tokens[at], "`Pre` and `Post` (to come)", None
        elif begins and is_identifier(word):
            # (`spark` reads on up to the comma)
            place = at - 1 if last == "spark_mode" else at
            yield text.tokens[place], "any other aspect but `SPARK_Mode`, as `Global`, `Depends`, `Abstract_State`", None
        last = word if begins else last
        depth += (word == "(") - (word == ")")
        begins = depth == 0 and word == ","
