#!/usr/bin/env python3
"""Makes docs/ERRORS.md from the examples: a section for each code that `spark` prints.

    python3 tools/errors_page.py            writes the page
    python3 tools/errors_page.py --check    ends with 1 where the page isn't what would be written

The programs and the lines that `spark` prints come from crates/spark_examples/data, all other text
from this file. A new code is a new row of ROWS.
"""
import pathlib
import re
import sys
import textwrap
from typing import NamedTuple

TOP = pathlib.Path(__file__).resolve().parent.parent
DATA = TOP / "crates" / "spark_examples" / "data"
PAGE = TOP / "docs" / "ERRORS.md"
WIDTH = 100


class Row(NamedTuple):
    """A code, with the example that has it and its near neighbour, or how such a file comes about."""

    code: str
    title: str
    meaning: str
    # what to do, and pieces of advice, each with the example in `accepted` that was mended so, or none
    mend: str = ""
    mended: list = []
    bad: str = ""
    good: str = ""
    # in place of a program, where one would be too large
    made_by: str = ""


HEAD = """
# Each code that `spark` prints, with a program that has it and how to mend it

`spark check` prints one line for each report, and a single line where it refuses a source:

```
FILE:LINE:COLUMN: CODE ...
```

Codes that begin with `O`, `A` or `V` are reports: the program breaks a rule of ownership (status 1). All other
codes are refusals: the source isn't checked for ownership at all (status 2). Faults of the command itself, as a wrong word
or a file that can't be read, have no code; [TOOL.md](TOOL.md#statuses) has their statuses.

Each section below has a program with the code, the line that `spark` prints for it, the nearest program
without it, and how to mend such a program; a link beside a piece of advice leads to a program that was mended so. The
programs are files of `crates/spark_examples/data`, and all of them are tested. They stand here without their heads, the lines
that say what is expected of them. The line numbers are those of the files, heads included.

This page is made by `tools/errors_page.py`. Change the tool or the examples, not the page.

## How to read a line

```
O1_moved_part.adb:17:9: O1 L.all.Next.all.Value: moved
```

A report has the position, the code of the rule, a name, and a word that says why the name may not be used so. A column is
a byte, and a tab is one column.

**The name** is the one that is used at the position, with each step of it. `.all` stands for what an access value
designates, and is printed where the text leaves it out, too: here the text has `L.Next.Value`. `(?)` stands for some
element of an array. No index is known, so all elements are one place: what is said of `R (1)` holds of `R (2)`, and both
are printed `R(?)`. A name that is declared in a package has the package before it. Of O8 and O9 the name is the one
that was moved, and the position is the end of the block or the return.

**The word** doesn't say that the name itself was moved or lent. It may be a part of it, or what leads to it: here
`L.Next` [was moved](../crates/spark_examples/data/rules/O1_moved_part.adb), which leads to the name.

- `moved`: on some control path to this position another owner got it, and it was given no value since. Conditions
  play no part.
- `borrowed`: a borrower, an object of a type `access T`, has it until its block ends.
- `observed`: an observer, an object of a type `access constant T`, looks at it until its block ends.

A1 to V4 have [phrases](TOOL.md#lines) in place of these words. `tools/spark-show FILE...` prints the same lines as
`spark check FILE...`, and below each one the line of the source and where the name was moved or lent.

## The codes
"""

ROWS = [
    Row(
        code="S1",
        title="the sources are too large",
        meaning="""
            The files of one command have more than 4,194,304 bytes (4 MiB) in all. Comments and blanks count too. The
            position is always line 1, column 1 of the file in which the limit is passed.
            """,
        made_by="""
            Such a file is too large to show. It comes about where sources are generated, or where the files of more
            than one program are given to one command. This makes one, of blanks:

            ```
            head -c 4194305 /dev/zero | tr '\\0' ' ' > large.adb
            ```

            ```
            large.adb:1:1: S1 sources too large
            ```
            """,
        mend="Name fewer files in one command, or have the generator write less: shorter names, fewer comments.",
    ),
    Row(
        code="L1",
        title="a byte that begins no token",
        meaning="""
            The byte at this position can't begin a token, as `?`, `!`, `#` or a letter with an accent; or it stands
            in a string and is none of the printable ASCII characters, as a tab. In comments any byte may stand.
            """,
        bad="refusals/L1_question_mark.adb",
        good="accepted/K1_value_by_assignment.adb",
        mended=[
            ("Remove the byte, or write the name or the text in ASCII", "K1_value_by_assignment"),
            ("At the end of a line with an open string the byte is a carriage return: close the string", ""),
        ],
    ),
    Row(
        code="L2",
        title="an identifier with a misplaced underscore",
        meaning="""
            An identifier has two underscores in a row, or ends with one. The position is its first letter. Ada has
            the same rule.
            """,
        bad="refusals/L2_double_underscore.adb",
        good="accepted/L2_single_underscores.adb",
        mended=[
            ("Leave single underscores between letters and digits, and no others", "L2_single_underscores"),
        ],
    ),
    Row(
        code="L3",
        title="a number out of form or out of range",
        meaning="""
            A number is above 2147483648, has two underscores in a row, ends with one, or is followed by a letter, by
            `#`, or by a point and a digit. So numbers with an exponent (`1E3`), based numbers (`16#F#`) and real ones
            (`1.5`) are refused: they are Ada, but not of this subset.
            """,
        bad="refusals/L3_too_large.adb",
        good="accepted/L3_largest_number.adb",
        mended=[
            ("Write the value as a decimal integer; the largest value of an Integer is 2147483647", "L3_largest_number"),
        ],
    ),
    Row(
        code="L4",
        title="a string that isn't closed on its line",
        meaning="The line or the file ends before the string does. The position is the quote that opens it.",
        bad="refusals/L4_open_string.adb",
        good="accepted/L4_quote_in_comment.adb",
        mend="""
            A quote within a string is written as two. A quote in a comment begins no string.
            """,
        mended=[
            ("Close the string on its line, or remove the quote", "L4_quote_in_comment"),
        ],
    ),
    Row(
        code="L5",
        title="too many tokens",
        meaning="""
            The files of one command have more than 1,000,000 tokens together. The position is that of the first token
            past them.
            """,
        made_by="""
            Such a file is too large to show. Sources that people write reach the limit of bytes (S1) first, since a
            token with its blanks takes more than four bytes on average; a generated list of numbers may not. This
            makes a million and one semicolons:

            ```
            yes ';' | head -n 1000001 > many.adb
            ```

            ```
            many.adb:1000001:1: L5 too many tokens
            ```
            """,
        mend="Name fewer files in one command, or have the generator write less.",
    ),
    Row(
        code="P1",
        title="a syntax error",
        meaning="""
            This is the first token that no valid program could have here, after the tokens before it. The mistake is
            at this token or before it: a missing semicolon, say, is found at the token after it. Where the file ends
            too early the position is that of its end. Most constructs of Ada that the subset leaves out are refused here,
            too, though they are right Ada: aspects, expression functions, defaults, subprograms within subprograms,
            conditional expressions and [others](LEFT_OUT.md).
            """,
        bad="refusals/P1_no_statement.adb",
        good="accepted/P1_only_null.adb",
        mend="""
            Look at the token, then at the one before it. Where the text is right Ada, [LEFT_OUT.md](LEFT_OUT.md) says what stands in its place, and `tools/spark-show` names what is likely meant. [LANGUAGE.md](LANGUAGE.md#grammar) has the whole grammar, and [examples](LANGUAGE.md#what-is-refused) of such tokens.
            """,
        mended=[
            ("Write what is missing", "P1_only_null"),
        ],
    ),
    Row(
        code="P2",
        title="nesting too deep, or too many operators",
        meaning="""
            This token opens a construct within 64 others, or it is the 1,025th operator of one expression. Constructs
            are packages, subprograms, blocks, loops, `if`, `case`, `record` and parentheses.
            """,
        bad="refusals/P2_nested_parentheses.adb",
        good="accepted/P2_63_parentheses.adb",
        mended=[
            ("Give a part of the expression a name of its own", "P2_part_with_a_name"),
            ("Open fewer constructs", "P2_63_parentheses"),
            ("Move inner statements into a procedure", ""),
        ],
    ),
    Row(
        code="P3",
        title="a construct of Ada that is left out",
        meaning="""
            As P1, where the token is a word that belongs to something in Ada that this subset
            [leaves out](LEFT_OUT.md): exceptions, tasks, generics, `goto`, renaming, `aliased`, `access all`, derived
            and limited types and others. [LANGUAGE.md](LANGUAGE.md#what-is-refused) lists the words. The word alone decides the code, so a word such
            as `new` in a wrong position is P3 too.
            """,
        bad="refusals/P3_raise.adb",
        good="accepted/P1_only_null.adb",
        mend="""
            [LEFT_OUT.md](LEFT_OUT.md) has the constructs, each with what stands in its place. A unit that is left out of the command is missing then (N1 or N5).
            """,
        mended=[
            ("Do without the construct", "P1_only_null"),
            ("Give a simpler body in place of one that needs it, as of [this one](../crates/spark_examples/data/refusals/P3_body_with_handler.adb): it keeps to the subset, and changes, keeps and frees the same objects", "P3_simpler_body"),
        ],
    ),
    Row(
        code="N1",
        title="an unknown name",
        meaning="""
            No declaration of this name can be seen here, and none stands later in what encloses it. Predefined are
            Integer, Natural, Positive, Boolean, False, True and Ada, and in Ada only Text_IO (Put, Put_Line, New_Line,
            End_Of_File), Integer_Text_IO (Get) and Unchecked_Deallocation. In a `with` or `use` clause the position is
            the first token of the name: what it names has to be a package, or in a `use type` a type.
            """,
        bad="refusals/N1_undeclared.adb",
        good="accepted/N1_declared.adb",
        mend="""
            A name from another file is known only where that file is given too, before this one. Predefined types and units that `spark` doesn't know are in [LEFT_OUT.md](LEFT_OUT.md).
            """,
        mended=[
            ("Declare the name, or correct its spelling", "N1_declared"),
        ],
    ),
    Row(
        code="N2",
        title="a name that is declared twice",
        meaning="""
            This is the second declaration of the name in one region: a package, a subprogram with its formals, a block,
            or the components of one record. Letter case makes no difference, and there is no overloading. Library units
            stand in one region with Integer, Natural, Positive, Boolean, False, True and Ada. A second library
            procedure, a library function and a second body of a package are N2 too.
            """,
        bad="refusals/N2_declared_twice.adb",
        good="accepted/N2_two_names.adb",
        mend="""
            Of two main programs, give each to a command of its own.
            """,
        mended=[
            ("Give one of the two another name", "N2_two_names"),
        ],
    ),
    Row(
        code="N3",
        title="a name that isn't visible",
        meaning="""
            The name is declared, but can't be seen from here: a package, or Ada.Unchecked_Deallocation, in a unit
            without a `with` clause for it; something in the private part or the body of a package, from elsewhere; or a
            name that two packages in use both have.
            """,
        bad="refusals/N3_no_with_clause.adb",
        good="accepted/N3_with_clause.adb",
        mended=[
            ("Add the `with` clause", "N3_with_clause"),
            ("Move the declaration into the visible part", "N3_visible_part"),
            ("Write the package before a name that two packages in use have", "N3_package_before_the_name"),
        ],
    ),
    Row(
        code="N4",
        title="a name that is used before its declaration",
        meaning="""
            The name is declared, but later, or its declaration hasn't ended here: it counts from its `;` on. The files
            are taken in the order of the words. The body of a package that stands before its specification is N4 as
            well.
            """,
        bad="refusals/N4_used_before_declaration.adb",
        good="accepted/N4_declared_before_use.adb",
        mend="""
            Name the files in the order in which they need each other, specifications first: `tools/spark-show --order FILE...` does it.
            """,
        mended=[
            ("Move the declaration up", "N4_declared_before_use"),
            ("Of two types that name each other, begin with an incomplete one: `type Cell;`", "K1_access_to_incomplete_type"),
        ],
    ),
    Row(
        code="N5",
        title="a body or a full type that is missing",
        meaning="""
            A procedure or function that is declared in a package has no body in the body of that package; an incomplete
            or a private type has no full type; or a package body has no specification. The position is the name that is
            declared.
            """,
        bad="refusals/N5_no_body.adb",
        good="accepted/N5_package_body.adb",
        mended=[
            ("Write the body or the full type, or name the file that has it in the same command, after the specification", "N5_package_body"),
        ],
    ),
    Row(
        code="N6",
        title="another name after `end`",
        meaning="The name after `end` isn't that of the package, procedure or function that ends there.",
        bad="refusals/N6_other_closing_name.adb",
        good="accepted/N6_closing_name_in_other_case.adb",
        mended=[
            ("Correct the name", "N6_closing_name_in_other_case"),
            ("Leave it out", "N6_no_closing_name"),
        ],
    ),
    Row(
        code="Y1",
        title="a type that is too large",
        meaning="""
            An object of this type would take more than 65,536 words: 1 for a number, a literal or an access value, the
            sum over the components of a record, and for an array the words of its element times the number of its
            elements. The position is the identifier of the type. This is a limit of `spark` and not of Ada.
            """,
        bad="refusals/Y1_large_array.adb",
        good="accepted/Y1_largest_array.adb",
        mended=[
            ("Make the array shorter", "Y1_largest_array"),
            ("Hold its parts by an access type: what is designated doesn't count", "Y1_parts_by_access"),
        ],
    ),
    Row(
        code="Y2",
        title="a type with too many access parts",
        meaning="""
            The type has more than 64 components that own an object, at any depth, or one that more than 16
            selectors lead to. All elements of an array count as one. The position is the identifier of the type. This is a
            limit of `spark` and not of Ada.
            """,
        bad="refusals/Y2_65_access_parts.adb",
        good="accepted/Y2_64_access_parts.adb",
        mended=[
            ("Hold some of the parts in a record of their own that is designated", "Y2_parts_in_a_record"),
            ("Make an array of them", "Y2_array_of_parts"),
        ],
    ),
    Row(
        code="Y3",
        title="an array without elements",
        meaning="""
            The low bound of the index range is above the high bound. Ada allows such arrays. Only types whose own
            definition has no other fault are looked at for Y1 to Y3, and these codes go before all of K1 to K8.
            """,
        bad="refusals/Y3_no_elements.adb",
        good="accepted/Y3_one_element.adb",
        mended=[
            ("Correct the bounds", "Y3_one_element"),
        ],
    ),
    Row(
        code="K1",
        title="a wrong type",
        meaning="""
            The expression or name at this position doesn't have the type that is demanded there, or it is no value, no
            type or no part of what stands before it. [LANGUAGE.md](LANGUAGE.md#k1-wrong-type) lists what is demanded
            where. Most of it is Ada's, but stricter: a relation compares two scalars or an access object with `null`, a
            string stands in Put and Put_Line alone, a call is no prefix, an allocator has exactly the designated
            subtype, and an attribute has no access object before it. For the two operands of a relation the position is
            that of the left one.
            """,
        bad="refusals/K1_boolean_for_integer.adb",
        good="accepted/N1_declared.adb",
        mended=[
            ("Correct the name or the type", "N1_declared"),
            ("To compare two records, compare their components", "K1_components_compared"),
            ("To compare what two access objects designate, compare that", "K1_designated_compared"),
        ],
    ),
    Row(
        code="K2",
        title="a name that isn't a variable",
        meaning="""
            Something is written here that is no variable: a constant, a named number, the parameter of a `for` loop, or
            an expression. Written are the targets of assignments, `out` and `in out` actuals, and the actuals of Get
            and of what frees an object. Ada has the same rule.
            """,
        bad="refusals/K2_constant.adb",
        good="accepted/K2_variable.adb",
        mended=[
            ("Declare a variable and write that, or leave `constant` out", "K2_variable"),
        ],
    ),
    Row(
        code="K3",
        title="a wrong profile",
        meaning="""
            A call doesn't have one actual for each formal, all by position or all by name; what is called as a
            statement is no procedure; a body has another profile than its declaration, or an instance other types than
            the designated and the access type; a function has a formal that isn't `in`; the main procedure has formals;
            a `return` has an expression too many or lacks one; or an `exit` stands outside of a loop.
            """,
        bad="refusals/K3_missing_actual.adb",
        good="accepted/K3_all_actuals.adb",
        mend="""
            Compare with the declaration.
            """,
        mended=[
            ("Give each actual; where positions and names are mixed, which Ada allows, name all of them", "K3_all_actuals"),
            ("What a function would write, let a procedure write", "V1_procedure_that_writes"),
        ],
    ),
    Row(
        code="K4",
        title="a choice that is missing or doubled",
        meaning="""
            In a `case`, some value isn't covered (the position is that of `case`), one is covered twice, a choice isn't
            static, or `others` isn't the last choice, alone. An object's name and a call need only the values of their
            subtype, every other expression those of its whole type. In an aggregate, a component or an element is
            missing or doubled, names and positions are mixed, or `others` stands in a record.
            """,
        bad="refusals/K4_missing_choice.adb",
        good="accepted/K4_all_choices.adb",
        mended=[
            ("Add the choice, or `when others`", "K4_all_choices"),
            ("In an aggregate of a record, give each component by its name", "K4_all_components"),
        ],
    ),
    Row(
        code="K5",
        title="an owning expression out of place",
        meaning="""
            An access value, or a record or array with one, is moved by assigning it, so it stands only where its new
            owner can be told: not in parentheses, not in a constant, not as an `in` actual unless it is a name or
            `null`, and after `others =>` only as `null`. Ada has none of these rules.
            """,
        bad="refusals/K5_parentheses.adb",
        good="accepted/K5_no_parentheses.adb",
        mended=[
            ("Remove the parentheses", "K5_no_parentheses"),
            ("Declare a variable", "K5_variable_of_access_type"),
            ("Assign the value to an object first, and pass its name", "K5_name_as_actual"),
        ],
    ),
    Row(
        code="K6",
        title="an anonymous access type out of place",
        meaning="""
            Objects of anonymous access types borrow (`access T`) or observe (`access constant T`) an object for a
            while. Such an object stands alone in its declaration, in a subprogram or block, has an initial value and
            isn't `constant`; its source is a name of an access type or a call of a traversal function, and for a
            borrower it isn't access-to-constant. A traversal function, one with an anonymous access result, has an
            access type for its first formal, and no other formal is anonymous; it is called for a name. Ada has none of
            these rules.
            """,
        bad="refusals/K6_no_initial_value.adb",
        good="accepted/K6_borrower.adb",
        mended=[
            ("Give the object a source", "K6_borrower"),
            ("Declare it with a named access type", "K6_named_access_type"),
        ],
    ),
    Row(
        code="K7",
        title="an expression that isn't static",
        meaning="""
            The bounds of arrays and subtypes and named numbers have to be known before a run: they are made of
            numbers, literals, static constants, First and Last of scalar subtypes, and operators, and each
            intermediate value is an Integer. K7 also stands at the bound of a subtype outside its parent's
            bounds, at the mark of an object whose subtype has no values, and at 2147483648 unless it is the operand of
            a minus sign. Ada allows other bounds of arrays and subtypes, and subtypes without values.
            """,
        bad="refusals/K7_variable_as_bound.adb",
        good="accepted/K7_constant_as_bound.adb",
        mended=[
            ("Use a constant with a static initial value", "K7_constant_as_bound"),
            ("Write the smallest Integer as -2147483648, or as Integer'First", "K7_no_overflow"),
        ],
    ),
    Row(
        code="K8",
        title="a package value that isn't allowed",
        meaning="""
            The initial value of an object in a package calls a function of the program, or names an object of an owning
            type, or a part of one. Packages begin before any call, in the order of the text, so nothing could be moved
            or observed there. Ada allows it.
            """,
        bad="refusals/K8_function_call.adb",
        good="accepted/K8_function_call_in_body.adb",
        mended=[
            ("Give the object a simple value, or none", "K8_package_objects"),
            ("Call the function in a body", "K8_function_call_in_body"),
        ],
    ),
    Row(
        code="M1",
        title="a name that is too deep",
        meaning="""
            A name has more than 16 selectors. Each component, each index and each `.all` is one, written or not: with
            X of an access type, `X.Next` has two. Names count where they stand for an object that is read, written,
            moved or passed; the prefix of an attribute of an array doesn't. This is a limit of `spark` and not of
            Ada.
            """,
        bad="refusals/M1_nine_steps.adb",
        good="accepted/M1_eight_steps.adb",
        mended=[
            ("Go by steps: with a loop", "M1_loop"),
            ("With an observer or a borrower of a part of the path", "M1_observer"),
        ],
    ),
    Row(
        code="G1",
        title="too many points",
        meaning="""
            The subprogram at this position has more than 16,384 [points](FLOW.md#points). A statement has one or a few,
            and each `return`, each `exit` and each end of a block one more for every object of an access type whose
            scope it ends. This is a limit of `spark` and not of Ada.
            """,
        made_by="""
            People don't write such subprograms; generators may. This makes one, of 16,384 statements and the end:

            ```
            (echo 'procedure Main is begin'; yes 'null;' | head -n 16384; echo 'end Main;') > points.adb
            ```

            ```
            points.adb:1:11: G1 too many points
            ```

            With one statement less it is accepted. A
            [table](../crates/spark_examples/data/tables/limits_of_subprograms.txt) has shorter sources with as many
            points.
            """,
        mend="Move statements into procedures of their own.",
    ),
    Row(
        code="G2",
        title="too many facts",
        meaning="""
            The acts of the subprogram at this position can add more than 512 different facts: moved names and loans. A
            move of a record or array adds one for each access part of its type. This is a limit of `spark` and not of
            Ada.
            """,
        bad="refusals/G2_nine_records.adb",
        good="accepted/G2_eight_records.adb",
        mended=[
            ("Move parts of the subprogram into procedures of their own", "G2_two_procedures"),
            ("Hold the parts of a large record by one access type", "G2_held_by_access_type"),
        ],
    ),
    Row(
        code="O1",
        title="a read of what was moved away or is borrowed",
        meaning="""
            `X.all` is read while X is moved: an assignment such as `Y := X` made Y the owner on some path to this
            position, and X was given no value since. In a run X would still hold the address, and the object
            there may be freed or changed through Y at any time. With the word `borrowed`, a borrower has the object, or what
            leads to it, until its block ends. Conditions play no part: each branch may be taken, and a loop may have
            any number of iterations.
            """,
        bad="rules/O1_moved_on_a_branch.adb",
        good="accepted/O1_read_on_the_other_branch.adb",
        mended=[
            ("Read through the new owner", "O1_read_by_new_owner"),
            ("Read before the move", "O1_read_before_move"),
            ("Read on the other branch alone", "O1_read_on_the_other_branch"),
            ("Give X a new value first; a value for `X.all` is none", "O1_read_after_new_value"),
            ("Of what is borrowed, read through the borrower, or after the end of its block", "O1_read_through_the_borrower"),
            ("Of an element of an array, a value for one element doesn't help, since no index is known. Give the whole array a value", "O1_whole_array_after_move"),
            ("Or let a procedure with an `in out` formal do both, the move and the new value", "O1_element_replaced_by_a_procedure"),
        ],
    ),
    Row(
        code="O2",
        title="a comparison with `null` of what was moved away or is borrowed",
        meaning="""
            A name, or one that leads to it, was moved or is borrowed, and is compared with `null`. The answer would
            tell nothing: Ada leaves the old address in a name that was moved.
            """,
        bad="rules/O2_look_after_move.adb",
        good="accepted/O2_look_at_the_new_owner.adb",
        mended=[
            ("Compare the new owner", "O2_look_at_the_new_owner"),
            ("Compare the borrower", "O2_look_at_the_borrower"),
            ("Assign `null` to the name after the move", "O2_null_after_the_move"),
        ],
    ),
    Row(
        code="O3",
        title="a write through a moved name, or of what is lent",
        meaning="""
            `X.all` is written while X is moved, so the write would change an object that another name owns. X itself
            may be written while it is moved, and has a value again then; while it is lent it may not. With the words `borrowed` and `observed`, a borrower
            or an observer has the object or a part of it until its block ends, and would see the change or look at an
            object that nobody owns any more.
            """,
        bad="rules/O3_observed.adb",
        good="accepted/O3_written_after_the_observer.adb",
        mended=[
            ("Write through the new owner", "O3_through_the_new_owner"),
            ("Write through the borrower", "O3_through_the_borrower"),
            ("Write after the end of the block", "O3_written_after_the_observer"),
            ("Move the value back first", "O3_write_after_move_back"),
            ("Give X a new object", "O3_whole_object_after_move"),
        ],
    ),
    Row(
        code="O4",
        title="a second move of one value, or a move of what is lent",
        meaning="""
            X is assigned to another name while it is moved, so one object would have two owners; or while an object
            borrows or observes it, so the new owner could free or change what the other one looks at.
            """,
        bad="rules/O4_second_iteration_of_a_loop.adb",
        good="accepted/O4_new_value_in_each_iteration.adb",
        mended=[
            ("Assign from the present owner", "O4_from_the_new_owner"),
            ("Give X a new value between the two moves", "O4_new_value_in_each_iteration"),
            ("To have the number twice, allocate a second object with a copy of it: `Z := new Integer'(Y.all);`", "O4_copied"),
            ("Of what is lent, end the block first", "O4_moved_after_the_block"),
            ("Of an element of an array, a value for one element doesn't help, since no index is known. Let a procedure with an `in out` formal take it out", "O4_element_by_a_procedure"),
        ],
    ),
    Row(
        code="O5",
        title="a borrow of what was moved away or is lent",
        meaning="""
            An object of an anonymous access type (`access T`) borrows what its initial value designates, to the end of
            its block. The source was moved, or is borrowed or observed, it or a part of it. Ada has no such rule, and
            both objects may change what they designate.
            """,
        bad="rules/O5_two_borrowers.adb",
        good="accepted/O5_one_after_the_other.adb",
        mended=[
            ("End the block of the first one before", "O5_one_after_the_other"),
            ("Borrow parts that don't overlap", "O5_two_parts"),
            ("Borrow from the borrower, in a block within its own", "O5_of_the_borrower"),
            ("Of what was moved, borrow from the new owner", "O5_new_owner"),
        ],
    ),
    Row(
        code="O6",
        title="an observation of what was moved away or is borrowed",
        meaning="""
            An object of an anonymous access-to-constant type (`access constant T`) observes what its source designates,
            to the end of its block. The source was moved or is borrowed, it or a part of it. What is observed already
            may be observed again.
            """,
        bad="rules/O6_borrowed.adb",
        good="accepted/O6_two_observers.adb",
        mended=[
            ("Observe the borrower, in a block within its own", "O6_of_the_borrower"),
            ("End the block of the borrower before", "O6_after_the_block"),
            ("Of what was moved, observe the new owner", "O6_new_owner"),
        ],
    ),
    Row(
        code="O7",
        title="a borrower that goes on past a part that is moved or lent",
        meaning="""
            A borrower is assigned, as `B := B.Next`, while a part of what it designates was moved through it, or while
            another object borrows or observes a part. From the new place the borrower can't give that part a value.
            """,
        bad="rules/O7_lent.adb",
        good="accepted/O7_lent_no_longer.adb",
        mended=[
            ("Give the part a value before, as `B.Left := null;`", "O7_part_given_a_value"),
            ("End the inner block first", "O7_lent_no_longer"),
        ],
    ),
    Row(
        code="O8",
        title="the end of a borrower with a moved part",
        meaning="""
            The block of a borrower ends while a part that was moved through it has no value. The object gets back to its
            owner, who wouldn't know of the hole. The position is the end of the block, or the `exit` or `return` that
            leaves it, and the name is the one that was moved.
            """,
        bad="rules/O8_moved_part_at_the_end.adb",
        good="accepted/O8_part_given_a_value.adb",
        mended=[
            ("Give the part a value on each path out of the block", "O8_part_given_a_value"),
            ("Of an element of an array, let a procedure with an `in out` formal take it out and leave `null`, since a value for one element doesn't help", "O8_element_by_a_procedure"),
        ],
    ),
    Row(
        code="O9",
        title="a return with a moved formal or package object",
        meaning="""
            The subprogram returns while a formal, a package object or a part of one was moved away and has no value
            again. The caller wouldn't know of it. The position is the `return` or the `end`, and the name is the one
            that was moved.
            """,
        bad="rules/O9_formal_moved.adb",
        good="accepted/O9_formal_given_back.adb",
        mended=[
            ("Give it a value on each path out, `null` at least", "O9_formal_given_back"),
            ("Return before the move", "O9_return_before_the_move"),
            ("Observe it in place of moving it", "O9_observed"),
            ("Of an element of an array a value doesn't help, since no index is known ([reported](../crates/spark_examples/data/rules/O9_element_given_a_value.adb)). Let a procedure with an `in out` formal take it out and leave `null`", "O9_element_by_a_procedure"),
        ],
    ),
    Row(
        code="O10",
        title="an actual that was moved away or is lent",
        meaning="""
            What a call does with its actual is forbidden here, by the mode of the formal. Of an owning type: `in out`
            wants it neither moved nor lent; `in` of a procedure the same where it is of an access type, since the
            procedure may write through it; any other `in` wants it neither moved nor borrowed. `out` writes it. Of
            another type, `in out` reads and writes it. What was moved or is lent is the actual, a part of it, or what
            leads to it.
            """,
        bad="rules/O10_in_observed.adb",
        good="accepted/O10_in_of_a_function.adb",
        mended=[
            ("Pass the new owner", "O10_new_owner"),
            ("Of a name with a moved part, give the part a value first", "O10_part_given_a_value"),
            ("Call after the end of the block", "O10_out_after_the_block"),
            ("Let a function do what only reads", "O10_in_of_a_function"),
        ],
    ),
    Row(
        code="O11",
        title="a call that uses a package object that was moved away or is lent",
        meaning="""
            The called subprogram, or one that it calls, directly or not, reads or writes the package object. Where it
            writes it, the object may be neither moved nor lent; where it only reads it, neither moved nor borrowed.
            `spark` finds what is read and written from the bodies. The position is the call, and the name is the
            object.
            """,
        bad="rules/O11_written_while_observed.adb",
        good="accepted/O11_read_while_observed.adb",
        mended=[
            ("Call it after the end of the block", "O11_called_after_the_block"),
            ("Give the object its value back before the call", "O11_used_after_the_move_back"),
        ],
    ),
    Row(
        code="O14",
        title="a free of what was moved away or is lent",
        meaning="""
            X is freed while it is moved, so the object of another owner would be freed, and perhaps freed twice; or
            while an object borrows or observes it or a part of it, which would look at a freed object. Freeing one name
            twice in a row is no report: a free makes the name null, and freeing null has no effect.
            """,
        bad="rules/O14_observed.adb",
        good="accepted/O14_freed_after_the_block.adb",
        mended=[
            ("Free the new owner instead", "O14_free_of_new_owner"),
            ("Free after the end of the block", "O14_freed_after_the_block"),
        ],
    ),
    Row(
        code="A1",
        title="two actuals that overlap",
        meaning="""
            Two actuals of one call of a procedure may be one object, or one is a part of the other. That is allowed
            where both formals are of mode `in` and no access type, or where one of them is and is a scalar, which is
            copied. The position is that of the later actual. No index is known, so two elements of one array overlap.
            """,
        bad="rules/A1_list_and_its_rest.adb",
        good="accepted/A1_two_lists.adb",
        mended=[
            ("Move the part to an object of its own and give it `null`, then call: `R := L.Next; L.Next := null;`", "A1_part_taken_out"),
            ("Exchange two different elements of an array by three swaps with an object of its own", "A1_three_swaps"),
            ("Of a scalar, let a formal have the mode `in`: it is copied", "A1_scalar_by_value"),
        ],
    ),
    Row(
        code="A2",
        title="an actual that overlaps a package object of the callee",
        meaning="""
            The actual is a package object or a part of one, and the called procedure uses the same object under its own
            name: it reads or writes it, and the formal isn't just looked at; or it writes it, and the formal isn't a
            scalar, which would be copied.
            """,
        bad="rules/A2_object_that_the_callee_writes.adb",
        good="accepted/A2_object_of_the_caller.adb",
        mended=[
            ("Pass an object of the caller", "A2_object_of_the_caller"),
            ("Pass a copy", "A2_copy"),
            ("Let the procedure use the object under its own name alone, without the formal", "A2_without_the_formal"),
        ],
    ),
    Row(
        code="V1",
        title="a change of what may only be looked at",
        meaning="""
            What an observer designates may only be looked at; so may an `in` formal of a procedure and what it leads
            to, unless the formal is of an access type and something that it designates is meant; and in a function all
            formals and package objects. Here such a thing is written, moved, freed, borrowed or passed to be written.
            A function also has no output and no input, and calls no procedure that writes a package object; the
            position is that call then. For `in` formals and functions Ada allows it.
            """,
        bad="rules/V1_part_of_an_in_record.adb",
        good="accepted/V1_part_of_an_in_out_record.adb",
        mended=[
            ("Make the formal `in out`", "V1_part_of_an_in_out_record"),
            ("Make the observer a borrower", "O8_part_given_a_value"),
            ("Make the function a procedure", "V1_procedure_that_writes"),
        ],
    ),
    Row(
        code="V2",
        title="an observer that outlives its source",
        meaning="""
            An observer is given a source that is declared in an inner block, so the source ends first.
            """,
        bad="rules/V2_source_in_an_inner_block.adb",
        good="accepted/V2_source_in_the_same_block.adb",
        mended=[
            ("Declare the source no further in than the observer", "V2_source_in_the_same_block"),
            ("Declare a second observer in the inner block", "V2_second_observer"),
        ],
    ),
    Row(
        code="V3",
        title="a traversal function that returns something else",
        meaning="""
            A function with an anonymous access result returns its first formal, a part of it, or null. Then a caller
            knows what the result borrows or observes: the first actual. Here it returns a part of another object. The
            position is the returned name.
            """,
        bad="rules/V3_other_root.adb",
        good="accepted/V3_first_formal.adb",
        mended=[
            ("Return the first formal or a part of it", "V3_first_formal"),
            ("Return null", "V3_null"),
            ("Return what else there is by a named access type", "V3_named_result"),
        ],
    ),
    Row(
        code="V4",
        title="a borrower that is given another object",
        meaning="""
            A borrower may be moved along what it borrows: `B := B.Next`. Here it is assigned a name with another root.
            The position is that name.
            """,
        bad="rules/V4_other_root.adb",
        good="accepted/V4_along_the_list.adb",
        mended=[
            ("Assign from the borrower itself, or from a part of it", "V4_along_the_list"),
            ("Borrow the other object in a block of its own", "V4_block_of_its_own"),
            ("Assign what a traversal function gives for it", "V4_traversal_call"),
        ],
    ),
]


class Example(NamedTuple):
    """An example: the lines that are expected, the lines of its program, and the number of the first of them."""

    path: str
    status: int
    expected: list
    program: list
    first: int


def read_example(path):
    """The example at this path below DATA."""
    lines = (DATA / path).read_bytes().decode("ascii").split("\n")
    count = 1
    while lines[count].startswith("--> "):
        count += 1
    entries = [line[4:].partition(" ") for line in lines[1:count]]
    status = next(int(rest) for word, _, rest in entries if word == "status")
    expected = [rest for word, _, rest in entries if word in ("err", "out")]
    program = lines[count:]
    assert program[-1] == "" and all(line.isprintable() for line in program), path
    return Example(path, status, expected, program[:-1], count + 1)


def wrapped(text):
    """Text in paragraphs and lists, wrapped; code stays as it is."""
    paragraphs = textwrap.dedent(text).strip("\n").split("\n\n")
    return "\n\n".join(p if p.startswith("```") else filled_list(p) if p.startswith("- ") else filled(p) for p in paragraphs)


def filled_list(paragraph):
    return "\n".join(filled_item("- " + item) for item in paragraph[2:].split("\n- "))


def filled_item(text):
    text = " ".join(text.split())
    return textwrap.fill(text, WIDTH, subsequent_indent="  ", break_long_words=False, break_on_hyphens=False)


def filled(paragraph):
    return textwrap.fill(" ".join(paragraph.split()), WIDTH, break_long_words=False, break_on_hyphens=False)


def link(path):
    return "[`%s`](../crates/spark_examples/data/%s)" % (path.rpartition("/")[2], path)


def program_of(example):
    return "```ada\n%s\n```" % "\n".join(example.program)


def shown(example):
    """Each expected line, with the line of the file that it is about and a caret below its column."""
    rows = []
    for text in example.expected:
        rows.append(text)
        line, column = map(int, re.match(r"[^:]+:(\d+):(\d+): ", text).groups())
        if line >= example.first:
            number = "%5d" % line
            rows.append("%s | %s" % (number, example.program[line - example.first]))
            rows.append("%s | %s^" % (" " * len(number), " " * (column - 1)))
    return "```\n%s\n```" % "\n".join(rows)


def advice(row, text, name):
    """A piece of advice as an item of a list, with the program that was mended so."""
    path = "accepted/%s.adb" % name
    if name:
        example = read_example(path)
        assert (example.status, example.expected) == (0, ["accepted"]), path
        text += " (the program above)" if path == row.good else " ([program](../crates/spark_examples/data/%s))" % path
    return filled_item("- %s." % text)


def section(row):
    parts = ["## %s: %s" % (row.code, row.title), wrapped(row.meaning)]
    if row.made_by:
        parts.append(wrapped(row.made_by))
    else:
        bad, good = read_example(row.bad), read_example(row.good)
        verb = "reported" if row.code[0] in "OAV" else "refused"
        assert all(": %s " % row.code in line for line in bad.expected) and bad.status == (1 if verb == "reported" else 2), row
        assert (good.status, good.expected) == (0, ["accepted"]), row
        parts += [filled("**%s:** %s" % (verb.capitalize(), link(row.bad))), program_of(bad), shown(bad)]
        parts += [filled("**Accepted:** %s" % link(row.good)), program_of(good)]
    parts.append(filled(("**To mend it.** " + " ".join(row.mend.split())).strip()))
    if row.mended:
        parts.append("\n".join(advice(row, text, name) for text, name in row.mended))
    return "\n\n".join(parts)


def item(row):
    """The code and the title of a row, as an item of a list with a link."""
    return filled_item("- [%s](#%s): %s" % (row.code, slug("%s: %s" % (row.code, row.title)), row.title))


def made():
    """The page."""
    titles = "\n".join(item(row) for row in ROWS)
    return "\n\n".join([wrapped(HEAD), titles] + [section(row) for row in ROWS]) + "\n"


def title_of(code):
    """The title of a code's section."""
    return next(row.title for row in ROWS if row.code == code)


def slug(heading):
    """The anchor of a heading."""
    return re.sub(r"[^\w\- ]", "", heading.strip().lower()).replace(" ", "-")


def main():
    if sys.argv[1:] == ["--check"]:
        if not PAGE.is_file() or PAGE.read_text() != made():
            print("docs/ERRORS.md isn't what tools/errors_page.py makes: run python3 tools/errors_page.py")
            return 1
    elif sys.argv[1:]:
        print(__doc__)
        return 2
    else:
        PAGE.write_text(made())
    return 0


if __name__ == "__main__":
    sys.exit(main())
