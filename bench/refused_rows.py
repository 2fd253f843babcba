#!/usr/bin/env python3
"""Writes crates/rows/data/refused_texts.rows and refused_data.rows: model texts and data files that are refused, with the line
that the program puts, and beside them some that are just not refused.

usage: refused_rows.py texts|data > crates/rows/data/refused_texts.rows

Where a text is refused was found by hand from docs/LANGUAGE.md, and is marked by an @ in the text below, which isn't a part
of it; this script counts the line and column of the mark. It knows nothing of the program.
"""
import sys

USUAL = "index N = 0..2; var x : set 0..3; var y : set 0..3; var f[N] : set 0..2; var u : int 0..9; var r : real 0..1;\n"
TWO = "var x : set 0..3; var y : set 0..3;\n"
PACK = "var z : int 0..9; var g : set 0..1;\n"


def rows_of(data):
    """The rows of a table for these bytes."""
    if all(32 <= byte < 127 or byte == 10 for byte in data):
        return "".join(f"  | {line}\n" for line in data.decode().split("\n"))
    return f"  x {data.hex()}\n"


def case(name, words, files, status, out, key="out"):
    print(f"case {name}\nwords {words}")
    for file, data in files:
        rows = data if isinstance(data, list) else [rows_of(data if isinstance(data, bytes) else data.encode())]
        print(f"file {file}\n{''.join(rows)}", end="")
    print(f"status {status}\n{key}\n" + rows_of((out + ("\n" if key == "out" else "")).encode()))


def place(text):
    """The text without its mark, and the line and column of the mark."""
    data = text if isinstance(text, bytes) else text.encode()
    at = data.index(b"@")
    before = data[:at]
    return before + data[at + 1:], before.count(b"\n") + 1, at - (before.rfind(b"\n") + 1) + 1


def syntax(name, text):
    data, line, column = place(text)
    case(f"syntax: {name}", "solve m", [("m", data)], 6, f"error syntax {line} {column}")


def meaning(word, name, text, words="solve m", files=()):
    data, line, column = place(text)
    case(f"{word}: {name}", words, [("m", data), *files], 6, f"error model {line} {column} {word}")


def limit(word, name, text, found, bound, words="solve m", files=()):
    case(f"limit {word}: {name}", words, [("m", text), *files], 8, f"error limit {word} {found} {bound}")


def early(name, text):
    case(f"early: {name}", "solve m", [("m", text)], 13, "error early")


def allowed(name, text, last, status=0, files=()):
    words = " ".join(["solve m --brief"] + [file for file, _ in files])
    case(f"allowed: {name}", words, [("m", text), *files], status, last, "last")


SYNTAX = [
    ("an empty text", "@"),
    ("blanks and a comment alone", " \t# satisfy;\n @"),
    ("no goal", "var x : set 0..1;@"),
    ("no semicolon behind the goal", "satisfy@"),
    ("a second goal", "satisfy; @satisfy;"),
    ("an item behind the goal", "satisfy; @var x : set 0..1;"),
    ("no semicolon behind a declaration", "var x : set 0..1 @satisfy;"),
    ("a capital letter", "@Satisfy;"),
    ("a longer word than a goal's", "var x : set 000000000000000000..000000000000000001; @maximised;"),
    ("a number of 19 digits", "post x <= @0000000000000000001; satisfy;"),
    ("a name of 65 bytes", "var @" + "a" * 65 + " : set 0..1; satisfy;"),
    ("a reserved word as a variable", "var @sum : set 0..1; satisfy;"),
    ("a reserved word as an index set", "index @all = 0..1; satisfy;"),
    ("a reserved word as a binder", "post forall @first in N : x <= 1; satisfy;"),
    ("a stray byte", "satisfy @& ;"),
    ("a byte above 127", b"satisfy; @\xc3\xa9"),
    ("a byte 0", b"satisfy@\x00;"),
    ("a form feed", b"satisfy@\x0c;"),
    ("a place behind tabs, line ends and comments", b"# \xc3\xa9 @1\n\r\n\t\tvar\r x @? : set 0..1; satisfy;".replace(b"@1", b"1")),
    ("three dots", "var x : set 0..@.1; satisfy;"),
    ("a dot, a blank and a dot", "var x : set 0@. .1; satisfy;"),
    ("a sign with a blank in it", "post x < @= 1; satisfy;".replace("x < @=", "x @< =")),
    ("a leading plus", "post @+x <= 1; satisfy;"),
    ("no times", "post 2 @x <= 1; satisfy;"),
    ("two minuses", "post x <= -@-1; satisfy;"),
    ("a minus behind a times", "post 2*@-x <= 1; satisfy;"),
    ("less in a row", "post x @< 1; satisfy;"),
    ("unequal in a row", "post x @!= 1; satisfy;"),
    ("two comparisons in a row", "post x <= 1 @<= 2; satisfy;"),
    ("a post of nothing", "post @; satisfy;"),
    ("a row without a comparison", "post x@; satisfy;"),
    ("a row without a right side", "post x <= @; satisfy;"),
    ("minimise of nothing", "minimise @;"),
    ("a goal behind a goal", "minimise x @then minimise y;"),
    ("satisfy of something", "satisfy @x;"),
    ("an index set with a colon", "index N @: 0..3; satisfy;"),
    ("an index set without an end", "index N = 0@; satisfy;"),
    ("a family over nothing", "var x[@] : set 0..1; satisfy;"),
    ("a family over a number", "var x[@3] : set 0..1; satisfy;"),
    ("a family with an open bracket", "var x[N @: set 0..1; satisfy;"),
    ("a kind that isn't one", "var x : @bool; satisfy;"),
    ("a variable with an equality", "var x @= 3; satisfy;"),
    ("an empty list of values", "var x : set {@}; satisfy;"),
    ("a comma behind the last value", "var x : set {1, @}; satisfy;"),
    ("an open list of values", "var x : set {1, 2@; satisfy;"),
    ("a list of values of an int", "var x : int @{1, 2}; satisfy;"),
    ("a range without dots", "var x : int 0 @1; satisfy;"),
    ("binders without in", "post forall i @: x <= 1; satisfy;"),
    ("a binder in a number", "post forall i in @3 : x <= 1; satisfy;"),
    ("binders without a colon", "post forall i in N @x[i] <= 1; satisfy;"),
    ("a test without a comparison", "post forall i in N if i @: x[i] <= 1; satisfy;"),
    ("tests joined by or", "post forall i in N if i < 2 @or i > 3 : x[i] <= 1; satisfy;"),
    ("a second forall", "post forall i in N : @forall j in N : x <= 1; satisfy;"),
    ("a sum without binders", "minimise sum(x@);"),
    ("a sum without for", "minimise sum(x @in N);"),
    ("a comma behind the last binder", "minimise sum(x for i in N, @);"),
    ("an open bracket at the end", "minimise (x@;"),
    ("a bracket that none opened", "minimise x@);"),
    ("no last index", "minimise x[1,@];"),
    ("no last factor", "minimise x*@;"),
    ("a formula without a bracket", "post logic @x = 1; satisfy;"),
    ("less in a literal", "post logic [x @< 1]; satisfy;"),
    ("an open literal", "post logic [x = 1@; satisfy;"),
    ("a second implies", "post logic [x = 1] implies [y = 1] @implies [x = 0]; satisfy;"),
    ("not of nothing", "post logic not@; satisfy;"),
    ("two connectives", "post logic [x = 1] and @or [y = 1]; satisfy;"),
    ("all without binders", "post logic all([x = 1]@); satisfy;"),
    ("a number in brackets in a formula", "post logic (@x) = 1; satisfy;"),
    ("when without a literal", "post when @x = 1 then y >= 1; satisfy;"),
    ("when without then", "post when [x = 1] @y >= 1; satisfy;"),
    ("a comma behind the last literal", "post when [x = 1], @then y >= 1; satisfy;"),
    ("a literal behind then", "post when [x = 1] then @[y = 1]; satisfy;"),
    ("alldiff without a bracket", "post alldiff @x, y; satisfy;"),
    ("alldiff of nothing", "post alldiff(@); satisfy;"),
    ("alldiff of a bracketed list", "post alldiff(@[x, y]); satisfy;"),
    ("binders without a set", "post alldiff(x for i@); satisfy;"),
    ("a circuit with a semicolon", "post circuit(x@; y); satisfy;"),
    ("an element without a list", "post element(x, @y, z); satisfy;"),
    ("an element of two parts", "post element(x, [1, 2]@); satisfy;"),
    ("a choice without a colon", "post indexsum(z; x [1]@); satisfy;"),
    ("a choice behind a comma", "post indexsum(z@, x : [1]); satisfy;"),
    ("an assign without its sum", "post assign(@; x : [1]); satisfy;"),
    ("a task of two numbers", "post cumulative(3; s, 2@); satisfy;"),
    ("a task of four numbers", "post cumulative(3; s, 2, 1@, 4); satisfy;"),
    ("a disjunctive of nothing", "post disjunctive(@); satisfy;"),
    ("a task of three numbers in disjunctive", "post disjunctive(s, 2@, 1); satisfy;"),
    ("a task with a bare literal", "post disjunctive(s, 2 when @p = 1); satisfy;"),
    ("capacities without brackets", "post packing(z; @1; [1]; g, 1, [0]); satisfy;"),
    ("a packing without opening costs", "post packing(z; [1]@); satisfy;"),
    ("a tag before the constraint", "post @infer none x >= 0; satisfy;"),
    ("a tag that isn't one", "post x >= 0 @fast; satisfy;"),
    ("another level", "post x >= 0 infer @all; satisfy;"),
    ("another relax", "post x >= 0 relax @off; satisfy;"),
    ("a branch below 0", "post x >= 0 branch @-1; satisfy;"),
    ("another pick", "post x >= 0 pick @last; satisfy;"),
    ("another split", "post x >= 0 split @middle; satisfy;"),
    ("sub of nothing", "post x >= 0 sub@; satisfy;"),
    ("before a bracket too deep", "minimise @) " + "(" * 65),
    ("another bracket inside 64", "minimise " + "(" * 64 + "@{"),
    ("comes before what isn't known", "minimise q@ q;".replace("q@ q", "q @q")),
]

MEANING = {
    "unknown": [
        ("in the goal", "minimise @q;"),
        ("before its declaration", "post @x <= 1; var x : set 0..1; satisfy;"),
        ("an index set of a family", "var x[@N] : set 0..1; satisfy;"),
        ("a set of a binder", TWO + "post forall i in @N : x >= 0; satisfy;"),
        ("an end of an index set", "index N = 0..@q; satisfy;"),
        ("an index set in its own ends", "index N = 0..@N; satisfy;"),
        ("a table without its file", TWO + "post x >= @d[0]; satisfy;"),
        ("a binder behind its part", USUAL + "minimise sum(f[i] for i in N) + f[@i];"),
        ("a binder in a set of binders before it", USUAL + "post forall i in @j, j in N : x >= 0; satisfy;"),
        ("before its indices", USUAL + "minimise @q[p];"),
        ("an index before the number of indices", USUAL + "minimise x[@q];"),
        ("the left side first", USUAL + "post @p >= q; satisfy;"),
        ("a second set behind one that is empty", "index M = 1..0; post forall i in M, j in @Q : q >= 0; satisfy;"),
        ("all factors before their product", USUAL + "post x*y*@q >= 0; satisfy;"),
        ("a tag's number behind the constraint", USUAL + "post @q >= 0 sub p; satisfy;"),
        ("a tag's number", USUAL + "post x >= 0 sub @p; satisfy;"),
        ("before a limit of the same constraint", USUAL + "post 2147483649*x >= @q; satisfy;"),
        ("the number of a second sub first", USUAL + "post x >= 0 sub 1 sub @q; satisfy;"),
    ],
    "doubled": [
        ("a variable", "var x : set 0..1; var @x : set 0..1; satisfy;"),
        ("an index set by a variable's name", "var x : set 0..1; index @x = 0..1; satisfy;"),
        ("before the rest of its declaration", "var x : set 0..1; var @x : set q..1; satisfy;"),
        ("before the rest of an index set", "index N = 0..1; index @N = 0..q; satisfy;"),
        ("a binder by a variable's name", USUAL + "post forall @x in N : y >= 0; satisfy;"),
        ("a binder by its set's name", USUAL + "post forall @N in N : y >= 0; satisfy;"),
        ("two binders", USUAL + "post forall i in N, @i in N : y >= 0; satisfy;"),
        ("a binder inside its part", USUAL + "post forall i in N : sum(f[i] for @i in N) >= 0; satisfy;"),
        ("a tag", USUAL + "post x >= 0 relax on @relax none; satisfy;"),
        ("a tag with another between", USUAL + "post x >= 0 infer full branch 1 @infer full; satisfy;"),
        ("a number of a subproblem", USUAL + "post x >= 0 sub 1 @sub 1; satisfy;"),
        ("a tag before a limit of its constraint", USUAL + "post 2147483649*x >= 0 pick first @pick first; satisfy;"),
    ],
    "shape": [
        ("an index at a variable", USUAL + "minimise @x[0];"),
        ("a family without an index", USUAL + "minimise @f;"),
        ("two indices at a family over one set", USUAL + "minimise @f[0, 0];"),
        ("before an index that is too great", USUAL + "minimise @f[9, 9];"),
        ("an index set as a number", USUAL + "minimise @N;"),
        ("an index set with an index", USUAL + "minimise @N[0];"),
        ("a family over a variable", USUAL + "var w[@x] : set 0..1; satisfy;"),
        ("a binder over a variable", USUAL + "post forall i in @x : y >= 0; satisfy;"),
        ("a binder over a binder", USUAL + "post forall i in N, j in @i : y >= 0; satisfy;"),
        ("an index at a binder", USUAL + "post forall i in N : y >= @i[0]; satisfy;"),
        ("a family over four sets", USUAL + "var @w[N, N, N, N] : set 0..1; satisfy;"),
    ],
    "index": [
        ("above", USUAL + "minimise f[@3];"),
        ("below", USUAL + "minimise f[@-1];"),
        ("below a set that begins at 1", "index M = 1..3; var w[M] : set 0..1; minimise w[@0];"),
        ("the second", "index M = 1..3; var w[M, M] : set 0..1; minimise w[1, @4];"),
        ("the first of two", "index M = 1..3; var w[M, M] : set 0..1; minimise w[@0, 4];"),
        ("at the last tuple", USUAL + "post forall i in N : f[i] - f[@i + 1] >= 0; satisfy;"),
        ("in a family over an empty set", "index M = 1..0; var w[M] : set 0..1; minimise w[@1];"),
    ],
    "whole": [
        ("an index", USUAL + "minimise f[@x];"),
        ("an end of an index set", "var x : set 0..1; index N = 0..@x; satisfy;"),
        ("a bound of a set", USUAL + "var w : set 0..@x; satisfy;"),
        ("a value of a set", USUAL + "var w : set {0, @1 + x}; satisfy;"),
        ("a bound of an int", USUAL + "var w : int @x..3; satisfy;"),
        ("a bound of a real", USUAL + "var w : real 0..@2*x; satisfy;"),
        ("the left side of a test", USUAL + "post forall i in N if @x < 1 : y >= 0; satisfy;"),
        ("the right side of a test", USUAL + "post forall i in N if i < @x : y >= 0; satisfy;"),
        ("a second test", USUAL + "post forall i in N if i = 2 and @x = 2 : y >= 0; satisfy;"),
        ("a capacity", USUAL + "post cumulative(@x; y, 1, 1); satisfy;"),
        ("a duration", USUAL + "post cumulative(1; y, @x, 1); satisfy;"),
        ("a demand", USUAL + "post cumulative(1; y, 1, @x); satisfy;"),
        ("a duration in disjunctive", USUAL + "post disjunctive(y, @x); satisfy;"),
        ("a capacity of a group", PACK + "post packing(z; [@g]; [0]; g, 1, [0]); satisfy;"),
        ("an opening cost", PACK + "post packing(z; [1]; [@g]; g, 1, [0]); satisfy;"),
        ("a size", PACK + "post packing(z; [1]; [0]; g, @g, [0]); satisfy;"),
        ("a cost", PACK + "post packing(z; [1]; [0]; g, 1, [@g]); satisfy;"),
        ("a member of a table", USUAL + "post indexsum(u; x : [0, 1, @y, 3]); satisfy;"),
        ("the right side of a literal", USUAL + "post logic [x = @y]; satisfy;"),
        ("the number of a subproblem", USUAL + "post x >= 0 sub @y; satisfy;"),
    ],
    "linear": [
        ("a square", "var x : int 0..1; post @x*x >= 0; satisfy;"),
        ("at the term", USUAL + "post 1 + @2*x*y >= 0; satisfy;"),
        ("with a factor 0", USUAL + "post @0*x*x >= 0; satisfy;"),
        ("of brackets", USUAL + "minimise u - @(x + 1)*(y - 2);"),
        ("in a sum", USUAL + "minimise sum(@f[i]*x for i in N);"),
        ("in the goal behind others", USUAL + "maximise 2*x + 3*y - @u*3*x;"),
    ],
    "variable": [
        ("a sum in a literal", USUAL + "post logic [@x + y = 1]; satisfy;"),
        ("a constant in a literal", USUAL + "post logic [@3 = 1]; satisfy;"),
        ("a multiple in a literal", USUAL + "post when [@2*x = 2] then y >= 1; satisfy;"),
        ("before the right side of its literal", USUAL + "post logic [@x + 1 = q]; satisfy;"),
        ("in alldiff", USUAL + "post alldiff(x, @y + 1); satisfy;"),
        ("before what stands behind it", USUAL + "post alldiff(@2*x, q); satisfy;"),
        ("a number in alldiff", USUAL + "post alldiff(x, @3); satisfy;"),
        ("in circuit", USUAL + "post circuit(@-x, y); satisfy;"),
        ("the index of an element", USUAL + "post element(@x + y, [1, 2], u); satisfy;"),
        ("an entry of an element", USUAL + "post element(x, [1, u, @u + 1], u); satisfy;"),
        ("the last of an element", USUAL + "post element(x, [1, 2], @2*u); satisfy;"),
        ("the sum of an indexsum", USUAL + "post indexsum(@u - 1; x : [1, 2]); satisfy;"),
        ("a choice of an assign", USUAL + "post assign(u; @x + 1 : [1, 2]); satisfy;"),
        ("a start", USUAL + "post cumulative(1; @x + y, 1, 1); satisfy;"),
        ("a start in disjunctive", USUAL + "post disjunctive(x, 1; @4, 1); satisfy;"),
        ("the cost of a packing", PACK + "post packing(@z + g; [1]; [0]; g, 1, [0]); satisfy;"),
        ("a group", PACK + "post packing(z; [1]; [0]; @0, 1, [0]); satisfy;"),
        ("before its kind", USUAL + "post alldiff(@2*r); satisfy;"),
    ],
    "kind": [
        ("a real variable in alldiff", "var x : real 0..1; post alldiff(@x); satisfy;"),
        ("an int variable in alldiff", USUAL + "post alldiff(x, @u); satisfy;"),
        ("an int variable in circuit", USUAL + "post circuit(@u); satisfy;"),
        ("a real variable in a literal", USUAL + "post logic [@r <= 0]; satisfy;"),
        ("a real variable in a literal of when", USUAL + "post when [@r = 1] then x >= 1; satisfy;"),
        ("the index of an element", USUAL + "post element(@u, [1, 2], u); satisfy;"),
        ("a real entry of an element", USUAL + "post element(x, [1, @r], u); satisfy;"),
        ("a real last of an element", USUAL + "post element(x, [1, 2], @r); satisfy;"),
        ("a real sum of an indexsum", USUAL + "post indexsum(@r; x : [1, 2]); satisfy;"),
        ("a chosen int variable", USUAL + "post assign(u; @u : [1, 2]); satisfy;"),
        ("an int start", USUAL + "post cumulative(1; @u, 1, 1); satisfy;"),
        ("an int start in disjunctive", USUAL + "post disjunctive(@u, 1); satisfy;"),
        ("a real variable at a task", USUAL + "post disjunctive(x, 1 when [@r = 1]); satisfy;"),
        ("a real cost of a packing", USUAL + "post packing(@r; [1]; [0]; x, 1, [0]); satisfy;"),
        ("an int group", USUAL + "post packing(u; [1]; [0]; @u, 1, [0]); satisfy;"),
    ],
    "value": [
        ("a set without a value", "var x : @set 3..2; satisfy;"),
        ("an int without a value", "var x : @int 3..2; satisfy;"),
        ("a real without a value", "var x : @real 0..-1; satisfy;"),
        ("a family without members and values", "index M = 1..0; var x[M] : @set 3..2; satisfy;"),
        ("a capacity below 0", USUAL + "post cumulative(@-1; x, 1, 1); satisfy;"),
        ("a duration below 0", USUAL + "post cumulative(1; x, @1 - 2, 1); satisfy;"),
        ("a demand below 0", USUAL + "post cumulative(1; x, 1, @-1); satisfy;"),
        ("a duration below 0 in disjunctive", USUAL + "post disjunctive(x, @-1); satisfy;"),
        ("a capacity of a group below 0", PACK + "post packing(z; [@-1]; [0]; g, 1, [0]); satisfy;"),
        ("an opening cost below 0", PACK + "post packing(z; [1]; [@-1]; g, 1, [0]); satisfy;"),
        ("a size below 0", PACK + "post packing(z; [1]; [0]; g, @-1, [0]); satisfy;"),
        ("fewer opening costs than capacities", PACK + "post packing(z; [1, 2]; [@1]; g, 1, [0, 0]); satisfy;"),
        ("more opening costs, before the loads", PACK + "post packing(z; [1]; [@1, 2]; q, 1, [0]); satisfy;"),
        ("fewer costs than groups", PACK + "post packing(z; [1, 2]; [0, 0]; g, 1, [@0]); satisfy;"),
        ("more costs than groups", PACK + "post packing(z; [1, 2]; [0, 0]; g, 1, [@0 - 1, 2, 3]); satisfy;"),
        ("the number of a subproblem below 0", USUAL + "post x >= 0 sub @-1; satisfy;"),
    ],
    "benders": [
        ("in a subproblem and in no one", "var x : set 0..1; var @y : real 0..1; post y >= 0 sub 1; post y <= 1; satisfy;"),
        ("in two subproblems", "var @y : real 0..1; post y >= 0 sub 1; post y <= 1 sub 2; satisfy;"),
        ("a member of a family", "index N = 0..1;\nvar @y[N] : real 0..1; post y[0] >= 0; post y[1] >= 0; post y[1] >= 0 sub 0; satisfy;"),
        ("the first by declaration", "var @y : real 0..1; var w : real 0..1; post w >= 0 sub 1; post y >= 0 sub 1; post w + y >= 0; satisfy;"),
    ],
}

TOP = 2**31
OVER = TOP + 1
MOST = 2**62
NINES = "999999999999999999"


def family(name, count, kind):
    return f"index N = 1..{count}; var {name}[N] : {kind}; "


LIMITS = [
    ("nesting", "65 round brackets", "minimise " + "(" * 65 + "x" + ")" * 65 + ";", 65, 64),
    ("nesting", "brackets of several kinds", "var x : set {" + "(" * 63 + "f[1]" + ")" * 63 + "}; satisfy;", 65, 64),
    ("nesting", "before a bad token behind it", "minimise " + "(" * 66 + ";", 65, 64),
    ("size", "one more", "index N = 0..65536; satisfy;", 65537, 65536),
    ("size", "many more", f"index N = -{NINES}..{NINES}; satisfy;", 65537, 65536),
    ("value", "a product", TWO + f"post {NINES}*5*x >= 0; satisfy;", 4999999999999999995, MOST),
    ("value", "a sum", TWO + "minimise " + " + ".join([f"{NINES}*x"] * 5) + ";", 4999999999999999995, MOST),
    ("value", "below", TWO + "minimise " + " - ".join([f"-{NINES}"] + [NINES] * 4) + ";", 4999999999999999995, MOST),
    ("value", "a right side that is subtracted", TWO + f"post 4*{NINES}*x >= -4*{NINES}*x; satisfy;", 7999999999999999992, MOST),
    ("value", "before what isn't known behind it", TWO + f"post {NINES}*5*x >= q; satisfy;", 4999999999999999995, MOST),
    ("value", "a coefficient before the constant", TWO + f"minimise 4*({NINES}*x + {NINES} + 1) + 2*({NINES}*x + {NINES} + 1);", 5999999999999999994, MOST),
    ("coefficient", "of a row", TWO + f"post {OVER}*x >= 0; satisfy;", OVER, TOP),
    ("coefficient", "below", TWO + f"post 0 >= {OVER}*x; satisfy;", OVER, TOP),
    ("coefficient", "of the goal", TWO + f"minimise {OVER}*x;", OVER, TOP),
    ("coefficient", "the first by variable", TWO + f"minimise {OVER + 1}*y + {OVER}*x;", OVER, TOP),
    ("coefficient", "of a when", TWO + f"post when [x = 1] then {OVER}*y >= 0; satisfy;", OVER, TOP),
    ("coefficient", "before the right side", TWO + f"post {OVER}*x >= {OVER + 5}; satisfy;", OVER, TOP),
    ("bound", "of a row", TWO + f"post x >= {OVER}; satisfy;", OVER, TOP),
    ("bound", "a constant that changes sides", TWO + f"post x + {OVER} >= 0; satisfy;", OVER, TOP),
    ("bound", "a declared value", f"var x : set {TOP}..{OVER}; satisfy;", OVER, TOP),
    ("bound", "a listed value", f"var x : set {{0, {OVER}}}; satisfy;", OVER, TOP),
    ("bound", "of an int", f"var x : int -{OVER}..0; satisfy;", OVER, TOP),
    ("bound", "of a real", f"var x : real 0..{OVER}; satisfy;", OVER, TOP),
    ("bound", "of a family without members", f"index M = 1..0; var x[M] : set {OVER}..{OVER}; satisfy;", OVER, TOP),
    ("bound", "the goal's constant", TWO + f"minimise x - {OVER};", OVER, TOP),
    ("bound", "of a literal", TWO + f"post logic [x <= {OVER}]; satisfy;", OVER, TOP),
    ("bound", "of a literal of a when", TWO + f"post when [x >= -{OVER}] then y >= 0; satisfy;", OVER, TOP),
    ("bound", "a duration", TWO + f"post disjunctive(x, {OVER}); satisfy;", OVER, TOP),
    ("bound", "a demand", TWO + f"post cumulative(1; x, 1, {OVER}); satisfy;", OVER, TOP),
    ("bound", "a capacity", TWO + f"post cumulative({OVER}; x, 1, 1); satisfy;", OVER, TOP),
    ("bound", "a size", PACK + f"post packing(z; [1]; [0]; g, {OVER}, [0]); satisfy;", OVER, TOP),
    ("bound", "a capacity of a group", PACK + f"post packing(z; [{OVER}]; [0]; g, 1, [0]); satisfy;", OVER, TOP),
    ("entry", "of an element", TWO + f"post element(x, [0, {OVER}], y); satisfy;", OVER, TOP),
    ("entry", "of an indexsum", TWO + f"post indexsum(y; x : [0, -{OVER}]); satisfy;", OVER, TOP),
    ("entry", "of an assign", TWO + f"post assign(y; x : [{OVER}]); satisfy;", OVER, TOP),
    ("entry", "an opening cost", PACK + f"post packing(z; [1]; [{OVER}]; g, 1, [0]); satisfy;", OVER, TOP),
    ("entry", "a cost", PACK + f"post packing(z; [1]; [0]; g, 1, [-{OVER}]); satisfy;", OVER, TOP),
    ("variables", "one more", family("x", 4097, "set 0..0") + "satisfy;", 4097, 4096),
    ("variables", "over two sets", "index N = 1..65; var x[N, N] : int 0..0; satisfy;", 4097, 4096),
    ("width", "one more", "var x : set 0..4096; satisfy;", 4097, 4096),
    ("width", "of two values", "var x : set {5000, -5000}; satisfy;", 10001, 4096),
    ("widths", "of 65 variables", family("x", 65, "set 1..4096") + "satisfy;", 266240, 262144),
    ("widths", "of the last variable", family("x", 64, "set 1..4096") + "var y : int 0..9; var z : set 7..8; satisfy;", 262146, 262144),
    ("constraints", "one more", "index N = 1..16385; var x : set 0..1; post forall i in N : x >= 0; satisfy;", 16385, 16384),
    ("terms", "of a row", family("x", 1025, "set 0..0") + "post sum(x[i] for i in N) >= 0; satisfy;", 1025, 1024),
    ("terms", "of a when", family("x", 1025, "set 0..0") + "post when [x[1] = 0] then sum(x[i] for i in N) >= 0; satisfy;", 1025, 1024),
    ("terms", "of alldiff", family("x", 1025, "set 0..0") + "post alldiff(x[i] for i in N); satisfy;", 1025, 1024),
    ("terms", "of circuit", family("x", 1025, "set 0..0") + "post circuit(x[i] for i in N); satisfy;", 1025, 1024),
    ("terms", "picks", family("x", 1025, "set 0..0") + "var z : int 0..0; post indexsum(z; x[i] : [0] for i in N); satisfy;", 1025, 1024),
    ("terms", "of an element", TWO + "index N = 0..4096; post element(x, [0 for i in N], y); satisfy;", 4097, 4096),
    ("terms", "of a choice's table", TWO + "index N = 0..4096; post assign(y; x : [0 for i in N]); satisfy;", 4097, 4096),
    ("clauses", "of 13 pairs", "index I = 1..13; var p[I] : set 0..1; post logic any([p[i] = 0] and [p[i] = 1] for i in I); satisfy;", 8192, 4096),
    ("clauses", "of an all", "index I = 1..4097; var p : set 0..1; post logic all([p = 0] for i in I); satisfy;", 4097, 4096),
    ("clauses", "of 63 pairs", "index I = 1..63; var p : set 0..1; post logic any([p = 0] and [p = 1] for i in I); satisfy;", 2**63, 4096),
    ("clauses", "of 64 pairs", "index I = 1..64; var p : set 0..1; post logic any([p = 0] and [p = 1] for i in I); satisfy;", 2**64 - 1, 4096),
    ("clauses", "of 90 pairs", "index I = 1..90; var p : set 0..1; post logic any([p = 0] and [p = 1] for i in I); satisfy;", 2**64 - 1, 4096),
    ("clauses", "behind the bounds of its literals", TWO + f"index I = 1..4097; post logic all([x = 0] for i in I) and [y = {OVER}]; satisfy;", 0, 0),
    ("tasks", "of cumulative", family("s", 257, "set 0..0") + "post cumulative(1; s[i], 1, 1 for i in N); satisfy;", 257, 256),
    ("tasks", "of disjunctive", family("s", 257, "set 0..0") + "post disjunctive(s[i], 1 for i in N); satisfy;", 257, 256),
    ("horizon", "of a task", "var s : set 0..1; post disjunctive(s, 65536); satisfy;", 65537, 65536),
    ("horizon", "of two tasks", "var s : set -5..0; var t : set 65530..65530; post cumulative(1; s, 0, 0; t, 2, 1); satisfy;", 65537, 65536),
    ("items", "one more", PACK + "index N = 0..256; post packing(z; [1]; [0]; g, 0, [0] for i in N); satisfy;", 257, 256),
    ("groups", "one more", PACK + "index N = 0..64; post packing(z; [1 for i in N]; [0 for i in N]; g, 0, [0 for i in N]); satisfy;", 65, 64),
    ("capacity", "one more", PACK + "post packing(z; [1, 16385]; [0, 0]; g, 0, [0, 0]); satisfy;", 16385, 16384),
    ("reals", "one more", family("y", 401, "real 0..1") + "satisfy;", 401, 400),
    ("realrows", "one more", "index N = 0..400; var y : real 0..1; post forall i in N : y >= 0; satisfy;", 401, 400),
    ("realrows", "with a when", "index N = 1..400; var y : real 0..1; var p : set 0..1; post forall i in N : y >= 0; post when [p = 1] then y <= 0; satisfy;", 401, 400),
    ("branch", "one more", TWO + "post x >= 0 branch 1000001; satisfy;", 1000001, 1000000),
    ("sub", "one more", TWO + "post x >= 0 sub 4096; satisfy;", 4096, 4095),
    ("branch", "before the number of a subproblem", TWO + "post x >= 0 sub 4096 branch 1000001; satisfy;", 1000001, 1000000),
    ("width", "before what a later item lacks", "var x : set 0..4096; minimise q;", 4097, 4096),
]

ALLOWED = [
    ("no variable", "satisfy;", "satisfied", 0),
    ("64 brackets", "var x : set 1..1; minimise " + "(" * 64 + "x" + ")" * 64 + ";", "optimal 1", 0),
    ("a row of numbers", "post 0 >= 1; satisfy;", "infeasible", 1),
    ("what no tuple reaches", "index M = 1..0; post forall i in M : q >= 0; satisfy;", "satisfied", 0),
    ("what no tuple of a sum reaches", "index M = 1..0; var x : set 2..2; minimise x + sum(q for i in M);", "optimal 2", 0),
    ("a second test behind one that fails", "index N = 0..1; var x : set 2..2; post forall i in N if i > 5 and q > 0 : x >= 9; minimise x;", "optimal 2", 0),
    ("a variable that cancels out", "var x : set 0..3; var y : set x - x..x - x + 1; maximise (x - x)*x + (0*x)*y + y;", "optimal 1", 0),
    ("a literal of one variable, written long", "var x : set 0..3; post logic [2*x - x + 0 = 3]; minimise x;", "optimal 3", 0),
    ("binders of two parts by one name", "index N = 0..2; var x : set 1..1; minimise sum(i*x for i in N) + sum(x for i in N);", "optimal 6", 0),
    ("ends of an index set above 2^31", "index M = 3000000000..3000000002; var x : set 1..1; minimise sum(x for i in M);", "optimal 3", 0),
    ("an int variable as the last of an element", "var x : set 0..1; var u : int 0..9; post element(x, [4, 7], u); maximise u;", "optimal 7", 0),
    ("an int entry of an element", "var x : set 1..1; var u : int 2..3; var w : int 0..9; post element(x, [4, u], w); maximise w;", "optimal 3", 0),
    ("a literal of an int variable", "var u : int 0..9; post logic [u >= 4]; minimise u;", "optimal 4", 0),
    ("a capacity of 16,384", "var z : int 0..9; var g : set 0..0; post packing(z; [16384]; [3]; g, 16384, [2]); minimise z;", "optimal 5", 0),
    ("a horizon of 65,536", "var s : set 0..1; post disjunctive(s, 65535); minimise s;", "optimal 0", 0),
    ("a branch of 1,000,000", "var x : set 0..1; post x >= 1 branch 1000000; minimise x;", "optimal 1", 0),
    ("a repeated value", "var x : set {3, 1, 3}; post x >= 2; minimise x;", "optimal 3", 0),
    ("a cost below 0", "var z : int -9..9; var g : set 0..0; post packing(z; [1]; [2]; g, 1, [-5]); minimise z;", "optimal -3", 0),
]

EARLY = [
    ("a real variable", "var y : real 0..1; post y >= 0; minimise y;"),
    ("a real variable that no constraint has", "var y : real 0..1; satisfy;"),
    ("a subproblem", "var x : set 0..1; post x >= 0 sub 4095; satisfy;"),
    ("a real variable that cancels out", "var x : set 0..1; var y : real 0..1; post alldiff(x + y - y); satisfy;"),
    ("a real variable in the row of a when", "var p : set 0..1; var y : real 0..1; post when [p = 1] then y >= 1; satisfy;"),
]


def texts():
    for name, text in SYNTAX:
        syntax(name, text)
    for word, cases in MEANING.items():
        for name, text in cases:
            meaning(word, name, text)
    for word, name, text, found, bound in LIMITS:
        if bound == 0:
            limit("bound", "of a literal before the clauses", text, OVER, TOP)
        else:
            limit(word, name, text, found, bound)
    for name, text, last, status in ALLOWED:
        allowed(name, text, last, status)
    for name, text in EARLY:
        early(name, text)


MODEL = "var x : set 0..3; minimise x;"

# name of the case, data files, what is told
DATA = [
    ("name: no ending", [("d", "d = 1")], "data d name"),
    ("name: another ending", [("d.txt", "d = 1")], "data d.txt name"),
    ("name: a reserved word", [("d.toml", "sum = 1")], "data d.toml name"),
    ("name: of a csv file", [("1d.csv", "1,2\n")], "data 1d.csv name"),
    ("name: behind a slash", [("a/b/d-e.csv", "1,2\n")], "data d-e.csv name"),
    ("toml: an open bracket", [("d.toml", "d = [3,")], "data d.toml toml"),
    ("toml: a key twice", [("d.toml", "d = 1\nd = 2\n")], "data d.toml toml"),
    ("toml: a number outside 64 bits", [("d.toml", "d = 9223372036854775808\n")], "data d.toml toml"),
    ("csv: records of different lengths", [("d.csv", "1,2\n3\n")], "data d.csv csv"),
    ("shape: a word in a list", [("d.toml", 'd = [3, "a"]')], "data d.toml shape"),
    ("shape: a fraction", [("d.toml", "d = 1.5")], "data d.toml shape"),
    ("shape: rows of different lengths", [("d.toml", "d = [[1, 2], [3]]")], "data d.toml shape"),
    ("shape: a row without members", [("d.toml", "d = [[]]")], "data d.toml shape"),
    ("shape: a field that is no number", [("d.csv", "1,a\n")], "data d.csv shape"),
    ("shape: a leading zero", [("d.csv", "01\n")], "data d.csv shape"),
    ("doubled: in two files", [("d.toml", "d = 1"), ("d.csv", "1\n")], "data d.csv doubled"),
    ("doubled: the path doesn't matter", [("d.toml", "d = 1"), ("a/d.csv", "1\n")], "data d.csv doubled"),
    ("entry: one more", [("d.toml", f"d = {OVER}")], f"limit entry {OVER} {TOP}"),
    ("entry: below", [("d.toml", f"d = [1, -{OVER}]")], f"limit entry {OVER} {TOP}"),
    ("entry: in a csv file", [("d.csv", f"1,{OVER + 5}\n")], f"limit entry {OVER + 5} {TOP}"),
    ("order: the first file that is refused", [("c.toml", "c = 1"), ("d.csv", "a\n"), ("e.toml", "e = [")], "data d.csv shape"),
]

STATUSES = {"data": 7, "limit": 8, "syntax": 6, "model": 6}


def refused(name, words, files, told):
    case(name, words, files, STATUSES[told.split(" ")[0]], "error " + told)


def data():
    for name, files, told in DATA:
        refused(name, " ".join(["solve m"] + [file for file, _ in files]), [("m", MODEL), *files], told)
    one = [("d.toml", "d = [1, 2, 3]")]
    many = [(f"f{k}.toml", f"t{k} = {k}") for k in range(65)]
    names = " ".join(file for file, _ in many)
    refused("files: 65", f"solve m {names}", [("m", MODEL)], "limit files 65 64")
    refused("files: 65, before the model", f"check m {names} l", [], "limit files 65 64")
    case("allowed: 64 files", "solve m --brief " + " ".join(file for file, _ in many[:64]), [("m", MODEL), *many[:64]], 0, "optimal 0", "last")
    refused("order: the model before its data files", "solve m e.toml", [("m", "satisfy")], "syntax 1 8")
    case("order: a data file that can't be read", "solve m e.toml d.csv", [("m", MODEL), ("d.csv", "a\n")], 10, "error read")
    refused("order: a data file before one that can't be read", "solve m d.csv e.toml", [("m", MODEL), ("d.csv", "a\n")], "data d.csv shape")
    refused("order: the data files before what the text means", "solve m d.csv", [("m", "minimise q;"), ("d.csv", "a\n")], "data d.csv shape")
    refused("order: what the text means before the log", "check m d.toml l", [("m", "minimise q;"), *one], "model 1 10 unknown")
    refused("a table's name declared again", "solve m d.toml", [("m", "var d : set 0..1; satisfy;"), *one], "model 1 5 doubled")
    refused("an index outside a table", "solve m d.toml", [("m", "var x : set 0..3; minimise x + d[3];"), *one], "model 1 34 index")
    refused("a table without its index", "solve m d.toml", [("m", "var x : set 0..3; minimise x + d;"), *one], "model 1 32 shape")
    case("allowed: a table in a row", "solve m d.toml --brief", [("m", "var x : set 0..9; post x >= d[2] + d[0]; minimise x;"), *one], 0, "optimal 4", "last")
    case("allowed: a csv file", "solve m a/c.csv --brief", [("m", "index R = 0..1; var x : set 0..9; post x >= sum(c[i, 1] for i in R); minimise x;"), ("a/c.csv", '1,"2"\r\n\r\n3,4')], 0, "optimal 6", "last")
    case("allowed: an option among the files", "solve m --brief d.toml", [("m", "var x : set 0..9; minimise x + d[1];"), *one], 0, "optimal 2", "last")
    case("allowed: a file behind --", "solve -- m d.toml", [("m", "var x : set 0..9; minimise x + d[1];"), *one], 0, "verdict optimal 2", "last")
    case("usage: an option behind --", "check -- m --brief", [("m", MODEL)], 10, "error read")
    case("usage: an option twice", "solve m --brief --brief", [("m", MODEL)], 5, "error usage")
    case("usage: a value of --brief", "solve m --brief=1", [("m", MODEL)], 5, "error usage")
    case("usage: --brief with check", "check m l --brief", [("m", MODEL)], 5, "error usage")
    case("usage: an unknown option", "solve m --nodes 5", [("m", MODEL)], 5, "error usage")


{"texts": texts, "data": data}[sys.argv[1]]()
