#!/usr/bin/env python3
"""Writes crates/rows/data/forms.rows, a small model for each form of the language, and with --page the part of docs/LANGUAGE.md that
shows them; what is put was worked out by hand, and only the last line where several solutions are best.

usage: form_rows.py [--page]
"""
import sys

FORMS = [
    ("index sets, families and sums", "index I = 1..3; var x[I] : set 0..4; post sum(x[i] for i in I) >= 10; minimise sum(i*x[i] for i in I);",
     ["x[1] = 4", "x[2] = 4", "x[3] = 2", "optimal 18"], "One variable for each member; a sum adds over its tuples."),
    ("a set of listed values", "var x : set {2, 3, 5, 7}; post x >= 4; minimise x;", ["x = 5", "optimal 5"], "The values are those of the list alone."),
    ("int", "var u : int -5..1000000; post 3*u >= 10; minimise u;", ["u = 4", "optimal 4"], "All whole numbers between two ends, which may lie far apart."),
    ("forall with a test", "index J = 0..2; var x[J] : set 0..4; post forall i in J, j in J if i < j : x[j] - x[i] >= 1; minimise x[2];",
     ["x[0] = 0", "x[1] = 1", "x[2] = 2", "optimal 2"], "The row stands at each tuple that passes the test."),
    ("maximise", "var x : set 0..9; post 2*x <= 11; maximise 3*x - 1;", ["x = 5", "optimal 14"], "The greatest value."),
    ("logic", "var a : set 0..1; var b : set 0..1; post logic [a = 1] or [b = 1]; post logic [a = 1] implies not [b = 1]; minimise a;",
     ["a = 0", "b = 1", "optimal 0"], "The formula holds."),
    ("any", "index I = 0..2; var p[I] : set 0..1; post logic any([p[i] = 1] for i in I); minimise sum(p[i] for i in I);", ["optimal 1"], "`or` over tuples, as `all` is `and`."),
    ("when", "var a : set 0..1; var x : set 0..9; post when [a = 1] then x >= 7; post a >= 1; minimise x;", ["a = 1", "x = 7", "optimal 7"], "Where all its literals are true, the row holds."),
    ("alldiff", "index I = 0..2; var x[I] : set 0..2; post alldiff(x[i] for i in I); post x[0] >= 2; minimise x[1];",
     ["x[0] = 2", "x[1] = 0", "x[2] = 1", "optimal 0"], "The values at different places differ."),
    ("element", "var i : set 0..3; var z : int 0..99; post element(i, [7, 3, 9, 5], z); minimise z;", ["i = 1", "z = 3", "optimal 3"], "z is the entry of number i, from 0."),
    ("indexsum", "index J = 0..1; var a[J] : set 0..2; var z : int 0..99; post indexsum(z; a[j] : [4 + j, 2, 6] for j in J); minimise z;",
     ["a[0] = 1", "a[1] = 1", "z = 4", "optimal 4"], "Each variable picks a member of its table, and z is their sum."),
    ("assign", "index J = 0..1; var a[J] : set 0..2; var z : int 0..99; post assign(z; a[j] : [4 + j, 2, 6] for j in J); minimise z;",
     ["a[0] = 0", "a[1] = 1", "z = 6", "optimal 6"], "The same, and no two pick at one place."),
    ("cumulative", "index J = 0..2; var s[J] : set 0..9; var m : int 0..20; post cumulative(2; s[j], 3, 1 for j in J); post forall j in J : m - s[j] >= 3; minimise m;",
     ["optimal 6"], "What runs at a time demands at most the capacity."),
    ("disjunctive", "index J = 0..2; var s[J] : set 0..9; var m : int 0..20; post disjunctive(s[j], j + 1 for j in J); post forall j in J : m - s[j] >= j + 1; minimise m;",
     ["optimal 6"], "One task runs at a time."),
    ("packing", "index J = 0..2; var g[J] : set 0..1; var z : int 0..99; post packing(z; [5, 9]; [1, 10]; g[j], 3, [0, 0] for j in J); minimise z;",
     ["g[0] = 1", "g[1] = 1", "g[2] = 1", "z = 10", "optimal 10"], "Each item goes into a group, within its capacity; z is what it costs to open the groups and to put the items there."),
    ("circuit", "index N = 0..2; var x[N] : set 0..2; post circuit(x[i] for i in N); post x[0] >= 2; satisfy;",
     ["x[0] = 2", "x[1] = 0", "x[2] = 1", "satisfied"], "From node 0 on each variable names the next node, until all were met."),
    ("tags", "var x : set 0..5; var y : set 0..5; post x + y >= 7 infer none relax none; minimise 2*x + 3*y;", ["x = 5", "y = 2", "optimal 16"],
     "They say how a constraint is worked on, and change nothing that it means."),
]


def row(name, text, put):
    key, end = ("last", "") if len(put) == 1 else ("out", "  | \n")
    lines = "".join(f"  | {line}\n" for line in put)
    return f"case form: {name}\nwords solve m --brief\nfile m\n  | {text}\naside_room 10000000\nstatus 0\n{key}\n{lines}{end}"


def section(name, text, put, meaning):
    lines = "\n".join(f"    {line}" for line in ([] if len(put) > 1 else [".."]) + put)
    return f"**{name}.** {meaning}\n\n    {text}\n\nputs\n\n{lines}\n"


def main():
    if "--page" in sys.argv:
        print("\n".join(section(*form) for form in FORMS))
    else:
        print("\n".join(row(*form[:3]) for form in FORMS), end="")


main()
