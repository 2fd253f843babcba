#!/usr/bin/env python3
"""Writes crates/sm_meaning/proofs/Rows.antt: small model texts as trees, and what is refused of them or comes of them, each
to be shown by computing. The texts and what is expected of them stand in ROWS, by hand from the language.

    python3 bench/meaning_rows.py
    python3 bench/meaning_rows.py --drawn COUNT [SEED]

The second writes rows of drawn texts in their place, of which bench/expand_text.py says what is expected; `rt check sm_meaning`
then compares the two. The first brings the rows by hand back.
"""
import subprocess
import sys

import drawn_texts
import model_text

# A text; its tables, each a number, a list or a list of lists; and what is expected: 'refused LINE COLUMN Word', 'limit Word
# FOUND BOUND', 'posts N', 'variables N', or 'coefficients POST c0 c1 .. constant'.
ROWS = [
    ("satisfy;", {}, "posts 0"),
    ("minimise q;", {}, "refused 1 10 Unknown"),
    ("var x : real 0..1; post alldiff(x); satisfy;", {}, "refused 1 33 Kind"),
    ("var x : int 0..1; post x*x >= 0; satisfy;", {}, "refused 1 24 Linear"),
    ("var x : set 0..1; post 2147483648*x >= 0; satisfy;", {}, "posts 1"),
    ("var x : set 0..1; post 2147483649*x >= 0; satisfy;", {}, "limit Coefficient 2147483649 2147483648"),
    ("var x : set 0..4096; satisfy;", {}, "limit Width 4097 4096"),
    ("index I = 0..65536; satisfy;", {}, "limit Size 65537 65536"),
    ("index I = 0..999999999999999999*10; satisfy;", {}, "limit Value 9999999999999999990 4611686018427387904"),
    ("index I = 0..4096; var x[I] : set 0..0; satisfy;", {}, "limit Variables 4097 4096"),
    ("var s : set 0..4095; post cumulative(1; s, 65536, 1); satisfy;", {}, "limit Horizon 69631 65536"),
    ("var x : set 0..0; var z : int 0..1; post packing(z; [16385]; [0]; x, 1, [0]); minimise z;", {}, "limit Capacity 16385 16384"),
    ("var x : set 0..1; post x >= 0 branch 1000001; satisfy;", {}, "limit Branch 1000001 1000000"),
    ("index J = 0..2; var x[J] : set 0..4; post forall i in J, j in J if i < j : x[j] - x[i] >= d[i]; minimise x[2];", {"d": [1, 2, 0]}, "posts 3"),
    ("index J = 0..2; var x[J] : set 0..4; post forall i in J, j in J if i < j : x[j] - x[i] >= d[i]; minimise x[2];", {"d": [1, 2, 0]}, "coefficients 1 -1 0 1 -1"),
    # where each refusal comes
    ("var x : set 0..1; var x : set 0..1; satisfy;", {}, "refused 1 23 Doubled"),
    ("index d = 0..1; satisfy;", {"d": 3}, "refused 1 7 Doubled"),
    ("index N = 0..1; var x : set 0..1; post forall x in N : 1 >= 0; satisfy;", {}, "refused 1 47 Doubled"),
    ("index N = 0..1; post forall i in N, i in N : 1 >= 0; satisfy;", {}, "refused 1 37 Doubled"),
    ("index N = 0..1; post forall i in N, j in i : 1 >= 0; satisfy;", {}, "refused 1 42 Shape"),
    ("index N = 0..1; post forall i in M : 1 >= 0; satisfy;", {}, "refused 1 34 Unknown"),
    ("index N = 0..1; post N >= 0; satisfy;", {}, "refused 1 22 Shape"),
    ("index N = 0..1; var x[N] : set 0..1; post x >= 0; satisfy;", {}, "refused 1 43 Shape"),
    ("index N = 0..1; var x[N] : set 0..1; post x[0, 1] >= 0; satisfy;", {}, "refused 1 43 Shape"),
    ("index N = 0..1; var x[N] : set 0..1; post x[2] >= 0; satisfy;", {}, "refused 1 45 Index"),
    ("index N = 1..2; var x[N] : set 0..1; post x[2] - x[1] >= 0; satisfy;", {}, "coefficients 0 -1 1 0"),
    ("index N = 0..1; var x[N] : set 0..1; post x[x[0]] >= 0; satisfy;", {}, "refused 1 45 Whole"),
    ("var x : set 0..1; post x >= d[3]; satisfy;", {"d": [1, 2, 0]}, "refused 1 31 Index"),
    ("var x : set 0..1; post x >= d[1, 0]; satisfy;", {"d": [[1, 2], [3, 4]]}, "coefficients 0 1 -3"),
    ("var x : set 0..1; post 0*x*x >= 0; satisfy;", {}, "refused 1 24 Linear"),
    ("var x : set 0..1; post (0*x)*x >= 0; satisfy;", {}, "coefficients 0 0 0"),
    ("var x : set 0..1; post 2*(3 - x)*4 >= x; satisfy;", {}, "coefficients 0 -9 24"),
    ("var a : set 0..1; var b : set 0..1; var c : set 0..1; post a - (b - c) >= 0; satisfy;", {}, "coefficients 0 1 -1 1 0"),
    ("var y : real 0..1; var x : set 0..1; post logic [y - y + x <= 1]; satisfy;", {}, "posts 1"),
    ("var x : set 0..1; post logic [2*x <= 1]; satisfy;", {}, "refused 1 31 Variable"),
    ("var x : set 0..1; post logic [x <= x]; satisfy;", {}, "refused 1 36 Whole"),
    ("var y : real 0..1; post logic [y <= 1]; satisfy;", {}, "refused 1 32 Kind"),
    ("var x : int 0..1; post circuit(x); satisfy;", {}, "refused 1 32 Kind"),
    ("var x : set 1..0; satisfy;", {}, "refused 1 9 Value"),
    ("var s : set 0..1; post disjunctive(s, 0 - 1); satisfy;", {}, "refused 1 39 Value"),
    ("var x : set 0..0; var z : int 0..1; post packing(z; [1, 1]; [0]; x, 1, [0]); minimise z;", {}, "refused 1 62 Value"),
    ("var x : set 0..0; var z : int 0..1; post packing(z; [1]; [0]; x, 1, [0, 0]); minimise z;", {}, "refused 1 70 Value"),
    ("index N = 0..1; var x[N, N, N, N] : set 0..1; satisfy;", {}, "refused 1 21 Shape"),
    ("index N = 0..2; index M = 1..3; var x[N, M] : set {5, 1, 5}; satisfy;", {}, "variables 9"),
    ("var x : set 0..1; post x >= 0 infer full infer full; satisfy;", {}, "refused 1 42 Doubled"),
    ("var x : set 0..1; post x >= 0 sub 0 - 1; satisfy;", {}, "refused 1 35 Value"),
    ("var y : real 0..1; post y >= 0 sub 1; post y <= 1; satisfy;", {}, "refused 1 5 Benders"),
    ("index N = 1..0; var x : set 0..1; post forall i in N : q >= 0; post logic all([x = 0] for i in N); satisfy;", {}, "posts 1"),
    ("var x : set 0..1; post x >= 2147483649; satisfy;", {}, "limit Bound 2147483649 2147483648"),
    ("index I = 1..2; var p[I] : set 0..1; post logic any([p[i] = 0] and [p[i] = 1] for i in I); satisfy;", {}, "posts 1"),
    # formulas, sums and kinds
    ("index I = 1..12; var p[I] : set 0..1; post logic any([p[i] = 0] and [p[i] = 1] for i in I) relax none; satisfy;", {}, "posts 1"),
    ("index I = 1..13; var p[I] : set 0..1; post logic any([p[i] = 0] and [p[i] = 1] for i in I) relax none; satisfy;", {}, "limit Clauses 8192 4096"),
    ("var p : set 0..1; post logic not ([p = 0] or [p = 2147483649]); satisfy;", {}, "limit Bound 2147483649 2147483648"),
    ("var p : set 0..1; post logic [p = 0] implies [q = 0]; satisfy;", {}, "refused 1 47 Unknown"),
    ("var s : set 0..1; var y : real 0..1; post cumulative(1; s, 1, 1 when [y = 1]); satisfy;", {}, "refused 1 71 Kind"),
    ("index N = 0..2; var x[N] : set 0..1; post sum(x[i] + sum(x[j] for j in N if j < i) for i in N) >= 0; satisfy;", {}, "coefficients 0 3 2 1 0"),
    ("index N = 0..2; var x[N] : set 0..1; post -x[2] + 3 - sum(i*x[i] for i in N if i != 1 and 2 > 1) <= 4 - x[0]; satisfy;", {}, "coefficients 0 1 0 -3 -1"),
    ("index N = 0..1; var x[N] : set 0..1; post forall i in N : when [x[i] = 1], [x[0] <= 0] then x[1] >= 2*i; satisfy;", {}, "coefficients 1 0 1 -2"),
    ("var x : set 0..1; var z : int 0..9; post element(x, [7, z, 2147483649], z); satisfy;", {}, "limit Entry 2147483649 2147483648"),
    ("var x : set 0..1; var z : int 0..9; post element(z, [7], z); satisfy;", {}, "refused 1 50 Kind"),
    ("var x : set 0..1; var z : int 0..9; post element(x, [7, 2*z], z); satisfy;", {}, "refused 1 57 Variable"),
    ("var x : set 0..1; var z : int 0..9; post indexsum(z; x : [1, z]); satisfy;", {}, "refused 1 62 Whole"),
    ("var x : set 0..1; minimise 2147483649*x; ", {}, "limit Coefficient 2147483649 2147483648"),
    ("var y : real 0..1; minimise y then maximise y;", {}, "refused 1 29 Kind"),
    ("var x : set 0..1; minimise x then maximise x then minimise x then minimise x then minimise x;", {}, "limit Objectives 5 4"),
]


def text_of(text):
    return f'(codes "{text}")'


def at(place):
    return f"(at {place[0]} {place[1]})"


def listed(parts, show):
    shown = ""
    for part in parts:
        shown += f"{show(part)} ∷ "
    return f"({shown}[])"


def linked(parts, show, cons, nil):
    shown = nil
    for part in reversed(parts):
        shown = f"({cons} {show(part)} {shown})"
    return shown


def option(part, show):
    return "None" if part is None else f"(Some {show(part)})"


def name(n):
    return f"(name_at {n[1][0]} {n[1][1]} {text_of(n[2])})"


def number(n):
    return f"(number_at {n[1][0]} {n[1][1]} {n[2]})"


SIGNS = {"+": "sign.Plus", "-": "sign.Minus"}
RELATIONS = {"<": "relation.Less", "<=": "relation.AtMost", ">": "relation.Greater", ">=": "relation.AtLeast", "=": "relation.Equal", "!=": "relation.Unequal"}
TESTS = {"<=": "test.AtMost", ">=": "test.AtLeast", "=": "test.Equal", "!=": "test.Unequal"}
COMPARES = {"<=": "cmp.AtMost", ">=": "cmp.AtLeast", "=": "cmp.Equal"}


def expr(e):
    _, place, negated, first, more = e
    return f"(x.expression {at(place)} {str(negated).lower()} {term(first)} {linked(more, lambda a: f'{SIGNS[a[0]]} {term(a[1])}', 'x.addend', 'x.no_addends')})"


def term(t):
    _, place, first, more = t
    return f"(x.product {at(place)} {factor(first)} {linked(more, factor, 'x.times', 'x.no_operands')})"


def factor(f):
    if f[0] == "number":
        return f"(x.number {at(f[1])} {number(f[2])})"
    if f[0] == "group":
        return f"(x.group {at(f[1])} {expr(f[2])})"
    if f[0] == "sum":
        return f"(x.sum {at(f[1])} {expr(f[2])} {binders(f[3])})"
    return f"(x.named {at(f[1])} {name(f[2])} {linked(f[3], expr, 'x.another', 'x.no_expressions')})"


def bind(b):
    return f"(bind_at {at(b[1])} {name(b[2])} {name(b[3])})"


def binders(b):
    _, place, first, more, tests = b
    return f"(x.binding {at(place)} {bind(first)} {listed(more, bind)} {linked(tests, test, 'x.besides', 'x.no_comparisons')})"


def test(t):
    return f"(x.comparison {at(t[1])} {expr(t[2])} {RELATIONS[t[3]]} {expr(t[4])})"


def lit(l):
    return f"(x.a_literal {at(l[1])} {expr(l[2])} {TESTS[l[3]]} {expr(l[4])})"


def formula(f):
    _, place, left, ending, right = f
    behind = {None: "f.nothing", "implies": "f.implied", "iff": "f.equivalent"}[ending]
    shown = behind if right is None else f"({behind} {disj(right)})"
    return f"(f.statement {at(place)} {disj(left)} {shown})"


def disj(d):
    return f"(f.disjunction {at(d[1])} {conj(d[2])} {linked(d[3], conj, 'f.or_else', 'f.no_conjunctions')})"


def conj(c):
    return f"(f.conjunction {at(c[1])} {unit(c[2])} {linked(c[3], unit, 'f.and_also', 'f.no_claims')})"


def unit(u):
    if u[0] == "not":
        return f"(f.negation {at(u[1])} {unit(u[2])})"
    if u[0] == "group":
        return f"(f.group {at(u[1])} {formula(u[2])})"
    if u[0] == "quantified":
        return f"(f.quantified {at(u[1])} quantifier.{u[2].capitalize()} {formula(u[3])} {binders(u[4])})"
    return f"(f.literal {at(u[1])} {lit(u[2])})"


def list_(l):
    return f"(t.listing {at(l[1])} {expr(l[2])} {listed(l[3], expr)} {option(l[4], binders)})"


def cmp(c):
    return f"({COMPARES[c[0]]} {at(c[1])})"


def choice(c):
    return f"(t.choice {at(c[1])} {expr(c[2])} {list_(c[3])} {option(c[4], binders)})"


def ctask(c):
    return f"(t.ctask {at(c[1])} {expr(c[2])} {expr(c[3])} {expr(c[4])} {option(c[5], lit)} {option(c[6], binders)})"


def dtask(c):
    return f"(t.dtask {at(c[1])} {expr(c[2])} {expr(c[3])} {option(c[4], lit)} {option(c[5], binders)})"


def load(l):
    return f"(t.load {at(l[1])} {expr(l[2])} {expr(l[3])} {list_(l[4])} {option(l[5], binders)})"


def cons(c):
    word, place = c[0], at(c[1])
    if word == "linear":
        return f"(t.linear {place} {expr(c[2])} {cmp(c[3])} {expr(c[4])})"
    if word == "logic":
        return f"(t.logic {place} {formula(c[2])})"
    if word == "when":
        return f"(t.conditional {place} {lit(c[2])} {listed(c[3], lit)} {expr(c[4])} {cmp(c[5])} {expr(c[6])})"
    if word in ("alldiff", "circuit"):
        return f"(t.{word} {place} {list_(c[2])})"
    if word == "element":
        return f"(t.element {place} {expr(c[2])} {list_(c[3])} {expr(c[4])})"
    if word == "chosen":
        return f"(t.chosen {place} choosing.{c[2].capitalize()} {expr(c[3])} {listed(c[4], choice)})"
    if word == "cumulative":
        return f"(t.cumulative {place} {expr(c[2])} {listed(c[3], ctask)})"
    if word == "disjunctive":
        return f"(t.disjunctive {place} {dtask(c[2])} {listed(c[3], dtask)})"
    return f"(t.packing {place} {expr(c[2])} {list_(c[3])} {list_(c[4])} {listed(c[5], load)})"


def tag(g):
    word, place, value = g
    if word == "branch":
        return f"(t.branch {at(place)} {number(value)})"
    if word == "sub":
        return f"(t.sub {at(place)} {expr(value)})"
    kinds = {"infer": "level", "relax": "relaxing", "pick": "picking", "split": "splitting"}
    return f"(t.{word} {at(place)} {kinds[word]}.{value.capitalize()})"


def kind(k):
    word, place = k[0], at(k[1])
    if word == "set":
        values = k[2]
        shown = f"(t.range {expr(values[1])} {expr(values[2])})" if values[0] == "range" else f"(t.listed {expr(values[1])} {listed(values[2], expr)})"
        return f"(t.set_kind {place} {shown})"
    return f"(t.{word}_kind {place} {expr(k[2])} {expr(k[3])})"


def item(i):
    word, place = i[0], at(i[1])
    if word == "index":
        return f"(t.index_item {place} {name(i[2])} {expr(i[3])} {expr(i[4])})"
    if word == "var":
        return f"(t.var_item {place} {name(i[2])} {listed(i[3], name)} {kind(i[4])})"
    return f"(t.post_item {place} {option(i[2], binders)} {cons(i[3])} {listed(i[4], tag)})"


def aim(a):
    return f"(t.{a[0]} {at(a[1])} {expr(a[2])})"


def goal(g):
    if g[0] == "satisfy":
        return f"(t.satisfy {at(g[1])})"
    return f"(t.aims {at(g[1])} {aim(g[2])} {listed(g[3], aim)})"


def tree(t):
    return f"(t.tree {at(t[1])} {listed(t[2], item)} {goal(t[3])})"


def whole(z):
    return f"(pos {z})" if z >= 0 else f"(negsuc {-z - 1})"


def tables(named):
    def table(value):
        if isinstance(value, int):
            return f"table.Number {whole(value)}"
        if value and isinstance(value[0], list):
            return f"table.Grid {listed(value, lambda row: listed(row, whole))}"
        return f"table.List {listed(value, whole)}"

    return listed(named.items(), lambda e: f"({text_of(e[0])}, {table(e[1])})")


HEAD = """-- The definitions on small texts. Written by bench/meaning_rows.py: what is expected is by hand.
use Rattle.std.proofs.Common.{◌≡◌, refl, codes, ℕ, List, [], ◌∷◌, length, slice_get, true, false, pos, negsuc, Some, None}
use Rattle.sm_syntax.specs.declared.place.Place.{Place}
use Rattle.sm_syntax.specs.declared.tree.Name.{Name}
use Rattle.sm_syntax.specs.declared.tree.Number.{Number}
use Rattle.sm_syntax.specs.declared.tree.Bind.{Bind}
use Rattle.sm_syntax.specs.declared.tree.Sign.TheVariants as sign
use Rattle.sm_syntax.specs.declared.tree.Relation.TheVariants as relation
use Rattle.sm_syntax.specs.declared.tree.LitRelation.TheVariants as test
use Rattle.sm_syntax.specs.declared.tree.Cmp.TheVariants as cmp
use Rattle.sm_syntax.specs.declared.tree.Choosing.TheVariants as choosing
use Rattle.sm_syntax.specs.declared.tree.Level.TheVariants as level
use Rattle.sm_syntax.specs.declared.tree.Relaxing.TheVariants as relaxing
use Rattle.sm_syntax.specs.declared.tree.Picking.TheVariants as picking
use Rattle.sm_syntax.specs.declared.tree.Splitting.TheVariants as splitting
use Rattle.sm_syntax.specs.declared.formula.Quantifier.TheVariants as quantifier
use Rattle.sm_syntax.specs.Expressions as x
use Rattle.sm_syntax.specs.Formulas as f
use Rattle.sm_syntax.specs.Trees as t
use Rattle.sm_data.specs.declared.table.Table.TheVariants as table
use Rattle.sm_data.specs.declared.refusal.Counted.TheVariants as counted
use Rattle.sm_data.specs.Documents.{Entry}
use Rattle.sm_forms.specs.Meanings.{coefficient, constant_of}
use Rattle.sm_meaning.specs.declared.refusal.Wrong.TheVariants as wrong
use Rattle.sm_meaning.specs.declared.refusal.ExpandRefusal.TheVariants.{Meaning, Limit}
use Rattle.sm_meaning.specs.Demands.{Demand, row}
use Rattle.sm_meaning.specs.Expansions.{Expansion, Post}
use Rattle.sm_meaning.specs.Models.{expansion_of, refusal_in}
use Rattle.sm_meaning.proofs.RowParts.{at, name_at, number_at, bind_at, numbers_of_row}
"""

PARTS = """-- Short words for the rows.
use Rattle.std.specs.Prelude.{ℕ, zero, suc, List, [], ◌∷◌, ◌++◌, ℤ, Option, Some, None, slice_get}
use Rattle.sm_syntax.specs.declared.place.Place.{Place}
use Rattle.sm_syntax.specs.declared.tree.Name.{Name}
use Rattle.sm_syntax.specs.declared.tree.Number.{Number}
use Rattle.sm_syntax.specs.declared.tree.Bind.{Bind}
use Rattle.sm_forms.specs.Meanings.{Meaning, coefficient, constant_of}
use Rattle.sm_meaning.specs.Demands.{Demand, row, formula, row_when, kind}
use Rattle.sm_meaning.specs.Expansions.{Expansion, Post}

abbrev pub at : ℕ → ℕ → Place
at line column = record { line = line; column = column }

abbrev pub name_at : ℕ → ℕ → List ℕ → Name
name_at line column text = record { place = at line column; text = text }

abbrev pub number_at : ℕ → ℕ → ℕ → Number
number_at line column value = record { place = at line column; value = value }

abbrev pub bind_at : Place → Name → Name → Bind
bind_at p name set = record { place = p; name = name; set = set }

-- the first k coefficients
abbrev pub coefficients_of : ℕ → Meaning → List ℤ
coefficients_of zero g = []
coefficients_of (suc k) g = coefficients_of k g ++ coefficient g k ∷ []

-- the first k coefficients of a row, and its constant
abbrev pub numbers_of_row : ℕ → Option Post → List ℤ
numbers_of_row k None = []
numbers_of_row k (Some p) = numbers_of_demand k p.demand

abbrev pub numbers_of_demand : ℕ → Demand → List ℤ
numbers_of_demand k (row c g) = coefficients_of k g ++ constant_of g ∷ []
numbers_of_demand k (row_when ls c g) = coefficients_of k g ++ constant_of g ∷ []
numbers_of_demand k (formula q) = []
numbers_of_demand k (kind f) = []
"""


def expected(number_, words, shown, named):
    whole_text = f"row_{number_} {named}"
    if words[0] == "refused":
        return f"refusal_in row_{number_} {named} ≡ Some (Meaning {words[1]} {words[2]} wrong.{words[3]})"
    if words[0] == "limit":
        return f"refusal_in row_{number_} {named} ≡ Some (Limit counted.{words[1]} (pos {words[2]}) (pos {words[3]}))"
    if words[0] == "coefficients":
        numbers = listed([int(w) for w in words[2:]], whole)
        return f"numbers_of_row {len(words) - 3} (slice_get (expansion_of {whole_text}).posts {words[1]}) ≡ {numbers}"
    return f"length (expansion_of {whole_text}).{words[0]} ≡ {words[1]}"


def main():
    drawn = sys.argv[1:2] == ["--drawn"]
    rows = drawn_texts.rows(int(sys.argv[2]), int(sys.argv[3]) if len(sys.argv) > 3 else 7) if drawn else ROWS
    out = [HEAD]
    for k, (text, named, want) in enumerate(rows):
        words = want.split()
        shown = tables(named)
        out.append(f"-- {text}" + (f"   with {named}" if named else ""))
        out.append(f"abbrev row_{k} : t.Tree\nrow_{k} = {tree(model_text.read(text))[1:-1]}\n")
        if words[0] not in ("refused", "limit"):
            out.append(f"accepted_{k} : refusal_in row_{k} {shown} ≡ None\naccepted_{k} = refl\n")
        out.append(f"shown_{k} : {expected(k, words, shown, shown)}\nshown_{k} = refl\n")
    with open("crates/sm_meaning/proofs/Rows.antt", "w") as f:
        f.write("\n".join(out).replace("slice_get (", "slice_get (").rstrip() + "\n")
    with open("crates/sm_meaning/proofs/RowParts.antt", "w") as f:
        parts = PARTS
        a, b = parts.index("-- the first k coefficients of a row"), parts.index("abbrev pub numbers_of_demand")
        f.write(parts[:a] + parts[b:] + "\n" + parts[a:b].rstrip() + "\n")
    with open("crates/sm_meaning/proofs/Lib.antt", "w") as f:
        f.write("pub mod RowParts\npub mod Rows\npub mod Steps\n")
    subprocess.run(["rt", "fmt"], cwd="crates/sm_meaning", check=True, stdout=subprocess.DEVNULL)


main()
