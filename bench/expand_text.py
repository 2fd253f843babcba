"""Expands a model text with tables to what it means, by the rules of docs/LANGUAGE.md alone: a second view on the definitions
of sm_meaning and on the crates that stand on them. Of a text that is refused the first refusal is raised.

    python3 bench/expand_text.py MODEL [NAME=TABLE ..]      TABLE in JSON
"""
import json
import sys

import model_text

SMALL = 2**31
LIMITS = dict(Size=65536, Tuples=67108864, Value=2**62, Coefficient=SMALL, Bound=SMALL, Entry=SMALL, Variables=4096, Width=4096,
              Widths=262144, Constraints=16384, Terms=1024, Members=4096, Total=4194304, Clauses=4096, Tasks=256, Horizon=65536,
              Items=256, Groups=64, Capacity=16384, Reals=400, Realrows=400, Branch=1000000, Sub=4095, Objectives=4)


class Refused(Exception):
    """What is wrong at a place, or what is over its limit."""


def wrong(place, word):
    return Refused(f"refused {place[0]} {place[1]} {word}")


def over(word, found, bound=None):
    return Refused(f"limit {word} {found} {LIMITS[word] if bound is None else bound}")


def number_limit(word, number):
    if abs(number) > LIMITS[word]:
        raise over(word, abs(number))


def count_limit(word, count, bound=None):
    bound = LIMITS[word] if bound is None else bound
    if count > bound:
        raise over(word, bound + 1, bound)


class Form:
    """A linear form: coefficients by variable, none of them 0, and a constant."""

    def __init__(self, terms=None, constant=0):
        self.terms, self.constant = {v: c for v, c in sorted((terms or {}).items()) if c}, constant

    def tried(self):
        for number in [*self.terms.values(), self.constant]:
            if abs(number) > LIMITS["Value"]:
                raise over("Value", abs(number))
        return self

    def plus(self, by, other):
        terms = dict(self.terms)
        for v, c in other.terms.items():
            terms[v] = terms.get(v, 0) + by * c
        return Form(terms, self.constant + by * other.constant).tried()

    def single(self):
        if self.constant == 0 and list(self.terms.values()) == [1]:
            return next(iter(self.terms))
        return None


def clauses(formula, negated=False):
    """The clauses of a formula of ('lit', literal), ('not', f), ('and', fs) and ('or', fs), counted alone."""
    kind = formula[0]
    if kind == "lit":
        return 1, 1
    if kind == "not":
        return clauses(formula[1], not negated)
    parts = [clauses(part, negated) for part in formula[1]]
    if (kind == "and") != negated:
        return sum(c for c, _ in parts), sum(size for _, size in parts)
    count, size = 1, 0
    for c, n in parts:
        count, size = count * c, size * c + n * count
    return count, size


class Expansion:
    def __init__(self, tree, tables):
        self.names = {name: ("table", table) for name, table in tables.items()}
        self.variables, self.posts, self.goals, self.visited = [], [], [], 0
        for item in tree[2]:
            {"index": self.index, "var": self.var, "post": self.post}[item[0]](item)
        self.goal(tree[3])
        self.benders()

    # ---- expressions

    def expr(self, e, bound):
        _, _, negated, first, more = e
        form = self.term(first, bound)
        if negated:
            form = Form({v: -c for v, c in form.terms.items()}, -form.constant)
        for sign, term in more:
            form = form.plus(1 if sign == "+" else -1, self.term(term, bound))
        return form

    def term(self, t, bound):
        _, place, first, more = t
        factors = [self.factor(f, bound) for f in [first, *more]]
        if sum(1 for f in factors if f.terms) > 1:
            raise wrong(place, "Linear")
        product = factors[0]
        for f in factors[1:]:
            if f.terms:
                product, f = f, product
            product = Form({v: c * f.constant for v, c in product.terms.items()}, product.constant * f.constant).tried()
        return product

    def factor(self, f, bound):
        if f[0] == "number":
            return Form(constant=f[2][2])
        if f[0] == "group":
            return self.expr(f[2], bound)
        if f[0] == "sum":
            total = Form()
            for tuple_ in self.cases(f[3], bound):
                total = total.plus(1, self.expr(f[2], tuple_))
            return total
        return self.named(f, bound)

    def named(self, f, bound):
        _, place, (_, _, name), indices = f
        if name not in bound and name not in self.names:
            raise wrong(place, "Unknown")
        numbers = [self.whole(i, bound) for i in indices]
        if name in bound:
            kind, ranges = "number", []
        else:
            kind, value = self.names[name]
            if kind == "set":
                raise wrong(place, "Shape")
            ranges = {"variable": lambda: [], "family": lambda: value[1], "table": lambda: table_ranges(value)}[kind]()
        if len(numbers) != len(ranges):
            raise wrong(place, "Shape")
        for number, (least, greatest), part in zip(numbers, ranges, indices):
            if not least <= number <= greatest:
                raise wrong(part[1], "Index")
        if kind == "number":
            return Form(constant=bound[name])
        if kind == "table":
            for number in numbers:
                value = value[number]
            return Form(constant=value)
        return Form({value if kind == "variable" else value[0] + rank(value[1], numbers): 1})

    def whole(self, e, bound):
        form = self.expr(e, bound)
        if form.terms:
            raise wrong(e[1], "Whole")
        return form.constant

    def amount(self, e, bound):
        number = self.whole(e, bound)
        if number < 0:
            raise wrong(e[1], "Value")
        return number

    def single(self, e, bound, kinds):
        variable = self.expr(e, bound).single()
        if variable is None:
            raise wrong(e[1], "Variable")
        if self.variables[variable]["kind"] not in kinds:
            raise wrong(e[1], "Kind")
        return variable

    def entry(self, e, bound):
        form = self.expr(e, bound)
        return ("number", form.constant) if not form.terms else ("variable", self.single_of(form, e, ("set", "int")))

    def single_of(self, form, e, kinds):
        variable = form.single()
        if variable is None:
            raise wrong(e[1], "Variable")
        if self.variables[variable]["kind"] not in kinds:
            raise wrong(e[1], "Kind")
        return variable

    # ---- tuples

    def cases(self, binders, bound):
        _, _, first, more, tests = binders
        spans, known = [], dict(bound)
        for _, _, (_, place, name), (_, set_place, set_name) in [first, *more]:
            if name in known or name in self.names:
                raise wrong(place, "Doubled")
            spans.append((name, self.set_range(set_name, set_place, known)))
            known[name] = 0
        return self.walk(spans, tests, bound)

    def walk(self, spans, tests, bound):
        for tuple_ in tuples([r for _, r in spans]):
            here = {**bound, **{name: z for (name, _), z in zip(spans, tuple_)}}
            self.visited += 1
            if self.visited > LIMITS["Tuples"]:
                raise over("Tuples", LIMITS["Tuples"] + 1)
            if all(self.passes(test, here) for test in tests):
                yield here

    def passes(self, test, bound):
        _, _, left, relation, right = test
        x, y = self.whole(left, bound), self.whole(right, bound)
        return {"<": x < y, "<=": x <= y, ">": x > y, ">=": x >= y, "=": x == y, "!=": x != y}[relation]

    def set_range(self, name, place, bound):
        if name in bound:
            raise wrong(place, "Shape")
        if name not in self.names:
            raise wrong(place, "Unknown")
        kind, value = self.names[name]
        if kind != "set":
            raise wrong(place, "Shape")
        return value

    def over(self, binders, bound):
        return [bound] if binders is None else self.cases(binders, bound)

    def list(self, l, bound, each):
        return [each(e, tuple_) for tuple_ in self.over(l[4], bound) for e in [l[2], *l[3]]]

    # ---- formulas

    def lit(self, l, bound):
        _, _, left, relation, right = l
        variable = self.single(left, bound, ("set", "int"))
        return (variable, relation, self.whole(right, bound))

    def formula(self, f, bound, literals):
        _, _, left, ending, right = f
        p = self.disj(left, bound, literals)
        if ending is None:
            return p
        q = self.disj(right, bound, literals)
        implied = lambda a, b: ("or", [("not", a), b])
        return implied(p, q) if ending == "implies" else ("and", [implied(p, q), implied(q, p)])

    def disj(self, d, bound, literals):
        parts = [self.conj(c, bound, literals) for c in [d[2], *d[3]]]
        return parts[0] if len(parts) == 1 else ("or", parts)

    def conj(self, c, bound, literals):
        parts = [self.unit(u, bound, literals) for u in [c[2], *c[3]]]
        return parts[0] if len(parts) == 1 else ("and", parts)

    def unit(self, u, bound, literals):
        if u[0] == "not":
            return ("not", self.unit(u[2], bound, literals))
        if u[0] == "group":
            return self.formula(u[2], bound, literals)
        if u[0] == "quantified":
            return ("and" if u[2] == "all" else "or", [self.formula(u[3], tuple_, literals) for tuple_ in self.cases(u[4], bound)])
        literals.append(self.lit(u[2], bound))
        return ("lit", literals[-1])

    # ---- declarations

    def declare(self, name):
        _, place, text = name
        if text in self.names:
            raise wrong(place, "Doubled")

    def index(self, item):
        _, _, name, least, greatest = item
        self.declare(name)
        ends = self.whole(least, {}), self.whole(greatest, {})
        count_limit("Size", size_of(ends))
        self.names[name[2]] = ("set", ends)

    def var(self, item):
        _, _, name, sets, kind = item
        self.declare(name)
        ranges = [self.set_range(text, place, {}) for _, place, text in sets]
        if len(sets) > 3:
            raise wrong(name[1], "Shape")
        word, place = kind[0], kind[1]
        listed = word == "set" and kind[2][0] == "listed"
        parts = [kind[2][1], *kind[2][2]] if listed else list(kind[2][1:3] if word == "set" else kind[2:4])
        numbers = [self.whole(part, {}) for part in parts]
        if not listed and numbers[0] > numbers[1]:
            raise wrong(place, "Value")
        members = 1
        for r in ranges:
            members *= size_of(r)
        for number in numbers:
            number_limit("Bound", number)
        count_limit("Variables", len(self.variables) + members)
        if word == "set" and members:
            width = max(numbers) - min(numbers) + 1
            number_limit("Width", width)
            so_far = sum(v["width"] for v in self.variables)
            for _ in range(members):
                so_far += width
                number_limit("Widths", so_far)
        if word == "real":
            count_limit("Reals", sum(v["kind"] == "real" for v in self.variables) + members)
        domain = (sorted(set(numbers)) if listed else list(range(numbers[0], numbers[1] + 1))) if word == "set" else numbers
        self.names[name[2]] = ("family", (len(self.variables), ranges)) if sets else ("variable", len(self.variables))
        for tuple_ in tuples(ranges):
            shown = name[2] + ("[" + ",".join(map(str, tuple_)) + "]" if sets else "")
            self.variables.append(dict(name=shown, kind=word, domain=domain, place=name[1], width=max(numbers) - min(numbers) + 1 if word == "set" else 0))

    # ---- constraints

    def post(self, item):
        _, _, binders, cons, tags = item
        for bound in self.over(binders, {}):
            self.constraint(cons, tags, bound)

    def row(self, left, cmp, right, bound):
        form = self.expr(left, bound).plus(-1, self.expr(right, bound))
        return dict(form=form, cmp=cmp[0])

    def task(self, t, bound, demanding):
        tasks = []
        for here in self.over(t[-1], bound):
            start, duration = self.single(t[2], here, ("set",)), self.amount(t[3], here)
            demand = self.amount(t[4], here) if demanding else 1
            tasks.append((start, duration, demand, self.lit(t[-2], here) if t[-2] else None))
        return tasks

    def parts(self, c, bound):
        word = c[0]
        if word == "linear":
            return dict(kind=word, **self.row(c[2], c[3], c[4], bound))
        if word == "logic":
            literals = []
            formula = self.formula(c[2], bound, literals)
            return dict(kind=word, formula=formula, literals=literals)
        if word == "when":
            literals = [self.lit(l, bound) for l in [c[2], *c[3]]]
            return dict(kind=word, literals=literals, **self.row(c[4], c[5], c[6], bound))
        if word in ("alldiff", "circuit"):
            return dict(kind=word, list=self.list(c[2], bound, lambda e, b: self.single(e, b, ("set",))))
        if word == "element":
            x = self.single(c[2], bound, ("set",))
            entries = self.list(c[3], bound, self.entry)
            return dict(kind=word, x=x, entries=entries, z=self.single(c[4], bound, ("set", "int")))
        if word == "chosen":
            z = self.single(c[3], bound, ("set", "int"))
            picks = [(self.single(p[2], here, ("set",)), self.list(p[3], here, self.whole)) for p in c[4] for here in self.over(p[4], bound)]
            return dict(kind=c[2], z=z, picks=picks)
        if word == "cumulative":
            return dict(kind=word, capacity=self.amount(c[2], bound), tasks=[t for part in c[3] for t in self.task(part, bound, True)])
        if word == "disjunctive":
            return dict(kind=word, tasks=[t for part in [c[2], *c[3]] for t in self.task(part, bound, False)])
        z = self.single(c[2], bound, ("set", "int"))
        capacities = self.list(c[3], bound, self.amount)
        openings = self.list(c[4], bound, self.amount)
        if len(openings) != len(capacities):
            raise wrong(c[4][2][1], "Value")
        items = []
        for load in c[5]:
            for here in self.over(load[5], bound):
                group, size = self.single(load[2], here, ("set",)), self.amount(load[3], here)
                costs = self.list(load[4], here, self.whole)
                if len(costs) != len(capacities):
                    raise wrong(load[4][2][1], "Value")
                items.append((group, size, costs))
        return dict(kind=word, z=z, capacities=capacities, openings=openings, items=items)

    def tags(self, tags, bound):
        said = dict(infer="full", relax="on", branch=100, pick="small", split="half", sub=None)
        seen = set()
        for word, place, value in tags:
            if word == "sub":
                value = self.amount(value, bound)
            if word in seen:
                raise wrong(place, "Doubled")
            seen.add(word)
            said[word] = value[2] if word == "branch" else value
        return said

    def constraint(self, c, tags, bound):
        post = self.parts(c, bound)
        post["tags"] = self.tags(tags, bound)
        kind = post["kind"]
        if "form" in post:
            for coefficient in post["form"].terms.values():
                number_limit("Coefficient", coefficient)
        presences = [[t[1], t[2], *([t[3][2]] if t[3] else [])] for t in post.get("tasks", [])]
        bounds = [post["capacity"]] if kind == "cumulative" else []
        bounds += [n for p in presences for n in p] + [l[2] for l in post.get("literals", [])]
        bounds += [post["form"].constant] if "form" in post else []
        bounds += post.get("capacities", []) + [i[1] for i in post.get("items", [])]
        for number in bounds:
            number_limit("Bound", number)
        tables = [table for _, table in post.get("picks", [])]
        entries = [e for kind_, e in post.get("entries", []) if kind_ == "number"] + [n for table in tables for n in table]
        for number in entries + post.get("openings", []) + [n for i in post.get("items", []) for n in i[2]]:
            number_limit("Entry", number)
        count_limit("Constraints", len(self.posts) + 1)
        if "form" in post:
            count_limit("Terms", len(post["form"].terms))
        count_limit("Terms", len(post.get("list", [])))
        count_limit("Terms", len(post.get("entries", [])), LIMITS["Members"])
        count_limit("Terms", len(post.get("picks", [])))
        for table in tables:
            count_limit("Terms", len(table), LIMITS["Members"])
        count, size = clauses(post["formula"]) if kind == "logic" else (0, 0)
        post["size"] = (len(post["form"].terms) if "form" in post else 0) + (len(post["literals"]) if kind == "when" else 0)
        post["size"] += (size if count <= LIMITS["Clauses"] else 0) + len(post.get("entries", [])) + sum(map(len, tables))
        post["size"] += sum(t[3] is not None for t in post.get("tasks", []))
        count_limit("Total", sum(p["size"] for p in self.posts) + post["size"])
        if count > LIMITS["Clauses"]:
            raise over("Clauses", min(count, 2**64 - 1))
        if "tasks" in post:
            count_limit("Tasks", len(post["tasks"]))
            if post["tasks"]:
                ends = [self.variables[t[0]]["domain"][-1] + t[1] for t in post["tasks"]]
                number_limit("Horizon", max(ends) - min(self.variables[t[0]]["domain"][0] for t in post["tasks"]))
        if kind == "packing":
            count_limit("Items", len(post["items"]))
            count_limit("Groups", len(post["capacities"]))
            for capacity in post["capacities"]:
                number_limit("Capacity", capacity)
        post["real"] = "form" in post and any(self.is_real(v) for v in post["form"].terms)
        count_limit("Realrows", sum(p["real"] for p in self.posts) + post["real"])
        number_limit("Branch", post["tags"]["branch"])
        if post["tags"]["sub"] is not None:
            number_limit("Sub", post["tags"]["sub"])
        self.posts.append(post)

    def is_real(self, v):
        return self.variables[v]["kind"] == "real"

    # ---- goals

    def goal(self, goal):
        if goal[0] == "satisfy":
            return
        aims = [goal[2], *goal[3]]
        for k, (sense, _, e) in enumerate(aims):
            form = self.expr(e, {})
            if k + 1 < len(aims) and any(self.is_real(v) for v in form.terms):
                raise wrong(e[1], "Kind")
            self.goals.append((sense, form))
        for _, form in self.goals:
            for coefficient in form.terms.values():
                number_limit("Coefficient", coefficient)
        for _, form in self.goals:
            number_limit("Bound", form.constant)
        count_limit("Objectives", len(self.goals))

    def benders(self):
        for v, variable in enumerate(self.variables):
            subs = [p["tags"]["sub"] for p in self.posts if "form" in p and v in p["form"].terms]
            if variable["kind"] == "real" and any(s != subs[0] for s in subs):
                raise wrong(variable["place"], "Benders")


def size_of(r):
    return max(r[1] - r[0] + 1, 0)


def tuples(ranges):
    if not ranges:
        yield ()
        return
    for z in range(ranges[0][0], ranges[0][1] + 1):
        for rest in tuples(ranges[1:]):
            yield (z, *rest)


def rank(ranges, numbers):
    before = 0
    for (least, greatest), z in zip(ranges, numbers):
        before = before * size_of((least, greatest)) + z - least
    return before


def table_ranges(table):
    if isinstance(table, int):
        return []
    if table and isinstance(table[0], list):
        return [(0, len(table) - 1), (0, len(table[0]) - 1)]
    return [(0, len(table) - 1)]


def expand(text, tables):
    """The expansion of a text, or the refusal as a line."""
    try:
        return Expansion(model_text.read(text), tables)
    except Refused as refusal:
        return str(refusal)


if __name__ == "__main__":
    with open(sys.argv[1]) as f:
        answer = expand(f.read(), {w.split("=")[0]: json.loads(w.split("=", 1)[1]) for w in sys.argv[2:]})
    print(answer if isinstance(answer, str) else [p["kind"] for p in answer.posts])
