"""Draws small model texts, and says of each what bench/expand_text.py makes of it, as rows of bench/meaning_rows.py. About half
of them are refused, for causes of all kinds."""
import random

import expand_text

TABLES = {"d": [1, 2, 0], "e": [[1, 2], [3, 4]], "t": 2}


class Drawing:
    """Draws parts of a text; `known` are the binders that are bound where a part stands."""

    def __init__(self, seed):
        self.random = random.Random(seed)

    def one_of(self, *parts):
        return self.random.choice(parts)

    def chance(self, share):
        return self.random.random() < share

    def index(self, known):
        inside = self.random.choice(known * 3 + ["0", "1", "0", "1", "2"] if known else ["0", "1", "0", "2"])
        return inside + ("" if self.chance(0.85) else self.one_of(" + 1", " - 1"))

    def member(self, family, known):
        return f"{family}[{self.index(known)}]"

    def pair(self, family, known):
        return f"{family}[{self.index(known)}, {self.index(known)}]"

    def name(self, known):
        others = [self.member("x", known)] * 2 + ["y", "z", self.member("d", known), "t", "r", self.pair("f", known), self.pair("e", known)]
        odd = ["q" if self.chance(0.15) else "y", "N" if self.chance(0.15) else "z", "x" if self.chance(0.1) else "y"]
        return self.random.choice(known * 2 + others + odd)

    def factor(self, known, depth):
        share = self.random.random()
        if share < 0.35:
            return self.one_of("0", "1", "1", "2", "2", "3", "4", "5")
        if share < 0.8 or depth <= 0:
            return self.name(known)
        if share < 0.9:
            return f"({self.expr(known, depth - 1)})"
        binders, inner = self.binders(known)
        return f"sum({self.expr(inner, depth - 1)} for {binders})"

    def term(self, known, depth):
        factors = [self.factor(known, depth)]
        for _ in range(self.one_of(0, 0, 0, 1, 1, 2)):
            factors.append(self.one_of("1", "2", "3") if self.chance(0.7) else self.factor(known, depth))
        return "*".join(factors)

    def expr(self, known, depth=2):
        text = ("-" if self.chance(0.15) else "") + self.term(known, depth)
        for _ in range(self.one_of(0, 0, 1, 1, 2)):
            text += self.one_of(" + ", " - ") + self.term(known, depth)
        return text

    def binders(self, known):
        new, binds = [], []
        for _ in range(self.one_of(1, 1, 1, 2)):
            fresh = [c for c in "ijkl" if c not in known + new]
            name = self.random.choice(fresh) if self.chance(0.95) else self.random.choice(known or ["x"])
            new.append(name)
            binds.append(f"{name} in {self.one_of('N', 'N', 'M', 'N', 'x' if self.chance(0.1) else 'M')}")
        text, inner = ", ".join(binds), known + new
        if self.chance(0.5):
            tests = []
            for _ in range(self.one_of(1, 1, 2)):
                left = self.random.choice(inner) if self.chance(0.9) else self.expr(inner, 0)
                tests.append(left + self.one_of(" < ", " <= ", " != ", " = ", " > ", " >= ") + self.random.choice(inner + ["1", "2", "0", "t"]))
            text += " if " + " and ".join(tests)
        return text, inner

    # ---- parts of constraints

    def var(self, known):
        odd = ["r" if self.chance(0.2) else "y", "2*y" if self.chance(0.15) else "y"]
        return self.one_of(*[self.member("x", known)] * 3, "y", self.pair("f", known), *odd)

    def set_var(self, known):
        return self.one_of(*[self.member("x", known)] * 5, self.pair("f", known), "z" if self.chance(0.2) else "x[0]")

    def whole(self, known):
        return self.one_of("1", "2", self.member("d", known), "t", self.pair("e", known), "3 - 1", "y" if self.chance(0.15) else "0", *known)

    def lit(self, known):
        return f"[{self.var(known)}{self.one_of(' <= ', ' >= ', ' = ', ' != ')}{self.whole(known)}]"

    def formula(self, known, depth):
        share = self.random.random()
        if depth <= 0 or share < 0.4:
            return self.lit(known)
        if share < 0.5:
            return "not " + (self.formula(known, 0) if self.chance(0.5) else f"({self.formula(known, depth - 1)})")
        if share < 0.75:
            word = self.one_of("and", "or") if share < 0.65 else self.one_of("implies", "iff")
            return f"({self.formula(known, depth - 1)} {word} {self.formula(known, depth - 1)})"
        binders, inner = self.binders(known)
        return f"{self.one_of('all', 'any')}({self.formula(inner, depth - 1)} for {binders})"

    def list(self, known, part):
        if self.chance(0.5):
            return ", ".join(part(known) for _ in range(self.one_of(1, 2, 3)))
        binders, inner = self.binders(known)
        return ", ".join(part(inner) for _ in range(self.one_of(1, 1, 2))) + f" for {binders}"

    def over(self, known, part):
        if self.chance(0.5):
            return part(known)
        binders, inner = self.binders(known)
        return f"{part(inner)} for {binders}"

    def several(self, known, part, counts):
        return [self.over(known, part) for _ in range(self.one_of(*counts))]

    def presence(self, known):
        return f" when {self.lit(known)}" if self.chance(0.4) else ""

    def ctask(self, known):
        return f"{self.set_var(known)}, {self.whole(known)}, {self.whole(known)}{self.presence(known)}"

    def dtask(self, known):
        return f"{self.set_var(known)}, {self.whole(known)}{self.presence(known)}"

    def choice(self, known):
        return f"{self.set_var(known)} : [{self.list(known, self.whole)}]"

    def cons(self, known):
        kind, relation = self.random.randrange(11), self.one_of(" <= ", " >= ", " = ")
        if kind <= 2:
            return self.expr(known) + relation + self.expr(known)
        if kind == 3:
            return "logic " + self.formula(known, 2)
        if kind == 4:
            lits = ", ".join(self.lit(known) for _ in range(self.one_of(1, 2)))
            return f"when {lits} then {self.expr(known, 1)}{relation}{self.expr(known, 1)}"
        if kind == 5:
            return f"{self.one_of('alldiff', 'circuit')}({self.list(known, self.set_var)})"
        if kind == 6:
            entries = self.list(known, lambda inner: self.one_of(self.whole(inner), self.var(inner)))
            return f"element({self.set_var(known)}, [{entries}], {self.var(known)})"
        if kind == 7:
            parts = [self.var(known), *self.several(known, self.choice, (0, 1, 2))]
            return f"{self.one_of('indexsum', 'assign')}({'; '.join(parts)})"
        if kind == 8:
            return f"cumulative({'; '.join([self.whole(known), *self.several(known, self.ctask, (0, 1, 2))])})"
        if kind == 9:
            return f"disjunctive({'; '.join(self.several(known, self.dtask, (1, 2)))})"
        return self.packing(known)

    def packing(self, known):
        groups = self.one_of(1, 2)

        def numbers(inner):
            return "[" + ", ".join(self.whole(inner) for _ in range(groups if self.chance(0.9) else 3 - groups)) + "]"

        loads = self.several(known, lambda inner: f"{self.set_var(inner)}, {self.whole(inner)}, {numbers(inner)}", (0, 1, 2))
        return f"packing({'; '.join([self.var(known), numbers(known), numbers(known), *loads])})"

    def tags(self):
        words = ["infer bounds", "relax none", "branch 3", "pick first", "split most", "sub 1", "infer none", "sub 1", "sub 2"]
        return "".join(" " + word for word in self.random.sample(words, self.one_of(0, 0, 0, 0, 1, 2)))

    def post(self):
        if self.chance(0.4):
            binders, inner = self.binders([])
            return f"post forall {binders} : {self.cons(inner)}{self.tags()}; "
        return f"post {self.cons([])}{self.tags()}; "

    def model(self):
        text = f"index N = 0..2; index M = 1..{self.one_of(0, 1, 2)}; var x[N] : set 0..3; var y : int 0..9; "
        text += "var z : int -3..4; var r : real 0..5; var f[N, M] : set {2, 0, 5}; "
        text += "".join(self.post() for _ in range(self.one_of(1, 1, 2)))
        return text + self.one_of("satisfy;", f"minimise {self.expr([], 1)};", f"maximise y then minimise {self.expr([], 1)};")


def wanted(answer, drawing):
    """What a row says of an expansion: the numbers of its last row, or how many constraints there are."""
    rows = [k for k, post in enumerate(answer.posts) if "form" in post]
    if not rows or drawing.chance(0.2):
        return f"posts {len(answer.posts)}"
    form = answer.posts[rows[-1]]["form"]
    numbers = [form.terms.get(v, 0) for v in range(len(answer.variables))]
    return f"coefficients {rows[-1]} {' '.join(map(str, numbers))} {form.constant}"


def rows(count, seed):
    """So many texts with what is wanted of each; no cause of refusal has more than a twelfth of them."""
    drawing, found, causes = Drawing(seed), [], {}
    while len(found) < count:
        text = drawing.model()
        answer = expand_text.expand(text, TABLES)
        if isinstance(answer, str):
            cause = answer.split()[3 if answer.startswith("refused") else 1]
            causes[cause] = causes.get(cause, 0) + 1
            if causes[cause] <= count // 12:
                found.append((text, TABLES, answer))
        else:
            found.append((text, TABLES, wanted(answer, drawing)))
    return found
