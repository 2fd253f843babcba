"""Reads a model text into a tree of tuples: a name and then its parts, each rule of the grammar with the place of its first
token. Written for the scripts of this folder; a text that isn't of the language stops them."""
import re

RESERVED = """index var post forall set int real satisfy minimise maximise then if and in sum for logic when alldiff circuit element
indexsum assign cumulative disjunctive packing implies iff or not all any infer none bounds full relax on branch pick first
small point split half least most sub""".split()

TOKEN = re.compile(r"(?P<space>[ \t\r\n]+|#[^\n]*)|(?P<word>[A-Za-z_][A-Za-z_0-9]*)|(?P<number>[0-9]+)|(?P<sign>\.\.|<=|>=|!=|[-+*;:,()\[\]{}<>=])")


def tokens(text):
    found, at, line, start = [], 0, 1, 0
    while at < len(text):
        match = TOKEN.match(text, at)
        if not match:
            raise SystemExit(f"no token at {line}:{at - start + 1}")
        if match.lastgroup != "space":
            found.append((match.group(), (line, at - start + 1), match.lastgroup))
        for i, byte in enumerate(match.group()):
            if byte == "\n":
                line, start = line + 1, at + i + 1
        at = match.end()
    found.append(("", (line, at - start + 1), "end"))
    return found


class Reader:
    def __init__(self, text):
        self.tokens, self.at = tokens(text), 0

    def word(self):
        return self.tokens[self.at][0]

    def place(self):
        return self.tokens[self.at][1]

    def take(self, *words):
        if self.word() in words:
            self.at += 1
            return self.tokens[self.at - 1][0]
        return None

    def need(self, *words):
        taken = self.take(*words)
        if taken is None:
            raise SystemExit(f"{self.word()!r} at {self.place()}, not one of {words}")
        return taken

    def name(self):
        word, place, kind = self.tokens[self.at]
        if kind != "word" or word in RESERVED:
            raise SystemExit(f"{word!r} at {place} is no name")
        self.at += 1
        return ("name", place, word)

    def number(self):
        word, place, kind = self.tokens[self.at]
        if kind != "number":
            raise SystemExit(f"{word!r} at {place} is no number")
        self.at += 1
        return ("number", place, int(word))

    def several(self, part, separator=","):
        parts = [part()]
        while self.take(separator):
            parts.append(part())
        return parts

    # ---- expressions

    def expr(self):
        place = self.place()
        negated = self.take("-") is not None
        first, more = self.term(), []
        while self.word() in ("+", "-"):
            sign = self.take("+", "-")
            more.append((sign, self.term()))
        return ("expr", place, negated, first, more)

    def term(self):
        place = self.place()
        factors = self.several(self.factor, "*")
        return ("term", place, factors[0], factors[1:])

    def factor(self):
        word, place, kind = self.tokens[self.at]
        if kind == "number":
            return ("number", place, self.number())
        if self.take("("):
            inner = self.expr()
            self.need(")")
            return ("group", place, inner)
        if self.take("sum"):
            self.need("(")
            part = self.expr()
            self.need("for")
            binders = self.binders()
            self.need(")")
            return ("sum", place, part, binders)
        name, indices = self.name(), []
        if self.take("["):
            indices = self.several(self.expr)
            self.need("]")
        return ("named", place, name, indices)

    def binders(self):
        place = self.place()
        binds = self.several(self.bind)
        tests = self.several(self.test, "and") if self.take("if") else []
        return ("binders", place, binds[0], binds[1:], tests)

    def bind(self):
        place = self.place()
        name = self.name()
        self.need("in")
        return ("bind", place, name, self.name())

    def test(self):
        place = self.place()
        left = self.expr()
        relation = self.need("<", "<=", ">", ">=", "=", "!=")
        return ("test", place, left, relation, self.expr())

    def over(self):
        return self.binders() if self.take("for") else None

    # ---- formulas

    def lit(self):
        place = self.place()
        self.need("[")
        left = self.expr()
        relation = self.need("<=", ">=", "=", "!=")
        right = self.expr()
        self.need("]")
        return ("lit", place, left, relation, right)

    def formula(self):
        place = self.place()
        left = self.disj()
        ending = self.take("implies", "iff")
        return ("formula", place, left, ending, self.disj() if ending else None)

    def disj(self):
        place = self.place()
        parts = self.several(self.conj, "or")
        return ("disj", place, parts[0], parts[1:])

    def conj(self):
        place = self.place()
        parts = self.several(self.unit, "and")
        return ("conj", place, parts[0], parts[1:])

    def unit(self):
        place = self.place()
        if self.take("not"):
            return ("not", place, self.unit())
        if self.take("("):
            inner = self.formula()
            self.need(")")
            return ("group", place, inner)
        quantifier = self.take("all", "any")
        if quantifier:
            self.need("(")
            inner = self.formula()
            self.need("for")
            binders = self.binders()
            self.need(")")
            return ("quantified", place, quantifier, inner, binders)
        return ("literal", place, self.lit())

    # ---- constraints

    def list(self):
        place = self.place()
        parts = self.several(self.expr)
        return ("list", place, parts[0], parts[1:], self.over())

    def bracketed(self):
        self.need("[")
        inner = self.list()
        self.need("]")
        return inner

    def choice(self):
        place = self.place()
        picks = self.expr()
        self.need(":")
        return ("choice", place, picks, self.bracketed(), self.over())

    def presence(self):
        return self.lit() if self.take("when") else None

    def ctask(self):
        place = self.place()
        parts = [self.expr()]
        for _ in range(2):
            self.need(",")
            parts.append(self.expr())
        return ("ctask", place, *parts, self.presence(), self.over())

    def dtask(self):
        place = self.place()
        start = self.expr()
        self.need(",")
        return ("dtask", place, start, self.expr(), self.presence(), self.over())

    def load(self):
        place = self.place()
        group = self.expr()
        self.need(",")
        size = self.expr()
        self.need(",")
        return ("load", place, group, size, self.bracketed(), self.over())

    def behind(self, part):
        parts = []
        while self.take(";"):
            parts.append(part())
        return parts

    def cons(self):
        place = self.place()
        word = self.take("logic", "when", "alldiff", "circuit", "element", "indexsum", "assign", "cumulative", "disjunctive", "packing")
        if word == "logic":
            return ("logic", place, self.formula())
        if word == "when":
            literals = self.several(self.lit)
            self.need("then")
            left = self.expr()
            cmp_place = self.place()
            cmp = self.need("<=", ">=", "=")
            return ("when", place, literals[0], literals[1:], left, (cmp, cmp_place), self.expr())
        if word is None:
            left = self.expr()
            cmp_place = self.place()
            cmp = self.need("<=", ">=", "=")
            return ("linear", place, left, (cmp, cmp_place), self.expr())
        self.need("(")
        if word in ("alldiff", "circuit"):
            made = (word, place, self.list())
        elif word == "element":
            index = self.expr()
            self.need(",")
            entries = self.bracketed()
            self.need(",")
            made = (word, place, index, entries, self.expr())
        elif word in ("indexsum", "assign"):
            total = self.expr()
            made = ("chosen", place, word, total, self.behind(self.choice))
        elif word == "cumulative":
            capacity = self.expr()
            made = (word, place, capacity, self.behind(self.ctask))
        elif word == "disjunctive":
            tasks = self.several(self.dtask, ";")
            made = (word, place, tasks[0], tasks[1:])
        else:
            cost = self.expr()
            self.need(";")
            capacities = self.bracketed()
            self.need(";")
            openings = self.bracketed()
            made = (word, place, cost, capacities, openings, self.behind(self.load))
        self.need(")")
        return made

    def tags(self):
        found = []
        while self.word() != ";":
            place = self.place()
            word = self.need("infer", "relax", "branch", "pick", "split", "sub")
            if word == "branch":
                value = self.number()
            elif word == "sub":
                value = self.expr()
            else:
                value = self.need(*{"infer": ["none", "bounds", "full"], "relax": ["on", "none"], "pick": ["first", "small", "point"], "split": ["half", "least", "most"]}[word])
            found.append((word, place, value))
        return found

    # ---- items

    def kind(self):
        place = self.place()
        word = self.need("set", "int", "real")
        if word == "set" and self.take("{"):
            parts = self.several(self.expr)
            self.need("}")
            return ("set", place, ("listed", parts[0], parts[1:]))
        least = self.expr()
        self.need("..")
        greatest = self.expr()
        return ("set", place, ("range", least, greatest)) if word == "set" else (word, place, least, greatest)

    def item(self):
        place = self.place()
        word = self.need("index", "var", "post")
        if word == "index":
            name = self.name()
            self.need("=")
            least = self.expr()
            self.need("..")
            made = ("index", place, name, least, self.expr())
        elif word == "var":
            name, sets = self.name(), []
            if self.take("["):
                sets = self.several(self.name)
                self.need("]")
            self.need(":")
            made = ("var", place, name, sets, self.kind())
        else:
            binders = None
            if self.take("forall"):
                binders = self.binders()
                self.need(":")
            cons = self.cons()
            made = ("post", place, binders, cons, self.tags())
        self.need(";")
        return made

    def aim(self):
        place = self.place()
        word = self.need("minimise", "maximise")
        return (word, place, self.expr())

    def model(self):
        place, items = self.place(), []
        while self.word() in ("index", "var", "post"):
            items.append(self.item())
        goal_place = self.place()
        if self.take("satisfy"):
            goal = ("satisfy", goal_place)
        else:
            aims = self.several(self.aim, "then")
            goal = ("aims", goal_place, aims[0], aims[1:])
        self.need(";")
        if self.word():
            raise SystemExit(f"{self.word()!r} at {self.place()} behind the goal")
        return ("tree", place, items, goal)


def read(text):
    return Reader(text).model()
