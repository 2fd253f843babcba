#!/usr/bin/env python3
"""Writes the table of the grammar, specs/Grammar.antt.

Usage, in the crate's folder: python3 tools/grammar_table.py

Of each rule it computes which terminals may begin it, which may follow it, whether it may be empty, and a sample of it.
None of that is trusted: the test in the crate's proofs checks it. A conflict at one terminal is told and stops the script.
"""
import re, sys

SIGNS = {";": "Semicolon", ",": "Comma", ":": "Colon", "..": "To", "<": "Less", "<=": "AtMost", ">": "Greater",
         ">=": "AtLeast", "=": "Equal", "!=": "Unequal", "+": "Plus", "-": "Minus", "*": "Times", "(": "OpenRound",
         ")": "CloseRound", "[": "OpenSquare", "]": "CloseSquare", "{": "OpenBrace", "}": "CloseBrace"}
NAMED = 24


def terminals():
    text = open("src/terminal.rt").read()
    body = re.search(r"pub enum Terminal \{(.*?)\n\}", text, re.S).group(1)
    return re.findall(r"^    (\w+),", body, re.M)


def read():
    lines = [l.rstrip("\n") for l in open("tools/grammar.txt") if l.strip() and not l.startswith("#")]
    rules = {}
    for line in lines:
        name, right = line.split(" = ", 1) if " = " in line else (line.split(" =")[0], "")
        rules[name] = [alternative.split() for alternative in re.split(r" \|(?: |$)", right)]
    return rules


RULES = read()
KINDS = terminals()
# `forall` is both a word and a rule: as a word at the head of its own rule
NUMBER = {name: k for k, name in enumerate(RULES)}


def is_rule(rule, part):
    return part in RULES and not (part == "forall" and rule == "forall")


def terminal(part):
    if part in SIGNS:
        return SIGNS[part]
    return {"NAME": "Name", "NUMBER": "Number"}.get(part) or part.capitalize()


CODE = {kind: k for k, kind in enumerate(KINDS)}


def tables():
    null = {a: False for a in RULES}
    first = {a: set() for a in RULES}
    follow = {a: set() for a in RULES}
    follow["model"].add("End")

    def of(rule, parts):
        out = set()
        for part in parts:
            if not is_rule(rule, part):
                out.add(terminal(part))
                return out, False
            out |= first[part]
            if not null[part]:
                return out, False
        return out, True

    changed = True
    while changed:
        before = (dict(null), {a: set(s) for a, s in first.items()}, {a: set(s) for a, s in follow.items()})
        for a, alternatives in RULES.items():
            for parts in alternatives:
                f, n = of(a, parts)
                null[a] |= n
                first[a] |= f
                for k, part in enumerate(parts):
                    if is_rule(a, part):
                        g, m = of(a, parts[k + 1:])
                        follow[part] |= g | (follow[a] if m else set())
        changed = before != (null, first, follow)
    for a, alternatives in RULES.items():
        seen = set()
        for parts in alternatives:
            f, n = of(a, parts)
            select = f | (follow[a] if n else set())
            if select & seen:
                sys.exit(f"conflict in {a} at {select & seen}")
            seen |= select
    word = {}
    while len(word) < len(RULES):
        for a, alternatives in RULES.items():
            for parts in alternatives:
                if all(not is_rule(a, p) or p in word for p in parts):
                    w = [t for p in parts for t in (word[p] if is_rule(a, p) else [terminal(p)])]
                    if a not in word or len(w) < len(word[a]):
                        word[a] = w
    return null, first, follow, word, of


def symbol(rule, part):
    if is_rule(rule, part):
        return part
    t = terminal(part)
    return "token_" + re.sub(r"(?<!^)([A-Z])", r"_\1", t).lower()


def listed(xs):
    return " ∷ ".join(list(xs) + ["[]"])


def sides():
    return {a: [listed(symbol(a, p) for p in parts) for parts in alternatives] for a, alternatives in RULES.items()}


def grammar():
    null, first, follow, word, of = tables()
    out = ["-- The grammar of models, as a table: written by tools/grammar_table.py from tools/grammar.txt.",
           "-- Only the alternatives are the grammar. The other columns are tested in proofs/OneToken.antt.",
           "use Rattle.std.specs.Prelude.{true, false, List, [], ◌∷◌}",
           "use Rattle.sm_syntax.specs.Grammars.{Symbol, leaf, node, Row, Grammar, grammar_of}", "",
           "-- ---- terminals, by the numbers of `code_of`", ""]
    used = []
    for a, alternatives in RULES.items():
        for parts in alternatives:
            for p in parts:
                if not is_rule(a, p) and terminal(p) not in used:
                    used.append(terminal(p))
    for kind in sorted(used, key=lambda k: CODE[k]) + ["End"]:
        name = "token_" + re.sub(r"(?<!^)([A-Z])", r"_\1", kind).lower()
        out += [f"abbrev pub {name} : Symbol", f"{name} = leaf {CODE[kind]}", ""]
    out += ["-- ---- nonterminals: those below 24 are the rules of the language, the others stand for { }, [ ] and ( | )", ""]
    for a in RULES:
        out += [f"abbrev pub {a} : Symbol", f"{a} = node {NUMBER[a]}", ""]
    out += ["-- ---- the rules", "", "abbrev pub rows : List Row", "rows ="]
    for a, rights in sides().items():
        alternatives = " ∷ ".join([f"({r})" for r in rights] + ["[]"])
        columns = [f"first = {listed(str(CODE[t]) for t in sorted(first[a], key=CODE.get))}",
                   f"follow = {listed(str(CODE[t]) for t in sorted(follow[a], key=CODE.get))}",
                   f"nullable = {'true' if null[a] else 'false'}", f"sample = {listed(str(CODE[t]) for t in word[a])}"]
        row = [f"    -- {a}", "    record { " + f"alternatives = {alternatives}; " + "; ".join(columns) + " } ∷"]
        out += row
    out += ["    []", "", "unfoldable pub grammar : Grammar", "grammar = grammar_of rows", "",
            "-- a whole text: a model, and the end", "abbrev pub start : List Symbol", "start = model ∷ token_end ∷ []", ""]
    open("specs/Grammar.antt", "w").write("\n".join(out))


if __name__ == "__main__":
    grammar()
    print(len(RULES), "nonterminals")
