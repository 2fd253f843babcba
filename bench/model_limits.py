"""Models at each limit and one above, and models whose parts don't fit each other: of each whether it is one."""

SMALL = 2**31
HERE = ["var 0 1", "var 0 1"]


def model(lines, variables=HERE, goals=("goal satisfy 0",)):
    return [*variables, *lines, *goals, "model"]


def at_limit(name, limit, lines_of):
    yield f"{name}: {limit}", lines_of(limit), True
    yield f"{name}: {limit + 1}", lines_of(limit + 1), False


def within(name, low, high, lines_of):
    """The numbers from low to high are allowed, and no others."""
    for number in sorted({low, high, low - 1, high + 1, -(2**63), 2**63 - 1}):
        yield f"{name}: {number}", lines_of(number), low <= number <= high


def counts():
    yield from at_limit("variables", 4096, lambda n: model([], [f"many {n} var 0"]))
    yield from at_limit("a width", 4096, lambda n: model([], [f"var 0 {n - 1}"]))
    rest = 63 * 4096
    yield from at_limit("widths", 262144, lambda n: model([], ["many 63 var 0 4095", f"var 0 {n - rest - 2}", "var 0"]))
    yield "no variables", model([], []), True
    yield from at_limit("constraints", 16384, lambda n: model([f"many {n} row = 0"]))
    wide = ["many 1025 var 0"]
    yield from at_limit("terms of a row", 1024, lambda n: model([f"terms {n}", "row <= 0"], wide))
    yield from at_limit("terms of a when", 1024, lambda n: model([f"terms {n}", "when <= 0"], wide))
    yield from at_limit("variables of an alldiff", 1024, lambda n: model([f"many {n} listed 0", "alldiff"]))
    yield from at_limit("nodes of a circuit", 1024, lambda n: model([f"many {n} listed 0", "circuit"]))
    yield "many literals of a when", model(["literals 5000", "when <= 0"]), True
    yield "many literals of a clause", model(["literals 5000", "clause", "logic"]), True
    yield from at_limit("entries", 4096, lambda n: model([f"many {n} entries 0", "element 0 1"]))
    for kind in ["indexsum", "assign"]:
        yield from at_limit(f"picks of {kind}", 1024, lambda n: model([f"many {n} pick 0 0", f"{kind} 1"]))
        yield from at_limit(f"members of {kind}", 4096, lambda n: model([f"many {n} numbers 0", "pick 0", f"{kind} 1"]))
    yield from at_limit("clauses", 4096, lambda n: model([f"many {n} clause 0 = 0", "logic"]))
    for kind in ["cumulative 0", "disjunctive"]:
        yield from at_limit(f"tasks of {kind}", 256, lambda n: model([f"many {n} task 0 0 1", kind]))
    yield from at_limit("items", 256, lambda n: model(["capacities 0", "opening 0", f"many {n} item 0 0 0", "packing 1"]))
    groups = ["many N capacities 0", "many N opening 0", "many N numbers 0", "item 0 0", "packing 1"]
    yield from at_limit("groups", 64, lambda n: model([line.replace("N", str(n)) for line in groups]))
    yield from at_limit("goals", 4, lambda n: model([], goals=["goal minimise 0 0:1"] * n))
    # a goal may have as many terms as a model may have variables: one more names a variable that isn't there
    yield from at_limit("terms of a goal", 4096, lambda n: model([], ["many 4096 var 0"], [f"terms {n}", "goal maximise 0"]))


def totals():
    """The count of terms, literals and members, of which 3 are left for the last constraint; of these each kind with 3 and with 4."""
    base = ["literals 4194301", "clause", "logic"]
    counted = {
        "terms": lambda n: [f"terms {n}", "row = 0"],
        "literals of clauses": lambda n: ["clause 0 = 0", f"literals {n - 1}", "clause", "logic"],
        "literals and terms": lambda n: [f"literals {n - 2}", "when = 0 0:1 1:1"],
        "entries": lambda n: ["element 0 1 v0 v1" + " 7" * (n - 2)],
        "members of indexsum": lambda n: ["pick 0 1", "pick 1" + " 1" * (n - 1), "indexsum 1"],
        "members of assign": lambda n: ["pick 0 1", "pick 1" + " 1" * (n - 1), "assign 1"],
        "literals of cumulative": lambda n: ["task 0 1 1"] + ["task 1 1 1 0 = 1"] * n + ["cumulative 2"],
        "literals of disjunctive": lambda n: ["task 0 1 1"] + ["task 1 1 1 0 = 1"] * n + ["disjunctive"],
    }
    for name, lines_of in counted.items():
        for count in (3, 4):
            yield f"total with {count} {name}", model(base + lines_of(count), ["many 4 var 0"]), count == 3
    uncounted = [
        "alldiff 0 1", "circuit 0 1", "capacities 5", "opening 5", "item 0 1 5", "packing 1", "task 0 1 1", "cumulative 5",
        "task 0 1 1", "disjunctive", "row = 0", "clause", "logic", "when = 0", "element 0 1", "pick 0", "indexsum 1", "assign 1",
    ]  # fmt: skip
    full = ["literals 4194304", "clause", "logic"]
    yield "total that is full, and what doesn't count", model(full + uncounted), True
    yield "total that is full, and a term", model(full + ["row = 0 0:1"]), False


def numbers():
    def plain(*lines):
        return lambda n: model([line.replace("N", str(n)) for line in lines])

    small = (-SMALL, SMALL)
    yield from within("declared value", *small, lambda n: model([], [f"var {n}"]))
    yield from within("bound of a row", *small, plain("row <= N 0:1"))
    yield from within("bound of a row of when", *small, plain("when <= N 0:1"))
    yield from within("coefficient", *small, plain("row <= 0 0:1 1:N"))
    yield from within("coefficient of when", *small, plain("when <= 0 0:1 1:N"))
    for test in ["<=", ">=", "=", "!="]:
        yield from within(f"literal of a clause, {test}", -SMALL - 1, SMALL + 1, plain(f"clause 0 {test} N", "logic"))
    yield from within("literal of a when", *small, plain("if 0 <= 0 0 >= N", "when <= 0"))
    yield from within("literal of a cumulative", *small, plain("task 0 1 1 1 >= N", "cumulative 1"))
    yield from within("literal of a disjunctive", *small, plain("task 0 1 1 1 >= N", "disjunctive"))
    yield from within("entry", *small, plain("element 0 1 0 N"))
    yield from within("member of indexsum", *small, plain("pick 0 0 N", "indexsum 1"))
    yield from within("member of assign", *small, plain("pick 0 0 N", "assign 1"))
    yield from within("capacity of cumulative", 0, SMALL, plain("task 0 1 1", "cumulative N"))
    yield from within("capacity of cumulative without tasks", 0, SMALL, plain("cumulative N"))
    yield from within("demand", 0, SMALL, plain("task 0 1 N", "cumulative 1"))
    yield from within("demand in a disjunctive", 1, 1, plain("task 0 1 N", "disjunctive"))
    # the variable starts at 0 at the earliest and at 1 at the latest
    yield from within("duration", 0, 65535, plain("task 0 N 1", "cumulative 1"))
    yield from within("duration in a disjunctive", 0, 65535, plain("task 0 N 1", "disjunctive"))
    yield from within("duration beside another task", 0, 65535, plain("task 1 3 1", "task 0 N 1", "cumulative 1"))
    packing = ["capacities 5 5", "opening 5 5", "item 0 1 2 3", "item 0 1 2 3", "packing 1"]

    def packed(k, line):
        return plain(*packing[:k], line, *packing[k + 1 :])

    yield from within("capacity of a group", 0, 16384, packed(0, "capacities 5 N"))
    yield from within("opening cost", 0, SMALL, packed(1, "opening 5 N"))
    yield from within("size", 0, SMALL, packed(3, "item 0 N 2 3"))
    yield from within("cost", *small, packed(3, "item 0 1 2 N"))

    def goal(text):
        return lambda n: model([], goals=[text.replace("N", str(n))])

    yield from within("constant", *small, goal("goal minimise N 0:1"))
    yield from within("coefficient of a goal", *small, goal("goal maximise 0 0:1 1:N"))
    # what isn't below 0 can't be read below 0
    yield from at_limit("branch", 1000000, plain("branch N", "row <= 0"))
    yield from at_limit("sub", 4095, plain("sub N", "row <= 0"))
    yield "greatest branch", model(["branch 4294967295", "row <= 0"]), False
    yield "greatest sub", model(["sub 4294967295", "row <= 0"]), False


def ranges():
    """Variables of kind int and real: their ends, how many there may be, and where each may stand."""
    for kind in ["int", "real"]:
        for ends, is_good in [
            ("0 1", True),
            ("1 1", True),
            ("1 0", False),
            (f"{-SMALL} {SMALL}", True),
            (f"{-SMALL - 1} 0", False),
            (f"0 {SMALL + 1}", False),
            (f"{-(2**63)} {2**63 - 1}", False),
            ("", False),
            ("0", False),
            ("0 1 2", False),
        ]:
            yield f"{kind} {ends}", model([], [f"{kind} {ends}"]), is_good
    # the widths of sets alone are counted
    full = ["many 64 var 0 4095"]
    yield "ranges beside sets that are full", model([], full + [f"int 0 {SMALL}", f"real 0 {SMALL}"]), True
    yield from at_limit("reals", 400, lambda n: model([], [f"many {n} real 0 1"]))
    yield "many ints", model([], ["many 4096 int 0 1"]), True
    mixed = ["var 0 1", "int 0 1", "real 0 1"]
    yield from at_limit("real rows", 400, lambda n: model([f"many {n} row <= 0 2:1"], mixed))
    yield from at_limit("real rows of when", 400, lambda n: model([f"many {n} when <= 0 0:1 2:1"], mixed))
    yield from at_limit("real rows of both", 400, lambda n: model(["many 399 row <= 0 2:1", f"many {n - 399} when <= 0 2:1"], mixed))
    yield "rows of whole variables beside", model(["many 400 row <= 0 2:1", "many 400 row = 0 0:1 1:1", "many 400 when = 0 1:1"], mixed), True


def kinds_of_variables():
    """Each place of a variable with a set, an int and a real."""
    every, discrete, only_set = {"var", "int", "real"}, {"var", "int"}, {"var"}
    places = [
        (every, ["row = 0 0:1 1:1"]),
        (every, ["when = 0 1:1"]),
        (discrete, ["if 0 = 0 1 = 0", "when = 0 0:1"]),
        (discrete, ["clause 0 = 0 1 = 0", "logic"]),
        (only_set, ["alldiff 0 1"]),
        (only_set, ["circuit 0 1"]),
        (only_set, ["element 1 0 7"]),
        (discrete, ["element 0 1 7"]),
        (discrete, ["element 0 0 7 v1"]),
        (only_set, ["pick 1 7", "indexsum 0"]),
        (discrete, ["pick 0 7", "indexsum 1"]),
        (only_set, ["pick 1 7", "assign 0"]),
        (discrete, ["pick 0 7", "assign 1"]),
        (only_set, ["task 1 1 1", "cumulative 5"]),
        (discrete, ["task 0 1 1 1 = 0", "cumulative 5"]),
        (only_set, ["task 1 1 1", "disjunctive"]),
        (discrete, ["task 0 1 1 1 = 0", "disjunctive"]),
        (only_set, ["capacities 5", "opening 5", "item 1 1 1", "packing 0"]),
        (discrete, ["capacities 5", "opening 5", "item 0 1 1", "packing 1"]),
    ]
    for kind in ["var", "int", "real"]:
        variables = ["var 0 1", f"{kind} 0 1"]
        for allowed, lines in places:
            yield f"{kind}: " + ", ".join(lines), model(lines, variables), kind in allowed
        for allowed, goals in [
            (every, ["goal minimise 0 1:1"]),
            (every, ["goal minimise 0 0:1", "goal maximise 0 0:1 1:1"]),
            (discrete, ["goal minimise 0 1:1", "goal maximise 0 0:1"]),
            (discrete, ["goal minimise 0 1:1", "goal maximise 0 1:1"]),
        ]:
            yield f"{kind}: " + ", ".join(goals), model([], variables, goals), kind in allowed


def horizons():
    """Two tasks: how far the last may end after the first may start."""
    for kind in ["cumulative 9", "disjunctive"]:
        for first, duration, second, other, is_near in [
            (-30000, 0, 35536, 0, True),
            (-30000, 0, 35536, 1, False),
            (35536, 0, -30000, 0, True),
            (35536, 1, -30000, 0, False),
            (-SMALL, 65536, -SMALL, 0, True),
            (-SMALL, 65536, -SMALL + 1, 65536, False),
            (0, 65536, 1, 65535, True),
            (0, 65536, 1, 65536, False),
            (SMALL, 65536, SMALL, 65536, True),
            (SMALL, 65536, -SMALL, 0, False),
        ]:
            name = f"{kind}: {first} for {duration}, {second} for {other}"
            lines = [f"task 0 {duration} 1", f"task 1 {other} 1", kind]
            yield name, model(lines, [f"var {first}", f"var {second}"]), is_near
        for duration, is_near in [(61441, True), (61442, False)]:
            lines = [f"task 0 {duration} 1 1 = 0", kind]
            yield f"{kind}: absent, from 0 to 4095 for {duration}", model(lines, ["var 0 7 4095", "var 1"]), is_near


def misfits():
    for name, variables, is_good in [
        ("no values", ["var"], False),
        ("a value twice", ["var 1 1"], False),
        ("falling values", ["var 2 1"], False),
        ("a fall at the end", ["var 1 3 2"], False),
        ("4096 wide below 0", ["var -4095 0"], True),
        ("4097 wide below 0", ["var -4095 0 1"], False),
        ("as wide as it can be written", [f"var {-(2**63)} {2**63 - 1}"], False),
    ]:
        yield name, model([], variables), is_good
    for name, line, is_good in [
        ("rising terms", "0:1 1:1", True),
        ("a term twice", "0:1 0:1", False),
        ("falling terms", "1:1 0:1", False),
        ("a coefficient of 0", "0:1 1:0", False),
    ]:
        yield name, model([f"row = 0 {line}"]), is_good
        yield f"{name} of when", model([f"when = 0 {line}"]), is_good
        yield f"{name} of a goal", model([], goals=[f"goal minimise 0 {line}"]), is_good
    for capacities, opening, costs, is_good in [
        ("5 5", "5 5", "1 1", True),
        ("5 5", "5", "1 1", False),
        ("5", "5 5", "1 1", False),
        ("5", "5 5", "1", False),
        ("5 5", "5 5", "1", False),
        ("5 5", "5 5", "1 1 1", False),
        ("5 5", "5 5", "", False),
        ("", "", "", True),
        ("", "", "1", False),
        ("", "5", "", False),
    ]:
        lines = [f"capacities {capacities}", f"opening {opening}", f"item 0 1 {costs}", "packing 1"]
        yield f"capacities {capacities}, opening {opening}, costs {costs}", model(lines), is_good
    for name, goals, is_good in [
        ("no goal", [], False),
        ("goal without terms", ["minimise 7"], True),
        ("any solution", ["satisfy 0"], True),
        ("any solution, and a constant", ["satisfy 1"], False),
        ("any solution, and a term", ["satisfy 0 0:1"], False),
        ("any solution, and a goal", ["satisfy 0", "minimise 0 0:1"], False),
        ("a goal, and any solution", ["minimise 0 0:1", "satisfy 0"], False),
        ("any solution twice", ["satisfy 0", "satisfy 0"], False),
        ("four senses", ["minimise 1 0:1", "maximise 0 0:1", "minimise 0", "maximise 5 0:1 1:1"], True),
    ]:
        yield name, model([], goals=[f"goal {goal}" for goal in goals]), is_good


def unknown():
    """The last of the two variables, the one after it, and the greatest number of one, at each place of a variable."""
    places = [
        ["row = 0 0:1 N:1"], ["clause 0 = 0 N = 0", "logic"], ["if 0 = 0 N = 0", "when = 0"], ["when = 0 N:1"], ["alldiff 0 N"],
        ["element N 0 1"], ["element 0 N 1"], ["element 0 1 5 vN"], ["pick 0 1", "pick N 1", "indexsum 0"], ["indexsum N"],
        ["pick 0 1", "pick N 1", "assign 0"], ["assign N"], ["task 0 1 1", "task N 1 1", "cumulative 5"],
        ["task 0 1 1 N = 0", "cumulative 5"], ["task 0 1 1", "task N 1 1", "disjunctive"], ["task 0 1 1 N = 0", "disjunctive"],
        ["capacities 5", "opening 5", "item 0 1 1", "item N 1 1", "packing 0"], ["packing N"], ["circuit 0 N"],
    ]  # fmt: skip
    for var, is_known in [(1, True), (2, False), (2**32 - 1, False)]:
        for lines in places:
            lines = [line.replace("N", str(var)) for line in lines]
            yield "variable: " + ", ".join(lines), model(lines), is_known
        yield f"variable of a goal: {var}", model([], goals=[f"goal minimise 0 {var}:1"]), is_known


def cases():
    for part in (counts, totals, numbers, ranges, kinds_of_variables, horizons, misfits, unknown):
        yield from part()
