#!/usr/bin/env python3
"""Writes the modules of crates/explicit_tests (its src/first_modules.rt and src/second_modules.rt).

Each is a small module at random from a fixed seed, with the values that its variables may have: Next keeps to them, so
that these are all states. No verdict is expected here: the tests search all states. How a record becomes the text of a
module stands in src/records.rt.
"""
import os
import random

FOLDER = os.path.dirname(os.path.abspath(__file__)) + "/../crates/explicit_tests/src"
COUNT = 200
STATES = 40
AND = " /\\ "
RNG = random.Random(20190)


def pick(*choices):
    return RNG.choice(choices)


def often(chance):
    return RNG.random() < chance


class Names:
    """Bound names, each once in a module; `risky` modules apply operators outside their domains, and `narrow` ones have
    integers of four bits, which they leave."""

    def __init__(self):
        self.count = 0
        self.risky = often(0.6)
        self.narrow = often(0.5)

    def fresh(self):
        self.count += 1
        return f"i{self.count}"


# ---- types: their notes, sets of all values, numbers of values, and values by what can be read there


class Int:
    def __init__(self, size=None):
        self.size = size or RNG.randint(2, 5)
        self.note = "Int"
        self.all = f"0..{self.size - 1}"
        self.count = self.size

    def literal(self):
        return str(RNG.randrange(self.size))

    def value(self, env, depth):
        own = [t for t, ty in env.terms if isinstance(ty, Int) and ty.size <= self.size]
        if depth == 0 or often(0.15):
            return RNG.choice(own) if own and often(0.5) else self.literal()
        if own and often(0.3):
            return f"(({RNG.choice(own)} + 1) % {self.size})"
        return pick(
            lambda: f"({integer(env, depth - 1)} % {self.size})",
            lambda: f"({integer(env, depth - 1)} % {self.size})",
            lambda: f"({self.size - 1} - {self.value(env, depth - 1)})",
            lambda: f"({self.value(env, depth - 1)} \\div 2)",
            lambda: condition(env, self, depth),
            lambda: self.value(env, 0),
        )()

    def some(self, env, depth):
        name = env.names.fresh()
        return pick(
            lambda: f"0..{RNG.randrange(self.size)}",
            lambda: f"{{{self.value(env, 1)}, {self.value(env, 1)}}}",
            lambda: f"{{{name} \\in {self.all}: {truth(env.bind(name, self), depth)}}}",
        )()


class Bool:
    note = "Bool"
    all = "BOOLEAN"
    count = 2

    def literal(self):
        return pick("TRUE", "FALSE")

    def value(self, env, depth):
        return truth(env, depth)

    def some(self, env, depth):
        return pick("BOOLEAN", "BOOLEAN", f"{{{truth(env, depth)}}}")


class Text:
    note = "Str"
    all = '{"p", "q", "r"}'
    count = 3

    def literal(self):
        return pick('"p"', '"q"', '"r"')

    def value(self, env, depth):
        own = env.of(Text)
        if depth > 0 and often(0.4):
            return condition(env, self, depth)
        return RNG.choice(own) if own and often(0.4) else self.literal()

    def some(self, env, depth):
        return pick(self.all, f"{{{self.literal()}, {self.value(env, 1)}}}")


class Set:
    def __init__(self):
        self.most = RNG.randint(1, 2)
        self.note = "Set(Int)"
        self.all = f"SUBSET (0..{self.most})"
        self.count = 2 ** (self.most + 1)

    def item(self, env, depth):
        return Int(self.most + 1).value(env, depth)

    def literal(self):
        return pick("{}", "{0}", "{0, 1}", f"{{{self.most}}}")

    def value(self, env, depth):
        own = [t for t, ty in env.terms if isinstance(ty, Set) and ty.most <= self.most]
        if depth == 0 or not own:
            return RNG.choice(own) if own and often(0.7) else self.literal()
        term = RNG.choice(own)
        name = env.names.fresh()
        inner = env.bind(name, Int(self.most + 1))
        return pick(
            lambda: f"({term} \\cup {{{self.item(env, depth - 1)}}})",
            lambda: f"({term} \\cup {{{self.item(env, depth - 1)}}})",
            lambda: f"({term} \\ {{{self.item(env, depth - 1)}}})",
            lambda: f"({term} \\cap {self.value(env, depth - 1)})",
            lambda: f"(0..{self.most} \\ {term})",
            lambda: f"{{{name} \\in 0..{self.most}: {truth(inner, depth - 1)}}}",
            lambda: f"{{({name} + 1) % {self.most + 1}: {name} \\in {term}}}",
            lambda: condition(env, self, depth),
            lambda: self.literal(),
        )()

    def some(self, env, depth):
        return pick(self.all, "SUBSET (0..1)", f"{{{self.literal()}, {self.value(env, depth)}}}")


class Fun:
    def __init__(self):
        self.most = RNG.randint(1, 2)
        self.note = "Int -> Int"
        self.all = f"[1..2 -> 0..{self.most}]"
        self.count = (self.most + 1) ** 2

    def result(self, env, depth):
        return Int(self.most + 1).value(env, depth)

    def literal(self):
        name = f"i{RNG.randint(80, 99)}"
        to = pick("0", "1", str(self.most), f"{name} - 1")
        return f"[{name} \\in 1..2 |-> {to}]"

    def value(self, env, depth):
        own = [t for t, ty in env.terms if isinstance(ty, Fun) and ty.most <= self.most]
        if depth == 0 or not own:
            return RNG.choice(own) if own and often(0.7) else self.literal()
        term = RNG.choice(own)
        name = env.names.fresh()
        inner = env.bind(name, Int(3))
        return pick(
            lambda: f"[{term} EXCEPT ![{argument(env)}] = {self.result(env, depth - 1)}]",
            lambda: f"[{term} EXCEPT ![{argument(env)}] = (@ + 1) % {self.most + 1}]",
            lambda: f"[{term} EXCEPT ![1] = {term}[2], ![2] = {self.result(env, 1)}]",
            lambda: f"[{name} \\in 1..2 |-> {self.result(inner, depth - 1)}]",
            lambda: f"[{name} \\in DOMAIN {term} |-> {term}[3 - {name}]]",
            lambda: condition(env, self, depth),
        )()

    def some(self, env, depth):
        return pick(self.all, f"{{{self.value(env, depth)}, {self.literal()}}}")


class Seq:
    note = "Seq(Int)"
    all = "{<<>>, <<0>>, <<1>>, <<0, 0>>, <<0, 1>>, <<1, 0>>, <<1, 1>>}"
    count = 7

    def item(self, env, depth):
        return Int(2).value(env, depth)

    def literal(self):
        return pick("<<>>", "<<0>>", "<<1>>", "<<0, 1>>", "<<1, 1>>")

    def value(self, env, depth):
        own = env.of(Seq)
        if depth == 0 or not own:
            return RNG.choice(own) if own and often(0.6) else self.literal()
        term = RNG.choice(own)
        grown = pick(f"Append({term}, {self.item(env, depth - 1)})", f"(<<{self.item(env, 1)}>> \\o {term})")
        cut = pick(f"Tail({term})", f"SubSeq({term}, 1, 1)", f"SubSeq({term}, 2, Len({term}))")
        whole = env.names.risky and often(0.6)
        return pick(
            lambda: f"(IF Len({term}) < 2 THEN {grown} ELSE {term})",
            lambda: f"(IF Len({term}) < 2 THEN {grown} ELSE {cut})",
            lambda: cut if whole else f"(IF {term} = <<>> THEN {self.literal()} ELSE {cut})",
            lambda: f"<<{self.item(env, depth - 1)}, {self.item(env, 1)}>>",
            lambda: f"<<{self.item(env, depth - 1)}>>",
            lambda: condition(env, self, depth),
        )()

    def some(self, env, depth):
        return f"{{{self.value(env, depth)}, {self.literal()}}}"


class Rec:
    note = "{a: Int, b: Bool}"
    all = "[a: 0..1, b: BOOLEAN]"
    count = 4

    def item(self, env, depth):
        return Int(2).value(env, depth)

    def literal(self):
        return f"[a |-> {RNG.randrange(2)}, b |-> {pick('TRUE', 'FALSE')}]"

    def value(self, env, depth):
        own = env.of(Rec)
        if depth == 0 or not own:
            return RNG.choice(own) if own and often(0.6) else self.literal()
        term = RNG.choice(own)
        return pick(
            lambda: f"[{term} EXCEPT !.a = {self.item(env, depth - 1)}]",
            lambda: f"[{term} EXCEPT !.b = {truth(env, depth - 1)}]",
            lambda: f"[{term} EXCEPT !.a = 1 - @, !.b = ~@]",
            lambda: f"[a |-> {self.item(env, depth - 1)}, b |-> {truth(env, depth - 1)}]",
            lambda: condition(env, self, depth),
        )()

    def some(self, env, depth):
        return pick(self.all, f"{{{self.value(env, depth)}, {self.literal()}}}")


# Sets of numbers to go through, with one more than the greatest of each.
def ranges(env):
    found = [("0..1", 2), ("1..2", 3), ("{0, 2}", 3)]
    found += [(f"DOMAIN {f}", 3) for f in env.of(Fun)]
    return found + [(s, ty.most + 1) for s, ty in env.terms if isinstance(ty, Set)]


class Env:
    """What can be read: terms with their types."""

    def __init__(self, names, terms):
        self.names = names
        self.terms = terms

    def bind(self, name, ty):
        return Env(self.names, self.terms + [(name, ty)])

    def of(self, kind):
        return [term for term, ty in self.terms if isinstance(ty, kind)]


# ---- expressions


def condition(env, ty, depth):
    test = truth(env, depth - 1)
    if env.names.risky and often(0.2):
        return f"(CASE {test} -> {ty.value(env, depth - 1)} [] {truth(env, 1)} -> {ty.literal()})"
    if often(0.2):
        return f"(CASE {test} -> {ty.value(env, depth - 1)} [] OTHER -> {ty.literal()})"
    return f"(IF {test} THEN {ty.value(env, depth - 1)} ELSE {ty.value(env, depth - 1)})"


# An argument of a function of 1 and 2.
def argument(env):
    if env.names.risky and often(0.6):
        return RNG.choice(env.of(Int) * 2 + ["0", "3"])
    return pick("1", "2")


def atoms(env):
    found = env.of(Int) * 3
    found += [f"Cardinality({s})" for s in env.of(Set)]
    found += [f"{f}[{argument(env)}]" for f in env.of(Fun)]
    found += [f"Len({s})" for s in env.of(Seq)]
    found += [f"{r}.a" for r in env.of(Rec)]
    if env.names.risky:
        found += [f"Head({s})" for s in env.of(Seq)]
        found += [f"{s}[{pick('1', '2', f'Len({s})')}]" for s in env.of(Seq)]
    return found


def integer(env, depth):
    found = atoms(env)
    if depth == 0:
        return RNG.choice(found) if found and often(0.7) else str(RNG.randint(0, 3))
    if env.names.risky and often(0.2):
        return f"({RNG.randint(1, 6)} {pick(chr(92) + 'div', '%')} {integer(env, depth - 1)})"
    if env.names.narrow and found and often(0.4):
        return pick(f"({RNG.choice(found)} + {RNG.randint(4, 7)})", f"({RNG.choice(found)} * {RNG.randint(3, 5)})")
    return pick(
        lambda: integer(env, 0),
        lambda: f"({integer(env, depth - 1)} + {integer(env, 0)})",
        lambda: f"({integer(env, depth - 1)} + {integer(env, 0)})",
        lambda: f"({integer(env, depth - 1)} - {integer(env, 0)})",
        lambda: f"({integer(env, depth - 1)} * {integer(env, 0)})",
        lambda: f"({integer(env, 0)} * {RNG.randint(2, 4)})",
        lambda: f"(IF {truth(env, depth - 1)} THEN {integer(env, 0)} ELSE {integer(env, 0)})",
    )()


# Mostly of what can be read, against a number.
def compared(env, depth):
    found = atoms(env)
    if not found and env.terms and often(0.8):
        return atom(env)
    left = RNG.choice(found) if depth == 0 and found else integer(env, depth)
    right = RNG.choice(found) if found and often(0.3) else str(RNG.randint(0, 4))
    return f"{left} {pick('=', '#', '<', '<=', '>', '>=')} {right}"


def membership(env, depth):
    sets = env.of(Set)
    if not sets:
        found = atoms(env)
        if not found and env.terms:
            return atom(env)
        return f"{RNG.choice(found) if found else integer(env, depth)} \\in {pick('0..1', '{0, 2}', '1..2')}"
    s = RNG.choice(sets)
    return pick(
        f"{integer(env, depth)} \\in {s}",
        f"{integer(env, 0)} \\notin {s}",
        f"{s} \\subseteq {pick('{0}', '{1, 2}', '{0, 1}')}",
        f"{s} = {pick('{0}', '{1, 2}', '{0, 1}', '{}')}",
    )


def quantified(env, depth):
    name = env.names.fresh()
    text, size = RNG.choice(ranges(env))
    inner = env.bind(name, Int(size))
    return f"({pick(chr(92) + 'A', chr(92) + 'E')} {name} \\in {text}: {truth(inner, depth)})"


def atom(env):
    found = [lambda: compared(env, 0)] if atoms(env) else []
    for kind in (Bool, Text, Seq, Rec, Fun):
        for term in env.of(kind):
            if kind is Bool:
                found += [lambda term=term: term] * 2
            elif kind is Rec:
                found += [lambda term=term: f"{term}.b", lambda term=term: f"{term} = {Rec().literal()}"]
            elif kind is not Fun:
                found += [lambda term=term, kind=kind: f"{term} {pick('=', '#')} {kind().literal()}"] * 2
            else:
                found += [lambda term=term: f"{term}[1] {pick('=', '<')} {term}[2]"]
    return RNG.choice(found)() if found else compared(env, 0)


def truth(env, depth):
    if depth <= 0:
        return f"({atom(env)})" if env.terms else pick("TRUE", "FALSE")
    return pick(
        lambda: f"({atom(env)})",
        lambda: f"({compared(env, depth)})",
        lambda: f"({compared(env, depth - 1)})",
        lambda: f"({membership(env, depth - 1)})",
        lambda: f"~{truth(env, depth - 1)}",
        lambda: f"({truth(env, depth - 1)} {pick('=>', '<=>')} {truth(env, depth - 1)})",
        lambda: f"({truth(env, depth - 1)} {pick(chr(92) + '/', '/' + chr(92))} {truth(env, 0)})",
        lambda: quantified(env, depth - 1),
    )()


# ---- actions


# An assignment of a name by what can be read there.
def assignment(env, name, ty, is_next):
    term = name + "'" if is_next else name
    bound = env.names.fresh()
    text, size = RNG.choice(ranges(env))
    inner = env.bind(bound, Int(size))
    defined = env.bind(bound, Int(100))
    ways = [
        lambda: f"{term} = {ty.value(env, 2)}",
        lambda: f"{term} = {ty.value(env, 2)}",
        lambda: f"{term} = {ty.value(env, 1)}",
        lambda: f"{term} \\in {ty.some(env, 1)}",
        lambda: f"({term} = {ty.value(env, 1)} \\/ {term} = {ty.value(env, 1)})",
    ]
    if is_next:
        ways += [
            lambda: f"UNCHANGED {name}",
            lambda: f"UNCHANGED {name}",
            lambda: f"(IF {truth(env, 1)} THEN {term} = {ty.value(env, 1)} ELSE {term} = {ty.value(env, 1)})",
            lambda: f"(CASE {truth(env, 1)} -> {term} = {ty.value(env, 1)} [] OTHER -> UNCHANGED {name})",
            lambda: f"(CASE {truth(env, 0)} -> {term} = {ty.value(env, 1)} [] {truth(env, 0)} -> UNCHANGED {name})",
            lambda: f"(\\E {bound} \\in {text}: {term} = {ty.value(inner, 2)})",
            lambda: f"(\\E {bound} \\in {text}: {truth(inner, 1)} /\\ {term} = {ty.value(inner, 1)})",
            lambda: f"(LET {bound} == {integer(env, 1)} IN {term} = {ty.value(defined, 1)})",
        ]
    return RNG.choice(ways)()


# A value of a type that is not the one at the start, where there is one.
def other(ty):
    for _ in range(20):
        text = ty.literal()
        if text != ty.start:
            return text
    return text


# An Init of one state, so that what is asked of other values breaks later if ever; or any.
def init(names, variables):
    for _, ty in variables:
        ty.start = ty.literal() if often(0.8) else None
    if all(ty.start for _, ty in variables):
        return AND.join(f"{name} = {ty.start}" for name, ty in variables)
    return conjunction(names, variables, False)


# A conjunction that assigns each name once, in any order, with tests before, between and behind.
def conjunction(names, variables, is_next):
    terms = list(variables) if is_next else []
    parts = []
    for name, ty in RNG.sample(variables, len(variables)):
        if terms and often(0.45):
            parts.append(truth(Env(names, terms), pick(1, 1, 2)))
        parts.append(assignment(Env(names, terms), name, ty, is_next))
        if often(0.6):
            terms = terms + [(name + "'" if is_next else name, ty)]
    if terms and often(0.1):
        parts.append(truth(Env(names, terms), 1))
    return AND.join(parts)


def next_action(names, variables):
    lines = [conjunction(names, variables, True) for _ in range(pick(1, 2, 2, 3, 3, 4, 5))]
    if often(0.25):
        lines.append(f"UNCHANGED <<{', '.join(name for name, _ in variables)}>>")
    if len(lines) == 1:
        return "Next == " + lines[0]
    return "Next == \\/ " + "\n        \\/ ".join(lines)


def invariant(names, variables):
    env = Env(names, variables)
    parts = [f"{name} = {other(ty)}" for name, ty in variables]
    name, ty = RNG.choice(variables)
    if often(0.3):
        return f"({name} # {other(ty)}) \\/ ({integer(env, 1)} {pick('#', '<', '>')} {RNG.randint(0, 3)})"
    return pick(
        lambda: f"~({AND.join(parts)})",
        lambda: f"~({AND.join(parts)})",
        lambda: f"{name} # {other(ty)}",
        lambda: f"({name} = {other(ty)}) => {truth(env, 1)}",
        lambda: f"({name} = {other(ty)}) => {truth(env, 2)}",
        lambda: f"{truth(env, 1)} \\/ {truth(env, 1)} \\/ {name} = {other(ty)}",
        lambda: truth(env, 2),
    )()


def choose_variables():
    kinds = [Int, Int, Bool, Set, Fun, Seq, Rec, Text]
    while True:
        variables = [(name, RNG.choice(kinds)()) for name in ("x", "y")[: pick(1, 2, 2, 2, 2)]]
        count = 1
        for _, ty in variables:
            count *= ty.count
        if 3 <= count <= STATES:
            return variables, count


def record():
    names = Names()
    variables, count = choose_variables()
    width = 4 if names.narrow else pick(8, 8, 32)
    length = pick(3, 4) if count <= 16 else pick(2, 3)
    lines = [f"{width} {length}"]
    lines += [f"{name} {ty.note} ; {ty.all}" for name, ty in variables]
    lines.append("Init == " + init(names, variables))
    lines.append(next_action(names, variables))
    lines.append("Inv == " + invariant(names, variables))
    return "\n".join(lines)


def records():
    found = []
    while len(found) < COUNT:
        text = record()
        if all(len(line) < 100 for line in text.split("\n")):
            found.append(text)
    return found


def main():
    found = records()
    for name, part in (("first", found[: COUNT // 2]), ("second", found[COUNT // 2 :])):
        text = "\n>".join(part)
        with open(f"{FOLDER}/{name}_modules.rt", "w") as file:
            file.write("// Small modules, written by bench/modules.py. How they are read stands in `records`.\n\n")
            file.write(f'pub(crate) const {name.upper()}: &str = r##"{text}"##;\n')


main()
