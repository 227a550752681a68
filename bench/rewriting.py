#!/usr/bin/env python3
"""Writes the random cases of crates/rewriting_tests: rewriting.py > crates/rewriting_tests/src/random_cases.rt.

Each line declares names with the two values that each may have, and an expression, at random from a fixed seed; how it
is written stands in src/jobs.rt and in job_text. No value is expected here: the tests ask the evaluator for it, under
every choice of the values, and where the lowest bit of each number is free, and who is a member. Another seed and number
of cases are given as arguments.
"""
import random
import sys

SEED = int(sys.argv[1]) if len(sys.argv) > 1 else 2019
COUNT = int(sys.argv[2]) if len(sys.argv) > 2 else 500
RNG = random.Random(SEED)

INT, BOOL, STR = "Int", "Bool", "Str"


def set_of(t):
    return ("Set", t)


def seq_of(t):
    return ("Seq", t)


def fun_of(t, u):
    return ("Fun", t, u)


def rec_of(**fields):
    return ("Rec", tuple(sorted(fields.items())))


def tup_of(*ts):
    return ("Tup", ts)


def text(t):
    """The text of a type."""
    if isinstance(t, str):
        return t
    kind = t[0]
    if kind == "Set":
        return f"Set({text(t[1])})"
    if kind == "Seq":
        return f"Seq({text(t[1])})"
    if kind == "Fun":
        left = text(t[1])
        return f"({left}) -> {text(t[2])}" if t[1][0] == "Fun" else f"{left} -> {text(t[2])}"
    if kind == "Rec":
        return "{" + ", ".join(f"{f}: {text(u)}" for f, u in t[1]) + "}"
    return "<<" + ", ".join(text(u) for u in t[1]) + ">>"


def is_plain(t, e):
    """Whether the expression has this type without a note: no empty set and no pair that may be a sequence."""
    if isinstance(t, str):
        return True
    if t[0] == "Set":
        return e[0] == "{" and e != "{}" or e.startswith("(map") or e.startswith("(filter")
    if t[0] == "Fun":
        return e.startswith("(lambda") or e.startswith("(single")
    if t[0] == "Tup":
        return len(set(t[1])) > 1
    return False


def noted(t, e):
    return e if is_plain(t, e) else f"(noted [0 {text(t)}] {e})"


def node(word, *args):
    return f"({' '.join([word, *args])})"


def pick(*xs):
    return RNG.choice(xs)


# ---- closed values

def small_int():
    return pick("0", "1", "1", "2", "2", "3", "4", "5", "7", "(neg 1)", "(neg 2)")


def index_int():
    return pick("1", "1", "2", "2", "3", "0")


def value(t, n=2):
    """A closed expression without faults, of at most n members, arguments or items a level."""
    if t == INT:
        return small_int() if n > 1 else index_int()
    if t == BOOL:
        return pick("TRUE", "FALSE")
    if t == STR:
        return pick('"s"', '"t"', '"a"')
    kind = t[0]
    count = RNG.randint(0, n)
    if kind == "Set":
        return noted(t, "{" + " ".join(value(t[1], n) for _ in range(count)) + "}")
    if kind == "Seq":
        return noted(t, "<" + " ".join(value(t[1], n) for _ in range(count)) + ">")
    if kind == "Fun":
        keys = "{" + " ".join(value(t[1], 1) for _ in range(RNG.randint(0, n))) + "}"
        k = fresh()
        body = body_value(t[2], t[1], k, n)
        return noted(t, f"(lambda [{k}] {noted(set_of(t[1]), keys)} {body})")
    if kind == "Rec":
        order = list(t[1])
        RNG.shuffle(order)
        return f"(record [{' '.join(f for f, _ in order)}] {' '.join(value(u, n) for _, u in order)})"
    return noted(t, "<" + " ".join(value(u, n) for u in t[1]) + ">")


def body_value(t, argument, k, n):
    if t == argument and RNG.random() < 0.5:
        return k
    if argument == INT and RNG.random() < 0.5:
        return f"(if (lt {k} 2) {value(t, n)} {value(t, n)})"
    return value(t, n)


# ---- expressions

NAMES = 0
PLACES = 0


def fresh():
    global NAMES
    NAMES += 1
    return pick("i", "j", "k", "m", "n") + str(NAMES % 10)


MEMBERS = [INT, INT, INT, BOOL, STR]
SMALL = [INT, BOOL, STR, set_of(INT), seq_of(INT), fun_of(INT, INT), tup_of(INT, BOOL), rec_of(a=INT, b=BOOL)]
TYPES = SMALL + [
    INT, BOOL, INT, BOOL, set_of(INT), fun_of(INT, BOOL), fun_of(STR, INT), seq_of(STR), set_of(set_of(INT)),
    seq_of(set_of(INT)), fun_of(INT, set_of(INT)), fun_of(INT, seq_of(INT)), set_of(rec_of(a=INT, b=BOOL)),
    fun_of(INT, fun_of(INT, INT)), rec_of(a=fun_of(INT, INT), c=set_of(INT)), tup_of(INT, seq_of(INT)),
    set_of(tup_of(INT, BOOL)), fun_of(tup_of(INT, BOOL), INT), set_of(seq_of(INT)), set_of(fun_of(INT, INT)),
    seq_of(rec_of(a=INT, b=BOOL)), fun_of(set_of(INT), INT), fun_of(STR, rec_of(a=INT, b=BOOL)),
]


def some_type(types, scope):
    """Mostly a type of a name, or one of these."""
    if scope and RNG.random() < 0.5:
        return RNG.choice(scope)[1]
    return RNG.choice(types)


def leaves(t, scope):
    return [n for n, u in scope if u == t]


def leaf(t, scope):
    names = leaves(t, scope)
    if names and RNG.random() < 0.8:
        return pick(*names)
    return value(t, 1)


def ex(t, d, scope):
    """An expression of type t, of depth d, over the names of the scope."""
    if d <= 0:
        return leaf(t, scope)
    if RNG.random() < 0.08:
        return leaf(t, scope)
    options = []
    if t == BOOL:
        options = [junction, junction, compare, compare, compare, member, member, quantify, quantify, quantify, negate,
                   relate]
    elif t == INT:
        options = [arith, arith, arith, arith, cardinality, length, power]
    elif t == STR:
        options = []
    elif t[0] == "Set":
        options = [enumeration, enumeration, combine, combine, filtered, filtered, mapped, mapped, union]
        if t[1] == INT:
            options += [ranged, ranged, domain]
        if t[1] == STR:
            options += [domain]
        if t[1] == BOOL:
            options += [boolean]
        if t[1][0] == "Set":
            options += [powerset, powerset, powerset]
        if t[1][0] == "Fun":
            options += [functions, functions, functions]
        if t[1][0] == "Rec":
            options += [records, records, records]
        if t[1][0] == "Tup":
            options += [product, product, product]
    elif t[0] == "Seq":
        options = [literal, append, append, concat, tail, slice_of, slice_of, except_of, except_of]
    elif t[0] == "Fun":
        options = [lambda_of, lambda_of, lambda_of, except_of, except_of, except_of, except_of, merge, merge, single]
    elif t[0] == "Rec":
        options = [record, record, except_of, except_of]
    else:
        options = [literal, literal, except_of, except_of]
    options = options * 2 + [choose, case, read, read, read, fold]
    return RNG.choice(options)(t, d - 1, scope)


def choose(t, d, scope):
    return node("if", ex(BOOL, d, scope), ex(t, d, scope), ex(t, d, scope))


def case(t, d, scope):
    if RNG.random() < 0.6:
        return node("case-other", ex(BOOL, d, scope), ex(t, d, scope), ex(t, d, scope))
    return node("case", ex(BOOL, d, scope), ex(t, d, scope), ex(BOOL, d, scope), ex(t, d, scope))


def parts(name, u, t, d, scope):
    """What the value of a name of type u has of type t."""
    if isinstance(u, str):
        return []
    if u[0] == "Fun" and u[2] == t:
        return [lambda: node("apply", name, ex(u[1], d, scope))]
    if u[0] == "Seq" and u[1] == t:
        return [lambda: node("apply", name, ex(INT, d, scope)), lambda: node("head", name)]
    if u[0] == "Rec":
        return [lambda f=f: f"(field [{f}] {name})" for f, v in u[1] if v == t]
    if u[0] == "Tup":
        return [lambda i=i: node("apply", name, str(i + 1)) for i, v in enumerate(u[1]) if v == t]
    return []


def read(t, d, scope):
    """A part of a function, a record, a tuple or a sequence."""
    own = [way for name, u in scope for way in parts(name, u, t, d, scope)]
    if own and RNG.random() < 0.7:
        return RNG.choice(own)()
    way = RNG.randint(0, 5)
    if way == 0:
        return node("apply", ex(fun_of(INT, t), d, scope), ex(INT, d, scope))
    if way == 1:
        u = pick(STR, BOOL, tup_of(INT, BOOL), set_of(INT))
        return node("apply", ex(fun_of(u, t), d, scope), ex(u, d, scope))
    if way == 2:
        return node("head", ex(seq_of(t), d, scope))
    if way == 3:
        return node("apply", ex(seq_of(t), d, scope), ex(INT, d, scope))
    if way == 4:
        return node("field [a]", ex(rec_of(a=t, b=BOOL), d, scope))
    return node("apply", ex(tup_of(t, BOOL), d, scope), "1")


def note_name(t, name):
    return name if isinstance(t, str) else f"(noted [0 {text(t)}] {name})"


def fold(t, d, scope):
    u = pick(INT, BOOL, t)
    a, b = fresh(), fresh()
    if a == b:
        b += "0"
    # The body is typed before the first value and the items.
    body = ex(t, d, scope + [(note_name(t, a), t)] * 2 + [(note_name(u, b), u)] * 2)
    return f"(fold [{a} {b}] {body} {ex(t, d - 1, scope)} {ex(seq_of(u), d - 1, scope)})"


def junction(t, d, scope):
    word = pick("and", "or", "and", "or", "implies", "iff")
    count = 2 if word in ("implies", "iff") else pick(0, 1, 2, 2, 3)
    return node(word, *[ex(BOOL, d, scope) for _ in range(count)])


def negate(t, d, scope):
    return node("not", ex(BOOL, d, scope))


def compare(t, d, scope):
    if RNG.random() < 0.5:
        return node(pick("lt", "gt", "le", "ge"), ex(INT, d, scope), ex(INT, d, scope))
    u = some_type(TYPES, scope)
    return node(pick("eq", "eq", "ne"), ex(u, d, scope), ex(u, d, scope))


def relate(t, d, scope):
    if RNG.random() < 0.15:
        return node("finite", ex(set_of(RNG.choice(SMALL)), d, scope))
    u = some_type(SMALL, scope)
    if RNG.random() < 0.5:
        return node("subseteq", ex(set_of(u), d, scope), ex(set_of(u), d, scope))
    return node("subseteq", ex(set_of(u), d, scope), form(u, d, scope))


def form(t, d, scope):
    """A set or an infinite form of members of type t."""
    if RNG.random() < 0.25:
        return ex(set_of(t), d, scope)
    if t == INT:
        return pick("(int)", "(nat)", "(nat)", ex(set_of(t), d, scope))
    if t == STR:
        return pick("(string)", ex(set_of(t), d, scope))
    if t == BOOL:
        return pick("(boolean)", ex(set_of(t), d, scope))
    kind = t[0]
    if kind == "Set":
        return node("powerset", form(t[1], d, scope))
    if kind == "Seq":
        return node("seqs", form(t[1], d, scope))
    if kind == "Fun":
        return node("funset", ex(set_of(t[1]), d, scope), form(t[2], d, scope))
    if kind == "Rec":
        return f"(recset [{' '.join(f for f, _ in t[1])}] {' '.join(form(u, d, scope) for _, u in t[1])})"
    return node("product", *[form(u, d, scope) for u in t[1]])


def member(t, d, scope):
    u = some_type(TYPES, scope)
    return node(pick("in", "in", "notin"), ex(u, d, scope), form(u, d, scope))


def set_parts(scope):
    """The types of members of sets that have names."""
    return [u[1] for _, u in scope if not isinstance(u, str) and u[0] == "Set"]


def member_type(types, scope):
    own = set_parts(scope)
    return RNG.choice(own) if own and RNG.random() < 0.6 else RNG.choice(types)


def bound(u, d, scope):
    """A small set whose members a name may stand for."""
    if u == INT and RNG.random() < 0.4:
        return ranged(u, 0, scope)
    return ex(set_of(u), min(d, 2), scope)


def quantify(t, d, scope):
    word = pick("exists", "forall")
    if RNG.random() < 0.3:
        u, w = RNG.choice(MEMBERS), RNG.choice(MEMBERS)
        a, b = fresh(), fresh()
        if a == b:
            b += "0"
        body = ex(BOOL, d, scope + [(a, u), (a, u), (b, w), (b, w)])
        return f"({word} [{a} {b}] {bound(u, d, scope)} {bound(w, d, scope)} {body})"
    u = member_type(SMALL, scope)
    a = fresh()
    return f"({word} [{a}] {bound(u, d, scope)} {ex(BOOL, d, scope + [(a, u)] * 3)})"


def arith(t, d, scope):
    word = pick("add", "add", "sub", "mul", "div", "mod", "neg")
    count = 1 if word == "neg" else 2
    return node(word, *[ex(INT, d, scope) for _ in range(count)])


def power(t, d, scope):
    return node("pow", ex(INT, d - 1, scope), pick("0", "1", "2", "3"))


def cardinality(t, d, scope):
    return node("cardinality", ex(set_of(member_type(SMALL, scope)), d, scope))


def length(t, d, scope):
    return node("len", ex(seq_of(RNG.choice(SMALL)), d, scope))


def enumeration(t, d, scope):
    members = " ".join(ex(t[1], d, scope) for _ in range(pick(0, 1, 2, 2, 3)))
    return noted(t, "{" + members + "}")


def combine(t, d, scope):
    return node(pick("cup", "cup", "cap", "minus"), ex(t, d, scope), ex(t, d, scope))


def filtered(t, d, scope):
    a = fresh()
    return f"(filter [{a}] {ex(t, d, scope)} {ex(BOOL, d, scope + [(a, t[1])] * 3)})"


def mapped(t, d, scope):
    if RNG.random() < 0.3:
        u, w = RNG.choice(MEMBERS), RNG.choice(MEMBERS)
        a, b = fresh(), fresh()
        if a == b:
            b += "0"
        body = ex(t[1], d, scope + [(a, u), (a, u), (b, w), (b, w)])
        return f"(map [{a} {b}] {bound(u, d, scope)} {bound(w, d, scope)} {body})"
    u = member_type(SMALL, scope)
    a = fresh()
    return f"(map [{a}] {bound(u, d, scope)} {ex(t[1], d, scope + [(a, u)] * 3)})"


def union(t, d, scope):
    return node("union", ex(set_of(t), d, scope))


def ranged(t, d, scope):
    return pick(
        node("range", pick("0", "1", "1", "2"), pick("1", "2", "3", leaf(INT, scope))),
        node("range", leaf(INT, scope), pick("2", "3")),
        node("range", "1", node("add", leaf(INT, scope), "1")),
    )


def boolean(t, d, scope):
    return "(boolean)"


def domain(t, d, scope):
    u = RNG.choice([INT, BOOL, set_of(INT)])
    if t[1] == STR:
        return node("domain", pick(ex(fun_of(STR, u), d, scope), ex(rec_of(a=INT, b=BOOL), d, scope)))
    return node("domain", pick(ex(fun_of(INT, u), d, scope), ex(seq_of(u), d, scope), ex(tup_of(u, BOOL), d, scope)))


def few(t, scope):
    """A set of at most two members, or a name's."""
    names = leaves(set_of(t), scope)
    if names and RNG.random() < 0.6:
        return pick(*names)
    return noted(set_of(t), "{" + " ".join(leaf(t, scope) for _ in range(pick(0, 1, 2, 2))) + "}")


def powerset(t, d, scope):
    return node("powerset", few(t[1][1], scope))


def functions(t, d, scope):
    return node("funset", few(t[1][1], scope), few(t[1][2], scope))


def records(t, d, scope):
    fields = list(t[1][1])
    RNG.shuffle(fields)
    return f"(recset [{' '.join(f for f, _ in fields)}] {' '.join(few(u, scope) for _, u in fields)})"


def product(t, d, scope):
    return node("product", *[few(u, scope) for u in t[1][1]])


def literal(t, d, scope):
    if t[0] == "Tup":
        return noted(t, "<" + " ".join(ex(u, d, scope) for u in t[1]) + ">")
    return noted(t, "<" + " ".join(ex(t[1], d, scope) for _ in range(pick(0, 1, 2, 2, 3))) + ">")


def append(t, d, scope):
    return node("append", ex(t, d, scope), ex(t[1], d, scope))


def concat(t, d, scope):
    return node("concat", ex(t, d, scope), ex(t, d, scope))


def tail(t, d, scope):
    return node("tail", ex(t, d, scope))


def slice_of(t, d, scope):
    return node("subseq", ex(t, d, scope), ex(INT, min(d, 1), scope), ex(INT, min(d, 1), scope))


def steps(t, d, scope):
    """An index into a value of type t, and the type there."""
    if t[0] == "Seq":
        return ex(INT, min(d, 1), scope), t[1]
    if t[0] == "Fun":
        return ex(t[1], min(d, 1), scope), t[2]
    if t[0] == "Rec":
        f, u = RNG.choice(t[1])
        return f'"{f}"', u
    i = RNG.randrange(len(t[1]))
    return str(i + 1), t[1][i]


def except_of(t, d, scope):
    counts, parts = [], []
    for _ in range(pick(1, 1, 1, 2)):
        index, u = steps(t, d, scope)
        path = [index]
        while not isinstance(u, str) and u[0] in ("Seq", "Fun", "Rec", "Tup") and RNG.random() < 0.5:
            index, u = steps(u, d, scope)
            path.append(index)
        counts.append(str(len(path)))
        parts += path + [ex(u, d, scope + [("@", u)] * 3)]
    # Of two EXCEPTs in one another the places differ.
    global PLACES
    PLACES += 1
    return f"(except:{PLACES} [{' '.join(counts)}] {ex(t, d, scope)} {' '.join(parts)})"


def lambda_of(t, d, scope):
    if t[1][0] == "Tup":
        a, b = fresh(), fresh()
        if a == b:
            b += "0"
        u, w = t[1][1]
        body = ex(t[2], d, scope + [(a, u), (a, u), (b, w), (b, w)])
        return noted(t, f"(lambda [{a} {b}] {bound(u, d, scope)} {bound(w, d, scope)} {body})")
    a = fresh()
    return noted(t, f"(lambda [{a}] {bound(t[1], d, scope)} {ex(t[2], d, scope + [(a, t[1])] * 3)})")


def merge(t, d, scope):
    return node("merge", ex(t, d, scope), ex(t, d, scope))


def single(t, d, scope):
    return noted(t, node("single", ex(t[1], d, scope), ex(t[2], d, scope)))


def record(t, d, scope):
    order = list(t[1])
    RNG.shuffle(order)
    return f"(record [{' '.join(f for f, _ in order)}] {' '.join(ex(u, d, scope) for _, u in order)})"


def is_telling(e, letters):
    """Whether the expression says something of a name, and is not too long."""
    return "(" in e and len(e) <= 330 and (not letters or any(n in e for n in letters))


def line():
    letters = "xyz"[: pick(0, 1, 1, 2, 2, 2, 3)]
    types = [RNG.choice(TYPES) for _ in letters]
    front = "; ".join(f"{n}: {text(t)} = {value(t)} or {value(t)}" for n, t in zip(letters, types))
    scope = list(zip(letters, types))
    if RNG.random() < 0.25:
        scope += [(n + "'", t) for n, t in scope]
    global PLACES
    while True:
        PLACES = 0
        t = BOOL if RNG.random() < 0.5 else some_type(TYPES, scope)
        e = noted(t, ex(t, pick(2, 2, 3, 3, 4), scope))
        if is_telling(e, letters):
            return f"{front} | {e}" if front else e


def main():
    print("//! Random cases, written by bench/rewriting.py.\n")
    print('pub(crate) const RANDOM: &str =\n    r#"' + "\n".join(line() for _ in range(COUNT)) + '"#;')


main()
