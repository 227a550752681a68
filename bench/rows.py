#!/usr/bin/env python3
"""Writes the cases of crates/row_tests (its src/cases.rt): rows.py > crates/row_tests/src/cases.rt.

Each line is a call and its operands, at random from a fixed seed. No value is expected here: the tests ask the
evaluator for it, under every value of the four bits. How operands are written stands in src/operands.rt.
"""
import random

RNG = random.Random(2019)
COUNT = 20


def some(letters, count):
    return "".join(RNG.choice(letters) for _ in range(count))


# Few different arguments, so that many are equal, some of them by a bit; any result; and literals of which a
# tenth are never true.
def argument():
    return RNG.choice("00112233mmkk")


def result():
    return RNG.choice("01234567/mkw")


def literal():
    return RNG.choice("aabbccddABCDTTTTTF")


# Mostly numbers of places, and now and then -1, 0 and one past the end, or any of these by the four bits.
def index():
    return RNG.choice("1112223mmkkwww45/07")


def count(most):
    return RNG.choice([0, *range(1, most + 1), *range(2, most + 1)])


def function(most=4):
    return "f" + "".join(argument() + literal() + result() for _ in range(count(most)))


def test(most=4):
    return "g" + "".join(argument() + literal() + literal() for _ in range(count(most)))


def members(most=3):
    return "s" + "".join(argument() + literal() for _ in range(count(most)))


# Mostly one of the function's own.
def argument_of(word):
    own = word[1::3]
    return RNG.choice(own) if own and RNG.random() < 0.7 else argument()


# Often more places than the length can say.
def sequence(least=0):
    bits = max(least, count(3))
    places = 2**bits - 1 + RNG.choice([0, 0, 1, 2])
    return "q" + "".join(result() for _ in range(places)) + ":" + some("abcdabcdABCDTF", bits)


def pair():
    return "r" + result() + result()


def items(parts):
    return "t" + "".join(result() for _ in range(parts))


def threes(word):
    return [word[i : i + 3] for i in range(1, len(word), 3)]


# Another literal, often the negation.
def turned(letter):
    return letter.swapcase() if letter in "abcdABCD" and RNG.random() < 0.6 else literal()


# Another function, of the same arrows or with one changed, perhaps in another order, or behind one that is
# never there.
def changed(word):
    arrows = threes(word)
    if arrows and RNG.random() < 0.6:
        at = RNG.randrange(len(arrows))
        old = arrows[at]
        to = result() if word[0] == "f" else turned(old[2])
        arrows[at] = RNG.choice([old[0] + turned(old[1]) + old[2], old[0] + old[1] + to])
        if RNG.random() < 0.3:
            arrows.append(old)
    if RNG.random() < 0.5:
        RNG.shuffle(arrows)
    if arrows and RNG.random() < 0.3:
        arrows.insert(0, argument() + "F" + arrows[0][2])
    return word[0] + "".join(arrows)


# The same places or some of them, at the same length or another.
def trimmed(word):
    places, bits = word[1:].split(":")
    if RNG.random() < 0.5:
        bits = some("abcdABCDTF", len(bits))
    if RNG.random() < 0.5:
        places = places[: 2 ** len(bits) - 1] + some("0m", RNG.randint(0, 1))
    return "q" + places + ":" + bits


def retouched(word):
    letters = list(word)
    if len(letters) > 1 and RNG.random() < 0.7:
        letters[RNG.randrange(1, len(letters))] = result()
    return "".join(letters)


def two(kind):
    first = {"f": function, "g": test, "q": sequence, "r": pair, "t": lambda: items(count(4))}[kind]()
    if kind in "fg":
        return first, changed(first) if RNG.random() < 0.7 else function() if kind == "f" else test()
    if kind == "q":
        return first, trimmed(first) if RNG.random() < 0.6 else sequence()
    return first, retouched(first)


def key_of(word):
    return str(RNG.randint(1, len(word) - 1))


# Each call with what makes its operands; of records and tuples fewer, since they are plain.
def lines():
    for _ in range(COUNT):
        word = function(5)
        yield "at", [word, "n" + argument_of(word)]
    for _ in range(COUNT):
        yield "at", [sequence(), "n" + index()]
    for _ in range(COUNT):
        word = function(5)
        yield "update", [word, "n" + argument_of(word), "n" + result()]
    for _ in range(COUNT):
        yield "update", [sequence(), "n" + index(), "n" + result()]
    for _ in range(COUNT):
        yield "domain", [function(5)]
    for _ in range(COUNT // 4):
        yield "domain", [pair()]
    for parts in range(8):
        yield "domain", [items(parts)]
    for _ in range(COUNT):
        yield "domain", [sequence()]
    for _ in range(COUNT):
        yield "join", [function(), function()]
    for kind, number in [("f", COUNT), ("g", COUNT), ("q", COUNT), ("r", COUNT // 2), ("t", COUNT // 2)]:
        for _ in range(number):
            yield "same", two(kind)
        for _ in range(number):
            yield "choose", ["b" + literal(), *two(kind)]
    for _ in range(COUNT):
        arrows = [["b" + literal(), "n" + argument(), "n" + result()] for _ in range(RNG.randint(1, 4))]
        yield "make", [word for arrow in arrows for word in arrow]
    for _ in range(COUNT):
        yield "functions", [members(), members()]
    for _ in range(COUNT // 2):
        yield "field." + RNG.choice("np"), [pair()]
    for _ in range(COUNT // 2):
        yield "with_field." + RNG.choice("np"), [pair(), "n" + result()]
    for _ in range(COUNT // 2):
        word = items(RNG.randint(1, 4))
        yield "item." + key_of(word), [word]
    for _ in range(COUNT // 2):
        word = items(RNG.randint(1, 4))
        yield "with_item." + key_of(word), [word, "n" + result()]
    for _ in range(COUNT):
        yield "length", [sequence()]
    for _ in range(COUNT):
        yield "push", [sequence(), "n" + result()]
    for _ in range(COUNT):
        yield "glue", [sequence(), sequence()]
    for _ in range(COUNT):
        yield "rest", [sequence()]
    for _ in range(2 * COUNT):
        yield "slice", [sequence(2), "n" + index(), "n" + index()]
    # A length outside of the width.
    for op in ["length", "domain"]:
        yield op, ["q" + some("01234567", 15) + ":aaaB"]
        yield op, ["q" + some("01234567", 16) + ":abcd"]


def picks():
    for _ in range(COUNT):
        yield "pick", [members(), members()]


def text(rows):
    return "\n".join(" ".join([op, *words]) for op, words in rows)


print(
    f'''//! Calls and their operands, a case a line, and two sets a line for functions that are picked: written by
//! bench/rows.py. After the point of a call stands the name of a field or the number of an item.

pub(crate) const CASES: &str = r#"{text(lines())}
"#;

pub(crate) const PICKS: &str = r#"{text(picks())}
"#;'''
)
