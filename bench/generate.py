#!/usr/bin/env python3
"""Writes formulas in DIMACS form: generate.py FAMILY SIZE [SEED].

pigeons N: N pigeons in N - 1 holes. random N SEED: 3-clauses over N variables at a ratio of 4.26.
product N: two words of N bits whose products in the two orders differ, from full adders.
parity N: a chain of N exclusive ors that is asked to have both values.
With a seed the variables, clauses and literals of a family that is not random are shuffled.
"""
import random
import sys


class Formula:
    def __init__(self):
        self.count = 0
        self.clauses = []

    def fresh(self):
        self.count += 1
        return self.count

    def add(self, *clause):
        self.clauses.append(clause)

    def conjunction(self, a, b):
        c = self.fresh()
        self.add(-c, a)
        self.add(-c, b)
        self.add(c, -a, -b)
        return c

    def exclusive(self, a, b):
        c = self.fresh()
        self.add(-c, a, b)
        self.add(-c, -a, -b)
        self.add(c, -a, b)
        self.add(c, a, -b)
        return c

    def disjunction(self, a, b):
        return -self.conjunction(-a, -b)

    def shuffle(self, seed):
        source = random.Random(seed)
        number = list(range(1, self.count + 1))
        source.shuffle(number)
        self.clauses = [
            [number[abs(l) - 1] * (1 if l > 0 else -1) for l in source.sample(clause, len(clause))]
            for clause in source.sample(self.clauses, len(self.clauses))
        ]

    def write(self):
        print("p cnf", self.count, len(self.clauses))
        for clause in self.clauses:
            print(*clause, 0)


def pigeons(f, n):
    sits = [[f.fresh() for _ in range(n - 1)] for _ in range(n)]
    for row in sits:
        f.add(*row)
    for hole in range(n - 1):
        for i in range(n):
            for j in range(i):
                f.add(-sits[i][hole], -sits[j][hole])


def random_clauses(f, n, seed):
    source = random.Random(seed)
    for _ in range(n):
        f.fresh()
    for _ in range(round(4.26 * n)):
        f.add(*[v * source.choice((1, -1)) for v in source.sample(range(1, n + 1), 3)])


def product_of(f, xs, ys):
    n = len(xs)
    rows = [[f.conjunction(x, y) for x in xs] for y in ys]
    out = [rows[0][0]]
    carry_in = rows[0][1:] + [None]
    for row in rows[1:]:
        sums, carry = [], None
        for a, b in zip(row, carry_in):
            bits = [x for x in (a, b, carry) if x is not None]
            if len(bits) == 1:
                sums.append(bits[0])
                carry = None
            elif len(bits) == 2:
                sums.append(f.exclusive(*bits))
                carry = f.conjunction(*bits)
            else:
                half = f.exclusive(bits[0], bits[1])
                sums.append(f.exclusive(half, bits[2]))
                carry = f.disjunction(f.conjunction(bits[0], bits[1]), f.conjunction(half, bits[2]))
        out.append(sums[0])
        carry_in = sums[1:] + [carry]
    return out + [x for x in carry_in if x is not None]


def product(f, n):
    xs = [f.fresh() for _ in range(n)]
    ys = [f.fresh() for _ in range(n)]
    left, right = product_of(f, xs, ys), product_of(f, ys, xs)
    f.add(*[f.exclusive(a, b) for a, b in zip(left, right)])


def parity(f, n):
    xs = [f.fresh() for _ in range(n)]
    forward = xs[0]
    for x in xs[1:]:
        forward = f.exclusive(forward, x)
    order = list(range(n))
    random.Random(1).shuffle(order)
    backward = xs[order[0]]
    for k in order[1:]:
        backward = f.exclusive(backward, xs[k])
    f.add(f.exclusive(forward, backward))


def main():
    f = Formula()
    family, size = sys.argv[1], int(sys.argv[2])
    if family == "random":
        random_clauses(f, size, int(sys.argv[3]))
    else:
        {"pigeons": pigeons, "product": product, "parity": parity}[family](f, size)
        if len(sys.argv) > 3:
            f.shuffle(int(sys.argv[3]))
    f.write()


main()
