#!/usr/bin/env python3
"""sections.py [--share | --write FOLDER] CERTIFICATE..: gives the formula of each section of a certificate to minisat, and prints how
many sections, steps of logs and conflicts there are, and minisat's seconds. With --share the formula of the last question on an
invariant alone, as it is and with equal gates made one: its clauses, conflicts and seconds. With --write it writes the formula
of each section into the folder instead, for measure.py and other solvers."""
import os
import resource
import subprocess
import sys
import tempfile

def sections(path):
    question, clauses, steps = None, None, None
    with open(path) as file:
        for line in file:
            if line.startswith("query"): question = line.split(None, 1)[1].strip()
            elif line.startswith("p cnf"): clauses = []
            elif line.startswith("log"): steps = 0
            elif line.startswith("end"): yield question, clauses, steps; clauses, steps = None, None
            elif steps is not None: steps += 1
            elif clauses is not None: clauses.append(tuple(map(int, line.split()[:-1])))

def solve(clauses):
    count = max(abs(lit) for clause in clauses for lit in clause)
    with tempfile.NamedTemporaryFile("w", suffix=".cnf") as file:
        file.write(f"p cnf {count} {len(clauses)}\n")
        file.writelines(" ".join(map(str, clause)) + " 0\n" for clause in clauses)
        file.flush()
        before = resource.getrusage(resource.RUSAGE_CHILDREN).ru_utime
        ran = subprocess.run(["minisat", "-no-pre", "-verb=1", file.name], capture_output=True, text=True)
        took = resource.getrusage(resource.RUSAGE_CHILDREN).ru_utime - before
    if ran.returncode != 20: sys.exit(f"minisat ended with {ran.returncode}, and 20, no assignment, is wanted")
    told = [line.split(":")[1].split()[0] for line in ran.stdout.split("\n") if line.startswith("conflicts")]
    return int(told[0]), took

def shared(clauses):
    """The clauses with equal gates made one. A gate's clauses stand one behind the other, and its variable is their greatest."""
    groups, rest, greatest = [], [], 0
    for clause in clauses:
        top = max(map(abs, clause))
        if len(clause) > 1 and top > greatest: groups.append((top, [clause])); greatest = top
        elif len(clause) > 1 and groups and top == groups[-1][0]: groups[-1][1].append(clause)
        else: rest.append(clause)
    same, table, kept = {}, {}, []
    def now(lit): return same.get(abs(lit), abs(lit)) * (1 if lit > 0 else -1)
    def key(gate, out, sign):
        return tuple(sorted(tuple(sorted(0.5 * sign * (lit > 0) - 0.5 * sign * (lit < 0) if abs(lit) == out else lit for lit in it)) for it in gate))
    for out, gate in groups:
        gate = [tuple(now(lit) if abs(lit) != out else lit for lit in it) for it in gate]
        for sign in (1, -1):
            if key(gate, out, sign) in table: same[out] = sign * table[key(gate, out, sign)]; break
        else: table[key(gate, out, 1)] = out; kept += gate
    return kept + [tuple(map(now, it)) for it in rest]

def write(folder, path):
    """Writes a file NAME-LEVEL-QUESTION.cnf for each section."""
    name = os.path.splitext(os.path.basename(path))[0]
    for question, clauses, _ in sections(path):
        count = max(abs(lit) for clause in clauses for lit in clause)
        with open(os.path.join(folder, f"{name}-{question.replace(' ', '-')}.cnf"), "w") as file:
            file.write(f"p cnf {count} {len(clauses)}\n")
            file.writelines(" ".join(map(str, clause)) + " 0\n" for clause in clauses)

arguments, folder = sys.argv[1:], None
if "--write" in arguments:
    at = arguments.index("--write")
    folder = arguments[at + 1]
    del arguments[at:at + 2]
share = "--share" in arguments
for path in [it for it in arguments if it != "--share"]:
    name = os.path.basename(path)
    if folder is not None:
        write(folder, path)
        continue
    if share:
        clauses = [it for question, it, _ in sections(path) if question.endswith("inv-false")][-1]
        for what, them in (("as it is", clauses), ("shared", shared(clauses))):
            conflicts, took = solve(them)
            print(f"{name} {what}: {len(them)} clauses, {conflicts} conflicts, {took:.2f} s")
        continue
    count, steps, conflicts, took = 0, 0, 0, 0.0
    for _, clauses, more in sections(path):
        found, seconds = solve(clauses)
        count, steps, conflicts, took = count + 1, steps + more, conflicts + found, took + seconds
    print(f"{name}: {count} sections, {steps} steps, {conflicts} conflicts, {took:.2f} s")
