#!/usr/bin/env python3
"""Measures solvers on the same files: measure.py FOLDER RUNS.

FOLDER has the files that generate.py wrote. Each solver is run in turn on each file; the least time of the processor
counts. Files of one family and size (their names up to a dash) make one line, whose times are sums.
"""
import os
import re
import resource
import subprocess
import sys

OWN = os.path.join(os.path.dirname(__file__), "../crates/dimacs_solver/out/dimacs_solver")
SOLVERS = {
    "cdcl_solver": [OWN],
    "minisat": ["minisat", "-no-pre", "-verb=1"],
    "cadical": ["cadical"],
}
CONFLICTS = {
    "cdcl_solver": r"c learned (\d+)",
    "minisat": r"conflicts +: (\d+)",
    "cadical": r"c conflicts: +(\d+)",
}


def run(name, path):
    before = resource.getrusage(resource.RUSAGE_CHILDREN)
    try:
        done = subprocess.run(SOLVERS[name] + [path], capture_output=True, text=True, timeout=120)
    except subprocess.TimeoutExpired:
        return 120.0, None, None
    after = resource.getrusage(resource.RUSAGE_CHILDREN)
    found = re.search(CONFLICTS[name], done.stdout)
    spent = after.ru_utime + after.ru_stime - before.ru_utime - before.ru_stime
    return spent, done.returncode, int(found[1]) if found else None


def main():
    folder, runs = sys.argv[1], int(sys.argv[2])
    lines = {}
    for file in sorted(os.listdir(folder)):
        results = {
            name: [run(name, os.path.join(folder, file)) for _ in range(runs)] for name in SOLVERS
        }
        statuses = {status for tries in results.values() for _, status, _ in tries} - {None}
        if len(statuses) != 1:
            print(file, "has two answers or none:", statuses)
        answer = "yes" if 10 in statuses else "no"
        family = re.sub(r"-\d+", "", file.removesuffix(".cnf")) + ", " + answer
        for name, tries in results.items():
            line = lines.setdefault((family, name), [0, 0.0, 0])
            line[0] += 1
            line[1] += min(spent for spent, _, _ in tries)
            line[2] += tries[0][2] or 0
    for family in dict.fromkeys(family for family, _ in lines):
        cells = [f"{lines[family, name][1]:.3f} ({lines[family, name][2]})" for name in SOLVERS]
        ratio = lines[family, "cdcl_solver"][1] / lines[family, "minisat"][1]
        print("|", family, "|", lines[family, "minisat"][0], "|", " | ".join(cells), "|", f"{ratio:.1f} |")


main()
