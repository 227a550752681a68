#!/usr/bin/env python3
"""protocols.py [--check]: writes the modules of examples/ as the texts of tests, in crates/front_tests/src, or with --check
tells whether they are there as they stand. A line behind `>` stands before each module: `root` or `part` (a module that
others use), its name, and the numbers of paths of Init and Next, which are counted by hand (docs/EXAMPLES.md)."""
import os
import sys

TOP = os.path.dirname(os.path.dirname(os.path.abspath(__file__)))
PROTOCOLS = """Peterson 1 4
BoundedBuffer 1 6
ReadersWriters 1 5
ThreePhaseCommit 1 12
LeaderElection 1 2
Paxos 1 4
Lease 1 4
CacheCoherence 1 4
Termination 1 4
Transfer 1 3"""
SMALL = """Toggle 1 2
Hall 1 2
Lamp
DieHard 1 8
TwoPhase 1 7
Plus 1 2
Ring 1 1
Steps 1 1
Inc"""

def text(table):
    for line in table.split("\n"):
        name = line.split()[0]
        with open(f"{TOP}/examples/{name}.tla") as module:
            kind = "root" if " " in line else "part"
            yield f"\n>{kind} {line}\n{module.read().rstrip()}"

def source(what, name, table):
    return f'// {what}, written by docs/protocols.py.\npub(crate) const {name}: &str = r#"' + "".join(text(table)) + '\n"#;\n'

status = 0
for file, what, name, table in (
    ("protocol_texts", "The protocols of examples/", "PROTOCOLS", PROTOCOLS),
    ("small_texts", "The other modules of examples/", "SMALL", SMALL),
):
    path = f"{TOP}/crates/front_tests/src/{file}.rt"
    new = source(what, name, table)
    if "--check" in sys.argv:
        if not os.path.isfile(path) or open(path).read() != new:
            print(f"{file}.rt differs from examples/")
            status = 1
    else:
        open(path, "w").write(new)
sys.exit(status)
