#!/usr/bin/env python3
"""Tells how the time of a check divides: phases.py PROGRAM LENGTH MODULE..

PROGRAM is the built symbolic_mc, with its symbols. Each MODULE is checked to LENGTH under `perf record` with call
stacks, in a folder of its own. A sample counts for the first phase below that has a function on its stack, so what the encoder
asks of the formula is building, and what the search does beneath a question is solving. A phase names the function or
crate by which it is entered, and the crates that it alone calls, since deep stacks are cut.
"""
import os
import re
import shutil
import subprocess
import sys
import tempfile

# A phase, and the crates and modules of its functions.
PHASES = [
    ("telling", "trace_decoder tla_evaluator trace_text"),
    (
        "building",
        "step_encoder branch_cells path_cells path_walks path_bounds tree_bounds expr_rewriter form_cells form_choices"
        " value_operators function_operators set_rewriter function_rewriter sequence_rewriter member_choices"
        " outcome_cells typed_cells cell_merge cell_arena word_blaster",
    ),
    ("printing", "refutation_checker::printing symbolic_mc::saving"),
    ("following", "refutation_checker"),
    ("solving", "cdcl_solver watched_search watch_chains"),
    (
        "reading",
        "front_end accepted_systems tla_modules tla_lexer tla_parser flat_modules op_inliner snowcat_rows snowcat_types"
        " kernel_reduction kera_reducer transition_splitter assignment_finder shape_bounds kernel_shapes kernel_trees",
    ),
]
PHASES = [(phase, tuple(name + "::" for name in names.split())) for phase, names in PHASES]


def phase_of(stack):
    for phase, heads in PHASES:
        if any(name.startswith(heads) for name in stack):
            return phase
    return "other"


def samples(text):
    """The stacks of `perf script`: a head line, a line for each frame, an empty line."""
    for part in text.split("\n\n"):
        frames = [re.match(r"\s+[0-9a-f]+ (.+?)(?:\+0x[0-9a-f]+)? \(", line) for line in part.split("\n")[1:]]
        names = [frame[1] for frame in frames if frame]
        if names:
            yield names


def shares(program, length, module):
    with tempfile.TemporaryDirectory() as folder:
        shutil.copy(module, folder)
        data = os.path.join(folder, "perf.data")
        record = ["perf", "record", "-q", "-F", "2000", "-g", "-o", data]
        words = [program, "check", os.path.basename(module), length]
        subprocess.run(record + words, cwd=folder, stdout=subprocess.DEVNULL, check=False)
        script = ["perf", "script", "-i", data, "-F", "comm,ip,sym,dso"]
        text = subprocess.run(script, capture_output=True, text=True, check=True).stdout
    counts = {phase: 0 for phase, _ in PHASES} | {"other": 0}
    for stack in samples(text):
        counts[phase_of(stack)] += 1
    return counts


def main():
    program, length, modules = os.path.abspath(sys.argv[1]), sys.argv[2], sys.argv[3:]
    names = [phase for phase, _ in PHASES] + ["other"]
    print("| Module | Samples |", " | ".join(names), "|")
    print("|---|---|" + "---|" * len(names))
    for module in modules:
        counts = shares(program, length, module)
        total = sum(counts.values())
        cells = [f"{100 * counts[name] / total:.1f} %" if total else "" for name in names]
        print("|", os.path.basename(module).removesuffix(".tla"), "|", total, "|", " | ".join(cells), "|", flush=True)


main()
