#!/usr/bin/env python3
"""place.py LAB: gives a lab checkout the libraries that runs of rt ci on this machine have proved and kept, with the stamps that
rt check looks for, so that it need not build them again. For labs alone: what rt ci keeps is only read, and a crate is
placed only where its sources, and those of all crates below it, are the ones that were proved."""
import json
import os
import shutil
import sys

sys.path.insert(0, "/opt/rattle/bin")
lab = os.path.abspath(sys.argv[1]); os.chdir(lab)
import importlib.util, importlib.machinery
loader = importlib.machinery.SourceFileLoader("rt", "/opt/rattle/bin/rt"); spec = importlib.util.spec_from_loader("rt", loader)
rt = importlib.util.module_from_spec(spec); sys.argv = ["rt"]; loader.exec_module(rt)
rtlib = rt.rtlib
rtlib.Crate = rt.Crate
crates = sorted(rtlib.crates_below(lab), key=lambda it: len(it.below()))
kept = rt.Kept(crates)
new, have = [], []
for crate in crates:
    if crate.is_program: continue
    if any(it.name not in kept.rlibs for it in crate.below()): continue
    key = kept.key(crate)
    at = kept.place(crate, False, key)
    out = f"{crate.folder}/out"
    mark = f"{out}/rlib/placed"
    if os.path.isfile(mark) and open(mark).read() == key and os.path.isfile(f"{out}/rlib/stamp") and open(f"{out}/rlib/stamp").read() == crate.stamp():
        kept.is_built(crate); have.append(crate.name); continue
    if not os.path.isfile(f"{at}/made.json"): continue
    shutil.rmtree(f"{out}/rlib", ignore_errors=True)
    made = json.load(open(f"{at}/made.json"))
    for number, (path, sum) in enumerate(made["files"]):
        to = f"{out}/{path}"
        os.makedirs(os.path.dirname(to), exist_ok=True)
        shutil.copyfile(f"{at}/{number}", to)
    kept.is_built(crate)
    with open(f"{out}/rlib/stamp", "w") as it: it.write(crate.stamp())
    with open(mark, "w") as it: it.write(key)
    new.append(crate.name)
print("placed:", " ".join(new), "| were there:", " ".join(have))
