#!/usr/bin/env python3
"""Compares the specs/ folders with what public clauses reach, and docs/MODEL.md with what the headline reaches.

At the top of the repository: .ci/model.py. It says where a crate names another's specs/internal, where a public clause
reaches a definition there, where a definition outside is reached by none, and which file of the headline or of linking
docs/MODEL.md leaves out, has before one that it uses, or gives another number of lines of the headline, and where
README.md tells another sum of these. Its status is 1 where there is such a place. The last line is 'N definitions, M faults'.
"""
import pathlib, re, sys

import reached

HEADLINE = ["written_machine.specs.Trace.trace", "written_machine.specs.Peers.Peers", "written_machine.specs.View.view_of"]
LINKING = ["linker.specs.Image.Links"]
ROW = r"^.*`(crates/[^`]+\.antt)`[^|\n]*\|(?:\s*(\d+)\s*\|)?"


def internals():
    """Where a crate names the internal definitions of another, or a public clause reaches one."""
    for path in sorted(pathlib.Path("crates").glob("*/*/**/*")):
        if path.suffix in (".rt", ".antt") and "out" not in path.parts:
            for crate in re.findall(r"Rattle[.:]+(\w+)[.:]+specs[.:]+internal", path.read_text()):
                if crate != path.parts[1]:
                    yield f"{path} names the internal definitions of {crate}"
    everything = reached.reached_by_public()
    for module, file in reached.specs.items():
        for name in file.defs:
            is_internal = "internal" in file.module
            if is_internal and (module, name) in everything:
                yield f"{file.path}: a public clause reaches {name}"
            if not is_internal and (module, name) not in everything:
                yield f"{file.path}: no public clause reaches {name}"


def model():
    """What docs/MODEL.md tells otherwise than the definitions have it."""
    wanted = reached.reached_from(HEADLINE)
    ordered = wanted | reached.reached_from(LINKING)
    files = {str(file.path): (module, file) for module, file in reached.specs.items()}
    rows = re.findall(ROW, pathlib.Path("docs/MODEL.md").read_text(), re.M)
    told = [path for path, _ in rows]
    needed = {str(reached.specs[module].path) for module, name in ordered if module in reached.specs}
    for path in sorted(needed - set(told)):
        yield f"docs/MODEL.md leaves out {path}"
    seen = set()
    for path, lines in rows:
        if path not in files:
            yield f"docs/MODEL.md names {path}, which is not there"
            continue
        module, file = files[path]
        size = sum(file.sizes[name] for name in file.defs if (module, name) in wanted)
        if size != int(lines or 0):
            yield f"docs/MODEL.md: of {path} the headline reaches {size} lines, not {lines or 0}"
        for name in file.defs:
            later = {reached.specs[other].path for other, _ in reached.used((module, name)) if other in reached.specs}
            for other in later if (module, name) in ordered else ():
                if str(other) in told and str(other) != path and str(other) not in seen:
                    yield f"docs/MODEL.md: {path} uses {other}, which comes later"
        seen.add(path)
    counts = [int(lines) for _, lines in rows if lines]
    told = f"take {len(counts)} files and {sum(counts):,} lines"
    if told not in pathlib.Path("README.md").read_text():
        yield f"README.md: the definitions of the headline {told}"


reached.load()
faults = sorted(set(internals())) + list(dict.fromkeys(model()))
print(*faults, sep="\n" if faults else "")
print(f"{sum(len(file.defs) for file in reached.specs.values())} definitions, {len(faults)} faults")
sys.exit(1 if faults else 0)
