"""Layouts: read, written as C names, and proposed for objects."""
import os
import re

from program import EXEC, Program, module_of
from refusal import Refusal

ALLOC, WRITE = 2, 1
STUB = 76  # the linker's code at an entry, and 2 bytes for each entry
KEY = "000102030405060708090a0b0c0d0e0f"


def value_of(text):
    """A number, a string or a list of these, as sancus(1) has them in layouts."""
    if text.startswith("["):
        return [value_of(part) for part in re.findall(r'"[^"]*"|\w+', text)]
    return text[1:-1] if text.startswith('"') else int(text, 0)


def read(path):
    layout = {"module": [], "vectors": {}}
    part = layout
    with open(path, encoding="ascii") as file:
        text = re.sub(r"#.*", "", file.read())
    for line in re.findall(r"^\s*(\[\[?\w+\]\]?|\w+\s*=\s*(?:\[[^]]*\]|[^\n]*))", text, re.M):
        if line.startswith("[["):
            part = {}
            layout["module"].append(part)
        elif line.startswith("["):
            part = layout.setdefault(line.strip("[]"), {})
        else:
            name, value = re.split(r"\s*=\s*", line, maxsplit=1)
            part[name] = value_of(value.strip())
    for module in layout["module"]:
        missing = {"name", "text", "data", "stack", "entries"} - set(module)
        if missing:
            raise Refusal(f"{path}: a module has no {', '.join(sorted(missing))}")
    return layout


def ids(layout):
    """The modules' ids: by their boots in version 2, else by their places."""
    order = sorted(layout["module"], key=lambda module: module.get("boot", 0))
    return {module["name"]: number for number, module in enumerate(order, 1)}


def header(path):
    layout = read(path)
    numbers = ids(layout)
    lines = [f"/* From {os.path.basename(path)}, by sancus-cc --header. Include the entries' prototypes before a call. */",
             "#pragma once", '#include "sancus.h"']
    for module in layout["module"]:
        name = module["name"]
        big = name.upper()
        lines += ["", f"#define {big}_ID {numbers[name]}"]
        for region in ("text", "data"):
            start, end = module[region]
            lines += [f"#define {big}_{region.upper()} {start:#06x}", f"#define {big}_{region.upper()}_END {end:#06x}"]
        for number, entry in enumerate(module["entries"]):
            lines.append(f"#define {big}_ENTRY_{entry} {number}")
        for entry in module["entries"]:
            lines.append(f"#define {name}_{entry}(...) SM_CALL_ENTRY({big}_TEXT, {big}_ENTRY_{entry}, {entry}, ##__VA_ARGS__)")
    return "\n".join(lines) + "\n"


def sizes(program):
    """The bytes of text and of data of each module, None being the outside."""
    total = {None: [0, 0]}
    for found in program.objects:
        for section in found.sections:
            if section.flags & ALLOC:
                taken = total.setdefault(module_of(section.name), [0, 0])
                kind = 1 if section.flags & WRITE else 0
                taken[kind] += section.size + max(section.align, 2) - 1
    return total


def entries_of(program, module, told):
    """Those that the user names, or all global functions that no other object of the module names."""
    if module in told:
        return told[module]
    names = []
    for name, place in program.globals.items():
        function = program.functions.get(place)
        inner = function and {user.module for user in function.named if user}
        if function and function.module == module and module not in inner and "." not in name:
            names.append(name)
    if not 1 <= len(names) <= 64:
        raise Refusal(f"module {module} has {len(names)} functions that may be entries; name 1 to 64: "
                      f"--entries {module}=FUNCTION,..")
    return names


def rounded(size):
    return (size + 15) // 16 * 16


def propose(paths, told):
    program = Program(paths)
    told = {pair.partition("=")[0]: pair.partition("=")[2].split(",") for pair in told}
    total = sizes(program)
    at, lines = 0x0200, []

    def region(size):
        nonlocal at
        start, at = at, at + max(rounded(size), 16)
        if at > 0xFFE0:
            raise Refusal(f"the objects need {at - 0xFFE0} bytes more than there are")
        return f"[{start:#06x}, {at:#06x}]"

    text, data = total.pop(None)
    top = ["version = 1" if len(total) <= 8 else "version = 2", f'key = "{KEY}"']
    outside = [f"text = {region(text)}", f"data = {region(data)}"]
    for number, (name, (text, data)) in enumerate(total.items(), 1):
        entries = entries_of(program, name, told)
        depths = [program.depth(program.globals[entry]) for entry in entries if program.globals.get(entry) in program.functions]
        unknown = None in depths
        stack = 256 if unknown else max(max(depths, default=0), 2)
        lines += ["", "[[module]]", f'name = "{name}"', "vendor = 1",
                  f"text = {region(text + STUB + 2 * len(entries))}", f"data = {region(data + 4 + stack)}",
                  f"stack = {stack}" + (" # a guess: recursion, or code without sizes" if unknown else ""),
                  "entries = [" + ", ".join(f'"{entry}"' for entry in entries) + "]"]
        if len(total) > 8:
            lines.append(f"boot = {number}")
    top += [f"handler_sp = {(at + 0x100 if at + 0x100 <= 0xFFE0 else at) & ~1:#06x}", *outside]
    start = ["", "[vectors]", 'v15 = "start"'] if "start" in program.globals else []
    return "\n".join(top + start + lines) + "\n"
