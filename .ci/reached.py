#!/usr/bin/env python3
"""Says which definitions of specs/ a reader needs, to understand what some functions promise.

At the top of the repository: .ci/reached.py [WORD..], where a WORD is a public function (sm_cli::serve, if none is given), a
crate for all of its, or a definition, as written_machine.specs.Trace.trace. It prints the spec files that these reach,
each after those that it uses, the types of src/ that they name, and what no public clause reaches. It goes by names:
one that a clause binds is the variable there, a type with a model is its Value alone, a trait is all its clauses.
"""
import functools, pathlib, re, sys, types

WORD = r"(?<![\w.)'])[^\W\d][\w']*(?:\.[^\W\d][\w']*)*"
USE = r"^ *(?:unfoldable )?(pub )?(?:ghost )?use ([^\s{;]+?)(?:(?:\.|::)\{([^}]*)\})?(?: as (\w+))?;?$"
ITEM = r"(?:pub(?:\([a-z]+\))? )?(?:struct|enum|type|trait|const|impl|fn|ghost)\b|    (?:pub )?(?:fn|ghost)\b"
PART = r"( *)(pub )?(?:pub\([a-z]+\) )?(?:const (?=fn))?(\w+)(?: (\w+))?"
IMPL = r"impl(?:<.*?>)? (?:(?:\w+::)*(\w+)(?:<.*?>)? for )?&?(?:\w+::)*(\w+)"
BOUND = r"λ ([^.]*)\.|[({]([^(){}:]*) :|\blet ([^=:]*) [=:]|([\w(), ]+) ←|^ +pub (\w+) :|\b(\w+): |^\S+ ([^:=\n]*) =\s"
specs, sources = {}, {}  # by a module's path: its file · by a crate: its files
declared, public = {}, []  # by (crate, name): (file, text) of a type's parts · (crate, name, file, contract)


def read(path, comment):
    """The file without comments and the insides of strings, and what its use lines bring: name -> paths."""
    text = re.sub(comment, "", re.sub(r'"(?:[^"\\\n]|\\.)*"', '""', path.read_text()), flags=re.M)
    crate, uses, passed = path.parts[1], {}, set()
    for is_pub, head, group, alias in re.findall(USE, text, re.M):
        head = re.sub(r"^(crate|super|self)\b", crate, head)
        for part in [part.strip().split(" as ") for part in group.split(",") if part.strip()] or [["", alias or head]]:
            name = re.split(r"\.|::", part[-1])[-1]
            uses.setdefault(name, []).append((head + "." + part[0]).replace("::", ".").rstrip("."))
            passed.update([name] if is_pub else [])
    module = [part for part in path.with_suffix("").parts[3:] if part not in ("Lib", "lib", "main")]
    text = re.sub(USE, "", text, flags=re.M)
    return types.SimpleNamespace(path=path, crate=crate, module=module, uses=uses, passed=passed, text=text)


def read_spec(path):
    file = read(path, "--.*")
    block = r"^module _.*\n((?:(?: .*)?\n)+)"  # what stands in a block counts as if it stood outside
    text = re.sub(block, lambda found: re.sub("^  ", "", found[1], flags=re.M), file.text, flags=re.M)
    file.defs, file.sizes, file.makers = {}, {}, {}
    for part in re.split(r"^(?=pub |abbrev |unfoldable |infix)", text, flags=re.M):
        if start := re.match(r"(?:(?:pub|abbrev|unfoldable|record|(data)) )+(?!mod )(\S+) ", part):
            file.defs[start[2]] = re.split(r"\n(?=\S)", part)  # the signature and the clauses
            file.sizes[start[2]] = sum(1 for line in part.split("\n") if line.strip())
            file.makers.update((name, start[2]) for name in re.findall(r"^ +(\w+) :", part, re.M) if start[1])
    file.heads = {head for path in sum(file.uses.values(), []) for head in (path, path.rpartition(".")[0])}
    specs[".".join(["Rattle", file.crate, "specs", *file.module])] = file


def read_sources(crate, files):
    opened = {name for file in files for name in re.findall(r"^pub mod (\w+);", file.text, re.M)}
    passed = set().union(*(file.passed for file in files))
    for file, part in [(file, part) for file in files for part in re.split(f"^(?={ITEM})", file.text, flags=re.M)[1:]]:
        indent, is_pub, sort, name = re.match(PART, part).groups()
        if not indent:
            kind, (trait, owner) = sort, re.match(IMPL, part).groups() if sort == "impl" else (None, name)
        if sort == "fn":  # without its body
            has_contract = re.search(r"^ +(requires|ensures) ", part, re.M)
            part = re.split(r"^ *\{\}?$" if has_contract else r"\{\}?$", part, maxsplit=1, flags=re.M)[0]
        if trait == "Model" and name == "Value":
            declared[crate, owner] = [(file, part)]
        elif kind not in ("impl", "fn"):
            declared.setdefault((crate, owner), []).append((file, part))
        is_open = set(file.module) <= opened or owner in passed
        if is_open and sort in ("fn", "ghost") and trait != "Model" and (is_pub or trait or kind == "trait"):
            public.append((crate, name, file, f"{part} {owner}"))


def find(*paths):
    """What the first of these paths means that means a definition, (module, name), or a type of src/, (crate, name)."""
    for path in paths:
        path = path.removeprefix("Rattle.")
        crate, *rest = path.split(".")
        passed = []
        if crate in sources and rest and (rest[0] != "specs" or rest[1:2] == ["declared"]):
            name = rest[rest.index("TheVariants") - 1] if "TheVariants" in rest else rest[-1]
            if (crate, name) in declared:
                return (crate, name)
            passed = [path for file in sources[crate] if name in file.passed for path in file.uses[name]]
        for at, name in enumerate(rest):
            module = ".".join(["Rattle", crate, *rest[:at]])
            if module in specs and name in specs[module].defs | specs[module].makers:
                return (module, specs[module].makers.get(name, name))
            if module in specs:
                passed += [".".join([path, *rest[at + 1 :]]) for path in specs[module].uses.get(name, [])]
        if found := find(*(other for other in passed if other.removeprefix("Rattle.") != path)):  # a module may have its crate's name
            return found
    return None


def names(file, clause):
    """What a clause of this file uses."""
    clause = re.sub(r"([{;] *|^ +)\w+ =(?= |$)", r"\1=", clause.replace("::", "."), flags=re.M)  # no labels of records
    bound = set(re.findall(WORD, " ".join(sum(re.findall(BOUND, clause, re.M), ()))))
    bound -= set(re.findall(r"\b(\w+) ← \1\b", clause))
    top, found = "Rattle." + file.crate, set()
    for word in re.findall(WORD, clause) + (["◌>>=◌"] if re.search(r"\bdo\b|>>=", clause) else []):
        head, _, rest = word.partition(".")
        own = [".".join([top, "specs", *file.module, head])] if hasattr(file, "defs") else [top + "." + head, word]
        node = find(*[new for path in file.uses.get(head, []) for new in (path, path + "." + rest)], *own)
        is_maker = node and (node in declared or (head != node[1] and node[1] in specs[node[0]].makers.values()))
        found.update([node] if node and (head not in bound or is_maker) else [])
    return found


@functools.cache
def used(node):
    parts = declared.get(node) or [(specs[node[0]], part) for part in specs[node[0]].defs[node[1]]]
    return set().union(*(names(file, part) for file, part in parts))


def reach(nodes, nexts):
    reached = set()
    while nodes := nodes - reached:
        reached |= nodes
        nodes = set().union(*map(nexts, nodes))
    return reached


def load():
    """Reads the spec files and sources of all crates."""
    for folder in sorted(pathlib.Path("crates").iterdir()):
        for path in sorted(folder.glob("specs/**/*.antt")):
            read_spec(path)
        dropped = r"//.*|^ *#.*|^    [A-Z]\w*"  # also attributes, and the names of variants, which types may have too
        sources[folder.name] = [read(path, dropped) for path in sorted(folder.glob("src/**/*.rt"))]
        read_sources(folder.name, sources[folder.name])


def reached_from(words):
    """What these words reach."""
    wanted = set()
    for word in words:
        told = (names(file, part) for crate, name, file, part in public if word in (crate, crate + "::" + name))
        if not (found := set().union({find("Rattle." + word)} - {None}, *told)):
            sys.exit(f"no public function, crate or definition {word} names a definition")
        wanted |= found
    return reach(wanted, used)


def reached_by_public():
    """What the clauses of all public functions reach."""
    return reach(set().union(*(names(file, part) for _, _, file, part in public)), used)


def in_order():
    """The spec files, each after those that it uses."""
    below = {module: reach({module}, lambda other: specs[other].heads & specs.keys()) for module in specs}
    return sorted(specs.items(), key=lambda item: len(below[item[0]]))


def main():
    load()
    reached = reached_from(sys.argv[1:] or ["sm_cli::serve"])
    everything = reached_by_public()
    total = [0, 0, 0, 0]
    for module, file in in_order():
        if mine := [name for name in file.defs if (module, name) in reached]:
            sizes = [len(mine), sum(file.sizes[name] for name in mine), sum(file.sizes.values()), 1]
            total = [old + new for old, new in zip(total, sizes)]
            print(f"{file.path}: {sizes[1]} of {sizes[2]} lines, {sizes[0]} of {len(file.defs)} definitions")
    print("In all {0} definitions of {1} lines, in {3} files of {2} lines.".format(*total))
    named = sorted("::".join(node) for node in reached & declared.keys())
    print(f"\nThey name {len(named)} types and constants of src/:", *named)
    print("\nWhat no clause of a public function reaches:")
    for module, file in specs.items():
        if rest := [name for name in file.defs if (module, name) not in everything]:
            print(f"{file.path}: {sum(file.sizes[name] for name in rest)} of {sum(file.sizes.values())} lines:", *rest)


if __name__ == "__main__":
    main()
