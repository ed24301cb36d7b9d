"""One object: clang, the places of its sections, and what would go wrong in silence."""
import os
import re
import shutil
import subprocess

from sancus.elf import Elf
from refusal import Refusal

TOP = os.path.dirname(os.path.dirname(os.path.dirname(os.path.realpath(__file__))))
RUNTIME = os.path.join(TOP, "lib", "module_runtime.S")
WRITE, ALLOC = 1, 2
NOBITS = 8
COMMON = 0xFFF2
FLOATS = re.compile(r"__mspabi_(add|sub|mpy|div|cmp|fix|flt|cvt|neg)\w*[fd]\w*$|__\w+[sd]f\d?$")
INTEGERS = re.compile(r"__mspabi_(mpy|div|rem)(i|u|l|li|ul|ll|lli|ull)$")
CONSTRUCTORS = (".init_array", ".preinit_array", ".fini_array", ".ctors", ".dtors")


def tool(variable, name):
    """The program that the environment names, or the newest of 19 to 14, or the one without a number."""
    names = [os.environ[variable]] if variable in os.environ else [name] + [f"{name}-{n}" for n in range(19, 13, -1)]
    for found in names:
        if shutil.which(found):
            return found
    raise Refusal(f"{names[0]} not found: install clang and llvm, or set {variable}")


def run(words):
    """The program's own status where it fails: it has said why."""
    status = subprocess.run(words, check=False).returncode
    if status:
        raise SystemExit(status)


def runtime_blocks():
    """Each function of the runtime, with the others that it calls."""
    with open(RUNTIME, encoding="ascii") as file:
        blocks = re.findall(r"^#ifdef NEED_(\w+)\n(.*?)^#endif", file.read(), re.M | re.S)
    names = {name for name, _ in blocks}
    return {name: {called for called in re.findall(r"#(\w+)", text) if called in names} for name, text in blocks}


def clang_words(words):
    """The options: the user's come last, so that they count."""
    ours = ["--target=msp430", "-fno-common", "-fstack-size-section", "-fno-jump-tables", "-DSANCUS_CC", "-I", TOP + "/include"]
    ours += ["-isystem", TOP + "/include/freestanding"]
    if not any(re.match(r"-O", word) for word in words):
        ours.append("-Os")
    if "-gdwarf-5" in words:
        raise Refusal("-gdwarf-5: the debuggers for the MSP430 read DWARF 4; write -g")
    if any(re.match(r"-g($|[1-9]|gdb|line)", word) for word in words):
        ours.append("-gdwarf-4")
        words = ["-gdwarf-4" if word == "-g" else word for word in words]
    return ours + words


def place_of(name, flags, kind, module):
    """Where a section goes that takes memory, with the flags that it is to have."""
    if not flags & WRITE or name.startswith(".data.rel.ro"):
        return f".sm.{module}.text,alloc,readonly,code"
    if kind == NOBITS:
        return f".sm.{module}.bss"
    return f".sm.{module}.data"


def refuse_object(path, found, module):
    """What the linker would take and the machine get wrong."""
    for index, section in enumerate(found.sections):
        name = section.name
        if name.startswith(CONSTRUCTORS) and section.flags & ALLOC:
            raise Refusal(f"{path}: section {name}: nothing runs constructors; call the function from an entry or from main")
        if name.startswith("__interrupt_vector"):
            refuse_interrupt(path, found, index, module)
        if name == ".sancus.calls":
            refuse_calls(path, found, index, module)
    for symbol in found.symbols:
        name, home = symbol.name, symbol.home
        if home == 0 and FLOATS.match(name) and not INTEGERS.match(name):
            raise Refusal(f"{path}: {name}: there is no floating point; use integers or fixed point")
        if home and name.startswith("_Z"):
            raise Refusal(f"{path}: {name} is a C++ name, which no layout finds; declare it extern \"C\"")
        if home == COMMON and module:
            raise Refusal(f"{path}: {name} is a common symbol; compile with -fno-common")


def targets(found, index):
    """The names of the sections that the relocations of this one point to."""
    for relocation in found.relocations(index).values():
        home = found.symbols[relocation.symbol].home
        if 0 < home < len(found.sections):
            yield found.sections[home].name


def refuse_interrupt(path, found, index, module):
    if module or any(name.startswith(".sm.") for name in targets(found, index)):
        raise Refusal(f"{path}: a handler with the attribute interrupt lies in a module; move it to a file without --module")


def refuse_calls(path, found, index, module):
    if module or any(name.startswith(".sm.") for name in targets(found, index)):
        raise Refusal(f"{path}: SM_CALL inside a module: the answer would come into its middle; use SM_LEAVE_FOR")


def finish(path, module):
    """Refuses the object, or moves its sections into the module and gives it helpers of its own."""
    found = Elf.load(path)
    refuse_object(path, found, module)
    if not module:
        return
    words, own = [], runtime_blocks()
    for section in found.sections:
        if section.flags & ALLOC and not section.name.startswith(".sm."):
            words += ["--rename-section", f"{section.name}={place_of(section.name, section.flags, section.kind, module)}"]
    for name in sorted({symbol.name for symbol in found.symbols} & set(own)):
        words += ["--redefine-sym", f"{name}={module}.{name}"]
    run([tool("OBJCOPY", "llvm-objcopy"), *words, path])


def output_of(words):
    """The object that clang writes, and the sources."""
    joined = [word[2:] for word in words if re.match("-o.", word)]
    sources = [word for word in words if re.search(r"\.(c|i|s|S|cc|cpp|cxx|C|c\+\+)$", word) and not word.startswith("-")]
    if "-o" in words[:-1]:
        at = words.index("-o")
        out = words[at + 1]
        sources = [word for word in sources if word != out]
        return out, sources
    if joined:
        return joined[-1], sources
    return os.path.splitext(os.path.basename(sources[0]))[0] + ".o" if len(sources) == 1 else None, sources


def compile_c(module, layout_file, words):
    if module is not None and not re.fullmatch(r"\w{1,32}", module, re.A):
        raise Refusal(f"--module {module}: a name has 1 to 32 letters, digits and '_'")
    out, sources = output_of(words)
    if "-c" not in words:
        if {"-E", "-S", "-M", "-MM", "-fsyntax-only"} & set(words):
            run([tool("CLANG", "clang"), *clang_words(words)])
            return 0
        raise Refusal("no '-c': this driver makes objects; link them with 'sancus link LAYOUT OBJECT..'")
    if not sources:
        raise Refusal("no input files")
    if out is None:
        raise Refusal("one source at a time: 'sancus-cc -c FILE -o FILE'")
    if re.search(r"\.(cc|cpp|cxx|C|c\+\+)$", sources[0]):
        raise Refusal(f"{sources[0]}: C++ needs a runtime that is not here; write C")
    run([tool("CLANG", "clang"), *clang_words(words)])
    try:
        finish(out, module)
        if layout_file:
            import layouts
            import program
            program.check(layouts.read(layout_file), [out], alone=True)
    except Refusal:
        os.remove(out)
        raise
    return 0


def make_runtime(module, objects, out):
    """An object with the helpers that the objects of a module (or of the outside) call."""
    if out is None:
        raise Refusal("--runtime needs '-o FILE'")
    blocks, prefix = runtime_blocks(), f"{module}." if module else ""
    defined, wanted = set(), set()
    for path in objects:
        for symbol in Elf.load(path).symbols:
            (defined if symbol.home else wanted).add(symbol.name)
    needs = [name for name in blocks if prefix + name in wanted - defined]
    for name in needs:
        needs += [called for called in sorted(blocks[name]) if called not in needs]
    for name in sorted(wanted - defined):
        if re.match(r"__mspabi_|__\w+[dt]i\d$", name) and name not in blocks:
            raise Refusal(f"{name}: the runtime does not have it; use narrower integers")
    run([tool("CLANG", "clang"), "--target=msp430", "-c", *(f"-DNEED_{name}" for name in needs), RUNTIME, "-o", out])
    finish(out, module)
