"""The objects of a link, as one program: which code lies in which module, and how deep its stacks go."""
import struct
import sys

from sancus.elf import Elf
from refusal import Refusal

ALLOC, EXEC = 2, 4
SECTION, FUNCTION = 3, 2


def module_of(name):
    """The module of a section's name, or None outside."""
    return name.split(".")[2] if name.startswith(".sm.") and name.count(".") >= 3 else None


class Function:
    """A function: who it calls by name, whether it calls by a pointer, and the bytes that it pushes."""

    def __init__(self, name, path, module):
        self.name, self.path, self.module, self.stack = name, path, module, None
        self.calls, self.named, self.by_pointer = set(), set(), False


def word_length(word):
    """The bytes of an instruction that begins with this word."""
    def words_of(mode, register):
        return 2 if mode == 1 and register != 3 or mode == 3 and register == 0 else 0
    if word >> 13 == 1:
        return 2
    if word >> 12 == 1:
        return 2 + words_of(word >> 4 & 3, word & 15)
    return 2 + words_of(word >> 4 & 3, word >> 8 & 15) + 2 * (word >> 7 & 1)


def indirect(code):
    """Whether a call or a jump in the code goes to a place that is not in its text."""
    at = 0
    while at + 1 < len(code):
        word, = struct.unpack_from("<H", code, at)
        if word & 0xFFC0 == 0x1280 and word != 0x12B0:
            return True
        if word & 0xF08F == 0x4000 and word not in (0x4130, 0x4030):
            return True
        at += word_length(word)
    return False


def uleb(data, at):
    value = shift = 0
    while True:
        byte = data[at]
        value |= (byte & 127) << shift
        at, shift = at + 1, shift + 7
        if byte < 128:
            return value, at


class Program:
    """The functions of all objects, by object and symbol, and the global names."""

    def __init__(self, paths):
        self.paths = paths
        self.objects = [Elf.load(path) for path in paths]
        self.functions, self.globals, self.taken = {}, {}, set()
        for number, found in enumerate(self.objects):
            self.add_functions(number, found)
        for number, found in enumerate(self.objects):
            self.add_stacks(number, found)
            for index, section in enumerate(found.sections):
                if section.flags & ALLOC:
                    self.add_references(number, found, index)

    def add_functions(self, number, found):
        for symbol in found.symbols:
            home, value = symbol.home, symbol.value
            if not 0 < home < len(found.sections):
                continue
            section = found.sections[home]
            if symbol.info >> 4:
                self.globals[symbol.name] = (number, home, value)
            if symbol.info & 15 == FUNCTION or symbol.info >> 4 and section.flags & EXEC:
                function = Function(symbol.name, self.paths[number], module_of(section.name))
                self.functions[number, home, value] = function
                end = value + symbol.size if symbol.size else section.size
                function.by_pointer = indirect(found.content(home)[value:end])

    def add_stacks(self, number, found):
        for index, section in enumerate(found.sections):
            if section.name != ".stack_sizes":
                continue
            relocations = {one.offset: one for one in found.relocations(index).values()}
            data, at = found.content(index), 0
            while at + 2 < len(data):
                place = self.place(number, found, relocations.get(at))
                size, after = uleb(data, at + 2)
                if place in self.functions:
                    self.functions[place].stack = size
                at = after

    def place(self, number, found, relocation):
        """Where a relocation points: object, section and offset, or None where no object defines it."""
        if relocation is None:
            return None
        symbol = found.symbols[relocation.symbol]
        if symbol.home == 0:
            return self.globals.get(symbol.name)
        return (number, symbol.home, symbol.value + (relocation.addend if symbol.info & 15 == SECTION else 0))

    def inside(self, number, index, offset):
        """The function in whose bytes an offset lies."""
        starts = [place for place in self.functions if place[:2] == (number, index) and place[2] <= offset]
        return self.functions[max(starts)] if starts else None

    def add_references(self, number, found, index):
        code = found.content(index)
        for relocation in found.relocations(index).values():
            offset = relocation.offset
            target = self.place(number, found, relocation)
            user = self.inside(number, index, offset)
            self.refuse_reference(number, index, relocation.symbol, target, user)
            callee = self.functions.get(target)
            if callee is None:
                continue
            before = code[offset - 2:offset]
            if user and before in (b"\xb0\x12", b"\x30\x40"):
                user.calls.add(target)
            elif user is not callee:
                self.taken.add(target)
            if not user or user.path != callee.path:
                callee.named.add(user)

    def refuse_reference(self, number, index, symbol, target, user):
        """A module's code that goes to code of another module, or outside, which is no entry."""
        found = self.objects[number]
        path, section = self.paths[number], found.sections[index].name
        module = module_of(section)
        if target is None:
            return
        used = self.objects[target[0]].sections[target[1]]
        other = module_of(used.name)
        executable = used.flags & EXEC
        name = found.symbols[symbol].name or used.name
        where = user.name if user else section
        if module and other is None and executable:
            raise Refusal(f"{path}: {where} in module {module} uses {name}, which lies outside; "
                          f"compile its file with --module {module}")
        if other and module != other and section != "__interrupt_vector":
            way = "use SM_CALL from outside, SM_LEAVE_FOR from a module"
            raise Refusal(f"{path}: {where} uses {name} of module {other} by its name; {way}")

    def depth(self, place, path=()):
        """Bytes that a call of the function takes, its return address among them; None where that is not known."""
        function = self.functions[place]
        if place in path or function.stack is None:
            return None
        callees = function.calls | (self.pointed(function.module) if function.by_pointer else set())
        depths = [self.depth(callee, path + (place,)) for callee in callees]
        return None if None in depths else 2 + function.stack + max(depths, default=0)

    def pointed(self, module):
        return {place for place in self.taken if self.functions[place].module == module}

    def deepest(self, module):
        """The deepest function of a module, or one of unknown depth."""
        depths = [(self.depth(place), function) for place, function in self.functions.items() if function.module == module]
        unknown = [pair for pair in depths if pair[0] is None]
        return unknown[0] if unknown else max(depths, key=lambda pair: pair[0], default=(0, None))


def check(layout, paths, alone=False):
    """Refuses objects that link by the layout and go wrong. One object alone is not the whole of a module."""
    program = Program(paths)
    modules = {module["name"]: module for module in layout["module"]}
    for path, found in zip(paths, program.objects):
        for section in found.sections:
            module = module_of(section.name)
            if module is not None and module not in modules and section.size:
                known = ", ".join(modules) or "none"
                raise Refusal(f"{path}: section {section.name}: the layout has no module {module} (it has: {known})")
    for name, module in modules.items():
        check_stack(program, module)
        for entry in module["entries"]:
            if not alone and entry not in program.globals:
                raise Refusal(f"entry {entry} of module {name}: no object defines it; it may be static, or misspelt")


def check_stack(program, module):
    entries = [program.globals[name] for name in module["entries"] if name in program.globals]
    for place in entries:
        if place not in program.functions:
            continue
        function, depth = program.functions[place], program.depth(place)
        if depth is None:
            print(f"sancus-cc: warning: {function.name}: its stack is not known (recursion, or code without sizes)", file=sys.stderr)
        elif depth > module["stack"]:
            raise Refusal(f"{function.path}: {function.name} needs {depth} bytes of stack; module {module['name']} has "
                          f"{module['stack']}: write 'stack = {depth}' in the layout")
