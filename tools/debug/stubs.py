"""What a debugger is to know of the code that the linker writes at a module's entry: a symbol, and where the caller is.

The code keeps the caller's SP in the first word of the module's data and the address to go back to in the second."""
import struct

STACK, POPPED, REFUSED, SIZE = 0x20, 0x2A, 0x48, 0x4C  # places in the code, by what was done before them
PC, SP, R7 = 0, 1, 7
ADVANCE, DEF_CFA, DEF_CFA_EXPRESSION, REGISTER, VAL_EXPRESSION, REMEMBER, RESTORE = 0x40, 0x0C, 0x0F, 0x09, 0x16, 0x0A, 0x0B
OP_CONST2U, OP_DEREF_SIZE = 0x0A, 0x94  # not DW_OP_addr: debuggers differ in its size


def entries(told):
    """Name, first address and size of the code at the entry of each module that has some."""
    for module in told.modules.values():
        first = min([p.place.start for p in told.parts if p.place.start in module.text], default=module.text.stop)
        if first - module.text.start > SIZE:
            yield f"{module.name}.entry", module.text.start, first - module.text.start


def word_at(address):
    """An expression: the word in memory there."""
    return struct.pack("<BBHBB", 5, OP_CONST2U, address, OP_DEREF_SIZE, 2)


def padded(body):
    """An entry of the table: its length, and its bytes with nothing to do behind them."""
    body += bytes(-len(body) % 4)
    return struct.pack("<I", len(body)) + body


def frames(told, begin):
    """The rows of a section .debug_frame for the code at the entries, which stand from a place of it on."""
    start = bytes([DEF_CFA, SP, 0, REGISTER, PC, R7])
    made = padded(struct.pack("<I4B", 0xFFFFFFFF, 1, 0, 1, 0x7E) + bytes([PC]) + start)
    for _, text, size in entries(told):
        data = next(module.data.start for module in told.modules.values() if module.text.start == text)
        rules = bytes([REMEMBER, ADVANCE | STACK, DEF_CFA_EXPRESSION]) + word_at(data) \
            + bytes([VAL_EXPRESSION, PC]) + word_at(data + 2) \
            + bytes([ADVANCE | POPPED - STACK, DEF_CFA, SP, 0, ADVANCE | REFUSED - POPPED, RESTORE])
        made += padded(struct.pack("<3I", begin, text, size) + rules)
    return made
