"""What each refusal means, and what to do: the forms of the manual's lists, with fields in capitals.

A sentence may have the fields of its form, and those that tools/why adds to them."""

DAMAGED = "the file is damaged: make it anew"
TABLE = "in the image's table, "

FILES = {
    "Absent": "there is no such file: check the name and the folder",
    "TooLong": "it has more than 1,048,576 bytes, and no file may be longer: part it",
    "Line N": "its line {N} has no form that may stand there: look for a blank at its end, a comment, a capital digit, "
              "0x where none belongs, CR before LF, or a missing last LF",
    "NotRising N": "the cycle, address or register of its line {N} is too low after the one before: sort the lines; "
                   "between challenges are at least 1,600 cycles",
    "TooMany": "it has too many lines: at most 65,536 make a schedule, 4,096 challenges, 256 arms, 270 terms",
    # images
    "Digit AT": "the byte at offset {AT} is no hexadecimal digit: write digits, in lower case",
    "Twice ADDRESS": "two of its rows have the address {ADDRESS}, which is 0x{HEX}: join them",
    "Version N": "it is of version {N}: write 1 or 2 into its first line, or make it anew by link",
    "Table ID Empty": TABLE + "a section of module {ID} has no bytes: set its end above its start",
    "Table ID Odd": TABLE + "a section of module {ID} has an odd start or end: make both even",
    "Table ID Overlap 0": TABLE + "the two sections of module {ID} share a byte: move one of them",
    "Table ID Overlap OTHER": TABLE + "sections of modules {ID} and {OTHER} share a byte: move one of them",
    "Table ID Reserved": TABLE + "a section of module {ID} lies below 0200 or goes past ffe0: move it between",
    "Table ID Full": TABLE + "module {ID} has no room: write at most 8 modules, or 32 in version 2",
    "Table ID Spent": TABLE + "no id is left for module {ID}: write fewer modules",
    "NoModule ID": "the image has no module {ID}: count its modules from 1",
    # layouts
    "Utf8OrToml": "it is no TOML text: look for a bracket or a quotation mark that is missing",
    "MissingKey PLACE KEY": "{WHERE} the key {KEY} is missing: add it",
    "WrongKind PLACE KEY": "{WHERE} the key {KEY} has a value of another kind: look at the manual's list of keys",
    "OutOfRange PLACE KEY VALUE": "{WHERE} the key {KEY} has the value {VALUE}, which is out of its range: "
                                  "look at the manual's list of keys",
    "UnknownKey PLACE": "{WHERE} there is a key that no layout has: remove it",
    "TooMany PLACE KEY": "{WHERE} the key {KEY} has too many: at most 8 modules, or 32 in version 2, and 64 entries",
    "Overlap A B": "{REGION_A} and {REGION_B} share a byte: move one of them",
    "SameName A B": "its modules {A} and {B} (counted from 0) have one name: rename one",
    "SameBoot A B": "its modules {A} and {B} (counted from 0) have one boot: give each its own",
    # objects
    "Short AT": "it ends at byte {AT}, before its headers do, and was cut off or is no object: make it anew",
    "Magic": "it is no ELF file: compile with -c for the MSP430",
    "Class": "it is no 32-bit ELF file: compile with --target=msp430",
    "Order": "its bytes are in big-endian order: compile with --target=msp430",
    "Version": "its version of ELF is not 1: compile with clang --target=msp430 -c",
    "Machine N": "it is for machine {N} and not for the MSP430, which is 105: compile with --target=msp430",
    "Kind N": "it is an ELF file of kind {N} and no object, which is 1: compile with -c",
    "Compressed I": "its section {I} is compressed: compile with -gz=none",
    "RelSection I": "the relocations in its section {I} have no addends: compile with clang --target=msp430 -c",
    "HeaderSize N": "its section headers have {N} bytes each, and not 40: " + DAMAGED,
    "Section I": "its section {I} lies past the end of the file, or is aligned to no power of two up to 32,768: "
                 "make it anew, with a smaller alignment where it has such a one",
    "Name I": "the name of its section {I} is not in the table of names: " + DAMAGED,
    "Link I": "its section {I} is not what refers to it needs, or refers to none that serves: " + DAMAGED,
    "Symbol I": "its symbol {I} has a name, a binding, a section or an alignment that none may have: " + DAMAGED,
    "Relocation S E": "entry {E} of its section {S} is a relocation of a symbol that is not there: " + DAMAGED,
    # scripts and traces
    "Number N": "a number of its line {N} is out of its bounds: look at the manual's list of lines",
    "NoEnd": "it has no end line, and was cut off: make the trace anew",
}

# What is told of a source in other words than of other files.
SOURCES = {
    "Line N": "its line {N} has none of a source's forms: part words by one blank, write a comma behind the first "
              "operand, and look into the manual for what stands in place of ret, br, pop, nop and the like",
    "Place N": "its line {N} may not stand in a section of this kind, or before the first section: move it",
    "Twice N": "the section or label of its line {N} was there before: rename one of them",
    "TooMany N": "with its line {N} there are more than 256 sections or 4,096 labels: part the source",
    "Large N": "with its line {N} the section has more than 65,534 bytes: begin another section",
    "NoLabel N": "the jump of its line {N} goes to a name that is no label of its section: "
                 "add the label, or go by mov #NAME, r0",
    "Far N OFFSET": "the label of the jump of its line {N} is {OFFSET} words ahead, and jumps reach from -512 to 511: "
                    "go by mov #NAME, r0",
}

ROOM = "{NEED} bytes are to go into {REGION}, which has room for {ROOM}: make it {MORE} bytes larger"

LINKS = {
    "NoPlace OBJECT SECTION": "{PATH}: no module of the layout has a place for the section {SECTION_NAME}: "
                              "its name must be .sm.MODULE.text, .data or .bss of a module that the layout names",
    "Duplicate EARLIER E OBJECT O": "{NAME} is defined in {EARLIER_PATH} and again in {PATH}: "
                                    "make one static or weak, or leave one object out",
    "Undefined OBJECT SYMBOL": "{PATH} uses {NAME}, which no object defines: add the object or the runtime that does",
    "NoVector VECTOR": "the layout names {NAME} for vector {VECTOR}, which no object defines as global: "
                       "add the object that does, or correct the name",
    "NoEntry MODULE ENTRY": "the layout names {NAME} as entry {ENTRY} of module {MODULE}, which no object defines as "
                            "global: add the object that does, or correct the name",
    "EntryElsewhere MODULE ENTRY": "{NAME}, entry {ENTRY} of module {MODULE}, is no even place in that module's code: "
                                   "put the function into the section .sm.MODULE.text",
    "Region Text NEED ROOM": ROOM.replace("{REGION}", "the layout's text"),
    "Region Data NEED ROOM": ROOM.replace("{REGION}", "the layout's data"),
    "Region ModuleText MODULE NEED ROOM": ROOM.replace("{REGION}", "the text of the layout's module {MODULE}"),
    "Region ModuleData MODULE NEED ROOM": ROOM.replace("{REGION}", "the data of the layout's module {MODULE}"),
    "Reloc OBJECT TABLE ENTRY Kind N": "{FIELD}: its kind {N} is none that the linker knows: "
                                       "compile without options that make others",
    "Reloc OBJECT TABLE ENTRY Outside": "{FIELD}: the field does not lie in the section: " + DAMAGED,
    "Reloc OBJECT TABLE ENTRY Odd VALUE": "{FIELD}: a jump would go {VALUE} bytes, which is odd: "
                                          "jump to functions and labels alone",
    "Reloc OBJECT TABLE ENTRY Range VALUE": "{FIELD}: {VALUE} is out of its range, which is -1022 to 1024 bytes for a "
                                            "jump: make the function shorter, or call what it jumps to",
}

STOP = "CYCLE stop {} pc PC addr ADDR module MODULE"
STOPPED = "in cycle {CYCLE} the instruction at {PC} was refused: "
RULES = {
    "FetchNotEntry": "it is in the text of module {MODULE}, and not its first word: enter the module there, with the "
                     "number of the function in R6",
    "FetchData": "it would begin in the data of module {MODULE}: look for a wrong jump, return or vector",
    "FetchDevice": "it would begin below 0200: look for a wrong jump or return, or a vector that is not set",
    "ReadData": "it reads {ADDR}, data of module {MODULE}, from elsewhere: ask the module by a call",
    "WriteData": "it writes {ADDR}, data of module {MODULE}, from elsewhere: let the module do it, or set R1 elsewhere",
    "WriteText": "it writes {ADDR}, text of module {MODULE}: keep what changes in data",
    "Reenter": "it would enter module {MODULE}, which is interrupted: let the handler end first",
    "Misaligned": "it reads or writes a word at the odd address {ADDR}: align words to even addresses",
    "Straddle": "its words lie in two places: let no instruction cross the end of a section",
    "Illegal": "the word there is no instruction: look for a jump into data, or an instruction of the MSP430X",
    "RetiInside": "it is reti inside module {MODULE}: leave the module as a call ends, and keep reti for handlers",
}

REFUSED = "at {AT}, "
VERDICT = "no AT {} VALUE"
REASONS = {
    "SecretBranch": "a conditional jump on flags that depend on a secret: compute without it, or balance its arms",
    "SecretAddress": "an access at an address that depends on a secret: go through all elements, or keep it public",
    "OutsideAccess": "an access that may leave the module's sections, to {VALUE} where that is not 0000: put constants "
                     "and tables into these sections",
    "SecretAtExit": "a secret in r{NUMBER} (r2 are the flags) where the module is left: clear it, or let sancus-lab "
                    "released judge it as an answer",
    "UnknownTarget": "it is not known where it goes on, or there are more than eight return addresses: call functions "
                     "by their names, without tables of jumps and without recursion",
    "Illegal": "the word {VALUE}, which is no instruction, or reti: keep data out of the text, and leave the module as "
               "a call ends",
    "Unit": "a unit instruction other than 0, 5 and 6, of number {NUMBER}: have it done outside the module",
    "TooMany": "there are more than 16,384 pairs of an address and return addresses: make the module smaller, or call "
               "its functions from fewer places",
    "Arm": "an instruction that may not stand in an arm, or the arm leaves the text: write arms that go forward, "
           "without calls, returns, unit instructions and conditional jumps",
    "ArmTime": "{WHICH} does not take the cycles claimed: make both arms equal, or correct the claim",
    "DataAtExit": "a secret in the public word {VALUE} where the module is left: take the word out of the terms",
}

# Whole lines of what is written.
LINES = {
    **{STOP.format(rule): STOPPED + sentence for rule, sentence in RULES.items()},
    **{VERDICT.format(reason): REFUSED + sentence for reason, sentence in REASONS.items()},
    "no AT NotData": "{AT} is none of the first 256 words of the module's data: take this public word out of the terms",
    "refused MarksFull N": "{N} marks are made, and there are no more: go back to one of them",
    "refused NoMark K": "there is no mark {K}, and they count from 0: make it by mark first",
    "refused NotThere ADDRESS": "the outside did not begin {ADDRESS} since that mark: take an earlier mark",
    "refused ReadData addr ADDR module MODULE": "{ADDR} is data of module {MODULE}: look at what lies outside modules",
}

# What the programs say of neither a file nor objects.
WORDS = {
    "usage": "the words are no command: the manual lists them",
    "no memory": "memory ran out: end other programs, or give it more",
    "cannot read NAME": "{NAME}: the system gave no bytes: check the permissions, and that it is a file",
}
