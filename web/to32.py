#!/usr/bin/env python3
"""Rewrites the LLVM module of the proved program, made for x86-64, for wasm32.

    to32.py MODULE.ll OUT.ll

The program reckons sizes and offsets with pointers of 8 bytes. So each pointer in memory keeps 8 bytes, of which the
upper four are 0, and nothing moves. A line of a form that is not known here ends the work: it is told, and no file
is left.
"""
import itertools
import os
import re
import sys

LAYOUT = 'target datalayout = "e-m:e-p:32:32-p10:8:8-p20:8:8-i64:64-i128:128-n32:64-S128-ni:1:10:20"'
TRIPLE = 'target triple = "wasm32-unknown-unknown"'
NAME = r'(?:"[^"]*"|[\w.$-]+)'
VALUE = rf"(%{NAME}|@{NAME}|null|poison)"
PLACE = rf"ptr {VALUE}, align \d+"
META = r"(?:, ![\w.]+ !\d+)*"
FIELD = re.compile(rf"ptr (?:getelementptr \(i8, ptr @{NAME}, i64 \d+\)|@{NAME}|null)$")
PLAIN = r"(?:i\d+|double|float|<\d+ x i\d+>|\{ (?:i\d+|double)(?:, (?:i\d+|double))* \})"
CALLED = re.compile(r"@llvm\.([\w.]+)")
# Intrinsics that neither read nor write memory.
PURE = re.compile(r"trap$|(?:cttz|ctlz|ctpop|bswap|bitreverse|abs|smax|smin|umax|umin|fshl|fshr)\.i\d+$|"
                  r"[su](?:add|sub|mul)\.with\.overflow\.i\d+$|[su](?:add|sub)\.sat\.i\d+$|arithmetic\.fence\.f\d+$")
# What stays as it is, although it speaks of pointers.
KEPT = [re.compile(it) for it in (
    rf"  \S+ = load {PLAIN}, {PLACE}{META}$",
    rf"  store {PLAIN} [^@]+, {PLACE}$",
    r"  \S+ = getelementptr (?:inbounds )?(?:nuw )?i8, ptr \S+, i64 \S+$",
    rf"  (?:\S+ = )?call [^(@%]*(?:\([\w, .]*\) )?[@%](?!llvm\.){NAME}\(.*\)(?: #\d+)?$",
    r"  \S+ = (?:extractvalue|insertvalue|phi|select|icmp|freeze) .*$",
    r"  ret .*$",
)]


class Unknown(Exception):
    pass


class Rewriter:
    def __init__(self):
        self.made = 0
        self.forms = [(re.compile(form), rewrite) for form, rewrite in (
            (rf"  (\S+) = load ptr, {PLACE}{META}$", self.load),
            (rf"  store ptr {VALUE}, {PLACE}$", self.store),
            (rf"  (\S+) = load \{{ (i\d+|ptr), (i\d+|ptr) \}}, {PLACE}$", self.load_pair),
            (r"  (\S+) = alloca ptr, align (\d+)$", lambda name, align: [f"  {name} = alloca i64, align {align}"]),
            (r"  (\S+) = ptrto(?:addr|int) ptr (\S+) to i64$",
             lambda name, it: [f"  {name} = ptrtoint ptr {it} to i64"]),
            (rf"  call void @llvm\.memset\.p0\.i64\(ptr {VALUE}, i8 ([^,]+), i64 ([^,]+), i1 false\)$", self.fill),
            (rf"  call void @llvm\.(memmove|memcpy)\.p0\.p0\.i64\(ptr {VALUE}, ptr {VALUE}, i64 ([^,]+), i1 false\)$",
             self.move),
        )]

    def fresh(self):
        self.made += 1
        return f"%to32.{self.made}"

    def load(self, name, place):
        wide = self.fresh()
        return [f"  {wide} = load i64, ptr {place}, align 8", f"  {name} = inttoptr i64 {wide} to ptr"]

    def store(self, value, place):
        wide = self.fresh()
        return [f"  {wide} = ptrtoint ptr {value} to i64", f"  store i64 {wide}, ptr {place}, align 8"]

    def load_field(self, name, kind, place):
        return self.load(name, place) if kind == "ptr" else [f"  {name} = load {kind}, ptr {place}, align 1"]

    def load_pair(self, name, first, second, place):
        """A pair with a pointer: the second field stands at offset 8, whatever the first is."""
        one, two, at, part = (self.fresh() for _ in range(4))
        pair = f"{{ {first}, {second} }}"
        return [
            *self.load_field(one, first, place),
            f"  {at} = getelementptr i8, ptr {place}, i64 8",
            *self.load_field(two, second, at),
            f"  {part} = insertvalue {pair} poison, {first} {one}, 0",
            f"  {name} = insertvalue {pair} {part}, {second} {two}, 1",
        ]

    def size(self, count):
        if not count.startswith("%"):
            return [], count
        short = self.fresh()
        return [f"  {short} = trunc i64 {count} to i32"], short

    def fill(self, place, byte, count):
        lines, short = self.size(count)
        return [*lines, f"  call void @llvm.memset.p0.i32(ptr {place}, i8 {byte}, i32 {short}, i1 false)"]

    def move(self, name, to, place, count):
        lines, short = self.size(count)
        return [*lines, f"  call void @llvm.{name}.p0.p0.i32(ptr {to}, ptr {place}, i32 {short}, i1 false)"]

    def instruction(self, line):
        intrinsic = CALLED.search(line)
        if not re.search(r"\bptr\b|inttoptr|ptrto", line) and not intrinsic:
            return [line]
        for form, rewrite in self.forms:
            if match := form.match(line):
                # A pair without a pointer is read as it is.
                if rewrite != self.load_pair or "ptr" in match.groups():
                    return rewrite(*match.groups())
        if intrinsic and PURE.match(intrinsic[1]):
            return [line]
        if any(form.match(line) for form in KEPT):
            return [line]
        raise Unknown(line)

    def constant(self, line):
        """A constant with pointers is a packed record: behind each pointer come four bytes that are 0."""
        if not re.search(r"\bptr\b", line):
            return line
        match = re.match(r"(@\S+ = [\w ]*constant) <\{ (.*?) \}> <\{ (.*) \}>(, align \d+)$", line)
        if not match:
            raise Unknown(line)
        kinds = match[2].split(", ")
        values = split_fields(match[3])
        if len(kinds) != len(values):
            raise Unknown(line)
        for at, kind in enumerate(kinds):
            if kind == "ptr":
                if not FIELD.match(values[at]):
                    raise Unknown(line)
                kinds[at], values[at] = "ptr, [4 x i8]", values[at] + ", [4 x i8] zeroinitializer"
            elif not re.match(r"\[\d+ x i8\]$", kind):
                raise Unknown(line)
        return f"{match[1]} <{{ {', '.join(kinds)} }}> <{{ {', '.join(values)} }}>{match[4]}"


def split_fields(text):
    """The fields of a record: a comma in a string or in brackets divides none."""
    return re.findall(r'(?:\[\d+ x i8\] (?:c"[^"]*"|zeroinitializer)|ptr (?:getelementptr \([^)]*\)|[^,]+))', text)


def heading(line):
    """A line outside of functions: the head, declarations and attributes."""
    if "sanitize_address" in line:
        raise Unknown("a sanitizer: the module is not of a proved build")
    if line.startswith("target datalayout"):
        return LAYOUT
    if line.startswith("target triple"):
        return TRIPLE
    if line.startswith("declare") and "@llvm.mem" in line:
        return line.replace(".i64(", ".i32(").replace(", i64, i1", ", i32, i1")
    if line.startswith("attributes"):
        line = re.sub(r' "(?:probe-stack|stack-probe-size|target-cpu|target-features)"="[^"]*"', "", line)
    return line


def start(lines):
    """The start for x86-64 asks for signals and the processor's kind first: here it only calls the program."""
    body = list(itertools.takewhile(lambda line: line != "}\n", lines))
    calls = [line for line in body if re.match(r'  %\w+ = call i32 @"\w+::main\+start"\(\)$', line)]
    if len(calls) != 1:
        raise Unknown("a start that calls the program not just once")
    name = calls[0].split()[0]
    return ["define i32 @sancus_main() {", calls[0].rstrip("\n"), f"  ret i32 {name}", "}"]


def rewritten(rewriter, line, lines):
    if line.startswith("define i32 @main()"):
        return start(lines)
    if line.startswith("  "):
        return rewriter.instruction(line)
    return [rewriter.constant(line) if line.startswith("@") else heading(line)]


def main():
    source, target = sys.argv[1:]
    rewriter = Rewriter()
    try:
        with open(source, encoding="utf-8") as lines, open(target, "w", encoding="utf-8") as out:
            for line in lines:
                out.writelines(f"{it}\n" for it in rewritten(rewriter, line.rstrip("\n"), lines))
    except Unknown as line:
        os.remove(target)
        sys.exit(f"to32.py: a form that is not known: {line}")
    print(f"to32.py: {rewriter.made} places rewritten")


main()
