#!/bin/sh
# Makes a program's module for WebAssembly from its proved build.
#     web/build.sh [--lab] [OUT]
# The program is sancus, or sancus-lab with --lab; OUT is release/sancus.wasm or release/sancus-lab.wasm where it is left
# out. `rattle build` proves and builds the program over the proved
# libraries that stand in out/, with a toolchain whose clang keeps the LLVM module that it is given. Where the program
# that comes of it is the one that stands in its crate's out/, byte by byte, that module is rewritten for wasm32 and compiled.
set -eu
here=$(dirname -- "$(readlink -f -- "$0")")
top=$(dirname -- "$here")
name=sancus crate=sm_main
if [ "${1:-}" = --lab ]; then
    name=sancus-lab crate=lab_main
    shift
fi
out=$(readlink -m -- "${1:-$top/release/$name.wasm}")
kit=$(dirname -- "$(dirname -- "$(readlink -f -- "$(command -v rt)")")")
tools=$kit/toolchain/bin

stop() {
    printf 'build.sh: %s\n' "$1" >&2
    exit 1
}

# The crates of the repository that the program is made of.
parts() {
    awk -F: -v program="$crate" '
        !/^#/ && NF > 1 { split($1, name, " "); below[name[1]] = $2 }
        function visit(crate,    names, n, i) {
            if (!(crate in below) || crate in seen) return
            seen[crate] = 1
            n = split(below[crate], names, " ")
            for (i = 1; i <= n; i++) visit(names[i])
            print crate
        }
        END { visit(program) }' "$top/crates.txt"
}

# What the program's own crate names, of the repository or of the kit.
named() {
    sed -n "s/^${crate}[^:]*://p" "$top/crates.txt"
}

# The program, built with the toolchain in the room.
build() {
    set -- --crate-name "$crate" src/main.rt --links "$crate=" \
        --backend llvm --toolchain "$room/toolchain" -o "$room/program.x86.o" \
        --antt-project "$kit/rattle/logic/antt-project.json" --logic-built "$kit/logic_built" \
        --extern "std=$kit/rlibs/std.rlib" -L "dependency=$kit/rlibs"
    for part in $(named); do
        library=$top/crates/$part/out/rlib/$part.rlib
        [ -d "$top/crates/$part" ] || library=$kit/rlibs/$part.rlib
        set -- "$@" --extern "$part=$library"
    done
    for part in $(parts); do
        [ "$part" = "$crate" ] && continue
        library=$top/crates/$part/out/rlib
        [ -e "$library/$part.rlib/format" ] ||
            stop "no proved library in $library: \`rt run\` in crates/$crate makes it"
        set -- "$@" -L "dependency=$library"
    done
    cd "$top/crates/$crate"
    "$kit/bin/rattle" build "$@" >"$room/log" 2>&1 ||
        stop "the program is not proved and built: $(tail -n 1 "$room/log")"
    grep -q '^logic=proved ' "$room/log" || stop "rattle build does not say that the program is proved"
    "$kit/bin/rattle-link" --target x86_64-unknown-linux-gnu --toolchain "$kit/toolchain" -o "$room/program" \
        "$room/program.x86.o" "$kit/c/libos_c.a" "$kit/c/liblibc_c.a" >"$room/log" 2>&1 ||
        stop "the program could not be linked: $(tail -n 1 "$room/log")"
}

# The module that was kept, if it is the only one.
kept_module() {
    set -- "$room"/kept/*
    if [ $# -ne 1 ] || ! [ -f "$1" ]; then
        stop "clang was not given just one module, without a sanitizer"
    fi
    printf '%s\n' "$1"
}

compile() {
    wasm="--target=wasm32-unknown-unknown -mcpu=mvp -mno-bulk-memory -mno-bulk-memory-opt --no-default-config"
    "$tools/clang" --target=x86_64-unknown-linux-gnu --no-default-config -S -emit-llvm -Xclang -disable-llvm-passes \
        -x ir "$1" -o "$room/module.ll"
    "$here/to32.py" "$room/module.ll" "$room/module32.ll" >&2
    # shellcheck disable=SC2086
    "$tools/clang" $wasm -mllvm -trap-unreachable -ffunction-sections -fdata-sections -O2 \
        -c -x ir "$room/module32.ll" -o "$room/program.o"
    # shellcheck disable=SC2086
    "$tools/clang" $wasm -ffreestanding -fno-builtin -nostdinc -Wall -Werror -O2 -c "$here/libc.c" -o "$room/libc.o"
    "$tools/ld.lld" -flavor wasm -m wasm32 --no-entry -z stack-size=8388608 --stack-first --gc-sections --strip-all \
        -O2 -o "$room/module.wasm" "$room/program.o" "$room/libc.o"
}

[ -x "$top/crates/$crate/out/$crate" ] || stop "no proved program stands in crates/$crate/out"
room=$(mktemp -d)
trap 'rm -rf "$room"' EXIT
mkdir -p "$room/toolchain/bin" "$room/kept"
ln -s "$kit/toolchain/lib" "$room/toolchain/lib"
for tool in "$tools"/*; do
    ln -s "$tool" "$room/toolchain/bin/"
done
ln -s "$tools/clang" "$room/clang"
ln -sf "$here/clang" "$room/toolchain/bin/clang"
build
cmp -s "$room/program" "$top/crates/$crate/out/$crate" ||
    stop "the build is not the program that stands in crates/$crate/out"
compile "$(kept_module)"
mkdir -p "$(dirname -- "$out")"
mv -- "$room/module.wasm" "$out"
sha256sum "$out"
