#!/bin/sh
# Builds the images of this folder's programs anew from their sources: clang (MSP430, -O2), then `sancus link`.
#     bench/programs/build.sh [PROGRAM]
here=$(dirname -- "$(readlink -f -- "$0")") || exit 1
program=${1:-$here/../../sancus}
room=$(mktemp -d) || exit 1
trap 'rm -rf "$room"' EXIT
for source in start checksum sort tables search cipher calls module; do
    clang --target=msp430 -O2 -fno-builtin -fno-jump-tables -c "$here/$source.c" -o "$room/$source.o" || exit
done
for name in checksum sort tables search cipher calls module; do
    layout=$here/plain.toml
    [ "$name" != module ] || layout=$here/module.toml
    "$program" link "$layout" "$room/start.o" "$room/$name.o" >"$here/$name.img" || exit
done
