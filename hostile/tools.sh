#!/bin/sh
# shellcheck disable=SC2016 # `$` in the edits of sed is the last line
# Damaged input for each script of tools/: every one is refused with status 2 and one line on standard error, and nothing is written.
#     hostile/tools.sh [SANCUS [SANCUS_LAB]]
# SANCUS and SANCUS_LAB are ./sancus and ./sancus-lab where they are left out. The last line is 'N passed, M failed'.
top=$(dirname -- "$(readlink -f -- "$0")")/.. || exit 1
sancus=$(readlink -f -- "${1:-$top/sancus}") || exit 1
lab=$(readlink -f -- "${2:-$top/sancus-lab}") || exit 1
room=$(mktemp -d) || exit 1
trap 'rm -rf "$room"' EXIT
passed=0
failed=0
WANTED=215

# row WHAT: counts a row by the status of the command before it.
row() {
    if [ $? -eq 0 ]; then
        passed=$((passed + 1))
    else
        failed=$((failed + 1))
        printf 'failed: %s\n' "$1"
        head -n 3 "$room/said" "$room/got"
    fi
}

# sums: the files here, by their sums.
sums() {
    sha256sum -- * 2>/dev/null
}

# refused WORDS..: whether a script of tools/ refuses these words, and leaves every file as it was.
refused() {
    sums >"$room/before"
    what=$*
    tool=$1
    shift
    "$top/tools/$tool" "$@" >"$room/got" 2>"$room/said"
    status=$?
    [ "$status" -eq 2 ] && [ ! -s "$room/got" ] && [ "$(wc -l <"$room/said")" -eq 1 ] && ! grep -q 'Error\|Traceback' "$room/said" \
        && sums | cmp -s - "$room/before"
    row "$what (status $status)"
}

# accepted WORDS..: whether a script takes what is sound.
accepted() {
    what=$*
    tool=$1
    shift
    "$top/tools/$tool" "$@" >"$room/got" 2>"$room/said" && [ ! -s "$room/said" ]
    row "$what is taken"
}

# edited FROM TO SCRIPT: a damaged copy by sed, which has to differ.
edited() {
    sed "$3" "$1" >"$2"
    ! cmp -s "$1" "$2"
    row "$2 differs"
}

mkdir "$room/files" && cd "$room/files" || exit 1
ln -s "$top/examples" ../examples
layout=../examples/c_modules/layout.toml
object=../examples/c_modules/shop.o
pulse=../examples/interrupts/pulse_inside.txt
"$sancus" link "$layout" "$object" >shop.img || exit 1
"$lab" map "$layout" "$object" >shop.map || exit 1
"$sancus" run "$layout" - 240 "$object" >trace || exit 1
"$lab" steps shop.img - 240 >walk || exit 1
"$sancus" link ../examples/lines/layout.toml ../examples/lines/dial.o >dial.img || exit 1
cp "$object" shop.o
for kind in hex txt elf; do
    "$top/tools/convert" shop.img "shop.$kind" || exit 1
done

# What can be wrong with any file.
: >empty
head -c 3000 /dev/zero | tr '\0' '\377' >binary
printf 'words that are no format\n' >prose
mkdir folder
accepted names shop.map trace
accepted vcd trace "$pulse"
accepted vcd walk
accepted elf shop.map shop.img made.elf shop.o
accepted map_check "$sancus" shop.map "$layout" shop.o
for bad in absent empty binary prose folder; do
    refused names $bad trace
    refused elf $bad shop.img out.elf shop.o
    refused elf shop.map $bad out.elf shop.o
    refused elf shop.map shop.img out.elf $bad
    refused map_check "$sancus" $bad "$layout" shop.o
    refused map_check "$sancus" shop.map $bad shop.o
    refused map_check "$sancus" shop.map "$layout" $bad
    refused vcd $bad
    [ $bad = empty ] || refused vcd trace $bad
    refused convert shop.img out.hex --head $bad
    for kind in img hex txt elf; do
        [ $bad = absent ] || cp -r $bad $bad.$kind
        refused convert $bad.$kind out.img
    done
done
refused names shop.map absent
refused names shop.map binary

# Maps: cut behind each kind of line, and one edit for each kind.
for lines in 1 2 5 9 12 20; do
    head -n $lines shop.map >cut.map
    refused names cut.map trace
    refused elf cut.map shop.img out.elf shop.o
    refused map_check "$sancus" cut.map "$layout" shop.o
done
head -c -1 shop.map >cut.map
refused names cut.map trace
number=0
for edit in 's/^sancus-map 1/sancus-map 2/' 's/^module 1 bank 1200/module 1 bank 120G/' 's/^module 2/module 1/' 's/^part 0200/part 9200/' \
    's/^part 0200/part 1200/' 's/ 0 0 3 .text$/ 0 0 03 .text/' 's/^entry 124e/entry 0x124e/' 's/^vector 15/vector 16/' 's/ local / here /' \
    '$s/$/\nend/' '5s/$/ /' '3s/^/\n/'; do
    number=$((number + 1))
    edited shop.map edited.map "$edit"
    refused names edited.map trace
done

# The objects are not those of the map.
refused elf shop.map shop.img out.elf shop.o shop.o
refused elf shop.map shop.img out.elf ../examples/c/meter.o
refused elf shop.map shop.img out.elf
head -c 600 shop.o >cut.o
refused elf shop.map shop.img out.elf cut.o
# What is written is what is read.
refused elf shop.map shop.img shop.img shop.o
refused elf shop.map shop.img shop.o shop.o
refused elf shop.map shop.img shop.map shop.o
ln -s shop.img other.img
refused elf shop.map shop.img other.img shop.o
refused convert shop.img shop.img
refused convert shop.hex other.img --head shop.img
refused elf shop.map shop.img folder/none/out.elf shop.o

# Images.
head -n -1 shop.img >cut.img
refused convert cut.img out.hex
head -c -1 shop.img >cut.img
refused convert cut.img out.hex
for edit in 's/^at 0/at 10/' 's/^\(module .*\) [0-9a-f]*$/\1/' 's/^module 0/module 0x0/' 's/^at 0210/at 0200/' 's/^at 0210/at 0211/' \
    's/^at 0200/at 0100/' 's/^key 0/key /' 's/^handler /handler 0/' 's/^sancus-image ./sancus-image 3/' 's/^\(at 0200 .*\)..$/\1/' \
    '$s/$/\nend/' 's/$/\r/' 's/^\(at [0-9a-f]* .*\)[a-f]/\1A/'; do
    edited shop.img edited.img "$edit"
    refused convert edited.img out.hex
done
refused convert shop.img out.xyz
refused convert shop.img

# Intel HEX, TI-TXT, ELF.
head -n -1 shop.hex >cut.hex
refused convert cut.hex out.img
edited shop.hex edited.hex '2s/.$/G/'
refused convert edited.hex out.img
edited shop.hex edited.hex '2s/^:10/:11/'
refused convert edited.hex out.img
head -n -1 shop.txt >cut.txt
refused convert cut.txt out.img
edited shop.txt edited.txt '2s/^../1/'
refused convert edited.txt out.img
edited shop.txt edited.txt '1d'
refused convert edited.txt out.img
edited shop.txt edited.txt '1s/.*/@FFFFF/'
refused convert edited.txt out.img
for size in 20 60 100 200; do
    head -c $size shop.elf >cut.elf
    refused convert cut.elf out.img
done
cp shop.o object.elf
refused convert object.elf out.img

# Traces and schedules.
head -n -1 trace >short
refused vcd short
head -c -1 trace >short
refused vcd short
refused vcd "$pulse"
refused vcd trace trace
refused vcd trace walk
refused vcd trace shop.img
head -n -1 walk >short
refused vcd short
for edit in '2s/^[0-9]*/0/' '$s/$/\nend 240 stopped/' '1s/enter/enters/' '1s/$/ /' '$s/end 240/end 1/' '$s/ [0-9a-f]*$//' '1s/^/0/'; do
    edited trace edited "$edit"
    refused vcd edited
done
for edit in '1s/up/high/' '1s/line 0/line 4/' '$s/^[0-9]*/1/' '1s/^/0/' '1s/$/ # pulse/'; do
    edited "$pulse" edited "$edit"
    refused vcd trace edited
done
refused vcd
refused vcd trace "$pulse" "$pulse"
refused names

# A reader that goes away, and one that never was there.
for words in "names shop.map long" "vcd trace" "why"; do
    yes '232 leave 2 pc 022a' | head -n 20000 >long
    # shellcheck disable=SC2086 # some words
    "$top/tools/"$words <long 2>"$room/said" | head -n 1 >"$room/got"
    [ ! -s "$room/said" ] && [ "$(wc -l <"$room/got")" -eq 1 ]
    row "$words | head -n 1"
done
# No space is left.
ln -s /dev/full "$room/full.hex"
refused convert shop.img "$room/full.hex"

[ $((passed + failed)) -ge $WANTED ] || { failed=$((failed + 1)); echo "failed: fewer than $WANTED rows"; }
printf '%d passed, %d failed\n' "$passed" "$failed"
[ "$failed" -eq 0 ]
