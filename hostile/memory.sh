#!/bin/sh
# Each allocation of each command refused, one at a time: the command says that memory ran out and writes nothing else, or does not mind.
#     hostile/memory.sh PROGRAM
# PROGRAM is the built `sancus` (crates/sm_main/out/sm_main). Needs a C compiler and a C library that lets malloc be replaced. A line a
# command: how many allocations it makes, and how many of them, refused, were told. The last line is 'N refusals, M wrong'.
here=$(dirname -- "$(readlink -f -- "$0")") || exit 1
program=$(readlink -f -- "${1:-$here/../crates/sm_main/out/sm_main}") || exit 1
room=$(mktemp -d) || exit 1
trap 'rm -rf "$room"' EXIT
cc -shared -fPIC -O1 -o "$room/refuse.so" "$here/refuse.c" -ldl || exit 1
cd "$here/../examples" || exit 1
cp first.img interrupts/called.img interrupts/pulse_inside.txt attestation/tagger.img attestation/challenges.txt c/layout.toml c/meter.o \
    channel/module_0.img channel/arms.txt "$room" || exit 1
cd "$room" || exit 1
printf 'mark\ngo 30\nregs\nmem 0400 2\nback 0\nuntil 0214 100\nlast 0200 0\n' >script.txt
printf 'section .text code\nglobal main\nlabel main\nmov #0x1234, r5\nmov #other, &0x0300\nlabel here\njmp here\n' >source.txt
"$program" link layout.toml meter.o >meter.img
"$program" challenge challenges.txt >schedule.txt
"$program" image tagger.img schedule.txt 9500 >trace.txt
total=0
wrong=0

refuse_each() {
    "$program" "$@" >wanted 2>wanted_error
    wanted=$?
    COUNT=count LD_PRELOAD=./refuse.so "$program" "$@" >/dev/null 2>&1
    count=$(cat count)
    number=1
    told=0
    while [ "$number" -le "$count" ]; do
        REFUSE=$number LD_PRELOAD=./refuse.so "$program" "$@" >got 2>error
        status=$?
        total=$((total + 1))
        if [ "$status" -eq 8 ] && [ ! -s got ] && [ "$(cat error)" = 'sancus: no memory' ]; then
            told=$((told + 1))
        elif [ "$status" -ne "$wanted" ] || ! cmp -s got wanted || ! cmp -s error wanted_error; then
            wrong=$((wrong + 1))
            printf 'wrong: %s, allocation %s: status %s, said %s\n' "$*" "$number" "$status" "$(cat error)"
        fi
        number=$((number + 1))
    done
    printf '%6s allocations, %6s told: %s\n' "$count" "$told" "$*"
}

refuse_each image called.img pulse_inside.txt 40
refuse_each link layout.toml meter.o
refuse_each run layout.toml pulse_inside.txt 400 meter.o
refuse_each lone meter.img 1 1000 r6=0000 r7=0200 r12=0005
refuse_each key called.img 1
refuse_each dis called.img 0200 0220
refuse_each check module_0.img 1
refuse_each balance module_0.img 1 arms.txt
refuse_each challenge challenges.txt
refuse_each vendor tagger.img 1 4288d2bf49ac628155a630f7dab1d6da challenges.txt trace.txt
refuse_each monitor called.img pulse_inside.txt script.txt
refuse_each asm source.txt
refuse_each make 1
printf '%s refusals, %s wrong\n' "$total" "$wrong"
[ "$wrong" -eq 0 ]
