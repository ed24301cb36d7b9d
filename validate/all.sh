#!/bin/sh
# Each script of this folder with a built program, one after another, and the sums of the table of timings in docs/VALIDATION.md.
#     validate/all.sh [PROGRAM [SCRIPT..]]
# PROGRAM is crates/sm_main/out/sm_main where it is left out; SCRIPT is one or more of timings code_table effects linking programs keys
# assembler flow, all of them where none is given. Needs Debian's mspdebug, lld, llvm, clang, binutils, openssl and python3. A line for each: the
# script and its last line. What else each says is in a log, which is named where the status is not 0. CASES (2000) is how many cases
# linking has.
here=$(dirname -- "$(readlink -f -- "$0")") || exit 1
program=$(readlink -f -- "${1:-$here/../crates/sm_main/out/sm_main}") || exit 1
[ $# -eq 0 ] || shift
room=$(mktemp -d) || exit 1
failed=0

# run NAME WORD..: a script, with its last line.
run() {
    name=$1
    shift
    if python3 "$here/$name.py" "$@" >"$room/$name.log" 2>&1; then
        printf '%s: %s\n' "$name" "$(tail -n 1 "$room/$name.log")"
    else
        failed=1
        printf '%s: %s (log: %s)\n' "$name" "$(tail -n 1 "$room/$name.log")" "$room/$name.log"
    fi
}

# Five objects of clang, for the assembler.
objects() {
    for part in crc fixed runtime sha256 sort; do
        clang --target=msp430 -O2 -fno-builtin -c "$here/programs/$part.c" -o "$room/$part.o" || return 1
    done
}

# A row of the table of timings: the pulse's file, and the cycle of each line of the trace.
row() {
    schedule=$here/../examples/interrupts/$1.txt
    [ "$1" != - ] || schedule=-
    got=$("$program" image "$here/../examples/interrupts/called.img" "$schedule" 40 |
        awk '!/^end/ { printf "%s%s %s", sep, $2, $1; sep = ", " }')
    rows=$((rows + 1))
    [ "$got" = "$2" ] && return
    failed=1
    wrong=$((wrong + 1))
    printf 'timings, %s: %s, and not %s\n' "$1" "$got" "$2"
}

timings() {
    rows=0
    wrong=0
    row - "enter 12, leave $((12 + 1 + 1 + 2))"
    row pulse_before_entry "irq 12, reti $((12 + 6)), enter $((18 + 5)), leave $((23 + 4))"
    row pulse_inside "enter 12, hide 13, handler $((13 + 12)), resume $((25 + 5)), leave $((30 + 3))"
    row pulse_in_last_cycle "enter 12, hide 15, handler $((15 + 12)), resume $((27 + 5)), leave $((32 + 1))"
    row pulse_after_leaving "enter 12, leave 16, irq 16, reti $((16 + 6))"
    printf 'timings: %s rows, %s differ\n' "$rows" "$wrong"
}

[ $# -gt 0 ] || set -- timings keys flow programs linking assembler code_table effects
for script in "$@"; do
    case $script in
        timings) timings ;;
        keys) run keys "$program" 300 ;;
        linking) run linking "$program" "${CASES:-2000}" 7 ;;
        effects) run effects "$program" 5000 4 ;;
        assembler) objects && run assembler "$program" "$room"/*.o || failed=1 ;;
        *) run "$script" "$program" ;;
    esac
done
[ "$failed" -eq 0 ] && rm -rf "$room"
exit "$failed"
