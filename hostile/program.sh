#!/bin/bash
# The program itself under hostile use: odd files, odd streams, odd words, little memory. Each case has its status and its line on standard error.
#     hostile/program.sh PROGRAM
# PROGRAM is the built `sancus` (crates/sm_main/out/sm_main). The last line is 'N cases, M wrong'. Run as a user who is not root, or the unreadable
# file is left out.
here=$(dirname -- "$(readlink -f -- "$0")") || exit 1
program=$(readlink -f -- "${1:-$here/../crates/sm_main/out/sm_main}") || exit 1
examples=$here/../examples
room=$(mktemp -d) || exit 1
trap 'rm -rf "$room"' EXIT
cd "$room" || exit 1
cases=0
wrong=0

# expect STATUS LINE COMMAND..: the status, and all of standard error ('' is none; '*' is anything).
expect() {
    local status=$1 line=$2 got said
    shift 2
    if declare -F "$1" >/dev/null; then
        said=$("$@" 2>&1 >out)
    else
        said=$(timeout 60 "$@" 2>&1 >out)
    fi
    got=$?
    cases=$((cases + 1))
    if [ "$got" != "$status" ] || { [ "$line" != '*' ] && [ "$said" != "$line" ]; }; then
        wrong=$((wrong + 1))
        printf 'wrong: %s\n  status %s, wanted %s\n  said %s\n  wanted %s\n' "$*" "$got" "$status" "$said" "$line"
    fi
}

first=$examples/first.img

# ---- files
mkdir folder
expect 6 'sancus: cannot read folder' "$program" image folder - 4
expect 6 'sancus: cannot read folder' "$program" image "$first" folder 4
expect 4 'sancus: bad file none: Absent' "$program" image none - 4
expect 4 'sancus: bad file /dev/zero: TooLong' "$program" image /dev/zero - 4
expect 4 'sancus: bad file /dev/null: Line 1' "$program" image /dev/null - 4
head -c 1048577 /dev/zero >long
expect 4 'sancus: bad file long: TooLong' "$program" image long - 4
head -c 1048576 /dev/zero >longest
expect 4 'sancus: bad file longest: Line 1' "$program" image longest - 4
cp "$first" 'a name with spaces'
expect 0 '' "$program" image 'a name with spaces' - 4
cp "$first" $'a name\nwith a line feed'
expect 0 '' "$program" image $'a name\nwith a line feed' - 4
expect 4 $'sancus: bad file no\nname: Absent' "$program" image $'no\nname' - 4
ln -s loop loop
expect 6 'sancus: cannot read loop' "$program" image loop - 4
if [ "$(id -u)" != 0 ]; then
    cp "$first" unreadable
    chmod 000 unreadable
    expect 6 'sancus: cannot read unreadable' "$program" image unreadable - 4
fi
mkfifo pipe
(cat "$first" >pipe 2>/dev/null &)
expect 6 'sancus: cannot read pipe' "$program" image pipe - 4

# ---- streams
full() { "$program" image "$first" - 4 >/dev/full; }
expect 7 '' full
closed() { "$program" image "$first" - 4 >&-; }
expect 7 '' closed
closed_both() { "$program" image none - 4 >&- 2>&-; }
expect 7 '' closed_both
error_full() { "$program" image none - 4 2>/dev/full; }
expect 7 '' error_full
gone() {
    "$program" dis "$first" 0200 fffe 2>/dev/null | head -n 1 >/dev/null
    return "${PIPESTATUS[0]}"
}
expect 7 '*' gone

# ---- words
expect 2 'sancus: usage' "$program"
expect 2 'sancus: usage' "$program" ''
expect 2 'sancus: usage' "$program" --help
expect 2 'sancus: usage' "$program" -- image "$first" - 4
expect 0 '' "$program" image -- "$first" - 4
expect 2 'sancus: usage' "$program" image "$first" - -4
expect 2 'sancus: usage' "$program" image "$first" - 1000000001
expect 2 'sancus: usage' "$program" image "$first" - 04
expect 2 'sancus: usage' "$program" image "$first" - 4 more
expect 2 'sancus: usage' "$program" $'im\xffage' "$first" - 4
expect 2 'sancus: usage' "$program" image $'\xff' - 4
many() { seq 100000 | xargs -s 1900000 -n 200000 "$program"; }
expect 123 'sancus: usage' many
long_word() { "$program" "$(head -c 100000 /dev/zero | tr '\0' a)"; }
expect 2 'sancus: usage' long_word

# ---- memory: each limit gives the answer, or says that memory ran out, and nothing else
for limit in 4000 5000 6000 7000 8000 10000 20000; do
    little() {
        ulimit -v "$limit"
        "$program" image "$examples/interrupts/called.img" "$examples/interrupts/pulse_inside.txt" 40
    }
    said=$( (little) 2>&1 >out)
    got=$?
    cases=$((cases + 1))
    case "$got $said" in
    '0 ' | '8 sancus: no memory' | '7 ') ;;
    127*"shared libraries"* | 127*"Cannot allocate"* | 126* | 139*"ld.so"*) ;;
    *)
        # what the loader of the system says before the program begins is not the program's
        if ! printf '%s' "$said" | grep -q 'error while loading shared libraries\|cannot execute\|Cannot allocate memory'; then
            wrong=$((wrong + 1))
            printf 'wrong: ulimit -v %s: status %s, said %s\n' "$limit" "$got" "$said"
        fi
        ;;
    esac
done

printf '%s cases, %s wrong\n' "$cases" "$wrong"
[ "$wrong" -eq 0 ]
