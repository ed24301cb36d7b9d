#!/bin/sh
# Tries sancus-cc with each clang from 14 to 19 that is there: what it makes, what it refuses, its runtime, and examples/vault.
#     tools/check_cc.sh [SANCUS [SANCUS_LAB]]
# The last line is 'N passed, M failed', with ', K skipped' where clang is missing; with CI=true that is a failure.
# $flags are several words.
# shellcheck disable=SC2086
here=$(dirname -- "$(readlink -f -- "$0")") || exit 1
top=${here%/*}
sancus=$(readlink -f -- "${1:-$top/sancus}") || exit 1
lab=$(readlink -f -- "${2:-$top/sancus-lab}")
case ${2:-} in '') lab=$top/sancus-lab ;; esac
case ${1:-} in '') sancus=$top/sancus ;; esac
room=$(mktemp -d) || exit 1
trap 'rm -rf "$room"' EXIT
cd "$room" || exit 1
passed=0 failed=0 skipped=0

row() { # row WHAT STATUS: counts, and shows `got` where the row failed
    if [ "$2" = 0 ]; then
        passed=$((passed + 1))
    else
        failed=$((failed + 1))
        printf '%s %s\n' "$compiler" "$1"
        head -5 got
    fi
}

cc() { "$here/sancus-cc" "$@"; }

# refused TEXT WORDS..: whether sancus-cc ends with a line that has the text, and leaves no object.
refused() {
    text=$1
    shift
    rm -f out.o
    cc "$@" >got 2>&1
    status=$?
    [ "$status" = 1 ] && grep -q "^sancus-cc: error: .*$text" got && [ ! -e out.o ]
    row "refused: $text" $?
}

# refuses TEXT: the same of the C on the standard input, in module m.
refuses() {
    cat >in.c
    refused "$1" --module m "-I$top/include" -c in.c -o out.o
}

# sends BYTES CYCLES OBJECT..: whether a run by l.toml sends these bytes.
sends() {
    bytes=$1 cycles=$2
    shift 2
    "$sancus" run l.toml - "$cycles" "$@" >got 2>&1
    [ "$(awk '$2 == "out" { printf "%s", $3 }' got)" = "$bytes" ]
    row "sends $bytes" $?
}

# says ANSWER WORDS..: whether a program of this answer ends.
says() {
    answer=$1
    shift
    "$@" >got 2>&1
    [ "$(head -1 got)" = "$answer" ]
    row "$*: $answer" $?
}

# All that a library's source has: constants, strings, tables of pointers, a switch, statics, helpers, copies.
library() {
    cat >library.c <<'C'
#include <stdint.h>
#include <string.h>
static const uint8_t squares[8] = {0, 1, 4, 9, 16, 25, 36, 49};
static uint8_t kept[4];
int common_or_not;
uint16_t first = 7;
static unsigned twice(unsigned x) { return x * x; }
static unsigned thrice(unsigned x) { return x + x + x; }
static unsigned (*const table[])(unsigned) = {twice, thrice};
static const char *name(unsigned x)
{
    switch (x) {
    case 0: return "ab"; case 1: return "cd"; case 2: return "efg"; case 3: return "hijk"; case 4: return "lm";
    default: return "no";
    }
}
static unsigned chosen(unsigned x)
{
    switch (x) { case 0: return 17; case 1: return 5; case 2: return 250; case 3: return 90; case 4: return 8; }
    return 1;
}
unsigned work(unsigned x)
{
    uint32_t product = (uint32_t)squares[x & 7] * first;
    memcpy(kept, name(x), 3);
    kept[3] += 1;
    common_or_not++;
    return (unsigned)(product / 3) + kept[0] + chosen(x) + table[x & 1](x) + (unsigned)strlen(name(x));
}
C
    cat >main.c <<'C'
#include "layout.h"
unsigned work(unsigned x);
SM_START(0xf000);
int main(void)
{
    for (unsigned k = 0; k < 4; k++)
        SERIAL_DATA = lib_work(k);
    for (;;)
        ;
}
C
}

try_library() {
    library
    cc --module lib $flags -c library.c -o library.o 2>got && cc --module lib --runtime library.o -o runtime.o 2>>got
    row 'a library compiles unchanged' $?
    llvm-readelf-19 -SW library.o 2>/dev/null | awk '/ A |  *A[XM]| WA/ && !/\.sm\.lib\./ && /PROGBITS|NOBITS/' >got
    [ -s library.o ] && ! [ -s got ]
    row 'no section of memory is left outside' $?
    cc --layout --entries lib=work library.o runtime.o -o l.toml 2>got
    cc --header l.toml -o layout.h 2>>got && cc -I. "-I$top/include" $flags -c main.c -o main.o 2>>got
    row 'the header makes a typed call' $?
    cc --layout --entries lib=work library.o runtime.o main.o -o l.toml 2>got
    cc --header l.toml -o layout.h 2>>got && cc -I. $flags -c main.c -o main.o 2>>got && cc --check l.toml library.o runtime.o main.o 2>>got
    row 'the proposed layout is accepted' $?
    # By hand: 0 + 97 + 17 + 0 + 2; 7/3 + 99 + 5 + 3 + 2; 28/3 + 101 + 250 + 4 + 3; 63/3 + 104 + 90 + 9 + 4, as bytes.
    sends 746f6fe4 60000 library.o runtime.o main.o
}

try_refusals() {
    refuses 'section .init_array.*nothing runs constructors' <<'C'
static volatile int seen;
__attribute__((constructor)) void early(void) { seen = 1; }
C
    refuses 'there is no floating point' <<'C'
float half(float x) { return x / 2; }
C
    refuses 'handler with the attribute interrupt lies in a module' <<'C'
__attribute__((interrupt(1))) void line(void) {}
C
    refuses 'SM_CALL inside a module.*SM_LEAVE_FOR' <<'C'
#include "sancus.h"
unsigned f(void) { return SM_CALL(0x1000, 0, 1); }
C
    refuses 'is a C++ name.*extern "C"' <<'C'
void f(void) __asm__("_Z1fv");
void f(void) {}
C
    echo 'int f() { return 1; }' >in.cpp
    refused 'C++ needs a runtime' --module m -c in.cpp -o out.o
    echo 'int f(void) { return 1; }' >in.c
    refused 'the layout has no module m (it has: meter)' --module m --layout-file "$top/examples/c/layout.toml" -c in.c -o out.o
    refused 'a name has 1 to 32 letters' --module a-b -c in.c -o out.o
    refused "argument to '--module' is missing" -c in.c -o out.o --module
    refused 'gdwarf-5.*write -g' -gdwarf-5 -c in.c -o out.o
    refused "no '-c'" --module m in.c -o out.o
    refused 'no input files' --check "$top/examples/c/layout.toml"
    cat >in.c <<'C'
#include <string.h>
unsigned add(unsigned n) { volatile char room[60]; memset((void *)room, n, 60); return room[n & 31]; }
C
    refused 'add needs [0-9]* bytes of stack; module meter has 32: write' --module meter --layout-file "$top/examples/c/layout.toml" -c in.c -o out.o
    echo 'unsigned out(void); unsigned add(unsigned n) { return out() + n; }' >in.c
    echo 'unsigned out(void) { return 3; }' >outer.c
    cc --module meter -c in.c -o a.o && cc -c outer.c -o b.o
    refused 'add in module meter uses out, which lies outside; compile' --check "$top/examples/c/layout.toml" a.o b.o
    cc --module meter -c outer.c -o b.o
    refused 'entry sub of module meter: no object defines it' --check sub.toml b.o
    cc -c in.c -o a.o
    refused "add uses out of module meter by its name" --check "$top/examples/c/layout.toml" a.o b.o
    echo 'unsigned long long f(unsigned long long a, unsigned long long b) { return a / b; }' >in.c
    cc --module m -c in.c -o a.o
    refused 'the runtime does not have it' --module m --runtime a.o -o out.o
}

try_memory() {
    cat >memory.c <<'C'
#include "sancus.h"
#include <string.h>
static char text[] = "abcdefgh", other[9];
static volatile unsigned four = 4;
SM_START(0xf000);
int main(void)
{
    memcpy(other, text, four * 2 + 1);
    SERIAL_DATA = strlen(other);
    memmove(text + 1, text, four);
    SERIAL_DATA = text[4];
    memmove(text, text + 1, four);
    SERIAL_DATA = text[3];
    memset(other + 1, 'z', four);
    SERIAL_DATA = other[4];
    SERIAL_DATA = other[5];
    SERIAL_DATA = memcmp("abcd", "abzz", four) < 0;
    SERIAL_DATA = memcmp("azcd", "abzz", four) > 0;
    SERIAL_DATA = memcmp("abcd", "abcd", four) == 0;
    SERIAL_DATA = memcmp_ct("abcd", "abcd", four) == 0;
    SERIAL_DATA = memcmp_ct("abcd", "abce", four) != 0;
    for (;;)
        ;
}
C
    cc -fno-builtin "-I$top/include" -c memory.c -o memory.o 2>got && cc --runtime memory.o -o runtime.o 2>>got &&
        cc --layout memory.o runtime.o -o l.toml 2>>got
    row 'the functions of memory' $?
    # By hand: the length 8; d, moved up and back; z at 4, f at 5; the rest are truths.
    sends 0864647a660101010101 20000 memory.o runtime.o
}

# Each helper on secret operands: what check says of it.
try_secrets() {
    cat >secret.c <<'C'
#include "sancus.h"
SM_DATA(m) unsigned long a = 7, b = 9;
SM_DATA(m) unsigned long long d, e;
SM_DATA(m) unsigned c = 3;
C
    while read -r name line; do
        echo "unsigned $name(void) { $line; return 0; }" >>secret.c
    done <<'C'
mpyi c = c * c
mpyl a = a * b
mpyll d = d * e
divi c = (int)c / (int)a
remi c = (int)c % (int)a
divu c = c / (unsigned)a
remu c = c % (unsigned)a
divli a = (long)a / (long)b
remli a = (long)a % (long)b
divul a = a / b
remul a = a % b
slll extern unsigned long __mspabi_slll(unsigned long, int); a = __mspabi_slll(b, c)
srll extern unsigned long __mspabi_srll(unsigned long, int); a = __mspabi_srll(b, c)
sral extern unsigned long __mspabi_sral(unsigned long, int); a = __mspabi_sral(b, c)
slli extern unsigned __mspabi_slli(unsigned, int); c = __mspabi_slli(c, c)
srli extern unsigned __mspabi_srli(unsigned, int); c = __mspabi_srli(c, c)
srai extern unsigned __mspabi_srai(unsigned, int); c = __mspabi_srai(c, c)
ashldi3 extern unsigned long long __ashldi3(unsigned long long, int); d = __ashldi3(e, c)
lshrdi3 extern unsigned long long __lshrdi3(unsigned long long, int); d = __lshrdi3(e, c)
ashrdi3 extern unsigned long long __ashrdi3(unsigned long long, int); d = __ashrdi3(e, c)
C
    cc --module m "-I$top/include" -c secret.c -o secret.o 2>got && cc --module m --runtime secret.o -o runtime.o 2>>got
    row 'helpers on secrets' $?
    sed -n 's/^unsigned \([a-z0-9]*\)(void).*/\1/p' secret.c >names
    while read -r name; do
        cc --layout --entries "m=$name" secret.o runtime.o -o l.toml 2>got
        "$sancus" link l.toml secret.o runtime.o >secret.img 2>>got
        says yes "$sancus" check secret.img 1
    done <names
}

# A mask of a sign bit: clang makes a branch of it, and none after a barrier.
try_barrier() {
    for way in 'c >> 15' 'SM_VALUE_BARRIER(c >> 15)'; do
        cat >mask.c <<C
#include "sancus.h"
SM_DATA(m) unsigned c = 3, a = 5, kept;
unsigned choose(void) { kept = -($way) & a; return 0; }
C
        cc --module m -O2 -c mask.c -o mask.o 2>got && cc --layout mask.o -o l.toml 2>>got && "$sancus" link l.toml mask.o >mask.img 2>>got
        "$sancus" check mask.img 1 >got 2>&1
        case $way in SM_*) [ "$(cat got)" = yes ] ;; *) grep -q 'no .* SecretBranch' got ;; esac
        row "a mask of $way" $?
    done
}

try_debugger() {
    cat >call.c <<'C'
#include "sancus.h"
SM_START(0xf000);
int main(void) { return SM_CALL(0x1000, 0, 1); }
C
    cc -g "-I$top/include" -c call.c -o call.o 2>got
    row 'a call with -g' $?
    readelf --debug-dump=info call.o 2>/dev/null | grep -q 'Version: *4' || readelf --debug-dump=info call.o >got 2>&1
    row '-g gives DWARF 4' $?
    [ "$version" -lt 19 ] && return
    # After the push the frame lies 2 bytes further off: from 4 (the return address and R4 of main) to 6, or as clang has it.
    readelf --debug-dump=frames call.o >got 2>/dev/null
    [ "$(grep -c 'DW_CFA_def_cfa_offset' got)" -ge 2 ]
    row 'SM_CALL tells where its frame lies' $?
}

sed 's/"add"/"sub"/' "$top/examples/c/layout.toml" >sub.toml
flags=-Os
for version in 14 15 16 17 18 19; do
    compiler=clang-$version
    command -v "$compiler" >/dev/null || continue
    command -v "llvm-objcopy-$version" >/dev/null || continue
    seen=yes
    export CLANG="$compiler" OBJCOPY="llvm-objcopy-$version"
    for flags in -O1 '-Os -g' -O2; do try_library; done
    try_refusals
    try_memory
    try_secrets
    try_barrier
    try_debugger
    "$here/check_runtime" "$sancus" >got 2>&1
    row 'the runtime on drawn operands' $?
    [ -x "$top/examples/vault/check.sh" ] && { "$top/examples/vault/check.sh" "$sancus" "$lab" >got 2>&1; row examples/vault $?; }
done
if [ -z "${seen-}" ]; then
    skipped=1
    echo 'skipped: no clang-14 to clang-19 with its llvm-objcopy'
    [ "${CI-}" = true ] && failed=1
fi
printf '%s passed, %s failed' "$passed" "$failed"
[ "$skipped" = 0 ] || printf ', %s skipped' "$skipped"
echo
[ "$failed" = 0 ] && { [ "$passed" -gt 0 ] || [ "$skipped" -gt 0 ]; }
