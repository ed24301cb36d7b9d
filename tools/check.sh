#!/bin/sh
# Tries the scripts of this folder, and which words the launcher hands over to `rt try`.
#     tools/check.sh [SANCUS [SANCUS_LAB]]
# SANCUS and SANCUS_LAB stand for ./sancus and ./sancus-lab where they are given.
# Without the second the rows of maps and sweeps are left out. The last line is 'N passed, M failed, K skipped'; where CI is `true`, none
# may be skipped.
here=$(dirname -- "$(readlink -f -- "$0")") || exit 1
top=${here%/*}
sancus=$(readlink -f -- "${1:-$top/sancus}") || exit 1
lab=$(readlink -f -- "${2:-$top/sancus-lab}")
room=$(mktemp -d) || exit 1
trap 'rm -rf "$room"' EXIT
cd "$room" || exit 1
passed=0
failed=0
skipped=0

# check WHAT: whether the files `got` and `wanted` are the same.
check() {
    if cmp -s got wanted; then
        passed=$((passed + 1))
    else
        failed=$((failed + 1))
        printf '%s\n' "$1"
        diff wanted got | head -20
    fi
}

layout=$top/examples/c_modules/layout.toml
object=$top/examples/c_modules/shop.o
"$sancus" link "$layout" "$object" >shop.img

# From the layout's regions, and the sizes, alignments and values that llvm-readelf and llvm-nm give of the object.
cat >shop.map <<'MAP'
sancus-map 1
module 1 bank 1200 1256 1300 1326
module 2 shop 1000 10b2 1100 112a
part 0200 0236 0 0 3 .text
part 1050 10b2 2 0 7 .sm.shop.text
part 1124 112a 2 0 10 .sm.shop.bss
part 124e 1256 1 0 5 .sm.bank.text
part 1324 1326 1 0 9 .sm.bank.data
entry 124e 1 0 take
entry 1050 2 0 answered
entry 1078 2 1 buy
vector 15 0200 start
symbol 1324 1 local 0 balance
symbol 1124 2 local 0 waiting
symbol 1126 2 local 0 stack_of_caller
symbol 1128 2 local 0 return_address
symbol 0200 0 global 0 start
symbol 0208 0 global 0 main
symbol 124e 1 global 0 take
symbol 1050 2 global 0 answered
symbol 1078 2 global 0 buy
end
MAP

# lab WORDS..: what `sancus-lab` tells, with its status.
lab() {
    "$lab" "$@" >got 2>&1
    printf 'status %s\n' "$?" >>got
}

if [ -x "$lab" ]; then
    cp shop.map wanted
    echo 'status 0' >>wanted
    lab map "$layout" "$object"
    check 'a map'
    printf '%s\n' 'sancus-lab: usage' 'status 2' >wanted
    lab map "$layout"
    check 'a map of no object'
    printf '%s\n' 'sancus-lab: bad file none.o: Absent' 'status 4' >wanted
    lab map "$layout" none.o
    check 'a map of a file that is not there'
    "$sancus" link "$layout" "$top/examples/runtime/product.o" 2>&1 | sed 's/^sancus:/sancus-lab:/' >wanted
    echo 'status 5' >>wanted
    lab map "$layout" "$top/examples/runtime/product.o"
    check 'a map of an object that does not link'
    printf '%s\n' 'sancus-lab: usage' 'status 2' >wanted
    lab sweep shop.img shop.img 4 0 9 9
    check 'a sweep of a line that is none'
    printf '%s\n' 'sancus-lab: usage' 'status 2' >wanted
    lab steps shop.img - 1000000001
    check 'steps of too many cycles'
    printf '%s\n' 'sancus-lab: bad file none.txt: Absent' 'status 4' >wanted
    lab steps shop.img none.txt 9
    check 'steps on a schedule that is not there'
    "$sancus" link "$top/examples/answers/mac.toml" "$top/examples/answers/mac.o" >mac.img
    cp "$top/examples/answers/mac.terms" own.terms
    printf '%s\n' yes 'status 0' >wanted
    lab released mac.img 1 own.terms -
    check 'a module that answers in a register'
    cp own.terms wanted
    echo 'status 0' >>wanted
    lab terms mac.img 1 own.terms -
    check 'terms that are granted and needed'
    printf '%s\n' 'sancus-lab: usage' 'status 2' >wanted
    lab terms mac.img 0 own.terms -
    check 'terms of no module'
    printf '%s\n' 'public 0000' >outside.terms
    printf '%s\n' 'no 0000 NotData' 'status 9' >wanted
    lab released mac.img 1 outside.terms -
    check 'a public word outside the data'
    lab terms mac.img 1 outside.terms -
    check 'a granted word outside the data'
    for words in channel/module_1.img=interrupts/pulse_inside.txt interrupts/called.img=interrupts/pulse_inside.txt \
        channel/plain_1.img=-; do
        image=$top/examples/${words%=*}
        schedule=${words#*=}
        [ "$schedule" = - ] || schedule=$top/examples/$schedule
        "$sancus" image "$image" "$schedule" 400 >wanted 2>&1
        "$lab" steps "$image" "$schedule" 400 2>&1 | grep -Ev '^  |^[0-9]+ [0-9]+ [0-9a-f]{4}: ' >got
        check "steps of $words without the owner's lines"
    done
    printf '%s\n' 'sancus-lab: bad file none.img: Absent' 'status 4' >wanted
    lab sweep none.img neither.img 3 0 9 9
    check 'a sweep of images that are not there'
    for words in c/layout.toml=c/meter.o c_units/layout.toml=c_units/units.o \
        c_check/layout.toml=c_check/vault.o c_devices/layout.toml=c_devices/devices.o; do
        "$lab" map "$top/examples/${words%=*}" "$top/examples/${words#*=}" >one.map 2>/dev/null
        "$here/map_check" "$sancus" one.map "$top/examples/${words%=*}" "$top/examples/${words#*=}" 2>&1 \
            | sed 's/^[0-9]* equal/all equal/' >got
        echo 'all equal, 0 differ' >wanted
        check "a map of ${words#*=}, and the image"
    done
fi

for kind in hex txt elf; do
    "$here/convert" shop.img "there.$kind" && "$here/convert" "there.$kind" back.img --head shop.img
    cp back.img got
    cp shop.img wanted
    check "an image as $kind and back"
done

"$sancus" run "$layout" - 240 "$object" >trace
"$here/names" shop.map trace >named
sed 's/<[^>]*>//' named >got
cp trace wanted
check 'a trace without its names'
sed -n 's/^232 //p' named >got
echo 'leave 2 pc 022a<main+34>' >wanted
check 'the name where a module is left for'
echo 'no 105e SecretBranch 0000' | "$here/names" shop.map >got
echo 'no 105e<answered+14> SecretBranch 0000' >wanted
check 'the name of a branch that is refused'
"$sancus" dis shop.img 124e 1256 >listing
"$here/names" shop.map listing | sed 's/<[^>]*>//g' >got
cp listing wanted
check 'a listing without its names'
if [ -x "$lab" ]; then
    "$lab" steps shop.img - 240 >walk
    "$here/names" shop.map walk >named
    sed 's/<[^>]*>//g' named >got
    cp walk wanted
    check 'steps without their names'
    sed -n '/^124 /,/write/p' named >got
    printf '%s\n' '124 1 124e<take>: 8c82 1324 sub r12, &0x1324<balance>' '  read 1324<balance> 0028' \
        '  write 1324<balance> 0021' >wanted
    check 'the names in steps'
fi

"$here/elf" shop.map shop.img shop.elf "$object"
"$here/convert" shop.elf got.img --head shop.img && mv got.img got
cp shop.img wanted
check 'the bytes of an ELF file, and those of the image'
# has TOOL: whether a tool is here; says that its rows are not run where it is not.
has() {
    command -v "$1" >/dev/null && return
    skipped=$((skipped + 1))
    printf 'not run: %s is not here\n' "$1"
    return 1
}
has "$lab"

if has llvm-nm; then
    llvm-nm shop.elf | awk '$3 ~ /^(answered|buy|main|start|take|waiting)$/ { print substr($1, 5), $3 }' | sort >got
    printf '%s\n' '0200 start' '0208 main' '1050 answered' '1078 buy' '1124 waiting' '124e take' >wanted
    check 'the symbols of an ELF file'
fi
# An object of clang -g, whose source is found from the folder above examples/.
ln -s "$top/examples" examples
if [ -x "$lab" ]; then
    "$sancus" link examples/lines/layout.toml examples/lines/dial.o >dial.img
    "$lab" map examples/lines/layout.toml examples/lines/dial.o >dial.map
    "$here/elf" dial.map dial.img dial.elf examples/lines/dial.o
    if has llvm-objdump; then
        llvm-objdump -d -S -l --start-address=0x106e --stop-address=0x1070 dial.elf \
            | sed -n '/():$/d; s/^; [. /]*//p' >got
        printf '%s\n' examples/lines/dial.c:30 'return turned_by(1);' >wanted
        check 'the line of C at an address of the image'
    fi
    if has mspdebug; then
        mspdebug -q sim 'prog dial.elf' 'dis 0x106e 2' 2>/dev/null | grep -A1 '^turn' | sed 's/  */ /g; s/ *$//' >got
        printf '%s\n' 'turn+0x10:' ' 0106e: 8d 12 CALL R13' >wanted
        check 'the function and instruction that mspdebug finds at an address'
    fi
fi

# line_of ENUM NAME FIELD..: a refusal of this kind as the programs tell it.
line_of() {
    enum=$1
    fault=$2
    shift 2
    for field in "$@"; do
        case $field in
        [iu][0-9]*) fault="$fault 1" ;;
        Option*) fault="$fault -" ;;
        Spot) fault="$fault 0 text" ;;
        Region) fault="$fault Text" ;;
        RelocFault) fault="$fault Outside" ;;
        TableFault) fault="$fault Empty" ;;
        esac
    done
    case $enum:$fault in
    *:NoMemory) echo 'sancus: no memory' ;;
    LinkFault:*) echo "sancus: link $fault" ;;
    RelocFault:*) echo "sancus: link Reloc 0 1 1 $fault" ;;
    Region:*) echo "sancus: link Region $fault 9 4" ;;
    TableFault:*) echo "sancus: bad file f: Table 1 $fault" ;;
    Rule:*) echo "5 stop $fault pc 0302 addr 0400 module 1" ;;
    Reason:*) echo "no 0302 $fault 0001" ;;
    LastFault:*) echo "refused $fault" ;;
    *) echo "sancus: bad file f: $fault" ;;
    esac
}

# shellcheck disable=SC2086 # some words
"$top/.ci/refusals" --list | while read -r words; do line_of $words; done >wanted
"$here/why" <wanted >said
paste -d '|' wanted said | awk -F '|' '{ sub(/^f: /, "", $2) } $1 != $2 && $2 ~ /: / { print $1 }' >got
check 'refusals that have a sentence with what to do'

# says WORDS LINE SENTENCE: what `why` makes of a line of this command.
says() {
    # shellcheck disable=SC2086 # some words
    printf '%s\n' "$2" | "$here/why" $1 >got
    printf '%s\n' "$3" >wanted
    check "$2"
}

words="link $layout $object"
says "$words" 'sancus: link Undefined 0 7 name helper' \
    "$object uses helper, which no object defines: add the object or the runtime that does"
says "$words" 'sancus: link Region ModuleText 1 100 96' \
    "100 bytes are to go into the text of the layout's module 1, which has room for 96: make it 4 bytes larger"
says "$words" 'sancus: bad file my layout.toml: Overlap 1 4' \
    'my layout.toml: its data and the text of its module 1 (counted from 0) share a byte: move one of them'
says 'asm p.txt' 'sancus: bad file p.txt: Twice 16' \
    'p.txt: the section or label of its line 16 was there before: rename one of them'
says 'image p.img - 9' 'sancus: bad file p.img: Twice 1024' \
    'p.img: two of its rows have the address 1024, which is 0x0400: join them'
says 'sweep p.img q.img 0 1 2 9' 'sancus-lab: bad file q.img: Table 2 Overlap 1' \
    "q.img: in the image's table, sections of modules 2 and 1 share a byte: move one of them"
says 'check p.img 1' 'no 105e<answered+14> SecretBranch 0000' \
    'at 105e<answered+14>, a conditional jump on flags that depend on a secret: compute without it, or balance its arms'
says 'image p.img - 9' 'sancus: cannot read p.img' \
    'p.img: the system gave no bytes: check the permissions, and that it is a file'
echo '236 out 32' >wanted
# shellcheck disable=SC2086 # some words
"$here/why" $words <wanted >got
check 'a line that is no refusal'

"$here/vcd" trace >trace.vcd
grep -A1 -x '#37\|#151\|#236' trace.vcd | grep -v -e '--' >got
printf '%s\n' '#37' 'b10 m' '#151' 'b0 m' '#236' 'b110010 s' >wanted
check 'the changes of a trace'
pulse=$top/examples/interrupts/pulse_inside.txt
"$sancus" image "$top/examples/interrupts/called.img" "$pulse" 40 >pulsed
"$here/vcd" pulsed "$pulse" | sed -n '/^#13$/,/^#25$/p' >got
printf '%s\n' '#13' 'b0 m' 1h 1p 1l0 '#14' 0l0 '#25' >wanted
check 'the changes of a trace, and of a line of its schedule'
if [ -x "$lab" ]; then
    "$here/vcd" walk >got
    cp trace.vcd wanted
    check 'the changes of steps, and those of the trace'
fi

# A launcher with no program beside it, and an rt that tells its words.
mkdir -p alone/crates/sm_main bin
cp "$top/sancus" alone/
printf '%s\n' '#!/bin/sh' 'shift 2' 'echo "$@"' 'echo "checked: ended" >&2' >bin/rt
chmod +x bin/rt
touch check 7
for words in "check 7 7=check $PWD/7 7" "link check 7=link $PWD/check $PWD/7" "image -- 7 - 7=image -- $PWD/7 - 7" \
    "lone 7 7 7=lone $PWD/7 7 7"; do
    # shellcheck disable=SC2086 # some words
    PATH=$PWD/bin:$PATH alone/sancus ${words%=*} >got 2>/dev/null
    printf '%s\n' "${words#*=}" >wanted
    check "what rt try is given for ${words%=*}"
done

printf '%d passed, %d failed, %d skipped\n' "$passed" "$failed" "$skipped"
[ "$failed" -eq 0 ] && [ "$passed" -gt 0 ] && { [ "${CI-}" != true ] || [ "$skipped" -eq 0 ]; }
