#!/bin/bash
# The launcher, the build and the release under hostile use, in a copy with a stand-in for `rt`: stale, replaced and damaged files, files
# that are no input, signals, programs that are not what they are called. Each row has its status and its lines on standard error.
#     hostile/launcher.sh
# The last line is 'N passed, M failed'.
# shellcheck disable=SC2123,SC2016 # the path is meant; sed's dollar
here=$(dirname -- "$(readlink -f -- "$0")") || exit 1
top=${here%/*}
room=$(mktemp -d) || exit 1
trap 'kill $(jobs -p) 2>/dev/null; rm -rf "$room"' EXIT
cd "$room" || exit 1
passed=0
failed=0
end='end 4 outside 0206 0000 0000 0000 0000 1234 0000 0000 0000 0000 0000 0000 0000 0000 0000 0000'
kit=$(sed -n 's/^kit //p' "$top/release/RELEASE")

# row WHAT WANTED GOT
row() {
    if [ "$2" = "$3" ]; then
        passed=$((passed + 1))
    else
        failed=$((failed + 1))
        printf 'failed: %s\n  wanted %q\n  got    %q\n' "$1" "$2" "$3"
    fi
}

# gives WHAT WANTED COMMAND..: the status and all that is printed. Nothing may wait.
gives() {
    local what=$1 wanted=$2 said
    shift 2
    said=$(timeout -s KILL 20 "$@" 2>&1 </dev/null)
    row "$what" "$wanted" "$? $said"
}

# What a copy is made of: all that the launcher, the build and the release read.
mkdir -p whole bin
(cd "$top" && tar c --exclude=out --exclude=proofs --exclude=must-fail sancus sancus-lab build setup crates.txt crates release CHANGELOG.md \
    README.md docs examples/first.img web/*.mjs) | tar x -C whole || exit 1
cat >bin/rt <<'RT'
#!/bin/bash
# A stand-in: `try` tells its words, or works until it is ended; `check` says that all stands; `run` builds by copying.
case $1 in
version) echo "${KIT-none}" ;;
try)
    shift 2
    mktemp -d >/dev/null
    [ -z "$WORKS" ] || { touch "$WORKS"; exec sleep 300.25; }
    echo "$@"
    echo 'checked: ended' >&2
    ;;
all | check)
    for crate in ../*; do mkdir -p "$crate/out/rlib" && touch "$crate/out/rlib/stamp"; done
    [ -z "$WORKS" ] || { touch "$WORKS"; rm -rf ../sm_cli/out; sleep 300.25 & sleep 300.25; }
    ;;
run)
    [ -z "$EDITS" ] || echo '// more' >>../texts/src/lib.rt
    mkdir -p out
    case $PWD in */lab_main) cp ../../release/sancus-lab out/lab_main ;; *) cp ../../release/sancus out/sm_main ;; esac
    ;;
esac
RT
chmod +x bin/rt
bare=/usr/bin:/bin
PATH=$bare
! command -v rt || { echo "a path without rt is wanted, not $bare"; exit 1; }

# appears FILE: waits for it, ten seconds at most.
appears() {
    for _ in $(seq 200); do
        [ ! -e "$1" ] || return
        sleep 0.05
    done
}

fresh() {
    rm -rf c
    cp -a whole c
}

# old FILE TEXT: adds a text to a file and gives it its old time.
old() {
    touch -r "$1" stamp
    printf '%s\n' "$2" >>"$1"
    touch -r stamp "$1"
}

runs() { gives "$1" "0 $end" c/sancus image c/examples/first.img - 4; }
# told WHAT LINES: the program runs, after these lines. stays WHAT LINES: nothing runs.
told() { gives "$1" "0 $2"$'\n'"$end" c/sancus image c/examples/first.img - 4; }
stays() { gives "$1" "125 $2"$'\n''sancus: no program for these sources is here, nor the Rattle kit (rt) that makes it' c/sancus image c/examples/first.img - 4; }
absent='sancus: crates/sm_main/out/sm_main is not there: ./build proves and builds it'
other='sancus: release/sancus is of other sources than these'

# ---- the released program
fresh
runs 'the released program'
gives 'the second one' '2 sancus-lab: usage' c/sancus-lab
ln -s c/sancus s
gives 'by a link' "0 $end" ./s image c/examples/first.img - 4
old c/crates/texts/src/lib.rt '// more'
stays 'a source changed under its old time' "$absent"$'\n'"$other"
fresh
touch -d 2001-01-01 c/crates/texts/src/lib.rt
runs 'a source with another time'
old c/crates.txt 'more: texts'
runs 'a line of crates.txt for another crate'
sed -i 's/^sm_io:.*/sm_io: texts/' c/crates.txt
stays 'a line of crates.txt for one of these' "$absent"$'\n'"$other"
for name in more.rt 'a name.rt' $'two\nlines.rt'; do
    fresh
    echo >"c/crates/texts/src/$name"
    stays "a source more: $name" "$absent"$'\n'"$other"
done
fresh
rm c/crates/texts/specs/*
stays 'a folder of definitions less' "$absent"$'\n'"$other"
fresh
: >c/crates.txt
stays 'no crates' "sancus: crates.txt has no crate sm_main with sources"$'\n'"$absent"$'\n'"$other"
for make in 'ln -s lib.rt' mkfifo; do
    fresh
    $make c/crates/texts/src/odd.rt
    stays "$make in the sources" 'sancus: crates/texts/src/odd.rt is no regular file, or cannot be read'$'\n'"$absent"$'\n'"$other"
done
fresh
rm c/release/sources
said=$(c/sancus image c/examples/first.img - 4 2>&1)
row 'no release/sources' "125 $other" "$? $(grep other <<<"$said")"
fresh
rm c/release/verify
said=$(c/sancus image c/examples/first.img - 4 2>&1)
row 'no release/verify' 125 "$?"
fresh
as_other=()
[ "$(id -u)" != 0 ] || as_other=(setpriv --reuid 65534 --clear-groups)
chmod -R a+rX "$room" && chmod 000 c/crates/texts/specs
said=$("${as_other[@]}" c/sancus image c/examples/first.img - 4 2>&1)
row 'a folder that may not be read' 125 "$?"
row 'and its reason' 1 "$(grep -c 'sancus: .*crates/texts/specs' <<<"$said")"
chmod 755 c/crates/texts/specs

checksum='sancus: checksum of release/sancus is not that of release/RELEASE'
fresh
cp /bin/echo c/release/sancus
stays 'another program in release/' "$absent"$'\n'"$checksum"
cp whole/release/sancus-lab c/release/sancus
stays 'the second program under the name of the first' "$absent"$'\n'"$checksum"
rm c/release/sancus
said=$(c/sancus image c/examples/first.img - 4 2>&1)
row 'no program in release/' '125 sancus: release/sancus is not there, or may not be run' "$? $(grep release/ <<<"$said")"
lines='sancus: release/RELEASE is not exactly its lines'
for edit in 1d 2d 3d 4d 5d 6d 7d '$a more' '1s/.*/version /' '3s/.$//' '3h;3d;4G' '$s/$/ /'; do
    fresh
    sed -i "$edit" c/release/RELEASE
    stays "RELEASE with $edit" "$absent"$'\n'"$lines"
done
sums='sancus: release/SHA256SUMS is not exactly what release/RELEASE gives'
fresh
sed -i '5s/.*/sancus '"$(sha256sum </bin/echo | cut -d ' ' -f 1)/" c/release/RELEASE
cp /bin/echo c/release/sancus
stays 'a program and its line of RELEASE' "$absent"$'\n'"$sums"
for edit in 1d 2d 3d 4d d '$a more' '2s/^./x/'; do
    fresh
    sed -i "$edit" c/release/SHA256SUMS
    stays "SHA256SUMS with $edit" "$absent"$'\n'"$sums"
done
rm c/release/SHA256SUMS
stays 'no SHA256SUMS' "$absent"$'\n''sancus: release/SHA256SUMS is not there, or cannot be read'
fresh
mkdir other
printf '%s\n' '#!/bin/sh' 'echo Linux aarch64' >other/uname
chmod +x other/uname
PATH=$room/other:$PATH stays 'another machine' "$absent"$'\n''sancus: release/sancus runs on Linux on x86-64 alone'

fresh
chmod -x c/release/sancus
stays 'a program without its right to run' "$absent"$'\n''sancus: release/sancus is not there, or may not be run'
fresh
old c/crates/lab_main/src/main.rt '// more'
runs 'a source of the second program alone'
said=$(c/sancus-lab 2>&1)
row 'and the second one' '125 sancus-lab: release/sancus-lab is of other sources than these' "$? $(grep other <<<"$said")"

# ---- the program that was built
build() { c/build "${more[@]}" >said 2>&1; }
PATH=$room/bin:$bare
more=(lab)
fresh
build
row 'a build' 0 "$?"
for crate in sm_main lab_main; do
    wanted=$(printf 'sources %s\nprogram %s' "$(whole/release/sources --of "$crate")" "$(sha256sum <"c/crates/$crate/out/$crate" | cut -d ' ' -f 1)")
    row "what $crate was built of" "$wanted" "$(cat "c/crates/$crate/out/BUILT")"
done
more=()
PATH=$bare
cp -a c built
again() {
    rm -rf c
    cp -a built c
    rm c/release/sancus
}
again
runs 'the built program'
gives 'the built second one' '2 sancus-lab: usage' c/sancus-lab
old c/crates/texts/src/lib.rt '// more'
said=$(c/sancus image c/examples/first.img - 4 2>&1)
row 'a source changed under its old time, after the build' \
    '125 sancus: crates/sm_main/out/sm_main is of other sources than these: ./build makes it anew' "$? $(grep sm_main <<<"$said")"
again
sed -i 's/^sm_io:.*/sm_io: texts/' c/crates.txt
touch c/crates/sm_main/out/sm_main
said=$(c/sancus image c/examples/first.img - 4 2>&1)
row 'another crates.txt, and a program that is newer' \
    '125 sancus: crates/sm_main/out/sm_main is of other sources than these: ./build makes it anew' "$? $(grep sm_main <<<"$said")"
replaced='sancus: checksum of crates/sm_main/out/sm_main is not that of crates/sm_main/out/BUILT'
rm -rf c
cp -a built c
cp /bin/echo c/crates/sm_main/out/sm_main
told 'another program in place of the built one' "$replaced"
sed -i 2d c/crates/sm_main/out/BUILT
told 'no hash of the built program' "$replaced"
rm c/crates/sm_main/out/BUILT
runs 'no record of the built program'
again
rm c/crates/sm_main/out/BUILT
said=$(c/sancus image c/examples/first.img - 4 2>&1)
row 'no record, and no release' '125 sancus: crates/sm_main/out/BUILT is not there: ./build writes it' "$? $(grep BUILT <<<"$said")"

# ---- how long a call takes, the least of five
fresh
best=$(for _ in 1 2 3 4 5; do
    begun=$(date +%s%N)
    c/sancus image c/examples/first.img - 4 >/dev/null
    echo $((($(date +%s%N) - begun) / 1000000))
done | sort -n | head -n 1)
row 'a call takes under 200 ms' yes "$([ "$best" -lt 200 ] && echo yes || echo "$best ms")"

# ---- files that are no input
first=c/examples/first.img
mkfifo pipe 4
waits() { printf '125 sancus: %s is no regular file: reading it may wait for ever' "$1"; }
gives 'a pipe with no writer' "$(waits pipe)" c/sancus image pipe - 4
gives 'a pipe after --' "$(waits pipe)" c/sancus image -- $first pipe 4
gives 'a pipe for the second program' "125 sancus-lab: pipe is no regular file: reading it may wait for ever" c/sancus-lab steps pipe - 4
gives 'a device' "$(waits /dev/zero)" c/sancus image /dev/zero - 4
gives 'no file in /dev/null' '4 sancus: bad file /dev/null: Line 1' c/sancus image /dev/null - 4
gives 'a pipe whose name is no file of the command' "0 $end" c/sancus image $first - 4
gives 'a folder' '6 sancus: cannot read c' c/sancus image c - 4
gives 'a name with a line feed' '125 sancus: the name of a file has a line feed' c/sancus image $'no\nname' - 4
gives 'a word with a line feed that is no file' '2 sancus: usage' c/sancus image $first - $'4\n'
printf '%s\n' 'section .text code' 'mov r4, r5' >a.txt
for how in '>' '>>' '1<>'; do
    cp a.txt b.txt
    gives "asm b.txt $how b.txt" '125 sancus: b.txt is the file that the output goes to' sh -c "c/sancus asm b.txt $how b.txt"
done
gives 'asm to another file' '0 ' sh -c 'c/sancus asm a.txt >a.o'
row 'an object of some bytes' yes "$([ -s a.o ] && echo yes)"
gives 'standard output closed' '7 ' sh -c "c/sancus image $first - 4 >&-"

# ---- without a proof
PATH=$room/bin:$bare
fresh
rm c/release/sancus
unproved="$absent"$'\n''sancus: release/sancus is not there, or may not be run'$'\n''sancus: this answer is of an unproved build of the same sources; ./build proves and builds the program'
gives 'no program, but the kit' "0 $unproved"$'\n'"image $room/$first - 4" c/sancus image $first - 4 2>&1
mkdir tmp
TMPDIR=$room/tmp c/sancus image $first - 4 >/dev/null 2>&1
row 'nothing is left of it' '' "$(ls tmp)"
for signal in HUP INT QUIT PIPE TERM; do
    rm -f works
    WORKS=$room/works TMPDIR=$room/tmp env --default-signal c/sancus image $first - 4 >/dev/null 2>&1 &
    work=$!
    appears works
    kill -s "$signal" "$work"
    wait "$work" 2>/dev/null
    status=$?
    row "$signal ends it, with a status, rt and its folder" "$((128 + $(kill -l $signal)))  " "$status $(ls tmp) $(pgrep -P 1 -f '^sleep 300.25')"
done

# ---- the build
fresh
EDITS=yes build
row 'a source that changes while it is built' '1 build: the sources of crates/sm_main changed while they were built: begin it again' "$? $(tail -n 1 said)"
row 'and no record' '' "$(find c/crates/sm_main/out -name 'BUILT*')"
fresh
ln -s lib.rt c/crates/texts/src/odd.rt
build
row 'sources with a link' '1 build: the sources cannot be read' "$? $(tail -n 1 said)"
PATH=$bare gives 'no kit' '1 build: rt, the command of the Rattle kit, is not on the path' c/build
for signal in INT TERM HUP QUIT PIPE USR1 KILL; do
    fresh
    rm -f works
    WORKS=$room/works env --default-signal c/build >said 2>&1 &
    work=$!
    appears works
    [ "$signal" != INT ] || gives 'a second build beside the first' '1 build: another build is at work here; out/build.log has what it says' c/build
    kill -s "$signal" "$work"
    wait "$work" 2>/dev/null
    for _ in $(seq 60); do
        flock -n c/out/build.lock true && break
        sleep 0.05
    done
    row "$signal ends a build with all that it began" 0 "$(fuser c/out/build.lock c/out/build.alive 2>/dev/null | wc -w)"
done
fresh
rm -f works
WORKS=$room/works c/build 2>&1 | head -n 1 >/dev/null
row 'a build whose reader went away leaves nothing' 0 "$(fuser c/out/build.lock c/out/build.alive 2>/dev/null | wc -w)"

# ---- what is installed
printf '%s\n' '#!/bin/sh' 'shift 3' 'for name; do [ "$name" = "$LACKS" ] || echo "$name installed"; done' >other/dpkg-query
printf '%s\n' '#!/bin/sh' 'echo apt-get "$@"' >other/apt-get
printf '%s\n' '#!/bin/sh' 'echo "$USER_ID"' >other/id
chmod +x other/*
rm other/uname
PATH=$room/other:$PATH
gives 'all packages there' '0 ' c/setup
LACKS=cmark USER_ID=0 gives 'one lacks' '0 apt-get update
apt-get install --no-install-recommends -y cmark' c/setup
LACKS=cmark USER_ID=1000 gives 'one lacks, and no right to install it' \
    '1 setup: run as root: apt-get update && apt-get install --no-install-recommends -y cmark ' c/setup
PATH=${PATH#*:}

# ---- the release
export KIT=$kit
# refuses WHAT LINE FILE..: release/make says this, and release/ is as it was.
refuses() {
    local what=$1 line=$2
    shift 2
    rm -f said
    c/release/make "$@" 2>said >/dev/null
    row "$what" "1 $line" "$? $(tail -n 1 said)"
    row "$what: release/ is as it was" '' "$(diff -r whole/release c/release)"
}
fresh
refuses 'too few files' 'release/make: wanted: a file for each of '"$(c/release/verify --names)" whole/release/sancus whole/release/sancus-lab
files=()
for name in $(whole/release/verify --names); do files+=("whole/release/$name"); done
refuses 'two programs in the wrong order' 'release/make: whole/release/sancus-lab is not sancus' whole/release/sancus-lab whole/release/sancus "${files[@]:2}"
refuses 'a program that is none' 'release/make: /bin/echo is not sancus' /bin/echo "${files[@]:1}"
refuses 'a module that is none' 'release/make: /bin/echo is not sancus.wasm' "${files[@]:0:2}" /bin/echo "${files[@]:3}"
refuses 'a file that is not there' 'release/make: sancus-lab could not be copied' "${files[0]}" none.such "${files[@]:2}"
KIT='' refuses 'a kit without a name' 'release/make: rt, the command of the Rattle kit, is not on the path' "${files[@]}"
PATH=$bare refuses 'no kit for a release' 'release/make: rt, the command of the Rattle kit, is not on the path' "${files[@]}"
full() { (ulimit -f 400; trap '' XFSZ; refuses "$@"; echo "$passed $failed" >counts); read -r passed failed <counts; }
full 'a full disk' 'release/make: sancus could not be copied' "${files[@]}"
for heading in '## Unreleased' '## [] - 2026'; do
    fresh
    sed -i "0,/^## /s/^## .*/$heading/" c/CHANGELOG.md
    refuses "a change log whose first heading is $heading" 'release/make: the first heading of CHANGELOG.md has no version' "${files[@]}"
done
fresh
rm c/release/SHA256SUMS c/release/RELEASE
gives 'a release' '0 ' c/release/make "${files[@]}"
row 'and it is as it was' '' "$(diff -r whole/release c/release)"

# fails WHAT ROW: release/check fails in this row alone.
check() { said=$(c/release/check "${files[@]:0:2}" 2>/dev/null); }
fails() {
    check
    row "$1" "1 failed: $2" "$? $(grep '^failed' <<<"$said")"
}
check
row 'a release that agrees' 0 "$?"
echo >>c/release/sancus.wasm
fails 'another module' 'RELEASE, SHA256SUMS and the files agree'
fresh
old c/crates/lab_main/src/main.rt '// more'
fails 'another source of the lab' 'sources of the lab'
sed -i '0,/^## /s/^## .*/## [Unreleased]/' c/CHANGELOG.md
check
row 'the same before a release' 0 "$?"
fresh
KIT=other fails 'another kit' kit
sed -i 's/^Version [0-9.]* (/Version 9.9.9 (/' c/README.md
fails 'another version on the page' 'version of README.md'
fresh
cp whole/release/sancus other_program
echo >>other_program
files[0]=other_program
fails 'another program than was built' 'sancus, as it was built'

printf '%s passed, %s failed\n' "$passed" "$failed"
[ "$failed" -eq 0 ]
