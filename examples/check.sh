#!/bin/sh
# Runs the commands of all pages, in their order: each line of the README, of docs/ and of the pages here that begins with `./sancus`,
# `./sancus-lab` or a script of `tools/`, compared with the block of text after it, whose last line is `status N` where the command ends
# with another status than 0; each `clang` line, compared with the object in the folder, and each `llvm-symbolizer` line, where clang 14
# is there; the commands of the manuals, and the files of sancus(1) by the command beside each. Then it draws the figures again,
# where matplotlib is there.
#     examples/check.sh [PROGRAM [LAB]]
# PROGRAM stands for ./sancus where it is given, LAB for ./sancus-lab. The last line is 'N commands, M differ, K not run';
# where CI is `true`, none may be left out.
here=$(dirname -- "$(readlink -f -- "$0")") || exit 1
top=${here%/*}
program=$(readlink -f -- "${1:-$top/sancus}") || exit 1
lab=${2:-$top/sancus-lab}
case $lab in /*) ;; *) lab=$PWD/$lab ;; esac
room=$(mktemp -d) || exit 1
trap 'rm -rf "$room"' EXIT
cd "$room" || exit 1
cp -r "$here" examples
ln -s "$program" sancus
ln -s "$lab" sancus-lab
ln -s "$top/include" include
ln -s "$top/tools" tools
compiler=$(clang --version 2>/dev/null | sed -n 's/.*clang version \([0-9]*\)\..*/\1/p')

total=0
differ=0
not_run=0

# From a page, for each command a file COMMAND.n and a file WANTED.n. A line of prose ends what a command is to print.
split_page() {
    rm -f command.* wanted.*
    awk '
        /^    / {
            line = substr($0, 5)
            if (going_on) command[n] = command[n] " " line
            else if (line ~ /^(\.\/sancus(-lab)?|clang|llvm-symbolizer|tools\/[a-z]+) /) { command[++n] = line; printing = 1 }
            else if (printing) wanted[n] = wanted[n] line "\n"
            going_on = line ~ /\\$/
            next
        }
        /^$/ { next }
        { printing = 0 }
        END {
            for (i = 1; i <= n; i++) {
                printf "%s\n", command[i] > ("command." i)
                printf "%s", wanted[i] > ("wanted." i)
            }
        }' "$1"
}

# compare WHAT WANTED: what was printed, in the file `got`, with a file of what is wanted.
compare() {
    total=$((total + 1))
    cmp -s "$2" got && return
    differ=$((differ + 1))
    printf '%s\n' "$1"
    diff "$2" got
}

# run FILE: the command in the file, with what it prints and another status than 0 in `got`.
run() {
    sh "$1" >got 2>&1
    status=$?
    [ "$status" -eq 0 ] || printf 'status %s\n' "$status" >>got
}

check_page() {
    split_page "$1"
    number=1
    while [ -f "command.$number" ]; do
        if [ "$compiler" != 14 ] && grep -Eq '^(clang|llvm-symbolizer) ' "command.$number"; then
            not_run=$((not_run + 1))
        else
            run "./command.$number"
            compare "$1: $(cat "command.$number")" "wanted.$number"
        fi
        number=$((number + 1))
    done
}

# A manual's commands, a line each; before them its files, and `./sancus` before what stands beside each.
split_manual() {
    awk '
        /^\.\\" file: / { file = $3; inside = 0; next }
        /^\.\\" try: / { sub(/^[^:]*: /, "./sancus "); print; next }
        file != "" && /^\.Bd / { inside = 1; next }
        file != "" && /^\.(Ed|Dl )/ { if ($1 == ".Dl") print substr($0, 5) > file; file = ""; inside = 0; next }
        inside { print > file; next }
        /^(\.Dl )?\$ sancus(-lab)? / || going_on {
            sub(/^(\.Dl )?\$ /, "./")
            going_on = sub(/ *\\e$/, "")
            printf "%s%s", $0, going_on ? " " : "\n"
        }' "$1"
}

# What they print is in no page: a status of 0, of a stop or of a verdict is wanted.
check_manual() {
    split_manual "$top/$1" >manual
    : >wanted
    while read -r line; do
        printf '%s\n' "$line" >line.sh
        run ./line.sh
        case $status in 0 | 3 | 9) : >got ;; esac
        compare "$1: $line" wanted
    done <manual
}

for page in "$top"/README.md "$top"/docs/*.md examples/README.md examples/*/README.md examples/attacks/*/README.md; do
    [ ! -f "$page" ] || check_page "$page"
done
check_manual docs/sancus.1
check_manual docs/sancus-lab.1
for object in examples/*/*.o examples/attacks/*/*.o; do
    [ ! -f "$object" ] || cmp -s "$object" "$top/$object" || {
        differ=$((differ + 1))
        printf '%s is another one than clang makes\n' "$object"
    }
done
if /usr/bin/python3 -c 'import matplotlib' 2>/dev/null; then
    for folder in channel attacks/latency; do
        SANCUS=$program SANCUS_LAB=$(readlink -f -- "$lab") "$here/$folder/draw.py" got.svg 2>got && mv got.svg got
        compare "examples/$folder/draw.py" "examples/$folder/latency.svg"
    done
else
    not_run=$((not_run + 2))
    printf 'the figures were not drawn: there is no matplotlib\n'
fi
[ "$not_run" -eq 0 ] || printf 'the lines that begin with clang or llvm-symbolizer were not run: there is no clang 14\n'
printf '%s commands, %s differ, %s not run\n' "$total" "$differ" "$not_run"
[ "$differ" -eq 0 ] && [ "$total" -gt 0 ] && { [ "${CI-}" != true ] || [ "$not_run" -eq 0 ]; }
