#!/bin/sh
# Runs what the pages show, and more, by the modules and by the native programs, in Node and in a headless Chromium, and
# compares.
#     web/check.sh [PROGRAM [LAB]] [--build] [--all]
# PROGRAM and LAB are ../sancus and ../sancus-lab where they are left out. --build makes the modules again (web/build.sh)
# and compares them with those in release/. --all has Firefox open the pages too. PICTURES=FOLDER keeps pictures of the
# pages. What cannot be run here is told, and fails where CI=true; the last line is 'N passed, M failed[, K skipped]'.
here=$(dirname -- "$(readlink -f -- "$0")") || exit 1
top=$(dirname -- "$here")
built=
all=
program=
lab=
for word; do
    case $word in
    --build) built=yes ;;
    --all) all=yes ;;
    *) if [ -z "$program" ]; then program=$word; else lab=$word; fi ;;
    esac
done
program=$(readlink -f -- "${program:-$top/sancus}") || exit 1
# (a link to the launcher says by its name which program it is)
lab=$(cd -- "$(dirname -- "${lab:-$top/sancus-lab}")" && pwd)/$(basename -- "${lab:-sancus-lab}") || exit 1
room=$(mktemp -d) || exit 1
trap 'rm -rf "$room"' EXIT
passed=0
failed=0
skipped=0

# result WHAT STATUS
result() {
    if [ "$2" -eq 0 ]; then
        passed=$((passed + 1))
    else
        failed=$((failed + 1))
        printf 'failed: %s\n' "$1"
    fi
}

skip() {
    skipped=$((skipped + 1))
    printf 'skipped: %s\n' "$1"
}

# Runs a script whose last line is 'N passed, M failed[, K skipped]', and adds its numbers. One that found nothing fails.
counted() {
    "$@" >"$room/said"
    sed '$d' "$room/said"
    last=$(tail -n 1 "$room/said")
    case $last in
    [1-9]*' passed, '*' failed'*)
        # shellcheck disable=SC2086
        set -- $last
        passed=$((passed + $1))
        failed=$((failed + ${3%,}))
        skipped=$((skipped + ${5:-0}))
        ;;
    *) result "$*: it did not end" 1 ;;
    esac
}

command_of() {
    for name; do
        command -v "$name" && return
    done
    return 1
}

# same FILE COMMAND..: whether a file of web/ is what a command writes.
same() {
    file=$1
    shift
    "$@" >"$room/made" && cmp -s "$room/made" "$here/$file"
    result "web/$file is what $(basename -- "$1") writes" $?
}

# again NAME [--lab]
again() {
    file=$1.wasm
    shift
    "$here/build.sh" "$@" "$room/$file" >/dev/null && cmp -s "$room/$file" "$top/release/$file"
    result "release/$file is what web/build.sh $* makes" $?
}

same files.txt "$here/list.sh"
same modules.mjs "$here/modules.sh"
same reasons.json "$here/reasons.py"
[ -f "$top/release/sancus.wasm" ]
result 'release/sancus.wasm is there (web/build.sh makes it)' $?
if [ -n "$built" ]; then
    again sancus
    again sancus-lab --lab
fi
node=$(command_of node nodejs)
chromium=$(command_of chromium chromium-browser google-chrome)
firefox=$(command_of firefox-esr firefox)
# browsed BROWSER SCRIPT..: the pages in a browser, if it is here.
browsed() {
    if [ -z "$1" ]; then
        skip "the pages in a browser: $2 has none"
    else
        browser=$1
        script=$2
        shift 2
        counted "$node" "$here/check/$script" "$browser" "$@"
    fi
}
if [ -z "$node" ]; then
    skip 'the lines and the pages: no node'
else
    same examples.json "$here/examples.mjs"
    counted "$node" "$here/check/pictures.mjs"
    counted "$node" "$here/check/parts.mjs"
    counted "$node" "$here/check/serve.mjs"
    counted "$node" "$here/check/lines.mjs" "$program" "$lab" "${IMAGES:-1000}"
    browsed "$chromium" browser.mjs "$program" ${PICTURES:+"$PICTURES"}
    browsed "$chromium" workbench.mjs "$program" "$lab" ${PICTURES:+"$PICTURES"}
    [ -z "$all" ] || browsed "$firefox" firefox.mjs "$program"
fi
if [ "$skipped" -eq 0 ]; then
    printf '%s passed, %s failed\n' "$passed" "$failed"
else
    printf '%s passed, %s failed, %s skipped\n' "$passed" "$failed" "$skipped"
fi
[ "$failed" -eq 0 ] && { [ "${CI:-}" != true ] || [ "$skipped" -eq 0 ]; }
