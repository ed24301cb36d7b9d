#!/bin/sh
# The package: its tests, its types, and its wheel, which is built and installed without network and runs an example from there.
#     python/check.sh [PYTHON]
# PYTHON is /usr/bin/python3, Debian's, where it is left out. SANCUS and SANCUS_LAB name other programs than those in release/.
# The last line is 'N passed, M failed, K skipped'; with CI=true a skip is a failure, but for a command that the lab does not list.
here=$(dirname -- "$(readlink -f -- "$0")") || exit 1
python=${1:-/usr/bin/python3}
room=$(mktemp -d) || exit 1
trap 'rm -rf "$room"' EXIT
cd "$here" || exit 1
export PYTHONDONTWRITEBYTECODE=1
WANTED=36

# number WORD: of pytest's last line.
number() {
    found=$(tail -n 1 "$room/tests" | grep -o "[0-9]* $1" | cut -d ' ' -f 1)
    echo "${found:-0}"
}

# part WHAT COMMAND..: a row, with what it says where it fails.
part() {
    what=$1
    shift
    if "$@" >"$room/said" 2>&1; then
        passed=$((passed + 1))
    else
        failed=$((failed + 1))
        printf 'failed: %s\n' "$what"
        tail -n 20 "$room/said"
    fi
}

# A wheel of a copy, so that nothing is built here; the venv has nothing but pip.
wheel() (
    cp -r src pyproject.toml "$room" && cd "$room" || return 1
    "$python" -m pip wheel --no-index --no-build-isolation --no-deps --quiet --wheel-dir wheels . || return 1
    "$python" -m venv venv && venv/bin/pip install --no-index --quiet wheels/sancus-*.whl || return 1
    SANCUS=${SANCUS:-$here/../release/sancus}
    export SANCUS
    venv/bin/python -m sancus sweep "$here/../examples/channel/plain_0.img" "$here/../examples/channel/plain_1.img" \
        --pulses 16 19 --limit 60 >swept
    [ "$(tail -n 1 swept)" = 'end 2 same 2 different' ]
)

PYTHONPATH=src "$python" -m pytest -q --show-capture=no -W ignore >"$room/tests" 2>&1 || grep -E '^(E  |FAILED|ERROR)' "$room/tests"
passed=$(number passed)
failed=$(($(number failed) + $(number error)))
skipped=$(number skipped)
part types "$python" -m mypy --cache-dir "$room/types"
part wheel wheel
allowed=1
"${SANCUS_LAB:-../release/sancus-lab}" --help | grep -q '^  unroll ' && allowed=0
[ "${CI-}" != true ] || [ "$skipped" -le "$allowed" ] || failed=$((failed + skipped - allowed))
if [ $((passed + failed + skipped)) -lt $WANTED ]; then
    failed=$((failed + 1))
    tail -n 5 "$room/tests"
    echo "failed: fewer than $WANTED rows"
fi
printf '%d passed, %d failed, %d skipped\n' "$passed" "$failed" "$skipped"
[ "$failed" -eq 0 ]
