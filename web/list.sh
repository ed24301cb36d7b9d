#!/bin/sh
# Lists what the pages need, all that web/serve gives out: web/list.sh > web/files.txt
cd -- "$(dirname -- "$(readlink -f -- "$0")")/.." || exit 1
{
    find examples -type f ! -name README.md ! -name '*.sh' ! -name '*.svg' ! -name '*.py'
    find release -maxdepth 1 -type f -name '*.wasm'
    find web -maxdepth 1 -type f \( -name '*.html' -o -name '*.mjs' -o -name '*.css' -o -name '*.json' \) \
        ! -name draw.mjs ! -name measure.mjs ! -name examples.mjs
} | LC_ALL=C sort
