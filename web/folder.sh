#!/bin/sh
# Makes a folder of all that the pages need, for any web server or file host: web/folder.sh FOLDER
# It must not be there yet. Its pages are FOLDER/web/index.html and FOLDER/web/bench.html.
top=$(dirname -- "$(dirname -- "$(readlink -f -- "$0")")") || exit 1
if [ $# -ne 1 ]; then
    echo 'folder.sh: usage: web/folder.sh FOLDER' >&2
    exit 1
fi
mkdir -- "$1" || exit 1
folder=$(cd -- "$1" && pwd) || exit 1
cd -- "$top" || exit 1
{ cat web/files.txt && echo web/files.txt; } | xargs cp --parents -t "$folder" --
