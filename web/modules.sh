#!/bin/sh
# Writes what the pages tell of the modules in release/: size, SHA-256 and version.
#     web/modules.sh > web/modules.mjs
cd -- "$(dirname -- "$(readlink -f -- "$0")")/.." || exit 1
version=$(sed -n 's/^version //p' release/RELEASE)
[ -n "$version" ] && [ -f release/sancus.wasm ] || exit 1
printf '%s\n' "// The modules in release/, as web/modules.sh found them." 'export const MODULES = {'
for name in sancus sancus-lab; do
    file=release/$name.wasm
    [ -f "$file" ] || continue
    sum=$(sha256sum "$file")
    printf '  "%s": {\n    size: %s,\n    sha256: "%s",\n    version: "%s",\n  },\n' \
        "$name" "$(wc -c <"$file")" "${sum%% *}" "$version"
done
printf '%s\n' '};'
