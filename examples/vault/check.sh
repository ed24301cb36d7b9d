#!/bin/sh
# Compiles the vault with $CLANG, seals the message of RFC 8439, 2.4.2, and looks at what the checkers and the vendor say of it.
#     examples/vault/check.sh [SANCUS [SANCUS_LAB]]
# The last line is 'N passed, M failed'.
here=$(dirname -- "$(readlink -f -- "$0")") || exit 1
top=$here/../..
sancus=$(readlink -f -- "${1:-$top/sancus}") || exit 1
lab=${2:-$top/sancus-lab}
room=$(mktemp -d) || exit 1
trap 'rm -rf "$room"' EXIT
cp "$here"/*.c "$here"/*.h "$here"/*.t* "$here/Makefile" "$room" && cd "$room" && rm -f layout.h || exit 1
passed=0 failed=0

row() { # row WHAT WANTED GOT
    if [ "$2" = "$3" ]; then
        passed=$((passed + 1))
    else
        failed=$((failed + 1))
        printf '%s: wanted %s, got %s\n' "$1" "$2" "$3"
    fi
}

sed "s|\.\./\.\./sancus |$sancus |; s|\.\./\.\./|$top/|" Makefile >here.mk
make -s -f here.mk vault.img || exit 1

# The message of the RFC; its key, nonce and first number of a block are those in vault.c.
message="Ladies and Gentlemen of the class of '99: If I could offer you only one tip for the future, sunscreen would be it."
sealed=6e2e359a2568f98041ba0728dd0d6981e97e7aec1d4360c20a27afccfd9fae0b\
f91b65c5524733ab8f593dabcd62b3571639d624e65152ab8f530c359f0861d8\
07ca0dbf500d6a6156a38e088a22b65e52bc514d16ccf806818ce91ab7793736\
5af90bbf74a35be6b40b8eedf2785e42874d
"$sancus" challenge challenge.txt >events.txt
printf %s "$message" | od -An -v -tx1 | tr -s ' ' '\n' | awk 'NF { printf "%d serial %s\n", 20000 + 1000 * n++, $1 }' >>events.txt
"$sancus" image vault.img events.txt 400000 >trace.txt
row 'the message of the RFC' "$sealed" "$(awk '$2 == "out" && ++n > 16 { printf "%s", $3 }' trace.txt)"
provider=$("$sancus" key vault.img 2 | awk '$1 == "provider" { print $2 }')
row 'the prover is genuine' '0 genuine' "$("$sancus" vendor vault.img 2 "$provider" challenge.txt trace.txt)"
left=$("$lab" map layout.toml vault.o prover.o main.o | awk '$1 == "symbol" && $NF == "left" { print $2 }')
printf 'answer r12\npublic %s\n' "$left" >terms
row 'released' yes "$("$lab" released vault.img 1 terms -)"
row 'to check the number of bytes left is a secret too' 'no SecretBranch' "$("$sancus" check vault.img 1 | cut -d' ' -f1,3)"
# Another key: all events but what is sent are the same, each in its cycle.
sed 's/uint32_t key\[8\] = {0x03020100/uint32_t key[8] = {0xfedcba98/' vault.c >other.c && mv other.c vault.c
make -s -f here.mk vault.img || exit 1
"$sancus" image vault.img events.txt 400000 >other.txt
row 'another key seals otherwise' 1 "$(cmp -s trace.txt other.txt; echo $?)"
row 'and in the same cycles' "$(awk '$2 == "out" && ++n > 16 { $3 = "" } $1 != "end"' trace.txt | cksum)" \
    "$(awk '$2 == "out" && ++n > 16 { $3 = "" } $1 != "end"' other.txt | cksum)"
printf '%s passed, %s failed\n' "$passed" "$failed"
[ "$failed" = 0 ]
