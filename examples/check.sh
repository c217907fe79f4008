#!/bin/sh
# Compares each output that is committed with what the programs write now: beside this
# file, in the documents, and what the gate compares too. CTREL and CTRACE may name the
# programs; without them the launchers run. Ends with 0 where all are the same.
cd "$(dirname "$0")" || exit 1
CTREL=$(readlink -f "${CTREL:-../ctrel}")
CTRACE=$(readlink -f "${CTRACE:-../ctrace}")
export CTREL CTRACE
compared=0
different=0

# compare FILE COMMAND..: whether the command writes what the file has.
compare() {
    committed=$1
    shift
    compared=$((compared + 1))
    if ! "$@" 2>/dev/null | cmp -s - "$committed"; then
        different=$((different + 1))
        echo "examples/$committed isn't what this writes: $*"
    fi
}

# The first address that may be executed, at which the routines of the reports begin.
first_address() {
    "$CTREL" list "$1" 2>/dev/null | sed -n '1s/ .*//p'
}

folder=$(mktemp -d) || exit 1
trap 'rm -rf "$folder"' EXIT

for file in *.check; do compare "$file" "$CTREL" check "${file%.check}.elf" "${file%.check}.toml"; done
for file in *.trace; do compare "$file" "$CTRACE" "${file%.trace}.elf" "${file%.trace}.toml"; done
for file in *.list; do compare "$file" "$CTREL" list "${file%.list}.elf"; done
for file in *.report; do
    binary=${file%.report}.elf
    compare "$file" "$CTREL" byte "$binary" "$(first_address "$binary")" "$(sed -n 's/^bound //p' "$file")"
done

# Listings and the files that are made of them, and copies that the gate's programs read.
cp ./*.txt "$folder"
if command -v python3 >/dev/null; then
    python3 make.py "$folder"
    for file in *.txt; do compare "${file%.txt}.elf" cat "$folder/${file%.txt}.elf"; done
fi
for file in ../crates/*/data/*; do
    [ -e "$(basename "$file")" ] && compare "$file" cat "$(basename "$file")"
done
compare ../crates/ctrel/stdout "$CTREL" $(cat ../crates/ctrel/args)

echo "examples: $compared outputs compared, $different different"
if command -v python3 >/dev/null; then
    python3 shown.py || different=1
else
    echo 'examples: no python3, so the documents are passed over'
fi
[ "$different" -eq 0 ]
