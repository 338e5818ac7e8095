#!/usr/bin/env bash
# The worked examples of the copied payload in docs/DECISIONS.md, D27, are what the library sends.
set -eu
cd "$(dirname "$0")/.."
tests/library.sh
work=$(mktemp -d)
trap 'rm -rf "$work"' EXIT
gcc -O2 -std=c99 -Wall -Wextra -Wpedantic -Werror -Iinclude tests/copies.c crates/tester/out/libtester.a -o "$work/copies"

# A row: band, modulation, kind, rate and copies; used, bits of a group, pad, shifts, symbols, items and F.
awk -F ' *[|] *' '
  /^\| Band, modulation, kind, rate, copies \|/ { on = 1; next }
  on && !NF { exit }
  on && $2 ~ /^[0-9]/ {
    gsub(/,/, "")
    split($2, mode, " ")
    modulation = mode[2] == "BPSK" ? 0 : mode[2] == "QPSK" ? 1 : 2
    print mode[1], modulation, mode[3], mode[4] == "16/18", mode[5] ": " $3, $4, $5, $7, $8, $9
  }' docs/DECISIONS.md > "$work/rows"
sed 's/:.*//' "$work/rows" | "$work/copies" > "$work/seen" || true
diff "$work/rows" "$work/seen"
rows=$(wc -l < "$work/rows")
if [ "$rows" -ne 9 ]; then
  printf 'docs/DECISIONS.md has %d worked examples, and not 9\n' "$rows"
  exit 1
fi
cat "$work/seen"
