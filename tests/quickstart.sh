#!/usr/bin/env bash
# The quick start prints a line for each program, the example card, the word that was sent, and at last the refusal. Its files stay.
set -eu
cd "$(dirname "$0")/.."
printed=$(examples/quickstart.sh)
grep -q '^serial 9007199254740993$' <<< "$printed"
word=$(printf 'a pump house, 16' | od -An -v -tx1 | tr -d ' \n')
grep -q "^$word\$" <<< "$printed"
for program in print_card encode decode; do
  grep -qE "^  $program (proved|is there)" <<< "$printed"
done
for file in example card word items; do
  [ -s "target/quickstart/$file" ]
done
[ "$(tail -n 2 <<< "$printed")" = $'refused 7\nvalue 27' ]
