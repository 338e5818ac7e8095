#!/usr/bin/env bash
# The main job in one command: proves and builds the programs, prints a job card, sends a word as a frame control on band 0, loses
# carriers and reads the word back, until one carrier too many is lost.
set -eu -o pipefail
cd "$(dirname "$0")/.."
if ! command -v rt > /dev/null; then
  echo 'quickstart: `rt` is not on the path; install the Rattle toolchain first' >&2
  exit 1
fi
crates=$PWD/crates
work=$PWD/target/quickstart
rm -rf "$work"
mkdir -p "$work"

echo 'Proving and building the programs; from nothing this takes some minutes. A line for each crate that is proved:'
there='is there, as an earlier run proved and built it'
for program in print_card encode decode; do
  built=$crates/$program/out/$program
  if [ -x "$built" ] && [ -z "$(find "$crates" crates.txt -name out -prune -o -type f -newer "$built" -print -quit)" ]; then
    printf '  %s %s\n' "$program" "$there"
  # rt run says on standard error what it proves: of each crate a line with its name, and behind it the verdict.
  elif ! (cd "$crates/$program" && rt run -- -h 2>&1 > "$work/usage" < /dev/null) | tee "$work/log" |
    awk -v kept="$program $there" '
      /^crate [a-z_]+: / { name = $2; sub(/:/, "", name) }
      /^logic=proved/ { print "  " name " proved"; fflush() }
      /^rt: nothing has changed/ { print "  " kept }'; then
    tail -n 20 "$work/log" >&2
    exit 1
  fi
done
printf '\nThe programs are in crates/NAME/out. All files below stay in target/quickstart, for you to change and try again.\n'
cd "$work"

run() {
  "$crates/$1/out/$1" "${@:2}"
}

show() {
  printf '\n$ %s\n' "$*"
  run "$@"
}

# The items of carrier N, counted through all symbols, marked as lost.
lose() {
  printf '\002\002' | dd of=items bs=1 seek=$((2 * $1)) conv=notrunc status=none
}

printf '\x12\x58\x8e\x00\x20\x00\x00\x00\x00\x00\x01' > example
printf '\n$ print_card < example\n'
run print_card < example

printf '\x10\x18\x8e\x00\x20\x00\x00\x00\x00\x00\x01' > card
printf 'a pump house, 16' > word
printf '\n$ encode card word > items\n'
run encode card word > items
printf '%d items on %d carriers\n' "$(wc -c < items)" "$(($(wc -c < items) / 2))"

# The carriers of coded bit 27: in the symbol with offset o, place c carries bits (c + o) mod 256 and (c + o + 128) mod 256.
carriers=()
symbol=0
for offset in 0 192 160 96; do
  for ((place = 0; place < 411; place++)); do
    if (((place + offset) % 128 == 27)); then
      carriers+=($((symbol * 411 + place)))
    fi
  done
  symbol=$((symbol + 1))
done
printf '\nCoded bit 27 is carried by %d carriers. Both items of %d of them are marked as lost:\n' "${#carriers[@]}" "$((${#carriers[@]} - 1))"
for carrier in "${carriers[@]:1}"; do
  lose "$carrier"
done
show decode card items
printf 'the word that was sent: '
od -An -v -tx1 word | tr -d ' \n'
printf '\n\nAnd so are those of the last one:\n'
lose "${carriers[0]}"
show decode card items
