#!/usr/bin/env bash
# The programs `encode`, `decode` and `print_card` write what the same programs over the reference write: in every mode, on every band with
# every copy count in three modes, on bad files and on refused cards, each with a stack of 512 KB. They are taken from crates/NAME/out, where
# `rt ci` or `rt run` put them.
set -eu
cd "$(dirname "$0")/.."
for program in encode decode print_card; do
  if ! [ -x "crates/$program/out/$program" ]; then
    printf '%s is not built: rt ci does, and rt run in crates/%s\n' "$program" "$program" >&2
    exit 1
  fi
done
cargo build --quiet --release --offline --manifest-path reference/Cargo.toml
core=$PWD/crates
reference=$PWD/reference/target/release/job
work=$(mktemp -d)
trap 'rm -rf "$work"' EXIT
cd "$work"
runs=0
: > input

# bytes NUMBER..: a byte of each number.
bytes() { printf '%b' "$(printf '\\x%02x' "$@")"; }

# card BAND KIND RATE MODULATION TAPS [BITS [FOURTH]]: a card of version 1, with some of its first 24 bits turned; with a fourth byte
# before the serial it has twelve bytes.
card() {
  local bits=$(((1 << 20 | $1 << 18 | $2 << 15 | $3 << 14 | $4 << 12 | $5 << 1) ^ ${6-0}))
  bytes $((bits >> 16)) $((bits >> 8 & 255)) $((bits & 255)) ${7-} 1 2 3 4 5 6 7 8
}

# The bits by which version 2 differs from version 1.
second=$((3 << 20))

# core PROGRAM ARGUMENT..: runs a program, its lines on standard error go to `told`.
core() {
  local program=$1
  shift
  (ulimit -S -s 512 && "$core/$program/out/$program" "$@") 2> told
}

# same PROGRAM ARGUMENT..: what both write on standard output goes to `written`. Of the file `huge` the programs take the start, `taken`,
# and the reference is given that.
same() {
  core "$@" > written < input
  "$reference" "${@/#huge/taken}" > expected < input
  cmp written expected
  runs=$((runs + 1))
}

# there_and_back BYTES: a block sent and read by `card`, also with the first quarter of its items lost, and what is refused on the way.
there_and_back() {
  local quarter
  seq 1 400 | head -c "$1" > block
  cp card input
  same print_card
  same encode card block
  cp written items
  same decode card items
  same decode card block
  same encode card items
  { printf '\003'; tail -c +2 items; } > illegal
  same decode card illegal
  tr '\000\001' '\002' < items > lost
  same decode card lost
  quarter=$(($(wc -c < items) / 4))
  { head -c "$quarter" lost; tail -c +$((quarter + 1)) items; } > partly
  same decode card partly
  tr '\000\001' '\001\000' < items > inverted
  same decode card inverted
}

# mode BYTES BAND KIND RATE MODULATION: a block with a card of version 1, and the same items with one of version 2.
mode() {
  card "$2" "$3" "$4" "$5" 1095 > card
  there_and_back "$1"
  card "$2" "$3" "$4" "$5" 1095 "$second" 0 > card
  cp card input
  same print_card
  same encode card block
  cmp written items
  same decode card items
}

sizes=(16 72 136 264 520)
for band in 0 1 2 3; do
  mode 16 $band 0 0 1
  for kind in 1 2 3 4 5; do
    for modulation in 0 1 2; do
      mode "${sizes[kind % 5]}" $band $kind 0 $modulation
    done
  done
  mode 520 $band 4 1 1
done

# Every copy count, by its code, on every band.
for copies in 0 1 2 3 4 5; do
  for band in 0 1 2 3; do
    for mode in '1 0 0' '2 0 2' '4 1 1'; do
      card $band $mode 1095 "$second" $((copies << 3)) > card
      there_and_back "${sizes[${mode%% *}]}"
    done
  done
done

# Copies of frame control, codes without a count, two blocks; and payload cards of 2 and 11 copies with the items of another card.
for fourth in 8 40 48 56 64; do
  for mode in '0 0 1' '4 0 1'; do
    card 2 $mode 1095 "$second" "$fourth" > card
    same encode card block
    same decode card items
  done
done

# The longest list of items, and longer files: one item more, and more than is taken of a file.
head -c 101921 /dev/zero > more
head -c 200000 /dev/zero > huge
head -c 131072 huge > taken
for copies in 5 0; do
  card 3 4 0 2 1095 "$second" $((copies << 3)) > card
  there_and_back 520
  for file in more taken huge; do
    for program in encode decode; do
      for files in "$file block" "card $file"; do
        same "$program" $files
      done
    done
  done
done
grep -q '^value 131072$' written

# Files that are missing, empty, a folder or too long. Of a missing one standard error says so.
card 0 0 0 1 1095 > card
seq 1 400 | head -c 16 > block
mkdir folder
head -c 13 /dev/zero > long
for file in missing folder /dev/null long; do
  for program in encode decode; do
    for files in "$file block" "card $file"; do
      same "$program" $files
      if [ "$file" = missing ]; then
        grep -q '^missing: No such file' told
      else
        [ ! -s told ]
      fi
    done
  done
done

# Cards of any length, of every mode that fits its bits, with another version and with a spare bit.
for length in 0 1 10 12 13 16 17 40; do
  head -c "$length" /dev/zero > input
  same print_card
done
for kind in 0 1 2 3 4 5 6 7; do
  for mode in '0 0' '0 1' '0 2' '0 3' '1 0' '1 1' '1 2' '1 3'; do
    card 1 $kind $mode 2047 > input
    same print_card
  done
done
for turned in 0 1 $((1 << 20)) $second $((14 << 20)) $((2 << 18)) $((3 << 18)) $((second | 1)); do
  card 0 4 1 1 0 "$turned" > input
  same print_card
  card 0 4 1 1 0 "$turned" 7 > input
  same print_card
done

# Version 2 with every fourth byte, and with one byte more.
for fourth in {0..255}; do
  card 0 4 1 1 0 "$second" "$fourth" > input
  same print_card
done
bytes 0 >> input
same print_card

# How to call a program: on standard output where it was asked for, on standard error where it was called in another way.
for call in 'encode -h' 'encode --help' 'decode -h' 'decode --help' 'print_card -h' 'print_card --help'; do
  core $call > written
  grep -q "^usage: ${call% *} " written
  [ ! -s told ]
  runs=$((runs + 1))
done
for call in encode 'encode card' 'encode card block block' decode 'decode card' 'print_card card'; do
  core $call > written < input
  grep -q "^usage: ${call%% *} " told
  [ ! -s written ]
  runs=$((runs + 1))
done
printf 'programs: %d runs agree\n' "$runs"
