#!/usr/bin/env bash
# The tables of docs/RULES.md are those of the definitions: M, N and S of each size, Table 11, the bands and the symbols' offsets. So
# is the table of bands in docs/CLASS.md, and what include/hplc.h prints by band: the items, the sub-carriers and the limits. The edges of
# what slicing loses are the definitions' in docs/RULES.md and include/hplc.h, and so are a card's bits and copy codes and the pad nearest to
# its coded bits in docs/RULES.md, and a card's lengths in include/hplc.h. Table 13, the most pads of copies and the longest list are those
# that the definitions' tables give. The requests that docs/RULES.md names are those of docs/changes.
set -u
cd "$(dirname "$0")/.." || exit 1
bad=0

# numbers CRATE NAME: what the list of a definition holds, between spaces. NAME has the arguments too.
numbers() {
  find "crates/$1/specs" -name '*.antt' -exec cat {} + | awk -v start="$2 =" '
    index($0, start) == 1 { on = 1; sub(/^[^=]*=/, "") }
    on && sub(/\[\].*/, "") { text = text " " $0; on = 0 }
    on { text = text " " $0 }
    END { gsub(/0b/, "", text); gsub(/[^0-9]+/, " ", text); gsub(/^ | $/, "", text); print text }'
}

# number CRATE NAME: the number in the one line of a definition that starts so.
number() { cat "crates/$1/specs/"*.antt | sed -nE "s/^$2([0-9]+)\)?$/\1/p"; }

# hex NUMERATOR POWER: a numerator of 53 bits over that power of 2, as C writes it in hexadecimal.
hex() {
  local digits
  digits=$(printf '%x' "$1" | sed -E 's/^1//; s/0+$//')
  printf '0x1.%sp%d\n' "$digits" $((52 - $2))
}

# row PATTERN COLUMN: a column of the row of docs/RULES.md that starts so.
row() { awk -F ' *[|] *' -v column="$2" -v start="$1" 'index($0, start) == 1 { print $column; exit }' docs/RULES.md; }

# rows_of DOCUMENT COLUMN: the rows of its first table whose first column is called so.
rows_of() { awk -v start="| $2 |" 'index($0, start) == 1 { on = 1 } on && !NF { exit } on && /^\| [0-9]/' "$1"; }

# found FILE PATTERN: what a pattern finds in a text, its lines joined.
found() { tr -s '\n* ' ' ' < "$1" | sed -nE "s/.*$2.*/\1/p"; }

# fields PATTERN: the bits of the fields that a sentence of docs/RULES.md lists.
fields() { found docs/RULES.md "$1" | sed 's/(0)//' | tr -cs '0-9' ' '; }

# listed ITEM..: `a, b and c`.
listed() {
  local text
  text=$(printf '%s, ' "${@:1:$#-1}")
  printf '%s and %s\n' "${text%, }" "${!#}"
}

# nearest SYMBOLS CODED: of symbols of so many bits and so many coded bits, the pad that comes nearest to the coded bits, with them.
nearest() {
  local symbol coded spare pad=0 of=1
  for symbol in $1; do
    for coded in $2; do
      spare=$(((symbol - coded % symbol) % symbol))
      if [ $((spare * of)) -gt $((pad * coded)) ]; then
        pad=$spare
        of=$coded
      fi
    done
  done
  printf '%d of %d\n' "$pad" "$of"
}

# copied CARRIERS BITS CODED CODE: the pad of a copy, and the items of all, by the arithmetic of 5.1.5.5.3.
copied() {
  local used=$((all[$4] * ($1 / all[$4])))
  local symbol=$(($2 * used)) group=$(($2 * (used / copies[$4]))) pad=0
  local last=$(($3 % symbol))
  if [ "$last" -gt 0 ]; then
    pad=$((group - (last - group * ((last - 1) / group))))
  fi
  printf '%d %d\n' "$pad" $((($3 + pad) / group * $1 * $2))
}

# unused CODE: the carriers of each band that carry nothing with so many copies.
unused() {
  local band carriers text=
  for band in "${!first[@]}"; do
    carriers=$((last[band] - first[band] + 1))
    text+=", $((carriers % all[$1]))"
  done
  printf '%s\n' "${text#, }"
}

# same NAME A B: two texts that must be equal, and not empty.
same() {
  if [ -z "$2" ] || [ "$2" != "$3" ]; then
    printf '%s: printed is %s, and should be %s\n' "$1" "$2" "$3"
    bad=1
  fi
}

matrices=$(sed -nE 's/^matrix kind = get_or \((.*) ∷ \[\]\) kind \[\]$/\1/p' crates/constituent/specs/*.antt)
read -ra matrix <<< "${matrices//∷/}"
read -ra offset <<< "$(numbers interleaver_shape offsets)"
read -ra step <<< "$(numbers interleaver_shape steps)"
kind=0
for bytes in 16 72 136 264 520; do
  starts=$(numbers pair_interleaver "starts$bytes")
  same "L of $bytes" "$(row "| $bytes | $((4 * bytes)) |" 3)" $((4 * bytes))
  same "M of $bytes" "$(row "| $bytes | $((4 * bytes)) |" 4)" "$(numbers constituent "${matrix[kind]}")"
  same "N of $bytes" "$(row "| $bytes | $((4 * bytes)) |" 5)" "$(wc -w <<< "$starts")"
  same "S of $bytes" "$(row "| $bytes | $((4 * bytes)) |" 6)" "$starts"
  same "offset of $bytes" "$(row "| $bytes | 1/2 |" 4)" "${offset[kind]}"
  same "step of $bytes" "$(row "| $bytes | 1/2 |" 5)" "${step[kind]}"
  kind=$((kind + 1))
done
same 'offset at 16/18' "$(row '| 520 | 16/18 |' 4)" "${offset[5]}"
same 'step at 16/18' "$(row '| 520 | 16/18 |' 5)" "${step[5]}"
pattern=$(sed -nE 's/^pattern rate = get_or \(0b1{16} ∷ 0b([01]{16}) ∷ \[\]\) rate 0$/\1/p' crates/turbo/specs/Puncture.antt)
times=$(sed -nE 's/^pub kept_at : .*eqb .t % 16. ([0-9]+) .. eqb .t % 16. ([0-9]+)\)$/\1 or \2/p' crates/turbo/proofs/PunctureLaws.antt)
same 'the puncturing row of docs/RULES.md' "$(found docs/RULES.md 'at the ones of ([01]+) read from the right,')" "$pattern"
same 'the kept times of docs/RULES.md' "$(found docs/RULES.md 'so t mod 16 is ([0-9]+ or [0-9]+) \(D7\)')" "$times"
same 'the kept bits of docs/RULES.md' "$(found docs/RULES.md '\(D7\); ([0-9]+) parity bits remain')" \
  "$(sed -n 's/^pub remain : kept_count 4 1 ≡ //p' crates/turbo/proofs/PunctureLaws.antt)"
read -ra first <<< "$(numbers bands 'first_sub_carrier band')"
read -ra last <<< "$(numbers bands 'last_sub_carrier band')"
read -ra symbols <<< "$(numbers bands 'symbols band')"
read -ra fewest <<< "$(numbers diversity 'band_fewest band')"
read -ra most <<< "$(numbers diversity 'band_most band')"
bands=
limits=
spans=()
lengths=()
for band in "${!first[@]}"; do
  carriers=$((last[band] - first[band] + 1))
  items=$((2 * symbols[band] * carriers))
  bands+="| $band | ${first[band]} | ${last[band]} | $carriers | ${symbols[band]} | $items | ${fewest[band]} | ${most[band]} |"$'\n'
  limits+="| $band | ${first[band]} to ${last[band]} | ${symbols[band]} | ${fewest[band]} to ${most[band]} | ${fewest[band]} |"$'\n'
  spans+=("${first[band]} to ${last[band]}")
  for bits in $(numbers card 'carrier_bits modulation'); do
    lengths+=($((carriers * bits)))
  done
  same "HPLC_FC_ITEMS_BAND_$band" "$(sed -n "s/^#define HPLC_FC_ITEMS_BAND_$band //p" include/hplc.h)" "$items"
done
same 'the bands of docs/RULES.md' "$(rows_of docs/RULES.md Band)"$'\n' "$bands"
same 'the bands of docs/CLASS.md' "$(rows_of docs/CLASS.md Band)"$'\n' "$limits"
same 'the sub-carriers of include/hplc.h' "$(found include/hplc.h 'Bands 0 to 3 are sub-carriers ([^.]+)\.')" "$(listed "${spans[@]}")"
same 'the limits of include/hplc.h' "$(found include/hplc.h "below the band's limit, ([^.]+) on bands 0 to 3,")" "$(listed "${fewest[@]}")"
coded=("$(sed -n 's/^pub coded-high : coded_bits 4 1 ≡ //p' crates/interleaver_shape/proofs/ShapeLaws.antt)")
for bytes in $(numbers card 'block_bytes kind' | cut -d ' ' -f 2-); do
  coded+=($((16 * bytes)))
done
same 'the nearest pad of docs/RULES.md' "$(found docs/RULES.md 'comes nearest to them is ([0-9,]+ of [0-9,]+),' | tr -d ,)" \
  "$(nearest "${lengths[*]}" "${coded[*]}")"
offsets=$(found docs/RULES.md 'The offsets are ([0-9, ]+), on band 0 ')
same "the symbols' offsets" "${offsets//,/}" "$(numbers bands symbol_offsets)"
power=$(($(number slicing 'erasure_fraction = fin false 1 \(negsuc ') + 1))
qpsk=$(hex "$(number constellation 'qpsk_numerator = ')" $((53 + power)))
qam=$(hex "$(number constellation 'qam_numerator = ')" $((54 + power)))
low=$(number slicing 'low_numerator = ')
high=$(number slicing 'high_numerator = ')
same 'the part of f in docs/RULES.md' "$(found docs/RULES.md 'whose size is at most f\/([0-9]+)\.')" $((1 << power))
same 'the ends in docs/RULES.md' "$(found docs/RULES.md 'rounded once: ([^ ]+ to [^ ]+) \(D14\)')" "$low/2^53 to $high/2^53"
same 'the part of f in include/hplc.h' "$(found include/hplc.h 'at most f\/8: ([^ ]+ for BPSK, [^ ]+ for QPSK and [^ ]+ for 16QAM)\.')" \
  "0x1p-$power for BPSK, $qpsk for QPSK and $qam for 16QAM"
same 'the ends in include/hplc.h' "$(found include/hplc.h '2f \+ f\/8, ([^ ]+ to [^ ]+), both included')" "$(hex "$low" 53) to $(hex "$high" 53)"
read -ra bits <<< "$(fields 'Version 1 has eleven bytes: ([^.]+)\.')"
read -ra between <<< "$(fields 'between spare and serial holds ([^.]+)\.')"
same 'the bits of a card in docs/RULES.md' "${bits[*]:0:7} 12 ${between[*]} ${bits[7]} 0 0 0 ${bits[7]}" \
  "$(sed -n 's/^widths bytes = //p' crates/card/specs/Card.antt | tr -cs '0-9' ' ' | xargs)"
read -ra copies <<< "$(numbers card copy_counts)"
same 'the copy codes in docs/RULES.md' "$(found docs/RULES.md 'copy codes 0 to 5 are ([0-9, ]+ and [0-9]+) copies')" "$(listed "${copies[@]}")"
read -ra all <<< "$(numbers payload_layout inter_num)"
read -ra per_group <<< "$(numbers payload_layout inter_num_per_group)"
interleavers=
pads=0
of=1
longest=0
for code in "${!copies[@]}"; do
  interleavers+="| ${copies[code]} | ${all[code]} | ${per_group[code]} |"$'\n'
  for band in "${!first[@]}"; do
    for bits in $(numbers card 'carrier_bits modulation'); do
      for data in "${coded[@]}"; do
        read -r pad items <<< "$(copied $((last[band] - first[band] + 1)) "$bits" "$data" "$code")"
        if [ $((copies[code] * pad * of)) -gt $((pads * data)) ]; then
          pads=$((copies[code] * pad))
          of=$data
        fi
        longest=$((items > longest ? items : longest))
      done
    done
  done
done
same 'Table 13 in docs/RULES.md' "$(rows_of docs/RULES.md Copies)"$'\n' "$interleavers"
same 'the most pads of docs/RULES.md' "$(found docs/RULES.md 'defined mode, at most ([0-9,]+ of [0-9,]+) \(' | tr -d ,)" "$pads of $of"
same 'the longest list of docs/RULES.md' "$(found docs/RULES.md 'The longest list has ([0-9,]+) items' | tr -d ,)" "$longest"
same 'most_items' "$(number payload_layout 'most_items = ')" "$longest"
interleavers=$(sed -nE 's/^\| InterNum(PerGroup)? \| ([0-9, ]+) \(.*/\2/p' docs/DECISIONS.md | tr -d ,)
same 'Table 13 in docs/DECISIONS.md' "$interleavers" "${all[*]}"$'\n'"${per_group[*]}"
same 'the unused carriers of docs/DECISIONS.md' "$(found docs/DECISIONS.md 'Their numbers on bands 0 to 3: ([^.]+)\.')" \
  "$(unused 1) with ${copies[1]} or ${copies[2]} copies; $(unused 3) with ${copies[3]}; $(unused 4) with ${copies[4]}; $(unused 5) with ${copies[5]}"
same 'HPLC_PAYLOAD_ITEMS_MAX' "$(sed -n 's/^#define HPLC_PAYLOAD_ITEMS_MAX //p' include/hplc.h)" "$longest"
same 'the lengths of a card in include/hplc.h' "$(sed -nE 's/^#define HPLC_CARD_(2_)?BYTES //p' include/hplc.h | xargs)" \
  "$(sed -nE 's/^card_bytes version = cond \(eqb version 2\) ([0-9]+) ([0-9]+)$/\2 \1/p' crates/card/specs/Card.antt)"
same 'HPLC_CARD_TEXT_MAX' "$(sed -n 's/^#define HPLC_CARD_TEXT_MAX //p' include/hplc.h)" "$(number printed_card 'longest = ')"
requests=(docs/changes/T-*.md)
requests=("${requests[@]##*/}")
same 'the requests of docs/RULES.md' "$(found docs/RULES.md 'been met amend them \(([^)]+)\)')" "$(listed "${requests[@]%.md}")"
exit "$bad"
