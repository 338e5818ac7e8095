#!/usr/bin/env bash
# The table of refusals stands in several places: each copy has the same numbers in the same order, and the same comes with each.
# A copy is read as lines `number what-comes`, such as `7 bit`; one that has no words for what comes says only whether it is 0.
set -u
cd "$(dirname "$0")/.." || exit 1

# What comes with a number, in one or two words: the noun, without what leads to it or explains it.
noun() {
  sed -E 's/ \(D[0-9]+\)$//; s/^([0-9]+) (the|its|that) /\1 /; s/^([0-9]+) lowest such /\1 /; s/^([0-9]+) count of .*/\1 count/'
}

# Rows of a table of a document: the number, and the column that says what comes.
rows() {
  awk -F ' *[|] *' -v heading="$2" -v column="$3" '
    $0 == heading { on = 1; next }
    on && /^## / { exit }
    on && $2 ~ /^[0-9]+$/ { print $2, $column }' "$1" | noun
}

# The enumeration of the header: a comment `cause; what comes.`, then the number.
header() {
  awk '
    /^enum hplc_number/ { on = 1; next }
    on && /^}/ { exit }
    on && /\/\*/ { what = $0; sub(/^[^;]*; /, "", what); sub(/\..*/, "", what) }
    on && / = [0-9]+/ { number = $0; gsub(/[^0-9]/, "", number); print number, what }' include/hplc.h | noun
}

# The enum of the core: a comment `number: cause; what comes`, then the case, which holds a number where one comes.
enum() {
  awk '
    /^pub enum Refusal/ { on = 1; next }
    on && /^}/ { exit }
    on && /\/\/ [0-9]+:/ {
      number = $2; sub(/:/, "", number)
      what = "0"
      if (sub(/^[^;]*; /, "")) what = $0
      next
    }
    on { print number, (/\(usize\)/ ? what : what == "0" ? "0" : "nothing held for " what) }' crates/refusal/src/lib.rt | noun
}

# Cases of the enum in order, as `case`.
cases() {
  awk '/^pub enum Refusal/ { on = 1; next } on && /^}/ { exit } on && !/\/\// { sub(/^ */, ""); sub(/[(,].*/, ""); print }' crates/refusal/src/lib.rt
}

# Arms of a method of the core, as `case result`, a line a case: an arm may name several, over several lines.
arms() {
  awk -v start="fn $1(self)" '
    index($0, start) { on = 1; next }
    on && /^    }/ { exit }
    on {
      rest = $0
      while (match(rest, /Refusal::[A-Za-z]+/)) {
        names[++n] = substr(rest, RSTART + 9, RLENGTH - 9)
        rest = substr(rest, RSTART + RLENGTH)
      }
      if (sub(/^.* => /, "", rest)) {
        sub(/,.*/, "", rest)
        for (i = 1; i <= n; i++) print names[i], rest
        n = 0
      }
    }' crates/refusal/src/lib.rt
}

# Clauses of the definition in order, as `case number value`.
clauses() {
  sed -nE 's/^refusal \(?([A-Za-z]+)( n\))? = refused ([0-9]+) (n|0) 0$/\1 \3 \4/p' crates/refusal/specs/Report.antt
}

# Constants of the reference in order, as `number`.
reference() {
  sed -nE '/^pub mod number/,/^}/ s/.*: u32 = ([0-9]+);$/\1/p' reference/src/lib.rs
}

bad=0
# same NAME A B: two texts that must be equal.
same() {
  if [ "$2" != "$3" ]; then
    printf '%s:\n%s\n' "$1" "$(diff <(printf '%s\n' "$2") <(printf '%s\n' "$3"))"
    bad=1
  fi
}

rules=$(rows docs/RULES.md '## Numbers a fitter may see' 4)
refusals=$(tail -n +2 <<< "$rules")
numbers=$(cut -d ' ' -f 1 <<< "$refusals")
zero=$(sed -E '/ 0$/! s/ .*/ n/' <<< "$refusals")
if [ "$(head -n 1 <<< "$rules")" != '0 answer' ] || [ "$(wc -l <<< "$refusals")" -lt 9 ]; then
  printf 'docs/RULES.md has no table of refusals\n'
  bad=1
fi
# What is withdrawn is in no table.
withdrawn=$(sed -nE 's/^([0-9]+) was .* It is withdrawn and not reused: .*/\1/p' docs/RULES.md)
same 'withdrawn in include/hplc.h' "$withdrawn" "$(tr -s '\n* ' ' ' < include/hplc.h | sed -nE 's/.* ([0-9]+) was "[^"]+"; it is withdrawn,.*/\1/p')"
if [ -z "$withdrawn" ] || grep -qx "$withdrawn" <<< "$numbers"; then
  printf 'docs/RULES.md withdraws no number, or one of its table: %s\n' "$withdrawn"
  bad=1
fi
same 'docs/CLASS.md' "$refusals" "$(rows docs/CLASS.md '## The numbers at the bench' 3 | tail -n +2)"
same 'include/hplc.h' "$refusals" "$(header | tail -n +2)"
same 'the enum Refusal' "$refusals" "$(enum)"
same 'number' "$(paste -d ' ' <(cases) <(printf '%s\n' "$numbers"))" "$(arms number)"
same 'value' "$(paste -d ' ' <(cases) <(cut -d ' ' -f 2 <<< "$zero") | sort)" "$(arms value | sort)"
same 'refusal of Report.antt' "$(paste -d ' ' <(cases) <(printf '%s\n' "$zero"))" "$(clauses)"
order=$(sed -nE 's/^row_order = (.*) ∷ \[\]$/\1/p' crates/refusal/specs/Outcome.antt)
same 'row_order of Outcome.antt' "$numbers" "${order// ∷ /$'\n'}"
same 'docs/DECISIONS.md, D9' "${numbers//$'\n'/, }" "$(awk '/^## D9\./ { on = 1; next } on && NF { sub(/, as the table.*/, ""); print; exit }' docs/DECISIONS.md)"
same 'the numbers of the reference' "0"$'\n'"$numbers" "$(reference)"
# The reference names a number where it refuses: with 0 exactly where nothing comes.
while read -r name number; do
  expected=$(grep -E "^$number " <<< "$zero" | cut -d ' ' -f 2)
  while IFS= read -r place; do
    case $place in
      *"number::$name, 0)"*) given=0 ;;
      *) given=n ;;
    esac
    same "${place%%:*}: refused with number $number" "$expected" "$given"
  done < <(grep -n "refused(number::$name," reference/src/*.rs)
done < <(sed -nE '/^pub mod number/,/^}/ s/^ *pub const ([A-Z_]+): u32 = ([1-9][0-9]*);$/\1 \2/p' reference/src/lib.rs)
exit "$bad"
