#!/usr/bin/env bash
# Every name and every must-fail edit that a document gives is there: `crate/path#name` and `crate/must-fail/label`.
set -u
cd "$(dirname "$0")/.." || exit 1
documents=(README.md docs/*.md)
bad=0
seen=0
while IFS= read -r cite; do
  seen=$((seen + 1))
  case $cite in
    *'#'*)
      file=crates/${cite%%#*}
      name=${cite#*#}
      # A function's proof is one file or two: what was walked by hand, or its invariants and its answers.
      files=("$file")
      case $file in
        */proofs/*/Proof.antt | */proofs/*/Answers.antt | */proofs/*/Invariants.antt) files=("${file%/*}"/{Proof,Answers,Invariants}.antt) ;;
      esac
      if ! grep -qsE "^ *((pub|extern|\"C\"|fn|abbrev|unfoldable|record|data|struct|enum|const) +)*$name *[:({<]" "${files[@]}"; then
        printf 'not defined there: %s\n' "$cite"
        bad=1
      fi
      ;;
    */must-fail/*)
      if ! [ -f "crates/$cite.edit" ]; then
        printf 'not there: %s\n' "$cite"
        bad=1
      fi
      ;;
  esac
done < <(grep -ohE '`[a-z_]+/(must-fail/[a-z0-9_]+|[A-Za-z_/]+\.(antt|rt)#[^` ]+)`' "${documents[@]}" | tr -d '`')
if [ "$seen" -eq 0 ]; then
  printf 'no name found in the documents\n'
  bad=1
fi
# The other way round: every must-fail edit is named in one of them.
for edit in crates/*/must-fail/*.edit; do
  label=${edit#crates/}
  if ! grep -qF "\`${label%.edit}\`" "${documents[@]}"; then
    printf 'named in no document: %s\n' "${label%.edit}"
    bad=1
  fi
done
exit "$bad"
