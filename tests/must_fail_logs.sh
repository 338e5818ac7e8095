#!/usr/bin/env bash
# Every must-fail edit was refused because a fact fails. Reads what `rt ci` or `rt must-fail` printed, from the file that is named. There
# each edit has a line
#   rt: must-fail CRATE/LABEL.edit: refused, as it must be: FIRST ERROR
# with the first error of its check, as far as 160 characters go. Fails on an edit without such a line, on one that could not be tried or is
# still proved, and on a first error that shows nothing of the edited program: a name that is not there, a field or an argument that a proof
# no longer has, a rewrite that finds nothing, a type of another kind than the proof was written for, or a fact that is true. A goal that the
# search leaves open is a fact that fails, also where it stopped at one of its limits. Crates may be named behind the file; all of them
# otherwise.
set -u
if [ $# -eq 0 ] || ! [ -f "$1" ]; then
  echo 'usage: tests/must_fail_logs.sh FILE [CRATE..], where FILE has what rt ci or rt must-fail printed' >&2
  exit 2
fi
printed=$(realpath "$1")
shift
cd "$(dirname "$0")/.." || exit 1
edits=()
for crate in "${@:-*}"; do
  edits+=(crates/$crate/must-fail/*.edit)
done

# The verdict on the line of an edit: nothing, or why its first error is no failed fact.
judge() {
  awk '
    # What a type says, as far as its first words tell; empty where they do not.
    function kind(type) {
      if (type ~ /→ (Prim\.)?⊥$/) return "a negation"
      if (type ~ /^([A-Za-z]+\.)*(◌<◌|◌≤◌) /) return "an order of numbers"
      if (type ~ /^([A-Za-z]+\.)*(◌≡◌|Path) /) return "an equation"
      if (type ~ /^Rattle\.[^ ]*\.Lts\.[A-Z]/) { sub(/ .*/, "", type); return type }
      return ""
    }
    # Whether these words open the message of a fact that fails.
    function fact(words) {
      return words ~ /^it is not proved that/ ||
        words ~ /^(as printed|computed as far as they go), the two (types|values|sides) / ||
        words ~ /^computed as a goal is, one side reads `/ ||
        words ~ /^expected type `/ ||
        words ~ /^`omega`: the (goal|part `[^`]*` of the goal) does not follow / ||
        words ~ /^`search`: no proof of `/ ||
        words ~ /^`search` found no proof \(`/ ||
        words ~ /^`grind` found no proof/ ||
        words ~ /^give a proof of that as the last argument, / ||
        words ~ /^`cc`: the equations do not join /
    }
    # The text in backquotes that follows some words.
    function quoted(words,    at, rest) {
      at = index(said, words " `")
      if (!at) return ""
      rest = substr(said, at + length(words) + 2)
      return index(rest, "`") ? substr(rest, 1, index(rest, "`") - 1) : ""
    }
    {
      said = $0
      if (!sub(/^refused, as it must be: /, "", said)) { print said; exit }
      if (!sub(/^note: [^ ]*: /, "", said) && !sub(/^[^ ]*: error: /, "", said)) { print "no error in its line: " said; exit }
      sub(/^`[^`]*`: /, "", said)
      if (!fact(said)) { print "its first error is no failed fact: " said; exit }
      wanted = kind(quoted("expected type"))
      had = kind(quoted("but this has type"))
      if (wanted != "" && had != "" && wanted != had) {
        print "its first error meets " had " where the proof has " wanted ", so the shape of the code changed"
        exit
      }
      if (match(said, /the two types are `([A-Za-z]+\.)*◌≤◌ [0-9]+ [0-9]+` \(expected\)/)) {
        split(substr(said, RSTART, RLENGTH), word, /[ `]+/)
        if (word[6] + 0 <= word[7] + 0) print "its first error asks for a true fact: " word[6] " is at most " word[7]
      }
    }'
}

bad=0
seen=0
for edit in "${edits[@]}"; do
  label=${edit#crates/}
  label=${label/\/must-fail\///}
  seen=$((seen + 1))
  line=$(grep -F "rt: must-fail $label: " "$printed" | tail -n 1)
  if [ -n "$line" ]; then
    why=$(judge <<< "${line#*"$label: "}")
  else
    why='it has no line'
  fi
  if [ -n "$why" ]; then
    printf '%s: %s\n' "$label" "$why"
    bad=$((bad + 1))
  fi
done
printf 'must-fail edits: %d, of which %d do not fail on a fact\n' "$seen" "$bad"
[ "$seen" -gt 0 ] && [ "$bad" -eq 0 ]
