#!/usr/bin/env bash
# docs/FLOORS.md and crates.txt have the same crates, once each in the picture and in the table, and every crate stands above those
# that it uses. What a crate uses of the repository is what its `use` lines and paths name.
set -u
cd "$(dirname "$0")/.." || exit 1
bad=0

# same NAME A B: two lists of crates that must be equal.
same() {
  if [ "$2" != "$3" ]; then
    printf '%s:\n%s\n' "$1" "$(diff <(printf '%s\n' "$2") <(printf '%s\n' "$3"))"
    bad=1
  fi
}

# The picture as lines `crate floor`.
picture=$(awk '
  /^## / { on = $0 == "## The picture"; next }
  on && /^ +[0-9]+ / { for (k = 2; k <= NF; k++) print $k, $1 }' docs/FLOORS.md | sort)
listed=$(sed -nE 's/^([a-z_]+)( [a-z_0-9= ]+)?:.*/\1/p' crates.txt | sort)
tabled=$(sed -nE '/^\| `/ s/^\| ([^|]*) \|.*/\1/p' docs/FLOORS.md | tr -d '`,' | tr ' ' '\n' | sort)
same 'crates.txt and the picture' "$listed" "$(cut -d ' ' -f 1 <<< "$picture")"
same 'crates.txt and the table' "$listed" "$tabled"

declare -A floor
while read -r crate number; do
  floor[$crate]=$number
done <<< "$picture"
while IFS=: read -r crate uses; do
  # What a line says of a crate's kind stands behind its name.
  crate=${crate%% *}
  for used in $uses; do
    if [ -n "${floor[$used]-}" ] && [ "${floor[$used]}" -ge "${floor[$crate]-0}" ]; then
      printf '%s uses %s, which is not below it\n' "$crate" "$used"
      bad=1
    fi
    # A library that is listed and nowhere named is not used.
    if [ -d "crates/$used" ] && ! grep -rqE --exclude-dir=out "\b$used::|Rattle\.$used\." "crates/$crate"; then
      printf '%s lists %s and does not use it\n' "$crate" "$used"
      bad=1
    fi
  done
done < <(sed 's/#.*//; /^ *$/d' crates.txt)
exit "$bad"
