#!/usr/bin/env bash
# The header as C and as C++, each warning an error; the example program linked, run, and held to what it must print.
set -eu
cd "$(dirname "$0")/.."
tests/library.sh
library=crates/tester/out/libtester.a
work=$(mktemp -d)
trap 'rm -rf "$work"' EXIT
strict=(-Wall -Wextra -Wpedantic -Wconversion -Werror -Iinclude)
gcc -std=c99 "${strict[@]}" examples/survey.c "$library" -o "$work/survey"
"$work/survey" | cmp - examples/survey.expected
printf '#include "hplc.h"\nint main() { return hplc_version() == HPLC_VERSION ? 0 : 1; }\n' > "$work/header.cpp"
g++ -std=c++11 "${strict[@]}" "$work/header.cpp" "$library" -o "$work/header"
"$work/header"
# Every function that the library exports is declared, and every declared one is exported.
nm -g --defined-only "$library" | awk '$2 == "T" && $3 ~ /^hplc_/ { print $3 }' | sort > "$work/exported"
grep -oE '\bhplc_[a-z_]+\(' include/hplc.h | tr -d '(' | sort -u > "$work/declared"
diff "$work/exported" "$work/declared"
# The library needs memcpy and memset, and nothing else.
if nm --undefined-only "$library" | awk '$1 == "U" { print $2 }' | grep -vxE 'memcpy|memset'; then
  exit 1
fi
