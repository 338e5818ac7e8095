#!/usr/bin/env bash
# Builds crates/tester/out/libtester.a, unless it is there and newer than every file that it is made of.
set -eu
cd "$(dirname "$0")/.."
library=crates/tester/out/libtester.a
if ! [ -f "$library" ] || [ -n "$(find crates crates.txt -name out -prune -o -type f -newer "$library" -print -quit)" ]; then
  if ! said=$(cd crates/tester && rt lib 2>&1); then
    tail -n 20 <<< "$said" >&2
    exit 1
  fi
fi
