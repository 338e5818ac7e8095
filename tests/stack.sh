#!/usr/bin/env bash
# The stack that each call takes is what include/hplc.h states. All symbols are bound before the calls, since binding one within a call
# takes stack that goes by the processor.
set -eu
cd "$(dirname "$0")/.."
tests/library.sh
work=$(mktemp -d)
trap 'rm -rf "$work"' EXIT
gcc -std=c99 -D_XOPEN_SOURCE=600 -Wall -Wextra -Wpedantic -Werror -Wl,-z,now -Iinclude tests/stack.c crates/tester/out/libtester.a \
  -o "$work/stack"
"$work/stack"
