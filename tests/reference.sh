#!/usr/bin/env bash
# The independent implementation: `tests` runs its own tests, `vectors` makes the vectors anew and compares them with those that
# the programs are held against, `crosscheck` compares every call over the C interface (CALLS and SEED may be set), `bench` times the
# four entries of both (REPETITIONS may be set).
set -eu
cd "$(dirname "$0")/.."
library() {
  tests/library.sh
  export HPLC_LIB_DIR=$PWD/crates/tester/out
  reference build --features core
}
reference() { cargo "$@" --quiet --release --offline --manifest-path reference/Cargo.toml; }

case ${1-} in
  tests)
    reference test
    ;;
  vectors)
    reference build
    made=$(mktemp -d)
    trap 'rm -rf "$made"' EXIT
    for name in turbo interleaver; do
      reference/target/release/vectors $name > "$made/$name"
      cmp "$made/$name" "crates/${name}_vectors/stdout"
    done
    reference/target/release/vectors points > "$made/points"
    cmp "$made/points" crates/constellation_vectors/stdout
    reference/target/release/vectors entries "$made"
    cmp "$made/entries.bin" crates/vectors/data/entries.bin
    cmp "$made/entries.txt" crates/vectors/stdout
    ;;
  crosscheck)
    library
    reference test --features core --bin crosscheck
    reference/target/release/crosscheck --calls "${CALLS-280000}" ${SEED+--seed "$SEED"}
    ;;
  bench)
    library 2> /dev/null
    printf 'core: rt lib in crates/tester, %s\n' "$(rt version)"
    reference/target/release/bench --repetitions "${REPETITIONS-300}"
    ;;
  *)
    echo "usage: tests/reference.sh tests|vectors|crosscheck|bench" >&2
    exit 2
    ;;
esac
