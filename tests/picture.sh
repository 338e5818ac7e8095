#!/usr/bin/env bash
# docs/class/copies.svg is what its script makes.
set -eu
cd "$(dirname "$0")/.."
docs/class/picture.sh | cmp - docs/class/copies.svg
