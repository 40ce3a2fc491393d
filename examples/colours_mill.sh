#!/bin/sh
# One mill with at most one, two and three colours on a slab: sh colours_mill.sh
# Three orders of weight 2, each of a colour of its own, and slabs of size 6: three slabs with a loss of 12, two with 6, or one
# without loss.
slabfront=${SLABFRONT:-slabfront}
here=$(dirname "$0")
cert=$(mktemp) || exit 1
trap 'rm -f "$cert"' EXIT
for colours in 1 2 3; do
  echo "at most $colours:"
  "$slabfront" solve "$here/colours_mill.ord" "$cert" --colours "$colours" | grep -v '^nodes' || exit 1
done
