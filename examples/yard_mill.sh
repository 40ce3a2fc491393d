#!/bin/sh
# A worked mill with a yard and bars: sh yard_mill.sh
# Sizes 4 and 10; orders 1 and 2 of weight 4, order 3 of weight 3. In the yard lie slab 1 of size 9 and slab 2 of size 5, and order 3
# mustn't lie on either of them. All orders weigh 11, so sizes that sum to 12 (three new slabs of 4) leave a loss of 1, and
# 13 (slab 1 with orders 1 and 2, and one new slab of 4) a loss of 2. Without bars slabs 1 and 2 alone would do, at a loss of 3.
slabfront=${SLABFRONT:-slabfront}
here=$(dirname "$0")
cert=$(mktemp) || exit 1
trap 'rm -f "$cert"' EXIT
"$slabfront" solve "$here/yard_mill.ord" "$cert" --yard "$here/yard_mill.yard"
