#!/bin/sh
# CSPLib's own 111 orders (problem 038): the front, and the plan of its point as a table for a spreadsheet: sh csplib.sh > plan.csv
slabfront=${SLABFRONT:-slabfront}
here=$(dirname "$0")
orders=$here/../bench/data/csplib111.txt
cert=$(mktemp) && report=$(mktemp) || exit 1
trap 'rm -f "$cert" "$report"' EXIT
"$slabfront" solve "$orders" "$cert" > "$report" || exit
grep '^point' "$report" >&2
sh "$here/plan_to_csv.sh" "$orders" "$report" 1
