#!/bin/sh
# Solves in steps, and says after each which points it has: sh steps.sh ORDERS CERT [OPTION ..] > report
# Options are `--yard FILE` and `--colours P`. Each step may open four times the nodes of the step before, since a question
# that was cut off is asked again from its beginning. It may be stopped at any time and started again: each step writes to
# CERT.new, which takes the place of CERT once it is there whole, and where CERT is there already, the search goes on from it.
# SLABFRONT names the program, NODES the first limit (1000), MOST_NODES the last one.
if [ $# -lt 2 ]; then echo "usage: $0 ORDERS CERT [--yard FILE] [--colours P]" >&2; exit 1; fi
orders=$1 cert=$2; shift 2
slabfront=${SLABFRONT:-slabfront}
nodes=${NODES:-1000} most=${MOST_NODES:-1000000000}
said=$(mktemp) || exit 1
trap 'rm -f "$said" "$cert.new"' EXIT
trap 'exit 130' INT TERM
if grep -qx "done" "$cert" 2>/dev/null; then echo "$cert is whole already: check it with slabcheck" >&2; exit 0; fi
while :; do
  begun=$(date +%s)
  if [ -s "$cert" ]; then
    "$slabfront" resume "$orders" "$cert" "$cert.new" --nodes "$nodes" "$@" > "$said"
  else
    "$slabfront" solve "$orders" "$cert.new" --nodes "$nodes" "$@" > "$said"
  fi
  status=$?
  case $status in
    0|3|4) mv "$cert.new" "$cert" ;;
    *) cat "$said"; echo "ended with status $status" >&2; exit $status ;;
  esac
  points=$(sed -n 's/^point \(.*\)/(\1)/p' "$said" | tr '\n' ' ')
  echo "limit $nodes, $(($(date +%s) - begun)) s, $(tail -1 "$said"): ${points:-no point}" >&2
  [ $status -eq 3 ] || { cat "$said"; exit $status; }
  nodes=$((nodes * 4))
  [ "$nodes" -le "$most" ] || { cat "$said"; exit 3; }
done
