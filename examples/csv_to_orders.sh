#!/bin/sh
# An order file from a CSV file whose rows are WEIGHT,COLOUR: sh csv_to_orders.sh "SIZE SIZE .." ORDERS.csv > orders
# The first row is left out where its weight is no number. Colours that are numbers stay as they are; else each name gets
# the next number, and the list of names goes to standard error. Order K of all texts is row K of the data.
if [ $# -ne 2 ]; then echo "usage: $0 'SIZE SIZE ..' ORDERS.csv > orders" >&2; exit 1; fi
awk -F, -v sizes="$1" '
function trimmed(s) { gsub(/^[ \t"]+|[ \t"\r]+$/, "", s); return s }
function stop(why) { print FILENAME ":" FNR ": " why > "/dev/stderr"; bad = 1; exit 1 }
{ w = trimmed($1); c = trimmed($2) }
w == "" && c == "" { next }
NR == 1 && w !~ /^[0-9]+$/ { next }
w !~ /^[0-9]+$/ || w + 0 < 1 || w + 0 > 10000 { stop("a weight is a whole number from 1 to 10000: " w) }
c == "" { stop("no colour") }
{ n++; weight[n] = w + 0; name[n] = c; if (c !~ /^[0-9]+$/ || c + 0 < 1 || c + 0 > 250) named = 1 }
END {
  if (bad) exit 1
  for (i = 1; i <= n; i++) {
    c = name[i]
    if (!named) c = c + 0
    else { if (!(c in number)) { number[c] = ++colours; print "colour " colours ": " c > "/dev/stderr" } c = number[c] }
    colour[i] = c
    if (c > most) most = c
  }
  if (n > 250 || most > 250) { print "at most 250 orders and 250 colours" > "/dev/stderr"; exit 1 }
  k = split(sizes, size, " ")
  for (i = 1; i <= k; i++) if (size[i] !~ /^[0-9]+$/ || size[i] + 0 < 1 || size[i] + 0 > 10000) {
    print "a size is a whole number from 1 to 10000: " size[i] > "/dev/stderr"; exit 1 }
  printf "%d", k
  for (i = 1; i <= k; i++) printf " %d", size[i]
  printf "\n%d\n%d\n", (most ? most : 1), n
  for (i = 1; i <= n; i++) print weight[i], colour[i]
}' "$2"
