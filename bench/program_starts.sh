#!/bin/bash
# Runs of both programs that can't come to an answer end with 5 or 6, never with 0: a word that isn't UTF-8, standard output closed
# or full, and no memory for the words (by `prlimit`).
# Usage: bench/program_starts.sh        (builds crates/slabfront and crates/slabcheck first)
set -eu
cd "$(dirname "$0")/../crates"
here=$(mktemp -d)
(cd slabfront && rt run -- solve data/orders "$here/cert" >/dev/null)
(cd slabcheck && rt run -- check data/orders data/cert >/dev/null)
front="$PWD/slabfront/out/slabfront"
check="$PWD/slabcheck/out/slabcheck"
cp slabfront/data/orders "$here/orders"
cd "$here"

# is STATUS WHAT: the last run ended with this status
is() {
    [ "$status" = "$1" ] || { echo "$2: status $status, not $1"; exit 1; }
    echo "$2: status $status"
}

solved() { "$front" solve orders again "$@"; }
checked() { "$check" check orders cert "$@"; }
for run in solved checked; do
    status=0; "$run" --colours $'\xff' >said 2>/dev/null || status=$?
    is 5 "$run, a word that isn't UTF-8"
    [ ! -s said ]
    status=0; "$run" >&- 2>/dev/null || status=$?
    is 5 "$run, standard output closed"
    status=0; "$run" >/dev/full 2>/dev/null || status=$?
    is 5 "$run, standard output full"
    status=0; "$run" >said || status=$?
    is 0 "$run"
done

# with little memory for many long words: 6 somewhere, and never 0
word=$(printf 'w%.0s' $(seq 60000))
words=()
for _ in $(seq 30); do words+=("$word"); done
for program in "$front" "$check"; do
    seen=
    for kilobytes in $(seq 4000 250 9000); do
        status=0
        prlimit --as=$((kilobytes * 1024)) "$program" "${words[@]}" >said 2>told || status=$?
        [ "$status" != 0 ] || { echo "$program with $kilobytes kB: status 0"; exit 1; }
        [ "$status" != 6 ] || { [ ! -s said ] && seen=$kilobytes; }
    done
    [ -n "$seen" ] || { echo "$program: no run ended with status 6"; exit 1; }
    echo "$(basename "$program") without memory for its words: status 6 (last at $seen kB), never 0"
done
rm -r "$here"
