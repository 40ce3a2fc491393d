#!/bin/bash
# What both programs say on standard error: one line with the file and the reason where the outside fails, the usage where the words
# can't stand, and nothing else. Standard output and statuses are as without it.
# Usage: bench/messages.sh        (builds crates/slabfront and crates/slabcheck first)
set -eu
cd "$(dirname "$0")/../crates"
here=$(mktemp -d)
(cd slabfront && rt run -- solve data/orders "$here/cert" >/dev/null)
(cd slabcheck && rt run -- check data/orders data/cert >/dev/null)
front="$PWD/slabfront/out/slabfront"
check="$PWD/slabcheck/out/slabcheck"
cp slabfront/data/orders "$here/orders"
cd "$here"
mkdir folder

# says STATUS LINE COMMAND..: the command ends with this status, says nothing on standard output, and this line alone on standard error
says() {
    local wanted=$1 line=$2 status=0
    shift 2
    "$@" >said 2>told || status=$?
    [ "$status" = "$wanted" ] && [ ! -s said ] && [ "$(cat told)" = "$line" ] || { echo "$*: status $status, $(cat told)"; exit 1; }
    echo "$line"
}
says 5 "slabfront: cannot open none: no such file" "$front" solve none new
says 5 "slabfront: cannot open orders/a: a part of the name before the last is no directory" "$front" solve orders/a new
says 5 "slabfront: cannot read folder: it is a directory" "$front" solve folder new
says 5 "slabfront: cannot create folder: it is a directory" "$front" solve orders folder
says 5 "slabfront: cannot create no/new: no such directory" "$front" solve orders no/new
says 5 "slabfront: cannot write /dev/full: the disk is full" "$front" solve orders /dev/full
says 5 "slabcheck: cannot open none: no such file" "$check" check orders none
says 5 "slabcheck: cannot read folder: it is a directory" "$check" check orders folder
says 5 "slabcheck: cannot start: a word isn't UTF-8, or /dev/null cannot be opened" "$check" check orders $'\xff'

# standard output that is full, or whose reader is gone
for run in "$front solve orders new" "$check check orders cert"; do
    name=$(basename "${run%% *}")
    $run 2>told >/dev/full || [ $? = 5 ]
    [ "$(cat told)" = "$name: cannot write standard output: the disk is full" ]
    { sleep 1; { $run 2>told || echo $? >status; }; } | true
    [ "$(cat status)" = 5 ] && [ "$(cat told)" = "$name: cannot write standard output: the pipe is closed" ]
    cat told
done

# the usage, with the status and the text that words that can't stand have; it changes nothing where standard error is closed
for program in "$front" "$check"; do
    name=$(basename "$program")
    for word in "" --help --version; do
        "$program" $word >said 2>told && exit 1 || [ $? = 1 ]
        [ "$(cat said)" = "usage word 1" ] && [ "$(head -c $((11 + ${#name})) told)" = "usage: $name COM" ]
    done
    "$program" >said 2>&- && exit 1 || [ $? = 1 ]
    [ "$(cat said)" = "usage word 1" ]
    echo "$name: usage"
done

# nothing where a run comes to its answer
"$front" solve orders new >said 2>told && [ ! -s told ]
"$check" check orders new >said 2>told && [ ! -s told ]
sed '$d' new >short
"$check" check orders short >said 2>told || [ $? = 7 ]
[ ! -s told ] && grep -q 'certificate line' said
echo "silent with an answer"
rm -r "$here"
