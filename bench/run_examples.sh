#!/bin/sh
# Runs all of examples/ with a built program, and compares with what they should say: a line for each, then the number that differ.
# Usage: bench/run_examples.sh SLABFRONT [SLABCHECK]        (paths of the built programs; with SLABCHECK certificates are checked too)
if [ $# -lt 1 ]; then echo "usage: $0 SLABFRONT [SLABCHECK]" >&2; exit 1; fi
SLABFRONT=$(realpath "$1") || exit 1
export SLABFRONT
checker=${2:+$(realpath "$2")}
cd "$(dirname "$0")/../examples" || exit 1
here=$(mktemp -d) || exit 1
trap 'rm -rf "$here"' EXIT
differ=0

# same NAME: compares standard input, which is what it should say, with the file `said`
same() {
  cat > "$here/wanted"
  if cmp -s "$here/wanted" "$here/said"; then echo "ok      $1"; else
    echo "DIFFERS $1"
    diff "$here/wanted" "$here/said"
    differ=$((differ + 1))
  fi
}
# A report without its line of effort, and its points alone.
result() { grep -v '^nodes '; }
points() { grep '^point '; }
# ended WANTED NAME WORD..: a run that ends with this status; its text goes to `said`
ended() {
  wanted=$1 name=$2; shift 2
  "$@" > "$here/said" 2> "$here/told"; status=$?
  if [ "$status" != "$wanted" ]; then
    echo "DIFFERS $name: status $status for $wanted"
    differ=$((differ + 1))
  fi
}
# checked NAME WORD..: the checker says `proved` of the certificate, where there is a checker
checked() {
  name=$1; shift
  [ -z "$checker" ] && return
  ended 0 "$name" "$checker" check "$@"
  tail -n 1 "$here/said" > "$here/last"; mv "$here/last" "$here/said"
  echo proved | same "$name, checked"
}

ended 0 csv_to_orders.sh sh csv_to_orders.sh "4 10" orders.csv
same csv_to_orders.sh <<'END'
2 4 10
2
3
4 1
4 1
3 2
END
cp "$here/said" "$here/orders"
cp "$here/told" "$here/said"
printf 'colour 1: hot\ncolour 2: pickled\n' | same "csv_to_orders.sh, its names"

printf '4,1\nx,2\n' > "$here/bad.csv"
ended 1 "csv_to_orders.sh, a bad weight" sh csv_to_orders.sh "4 10" "$here/bad.csv"
sed 's/^.*bad.csv/bad.csv/' "$here/told" > "$here/said"
echo 'bad.csv:2: a weight is a whole number from 1 to 10000: x' | same "csv_to_orders.sh, a bad weight"

ended 0 dzn_to_orders.sh sh dzn_to_orders.sh mill.dzn capacities weights colours
same dzn_to_orders.sh < "$here/orders"
ended 1 "dzn_to_orders.sh, no such array" sh dzn_to_orders.sh mill.dzn sizes weights colours

ended 0 yard_mill.sh sh yard_mill.sh
cp "$here/said" "$here/report"
result < "$here/report" > "$here/said"
same yard_mill.sh <<'END'
front 2
point 1 3
new 4 1
new 4 2
new 4 3
point 2 1
old 1 1 2
new 4 3
complete
END

ended 0 plan_of_point.sh sh plan_of_point.sh "$here/report" 2
same plan_of_point.sh <<'END'
2 old 1 new 4
1
1
2
END
cp "$here/said" "$here/plan"
ended 0 "judge of its plan" "$SLABFRONT" judge yard_mill.ord "$here/plan" --yard yard_mill.yard
echo "legal 2 1" | same "judge of its plan"
printf '2 old 1 old 2 1 1 2\n' > "$here/plan"
ended 8 "judge of a plan on a barred slab" "$SLABFRONT" judge yard_mill.ord "$here/plan" --yard yard_mill.yard
echo "illegal slab 2 barred" | same "judge of a plan on a barred slab"
ended 1 "plan_of_point.sh, no such point" sh plan_of_point.sh "$here/report" 3

ended 0 plan_to_csv.sh sh plan_to_csv.sh yard_mill.ord "$here/report" 2
same plan_to_csv.sh <<'END'
slab,kind,size or number,order,weight,colour
1,old,1,1,4,1
1,old,1,2,4,1
2,new,4,3,3,2
END

ended 0 colours_mill.sh sh colours_mill.sh
points < "$here/said" > "$here/points"; mv "$here/points" "$here/said"
same colours_mill.sh <<'END'
point 12 3
point 6 2
point 0 1
END

ended 0 csplib.sh sh csplib.sh
cp "$here/said" "$here/plan.csv"
cp "$here/told" "$here/said"
echo "point 0 47" | same csplib.sh
# Sorted by order, the table's weights and colours are the order file's.
tail -n +2 "$here/plan.csv" | sort -t, -k4n | awk -F, '{ print $5, $6 }' > "$here/said"
tr -s '[:space:]' '\n' < ../bench/data/csplib111.txt | grep . | awk '
  NR == 1 { k = $1 } NR > k + 3 { if ((NR - k) % 2) print w, $1; else w = $1 }' | same "csplib.sh, its table"

# The first step may open 10 nodes a question, so that it ends with a cut.
ended 0 steps.sh env NODES=10 sh steps.sh ../bench/data/big20_0.ord "$here/cert"
grep -c '^limit ' "$here/told" | awk '{ exit !($1 > 1) }' || { echo "DIFFERS steps.sh: one step"; differ=$((differ + 1)); }
points < "$here/said" > "$here/points"; mv "$here/points" "$here/said"
same steps.sh <<'END'
point 34 7
point 55 6
point 140 5
END
checked steps.sh ../bench/data/big20_0.ord "$here/cert"
ended 0 "steps.sh, once more" sh steps.sh ../bench/data/big20_0.ord "$here/cert"
sed 's/^.*cert is whole/cert is whole/' "$here/told" > "$here/said"
echo "cert is whole already: check it with slabcheck" | same "steps.sh, once more"
ended 5 "steps.sh, no order file" sh steps.sh "$here/none" "$here/cert2"

echo "$differ differ"
[ "$differ" = 0 ]
