#!/bin/bash
# Checks the certificates of bench/data/certs with the program, and compares status and text with those of an independent checker:
# small.jsonl has mills and certificates in its rows, good ones and broken ones, large.jsonl names files. Prints each row that
# differs, then the number of rows and the seconds that the large ones took, the slowest first. Needs python3.
# Usage: bench/check_certs.sh        (builds crates/slabcheck first)
set -eu
cd "$(dirname "$0")/../crates/slabcheck"
rt run -- check data/orders data/cert >/dev/null
exec python3 - "$PWD/out/slabcheck" "$PWD/../../bench/data" <<'PYTHON'
import json, os, subprocess, sys, tempfile, time

program, data = sys.argv[1:]
here = tempfile.mkdtemp()

def put(name, text):
    path = os.path.join(here, name)
    with open(path, "wb") as f:
        f.write(text.encode("latin-1"))
    return path

rows, differing, times = 0, 0, []
for table in ("small", "large"):
    for line in open(os.path.join(data, "certs", table + ".jsonl")):
        row = json.loads(line)
        if table == "small":
            orders, yard, cert = (put(name, row[name]) for name in ("orders", "yard", "cert"))
        else:
            orders, cert = os.path.join(data, row["orders"]), os.path.join(data, "certs", row["cert"])
            yard = row["yard"] and os.path.join(data, row["yard"])
        words = [program, "check", orders, cert] + (["--yard", yard] if yard else []) + ["--colours", str(row.get("colours", 2))]
        begun = time.monotonic()
        run = subprocess.run(words, stdout=subprocess.PIPE)
        taken = time.monotonic() - begun
        rows += 1
        if table == "large":
            times.append((taken, row["cert"]))
        said = run.stdout.decode("latin-1")
        if (run.returncode, said) != (row["status"], row["said"]):
            differing += 1
            print(f"{table} row {rows}: {run.returncode} {said!r} for {row['status']} {row['said']!r}")
for taken, name in sorted(times, reverse=True):
    print(f"{taken:8.3f} s  {name}")
print(f"{rows} rows, {differing} differ")
sys.exit(differing > 0)
PYTHON
