#!/bin/bash
# Times `check` on the certificate of the greatest path, from the outside: 250 orders and 40 surplus slabs, on none of which an
# order fits, all 41,125 questions of that mill one below another, and a leaf on each side of them (25 MB, 82,253 lines). Prints
# the seconds, the memory in KB and the status, which is 4 with `noplan` said: no plan exists. Needs python3.
# Usage: bench/time_deep.sh [PROGRAM]        (builds crates/slabcheck first, where no PROGRAM is named)
set -eu
cd "$(dirname "$0")/../crates/slabcheck"
if [ $# -eq 0 ]; then
    rt run -- check data/orders data/cert >/dev/null
fi
exec python3 - "${1:-$PWD/out/slabcheck}" <<'PYTHON'
import os, resource, subprocess, sys, tempfile, time

here = tempfile.mkdtemp()
orders, slabs = 250, 40

def put(name, lines):
    path = os.path.join(here, name)
    with open(path, "w") as f:
        f.writelines(line + "\n" for line in lines)
    return path

asks = [f"pair {i} {j}" for i in range(1, orders + 1) for j in range(i + 1, orders + 1)]
asks += [f"put {o} {s}" for o in range(1, orders + 1) for s in range(1, slabs + 1)]
leaf = "leaf 0 0 1" + " 0" * (orders + slabs - 1)
mill = put("orders", ["1 4 1 250"] + ["5 1"] * orders)
yard = put("yard", ["40"] + ["4"] * slabs)
cert = put("cert", ["slabfront 1", "done"] + asks + [leaf] * (len(asks) + 1))
begun = time.monotonic()
run = subprocess.run([sys.argv[1], "check", mill, cert, "--yard", yard], stdout=subprocess.PIPE)
taken = time.monotonic() - begun
memory = resource.getrusage(resource.RUSAGE_CHILDREN).ru_maxrss
print(f"{os.path.getsize(cert):,} bytes: {taken:.2f} s, {memory} KB, status {run.returncode}, {run.stdout.decode()!r}")
PYTHON
