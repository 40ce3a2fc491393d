#!/bin/bash
# Refuses one allocation of the runs of worked_rows' test `memory_may_run_out` after another: each such run ends with status 6, has
# said `memory` alone and created no file, or ends as it does with ample memory.
# Usage: bench/refused_memory.sh NUMBER..        (of the allocations to be refused, from 1; each takes some seconds)
set -eu
cd "$(dirname "$0")/../crates/worked_rows"
mkdir -p out
for number in "$@"; do
    # Other tests may fail, whose own memory is refused.
    rt try --test --fail-alloc "$number" >out/refused 2>&1 || true
    if ! grep -q 'test memory::memory_may_run_out ... ok' out/refused; then
        echo "allocation $number refused:"
        grep 'memory_may_run_out' out/refused
        exit 1
    fi
done
echo "$# allocations refused, one after another: status 6, or as with ample memory"
