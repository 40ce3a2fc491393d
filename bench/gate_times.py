#!/usr/bin/env python3
"""Runs the gate and prints, as a table for docs/DECISIONS.md, the processor minutes that each crate took.

Usage: bench/gate_times.py [--log FILE] [--anew] [NAME..]

`rt ci` runs at the top of the repository with the words that are left: none for the whole gate, which takes over what this
machine kept; `--anew` proves all from nothing; NAME.. are crates, with those below them. What it says goes to FILE, or to
gate.log in the folder for temporary files. Columns: minutes of processor time for the crate's own check (with its library or
program), for the check of its tests, for its wrong bodies (with the check that they begin with), and their sum.

The provers are looked at five times a second (/proc, so on Linux alone), each with what it used up to then. The line `beside`
is what the system counted beyond that: the gate itself, linkers, programs and tests that ran, and each prover's last moment.
"""
import os
import resource
import subprocess
import sys
import tempfile
import time

TICKS = os.sysconf("SC_CLK_TCK")
PHASES = ("check", "tests", "wrong bodies")


def processes():
    """Gives of each process its number, its beginning, its parent and the seconds that it used itself."""
    for name in os.listdir("/proc"):
        if not name.isdigit():
            continue
        try:
            with open(f"/proc/{name}/stat") as file:
                fields = file.read().rpartition(")")[2].split()
        except OSError:
            continue
        yield int(name), fields[19], int(fields[1]), (int(fields[11]) + int(fields[12])) / TICKS


def task_of(number):
    """Returns the crate that a process proves, and the phase, where it is a prover."""
    try:
        with open(f"/proc/{number}/cmdline") as file:
            words = file.read().split("\0")
        folder = os.readlink(f"/proc/{number}/cwd")
    except OSError:
        return None
    if "--crate-name" not in words or os.path.basename(words[0]) != "rattle":
        return None
    crate = words[words.index("--crate-name") + 1]
    if "/rt-edit-" in folder:
        return crate, "wrong bodies"
    return crate, "tests" if "--test" in words else "check"


def look(gate, tasks, used):
    """Adds what the provers below the gate's process used so far."""
    parents, seconds, beginnings = {}, {}, {}
    for number, beginning, parent, spent in processes():
        parents[number], seconds[number], beginnings[number] = parent, spent, beginning
    for number in parents:
        line, above = [], number
        while above in parents and above != gate:
            line.append(above)
            above = parents[above]
        if above != gate:
            continue
        # The topmost prover on the way to the gate says what the process is for.
        for it in reversed(line):
            key = it, beginnings[it]
            if key not in tasks:
                task = task_of(it)
                if task is None:
                    continue
                tasks[key] = task
            used[number, beginnings[number]] = tasks[key], seconds[number]
            break


def main(words):
    log = os.path.join(tempfile.gettempdir(), "gate.log")
    if words[:1] == ["--log"]:
        log, words = words[1], words[2:]
    top = os.path.join(os.path.dirname(os.path.abspath(__file__)), "..")
    log = os.path.abspath(log)
    tasks, used, begun = {}, {}, time.monotonic()
    with open(log, "w") as out:
        gate = subprocess.Popen(["rt", "ci", *words], cwd=top, stdout=out, stderr=subprocess.STDOUT)
        while gate.poll() is None:
            look(gate.pid, tasks, used)
            time.sleep(0.2)
    spent = resource.getrusage(resource.RUSAGE_CHILDREN)
    whole, clock = (spent.ru_utime + spent.ru_stime) / 60, (time.monotonic() - begun) / 60
    table = {}
    for (crate, phase), seconds in used.values():
        row = table.setdefault(crate, dict.fromkeys(PHASES, 0.0))
        row[phase] += seconds / 60
    print("| Crate | Check | Tests | Wrong bodies | Sum |")
    print("|---|---|---|---|---|")
    for crate, row in sorted(table.items(), key=lambda it: -sum(it[1].values())):
        print(f"| `{crate}` | " + " | ".join(f"{row[it]:.1f}" for it in PHASES) + f" | {sum(row.values()):.1f} |")
    sums = [sum(row[it] for row in table.values()) for it in PHASES]
    print("| all crates | " + " | ".join(f"{it:.1f}" for it in sums) + f" | {sum(sums):.1f} |")
    print(f"| beside | | | | {whole - sum(sums):.1f} |")
    with open(log) as file:
        last = file.read().splitlines()[-1:]
    print(f"\n`rt ci{''.join(' ' + it for it in words)}`: {whole:.1f} processor minutes in {clock:.1f} on the clock; {last[0] if last else ''} ({log})")
    return gate.returncode


if __name__ == "__main__":
    sys.exit(main(sys.argv[1:]))
