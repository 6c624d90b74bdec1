#!/usr/bin/env python3
"""Runs a command and tells how long its checks took, crate by crate.

    python3 tools/gate_times.py rt ci
    taskset -c 0,1 python3 tools/gate_times.py rt ci

While the command runs, the processes of the checker that it started are looked at each second. At the end a line for each crate says how many seconds of processors
its proof took, that of its tests, and its edits with what they begin with, the slowest crate first; the last line has the sums and the time of the whole. What is
kept from an earlier run takes no time: for times from nothing run it where nothing is kept, or with `rt ci --anew`.
"""
import collections
import os
import subprocess
import sys
import time

TICKS = os.sysconf("SC_CLK_TCK")
KINDS = ("proof", "tests", "edits")


def processes():
    """Each process by its number: the fields of its state, its words, and its folder."""
    for name in filter(str.isdigit, os.listdir("/proc")):
        try:
            with open(f"/proc/{name}/cmdline", "rb") as file:
                words = file.read().decode(errors="replace").split("\0")
            with open(f"/proc/{name}/stat", encoding="utf-8") as file:
                fields = file.read().rpartition(")")[2].split()
            yield int(name), (fields, words, os.readlink(f"/proc/{name}/cwd"))
        except OSError:
            continue


def checks(root):
    """The checker's processes below a process: a number that is theirs alone, crate, kind, and seconds so far."""
    known = dict(processes())
    for name, (fields, words, folder) in known.items():
        if os.path.basename(words[0]) != "rattle" or "--crate-name" not in words:
            continue
        above = name
        while above in known and above != root:
            above = int(known[above][0][1])
        if above != root:
            continue
        crate = words[words.index("--crate-name") + 1]
        is_edit = "/rt-edit" in folder or any("/rt-edit" in word for word in words)
        kind = "edits" if is_edit else "tests" if "--test" in words else "proof"
        yield (name, fields[19]), crate, kind, (int(fields[11]) + int(fields[12])) / TICKS


def main(command):
    begun, taken, of = time.monotonic(), {}, {}
    ran = subprocess.Popen(command)
    while ran.poll() is None:
        for key, crate, kind, seconds in checks(ran.pid):
            taken[key], of[key] = seconds, (crate, kind)
        time.sleep(1)
    whole = time.monotonic() - begun
    sums = collections.defaultdict(lambda: dict.fromkeys(KINDS, 0.0))
    for key, seconds in taken.items():
        crate, kind = of[key]
        sums[crate][kind] += seconds
    print(f"{'crate':20}" + "".join(f"{kind:>8}" for kind in KINDS))
    for crate, row in sorted(sums.items(), key=lambda it: -sum(it[1].values())):
        print(f"{crate:20}" + "".join(f"{row[kind]:8.0f}" for kind in KINDS))
    totals = {kind: sum(row[kind] for row in sums.values()) for kind in KINDS}
    print(f"{'all':20}" + "".join(f"{totals[kind]:8.0f}" for kind in KINDS) + f"   {whole / 60:.1f} minutes in all")
    return ran.returncode


if __name__ == "__main__":
    sys.exit(main(sys.argv[1:]) if sys.argv[1:] else __doc__)
