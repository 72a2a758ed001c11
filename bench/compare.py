#!/usr/bin/env python3
"""Runs two programs on the same study files by turns and prints a table.

    compare.py BASELINE OURS FOLDER REPETITIONS

Times are milliseconds of processor time (user and system) of a whole process,
the best of the repetitions. Status 1 where the outputs differ.
"""

import glob
import os
import subprocess
import sys


def run(program, path):
    """The program's output and its milliseconds."""
    with open(path, "rb") as study:
        child = subprocess.Popen([program], stdin=study, stdout=subprocess.PIPE)
        output = child.stdout.read()
        _, status, usage = os.wait4(child.pid, 0)
        child.returncode = os.waitstatus_to_exitcode(status)
    if child.returncode != 0:
        sys.exit(f"{program} ends with {child.returncode} on {path}")
    return output, 1000 * (usage.ru_utime + usage.ru_stime)


def main():
    baseline, ours, folder, repetitions = sys.argv[1:]
    print(f"{'file':<20} {'n':>4} {'kind':<5} {'baseline ms':>12} {'ours ms':>10} {'times as fast':>14}")
    for path in sorted(glob.glob(f"{folder}/*.study")):
        name = os.path.basename(path).removesuffix(".study")
        n, kind, _ = name.split("-")
        times = {baseline: [], ours: []}
        outputs = set()
        for _ in range(int(repetitions)):
            for program in times:
                output, ms = run(program, path)
                outputs.add(output)
                times[program].append(ms)
        if len(outputs) != 1:
            sys.exit(f"the outputs differ on {path}")
        b, o = min(times[baseline]), min(times[ours])
        ratio = f"{b / o:14.1f}" if o > 0 else "-"
        print(f"{name:<20} {int(n):>4} {kind:<5} {b:>12.1f} {o:>10.1f} {ratio:>14}", flush=True)
    print("outputs equal on every file")


if __name__ == "__main__":
    main()
