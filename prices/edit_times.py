#!/usr/bin/env python3
"""Times the edits of a crate, one after the other, each over a copy of what a check of the unchanged crate keeps.

    prices/edit_times.py CRATE [EDIT..]

One line an edit: its status (1 if it is refused), its processor seconds, and by the clock the stages that took a second
or more: front-end reads the crate and its libraries, session proves, offers writes answers for each goal that is left open.
Below it is the first error, or which goals had no answer. `rt check` in the crate's folder builds its libraries first."""
import glob
import os
import re
import shutil
import sys
import tempfile

from prover import TOP, check, copied, edit, kept_by_rt


def stages(file):
    with open(file, encoding="utf-8") as it:
        found = [line.split() for line in it if line.startswith("stage ")]
    return ", ".join(f"{name} {float(seconds):.1f}" for _, name, seconds, *_ in found if float(seconds) >= 1)


def why(said):
    for line in said.split("\n"):
        if re.search(r":\d+:\d+: error|: no proof: expected answers", line):
            return line[:200]
    return ""


def main(crate, *names):
    with tempfile.TemporaryDirectory() as room:
        folder, seed, over, times = f"{room}/crate", kept_by_rt(crate, f"{room}/seed"), f"{room}/over", f"{room}/times"
        said, status, seconds = check(crate, copied(crate, folder), seed, "--stage-times", times)
        print(f"{crate}: status {status}, {seconds:.1f} s; {stages(times)}", flush=True)
        if status:
            sys.exit(said[-2000:])
        total = 0
        for file in sorted(glob.glob(f"{TOP}/planted/{crate}/*.edit") + glob.glob(f"{TOP}/crates/{crate}/must-fail/*.edit")):
            name = os.path.basename(file)[:-5]
            if names and name not in names:
                continue
            shutil.copytree(seed, over, symlinks=True)
            edit(file, copied(crate, folder))
            said, status, seconds = check(crate, folder, over, "--stage-times", times)
            shutil.rmtree(over)
            total += seconds
            print(f"{name}: status {status}, {seconds:.1f} s; {stages(times)}\n    {why(said)}", flush=True)
        print(f"all {total:.0f} s")


if __name__ == "__main__":
    main(*sys.argv[1:])
