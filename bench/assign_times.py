#!/usr/bin/env python3
"""Times `assign` of priority_assign on 8, 32 and 128 frames at loads of 0.5, 0.8 and 0.95.

usage: assign_times.py      in the repository, with `rt` on the path
It builds assign_times.program as a program beside copies of the crates that it stands on, in a folder of its own, and runs it without
a proof. It prints the time of one call and whether all frames got a place.
"""
import os
import shutil
import subprocess
import tempfile

LINES = {
    "pack_model": "indexmap thiserror",
    "busy_period": "",
    "response_test": "busy_period pack_model",
    "priority_assign": "busy_period response_test pack_model",
    "assign_times": "busy_period priority_assign",
}


def main():
    bench = os.path.dirname(os.path.abspath(__file__))
    with tempfile.TemporaryDirectory() as top:
        for name in LINES:
            there = os.path.join(top, "crates", name)
            if name == "assign_times":
                os.makedirs(os.path.join(there, "src"))
                shutil.copy(os.path.join(bench, "assign_times.program"), os.path.join(there, "src", "main.rt"))
            else:
                shutil.copytree(os.path.join(bench, "..", "crates", name), there, symlinks=True)
        with open(os.path.join(top, "crates.txt"), "w") as out:
            out.writelines(f"{name}: {below}\n" for name, below in LINES.items())
        shutil.copy(os.path.join(bench, "..", "HANDLES"), top)
        subprocess.run(["rt", "try"], cwd=os.path.join(top, "crates", "assign_times"), check=True)


main()
