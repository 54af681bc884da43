#!/usr/bin/env python3
"""Counts the instructions of two builds of a program on each input of
measure/price_inputs.py, by callgrind.

    bench/prices.py OLD NEW [--limit R] [--only WORD] [--jobs N]

OLD and NEW are programs that read a script, as crates/mdevents/out/mdevents, once `rt run < stdin`
there has built it. It prints, for each input, millions of instructions of both, and new over old.
The counts are steady on a busy machine. The status is 1 if the results differ, or if the new count
is more than R times the old one (no limit if R isn't given). It needs valgrind.
"""

import argparse
import os
import pathlib
import re
import subprocess
import sys
from concurrent.futures import ThreadPoolExecutor

sys.dont_write_bytecode = True
sys.path.insert(0, str(pathlib.Path(__file__).resolve().parent / "measure"))

from price_inputs import INPUTS  # noqa: E402  (without bytecode in that folder)


def counted(program, script):
    """The instructions of a run with a script, its status and its output."""
    command = ["valgrind", "--tool=callgrind", "--callgrind-out-file=/dev/null",
               os.path.abspath(program)]
    done = subprocess.run(command, input=script, capture_output=True)
    return int(re.search(rb"Collected : (\d+)", done.stderr).group(1)), done.returncode, done.stdout


def compared(old, new, name):
    """Both counts of an input, with a fault if the results differ or the input isn't compiled.
    """
    script = INPUTS[name]()
    before, status, text = counted(old, script)
    after, new_status, new_text = counted(new, script)
    fault = ("the answers differ" if (status, text) != (new_status, new_text)
             else f"status {status}" if status else "")
    return name, before, after, fault


def main():
    """Compares all inputs, or those with a word in their names."""
    words = argparse.ArgumentParser(
        usage="bench/prices.py OLD NEW [--limit R] [--only WORD] [--jobs N]")
    words.add_argument("old")
    words.add_argument("new")
    words.add_argument("--limit", type=float)
    words.add_argument("--only", default="")
    words.add_argument("--jobs", type=int, default=2)
    given = words.parse_args()
    faults = []
    print("| input | old, million | new, million | new over old |\n|---|--:|--:|--:|")
    names = [name for name in INPUTS if given.only in name]
    with ThreadPoolExecutor(given.jobs) as pool:
        for name, before, after, fault in pool.map(lambda name: compared(given.old, given.new,
                                                                         name), names):
            ratio = after / before
            print(f"| {name} | {before / 1e6:.2f} | {after / 1e6:.2f} | {ratio:.2f} |", flush=True)
            if fault:
                faults.append(f"{name}: {fault}")
            elif given.limit and given.limit < ratio:
                faults.append(f"{name}: {ratio:.3f} times as many, "
                              f"where {given.limit} are let pass")
    print("\n".join(faults), file=sys.stderr)
    sys.exit(1 if faults else 0)


if __name__ == "__main__":
    main()
