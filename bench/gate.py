#!/usr/bin/env python3
"""Runs `rt ci`, and fails for edits that pass there although they show nothing of a contract.

    bench/gate.py          runs `rt ci`, prints its output, and judges that
    bench/gate.py LOG      judges a stored output, of `rt ci` or of `rt must-fail`

A must-fail edit shows something only if the prover refuses what its function does then. `rt ci`
passes an edit that doesn't apply any more or can't be read (`BAD EDIT`), one that is refused only
by a limit of the prover, which gave no verdict, and one that is refused only because a proof file
names what the edit takes away. Here each of these is a fault, and so is an edit that isn't in the
output. The fix: let the edit change a value, and keep the names.
"""
import pathlib
import re
import shutil
import subprocess
import sys

ROOT = pathlib.Path(__file__).resolve().parents[1]
WEAK = {
    "BAD EDIT": "doesn't apply, or can't be read",
    "only by a limit of the prover": "is refused only by a limit of the prover",
    "only because a proof file names":
        "is refused only because a proof file names what it takes away",
}
REFUSED = re.compile(r"^rt: must-fail (\w+/[\w.-]+)\.edit: refused, as it must be")
NAMED = re.compile(r"^rt: (?:must-fail )?(.+?)(?:\.edit)?: ")


def weak(lines):
    """The edits that show nothing, each with why, by the lines that `rt` printed."""
    found = {}
    for line in lines:
        named = NAMED.match(line)
        for words, fault in WEAK.items():
            if named and words in line:
                found[named[1]] = fault
    return found


def unreported(lines):
    """The edits of the repository that aren't refused by these lines."""
    refused = {found[1] for found in map(REFUSED.match, lines) if found}
    paths = sorted(ROOT.glob("crates/*/must-fail/*.edit"))
    names = [f"{path.parents[1].name}/{path.stem}" for path in paths]
    return {name: "isn't in the output of rt ci" for name in names if name not in refused}


def run():
    """The status of `rt ci` and its lines, which are printed as they come."""
    lines = []
    with subprocess.Popen(["rt", "ci"], cwd=ROOT, stdout=subprocess.PIPE, stderr=subprocess.STDOUT,
                          encoding="utf-8", errors="replace") as made:
        for line in made.stdout:
            print(line, end="", flush=True)
            lines.append(line)
    return made.returncode, lines


def main():
    if len(sys.argv) > 2 or sys.argv[1:2] in (["-h"], ["--help"]):
        sys.exit(__doc__)
    if len(sys.argv) == 2:
        text = pathlib.Path(sys.argv[1]).read_text(encoding="utf-8", errors="replace")
        found = weak(text.splitlines())
    else:
        words = pathlib.Path(shutil.which("rt")).read_text(encoding="utf-8", errors="replace")
        missing = [each for each in WEAK if each not in words]
        if missing:
            sys.exit(f"gate: this rt says it in other words than these: {', '.join(missing)}")
        status, lines = run()
        if status:
            return status
        found = unreported(lines) | weak(lines)
    for name, fault in found.items():
        print(f"gate: {name} {fault}")
    return 1 if found else 0


if __name__ == "__main__":
    sys.exit(main())
