"""Renders attacks by every way in, and reads each text as browsers do.

    attacks_test.py OUT

OUT is the folder that clients/build wrote, with bivdrazo-tests in target/release and
markdown_file. All ways with the library's parser must make the same text, and no text may hold what
isn't permitted; with kept HTML none may be unsafe. Requires html5lib.
"""

import pathlib
import shutil
import subprocess
import sys
import tempfile

from attacks import ATTACKS, MORE, is_unsafe
from hostile import environment, ways
from reading import faults


NODE = """
const { markdownToHtml } = require(process.argv[1]);
process.stdout.write(markdownToHtml(require('node:fs').readFileSync(0)));
"""


def node_way():
    """The command of the package for Node, if it was built."""
    package = pathlib.Path(__file__).resolve().parents[1] / "node"
    if not shutil.which("node") or not any(package.glob("out/*/bivdrazo.node")):
        return {}
    return {"Node": ["node", "-e", NODE, package]}


def rendered(command, path):
    """What a command makes of a document."""
    with open(path, "rb") as document:
        done = subprocess.run(command, stdin=document, capture_output=True, env=environment(),
                              check=True)
    return done.stdout


def main():
    """Tries all attacks; returns the exit status."""
    out = pathlib.Path(sys.argv[1])
    own = ways(out) | node_way()
    cmark = out / "bivdrazo-render-cmark"
    others = {cmark.name: [cmark]} if cmark.exists() else {}
    kept = {f"--html {choice}": [out / "bivdrazo-render", "--html", choice]
            for choice in ("kept", "kept-or-text")}
    wrong = 0
    attacks = [markdown for _, markdown in ATTACKS] + list(MORE)
    with tempfile.TemporaryDirectory() as folder:
        path = pathlib.Path(folder, "attack.md")
        for attack in attacks:
            path.write_bytes(attack.encode("utf-8"))
            texts = {name: rendered(command, path) for name, command in (own | others).items()}
            found = [f"{name}: {fault}" for name, text in texts.items() for fault in faults(text)]
            texts |= {name: rendered(command, path) for name, command in kept.items()}
            found += [f"{name}: unsafe" for name, text in texts.items()
                     if is_unsafe(text.decode("utf-8"))]
            if len({texts[name] for name in own}) != 1:
                found.append("the texts differ")
            for fault in found:
                wrong += 1
                print(f"{attack!r}: {fault}")
    print(f"attacks: {len(attacks)} by {len(own | others | kept)} ways, {wrong} faults")
    return 1 if wrong else 0


if __name__ == "__main__":
    sys.exit(main())
