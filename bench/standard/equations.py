#!/usr/bin/env python3
"""Proves, by equations, that the definitions have the results of html5lib's tokenizer and of node's
`URL`.

    /usr/bin/python3 bench/standard/equations.py [TEXTS] [URLS] [SEED]

Each text and each URL of texts.py becomes an equation of a copy of crates/md_safe, which the prover
closes by computing: the result of the definitions is that of html5lib, or node, or None if
tokenizer.py is stuck. It fails, with status 1, if an equation is refused, or if tokenizer.py is
stuck on a text of the grammar or a page. Texts have under 80 characters, pages under 300.
"""

import collections
import pathlib
import random
import shutil
import subprocess
import sys
import tempfile

import outside
import texts
import tokenizer

ROOT = pathlib.Path(__file__).parents[2]
IN_A_FILE = 250
HEAD = """-- Made by bench/standard/equations.py.
use Rattle.std.proofs.Common.{◌≡◌, ℕ, true, false, List, [], ◌∷◌, refl, Some, None}
use Rattle.md_safe.specs.Input.{with_line_feeds}
use Rattle.md_safe.specs.Token.{TokenAttribute, Doctype, Character, StartTag, EndTag, EndOfFile}
use Rattle.md_safe.specs.TokenizerStates.{Data}
use Rattle.md_safe.specs.Tokenizer.{run}
use Rattle.md_safe.specs.Scheme.{scheme_of}
use Rattle.md_safe.proofs.Steps.{attribute}
"""


def written(items):
    """A list."""
    return "(" + "".join(f"{item} ∷ " for item in items) + "[])"


def token(of):
    """A token."""
    if of[0] == "char":
        return f"Character {of[1]}"
    if of[0] == "end":
        return f"EndTag {written(of[1])}"
    if of[0] == "doctype":
        return f"Doctype {written(of[1])}"
    if of[0] == "eof":
        return "EndOfFile"
    attributes = written(f"attribute {written(name)} {written(value)}" for name, value in of[2])
    return f"StartTag {written(of[1])} {attributes} {'true' if of[3] else 'false'}"


def of_text(random):
    """A text's kind, and the expected result of the definitions."""
    while True:
        kind, text = texts.text(random, 1)
        if len(text) < (300 if "page" in kind else 80):
            break
    ours = tokenizer.run(text.encode())
    is_fragment = "page" not in kind and random.random() < 0.5
    answer = ("None" if ours is None
              else f"Some {written(map(token, outside.tokens(text, is_fragment)))}")
    told = "stuck" if ours is None else "answered"
    return (kind, told), f"run 1000 Data (with_line_feeds {written(text.encode())}) ≡ {answer}"


def of_urls(count, random):
    """URLs' kinds, and the expected scheme of each that node doesn't reject."""
    made = [texts.url(random) for _ in range(count)]
    for (kind, url), scheme in zip(made, outside.schemes([url for _, url in made]), strict=True):
        if scheme != "?":
            answer = f"Some {written(scheme.encode())}" if scheme else "None"
            told = "a scheme" if scheme else "none"
            yield (f"URLs, {kind}", told), f"scheme_of {written(url.encode())} ≡ {answer}"


def copied(folder, equations):
    """A copy of md_safe and the crates below it, with the equations."""
    (folder / "crates").mkdir()
    lines = (ROOT / "crates.txt").read_text().splitlines(keepends=True)
    needed = {"md_safe"}
    for line in reversed(lines):
        if line.split(":")[0] in needed:
            needed |= set(line.split(":")[1].split())
    ignored = shutil.ignore_patterns("out", "must-fail")
    for crate in needed:
        if (ROOT / "crates" / crate).exists():
            shutil.copytree(ROOT / "crates" / crate, folder / "crates" / crate, ignore=ignored)
    kept = [line for line in lines if line.split(":")[0] in needed]
    (folder / "crates.txt").write_text("".join(kept))
    shutil.copy(ROOT / "HANDLES", folder / "HANDLES")
    proofs = folder / "crates" / "md_safe" / "proofs"
    modules = []
    for start in range(0, len(equations), IN_A_FILE):
        modules.append(f"Equations{start // IN_A_FILE}")
        cases = (
            f"\ncase{number} : {equation}\ncase{number} = refl\n"
            for number, equation in enumerate(equations[start : start + IN_A_FILE])
        )
        (proofs / f"{modules[-1]}.antt").write_text(HEAD + "".join(cases))
    with (proofs / "Lib.antt").open("a") as lib:
        lib.writelines(f"pub mod {module}\n" for module in modules)
    return folder / "crates" / "md_safe"


def checked(equations):
    """A check of such a copy."""
    with tempfile.TemporaryDirectory() as folder:
        crate = copied(pathlib.Path(folder), equations)
        return subprocess.run(["rt", "check"], cwd=crate, capture_output=True, text=True,
                              check=False)


def main():
    count, urls, seed = (int(given)
                         for given in [*sys.argv[1:],
                                       *["10000", "10300", "1"][len(sys.argv) - 1 :]])
    made_by = random.Random(seed)
    made = [*(of_text(made_by) for _ in range(count)), *of_urls(urls, made_by)]
    counts = collections.Counter(kind for kind, _ in made)
    for (kind, told), number in sorted(counts.items()):
        print(f"{kind}: {number} {told}", flush=True)
    if counts["grammar", "stuck"] or counts["page", "stuck"]:
        sys.exit("stuck on a text of the grammar or a page")
    ran = checked([equation for _, equation in made])
    wrong = checked(["run 9 Data (with_line_feeds (97 ∷ [])) ≡ "
                     "Some (Character 98 ∷ EndOfFile ∷ [])"])
    if wrong.returncode == 0:
        sys.exit("a wrong equation was proved")
    print(f"{len(made)} equations of seed {seed}: {'proved' if ran.returncode == 0 else 'REFUSED'}")
    if ran.returncode:
        print((ran.stdout + ran.stderr)[-3000:])
    sys.exit(1 if ran.returncode else 0)


if __name__ == "__main__":
    main()
