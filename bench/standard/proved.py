"""Equations about the definitions on documents, which a copy of crates/md_safe must prove."""

import pathlib
import shutil
import subprocess
import tempfile

import equations

ROOT = pathlib.Path(__file__).parents[2]
HEAD = """-- Made by bench/standard/documents.py.
use Rattle.std.proofs.Common.{◌≡◌, ℕ, true, false, List, [], ◌∷◌, refl}
use Rattle.std.specs.Prelude.{Some, None, option_and_then, codes}
use Rattle.md_safe.specs.Input.{with_line_feeds}
use Rattle.md_safe.specs.Token.{TokenAttribute}
use Rattle.md_safe.specs.TokenizerStates.{Data}
use Rattle.md_safe.specs.Tokenizer.{run}
use Rattle.md_safe.proofs.Steps.{attribute}
use Rattle.md_safe.specs.Node.{Empty, Text, Element, InBody}
use Rattle.md_safe.specs.Built.{at, open_at}
use Rattle.md_safe.specs.Page.{constructed, document_of}
"""


def nodes_of(nodes):
    """Nodes as a term."""
    term = "Empty"
    for node in reversed(nodes):
        if isinstance(node, str):
            term = f"(Text {equations.written(map(ord, node))} {term})"
        else:
            pairs = ([equations.written(map(ord, part)) for part in attribute]
                     for attribute in node[1])
            listed = (f"attribute {key} {value}" for key, value in pairs)
            name = equations.written(map(ord, node[0]))
            term = f"(Element {name} {equations.written(listed)} {nodes_of(node[2])} {term})"
    return term


def equation(text, context, built):
    """The expected result of the definitions for a test."""
    fragment = ('(λ emits. constructed None '
                '(at InBody (open_at 0 (codes "html") Empty ∷ []) [] 1) emits)')
    emitted = f"(run 2000 Data (with_line_feeds {equations.written(text.encode())}))"
    if built is None:
        return f"option_and_then document_of {emitted} ≡ None"
    doctype = "None" if built[0] is None else f"Some {equations.written(map(ord, built[0]))}"
    document = f"record {{ doctype = {doctype}; root = {nodes_of([built[1]])} }}"
    made = "document_of" if context is None else fragment
    return f"option_and_then {made} {emitted} ≡ Some ({document})"


def answered(made):
    """Whether a copy of md_safe, and the crates below it, proves these equations, and
    refuses a wrong one.
    """
    needed, lines = {"md_safe"}, (ROOT / "crates.txt").read_text().splitlines(keepends=True)
    for line in reversed(lines):
        if line.split(":")[0] in needed:
            needed |= set(line.split(":")[1].split())
    with tempfile.TemporaryDirectory() as folder:
        copy = pathlib.Path(folder)
        for crate in needed:
            if (ROOT / "crates" / crate).exists():
                ignored = shutil.ignore_patterns("out", "must-fail")
                shutil.copytree(ROOT / "crates" / crate, copy / "crates" / crate, ignore=ignored)
        (copy / "crates.txt").write_text("".join(line for line in lines
                                                 if line.split(":")[0] in needed))
        shutil.copy(ROOT / "HANDLES", copy / "HANDLES")
        crate = copy / "crates" / "md_safe"
        lib = (crate / "proofs" / "Lib.antt").read_text()

        def is_proved(cases):
            modules = []
            for start in range(0, len(cases), 100):
                modules.append(f"Documents{start // 100}")
                part = (f"\ncase{n} : {case}\ncase{n} = refl\n"
                        for n, case in enumerate(cases[start : start + 100]))
                (crate / "proofs" / f"{modules[-1]}.antt").write_text(HEAD + "".join(part))
            (crate / "proofs" / "Lib.antt").write_text(lib + "".join(f"pub mod {module}\n"
                                                                     for module in modules))
            ran = subprocess.run(["rt", "check"], cwd=crate, capture_output=True, text=True,
                                 check=False)
            return ran.returncode == 0, ran.stdout + ran.stderr

        told, said = is_proved(made)
        print(f"{len(made)} equations: {'proved' if told else 'REFUSED'}")
        if not told:
            print(said[-3000:])
            return 1
        wrong = equation("a", None, (None, ("html", [], [("head", [], []), ("body", [], ["b"])])))
        if is_proved([wrong])[0]:
            print("a wrong equation was proved")
            return 1
    return 0
