#!/usr/bin/env python3
"""Counts the files that a reader passes who follows `[a](b)` from `main` to its text.

    bench/measure/path.py [--list] [CLONE]

A file of src is on the path if it has a function that runs when a program compiles `[a](b)`, and a
file of specs if it has a definition that a contract of one of these functions names. The programs
are mdevents, which reads a script of the events, and if the clone has it mdhtml, which reads
Markdown. It builds each with a trap in each function, as bench/tests/unreached.py does, and runs
it. Derived code isn't counted, and neither are definitions that the compiler makes or std has. With
--list it prints the files too.
"""

import pathlib
import re
import sys
import tempfile

HERE = pathlib.Path(__file__).resolve().parent
sys.path[:0] = [str(HERE.parent), str(HERE.parent / "tests")]
sys.dont_write_bytecode = True
import count  # noqa: E402
import unreached  # noqa: E402

EVENTS = b"""+Link 0
+Label 0
+LabelText 1
+Data 1
-Data 2
-LabelText 2
-Label 3
+Resource 3
+ResourceDestinationString 4
+Data 4
-Data 5
-ResourceDestinationString 5
-Resource 6
-Link 6
--
"""
DOCUMENT = b"[a](b)"
TEXT = b'<a href="b">a</a>'
# Each program, its input, and which crates a second count leaves out.
PROGRAMS = {
    "mdevents": (EVENTS + DOCUMENT, "mdevents and md_script",
                 re.compile(r"crates/(mdevents|md_script)/")),
    "mdhtml": (DOCUMENT, "the parser's crates", count.PARSER),
}
CONTRACT = re.compile(r"\b(?:requires|ensures)\b.*", re.DOTALL)
USE = re.compile(r"ghost use Rattle\.(\w+)\.specs\.([\w.]+?)(?:\.\{([^}]*)\})?(?: as (\w+))?;")


def contract(lines):
    """The clauses of the function that begins at the first of these lines."""
    margin = re.match(" *", lines[0])[0]
    for end, line in enumerate(lines):
        if line == margin + "{":
            found = CONTRACT.search("\n".join(lines[:end]))
            return found[0] if found else ""
        if line[-1:] in ("{", "}", ";") and not line.startswith(margin + " "):
            return ""
    return ""


def imported(root, source):
    """The names that a file imports for its contracts, each with its file of specs."""
    for crate, module, names, alias in USE.findall(source):
        path = f"crates/{crate}/specs/{module.replace('.', '/')}.antt"
        if (root / path).is_file():
            own = [alias or module.split(".")[-1]]
            for name in names.split(",") if names else own:
                yield name.split(" as ")[-1].strip(), path


def on_path(root, reached):
    """The files of src and of specs on the path of these functions."""
    src, specs = set(), set()
    for crate in sorted(it.name for it in (root / "crates").iterdir()):
        for path, line, _, pattern in unreached.functions(root, crate):
            if any(map(pattern.match, reached)):
                src.add(str(path))
                source = (root / path).read_text()
                words = set(re.split(r"[\s(){},;.]+", contract(source.split("\n")[line - 1:])))
                specs |= {file for name, file in imported(root, source) if name in words}
    return src, specs


def functions_entered(root, program, given):
    """The names of the functions that a program enters on an input."""
    with tempfile.TemporaryDirectory(prefix="path-") as place:
        folder = pathlib.Path(place)
        names = unreached.build(root, program, folder)
        if TEXT not in unreached.run(folder, folder / "program", input=given):
            sys.exit(f"path: {program} doesn't write the link")
        return unreached.entered(folder, names)


def main(arguments):
    """Prints the counts."""
    clones = [word for word in arguments if word != "--list"]
    root = pathlib.Path(clones[0]).resolve() if clones else unreached.ROOT
    for program, (given, others, is_other) in PROGRAMS.items():
        if not (root / "crates" / program).is_dir():
            continue
        files = on_path(root, functions_entered(root, program, given))
        counts = [len(some) for some in files]
        fewer = [sum(not is_other.match(path) for path in some) for some in files]
        print(f"{program}: {sum(counts)} files, {counts[0]} of src and {counts[1]} of specs; "
              f"without {others} {sum(fewer)}, {fewer[0]} and {fewer[1]}", flush=True)
        if "--list" in arguments:
            print(*(f"    {path}" for some in files for path in sorted(some)), sep="\n")


if __name__ == "__main__":
    main(sys.argv[1:])
