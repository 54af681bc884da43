#!/usr/bin/env python3
"""Tests the library with other C libraries and on other processors.

    ports_test.py OUT    the folder clients/out

The ways: the C library of this machine; musl (musl-gcc), with the same two libraries; and arm64,
with the libraries in OUT/aarch64, under qemu-aarch64. With each, and with the static and the shared
library, the tests in C of Markdown and of memory must pass (c/markdown_test.c, c/memory_test.c),
and what tests/port.c writes of all documents below must be the same to the byte. The documents: the
worked cases (crates/md_cases), whose texts must also be the expected ones; the attacks of
attacks.py; the examples of the GFM specification, if cmark-gfm is installed; and 500 documents that
documents.py mutates. Node's package must make the same HTML. The shared libraries must need no
other library, no version of a symbol, and no other symbols than the six that each C library has.

Reports what is left out; the status is 1 for a failure.
"""

import os
import pathlib
import re
import shutil
import subprocess
import sys
import tempfile
from typing import NamedTuple

HERE = pathlib.Path(__file__).resolve().parent
CLIENTS = HERE.parent
CASES = CLIENTS.parent / "crates" / "md_cases"
sys.dont_write_bytecode = True

import documents  # noqa: E402

REQUIRED = {"free", "malloc", "memcpy", "memmove", "memset", "realloc"}
WARNINGS = ["-std=c11", "-O2", "-Wall", "-Wextra", "-Werror", "-pedantic"]
WRAPPED = ["-Wl,--wrap=malloc,--wrap=realloc,--wrap=free"]
MUTATED = 500


class Way(NamedTuple):
    """A way: its name, its compiler, the folder of its libraries, what runs its programs, and
    the flags with which static programs are linked.
    """

    name: str
    compiler: list
    libraries: pathlib.Path
    runner: list
    static: list


def left_out(what, packages=""):
    """Reports a part that is left out."""
    subprocess.run([CLIENTS / "left_out", what, packages], check=True)


def ways(out):
    """The ways that this machine has; reports the others."""
    yield Way("this machine's C library", os.environ.get("CC", "cc").split(), out, [], [])
    if shutil.which("musl-gcc"):
        yield Way("musl", ["musl-gcc"], out, [], ["-static"])
    else:
        left_out("the library with musl", "musl-tools")
    arm = out / "aarch64"
    compiler = "aarch64-linux-gnu-gcc"
    runner = shutil.which("qemu-aarch64") or shutil.which("qemu-aarch64-static")
    if not (arm / "libbivdrazo.a").exists():
        left_out("the library on arm64 (clients/build --target aarch64 didn't make it)")
    elif not runner or not shutil.which(compiler):
        left_out("the library on arm64", "gcc-aarch64-linux-gnu qemu-user")
    else:
        # The C library of the cross compiler, also where Debian's for arm64 is installed.
        libraries = "LD_LIBRARY_PATH=/usr/aarch64-linux-gnu/lib"
        runner = [runner, "-E", libraries, "-L", "/usr/aarch64-linux-gnu"]
        yield Way("arm64", [compiler], arm, runner, [])


def worked_cases():
    """The script and the text of each worked case that `run` answers with a text: a script that
    begins with `? ` is one for calls that C doesn't have.
    """
    def parts(path):
        """Each part of a file, by its title."""
        found = (b"\n" + path.read_bytes()).split(b"\n%%%% ")[1:]
        return dict(part.partition(b"\n")[::2] for part in found)

    subprocess.run([CLIENTS.parent / "bench" / "cases.py", "--write"], check=True,
                   stdout=subprocess.DEVNULL)
    scripts, texts = parts(CASES / "stdin"), parts(CASES / "stdout")
    last = list(scripts)[-1]
    return [(script, texts[title]) for title, script in scripts.items()
            if title != last and not script.startswith(b"? ")
            and not texts[title].startswith(b"! ")]


def frames():
    """The worked cases as port.c reads them, with their texts, and the other documents."""
    worked = worked_cases()
    markdown = [document.encode("utf-8") for document in documents.OWN]
    if documents.SPECIFICATION.exists():
        markdown += documents.examples() + documents.mutated(MUTATED, 1)
    else:
        left_out("documents of the GFM specification on other systems", "cmark-gfm")
    try:
        import attacks
        markdown += [attack.encode("utf-8") for _, attack in attacks.ATTACKS]
        markdown += [attack.encode("utf-8") for attack in attacks.MORE]
    except ImportError:
        left_out("attacks on other systems", "python3-html5lib")
    scripts = b"".join(b"E %d\n%s" % (len(script), script) for script, _ in worked)
    others = b"".join(b"%c %d\n%s" % (kind, len(text), text)
                      for kind in b"MS" for text in markdown)
    return scripts, [text for _, text in worked], others


def built(way, sources, library, flags, folder):
    """A program over a library of a way."""
    program = pathlib.Path(folder, "program")
    subprocess.run([*way.compiler, *WARNINGS, "-I", CLIENTS / "c", *sources, *library,
                    "-pthread", *flags, "-o", program], check=True)
    return [*way.runner, program]


def answers(text):
    """What port.c wrote, as statuses and texts."""
    at, found = 0, []
    while at < len(text):
        end = text.index(b"\n", at)
        status, _, _, length = map(int, text[at:end].split())
        length = length if status == 0 else 0
        found.append((status, text[end + 1:end + 1 + length]))
        at = end + 2 + length
    return found


def check_node(data, wanted):
    """What is wrong with the package for Node: it must make the same HTML of each document."""
    addon = CLIENTS / "node" / "out" / "linux-x64" / "bivdrazo.node"
    if not shutil.which("node") or not addon.exists():
        left_out("documents by Node", "nodejs libnode-dev")
        return []
    status, text = run(["node", HERE / "port.mjs"], data)
    found = answers(text)
    # In C the list of headings follows the HTML, each after a NUL.
    same = [(min(each, 1), html.split(b"\0", 1)[0]) == made
            for (each, html), made in zip(wanted, found)]
    print(f"ports: Node: {len(found):,} documents", flush=True)
    if status or len(found) != len(wanted) or not all(same):
        return [f"Node: status {status}, {len(found)} documents, {same.count(False)} differ"]
    return []


def check_shared(way, shared):
    """What is wrong with the names that a shared library needs."""
    tools = "aarch64-linux-gnu-" if way.name == "arm64" else ""
    def said(*words):
        """What a tool of binutils says."""
        return subprocess.run([tools + words[0], *words[1:], shared], capture_output=True,
                              text=True, check=True).stdout

    found = set(re.findall(r" U (\S+)", said("nm", "-D", "--undefined-only")))
    if found != REQUIRED:
        yield f"{shared} needs other symbols: {sorted(found ^ REQUIRED)}"
    dynamic = said("readelf", "-dVW")
    if "NEEDED" in dynamic or "Version needs" in dynamic:
        yield f"{shared} needs a library or a version"


def run(program, data=b""):
    """The status of a program, and what it wrote."""
    done = subprocess.run(program, input=data, stdout=subprocess.PIPE, check=False)
    return done.returncode, done.stdout


def check_library(way, library, flags, data):
    """What is wrong with a library of a way, and what port.c writes with it."""
    faults, name = [], f"{way.name}, {pathlib.Path(library[0]).name}"
    with tempfile.TemporaryDirectory() as folder:
        status, said = run(built(way, [CLIENTS / "c" / "markdown_test.c"], library, flags, folder))
        if status:
            faults.append(f"{name}: markdown_test: {said.decode()}")
        status, text = run(built(way, [HERE / "port.c"], library, flags, folder), data)
        if status:
            faults.append(f"{name}: port ends with status {status}")
    return faults, text


def check_memory(way):
    """What is wrong with the functions for memory."""
    with tempfile.TemporaryDirectory() as folder:
        sources = [CLIENTS / "c" / "memory.c", CLIENTS / "c" / "memory_test.c"]
        status, said = run(built(way, sources, [], WRAPPED + way.static, folder))
    return [f"{way.name}: memory_test: {said.decode()}"] if status else []


def main(out):
    """Tests each way; returns the exit status."""
    faults, first = [], None
    scripts, worked, others = frames()
    for way in ways(out):
        shared = next(way.libraries.glob("libbivdrazo.so.*"))
        faults += check_memory(way)
        faults += check_shared(way, shared)
        libraries = (([way.libraries / "libbivdrazo.a"], way.static),
                     ([shared], [f"-Wl,-rpath,{way.libraries}"]))
        for library, flags in libraries:
            found, text = check_library(way, library, flags, scripts + others)
            faults += found
            first = first or text
            if text != first:
                faults.append(f"{way.name}, {library[0].name}: other texts")
        print(f"ports: {way.name}: {len(answers(text)):,} documents", flush=True)
    faults += check_node(others, answers(first)[len(worked):])
    for number, (text, answer) in enumerate(zip(worked, answers(first))):
        if answer != (0, text):
            faults.append(f"worked case {number}: {answer} and not {text}")
    print(*faults[:10], sep="\n", end="\n" if faults else "")
    print("ports: failed" if faults else "ports: passed")
    return 1 if faults else 0


if __name__ == "__main__":
    sys.exit(main(pathlib.Path(sys.argv[1]).resolve()))
