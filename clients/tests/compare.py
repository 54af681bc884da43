#!/usr/bin/env python3
"""Compares bivdrazo-render-cmark with cmark-gfm, and reads its output with an HTML5 parser.

    compare.py OUT          OUT has the programs bivdrazo-render-cmark and batch
    compare.py OUT --write  writes the counts that were found into differences.txt

Each example of the GFM specification, as Debian's cmark-gfm ships it, goes through both programs;
then 10,000 mutated documents, the same each time, go through the renderer in one process, with
random changes of their events. Each text is equal to cmark-gfm's, but for the differences that
differences.txt lists with their counts. Ends with status 1 for any other difference, another count,
a crash, or HTML that isn't permitted.
"""

import collections
import importlib.util
import itertools
import multiprocessing
import pathlib
import re
import subprocess
import sys
import time

import cmark
import documents
import judge

HERE = pathlib.Path(__file__).resolve().parent
LIST = HERE / "differences.txt"
MUTATED = 10_000
SEED = 1
CHANGES = 4  # lists of changed events for each document
LINE = re.compile(r"(\w+) +([0-9]+) ([0-9]+) (.+)")
OK = 0


def cmark_gfm(document):
    """The output of the program cmark-gfm for a document."""
    extensions = [argument for name in (*cmark.EXTENSIONS, b"footnotes")
                  for argument in ("-e", name.decode())]
    command = ["cmark-gfm", "--validate-utf8", *extensions]
    return subprocess.run(command, input=document, capture_output=True, check=True).stdout


def rendered(program, document):
    """The output of the program bivdrazo-render-cmark for a document."""
    return subprocess.run([program], input=document, capture_output=True, check=True).stdout


def unlike(number, document, text, judged):
    """Prints a text that differs from the expected one; returns 1 then, otherwise 0."""
    if text == judged.wanted:
        return 0
    print(f"document {number}: {document!r}\n  wanted {judged.wanted!r}\n  is     {text!r}")
    return 1


def counted(texts):
    """How many documents have each class; `texts` are triples of a document, its text and what
    is judged of it.
    """
    counts = collections.Counter()
    for _, text, judged in texts:
        counts.update(["equal"] if text == judged.plain else judged.classes)
    return counts


def compare_examples(out):
    """The counts over the specification's examples, the texts, and how many differ otherwise."""
    program = out / "bivdrazo-render-cmark"
    examples = documents.examples()
    triples = [(document, rendered(program, document), judge.judge(document))
               for document in examples]
    wrong = sum(unlike(at, *triple) for at, triple in enumerate(triples, 1))
    strange = [document for document, _, judged in triples if cmark_gfm(document) != judged.plain]
    if strange:
        print(f"the program cmark-gfm and its library differ: {strange[0]!r}")
    return counted(triples), [text for _, text, _ in triples], wrong + len(strange)


def frames(output):
    """The frames that batch wrote: pairs of a status and a text."""
    found = []
    at = 0
    while at < len(output):
        line_end = output.index(b"\n", at)
        status, length = map(int, output[at:line_end].split())
        at = line_end + 1 + length
        found.append((status, output[line_end + 1 : at]))
    return found


def run_batch(command, mutated):
    """The frames that batch writes of documents."""
    given = b"".join(b"%d\n" % len(document) + document for document in mutated)
    done = subprocess.run(command, input=given, capture_output=True)
    if done.returncode != 0:
        sys.exit(f"{' '.join(map(str, command))}: status {done.returncode}\n"
                 f"{done.stderr.decode()[-4000:]}")
    return frames(done.stdout)


def compare_mutated(out, mutated):
    """The counts over the mutated documents, all texts, and how many differ otherwise."""
    found = run_batch([out / "batch", str(SEED), str(CHANGES)], mutated)
    of_documents = found[:: CHANGES + 1]
    refused = sum(status != OK for status, _ in of_documents)
    with multiprocessing.Pool(2) as pool:
        judged = pool.map(judge.judge, mutated, chunksize=250)
    triples = [(document, text, judgement) for document, (_, text),
               judgement in zip(mutated, of_documents, judged)]
    wrong = sum(unlike(at, *triple) for at, triple in enumerate(triples))
    statuses = collections.Counter(status for status, _ in found)
    print(f"  lists of changed events: {len(found) - len(mutated)}; "
          f"with a text {statuses[OK] - len(mutated)}")
    return counted(triples), [text for status, text in found if status == OK], wrong + refused


def left_out(what, packages):
    """Reports what is left out, and has it counted."""
    subprocess.run([pathlib.Path(__file__).resolve().parent.parent / "left_out", what, packages],
                   check=True)


def check_reading(texts):
    """The number of texts with HTML that isn't permitted."""
    if importlib.util.find_spec("html5lib") is None:
        left_out("the reading by an HTML5 parser", "python3-html5lib")
        return 0
    import reading

    different = sorted(set(texts))
    with multiprocessing.Pool(2) as pool:
        found = pool.map(reading.faults, different, chunksize=250)
    wrong = [(text, faults) for text, faults in zip(different, found) if faults]
    for text, faults in wrong[:20]:
        print(f"  {faults[0]}: {text!r}")
    print(f"  read by html5lib: {len(different)} different texts, "
          f"{len(wrong)} with what isn't permitted")
    return len(wrong)


def check_memory(out, mutated):
    """Renders the documents under valgrind, each with a list of changed events; exits if it finds
    an error.
    """
    valgrind = ("valgrind -q --error-exitcode=9 --leak-check=full "
                "--errors-for-leak-kinds=definite,indirect,possible")
    try:
        subprocess.run(["valgrind", "--version"], capture_output=True, check=True)
    except OSError:
        left_out("the run of changed events under valgrind", "valgrind")
        return
    run_batch([*valgrind.split(), out / "batch", str(SEED), "1"], mutated)
    print(f"  under valgrind: {len(mutated)} documents, each with a list of changed events: "
          "no error, no leak")


def listed():
    """The lines of the list, by their classes: two counts and the reason."""
    lines = [LINE.fullmatch(line) for line in LIST.read_text().splitlines()
             if not line.startswith("#")]
    return {match[1]: (int(match[2]), int(match[3]), match[4]) for match in lines}


def write_list(examples, mutated):
    """Writes counts into the list."""
    comments = [line for line in LIST.read_text().splitlines() if line.startswith("#")]
    lines = [f"{name:<11} {examples[name]} {mutated[name]} {reason}"
             for name, (_, _, reason) in listed().items()]
    LIST.write_text("\n".join([*comments, *lines]) + "\n")


def check_counts(examples, mutated):
    """The number of classes whose counts differ from the list."""
    wrong = 0
    for name, (in_examples, in_mutated, reason) in listed().items():
        print(f"  {name:<11}{examples[name]:>5}{mutated[name]:>7}  {reason}")
        if (examples[name], mutated[name]) != (in_examples, in_mutated):
            print(f"  {name}: the list says {in_examples} and {in_mutated}")
            wrong += 1
    return wrong


def main(arguments):
    """Runs each part; returns the exit status."""
    out = pathlib.Path(arguments[0])
    start = time.monotonic()
    mutated = documents.mutated(MUTATED, SEED)
    in_examples, example_texts, wrong_examples = compare_examples(out)
    in_mutated, texts, wrong_mutated = compare_mutated(out, mutated)
    if "--write" in arguments:
        write_list(in_examples, in_mutated)
    wrong = wrong_examples + wrong_mutated + check_counts(in_examples, in_mutated)
    wrong += check_reading(itertools.chain(example_texts, texts))
    check_memory(out, mutated)
    seconds = time.monotonic() - start
    print(f"compare: {len(example_texts)} examples, {MUTATED} mutated documents, "
          f"{wrong} faults, {seconds:.0f} s")
    return 1 if wrong else 0


if __name__ == "__main__":
    sys.exit(main(sys.argv[1:]))
