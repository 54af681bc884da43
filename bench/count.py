#!/usr/bin/env python3
"""Counts what makes the repository long to read, a line each, with the target figure.

    bench/count.py [CLONE]

It judges nothing. It reads the texts that git tracks except data, which nobody reads from end to
end: the cases, pictures, locks, JSON, and tables of references. What may not become shorter has a
line of its own: crates/md_bench, which stays as it is to the byte, files that a script writes
whole, as their heads say, and the signatures that the interface promises. Two lines of pages that
are too long are HTML as it is printed. Occurrences of words are counted without must-fail edits,
the benchmark, the list clients/numbers/numbers.txt, and the files that bench/lists/names.py or
clients/numbers/generate writes whole from that list, as their heads say: nobody edits these. A file
of which a script writes only a part is counted.
"""
import collections
import pathlib
import re
import statistics
import subprocess
import sys

ROOT = pathlib.Path([*sys.argv[1:], pathlib.Path(__file__).parents[1]][0]).resolve()
CASES = re.compile(r"crates/md_cases/(cases|make|stdin|stdout)")
DATA = re.compile(r"crates/md_cases/(cases|stdin|stdout)|.*(\.png|\.lock|\.json|references\.\w+)$")
NOT_NAMING = re.compile(r"bench/|crates/md_bench/|.*/must-fail/")
LIST = "clients/numbers/numbers.txt"
SCRIPTS = r"(bench/(lists/)?names\.py|clients/numbers/generate)"
WRITTEN = re.compile(rf"(Written|Generated) by {SCRIPTS}\s+from\s+\S*numbers\.txt")
BENCHMARK = "crates/md_bench/"
PROMISED = re.compile(r"crates/md_ffi/src/export\.rt bivdrazo_compile\w*"
                      r"|crates/md_html/src/within\.rt compile_(safe_)?within")
TESTS = re.compile(r"crates/md_(bench|cases)/")
# The crates of our parser; the others are the core, its calls and its programs.
PARSER = re.compile(r"crates/(md_(lines|blocks|urls|references|writer|marks|inlines|slugs|markdown"
                    r"|markdown_abi)|mdhtml)/")
WORDS = r"(?m)^( *)(?:pub(?:\(\w+\))? )?(?:const )?(?:unsafe )?(?:extern \"C\" )?"
FUNCTION = re.compile(WORDS + r"fn (\w+)(?:<(?:[^<>]|->|<[^<>]*>)*>)?\(")
BODY = re.compile(r"(?m)^(\{|[^ \n].* \{)$|\}$")
CLAUSE = re.compile(r" +(?:requires|ensures)\b")
MATCH = re.compile(r"\bmatch (?:\w+\.)*name \{")
PRIVATE = re.compile(r"( *)(?:pub\((?:crate|super)\) )?(?:const )?fn (\w+)")
NO_CALL = re.compile(r"(?m)^\s*//.*$|^.*\buse [^;]*;|^\s*(?:requires|ensures)\b.*$")
# The printer, which was called md_emit.
PRINTER = re.compile(r"crates/md_(printer|emit)/")
STATED = re.compile(r"crates/\w+/(src|specs)/")
COLUMNS, LINES, PARAMETERS, SHOWN, SHORT, LISTED = 100, 300, 5, 5, 3, 4
# The number of characters at the beginning of a file that say whether a script writes it.
HEAD = 300


def kept():
    """The paths that git tracks."""
    listed = subprocess.check_output(["git", "-C", ROOT, "ls-files", "-z"], text=True)
    return [path for path in listed.split("\0") if (ROOT / path).is_file()]


def parameters(source, place):
    """The number of parameters from an index up to the bracket that closes their list."""
    text, depth = "", 0
    for mark in source[place:].replace("->", "  "):
        depth += (mark in "([{<") - (mark in ")]}>")
        if depth < 0:
            break
        text += mark if depth == 0 else " "
    return sum(bool(part.strip()) for part in text.split(","))


def named_in(files, words):
    """In how many files each of these words occurs: the median, and the maximum."""
    held = [set(re.findall(r"\w+", source)) for source in files]
    counts = {word: sum(word in known for known in held) for word in words}
    most = max(counts, key=counts.get)
    return f"{statistics.median(counts.values()):g} in the median, {counts[most]} at most ({most})"


def shared(sources):
    """The names that several free functions share, each with its number of signatures."""
    heads = collections.defaultdict(set)
    for source in sources:
        for found in FUNCTION.finditer(source):
            if not found.group(1) and found.group(2) != "main":
                head = source[found.start(2):BODY.search(source, found.start()).end()]
                heads[found.group(2)].add(" ".join(head.split()))
    names = [f"{name} {len(some)}" for name, some in sorted(heads.items()) if len(some) > 1]
    return f"{len(names)}: {', '.join(names)}"


def greatest(counts, least, shown=SHOWN):
    """How many counts exceed a number, and the greatest of them."""
    passing = {path: count for path, count in counts.items() if count > least}
    first = sorted(passing, key=lambda path: (-passing[path], path))[:shown]
    told = ", ".join(f"{path} {passing[path]}" for path in first)
    return f"{len(passing)}, first {told}" if told else "0"


def parted(counts, is_apart):
    """The counts that aren't set apart, and those that are."""
    apart = {path: count for path, count in counts.items() if is_apart(path)}
    return {path: count for path, count in counts.items() if path not in apart}, apart


def kind(path, line):
    """The kind of a line: by its file's suffix, with rows of tables as a kind of their own."""
    if path.endswith(".md"):
        return "rows of tables in pages" if line.startswith("|") else "pages"
    return path[path.rfind("."):] if path.endswith((".rt", ".antt")) else "other code"


def say(what, count, wanted=None):
    print(f"{what}: {count}" + (f" (wanted: {wanted})" if wanted else ""))


def lines_below(texts, part, ending):
    """The number of lines in the files of the crates' folders of this name, without the benchmark
    and the tests; and how many of them are not the parser's.
    """
    counts = {path: source.count("\n") for path, source in texts.items()
              if path.endswith(ending) and f"/{part}/" in path and not TESTS.match(path)}
    core, parser = parted(counts, PARSER.match)
    return sum(counts.values()), sum(core.values())


def short_functions(source):
    """The names of the private functions whose bodies have at most three lines."""
    lines = source.splitlines()
    for place, line in enumerate(lines):
        head = PRIVATE.match(line)
        if not head:
            continue
        margin = head.group(1)
        begins = (margin + "fn", margin + "pub", margin + "const", margin + ")", margin + "{")
        begin = next((at for at in range(place, len(lines))
                      if lines[at].endswith(("{", ";")) and lines[at].startswith(begins)), None)
        if begin is not None and lines[begin].endswith("{"):
            if lines.index(margin + "}", begin) - begin - 1 <= SHORT:
                yield head.group(2)


def called_once(code):
    """The private functions with short bodies that occur once besides their heads, in their crates,
    by crate: a name that says more than the body stays.
    """
    crates = collections.defaultdict(list)
    for path, source in code.items():
        if "/src/" in path and not TESTS.match(path):
            crates[path.split("/")[1]].append(NO_CALL.sub("", source))
    words = {crate: collections.Counter(re.findall(r"\w+", "\n".join(sources)))
             for crate, sources in crates.items()}
    return {crate: sum(words[crate][name] == 2 for source in sources
                       for name in short_functions(source))
            for crate, sources in crates.items()}


def lines_of_contracts(source):
    """The number of lines of `requires` and `ensures`: of public functions, and of the others."""
    counts, depth, public = {True: 0, False: 0}, 0, False
    for line in source.splitlines():
        if depth or CLAUSE.match(line):
            counts[public] += 1
            depth = max(0, depth + line.count("{") - line.count("}"))
        elif " fn " in f" {line}" and not line.lstrip().startswith("//"):
            public = line.lstrip().startswith("pub fn ")
    return counts


def say_proofs(texts):
    """Says how much is code, definitions, proof and contract."""
    (code, code_of_core), (specs, specs_of_core), (proofs, proofs_of_core) = (
        lines_below(texts, part, ending) for part, ending in
        (("src", ".rt"), ("specs", ".antt"), ("proofs", ".antt")))
    say("lines of code", f"{code:,}, of definitions {specs:,}, of proof {proofs:,}")
    say("without the parser's crates",
        f"{code_of_core:,}, {specs_of_core:,}, {proofs_of_core:,}", "50,000 of proof at most")
    say("lines of proof for a line of code", f"{proofs / code:.1f}", "2.6 at most")
    calls = [source for path, source in texts.items() if path.startswith("crates/md_html/src/")]
    counts = [lines_of_contracts(source) for source in calls]
    public, private = (sum(count[kind] for count in counts) for kind in (True, False))
    say("lines of contracts in md_html", f"{public}, and of private functions {private}",
        "90 in all")
    printer = [source for path, source in texts.items()
               if PRINTER.match(path) and "/src/" in path]
    say("matches on a name in the printer", sum(len(MATCH.findall(source)) for source in printer),
        "3 at most")


def is_benchmark(path):
    return path.startswith(BENCHMARK)


def say_lengths(texts):
    """Says which lines and which files are too long."""
    lines = {path: source.splitlines() for path, source in texts.items()}
    wide = {path: sum(len(line) > COLUMNS for line in some) for path, some in lines.items()}
    kinds = collections.Counter(kind(path, line) for path, some in lines.items()
                                for line in some if len(line) > COLUMNS and not is_benchmark(path))
    counted = ", ".join(f"{word} {count}" for word, count in sorted(kinds.items()))
    say(f"lines over {COLUMNS} columns", counted or 0)
    wide, fixed = parted(wide, is_benchmark)
    say("files that have such lines", greatest(wide, 0))
    say(f"such lines in {BENCHMARK}", sum(fixed.values()))
    lengths, fixed = parted({path: len(some) for path, some in lines.items()}, is_benchmark)
    lengths, written = parted(lengths, lambda path: WRITTEN.search(texts[path][:HEAD]))
    say(f"files over {LINES} lines", greatest(lengths, LINES))
    say("such files that a script writes", greatest(written, LINES))
    say(f"such files of {BENCHMARK}", greatest(fixed, LINES))


def main():
    paths = kept()
    texts = {path: (ROOT / path).read_text() for path in paths if not DATA.match(path)}
    code = {path: source for path, source in texts.items() if path.endswith(".rt")}
    say("crates", len(re.findall(r"(?m)^\w", texts["crates.txt"])), "19 at most")
    say("lines of README.md", texts["README.md"].count("\n"), "90 at most")
    for page in ("docs/use/SPEED.md", "docs/maintain/PERF.md"):
        say(f"lines of {page}", texts[page].count("\n"), "140 at most")

    say_lengths(texts)
    say_proofs(texts)
    counts = {f"{path} {found.group(2)}": parameters(source, found.end())
              for path, source in code.items() for found in FUNCTION.finditer(source)}
    counts, promised = parted(counts, PROMISED.fullmatch)
    say(f"functions with more than {PARAMETERS} parameters",
        greatest(counts, PARAMETERS, len(counts)))
    say("promised signatures with as many", greatest(promised, PARAMETERS, len(promised)))
    tests = [source for path, source in code.items() if TESTS.match(path)]
    others = [source for path, source in code.items() if not TESTS.match(path)]
    say("names of several free functions", shared(others))
    say("such names in tests", shared(tests))
    say("functions called main", sum("\nfn main(" in source for source in code.values()))

    naming = [source for path, source in texts.items()
              if path != LIST and not NOT_NAMING.match(path) and not WRITTEN.search(source[:HEAD])]
    options = re.findall(r"(?m)^    pub (\w+):", texts["crates/md_text/src/options.rt"])
    names = texts["crates/md_base/src/event.rt"].split("pub enum Name {")[1].split("\n}")[0]
    say("files that name an option", named_in(naming, options), "25 at most")
    names = re.findall(r"(?m)^    (\w+)", names)
    say("files that name a name of events", named_in(naming, names), "28 at most")
    stated = [source for path, source in texts.items()
              if STATED.match(path) and not PARSER.match(path) and not TESTS.match(path)
              and not WRITTEN.search(source[:HEAD])]
    say("such files in src and specs, without the parser's", named_in(stated, names),
        "10 in the median")
    printer = [part for path, source in texts.items() if PRINTER.match(path) and "/specs/" in path
               for part in source.split("\n\n") if not part.startswith(("use ", "--"))]
    say("lists of names in the printer's definitions",
        sum(len(set(re.findall(r"\w+", part)) & set(names)) > LISTED for part in printer), "0")
    short = called_once(code)
    say(f"private functions of at most {SHORT} lines that are called once",
        f"{sum(short.values())}, {greatest(short, 0)}")
    size = sum((ROOT / path).stat().st_size for path in paths if CASES.match(path))
    say("bytes of cases and of what makes them", f"{size:,}", "1,000,000 at most")


if __name__ == "__main__":
    main()
