"""The texts of lists, tables and rows of event names that bench/lists/names.py writes."""
import itertools
import re
import sys
import textwrap
from typing import NamedTuple

NOTICE = "Written by bench/lists/names.py from clients/numbers/numbers.txt. Don't edit it."
ALIAS = "use Rattle.md_base.specs.declared.event.Name.TheVariants as name_variants\n"
IMPORT = "use name_variants.{"
COLUMNS, LANES = 100, 16
# The maximum length of a pair of a spelling and a name in one line.
PAIR = 60
# How many tables `names_by_length` has; its contract has that number too.
LENGTHS = 36


class Name(NamedTuple):
    """A name of the list; `part` is the description of the names from here, or empty."""

    number: int
    text: str
    meaning: str
    part: str


def comment(text, first):
    """A comment in as many lines as it needs."""
    room = COLUMNS - len(first)
    lines = textwrap.wrap(text, room, break_long_words=False, break_on_hyphens=False)
    return [first + line for line in lines]


def variants(names):
    """The variants of the enum, each with its meaning."""
    for name in names:
        yield from comment(name.part, "    // ")
        yield from comment(name.meaning, "    /// ")
        yield f"    {name.text},"


def pair(name):
    """A spelling with its name, in Rust."""
    return f'"{name.text}", Name::{name.text}'


def pairs(names, indent):
    """Such pairs as the formatter lays them out, line by line."""
    for name in names:
        if len(pair(name)) <= PAIR:
            yield f"{indent}({pair(name)}),"
        else:
            parts = [f'    "{name.text}",', f"    Name::{name.text},"]
            yield from (indent + line for line in ["(", *parts, "),"])


def table(names):
    """The table of the names of one length."""
    line = ", ".join(f"({pair(name)})" for name in names)
    alone = len(names) == 1
    if len(line) <= (PAIR + 2 if alone else PAIR):
        return [f"    &[{line}],"]
    if alone:
        first, *within, last = pairs(names, "    ")
        return ["    &[" + first.strip(), *within, f"    {last.strip(' ,')}],"]
    return ["    &[", *pairs(names, " " * 8), "    ],"]


def array(head, items):
    """An array in Rust, an item a line."""
    return [head + " = [", *(f"    {item}," for item in items), "];"]


def text_of(lines):
    return "\n".join(lines) + "\n"


def name_tables(names):
    """The tables of `md_base`: the names by their lengths, and by their numbers."""
    numbered = (f"Name::{text}" for text in by_number(names))
    # Each in the order of numbers, as in the definition that the proof of `names_by_length` uses.
    tables = (table([name for name in sorted(names) if len(name.text) == length])
              for length in range(LENGTHS))
    return text_of([
        "//! Tables of all names of events except `Other`.",
        f"// {NOTICE}",
        "",
        "use crate::event::Name;",
        "",
        "/// The names by spelling, each table at the index that is the length of its names.",
        f"pub(crate) static BY_LENGTH: [&[(&str, Name)]; {LENGTHS}] = [",
        *itertools.chain(*tables),
        "];",
        "",
        "/// The names by their numbers, from 1; a number never changes.",
        *array(f"pub(crate) static BY_NUMBER: [Name; {len(names)}]", numbered),
    ])


def spelled_names(names):
    """The definition of the names under their spellings."""
    return text_of([
        "-- The names of events, as scripts write them.",
        f"-- {NOTICE}",
        "use Rattle.std.specs.Prelude.{ℕ, List, [], ◌∷◌, codes}",
        "use Rattle.md_base.specs.declared.event.Name.{Name}",
        ALIAS + imports([name.text for name in names]),
        "-- each name but `Other`, under its spelling, in the order of their numbers, from 1",
        "abbrev pub event_names : List (List ℕ × Name)",
        "event_names =",
        *(f'    (codes "{text}", {text}) ∷' for text in by_number(names)),
        "    []",
    ])


def imports(texts):
    """Lines that import these variants."""
    room = COLUMNS - len(IMPORT + "}")
    lines = textwrap.wrap(", ".join(texts), room + len(","), break_long_words=False)
    return "".join(f"{IMPORT}{line.rstrip(',')}}}\n" for line in lines)


def with_imports(source, texts):
    """Definitions that import these variants."""
    pattern = rf"(?<={re.escape(ALIAS)})(?:{re.escape(IMPORT)}.*}}\n)+"
    return replaced(source, pattern, imports(texts))


def replaced(source, pattern, new):
    """A source in which this replaces the match of a pattern."""
    found = list(re.finditer(pattern, source))
    if len(found) != 1:
        sys.exit(f"bench/lists/names.py: {pattern!r} stands {len(found)} times")
    at = found[0]
    start, end = at.span(at.re.groups)
    return source[:start] + new + source[end:]


def by_number(names):
    """The spellings in the order of their numbers."""
    return [name.text for name in sorted(names)]


def short(names):
    """The spellings that one load recognizes, the shortest first."""
    return sorted((name.text for name in names if len(name.text) < LANES), key=len)


def sums(texts, factors):
    """The sum of each spelling in the reader of scripts, of its first, middle and last letter."""
    times = (1, *factors)
    letters = ((text[0], text[len(text) // 2], text[-1]) for text in texts)
    return [sum(at * ord(letter) for at, letter in zip(times, three)) % 256 for three in letters]


def factors_for(texts, standing):
    """Factors that separate these spellings: the current ones if they do, else the first ones."""
    ways = itertools.chain([standing], itertools.product(range(1, 256), repeat=2))
    return next(way for way in ways if len(set(sums(texts, way))) == len(texts))


def slots(texts, factors):
    """For each sum the index of its row, counted from `(`; `~` if there is none."""
    found = ["~"] * 256
    for place, at in enumerate(sums(texts, factors)):
        found[at] = chr(ord("(") + place).replace("\\", "\\\\")
    return ["pub(crate) static SLOTS: [u8; 256] = *b\"\\",
            *("    " + "".join(found[at:at + 64]) + "\\" for at in (0, 64, 128)),
            "    " + "".join(found[192:]) + "\";"]


def name_rows(names, standing):
    """The rows of the reader, and the table that finds a name's row."""
    texts = short(names)
    middle, last = factors_for(texts, standing)
    rows = (f'(*b"{text:{LANES}}", Name::{text})' for text in texts)
    return text_of([
        "//! Rows of the names shorter than sixteen bytes, and a guess which row a text has.",
        f"// {NOTICE}",
        "",
        "use md_base::Name;",
        "",
        "/// A name shorter than sixteen bytes: its text, padded with spaces, and the name.",
        f"pub(crate) type Row = ([u8; {LANES}], Name);",
        "",
        "/// The factor of a text's middle byte in its sum; that of its first byte is one.",
        f"pub(crate) const MIDDLE: usize = {middle};",
        "",
        "/// The factor of its last byte.",
        f"pub(crate) const LAST: usize = {last};",
        "",
        "/// For each sum the index of its row, counted from `(`; `~` if there is none.",
        *slots(texts, (middle, last)),
        "",
        *array(f"pub(crate) static ROWS: [Row; {len(texts)}]", rows),
    ])
