"""The cases of the groups `flags::..`: each name under all choices of five options
that are off or on.

To add a name, write a row in a function of its group in the module of what the name is about
(`prose`, `raw`, `media`, `tables`): what the case shows, a comment or nothing, and the parts of the
document. To add an option that is off or on, add it to FLAG_OPTIONS of `meaning`, which are in the
order of the cases, and say in these modules what it does. `bench/cases.py` makes the cases.
"""
import itertools

import media
import prose
import raw
import tables
from meaning import FLAG_OPTIONS, meaning
from trees import Case, placed, script


def groups():
    """The rows of each group."""
    return {
        "autolinks": media.rows_of_autolinks(),
        "html": raw.rows_of_html(),
        "media": media.rows(),
        "plain": [*prose.rows_of_texts(), *raw.rows_of_code(), *prose.rows_of_headings(),
                  *tables.rows()],
        "tasks": [*prose.rows_of_tasks(), *media.rows_of_tasks()],
    }


def choices(options):
    """All choices of these options: the last one changes fastest."""
    for chosen in itertools.product((False, True), repeat=len(options)):
        yield [option for option, is_on in zip(options, chosen) if is_on]


def cases_of(group, shown, comment, document, options_of_cases):
    """A case for each choice of options; the comment stands after the first."""
    made = []
    for options in options_of_cases:
        after = f" ({comment})" if comment and not made else ""
        made.append(Case(f"{group}: {shown}; {', '.join(options) or 'no option'}{after}",
                         script(document, options),
                         meaning(document, options).encode()))
    return made


def sections():
    """The runs of cases that this makes, each by what its titles begin with."""
    return {f"flags::{group}": [
        case for shown, comment, parts in rows
        for case in cases_of(f"flags::{group}", shown, comment, placed(*parts),
                             [{option: True for option in chosen}
                              for chosen in choices(FLAG_OPTIONS)])]
            for group, rows in groups().items()}
