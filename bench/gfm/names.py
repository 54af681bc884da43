"""Which definitions the model mirrors by a function of the same name, and which it has within
another function. bench/tests/model.py compares this with the definitions, so that none is added to
one side alone.
"""

import ast
import pathlib
import re

ROOT = pathlib.Path(__file__).resolve().parents[2]
DEFINITION = re.compile(r"^(?:abbrev pub|pub record|pub data) (\w+)", re.MULTILINE)

# By file: the definitions that have no function of their name, since a function has them within it,
# or they are for the code alone.
WITHIN = {
    "md_blocks/BlankLines": "in_list blank_before",
    "md_blocks/BlockStructure": "started lines_defined",
    "md_blocks/ContainerBlocks": "container_of is_list_of",
    "md_blocks/Containers": "Matched",
    "md_blocks/Documents": "ending_length first_line after_line lines_in lines_read mark_length "
                           "is_front_fence Front front_closed front_opened front_matter Beginning "
                           "beginning document_read document_entries",
    "md_blocks/Entries": "last_line",
    "md_blocks/HtmlBlocks": "raw_ends is_raw_name is_block_name name_length is_end somewhere "
                            "first_of_end",
    "md_blocks/LeafBlocks": "a_line with_line if_begun heading_of",
    "md_blocks/Leaves": "may_be_in_break has word_length without_number_signs ends_blank "
                        "cell_length may_begin_delimiter",
    "md_blocks/LinkDefinitions": "without_title with_title first_of target_after target_in "
                                 "with_form definition_of definition_after definition_length "
                                 "defined_from",
    "md_blocks/Marks": "is_digit is_task_mark",
    "md_blocks/OwnBlocks": "is_in_label is_label label_of after_footnote",
    "md_blocks/Rests": "rest_at columns_at is_none first skipped_at text_of",
    "md_blocks/Stack": "is_list is_item is_quote is_footnote without_list end_of ends_of",
    "md_blocks/States": "",
    "md_blocks/Tables": "ends_cell bar_at cells_after inside_row",
    "md_lines/Escapes": "width is_angle stops_title in_line pointed_length",
    "md_lines/LinkParts": "is_bracket is_blank_label is_label label_in opened_after "
                          "ends_destination destination_of closing_mark title_in title_after",
    "md_lines/Texts": "is_none next_in begins_with with_line first_line text_before",
}


def name_of(node):
    """The name that a piece of Python defines, of a constant in small letters; else None."""
    if isinstance(node, (ast.FunctionDef, ast.ClassDef)):
        return node.name
    is_constant = isinstance(node, ast.Assign) and isinstance(node.targets[0], ast.Name)
    return node.targets[0].id.lower() if is_constant else None


def names_of_model():
    """The names of all functions, classes and constants of the model."""
    return {name_of(node) for path in pathlib.Path(__file__).parent.glob("*.py")
            for node in ast.walk(ast.parse(path.read_text("utf-8")))}


def definitions_of(name):
    """The names of the definitions in a file; none if there is no such file."""
    crate, file = name.split("/")
    path = ROOT / "crates" / crate / "specs" / f"{file}.antt"
    return DEFINITION.findall(path.read_text("utf-8")) if path.exists() else []


def differences():
    """How many definitions there are, and those that are on one side alone."""
    mirrored, count, found = names_of_model(), 0, []
    for name, words in WITHIN.items():
        definitions, within = definitions_of(name), set(words.split())
        count += len(definitions)
        found += [f"{name}: {one} is not in the model" for one in definitions
                  if one not in mirrored | within]
        if definitions:
            found += [f"{name}: {one} is no definition" for one in within - set(definitions)]
    return count, found
