"""A script of events in a file, and the parts of documents that bench.py times."""

import contextlib


class Script:
    """Events that are written to a file, and the document's text so far, in ASCII."""

    def __init__(self, file):
        self.file = file
        self.texts = []
        self.index = 0
        self.events = 0

    def put(self, text):
        self.texts.append(text)
        self.index += len(text)

    def enter(self, *names):
        for name in names:
            self.file.write(f"+{name} {self.index}\n")
        self.events += len(names)

    def exit(self, *names):
        for name in names:
            self.file.write(f"-{name} {self.index}\n")
        self.events += len(names)

    def leaf(self, name, text):
        self.enter(name)
        self.put(text)
        self.exit(name)

    @contextlib.contextmanager
    def node(self, *names):
        self.enter(*names)
        yield
        self.exit(*reversed(names))

    def end(self):
        self.file.write("--\n")
        self.file.writelines(self.texts)


def mark(script, text):
    script.leaf("Other1", text)


def line(script):
    script.leaf("LineEnding", "\n")


def blank_line(script):
    line(script)
    script.leaf("BlankLineEnding", "\n")


def span(script, name, sign, text):
    with script.node(name):
        mark(script, sign)
        with script.node("Other2"):
            script.leaf("Data", text)
        mark(script, sign)


def code(script, text):
    with script.node("CodeText"):
        mark(script, "`")
        script.leaf("CodeTextData", text)
        mark(script, "`")


def label(script, sign, text):
    with script.node("Label"):
        mark(script, sign)
        with script.node("LabelText"):
            script.leaf("Data", text)
        mark(script, "]")


def resource(script, url):
    with script.node("Resource"):
        script.put("(")
        with script.node("ResourceDestinationString"):
            script.leaf("Data", url)
        script.put(")")


def link(script, text, url):
    with script.node("Link"):
        label(script, "[", text)
        resource(script, url)


def reference(script, identifier):
    with script.node("Link"):
        label(script, "[", identifier)


def call(script, identifier):
    with script.node("GfmFootnoteCall"):
        label(script, "[^", identifier)


def defined_label(script, opening, name, identifier):
    mark(script, opening)
    with script.node(name):
        script.leaf("Data", identifier)
    mark(script, "]: ")


def definition(script, identifier, url):
    with script.node("Definition"):
        defined_label(script, "[", "DefinitionLabelString", identifier)
        with script.node("DefinitionDestinationString"):
            script.leaf("Data", url)


def footnote(script, identifier, text):
    with script.node("GfmFootnoteDefinition"):
        with script.node("GfmFootnoteDefinitionPrefix"):
            defined_label(script, "[^", "GfmFootnoteDefinitionLabelString", identifier)
        with script.node("Paragraph"):
            script.leaf("Data", text)


def item_prefix(script):
    with script.node("ListItemPrefix"):
        script.leaf("ListItemMarker", "-")
        script.leaf("SpaceOrTab", " ")


def item(script, text):
    with script.node("ListItem"):
        item_prefix(script)
        with script.node("Paragraph"):
            script.leaf("Data", text)


def row(script, cells):
    with script.node("GfmTableRow"):
        for cell in cells:
            with script.node("GfmTableCell"):
                mark(script, "|")
                script.leaf("Data", cell)


def table(script, columns, rows):
    with script.node("GfmTable"):
        with script.node("GfmTableHead"):
            row(script, ["head"] * columns)
            line(script)
            with script.node("GfmTableDelimiterRow"):
                for _ in range(columns):
                    with script.node("GfmTableDelimiterCellValue"):
                        script.leaf("GfmTableDelimiterMarker", ":")
                        mark(script, "-")
        line(script)
        with script.node("GfmTableBody"):
            for cells in rows:
                row(script, cells)
                line(script)


def heading(script, text):
    with script.node("HeadingAtx"):
        script.leaf("HeadingAtxSequence", "##")
        script.leaf("SpaceOrTab", " ")
        with script.node("HeadingAtxText"):
            script.leaf("Data", text)


def fenced_code(script, lines):
    with script.node("CodeFenced"):
        with script.node("CodeFencedFence"):
            mark(script, "```")
            with script.node("CodeFencedFenceInfo"):
                script.leaf("Data", "rust")
        for text in lines:
            line(script)
            script.leaf("CodeFlowChunk", text)
        line(script)
        with script.node("CodeFencedFence"):
            mark(script, "```")


def prose(script, number):
    with script.node("Paragraph"):
        script.leaf("Data", "Most of a document is plain text like this, with some ")
        span(script, "Emphasis", "*", "weight")
        script.leaf("Data", " here & there, a ")
        span(script, "Strong", "**", "strong word")
        script.leaf("Data", ",")
        line(script)
        script.leaf("Data", "a link to ")
        link(script, "some page", f"https://example.com/page?number={number}")
        script.leaf("Data", " or to ")
        reference(script, f"a page {number}")
        script.leaf("Data", ", a bit of ")
        code(script, "code <here>")
        script.leaf("Data", " and a note")
        call(script, f"note {number}")
        script.leaf("Data", ". It then goes on in plain words to the end of its line.")


def section(script, number):
    heading(script, f"Section {number}")
    blank_line(script)
    prose(script, number)
    blank_line(script)
    with script.node("ListUnordered"):
        item(script, "the first of the things to do")
        line(script)
        item(script, "the second one")
    blank_line(script)
    fenced_code(script, ["fn main() {", '    println!("a < b");', "}"])
    blank_line(script)
    table(script, 3, [["some", "more", "cells"], ["and a", "last", "row"]])
    blank_line(script)
    definition(script, f"a page {number}", f"https://example.org/{number}")
    blank_line(script)
    footnote(script, f"note {number}", "What the note says.")
    blank_line(script)
