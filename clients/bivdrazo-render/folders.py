"""Six kinds of folder of Markdown, as projects keep their documentation, with texts made up here.

    folders.py FOLDER

writes each kind into a folder of its own below FOLDER, which must not exist.
"""

import pathlib
import sys

WORDS = ("a page of text that says nothing but fills the lines of a paragraph until it wraps on "
         "every screen and has `code --with-a-long-option=value` and *marks* in it").split()
LONG = "x" * 300
WIDE = ("| " + " | ".join(f"column {n}" for n in range(12)) + " |\n|" + "---|" * 12 + "\n| "
        + " | ".join(f"`value_of_{n}`" for n in range(12)) + " |\n")


def text(number):
    """A text with paragraphs, a list, code, and what is wider than a phone."""
    words = " ".join(WORDS[number % 7:] + WORDS)
    return (f"{words}\n\n## Usage\n\n- one\n- two `{LONG[:60]}`\n\n```sh\nrun {LONG}\n```\n\n"
            f"### Options\n\n{words}: https://x.org/{LONG}\n\n{WIDE}\n> quoted {LONG[:80]}\n")


def book():
    """Sections with weights, TOML, drafts, and folders without a page: as hugo's."""
    yield "_index.md", "---\ntitle: Skipped\n---\n"
    for section in range(6):
        yield f"part{section}/index.md", (
            f"+++\ntitle = 'Part {section}'\nweight = {60 - section}\n+++\n" + text(section))
        for page in range(8):
            draft = "draft = true\n" if page == 7 else ""
            yield f"part{section}/deep/er/page{page}.md", (
                f"+++\ntitle = 'Page {page} of \"{section}\"'\n{draft}+++\n[up](../../index.md)\n\n"
                + text(page))


def rules():
    """300 pages in a folder, with a README above it: as ESLint's."""
    yield "README.md", "# The project\n\n[rules](rules/README.md) [one](rules/rule-7.md#usage)\n"
    yield "rules/README.md", "---\ntitle: Rules & <tags>\n---\n\nAll rules.\n"
    for page in range(300):
        yield f"rules/rule-{page}.md", (
            f"---\ntitle: rule-{page}\n---\n\n[next](rule-{(page + 1) % 300}.md) "
            "![i](../images/i.png)\n\n" + text(page)[:900])
    yield "images/i.png", "not really an image"
    yield "node_modules/m/README.md", "# A package\n"


def manual():
    """Flat pages with dots in their names and no front matter: as podman's."""
    for page in range(60):
        yield f"tool-{page}.1.md", (f"% tool-{page} 1\n\n## NAME\ntool\\-{page} - does things\n\n"
                                    f"See **[tool-{page // 2}(1)](tool-{page // 2}.1.md)**.\n\n"
                                    + text(page))


def interface():
    """Pages with comments and very many headings: as node's."""
    yield "index.md", "# Index\n\n<!-- type=index -->\n\n* [All](all.md)\n"
    yield "all.md", "# All\n\n<!-- introduced_in=v0 -->\n\n" + "".join(
        f"## Call `{number}`\n\n<!-- YAML\nadded: v{number}\n-->\n\n### More of {number}\n\n"
        for number in range(200))
    for page in range(30):
        yield f"m{page}.md", (
            f"# Module {page}\n\n<!-- source_link=a -->\n\n[all](all.md)\n\n" + text(page))


def design():
    """Folders in folders with nav_order and HTML in the text: as bootstrap's."""
    for section in ("getting-started", "layout", "components/forms", "components/menus"):
        for page in range(8):
            yield f"{section}/{page}-item.md", (
                f"---\ntitle: Item {page}\nnav_order: {8 - page}\npublished: {page != 3}\n---\n\n"
                f"<div class=\"{LONG}\">\n\n" + text(page) + "\n\n</div>\n\n"
                + "".join("  " * deep + f"- item {deep}\n" for deep in range(30)))


def service():
    """A small folder with READMEs at each level, and notes with footnotes: as prometheus's."""
    for folder in ("", "querying/", "querying/api/", "storage/"):
        yield f"{folder}README.md", (
            f"# About {folder or 'it'}\n\n[top](/) A note[^1].\n\n[^1]: {LONG}\n")
        for page in range(5):
            yield f"{folder}{page}.md", (
                f"text[^1]\n\n{text(page)}\n\n[^1]: a [note](README.md) {LONG}\n")


KINDS = {"book": book, "rules": rules, "manual": manual, "interface": interface, "design": design,
         "service": service}


def write(folder):
    """Writes all kinds. Returns their folders."""
    for name, kind in KINDS.items():
        for path, content in kind():
            path = folder / name / path
            path.parent.mkdir(parents=True, exist_ok=True)
            path.write_text(content, encoding="utf-8")
    return [folder / name for name in KINDS]


if __name__ == "__main__":
    write(pathlib.Path(sys.argv[1]))
