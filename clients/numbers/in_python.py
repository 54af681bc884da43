"""The numbers of the C interface for Python."""

from listed import (MARKDOWN_TITLES, RELEASE, RELEASE_COMMENT, TITLES, commented, of_group, upper)


def enumeration(group, name):
    """One group as an enumeration of Python."""
    title = {**TITLES, **MARKDOWN_TITLES}[group]
    text = f"\n\nclass {name}(enum.IntEnum):\n    \"\"\"{title}\"\"\"\n\n"
    for entry in of_group(group):
        for comment in filter(None, [entry.part, entry.comment]):
            text += commented(comment, "    ", "# ", "# ")
        text += f"    {upper(entry.name)} = {entry.number}\n"
    return text


def numbers():
    """The module for Python."""
    version = of_group("version")[0]
    classes = [("status", "Status"), ("rule", "Rule"), ("kind", "Kind"),
               ("line_ending", "LineEnding")]
    classes.append(("name", "Name"))
    markdown_classes = [("markdown_status", "MarkdownStatus"), ("markdown_html", "DocumentHtml")]
    markdown = of_group("markdown_version")[0]
    text = "\"\"\"The numbers of the C interface.\"\"\"\n\nimport enum\n\n"
    text += f"# {version.comment}\nVERSION = {version.number}\n\n"
    text += f"# {RELEASE_COMMENT}\nVERSION_TEXT = \"{RELEASE}\"\n\n"
    text += "# The options, by their numbers, each with its type.\nOPTIONS = (\n"
    text += "".join(f"    (\"{entry.name}\", \"{entry.type}\"),\n"
                    for entry in of_group("option")) + ")\n"
    text += f"\n# {markdown.comment}\n{markdown.name} = {markdown.number}\n"
    text += "\n# The options for Markdown, by their numbers.\nMARKDOWN_OPTIONS = (\n"
    text += "".join(f"    \"{entry.name}\",\n" for entry in of_group("markdown_option")) + ")\n"
    return text + "".join(enumeration(group, name) for group, name in classes + markdown_classes)
