"""The numbers of the C interface for C."""

from listed import (MARKDOWN_TITLES, RELEASE, RELEASE_COMMENT, TITLES, commented, of_group, meaning,
                    upper)

PREFIXES = {
    "status": "",
    "rule": "RULE_",
    "kind": "",
    "line_ending": "",
    "option": "OPTION_",
    "attribute": "ATTRIBUTE_",
    "name": "NAME_",
    "markdown_status": "MARKDOWN_",
    "markdown_html": "MARKDOWN_HTML_",
    "markdown_option": "MARKDOWN_OPTION_",
}


def enumeration(group):
    """One group as an enumeration of C."""
    text = commented({**TITLES, **MARKDOWN_TITLES}[group], "", "/* ", " * ", " */") + "enum {\n"
    for entry in of_group(group):
        for comment in filter(None, [entry.part, entry.comment]):
            text += commented(comment, "    ", "/* ", " * ", " */")
        text += f"    BIVDRAZO_{PREFIXES[group]}{upper(entry.name)} = {entry.number},\n"
    return text + "};\n"


def rule_text():
    """What each rule means, as a function of C."""
    text = "/* What a rule means, in English. */\n"
    text += "static inline const char *bivdrazo_rule_text(uint32_t rule) {\n    switch (rule) {\n"
    for entry in of_group("rule"):
        text += (f"    case BIVDRAZO_RULE_{upper(entry.name)}:\n"
                 f"        return \"{meaning(entry)}\";\n")
    return text + "    default:\n        return \"an unknown rule\";\n    }\n}\n"


def name_text():
    """How an event script spells each name, as a function of C."""
    text = commented("The name in an event script. NULL for Other, which its own number follows,"
                     " and for an unknown name.", "", "/* ", " * ", " */")
    text += "static inline const char *bivdrazo_name_text(uint16_t name) {\n    switch (name) {\n"
    for entry in of_group("name"):
        if entry.name != "Other":
            text += (f"    case BIVDRAZO_NAME_{upper(entry.name)}:\n"
                     f"        return \"{entry.name}\";\n")
    return text + "    default:\n        return (const char *)0;\n    }\n}\n"


def header():
    """The header for C."""
    version = of_group("version")[0]
    text = "#ifndef BIVDRAZO_NUMBERS_H\n#define BIVDRAZO_NUMBERS_H\n\n#include <stdint.h>\n\n"
    text += commented(version.comment, "", "/* ", " * ", " */")
    text += f"#define BIVDRAZO_VERSION {version.number}\n\n"
    text += f"/* {RELEASE_COMMENT} */\n#define BIVDRAZO_VERSION_TEXT \"{RELEASE}\"\n\n"
    text += "\n".join([*(enumeration(group) for group in TITLES), rule_text(), name_text()])
    return text + "\n#endif\n"


def markdown_header():
    """The header for C with the numbers of the interface for Markdown."""
    version = of_group("markdown_version")[0]
    text = "#ifndef BIVDRAZO_MARKDOWN_NUMBERS_H\n#define BIVDRAZO_MARKDOWN_NUMBERS_H\n\n"
    text += commented(version.comment, "", "/* ", " * ", " */")
    text += f"#define BIVDRAZO_{version.name} {version.number}\n\n"
    text += "\n".join(enumeration(group) for group in MARKDOWN_TITLES)
    return text + "\n#endif\n"
