"""HTML's names of character references, listed in references.txt, as C, Rust, Python and the parser
have them.
"""

import pathlib

LIST = pathlib.Path(__file__).resolve().parent / "references.txt"
COMMENT = "HTML's names of character references, each with what it stands for."


def references():
    """The list's pairs of a name and a text."""
    lines = [line.split() for line in LIST.read_text().splitlines()
             if line and not line.startswith("#")]
    return [(name, "".join(chr(int(code, 16)) for code in codes)) for name, *codes in lines]


def c_file():
    """The header for C."""
    pairs = references()
    text = "#ifndef BIVDRAZO_REFERENCES_H\n#define BIVDRAZO_REFERENCES_H\n\n"
    text += '#include "bivdrazo.h"\n\n'
    text += f"/* How many names there are. */\n#define BIVDRAZO_REFERENCES_LENGTH {len(pairs)}\n\n"
    text += "#define BIVDRAZO_REFERENCE(name, text) \\\n"
    text += ("    {(const uint8_t *)name, sizeof(name) - 1, "
             "(const uint8_t *)text, sizeof(text) - 1}\n\n")
    text += f"/* {COMMENT} */\n"
    text += "static const bivdrazo_reference BIVDRAZO_REFERENCES[BIVDRAZO_REFERENCES_LENGTH] = {\n"
    for name, stands_for in pairs:
        coded = "".join(f"\\x{byte:02x}" for byte in stands_for.encode("utf-8"))
        text += f'    BIVDRAZO_REFERENCE("{name}", "{coded}"),\n'
    return text + "};\n\n#undef BIVDRAZO_REFERENCE\n\n#endif\n"


def rust_file():
    """The module for Rust."""
    text = f"/// {COMMENT}\n///\n"
    text += ("/// A caller of [`compile`](crate::compile) whose parser doesn't decode references "
             "hands them in.\n")
    text += "pub const REFERENCES: &[(&str, &str)] = &[\n"
    for name, stands_for in references():
        coded = "".join(f"\\u{{{ord(character):x}}}" for character in stands_for)
        text += f'    ("{name}", "{coded}"),\n'
    return text + "];\n"


def python_file():
    """The module for Python."""
    text = f'"""{COMMENT}"""\n\nREFERENCES = {{\n'
    for name, stands_for in references():
        text += f'    "{name}": {ascii(stands_for)},\n'
    return text + "}\n"


def rattle_file():
    """The module of the parser: all names in the order of their bytes, as one text, and where each
    begins in it, and how long it is.
    """
    pairs = sorted(references())
    entries = [f"{name};{stands_for}" for name, stands_for in pairs]
    starts = [0]
    for entry in entries[:-1]:
        starts.append(starts[-1] + len(entry.encode("utf-8")) + 1)
    text = f"//! {COMMENT}\n\n"
    text += "/// All names in the order of their bytes, each with `;` and what it stands for. NUL is\n"
    text += "/// between two of them.\n"
    text += '#[rattlefmt::skip]\npub(crate) static TEXT: &str = "\\\n'
    separated = [entry + "\0" for entry in entries[:-1]] + entries[-1:]
    text += lines_of(map(escaped, separated), "\\\n") + '\\\n";\n\n'
    text += "/// How many names there are.\n"
    text += f"pub(crate) const COUNT: usize = {len(entries)};\n\n"
    text += array("Where each name begins in that text.", "STARTS", "u16", starts) + "\n"
    return text + array("The length of each name.", "LENGTHS", "u8", [len(name) for name, _ in pairs])


def array(comment, name, kind, numbers):
    """A table with a number for each name."""
    text = f"/// {comment}\n#[rattlefmt::skip]\npub(crate) static {name}: [{kind}; COUNT] = [\n    "
    rows = lines_of([f"{number}, " for number in numbers], "\n    ")
    return text + rows.replace(" \n", "\n").rstrip() + "\n];\n"


def escaped(text):
    """A text as a literal of Rattle has it."""
    special = {"\0": "\\0", "\n": "\\n", '"': '\\"', "\\": "\\\\"}
    return "".join(special.get(each) or (each if " " < each < "\x7f" else f"\\u{{{ord(each):x}}}")
                   for each in text)


def lines_of(parts, between):
    """The parts one after another, in lines of at most 96 characters."""
    lines = [""]
    for part in parts:
        if len(lines[-1]) + len(part) > 94:
            lines.append("")
        lines[-1] += part
    return between.join(lines)
