"""The numbers of the C interface for Rust, and the options in the layout of C."""

from listed import RELEASE, RELEASE_COMMENT, TITLES, WIDTH, commented, of_group, meaning, upper


def markdown_numbers():
    """The numbers of the interface for Markdown that the crate uses."""
    version = of_group("markdown_version")[0]
    text = (f"/// {version.comment}\n"
            f"pub(crate) const {version.name}: u32 = {version.number};\n")
    used = {"InputTooLong", "OutputTooLong", "Failed", "TooMuchWork"}
    statuses = [entry for entry in of_group("markdown_status") if entry.name in used]
    for group, type_, found in [
        ("status", "u32", statuses),
        ("html", "u8", of_group("markdown_html")),
    ]:
        text += "\n"
        text += "".join(
            f"pub(crate) const {group.upper()}_{upper(entry.name)}: {type_} = {entry.number};\n"
            for entry in found
        )
    return text


def enumeration(group, name):
    """One group as an enumeration of Rust; `Other` of the names carries its own number."""
    text = f"/// {TITLES[group]}\n#[derive(Clone, Copy, Debug, Eq, Hash, PartialEq)]\n"
    text += f"#[non_exhaustive]\npub enum {name} {{\n"
    for entry in of_group(group):
        is_other = group == "name" and entry.name == "Other"
        if entry.comment or is_other:
            text += commented(entry.comment or entry.part, "    ", "/// ", "/// ")
        text += f"    {entry.name}{'(u16)' if is_other else ''},\n"
    return text + "}\n"


def arm_of_text(entry):
    """The arm with a name's text, as the formatter lays it out."""
    line = f"            \"{entry.name}\" => Some(Name::{entry.name}),\n"
    if len(line) > WIDTH + 1:
        line = line.replace(" => ", " => {\n" + 16 * " ").replace(",\n", "\n" + 12 * " " + "}\n")
    return line


def names():
    """The numbers of the names, and all of them for tests."""
    plain = [entry for entry in of_group("name") if entry.name != "Other"]
    other = [entry for entry in of_group("name") if entry.name == "Other"][0]
    text = "impl Name {\n"
    text += "    /// The number of the name, and the own number of `Other`.\n"
    text += "    pub(crate) fn numbers(self) -> (u16, u16) {\n        match self {\n"
    text += "".join(f"            Name::{entry.name} => ({entry.number}, 0),\n" for entry in plain)
    text += f"            Name::Other(own) => ({other.number}, own),\n        }}\n    }}\n\n"
    text += "    /// The name with this text in an event script.\n"
    text += "    pub fn from_text(text: &str) -> Option<Name> {\n        match text {\n"
    text += "".join(map(arm_of_text, plain))
    text += "            _ => match text.strip_prefix(\"Other\") {\n"
    text += ("                Some(own) if own.len() <= 5 && "
             "own.bytes().all(|byte| byte.is_ascii_digit()) => {\n")
    text += "                    own.parse().ok().map(Name::Other)\n                }\n"
    text += "                _ => None,\n            },\n        }\n    }\n}\n\n"
    text += "/// All names but `Other`, by their numbers.\n"
    text += "#[cfg(test)]\npub(crate) const NAMES: &[Name] = &[\n"
    by_number = sorted(plain, key=lambda entry: entry.number)
    return text + "".join(f"    Name::{entry.name},\n" for entry in by_number) + "];\n"


def arm_of_rule(entry):
    """The arm with a rule's meaning, as the formatter lays it out."""
    line = f"            Rule::{entry.name} => \"{meaning(entry)}\",\n"
    if len(line) > WIDTH + 1:
        line = line.replace(" => ", " => {\n" + 16 * " ")
        line = line.replace("\",\n", "\"\n" + 12 * " " + "}\n")
    return line


def rules():
    """The rules by their numbers, and their meanings."""
    text = "impl Rule {\n    /// The number of the rule in C.\n"
    text += "    pub fn number(self) -> u32 {\n        match self {\n"
    text += "".join(f"            Rule::{entry.name} => {entry.number},\n"
                    for entry in of_group("rule"))
    text += "        }\n    }\n\n    /// The meaning of the rule, in English.\n"
    text += "    pub fn text(self) -> &'static str {\n        match self {\n"
    text += "".join(map(arm_of_rule, of_group("rule")))
    text += "        }\n    }\n\n    /// The rule with that number.\n"
    text += "    pub(crate) fn from_number(number: u32) -> Option<Rule> {\n        match number {\n"
    text += "".join(f"            {entry.number} => Some(Rule::{entry.name}),\n"
                    for entry in of_group("rule"))
    return text + "            _ => None,\n        }\n    }\n}\n"


def constants():
    """The other numbers as constants."""
    version = of_group("version")[0]
    text = f"/// {version.comment}\npub const VERSION: u32 = {version.number};\n\n"
    text += f"/// {RELEASE_COMMENT}\npub const VERSION_TEXT: &str = \"{RELEASE}\";\n\n"
    for group, type_ in [("status", "u32"), ("kind", "u8"), ("line_ending", "u8")]:
        for entry in of_group(group):
            name = f"{group.upper()}_{upper(entry.name)}"
            text += f"pub(crate) const {name}: {type_} = {entry.number};\n"
    text += "\n/// The names of the options, by their numbers.\n"
    text += "pub(crate) const OPTIONS: &[&str] = &[\n"
    return text + "".join(f"    \"{entry.name}\",\n" for entry in of_group("option")) + "];\n"


def numbers():
    """The module for Rust."""
    parts = [enumeration("name", "Name"), names(), enumeration("rule", "Rule"), rules(),
             constants()]
    return "\n".join(parts)


def options():
    """The options for the library, in Rust: the numbers, and then the texts."""
    found = sorted(of_group("option"), key=lambda entry: entry.type == "text")
    types = {"flag": "u8", "line_ending": "u8", "text": "CText"}
    ways = {"flag": "u8::from({})", "line_ending": "c_line_ending({})", "text": "c_text(&{})"}
    text = "use crate::layouts::{c_line_ending, c_text, CText};\nuse crate::Options;\n\n"
    text += "#[repr(C)]\npub(crate) struct COptions {\n"
    text += "".join(f"    {entry.name}: {types[entry.type]},\n" for entry in found) + "}\n\n"
    text += "/// The options in C; they refer to the texts of `options`.\n"
    text += "pub(crate) fn c_options(options: &Options) -> COptions {\n    COptions {\n"
    for entry in found:
        text += f"        {entry.name}: {ways[entry.type].format(f'options.{entry.name}')},\n"
    return text + "    }\n}\n"
