//! The types of arguments and results: events, options, attributes, limits and headings.

use crate::numbers::Name;
use crate::SafeHtml;

/// Whether an event begins a node or ends it.
#[derive(Clone, Copy, Debug, Eq, Hash, PartialEq)]
pub enum Kind {
    /// The node begins.
    Enter,
    /// The node ends.
    Exit,
}

/// An event: a node begins or ends at the byte `index` of the document.
#[derive(Clone, Copy, Debug, Eq, Hash, PartialEq)]
pub struct Event {
    /// Whether it begins or ends.
    pub kind: Kind,
    /// The name of the node.
    pub name: Name,
    /// The number of the document's bytes before the event.
    pub index: usize,
    /// How many columns of a tab at `index`, 0 to 4, are already used; 0 without a tab.
    pub columns: u8,
}

impl Event {
    /// An event: the node begins before the byte `index`.
    pub fn enter(name: Name, index: usize) -> Event {
        Event {
            kind: Kind::Enter,
            name,
            index,
            columns: 0,
        }
    }

    /// An event: the node ends before the byte `index`.
    pub fn exit(name: Name, index: usize) -> Event {
        Event {
            kind: Kind::Exit,
            name,
            index,
            columns: 0,
        }
    }
}

/// A line ending.
#[derive(Clone, Copy, Debug, Default, Eq, Hash, PartialEq)]
pub enum LineEnding {
    /// `\n`.
    #[default]
    LineFeed,
    /// `\r`.
    CarriageReturn,
    /// `\r\n`.
    CarriageReturnLineFeed,
}

/// The options of [`compile`](crate::compile). The default is safe.
///
/// The text is safe if `allow_any_img_src`, `allow_dangerous_html` and `allow_dangerous_protocol`
/// are off, and `gfm_footnote_label_attributes` and `gfm_footnote_label_tag_name` are `None`; the
/// other options may have any value.
///
/// ```
/// use bivdrazo::{LineEnding, Options};
///
/// let options = Options::default().with_default_line_ending(LineEnding::CarriageReturn);
/// assert!(!options.allow_dangerous_html);
/// ```
#[derive(Clone, Debug, Default, Eq, PartialEq)]
#[non_exhaustive]
pub struct Options {
    /// Let images have any source.
    pub allow_any_img_src: bool,
    /// Leave HTML of the document as it is.
    pub allow_dangerous_html: bool,
    /// Let links and images have any protocol.
    pub allow_dangerous_protocol: bool,
    /// Print tasks without `disabled`.
    pub gfm_task_list_item_checkable: bool,
    /// Disarm some tags of HTML that is left as it is.
    pub gfm_tagfilter: bool,
    /// The line ending if the document has none.
    pub default_line_ending: LineEnding,
    /// Use numbers in footnotes' ids instead of identifiers.
    pub gfm_footnote_number_ids: bool,
    /// The `aria-label` of the link back; by default `Back to content`.
    pub gfm_footnote_back_label: Option<String>,
    /// The prefix of footnotes' ids; by default `user-content-`.
    pub gfm_footnote_clobber_prefix: Option<String>,
    /// The heading of the footnotes; by default `Footnotes`.
    pub gfm_footnote_label: Option<String>,
    /// The attributes of that heading, not escaped; by default `class="sr-only"`.
    pub gfm_footnote_label_attributes: Option<String>,
    /// The tag name of that heading; by default `h2`.
    pub gfm_footnote_label_tag_name: Option<String>,
}

/// Attributes that are added to the tags of a text. Each value is escaped.
///
/// The ids of headings are distinct from one another, and from all others if no other begins with
/// `heading_ids`. The others are those of footnotes: `footnote-label`, and those that begin with
/// `gfm_footnote_clobber_prefix` and `fn`; they are distinct from one another with
/// `gfm_footnote_number_ids`.
#[derive(Clone, Debug, Default, Eq, PartialEq)]
#[non_exhaustive]
pub struct Attributes {
    /// The `rel` of each link whose URL isn't empty and doesn't begin with `#`.
    pub rel: Option<String>,
    /// The prefix of the `id` of each heading without one; its number, from 1, follows.
    pub heading_ids: Option<String>,
}

/// Limits on the length of a text, on the work for it, and on the nesting of its events. The
/// default has no limits.
///
/// The cost of a call depends on the first two, the number of events, and the lengths of the
/// document, of options' texts and of names; that isn't proved.
///
/// `work` limits two sums, each by itself. The first is how much there is to read and to print,
/// which is counted from the events alone, before the document is read: the lengths of texts and
/// labels, by the places of the events (with a parser's events at most the document's length, and
/// that of its labels once more), and for each row of a table's body five for each of its columns.
/// The second is how much is used again, which is counted before anything is printed: for each link
/// and image that refers to a definition, the length of what is read in the definition, and one for
/// each of its events; for each footnote call, five times its length, four times that of the prefix
/// of ids, and that of the label of the link back.
#[derive(Clone, Copy, Debug, Eq, Hash, PartialEq)]
#[non_exhaustive]
pub struct Limits {
    /// The limit on the text's length in bytes.
    pub text: usize,
    /// The limit on what is read and printed, and on what is used again.
    pub work: usize,
    /// The limit on the number of open nodes; 0: none.
    pub depth: usize,
}

impl Default for Limits {
    fn default() -> Limits {
        Limits {
            text: usize::MAX,
            work: usize::MAX,
            depth: 0,
        }
    }
}

/// A heading that got an `id`.
#[derive(Clone, Debug, Eq, Hash, PartialEq)]
#[non_exhaustive]
pub struct Heading {
    /// Its level, from 1 to 6.
    pub level: u8,
    /// Its number, from 1.
    pub number: usize,
    /// Its text without tags, escaped: it can be inserted into HTML as it is.
    pub text: SafeHtml,
    /// Its `id`, not escaped.
    pub id: String,
}

/// A text, and the headings that got an `id`.
#[derive(Clone, Debug, Default, Eq, PartialEq)]
#[non_exhaustive]
pub struct Rendered {
    /// The text.
    pub html: SafeHtml,
    /// The headings, in order.
    pub headings: Vec<Heading>,
}
