//! The keys of front matter that say something of a page.

/// The key of the title.
pub const TITLE: &str = "title";

/// The other keys that are read, in lower case.
const DRAFT: &str = "draft";
const PUBLISHED: &str = "published";
const WEIGHT: &str = "weight";
const NAV_ORDER: &str = "nav_order";
const KNOWN: [&str; 4] = [DRAFT, PUBLISHED, WEIGHT, NAV_ORDER];

/// The words for truth values, in lower case, as YAML 1.1 and 1.2 have them.
const TRUE: [&str; 4] = ["true", "yes", "on", "y"];
const FALSE: [&str; 4] = ["false", "no", "off", "n"];

/// The other keys, each with its text; without one if its value is a list, a map or of a type that
/// isn't known.
pub type Others = Vec<(&'static str, Option<String>)>;

/// The keys that are read.
#[derive(Debug, Default)]
pub struct Keys {
    /// The title, or its fault.
    pub title: Option<Result<String, String>>,
    pub others: Others,
}

/// The key of that name, whatever its case, if it is read.
pub fn known(name: &str) -> Option<&'static str> {
    KNOWN.into_iter().find(|key| key.eq_ignore_ascii_case(name))
}

impl Keys {
    /// Whether the page isn't to be published. A `draft` that is no truth value is a fault, and
    /// counts as a draft; a `published` that is none may be a date, and counts as published.
    pub fn is_draft(&self, faults: &mut Vec<String>) -> bool {
        let mut is_draft = false;
        for (key, value) in &self.others {
            let value = value.as_deref();
            is_draft |= match (*key, truth(value.unwrap_or("?"))) {
                (DRAFT, Some(is_draft)) => is_draft,
                (DRAFT, None) => {
                    faults.push("the draft in the front matter is no truth value".to_string());
                    true
                }
                (PUBLISHED, is_published) => is_published == Some(false),
                _ => false,
            };
        }
        is_draft
    }

    /// The page's weight: the first of `weight` and `nav_order` that is a number. One that isn't is
    /// a fault.
    pub fn weight(&self, faults: &mut Vec<String>) -> Option<f64> {
        let mut weights = [WEIGHT, NAV_ORDER].into_iter().filter_map(|key| {
            let (_, value) = self.others.iter().find(|(found, _)| *found == key)?;
            let weight = value.as_deref().and_then(number);
            if weight.is_none() {
                faults.push(format!("the {key} in the front matter is no number"));
            }
            weight
        });
        weights.next()
    }
}

/// The number that a text is: of digits, with a sign, a point or an exponent.
fn number(text: &str) -> Option<f64> {
    let number: f64 = text.trim().parse().ok()?;
    number.is_finite().then_some(number)
}

/// The truth value of a word.
fn truth(word: &str) -> Option<bool> {
    let is_in = |words: &[&str]| {
        words
            .iter()
            .any(|each| each.eq_ignore_ascii_case(word.trim()))
    };
    match () {
        _ if is_in(&TRUE) => Some(true),
        _ if is_in(&FALSE) => Some(false),
        _ => None,
    }
}

/// Whether bytes have the name of a key that can keep a page from being published.
pub fn name_drafts(bytes: &[u8]) -> bool {
    let has = |name: &str| {
        let mut parts = bytes.windows(name.len());
        parts.any(|part| part.eq_ignore_ascii_case(name.as_bytes()))
    };
    has(DRAFT) || has(PUBLISHED)
}

/// Whether a line of front matter that can't be read looks like `draft: true` or
/// `published: false`.
pub fn looks_like_draft(text: &str) -> bool {
    text.split(['\n', '\r']).any(|line| {
        let (key, value) = match line.split_once([':', '=']) {
            Some(parts) => parts,
            None => return false,
        };
        let bare = |text: &str| -> String {
            let text = text.split('#').next().unwrap_or("");
            text.trim_matches(|each: char| each.is_whitespace() || "\"',{}".contains(each))
                .into()
        };
        match known(&bare(key)) {
            Some(DRAFT) => truth(&bare(value)) == Some(true),
            Some(PUBLISHED) => truth(&bare(value)) == Some(false),
            _ => false,
        }
    })
}
