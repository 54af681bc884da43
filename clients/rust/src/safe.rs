//! HTML that needs no escaping.

use crate::ffi;
use std::borrow::Cow;
use std::error;
use std::fmt;
use std::ops::Deref;

/// HTML that the library made under safe options or checked: it has one reading as HTML, and its
/// links and images have no protocol or a permitted one.
///
/// It is safe as the content of an element such as `div`; no HTML is safe as the value of an
/// attribute, in a script or in a style. Only this crate makes values of this type. So a template
/// engine may insert one without escaping it; text made from one, such as a slice, is a plain `str`
/// or `String`, of which [`from_checked`](SafeHtml::from_checked) makes one again if it is safe.
///
/// ```
/// use bivdrazo::{markdown_to_html, MarkdownOptions, SafeHtml};
///
/// let html: SafeHtml = markdown_to_html("a *b*", &MarkdownOptions::default())?;
/// assert_eq!(format!("<div>{html}</div>"), "<div><p>a <em>b</em></p>\n</div>");
/// assert!(html.contains("<em>"));
/// let text: String = html.into_string();
/// # Ok::<(), bivdrazo::Error>(())
/// ```
#[derive(Clone, Debug, Default, Eq, Hash, Ord, PartialEq, PartialOrd)]
pub struct SafeHtml(String);

impl SafeHtml {
    /// A text that the library made under safe options.
    pub(crate) fn made(text: String) -> SafeHtml {
        SafeHtml(text)
    }

    /// Takes a text that is safe HTML, whoever wrote it, as [`is_safe_html`] says: so a text that
    /// comes back from a database can be inserted into a page again.
    ///
    /// # Errors
    ///
    /// [`UnsafeHtml`], which has the text, if it isn't safe.
    ///
    /// ```
    /// use bivdrazo::SafeHtml;
    ///
    /// let html = SafeHtml::from_checked("<p>a</p>".to_string())?;
    /// assert_eq!(html, "<p>a</p>");
    /// let error = SafeHtml::from_checked("<script>".to_string()).unwrap_err();
    /// assert_eq!(error.into_string(), "<script>");
    /// # Ok::<(), bivdrazo::UnsafeHtml>(())
    /// ```
    pub fn from_checked(text: String) -> Result<SafeHtml, UnsafeHtml> {
        match is_safe_html(&text) {
            true => Ok(SafeHtml(text)),
            false => Err(UnsafeHtml(text)),
        }
    }

    /// The HTML as a `str`.
    #[must_use]
    pub fn as_str(&self) -> &str {
        &self.0
    }

    /// The HTML as a plain `String`.
    #[must_use]
    pub fn into_string(self) -> String {
        self.0
    }
}

/// Whether a text is safe HTML, whoever wrote it.
///
/// It is safe exactly if it has a reading as HTML with the elements and attributes of a short list,
/// in which no link stands in a link, links and images have no protocol or a permitted one, and
/// elements nest at most 485 deep. Then it has no other reading, and the HTML Standard's tree
/// construction builds the tree of this one.
///
/// ```
/// use bivdrazo::is_safe_html;
///
/// assert!(is_safe_html("<p>a &amp; <em>b</em></p>"));
/// assert!(!is_safe_html("<p onclick=\"f()\">a</p>"));
/// ```
#[must_use]
pub fn is_safe_html(text: &str) -> bool {
    ffi::is_safe_html(text)
}

/// The error of [`SafeHtml::from_checked`]: the text isn't safe HTML.
#[derive(Clone, Debug, Eq, PartialEq)]
pub struct UnsafeHtml(String);

impl UnsafeHtml {
    /// The text that isn't safe.
    #[must_use]
    pub fn into_string(self) -> String {
        self.0
    }
}

impl fmt::Display for UnsafeHtml {
    fn fmt(&self, formatter: &mut fmt::Formatter) -> fmt::Result {
        formatter.pad("the text isn't safe HTML")
    }
}

impl error::Error for UnsafeHtml {}

impl fmt::Display for SafeHtml {
    fn fmt(&self, formatter: &mut fmt::Formatter) -> fmt::Result {
        formatter.pad(&self.0)
    }
}

impl AsRef<str> for SafeHtml {
    fn as_ref(&self) -> &str {
        &self.0
    }
}

impl AsRef<[u8]> for SafeHtml {
    fn as_ref(&self) -> &[u8] {
        self.0.as_bytes()
    }
}

impl Deref for SafeHtml {
    type Target = str;

    fn deref(&self) -> &str {
        &self.0
    }
}

impl From<SafeHtml> for String {
    fn from(html: SafeHtml) -> String {
        html.0
    }
}

impl From<SafeHtml> for Cow<'_, str> {
    fn from(html: SafeHtml) -> Self {
        Cow::Owned(html.0)
    }
}

/// Equality with other types of text.
macro_rules! equals {
    ($($text:ty),*) => {
        $(
            impl PartialEq<$text> for SafeHtml {
                fn eq(&self, other: &$text) -> bool {
                    self.0 == *other
                }
            }

            impl PartialEq<SafeHtml> for $text {
                fn eq(&self, other: &SafeHtml) -> bool {
                    *self == other.0
                }
            }
        )*
    };
}

equals!(str, &str, String);
