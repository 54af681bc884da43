//! The sitemap of a site: the URLs of its pages, as sitemaps.org defines it.

use crate::links;
use std::path::{Path, PathBuf};

/// The name of the file in the site.
pub const NAME: &str = "sitemap.xml";

/// The most pages that a sitemap may have.
const MOST: usize = 50_000;

/// The text of the sitemap with the pages of these paths, below the URL of the site. Fails if they
/// are too many.
pub fn text<'a>(base: &str, pages: impl Iterator<Item = &'a Path>) -> Result<String, String> {
    let mut text = "<?xml version=\"1.0\" encoding=\"UTF-8\"?>\n\
                    <urlset xmlns=\"http://www.sitemaps.org/schemas/sitemap/0.9\">\n"
        .to_string();
    let base = escaped(base.trim_end_matches('/'));
    for (number, page) in pages.enumerate() {
        if number == MOST {
            return Err(format!(
                "a sitemap has at most {MOST} pages, so none is written"
            ));
        }
        let page = links::encoded(page);
        text.extend(["<url><loc>", &base, "/", &page, "</loc></url>\n"]);
    }
    Ok(text + "</urlset>\n")
}

/// The path of the file.
pub fn path() -> PathBuf {
    PathBuf::from(NAME)
}

/// A URL in XML. It has none of the characters `<`, `>` and `"`.
fn escaped(url: &str) -> String {
    url.replace('&', "&amp;").replace('\'', "&apos;")
}

#[cfg(test)]
mod tests {
    use super::*;

    #[test]
    fn texts() {
        let pages = [Path::new("index.html"), Path::new("a b/c&d.html")];
        let made = text("https://x.org/a'b&c/", pages.into_iter()).unwrap();
        let wanted = "<?xml version=\"1.0\" encoding=\"UTF-8\"?>\n\
             <urlset xmlns=\"http://www.sitemaps.org/schemas/sitemap/0.9\">\n\
             <url><loc>https://x.org/a&apos;b&amp;c/index.html</loc></url>\n\
             <url><loc>https://x.org/a&apos;b&amp;c/a%20b/c%26d.html</loc></url>\n</urlset>\n";
        assert_eq!(made, wanted);
        let many = std::iter::repeat(Path::new("a.html"));
        assert!(text("https://x.org", many.clone().take(MOST)).is_ok());
        assert!(text("https://x.org", many.take(MOST + 1)).is_err());
    }
}
