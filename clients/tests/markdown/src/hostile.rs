//! Shapes of Markdown that make parsers slow or large.

use std::error::Error;
use std::fs;
use std::path::Path;

/// Writes a document of each shape, of about this size, to an existing folder, as `NAME.md`.
pub fn write(folder: &str, size: &str) -> Result<(), Box<dyn Error>> {
    let size = size.parse()?;
    for shape in SHAPES {
        let path = Path::new(folder).join(format!("{}.md", shape.name));
        fs::write(path, shape.document(size))?;
    }
    Ok(())
}

/// A shape: its name, and a document of about this size.
struct Shape {
    name: &'static str,
    make: fn(usize) -> String,
}

impl Shape {
    /// The document of about this size.
    fn document(&self, size: usize) -> String {
        (self.make)(size)
    }
}

/// A text again and again, up to a size.
fn fill(text: &str, size: usize) -> String {
    text.repeat(size / text.len())
}

/// A text again and again, and then as often another one.
fn nest(before: &str, after: &str, size: usize) -> String {
    let times = size / (before.len() + after.len());
    before.repeat(times) + &after.repeat(times)
}

macro_rules! shapes {
    ($($name:literal: $make:expr,)*) => { &[$(Shape { name: $name, make: $make },)*] };
}

/// The shapes.
const SHAPES: &[Shape] = shapes! {
    "plain words": |size| fill("word word word word word word word word\n", size),
    "one line": |size| fill("a", size),
    "quotes in quotes": |size| fill("> ", size) + "a",
    "quotes without spaces": |size| fill(">", size) + "a",
    "quotes, each line as deep": |size| {
        let depth = (1..).take_while(|depth| depth * depth < size).count();
        fill(&format!("{}a\n", ">".repeat(depth)), size)
    },
    "lines after nested quotes": |size| fill(">", size / 2) + "a\n" + &fill("a\n", size / 2),
    "blank lines after lists behind tabs": |size| {
        let step = |tabs: usize| format!("{}{}a\n", "\t".repeat(tabs), "- ".repeat(60));
        (0..2000).step_by(30).map(step).take(60).collect::<String>() + &fill("\n", size / 2)
    },
    "blank lines after nested tasks": |size| {
        fill("- [ ] ", size / 2) + "a\n" + &fill("\n", size / 2)
    },
    "blank lines after nested lists": |size| fill("- ", size / 2) + "a\n" + &fill("\n", size / 2),
    "lists in lists": |size| fill("- ", size) + "a",
    "deeper and deeper lists": |size| {
        let depth = (1..).take_while(|depth| depth * depth < size).count().min(700);
        (0..depth).map(|depth| format!("{}- a\n", "  ".repeat(depth))).collect()
    },
    "items": |size| fill("- a\n", size),
    "loose items": |size| fill("- a\n\n", size),
    "empty items": |size| fill("-\n", size),
    "numbered items": |size| fill("1. a\n", size),
    "opening brackets": |size| fill("[", size),
    "brackets in brackets": |size| nest("[", "]", size),
    "images in images": |size| nest("![", "](a)", size),
    "unclosed images": |size| fill("![[]()", size),
    "links": |size| fill("[a](b) ", size),
    "links in images": |size| format!("![{}](b)", fill("[a](b)", size)),
    "images in links in images": |size| nest("[![", "](a)](b)", size),
    "unclosed destinations": |size| fill("[a](<b", size),
    "unclosed titles": |size| fill("[a](b \"c ", size),
    "references without definition": |size| fill("[a][b]", size),
    "references": |size| "[a]: /b\n\n".to_string() + &fill("[a]", size),
    "a long destination that is used often": |size| {
        format!("[a]: /{}\n\n{}", fill("b", size / 100), fill("[a] ", size / 100))
    },
    "a long title that is used often": |size| {
        format!("[a]: b '{}'\n\n{}", fill("\"", size / 100), fill("![a]", size / 100))
    },
    "a long label that is used often": |size| {
        let label = "a".repeat(900);
        format!("[{label}]: b\n\n{}", fill(&format!("[{label}]"), size))
    },
    "definitions": |size| (0..size / 10).map(|each| format!("[{each}]: a\n")).collect(),
    "definitions, each with a link": |size| {
        (0..size / 18).map(|each| format!("[{each}]: a\n[{each}]\n\n")).collect()
    },
    "one definition again": |size| fill("[a]: b\n", size),
    "stars": |size| fill("*", size),
    "emphasis that opens": |size| fill("*a ", size),
    "emphasis that closes": |size| fill("a* ", size),
    "emphasis in emphasis": |size| nest("*a ", " a*", size),
    "emphasis of two kinds": |size| fill("*a _b", size),
    "emphasis of two kinds in one another": |size| nest("*_", "_*", size),
    "strong in strong": |size| nest("**a ", " a**", size),
    "triple stars": |size| fill("a***b", size),
    "tildes": |size| fill("~~a ", size),
    "single tildes": |size| fill("~a ", size),
    "backquotes, more and more": |size| {
        let most = (1..).take_while(|each| each * each < 2 * size).count();
        (1..most).map(|each| format!("{} ", "`".repeat(each))).collect()
    },
    "backquotes": |size| fill("`a``b", size),
    "unclosed comments": |size| fill("<!-- ", size),
    "unclosed instructions": |size| fill("a <?", size),
    "unclosed declarations": |size| fill("a <!A ", size),
    "unclosed CDATA": |size| fill("a <![CDATA[", size),
    "unclosed tags": |size| fill("a <b c=\"", size),
    "attributes": |size| "<a".to_string() + &fill(" b", size),
    "angle brackets": |size| fill("<", size),
    "tags": |size| fill("<b>", size),
    "HTML blocks": |size| fill("<div>\n\n", size),
    "backslashes": |size| fill("\\a\\*", size),
    "ampersands": |size| fill("&a", size),
    "references by name": |size| fill("&amp;", size),
    "a wide table": |size| {
        format!("{}\n{}\n{}", fill("|a", size / 4), fill("|-", size / 4), fill("b\n", size / 2))
    },
    "a long table": |size| "|a|b|\n|-|-|\n".to_string() + &fill("|c|d|\n", size),
    "dropped cells": |size| "|a|\n|-|\n".to_string() + &fill("|b", size),
    "dropped cells of many rows": |size| "|a|\n|-|\n".to_string() + &fill("|b|c|d|e|f|g|h\n", size),
    "cells without bytes": |size| {
        "|".repeat(size / 4) + "\n" + &fill("|-", size / 4) + "\n" + &"|".repeat(size / 4)
    },
    "cells in the middle": |size| {
        format!("{}\n{}\n{}", fill("|a", size / 6), fill("|:-:", size / 3), fill("b\n", size / 2))
    },
    "tables": |size| fill("|a|\n|-|\n\n", size),
    "pipes": |size| fill("|", size),
    "a paragraph of pipes": |size| fill("|a", size) + "\n|-",
    "lines of pipes": |size| fill("a|b\n", size),
    "delimiter rows": |size| fill("|-|-|\n", size),
    "short rows in a quote": |size| {
        let head = format!("> {}\n> {}\n", fill("|a", size / 8), fill("|-", size / 8));
        head + &fill("> b\n", size / 2)
    },
    "footnotes": |size| {
        (0..size / 20).map(|each| format!("[^{each}]\n\n[^{each}]: a\n\n")).collect()
    },
    "calls of one footnote": |size| "[^a]: b\n\n".to_string() + &fill("[^a]", size),
    "footnotes in a row": |size| {
        let footnote = |each: usize| format!("[^{each}]: [^{}]\n\n", each + 1);
        (0..size / 18).map(footnote).collect::<String>() + "[^0]"
    },
    "footnotes without a call": |size| {
        (0..size / 11).map(|each| format!("[^{each}]: \n")).collect()
    },
    "headings in footnotes in one another": |size| {
        fill("[^a]:#\n", size / 2) + &fill("# b\n", size / 2)
    },
    "a long footnote's label": |size| format!("[^{0}]: a\n\n[^{0}]", "b".repeat(size / 2)),
    "calls without a footnote": |size| fill("[^a]", size),
    "footnotes in footnotes": |size| fill("[^a]: ", size) + "b",
    "footnotes in quotes": |size| fill("[^a]: > ", size) + "b",
    "bare URLs": |size| fill("https://a.org/b ", size),
    "one long bare URL": |size| "https://a.org/".to_string() + &fill("b.c(", size),
    "www and brackets": |size| fill("www.a.b((", size),
    "www, opening and closing brackets": |size| nest("www.a.b(", ")", size),
    "www and closing brackets": |size| "www.a.b".to_string() + &fill(")", size),
    "www and references": |size| "www.a.b".to_string() + &fill("&a;", size),
    "addresses": |size| fill("a@b.c ", size),
    "a long address": |size| fill("a", size) + "@b.c",
    "at signs": |size| fill("a@", size),
    "dots": |size| fill("www.", size),
    "schemes": |size| fill("a://", size),
    "headings": |size| fill("# a\n", size),
    "underlines": |size| fill("a\n=\n", size),
    "hashes": |size| fill("#", size),
    "rules": |size| fill("***\n", size),
    "fences": |size| fill("```\n", size),
    "an unclosed fence": |size| "```\n".to_string() + &fill("a\n", size),
    "indented code": |size| fill("    a\n", size),
    "hard breaks": |size| fill("a  \n", size),
    "blank lines": |size| fill("\n", size),
    "spaces": |size| fill(" ", size),
    "carriage returns": |size| fill("a\r", size),
    "tabs": |size| fill("\t", size),
    "tabs in a list": |size| "- ".to_string() + &fill("\t", size) + "a",
    "NUL": |size| fill("\0", size),
    "references to NUL": |size| fill("&#0;", size),
    "characters of four bytes": |size| fill("\u{1fa90}", size),
    "tasks": |size| fill("- [x] a\n", size),
};
