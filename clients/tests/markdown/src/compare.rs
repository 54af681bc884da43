//! The comparison with pulldown-cmark's own renderer.

use crate::judge::{judge, options};
use bivdrazo::{events_of, Options};
use pulldown_cmark::Parser;
use std::collections::BTreeMap;
use std::error::Error;
use std::fs;
use std::io::{self, BufRead};

/// The number of faults that are printed in full.
const SHOWN: usize = 10;

/// How many documents have each class.
type Counts = BTreeMap<String, usize>;

/// Compares the documents of standard input, and their counts with a list, or writes the counts
/// into it. Returns whether there is no other difference.
pub fn run(list: &str, is_write: bool) -> Result<bool, Box<dyn Error>> {
    let documents = read_documents(&mut io::stdin().lock())?;
    let mut counts = Counts::new();
    let mut faults = Vec::new();
    for (number, document) in documents.iter().enumerate() {
        let text = String::from_utf8_lossy(document);
        let (classes, fault) = compare(&text);
        for class in classes {
            *counts.entry(class.to_string()).or_insert(0) += 1;
        }
        faults.extend(fault.map(|fault| format!("document {number}: {text:?}\n{fault}")));
    }
    faults
        .iter()
        .take(SHOWN)
        .for_each(|fault| println!("{fault}"));
    if is_write {
        fs::write(list, with_counts(&fs::read_to_string(list)?, &counts))?;
    }
    let is_listed = fs::read_to_string(list)? == with_counts(&fs::read_to_string(list)?, &counts);
    println!(
        "{}",
        with_counts(&fs::read_to_string(list)?, &counts).trim_end()
    );
    println!(
        "pulldown-cmark: {} documents, {} faults",
        documents.len(),
        faults.len()
    );
    if !is_listed {
        println!("{list} has other counts");
    }
    Ok(faults.is_empty() && is_listed)
}

/// The frames of an input.
fn read_documents(input: &mut impl BufRead) -> Result<Vec<Vec<u8>>, Box<dyn Error>> {
    let mut documents = Vec::new();
    let mut line = String::new();
    while input.read_line(&mut line)? > 0 {
        let mut document = vec![0; line.trim_end().parse()?];
        input.read_exact(&mut document)?;
        documents.push(document);
        line.clear();
    }
    Ok(documents)
}

/// The classes of a document, and the fault of its text.
fn compare(text: &str) -> (Vec<&'static str>, Option<String>) {
    let judged = judge(text);
    let events = Parser::new_ext(text, options()).into_offset_iter();
    let html = match events_of(events).compile(&Options::default()) {
        Ok(html) => html,
        Err(error) => return (Vec::new(), Some(format!("  {error}"))),
    };
    let mut classes = judged.classes;
    if html == judged.plain {
        classes.push("equal");
    }
    (classes, difference(&judged.wanted, &html))
}

/// The difference of a text from the expected one.
fn difference(wanted: &str, text: &str) -> Option<String> {
    (wanted != text).then(|| format!("  wanted {wanted:?}\n  is     {text:?}"))
}

/// The list's lines, each with its count: the class, the count, and why.
fn with_counts(list: &str, counts: &Counts) -> String {
    let line = |line: &str| {
        let mut words = line.splitn(3, ' ');
        match (
            line.starts_with('#'),
            words.next(),
            words.next(),
            words.next(),
        ) {
            (false, Some(class), Some(_), Some(why)) => {
                format!("{class} {} {why}\n", counts.get(class).unwrap_or(&0))
            }
            _ => format!("{line}\n"),
        }
    };
    list.lines().map(line).collect()
}
