//! The arguments of the command.

use crate::files;
use crate::parser::ParserLimits;
use bivdrazo::{
    default_work, Attributes, CleanOptions, DocumentHtml, Limits, MarkdownOptions, Options,
};
use clap::error::ErrorKind;
use clap::{value_parser, CommandFactory, Parser, ValueEnum, ValueHint};
use clap_complete::Shell;
use globset::{Glob, GlobBuilder};
use std::env;
use std::path::{Path, PathBuf};
use std::process;

/// The value of `--heading-ids` for ids that are made of the headings' texts.
const SLUG: &str = "slug";

/// The default limit on the nesting of events of cmark-gfm's parser: elements then nest at most 485
/// deep, and browsers flatten elements that nest deeper than 512.
const MOST_DEPTH: usize = 240;

/// The level of the lowest headings in a table of contents by default.
const TOC_DEPTH: u8 = 3;

/// Renders Markdown as safe HTML.
///
/// Reads tables, strikethrough, tasks, footnotes and bare links, and math with --math. Links and
/// images whose protocol isn't permitted get an empty URL. The exit status is 0 if every file was
/// rendered; 1 if a file failed (the others are written); 2 for invalid arguments; 5 if files
/// failed only because of --max-output, 6 if only because of --max-work, 7 if only because of
/// --check-html.
#[derive(Debug, Parser)]
#[command(name = "bivdrazo-render", version = bivdrazo::VERSION_TEXT)]
pub struct Arguments {
    /// The files to render; standard input if there is none or it is -. Several files need
    /// --out-dir or --check-html. A single folder, with --out-dir, is made into a site: each *.md
    /// becomes a page, with links to the others, and the files that pages link to are copied.
    #[arg(value_name = "FILE", value_hint = ValueHint::FilePath)]
    pub files: Vec<PathBuf>,

    /// Write to this file instead of standard output.
    #[arg(short, long, value_name = "FILE", value_hint = ValueHint::FilePath,
        conflicts_with = "out_dir")]
    pub output: Option<PathBuf>,

    /// Write each page to this folder, with the ending .html; uses all processors.
    #[arg(long, value_name = "DIR", value_hint = ValueHint::DirPath, requires = "files")]
    pub out_dir: Option<PathBuf>,

    /// For a folder: keep running and follow the folder, the template and the style, until Ctrl-C.
    #[arg(long, requires = "out_dir")]
    pub watch: bool,

    /// For a folder: leave the pages and copies in the site that the folder no longer gives.
    #[arg(long, requires = "out_dir")]
    pub keep: bool,

    /// For a folder: publish also drafts, and names that begin with _.
    #[arg(long, requires = "out_dir")]
    pub drafts: bool,

    /// For a folder: leave out the files and folders that match, such as '*.draft.md' or
    /// /internal; may be given several times.
    #[arg(long, value_name = "PATTERN", value_parser = pattern, requires = "out_dir")]
    pub exclude: Vec<Glob>,

    /// Write a complete page, with this title if the front matter has none.
    #[arg(long, value_name = "TITLE")]
    pub page: Option<String>,

    /// Write a complete page from this template, with the places {{content}}, {{title}}, {{toc}},
    /// {{lang}} and {{style}}; for a folder also {{nav}}, {{prev}}, {{next}}, {{up}} and {{root}}.
    #[arg(long, value_name = "FILE", value_hint = ValueHint::FilePath)]
    pub page_template: Option<PathBuf>,

    /// Leave out front matter and use its title; always on for a folder.
    #[arg(long)]
    pub front_matter: bool,

    /// The language of the page, such as en.
    #[arg(long, value_name = "LANG")]
    pub lang: Option<String>,

    /// The style of the page: a CSS file, or none; by default a small style.
    #[arg(long, value_name = "FILE|none", value_hint = ValueHint::FilePath)]
    pub css: Option<PathBuf>,

    /// The prefix of the ids of footnotes; by default user-content-.
    #[arg(long, value_name = "TEXT")]
    pub footnote_prefix: Option<String>,

    /// The heading of the footnotes; by default Footnotes.
    #[arg(long, value_name = "TEXT")]
    pub footnote_label: Option<String>,

    /// The label of the link back from a footnote; by default Back to content.
    #[arg(long, value_name = "TEXT")]
    pub footnote_back_label: Option<String>,

    /// Use numbers in the ids of footnotes, so that no two ids are equal.
    #[arg(long)]
    pub number_ids: bool,

    /// The rel of each link to another page.
    #[arg(long, value_name = "TEXT")]
    pub rel: Option<String>,

    /// Give each heading an id: with slug, an id made from its text, nearly as GitHub makes it;
    /// otherwise this prefix and the number of the heading.
    #[arg(long, value_name = "slug|PREFIX")]
    pub heading_ids: Option<String>,

    /// Write a table of contents before the text, or at {{toc}} in a --page-template. Without
    /// --heading-ids, headings get ids made from their texts.
    #[arg(long)]
    pub toc: bool,

    /// The level of the lowest headings in the table of contents, from 1 to 6; by default 3.
    #[arg(long, value_name = "LEVEL", value_parser = value_parser!(u8).range(1..=6),
        requires = "toc")]
    pub toc_depth: Option<u8>,

    /// Write a line break for each line ending in a paragraph.
    #[arg(long)]
    pub hard_breaks: bool,

    /// Don't make links of bare URLs and addresses.
    #[arg(long)]
    pub no_bare_links: bool,

    /// Read math between $ or $$; it is written unchanged, as code with the class language-math.
    #[arg(long)]
    pub math: bool,

    /// Don't read footnotes.
    #[arg(long)]
    pub no_footnotes: bool,

    /// Don't read tables.
    #[arg(long)]
    pub no_tables: bool,

    /// How to treat HTML in the document: by default text, for a folder kept-or-text.
    #[arg(long, value_enum)]
    pub html: Option<Html>,

    /// The base URL of relative URLs in links and images. For a folder: the URL of the site, with
    /// which a sitemap.xml is written.
    #[arg(long, value_name = "URL")]
    pub base: Option<String>,

    /// The parser. That of cmark-gfm, which is written in C, runs as a separate process with
    /// limits.
    #[arg(long, value_enum, default_value_t = ParserName::Bivdrazo)]
    pub parser: ParserName,

    /// The limit on the processor time of cmark-gfm's parser, by default 10; the limit on elapsed
    /// time is three times as long.
    #[arg(long, value_name = "SECONDS", value_parser = value_parser!(u32).range(1..))]
    pub parser_seconds: Option<u32>,

    /// The limit on the memory of cmark-gfm's parser, and on that of its events; by default 512.
    #[arg(long, value_name = "MEGABYTES", value_parser = value_parser!(u32).range(1..))]
    pub parser_memory: Option<u32>,

    /// The limit on the length of a document.
    #[arg(long, value_name = "BYTES")]
    pub max_input: Option<usize>,

    /// The limit on the length of a document's HTML; the exit status is 5 if it is exceeded.
    #[arg(long, value_name = "BYTES")]
    pub max_output: Option<usize>,

    /// The limit on the work for a document: the bytes to read and to print in the parser's events;
    /// by default 2^20, and 64 for each byte of the document. The exit status is 6 if it is
    /// exceeded.
    #[arg(long, value_name = "BYTES")]
    pub max_work: Option<usize>,

    /// The limit on open nodes: a document that nests deeper is shown as it is written. With
    /// cmark-gfm's parser it fails instead, and the default is 240. 0: no limit.
    #[arg(long, value_name = "NODES")]
    pub max_depth: Option<usize>,

    /// Render nothing: read the files as HTML that anyone may have written. The exit status is 0 if
    /// each is safe, 7 if one isn't. Only --max-input can be used with it.
    #[arg(long, conflicts_with_all = ["output", "out_dir", "page", "page_template",
        "front_matter", "lang", "css", "footnote_prefix", "footnote_label",
        "footnote_back_label", "number_ids", "rel", "heading_ids", "toc", "hard_breaks",
        "no_bare_links", "math", "no_footnotes", "no_tables", "html", "base", "parser",
        "parser_seconds", "parser_memory", "max_output", "max_work", "max_depth"])]
    pub check_html: bool,

    /// Read the file as HTML that anyone may have written, in place of Markdown, and write the
    /// listed elements and attributes of it, as safe HTML.
    #[arg(long, conflicts_with_all = ["out_dir", "check_html", "front_matter", "footnote_prefix",
        "footnote_label", "footnote_back_label", "number_ids", "rel", "heading_ids", "toc",
        "hard_breaks", "no_bare_links", "math", "no_footnotes", "no_tables", "html", "base",
        "parser", "parser_seconds", "parser_memory", "max_work", "max_depth"])]
    pub clean_html: bool,

    /// With --clean-html: the names of the elements that stay, such as "a b p"; by default all that
    /// are listed.
    #[arg(long, value_name = "NAMES", requires = "clean_html")]
    pub tags: Option<String>,

    /// With --clean-html: the protocols that URLs may have, such as "http https"; by default http,
    /// https, irc, ircs, mailto and xmpp.
    #[arg(long, value_name = "NAMES", requires = "clean_html")]
    pub protocols: Option<String>,

    /// Print a completion script for this shell, and render nothing.
    #[arg(long, value_name = "SHELL", value_enum, exclusive = true)]
    pub completions: Option<Shell>,

    /// Whether the only file is a folder, which is made into a site.
    #[arg(skip)]
    is_site: bool,
}

/// A parser of Markdown.
#[derive(Clone, Copy, Debug, Eq, PartialEq, ValueEnum)]
pub enum ParserName {
    /// Bivdrazo's own, which is proved to end for every document.
    Bivdrazo,
    /// That of cmark-gfm, whose GFM is exact.
    CmarkGfm,
}

/// How to treat HTML in the document.
#[derive(Clone, Copy, Debug, Eq, PartialEq, ValueEnum)]
pub enum Html {
    /// Print it as text.
    Text,
    /// Leave it out.
    LeftOut,
    /// Leave out comments, and print the rest as text.
    WithoutComments,
    /// Keep the tags that authors may write, and leave out the rest.
    Kept,
    /// Keep these tags, and print the rest as text, without comments.
    KeptOrText,
}

impl Arguments {
    /// Reads the arguments. Exits if they are invalid, or only ask for help or the version.
    pub fn read() -> Arguments {
        let mut arguments = Arguments::try_parse().unwrap_or_else(|error| {
            // An error shows arguments, which can be names of files with control characters.
            let shown = env::args_os().map(|each| files::in_one_line(&each.to_string_lossy()));
            let shown = Arguments::try_parse_from(shown);
            end(&shown.err().unwrap_or(error))
        });
        arguments.is_site = match (&arguments.files[..], &arguments.out_dir) {
            ([folder], Some(_)) => folder.is_dir(),
            _ => false,
        };
        let is_alone = arguments.out_dir.is_none() && !arguments.check_html;
        if arguments.files.len() > 1 && is_alone {
            let message = "several files need --out-dir <DIR>";
            end(&Arguments::command().error(ErrorKind::MissingRequiredArgument, message));
        }
        if (arguments.lang.is_some() || arguments.css.is_some()) && !arguments.wants_page() {
            let message = "--lang and --css need --page, --page-template or a folder";
            end(&Arguments::command().error(ErrorKind::MissingRequiredArgument, message));
        }
        if let Some(option) = arguments.of_folder().filter(|_| !arguments.is_site) {
            let message = format!("{option} needs a folder");
            end(&Arguments::command().error(ErrorKind::MissingRequiredArgument, message));
        }
        if let Some(option) = arguments.of_another_parser() {
            let message = format!("{option} can't be used with this --parser");
            end(&Arguments::command().error(ErrorKind::ArgumentConflict, message));
        }
        let base = arguments.base.as_deref().filter(|_| arguments.is_site);
        if base.map_or(false, |base| !is_whole(base)) {
            let message = "--base of a folder is the URL of the site, such as https://x.org/docs/";
            end(&Arguments::command().error(ErrorKind::ValueValidation, message));
        }
        arguments
    }

    /// The folder that is made into a site, if there is one.
    pub fn folder(&self) -> Option<&Path> {
        self.is_site.then(|| self.source())
    }

    /// A given option that only a folder has.
    fn of_folder(&self) -> Option<&'static str> {
        let options = [
            ("--watch", self.watch),
            ("--keep", self.keep),
            ("--drafts", self.drafts),
            ("--exclude", !self.exclude.is_empty()),
        ];
        let given = options.into_iter().find(|(_, is_given)| *is_given);
        given.map(|(option, _)| option)
    }

    /// Whether a complete page is written.
    pub fn wants_page(&self) -> bool {
        self.page.is_some() || self.page_template.is_some() || self.is_site
    }

    /// Whether front matter is left out.
    pub fn has_front_matter(&self) -> bool {
        self.front_matter || self.is_site
    }

    /// The completion script for a shell.
    pub fn completions(shell: Shell) -> String {
        let mut script = Vec::new();
        let name = env!("CARGO_PKG_NAME");
        clap_complete::generate(shell, &mut Arguments::command(), name, &mut script);
        String::from_utf8_lossy(&script).into_owned()
    }

    /// An option that the chosen parser doesn't support.
    fn of_another_parser(&self) -> Option<&'static str> {
        let options = match self.parser {
            ParserName::Bivdrazo => vec![
                ("--parser-seconds", self.parser_seconds.is_some()),
                ("--parser-memory", self.parser_memory.is_some()),
            ],
            ParserName::CmarkGfm => vec![
                ("--hard-breaks", self.hard_breaks),
                ("--no-bare-links", self.no_bare_links),
                ("--html", self.html.map_or(false, |html| html != Html::Text)),
                ("--base", self.base.is_some()),
                ("--math", self.math),
                ("--no-footnotes", self.no_footnotes),
                ("--no-tables", self.no_tables),
                ("--toc", self.toc),
                ("--heading-ids slug", self.has_slugs()),
            ],
        };
        let given = options.into_iter().find(|(_, is_given)| *is_given);
        given.map(|(option, _)| option)
    }

    /// The limits of cmark-gfm's parser.
    pub fn parser_limits(&self) -> ParserLimits {
        ParserLimits {
            seconds: self.parser_seconds.unwrap_or(10),
            megabytes: self.parser_memory.unwrap_or(512),
        }
    }

    /// The library's options for the events of a parser; they are safe.
    pub fn library_options(&self) -> Options {
        let mut options = Options::default().with_gfm_footnote_number_ids(self.number_ids);
        options.gfm_footnote_clobber_prefix = self.footnote_prefix.clone();
        options.gfm_footnote_label = self.footnote_label.clone();
        options.gfm_footnote_back_label = self.footnote_back_label.clone();
        options
    }

    /// Whether the ids of headings are made from their texts.
    pub fn has_slugs(&self) -> bool {
        match self.heading_ids.as_deref() {
            None => self.toc,
            Some(asked) => asked == SLUG,
        }
    }

    /// The level of the lowest headings in a table of contents.
    pub fn toc_depth(&self) -> u8 {
        self.toc_depth.unwrap_or(TOC_DEPTH)
    }

    /// Whether headings get ids.
    pub fn has_heading_ids(&self) -> bool {
        self.heading_ids.is_some() || self.toc
    }

    /// The attributes to add to the tags of a text.
    pub fn attributes(&self) -> Attributes {
        let mut attributes = Attributes::default();
        attributes.rel = self.rel.clone();
        attributes.heading_ids = self.heading_ids.clone();
        attributes
    }

    /// The limits on the text, on the work and on the nesting of a parser's events, for a document
    /// of this length.
    pub fn limits(&self, length: usize) -> Limits {
        Limits::default()
            .with_text(self.max_output.unwrap_or(usize::MAX))
            .with_work(self.max_work.unwrap_or_else(|| default_work(length)))
            .with_depth(self.max_depth.unwrap_or(MOST_DEPTH))
    }

    /// The file to render; `-` is standard input.
    pub fn source(&self) -> &Path {
        self.files.first().map_or(Path::new("-"), PathBuf::as_path)
    }

    /// All files; `-` is standard input.
    pub fn sources(&self) -> Vec<&Path> {
        match self.files.is_empty() {
            true => vec![self.source()],
            false => self.files.iter().map(PathBuf::as_path).collect(),
        }
    }

    /// The options for cleaning HTML.
    pub fn clean_options(&self) -> CleanOptions {
        let mut options = CleanOptions::default();
        options.tags = self.tags.clone();
        options.protocols = self.protocols.clone();
        options.max_output = self.max_output;
        options
    }

    /// The options of the library's own parser.
    pub fn options(&self) -> MarkdownOptions {
        let mut options = MarkdownOptions::default()
            .with_hard_breaks(self.hard_breaks)
            .with_bare_links(!self.no_bare_links)
            .with_math(self.math)
            .with_footnotes(!self.no_footnotes)
            .with_tables(!self.no_tables)
            .with_number_ids(self.number_ids);
        options.html = match self.html {
            None if self.is_site => DocumentHtml::KeptOrText,
            None | Some(Html::Text) => DocumentHtml::Text,
            Some(Html::LeftOut) => DocumentHtml::LeftOut,
            Some(Html::WithoutComments) => DocumentHtml::WithoutComments,
            Some(Html::Kept) => DocumentHtml::Kept,
            Some(Html::KeptOrText) => DocumentHtml::KeptOrText,
        };
        options.footnote_prefix = self.footnote_prefix.clone();
        options.footnote_label = self.footnote_label.clone();
        options.footnote_back_label = self.footnote_back_label.clone();
        options.base = self.base.clone().filter(|_| !self.is_site);
        options.rel = self.rel.clone();
        options.heading_slugs = self.has_slugs();
        options.heading_ids = self.heading_ids.clone().filter(|asked| asked != SLUG);
        options.max_input = self.max_input;
        options.max_output = self.max_output;
        options.max_work = self.max_work;
        options.max_depth = self.max_depth;
        options
    }
}

/// The pattern of an `--exclude`: with a `/` before its end it is that of a path from the folder,
/// otherwise that of a name in any folder.
fn pattern(text: &str) -> Result<Glob, String> {
    let path = text.strip_suffix('/').unwrap_or(text);
    let anchored = match path.strip_prefix('/') {
        Some(path) => path.to_string(),
        None if path.contains('/') => path.to_string(),
        None => format!("**/{path}"),
    };
    if path.trim_start_matches('/').is_empty() {
        return Err("it is empty".to_string());
    }
    let glob = GlobBuilder::new(&anchored).literal_separator(true).build();
    glob.map_err(|error| error.kind().to_string())
}

/// Whether a URL is whole: http or https, a host, and neither a query nor a fragment.
fn is_whole(url: &str) -> bool {
    let rest = ["https://", "http://"]
        .into_iter()
        .find_map(|scheme| url.strip_prefix(scheme));
    let host = rest.and_then(|rest| rest.split('/').next()).unwrap_or("");
    let is_part = |each: char| each.is_ascii_graphic() && !"?#\"<>\\^`{|}".contains(each);
    !host.is_empty() && url.chars().all(is_part)
}

/// Prints an error of the arguments, the help or the version, and exits.
fn end(message: &clap::Error) -> ! {
    let printed = message.print();
    process::exit(match printed {
        _ if message.use_stderr() => 2,
        Ok(()) => 0,
        Err(error) => {
            files::report(&format!("standard output: {error}"));
            1
        }
    })
}
