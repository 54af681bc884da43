//! bivdrazo-render: Markdown in, safe HTML out.

mod arguments;
mod check;
mod failures;
mod files;
mod found;
mod front;
mod links;
mod list;
mod nav;
mod page;
mod parser;
mod plan;
mod progress;
mod quiet;
mod render;
mod script;
mod site;
mod sitemap;
mod skipped;
mod spool;
mod summary;
mod text;
mod tree;
mod watch;

use arguments::Arguments;
use failures::{process, status_of, Failed, Failure, FAILED};
use page::Page;
use rayon::prelude::*;
use std::path::Path;
use std::process::ExitCode;
use summary::{Done, Outcome};

fn main() -> ExitCode {
    let arguments = Arguments::read();
    let outcome = run(&arguments).unwrap_or_else(|error| {
        let message = error.to_string();
        let status = FAILED;
        Outcome::of(vec![Failed { message, status }])
    });
    let failed = &outcome.failed;
    outcome.warnings.iter().for_each(|each| files::report(each));
    failed.iter().for_each(|each| files::report(&each.message));
    outcome
        .summary()
        .iter()
        .for_each(|line| files::report(line));
    ExitCode::from(status_of(failed))
}

/// Does what the arguments say, and returns the result for each file.
fn run(arguments: &Arguments) -> Result<Outcome, Failure> {
    if let Some(shell) = arguments.completions {
        render::print(&[&Arguments::completions(shell)])?;
        return Ok(Outcome::default());
    }
    if arguments.check_html {
        return Ok(Outcome::of(check::failed(arguments)));
    }
    let page = Page::of(arguments)?;
    if let (Some(folder), Some(site)) = (arguments.folder(), &arguments.out_dir) {
        return match arguments.watch {
            true => watch::make(arguments, page, folder, site),
            false => site::make(arguments, &page, folder, site, false),
        };
    }
    let mut outcome = Outcome::default();
    match &arguments.out_dir {
        Some(folder) => {
            let targets = files::targets(&arguments.files, folder)?;
            let bar = progress::bar(targets.len());
            let jobs = arguments.files.par_iter().zip(&targets);
            let done = jobs.map(|(source, target)| {
                let work = || render(arguments, &page, source, Some(target));
                let done = process(|| source.display().to_string(), work);
                bar.inc(1);
                done
            });
            let done: Vec<Result<Done, Failed>> = done.collect();
            bar.finish_and_clear();
            outcome.is_summed = targets.len() > 1;
            done.into_iter().for_each(|one| outcome.add(one));
        }
        None => {
            let source = arguments.source();
            let work = || render(arguments, &page, source, arguments.output.as_deref());
            outcome.add(process(|| files::name(source), work));
        }
    }
    Ok(outcome)
}

/// Renders one file, to standard output if it has no target.
fn render(
    arguments: &Arguments,
    page: &Page,
    source: &Path,
    target: Option<&Path>,
) -> Result<Done, Failure> {
    if let Some(target) = target.filter(|target| files::is_same(source, target)) {
        return Err(format!("{}: is the document itself", target.display()).into());
    }
    let read = render::read(arguments, files::open(source)?)?;
    for fault in &read.front.faults {
        files::report(&format!("{}: {fault}", source.display()));
    }
    read.write(arguments, page, source, target)?;
    Ok(Done::Written)
}
