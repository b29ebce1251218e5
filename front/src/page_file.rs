//! The page of a batch as a file: made beside its place and put there once it is whole.
use super::answers::Answers;
use super::batch;
use super::files::{Place, PAGE};
use super::job_text::{self, Jobs};
use super::page::{write, Drawings, Source, Totals};
use super::programs::{of, Fault, Programs};
use super::reader::{bytes_of, called, is_stream, no_text};
use std::ffi::OsString;
use std::io::BufWriter;
use std::path::{Path, PathBuf};
use std::sync::Arc;

pub const HELP: &str = "\
usage: foldflake page [--drawings N|all] [--text JOBS] BATCH SHEET.html

Writes the sheet of a batch as one page that any browser opens without a network and that prints on A4; BATCH may be - for standard input.
  --drawings N     drawings for so many worked blocks, or for all: S that are not clear first, then the others that need a look, then the rest;
                   500 where nothing is said, and more where more S are not clear
  --text JOBS      the text that the batch was made of: its unit and the jobs' names stand on the page; it has to be of this batch, block by block
A file of another kind that has the page's name is kept as SHEET.html.old. What fails is told, the exit status is 2, and there is no half page.
";

/// What a page needs beside `sheet` and `clearance`.
pub const ASKED: [&str; 2] = ["rooms", "gaps"];

/// What `page` is asked for.
struct Asked {
    drawings: Drawings,
    text: Option<PathBuf>,
    batch: PathBuf,
    sheet: PathBuf,
}

pub fn run(words: Vec<OsString>) -> Result<u8, Fault> {
    let Asked { drawings, text, batch, sheet } = arguments(words)?;
    let bytes = Arc::new(bytes_of(&batch)?);
    no_text(&batch, &bytes)?;
    let jobs = text.as_deref().map(|text| text_of(text, &batch, &bytes)).transpose()?;
    let mut read = vec![(batch.as_path(), "batch")];
    read.extend(text.as_deref().map(|text| (text, "text")));
    let place = Place::new(&sheet, &PAGE, &read)?;
    let told = Programs::found()?.answers(&bytes, &ASKED)?;
    made(&told, &name_of(&batch), &bytes, jobs.as_ref(), drawings, &place, &called(&sheet))?;
    Ok(0)
}

/// What a page calls its batch.
pub fn name_of(batch: &Path) -> String {
    match is_stream(batch) {
        true => "standard input".to_string(),
        false => batch.file_name().unwrap_or(batch.as_os_str()).to_string_lossy().into_owned(),
    }
}

/// Makes the page from what the programs told of the batch, and tells what it counts.
pub fn made(
    told: &[Answers],
    name: &str,
    bytes: &[u8],
    jobs: Option<&Jobs>,
    drawings: Drawings,
    place: &Place,
    called: &str,
) -> Result<Totals, Fault> {
    let names = jobs.iter().flat_map(|jobs| jobs.jobs.iter().map(|job| job.title())).collect();
    let source = Source { name, bytes, unit: jobs.map_or("", |jobs| &jobs.unit), names };
    let totals = place.filled(|file| {
        let mut out = BufWriter::with_capacity(1 << 16, file);
        let written = write(told, &source, drawings, &mut out).and_then(|totals| out.into_inner().map(|_| totals).map_err(|error| error.into_error()));
        written.map_err(of(called))
    })?;
    totals.said().iter().for_each(|line| eprintln!("{called}: {line}"));
    Ok(totals)
}

fn arguments(words: Vec<OsString>) -> Result<Asked, Fault> {
    let usage = || Fault::Usage("a batch and a page are named".to_string());
    let (mut drawings, mut text, mut names) = (Drawings::Usual, None, Vec::new());
    let mut words = words.into_iter();
    while let Some(word) = words.next() {
        let said = word.to_string_lossy().into_owned();
        match (said.as_str(), names.is_empty()) {
            ("--drawings", true) => {
                let most = words.next().and_then(|most| most.into_string().ok()).ok_or_else(usage)?;
                drawings = if most == "all" { Drawings::All } else { Drawings::Most(most.parse().map_err(|_| usage())?) };
            }
            ("--text", true) => text = Some(PathBuf::from(words.next().ok_or_else(usage)?)),
            _ => match super::reader::option_fault(&said) {
                Some(what) => return Err(Fault::Said(what)),
                None => names.push(PathBuf::from(word)),
            },
        }
    }
    match <[PathBuf; 2]>::try_from(names) {
        Ok([_, sheet]) if is_stream(&sheet) => Err(Fault::Said("-: a page is a file, and no standard stream".to_string())),
        Ok([batch, sheet]) => Ok(Asked { drawings, text, batch, sheet }),
        Err(_) => Err(usage()),
    }
}

/// The text of a batch, which has to be that batch's.
fn text_of(text: &Path, batch: &Path, bytes: &[u8]) -> Result<Jobs, Fault> {
    let refused = |why: String| Err(Fault::Said(format!("{}: {why}", text.display())));
    let jobs = match job_text::read(&bytes_of(text)?) {
        Ok(jobs) => jobs,
        Err(faults) => return refused(faults.iter().map(ToString::to_string).collect::<Vec<_>>().join("; ")),
    };
    let blocks: Vec<batch::Part> = batch::parts(bytes).collect();
    let same = |(job, part): (&job_text::Written, &batch::Part)| matches!(part, batch::Part::Block(block) if job.is(block));
    let first = jobs.jobs.iter().zip(&blocks).position(|pair| !same(pair));
    match first {
        Some(i) => refused(format!("it is not the text of {}: block {} is another job", batch.display(), i + 1)),
        None if jobs.jobs.len() != blocks.len() => {
            refused(format!("it is not the text of {}: {} jobs, and {} blocks", batch.display(), jobs.jobs.len(), blocks.len()))
        }
        None => Ok(jobs),
    }
}
