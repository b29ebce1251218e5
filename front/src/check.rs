//! `check`: what is proved of each job's whole move, in a line of words.
use super::answers::{Answers, Proved};
use super::batch::{faults, parts, read, Job, Part, Status, Verdict};
use super::files::{Place, PAGE};
use super::job_text::{self, Jobs};
use super::page::{reason, Drawings};
use super::page_file::{made, name_of, ASKED};
use super::programs::{of, Fault, Input, Programs};
use super::proved::Known;
use super::reader::{self, bytes_of, called};
use super::words::rounded;
use std::ffi::OsString;
use std::fmt::Write;
use std::path::{Path, PathBuf};
use std::sync::Arc;

pub const HELP: &str = "\
usage: foldflake check [--page PAGE.html] [--rooms] JOBS.txt|BATCH ..

Tells of each job, in a line of words, what is proved of its whole move: clear, with a distance that the bodies keep; not clear, with the part of the move
up to which they are and by when they are not; not settled; or refused. Then what the search says, with a warning where the two do not agree. The last line
counts; over several files a table of the search's letters against the proved verdicts follows. A file with a zero byte is a batch, another one jobs as text
(`foldflake jobtext --help` lists the names); - stands for standard input.
  --page PAGE.html   writes the page too, of one file
  --rooms            asks for the distances of more than 5,000 blocks too, which takes its time; else a clear job of so many tells the slop alone
The exit status is 0 where every job is proved clear, 1 where one is not, 2 where something fails or no job came.
";

/// How many blocks are asked for their room unless more are meant.
const ROOMS: usize = 5000;

/// How much of the move a hit may be told after the proved contact without a warning: the search stops within a tolerance of its target.
const LATE: f32 = 0.01;

/// A batch that is checked.
struct Batch {
    name: String,
    bytes: Arc<Vec<u8>>,
    jobs: Option<Jobs>,
}

/// How many jobs have each of S, H, O, F against each of CLEAR, TOUCH, OPEN; and how many are refused.
#[derive(Clone, Copy, Default)]
struct Counts {
    letters: [[usize; 3]; 4],
    refused: usize,
}

impl Counts {
    fn proved(&self, k: usize) -> usize {
        self.letters.iter().map(|row| row[k]).sum()
    }

    fn jobs(&self) -> usize {
        (0..3).map(|k| self.proved(k)).sum::<usize>() + self.refused
    }

    fn said(&self) -> String {
        let jobs = self.jobs();
        let plural = if jobs == 1 { "" } else { "s" };
        format!(
            "{jobs} job{plural}: {} proved clear, {} not clear, {} not settled, {} refused",
            self.proved(0),
            self.proved(1),
            self.proved(2),
            self.refused
        )
    }

    fn table(&self) -> String {
        let mut out = format!("{:<24}{:>10}{:>10}{:>10}\n", "the search says", "CLEAR", "TOUCH", "OPEN");
        for (letter, row) in ["S, separated", "H, hit", "O, overlapped", "F, no verdict"].iter().zip(self.letters) {
            let _ = writeln!(out, "{letter:<24}{:>10}{:>10}{:>10}", row[0], row[1], row[2]);
        }
        out
    }
}

pub fn run(words: Vec<OsString>) -> Result<u8, Fault> {
    let (mut page, mut rooms, mut names) = (None, false, Vec::new());
    let mut words = words.into_iter();
    while let Some(word) = words.next() {
        let said = word.to_string_lossy().into_owned();
        match said.as_str() {
            "--page" if page.is_none() => page = Some(PathBuf::from(words.next().ok_or_else(|| Fault::Usage("--page takes a name".to_string()))?)),
            "--rooms" => rooms = true,
            _ => match reader::option_fault(&said) {
                Some(what) => return Err(Fault::Said(what)),
                None => names.push(PathBuf::from(word)),
            },
        }
    }
    match names.len() {
        0 => return Err(Fault::Usage("jobs as text or a batch are named".to_string())),
        1 => {}
        _ if page.is_some() => return Err(Fault::Usage("a page is of one file".to_string())),
        _ if names.iter().filter(|name| reader::is_stream(name)).count() > 1 => return Err(Fault::Usage("standard input is read once".to_string())),
        _ => {}
    }
    if page.as_deref().is_some_and(reader::is_stream) {
        return Err(Fault::Said("-: a page is a file, and no standard stream".to_string()));
    }
    let place = match &page {
        Some(page) => Some(Place::new(page, &PAGE, &[(names[0].as_path(), "input")])?),
        None => None,
    };
    let programs = Programs::found()?;
    let mut all = Counts::default();
    for name in &names {
        let batch = batch(&programs, name)?;
        if names.len() > 1 {
            reader::printed(&format!("{}:\n", called(name)))?;
        }
        let blocks = (batch.bytes.len() + 511) / 512;
        let more: &[&str] = match page.is_some() {
            true => &ASKED,
            false if rooms || blocks <= ROOMS => &["rooms"],
            false => &[],
        };
        let answers = programs.answers(&batch.bytes, more)?;
        let counts = told(&batch, &answers)?;
        if counts.jobs() == 0 {
            return Err(Fault::Said(format!("{}: no job came", called(name))));
        }
        reader::printed(&format!("{}\n", counts.said()))?;
        if more.is_empty() && counts.proved(0) > 0 {
            eprintln!("{}: of {blocks} blocks the distance that is kept was not asked for: --rooms does", batch.name);
        }
        for (row, more) in all.letters.iter_mut().zip(counts.letters) {
            row.iter_mut().zip(more).for_each(|(sum, more)| *sum += more);
        }
        all.refused += counts.refused;
        if let (Some(place), Some(page)) = (&place, &page) {
            made(&answers, &batch.name, &batch.bytes, batch.jobs.as_ref(), Drawings::Usual, place, &called(page))?;
        }
    }
    if names.len() > 1 {
        reader::printed(&format!("{} files, {}\n{}", names.len(), all.said(), all.table()))?;
    }
    Ok(u8::from(all.proved(0) != all.jobs()))
}

/// A batch, or the batch that a text comes to.
fn batch(programs: &Programs, name: &Path) -> Result<Batch, Fault> {
    let bytes = bytes_of(name)?;
    // no text has a zero byte, and every block has
    if bytes.contains(&0) || bytes.is_empty() {
        return Ok(Batch { name: name_of(name), bytes: Arc::new(bytes), jobs: None });
    }
    let jobs = reader::read(name, job_text::read(&bytes), |jobs| &jobs.notes)?;
    Ok(Batch { name: name_of(name), bytes: Arc::new(packed(programs, &jobs)?), jobs: Some(jobs) })
}

/// The blocks that `pack` makes of jobs: all of them, or a fault.
pub fn packed(programs: &Programs, jobs: &Jobs) -> Result<Vec<u8>, Fault> {
    let mut bytes = Vec::new();
    let ended = programs.run("pack", &[], Input::Bytes(Arc::new(jobs.lines().into_bytes())), true, &mut |part| {
        bytes.extend_from_slice(part);
        Ok(())
    })?;
    ended.well("pack")?;
    let same = bytes.len() == 512 * jobs.jobs.len() && jobs.jobs.iter().zip(bytes.chunks_exact(512)).all(|(job, block)| job.block() == block);
    match same && ended.told.is_empty() {
        true => Ok(bytes),
        false => Err(Fault::Said(format!("pack: it wrote {} bytes of {} jobs, or others", bytes.len(), jobs.jobs.len()))),
    }
}

/// Prints a line of each job.
fn told(batch: &Batch, all: &[Answers]) -> Result<Counts, Fault> {
    let mut counts = Counts::default();
    let mut text = String::new();
    for (i, (part, answers)) in parts(&batch.bytes).zip(all).enumerate() {
        let name = batch.jobs.as_ref().and_then(|jobs| jobs.jobs.get(i)).map_or(String::new(), |job| job.title());
        text.push_str(&line(i + 1, &name, &part, answers, &mut counts).ok_or_else(|| Fault::Said(format!("block {}: a line that is none", i + 1)))?);
        if text.len() > 1 << 16 {
            reader::printed(&text)?;
            text.clear();
        }
    }
    reader::printed(&text)?;
    Ok(counts)
}

/// The line of a job, with its newline; none where what the programs told does not fit together.
fn line(number: usize, name: &str, part: &Part, answers: &Answers, counts: &mut Counts) -> Option<String> {
    let sheet = read(answers.sheet.clone());
    let title = match (sheet.job, name.is_empty()) {
        (0, _) => format!("block {number}"),
        (job, true) => job.to_string(),
        (job, false) => format!("{job}, {name}"),
    };
    let said = match (&sheet.told, Proved::of(&answers.clearance)?, part) {
        (Ok(verdict), Ok((proved, _)), Part::Block(block)) => {
            let job = Job::of(block);
            counts.letters[letter(verdict.status)][place(proved)] += 1;
            format!("{}{}; {}", Known::of(answers)?.sentence(&job), way(&job, proved), search(verdict, proved))
        }
        (Err(refusal), Err(same), _) if *refusal == same => {
            counts.refused += 1;
            let why = faults(part, *refusal);
            format!("refused by {refusal}: {}", why.first().map_or(reason(*refusal), String::as_str))
        }
        _ => return None,
    };
    Some(format!("{title}: {said}\n"))
}

fn letter(status: Status) -> usize {
    match status {
        Status::Separated => 0,
        Status::Hit => 1,
        Status::Overlapped => 2,
        Status::Failed => 3,
    }
}

fn place(proved: Proved) -> usize {
    match proved {
        Proved::Clear => 0,
        Proved::Touch(..) => 1,
        Proved::Open(_) => 2,
    }
}

/// How far the bodies that go have gone where they are clear no more, or not settled.
fn way(job: &Job, proved: Proved) -> String {
    let t = match proved {
        Proved::Touch(u, _) | Proved::Open(u) if u > 0.0 => u,
        _ => return String::new(),
    };
    let gone = |body: usize| {
        let whole = job.moves[body].way();
        let [gone, planned] = [t, job.max_fraction].map(|t| whole * f64::from(t));
        (whole > 0.0).then(|| format!("{} having gone {} of {}", ["A", "B"][body], rounded(gone, 2), rounded(planned, 2)))
    };
    let ways: Vec<String> = (0..2).filter_map(gone).collect();
    if ways.is_empty() {
        String::new()
    } else {
        format!(", {}", ways.join(", "))
    }
}

/// What the search says, with a warning where it is not what is proved.
fn search(verdict: &Verdict, proved: Proved) -> String {
    let at = rounded(f64::from(verdict.floats[0]), 4);
    let said = match verdict.status {
        Status::Separated => "S".to_string(),
        Status::Hit => format!("H, a hit at {at}"),
        Status::Overlapped => "O, touching or overlapping".to_string(),
        Status::Failed => "F, no verdict".to_string(),
    };
    match (verdict.status, proved) {
        (Status::Separated, Proved::Touch(..)) => "warning: the search says S, which does not clear a move".to_string(),
        (Status::Separated, Proved::Open(_)) => "warning: the search says S, which settles nothing".to_string(),
        (Status::Hit, Proved::Touch(_, t)) if verdict.floats[0] > t + LATE => format!("warning: the search tells a hit only at {at}"),
        (Status::Hit | Status::Overlapped | Status::Failed, Proved::Clear) => format!("warning: the search says {said}"),
        _ => format!("search: {said}"),
    }
}

/// Blocks of jobs as text, as a file.
pub fn text(words: Vec<OsString>) -> Result<u8, Fault> {
    let [name, out] = super::verbs::names::<2>(words, "jobs as text and a batch are named")?;
    let jobs = reader::read(&name, job_text::read(&bytes_of(&name)?), |jobs| &jobs.notes)?;
    let programs = Programs::found()?;
    let wrote = format!("{} {} written", jobs.jobs.len(), if jobs.jobs.len() == 1 { "job" } else { "jobs" });
    if reader::is_stream(&out) {
        reader::put(&packed(&programs, &jobs)?).map_err(of("standard output"))?;
    } else {
        let place = Place::new(&out, &super::files::BATCH, &[(name.as_path(), "text")])?;
        let bytes = packed(&programs, &jobs)?;
        place.filled(|file| std::io::Write::write_all(file, &bytes).map_err(of(out.display())))?;
    }
    eprintln!("{}: {wrote}", called(&name));
    Ok(0)
}

#[cfg(test)]
mod tests {
    use super::*;

    /// Of each pair of letter and verdict, and of what cannot be read.
    #[test]
    fn lines_in_words() {
        let jobs = job_text::read(b"job: 7\nname: cart\na plate: 1 1\nb plate: 1 1\na to: 8 0\nb from: 6 0\nradius a: 0.25\n").unwrap();
        let block = jobs.jobs[0].block();
        let mut counts = Counts::default();
        let mut said = |sheet: &str, clearance: &str, rooms: &str| {
            let [sheet, clearance, rooms] = [sheet, clearance, rooms].map(|end| format!("1 7 {end}"));
            let line = line(1, "cart", &Part::Block(&block), &Answers { sheet, clearance, rooms, gaps: Vec::new() }, &mut counts);
            line.map(|line| line.strip_prefix("7, cart: ").unwrap().trim_end().to_string())
        };
        let verdict = |letter: &str, fraction: &str| format!("0 {letter} {fraction} 00000000 00000000 00000000 00000000 2 2 2 0 0 0 0");
        let (s, h, f) = (verdict("S", "3F800000"), verdict("H", "3F000000"), verdict("F", "3F000000"));
        let bodies = "proved clear over the whole move: the bodies, radii included,";
        assert_eq!(said(&s, "0 CLEAR 3", "0 3F000000 CC").unwrap(), format!("{bodies} stay at least 0.250 apart; search: S"));
        assert_eq!(said(&s, "0 CLEAR 3", "0 3E800000 CC").unwrap(), format!("{bodies} do not meet; search: S"));
        assert_eq!(said(&f, "0 CLEAR 3", "").unwrap(), format!("{bodies} do not meet; warning: the search says F, no verdict"));
        let further = "further apart than 0.25 (the radii together) up to";
        assert_eq!(
            said(&s, "0 TOUCH 3E3FC000 3E3FC400 35", "").unwrap(),
            format!(
                "not clear: {further} 0.1872 of the move, within 0.25 by 0.1873, A having gone 1.50 of 8.00; \
                 warning: the search says S, which does not clear a move"
            )
        );
        let within = "not clear: within 0.25 (the radii together)";
        let late = "warning: the search tells a hit only at 0.5000";
        assert_eq!(said(&h, "0 TOUCH 00000000 00000000 0", "").unwrap(), format!("{within} at the start already; {late}"));
        assert_eq!(said(&h, "0 TOUCH 00000000 3EFD70A4 9", "").unwrap(), format!("{within} by 0.4951 of the move; search: H, a hit at 0.5000"));
        let nothing = "not settled: the proof comes no further than the start; warning: the search says S, which settles nothing";
        assert_eq!(said(&s, "0 OPEN 00000000 9", "").unwrap(), nothing);
        assert_eq!(
            said(&f, "0 OPEN 3F000000 9", "").unwrap(),
            "not settled after 0.5000: further apart than 0.25 (the radii together) up to there, and the proof comes no further, \
             A having gone 4.00 of 8.00; search: F, no verdict"
        );
        assert_eq!(said("10", "10", "10").unwrap().split(':').next(), Some("refused by 10"));
        assert_eq!([said("10", "11", ""), said(&s, "8", ""), said(&s, "0 SURE 3", "")], [None, None, None]);
        assert_eq!(counts.said(), "9 jobs: 3 proved clear, 3 not clear, 2 not settled, 1 refused");
        assert!(counts.table().ends_with("O, overlapped                    0         0         0\nF, no verdict                    1         0         1\n"));
    }
}
