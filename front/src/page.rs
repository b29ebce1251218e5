//! One page that a person can read: every job of a batch as a card, in words, decimals and drawings. It needs no network, and prints on A4.
use super::answers::{Answers, Proved};
use super::batch::{faults, parts, read, Answer, Job, Part, Status, Verdict, BLOCK};
use super::digest::sha256;
use super::draw::{curve, moments, outlines, Moments};
use super::gaps::{fraction, Sampled, PIECES};
use super::proved::{keep_is_radii, kept, Known};
use super::words::{escaped, length, rounded, shortest, signed};
use std::collections::HashMap;
use std::fmt::Write as _;
use std::io::{self, Write};

/// How many drawings a page has unless asked for more; where there are more S that are proved to touch, as many as those.
pub const DRAWINGS: usize = 500;

/// The most jobs that one line of the summary lists.
const LISTED: usize = 200;

/// How many worked blocks get their drawings: S that are proved to touch first, then the others that need a look, then the rest, each in the batch's order.
#[derive(Clone, Copy, Debug, PartialEq, Eq)]
pub enum Drawings {
    /// [`DRAWINGS`], and every S that is proved to touch.
    Usual,
    /// So many.
    Most(usize),
    /// All.
    All,
}

/// The batch that a page is of, and what its text says beside the numbers.
#[derive(Clone, Debug, Default)]
pub struct Source<'a> {
    /// The batch's name.
    pub name: &'a str,
    /// Its bytes.
    pub bytes: &'a [u8],
    /// The unit; empty where nobody says it.
    pub unit: &'a str,
    /// The name of each block's job, or fewer; empty where it has none.
    pub names: Vec<String>,
}

/// What is counted on a page: the proved verdicts, and what the search says beside them.
#[derive(Clone, Copy, Debug, Default, PartialEq, Eq)]
pub struct Totals {
    /// Blocks, a short rest among them.
    pub blocks: usize,
    /// Refused ones.
    pub refused: usize,
    /// For each letter, in the order of [`LETTERS`]: how many are proved clear, how many are proved to touch, and how many are not settled.
    pub pairs: [[usize; 3]; 4],
}

/// The search's letters in the order of the totals.
pub const LETTERS: [&str; 4] = ["S", "H", "O", "F"];

impl Totals {
    /// How many are proved clear, proved to touch and not settled.
    pub fn known(&self) -> [usize; 3] {
        [0, 1, 2].map(|k| self.pairs.iter().map(|row| row[k]).sum())
    }

    /// S although they are proved to touch.
    pub fn missed(&self) -> usize {
        self.pairs[0][1]
    }

    /// The totals in a line or two for standard error.
    pub fn said(&self) -> Vec<String> {
        let [clear, touch, open] = self.known();
        let mut out = vec![format!("{} blocks: {clear} proved clear, {touch} not clear, {open} not settled, {} refused", self.blocks, self.refused)];
        if self.missed() > 0 {
            out.push(format!("{} not clear although the search says S: look at them", self.missed()));
        }
        out
    }
}

/// Why a job needs a look, the gravest first.
#[derive(Clone, Copy, Debug, PartialEq, Eq, PartialOrd, Ord)]
enum Look {
    /// S, and proved to touch.
    Missed,
    /// Proved to touch.
    Touch,
    /// Not settled.
    Open,
    Refused,
    /// Proved clear, and the search says otherwise.
    Cleared,
    No,
}

impl Look {
    /// How a card and its row are coloured.
    fn class(self) -> &'static str {
        match self {
            Look::Missed => "touch warned",
            Look::Touch => "touch",
            Look::Open => "open",
            Look::Refused => "refused",
            Look::Cleared | Look::No => "clear",
        }
    }
}

struct Row {
    answer: Answer,
    /// What is proved of the whole move; none where the block is refused.
    known: Option<Known>,
    sampled: Option<Sampled>,
    /// The sample with the least gap before the fraction of a hit, and that gap.
    before: Option<(usize, f32)>,
    /// The gap less the radii, at the least gap.
    clearance: f64,
    look: Look,
    /// Which field of a refused block is at fault.
    faults: Vec<String>,
}

/// Writes the page of a batch from what the proved programs told of it, block by block.
pub fn write(told: &[Answers], source: &Source, drawings: Drawings, out: &mut impl Write) -> io::Result<Totals> {
    let count = (source.bytes.len() + BLOCK - 1) / BLOCK;
    let mut rows = Vec::with_capacity(count);
    let mut totals = Totals { blocks: count, ..Totals::default() };
    for (i, part) in parts(source.bytes).enumerate() {
        let row = work(&told[i], &part);
        match (&row.answer.told, &row.known) {
            (Ok(verdict), Some(known)) => {
                let column = match known.proved {
                    Proved::Clear => 0,
                    Proved::Touch(..) => 1,
                    Proved::Open(_) => 2,
                };
                totals.pairs[place(verdict.status)][column] += 1;
            }
            _ => totals.refused += 1,
        }
        rows.push(row);
    }
    let titles = titles(source, &rows);
    let drawn = drawn(&rows, drawings);
    out.write_all(head(source, &rows, &titles, &totals, &drawn).as_bytes())?;
    for (i, part) in parts(source.bytes).enumerate() {
        out.write_all(card(&told[i], source.unit, &titles[i], i + 1, &part, &rows[i], drawn[i]).as_bytes())?;
    }
    out.write_all(b"</main>\n</body>\n</html>\n")?;
    Ok(totals)
}

/// The place of a letter in the totals.
fn place(status: Status) -> usize {
    match status {
        Status::Separated => 0,
        Status::Hit => 1,
        Status::Overlapped => 2,
        Status::Failed => 3,
    }
}

fn work(told: &Answers, part: &Part) -> Row {
    let answer = read(told.sheet.clone());
    let (verdict, job, known) = match (&answer.told, part, Known::of(told)) {
        (Ok(verdict), Part::Block(block), Some(known)) => (verdict, Job::of(block), known),
        (told, ..) => {
            let faults = told.as_ref().err().map_or(Vec::new(), |refusal| faults(part, *refusal));
            return Row { answer, known: None, sampled: None, before: None, clearance: f64::NAN, look: Look::Refused, faults };
        }
    };
    let gaps = &told.gaps;
    let sampled = Sampled::of(gaps);
    let look = match (known.proved, verdict.status) {
        (Proved::Touch(..), Status::Separated) => Look::Missed,
        (Proved::Touch(..), _) => Look::Touch,
        (Proved::Open(_), _) => Look::Open,
        (Proved::Clear, Status::Separated) => Look::No,
        (Proved::Clear, _) => Look::Cleared,
    };
    let before = (0..gaps.len())
        .filter(|&k| verdict.status == Status::Hit && fraction(&job, k) < verdict.floats[0] && !gaps[k].is_nan())
        .map(|k| (k, gaps[k]))
        .fold(None, |least: Option<(usize, f32)>, here| least.filter(|least| least.1 <= here.1).or(Some(here)));
    let clearance = f64::from(sampled.gap) - f64::from(job.radius[0]) - f64::from(job.radius[1]);
    Row { known: Some(known), sampled: Some(sampled), before, clearance, look, faults: Vec::new(), answer }
}

/// Which worked blocks get their drawings.
fn drawn(rows: &[Row], drawings: Drawings) -> Vec<bool> {
    let mut order: Vec<usize> = (0..rows.len()).filter(|&i| rows[i].sampled.is_some()).collect();
    let rank = |row: &Row| match row.look {
        Look::Missed => 0,
        Look::No => 2,
        _ => 1,
    };
    order.sort_by_key(|&i| rank(&rows[i]));
    let red = rows.iter().filter(|row| row.look == Look::Missed).count();
    let most = match drawings {
        Drawings::Usual => DRAWINGS.max(red),
        Drawings::Most(most) => most,
        Drawings::All => usize::MAX,
    };
    let mut drawn = vec![false; rows.len()];
    order.into_iter().take(most).for_each(|i| drawn[i] = true);
    drawn
}

/// What a block is called: its job's number, with the block's where that number stands more than once, and its name.
struct Title {
    short: String,
    name: String,
}

fn titles(source: &Source, rows: &[Row]) -> Vec<Title> {
    let mut seen: HashMap<u32, usize> = HashMap::new();
    rows.iter().for_each(|row| *seen.entry(row.answer.job).or_default() += 1);
    let title = |(i, row): (usize, &Row)| Title {
        short: match row.answer.job {
            0 => format!("block {}", i + 1),
            job if seen[&job] > 1 => format!("{job} (block {})", i + 1),
            job => job.to_string(),
        },
        name: source.names.get(i).map_or(String::new(), |name| escaped(name)),
    };
    rows.iter().enumerate().map(title).collect()
}

// ---- the top

const STYLE: &str = include_str!("page.css");

/// A text between the quotes of a style sheet: every sign but letters, digits and blanks by its number, which no reader of the page takes for its own.
fn quoted(text: &str) -> String {
    let sign = |c: char| if c.is_alphanumeric() || c == ' ' { c.to_string() } else { format!("\\{:x} ", c as u32) };
    text.chars().map(sign).collect()
}

/// What each printed sheet carries.
fn margins(name: &str, blocks: usize) -> String {
    let name: String = if name.chars().count() > 60 { name.chars().take(58).chain("..".chars()).collect() } else { name.to_string() };
    let plural = if blocks == 1 { "" } else { "s" };
    format!(
        "@page {{\n  @bottom-left {{ content: \"{}, {blocks} block{plural}\"; font: 9px sans-serif; }}\n  @bottom-right {{ content: \"page \" counter(page) \
         \" of \" counter(pages); font: 9px sans-serif; }}\n}}\n",
        quoted(&name)
    )
}

fn head(source: &Source, rows: &[Row], titles: &[Title], totals: &Totals, drawn: &[bool]) -> String {
    let name = escaped(source.name);
    let margins = margins(source.name, totals.blocks);
    let mut out = format!(
        "<!DOCTYPE html>\n<html xmlns=\"http://www.w3.org/1999/xhtml\" lang=\"en\">\n<head>\n<meta charset=\"utf-8\"/>\n\
         <meta name=\"viewport\" content=\"width=device-width\"/>\n<title>Travel sheet: {name}</title>\n<style>\n{STYLE}{margins}</style>\n</head>\n<body>\n\
         <svg xmlns=\"http://www.w3.org/2000/svg\" width=\"0\" height=\"0\" class=\"defs\"><defs><pattern id=\"hatch\" width=\"5\" height=\"5\" \
         patternUnits=\"userSpaceOnUse\" patternTransform=\"rotate(45)\"><path d=\"M0 0V5\" stroke=\"#555\" stroke-width=\"1.4\"/></pattern>\
         <pattern id=\"dots\" width=\"4\" height=\"4\" patternUnits=\"userSpaceOnUse\"><path d=\"M0 0H4V4H0Z\" fill=\"#ffe2a0\"/>\
         <path d=\"M1 1H2.6V2.6H1Z\" fill=\"#7a4a00\"/></pattern></defs></svg>\n\
         <header>\n<h1>Travel sheet</h1>\n<table class=\"batch\">\n<tr><th>batch</th><td>{name}</td></tr>\n<tr><th>blocks</th><td>{}</td></tr>\n",
        totals.blocks,
    );
    if !source.unit.is_empty() {
        let _ = writeln!(out, "<tr><th>unit</th><td>{}</td></tr>", escaped(source.unit));
    }
    let _ = writeln!(out, "<tr><th>SHA-256</th><td class=\"sum\">{}</td></tr>\n</table>", sha256(source.bytes));
    out.push_str(KEY);
    let [clear, touch, open] = totals.known();
    let _ = writeln!(
        out,
        "<table class=\"totals\">\n<tr><th>blocks</th><th>proved clear</th><th>not clear</th><th>not settled</th><th>refused</th></tr>\n\
         <tr id=\"totals\"><td>{}</td><td class=\"clear\">{clear}</td><td class=\"touch\">{touch}</td><td class=\"open\">{open}</td><td>{}</td></tr>\n</table>",
        totals.blocks, totals.refused
    );
    out.push_str("<h2>Which jobs need a look</h2>\n<ul class=\"looks\">\n");
    let mut none = true;
    for (look, class, said) in [
        (Look::Missed, "red", "not clear, although the search says S"),
        (Look::Touch, "red", "not clear"),
        (Look::Open, "amber", "not settled: treat as not clear"),
        (Look::Refused, "", "refused: nothing was looked at"),
        (Look::Cleared, "", "proved clear, although the search says H, O or F: the card says why"),
    ] {
        let found: Vec<usize> = (0..rows.len()).filter(|&i| rows[i].look == look).collect();
        if found.is_empty() {
            continue;
        }
        none = false;
        let _ = write!(out, "<li class=\"{class}\"><b>{} {said}:</b>", found.len());
        for &i in found.iter().take(LISTED) {
            let _ = write!(out, " <a href=\"#block{}\">{}</a>", i + 1, titles[i].short);
        }
        if found.len() > LISTED {
            let _ = write!(out, " and {} more: see the table", found.len() - LISTED);
        }
        out.push_str("</li>\n");
    }
    if none {
        out.push_str("<li>none</li>\n");
    }
    out.push_str("</ul>\n");
    letters(totals, &mut out);
    out.push_str(READING);
    let (worked, shown) = (rows.iter().filter(|row| row.sampled.is_some()).count(), drawn.iter().filter(|drawn| **drawn).count());
    if shown < worked {
        let _ = writeln!(
            out,
            "<p>Drawings: {shown} of {worked} worked blocks, S that are not clear first, then the others that need a look; \
             <code>page --drawings all</code> makes them all.</p>"
        );
    }
    table(source, rows, titles, &mut out);
    out.push_str("</header>\n<main>\n");
    out
}

/// What the search says beside what is proved.
fn letters(totals: &Totals, out: &mut String) {
    out.push_str("<table class=\"letters\">\n<tr><th>the search says</th><th>proved clear</th><th>not clear</th><th>not settled</th></tr>\n");
    for (letter, row) in LETTERS.iter().zip(totals.pairs) {
        let [clear, touch, open] = row;
        let _ = writeln!(out, "<tr id=\"letter{letter}\"><th>{letter}</th><td>{clear}</td><td>{touch}</td><td>{open}</td></tr>");
    }
    out.push_str("</table>\n");
}

fn table(source: &Source, rows: &[Row], titles: &[Title], out: &mut String) {
    let named = titles.iter().any(|title| !title.name.is_empty());
    let name_head = if named { "<th>name</th>" } else { "" };
    let _ = writeln!(
        out,
        "<h2>All jobs</h2>\n<table class=\"jobs\">\n<thead><tr><th>block</th><th>job</th>{name_head}<th>proved</th><th></th><th>the search</th>\
         <th>least sampled gap</th></tr></thead>\n<tbody>"
    );
    for (i, (row, part)) in rows.iter().zip(parts(source.bytes)).enumerate() {
        let least = row.sampled.map_or(String::new(), |sampled| match sampled.gap.is_nan() {
            true => "no number".to_string(),
            false => length(f64::from(sampled.gap), 4),
        });
        let (word, known) = match (&row.known, &part) {
            (Some(known), Part::Block(block)) => (known.word(), known.short(&Job::of(block))),
            _ => ("–", short(row)),
        };
        let search = if row.known.is_some() { short(row) } else { String::new() };
        let name = if named { format!("<td class=\"words\">{}</td>", titles[i].name) } else { String::new() };
        let _ = writeln!(
            out,
            "<tr class=\"{2}\"><td>{0}</td><td><a href=\"#block{0}\">{1}</a></td>{name}<td><b>{word}</b></td><td class=\"words known\">{known}</td>\
             <td>{3}</td><td>{least}</td></tr>",
            i + 1,
            row.answer.job,
            row.look.class(),
            search,
        );
    }
    out.push_str("</tbody>\n</table>\n");
}

/// What a setter must know, on the first sheet.
const KEY: &str = "\
<ul class=\"key\">\n\
<li class=\"clear\"><b>CLEAR clears the planned move</b>: proved at every moment of it, not at samples.</li>\n\
<li class=\"touch\"><b>TOUCH does not</b>: proved contact, at some moment, within the distance to keep.</li>\n\
<li class=\"open\"><b>OPEN does not</b>: the proof comes no further than the fraction told. Nor does a refusal: nothing was looked at.</li>\n\
<li><b>The search\'s letters S, H, O and F clear nothing</b>: S does not look into a turn, H can come late, F is no verdict.</li>\n\
<li><b>Proved of straight outlines on the move as planned</b>, not of what sticks out of them, nor of the way that a cart takes instead.</li>\n</ul>\n";

const READING: &str = "\
<h2>How to read it</h2>\n<ul class=\"notes\">\n\
<li><b>What is proved</b> comes from <code>clearance</code>, in exact arithmetic over the numbers of the block. The distance to keep is the larger of the slop \
and the radii together. A fraction up to which they are further apart is rounded down, one by which they are within it up.</li>\n\
<li><b>The distance that a clear move keeps</b> was found by asking for more: twice as much until that is no longer proved, then ten times halfway \
between what is proved and what is not. The last that was proved is told, less the radii, rounded down to three digits. More may hold.</li>\n\
<li><b>The band</b> under each curve has the planned move in 64 equal parts. C: proved clear over all of the part. T: a proved contact in it, or \
less than 2^-24 of the move before it. O: not settled.</li>\n\
<li><b>The curve is sampled, not proved</b>: the distance of the outlines without radii at 257 fractions of what is planned, as the search works it. Between \
two samples they may come nearer, and tiny sides, the limit of 20 rounds and the middle of a half turn can give 0 although they are apart. Lines show the \
target, at which the search calls it contact, and the radii together.</li>\n\
<li>Other numbers are rounded to the nearest for reading: fractions to four places, angles to a tenth of a degree, coordinates to two places and gaps to four; \
where a job is small to more, as its card says. Exact bits, and the shortest decimals that read back to them, are in each card\'s fold-out.</li>\n\
<li>Drawings: A is grey, B is hatched. Thin line: at the start; thick: at the fraction that the search tells; dashed: at the end of what is planned; dotted \
red: in contact, where the search says otherwise. Dash-dotted arrow: the way of the turning centre. Corners are numbered from 0 as on the \
sheet; the outline drawn is the smallest convex shape around them. Cross and arrow: the point and the normal, from A to B.</li>\n</ul>\n";

fn short(row: &Row) -> String {
    let verdict = match &row.answer.told {
        Ok(verdict) => verdict,
        Err(number) => {
            let why = row.faults.first().map_or(reason(*number), String::as_str);
            return format!("refused by {number}: {}", escaped(why));
        }
    };
    match verdict.status {
        Status::Separated => "S".to_string(),
        Status::Hit => format!("H at {}", rounded(f64::from(verdict.floats[0]), 4)),
        Status::Overlapped => "O".to_string(),
        Status::Failed => format!("F, gave up at {}", rounded(f64::from(verdict.floats[0]), 4)),
    }
}

// ---- a card

/// How many places a job's coordinates and its gaps are rounded to: more where the larger body, or the slop, is small.
fn places(job: &Job) -> (usize, usize) {
    let sizes = job.points.iter().flat_map(|points| {
        let axis = |k: usize| points.iter().skip(k).step_by(2).map(|x| f64::from(*x));
        [axis(0), axis(1)].map(|x| x.clone().fold(f64::NEG_INFINITY, f64::max) - x.fold(f64::INFINITY, f64::min))
    });
    let size = sizes.chain(job.radius.map(f64::from)).fold(0.0, f64::max);
    let more = |least: usize, x: f64, digits: f64| if x > 0.0 { (digits - x.log10()).ceil().clamp(least as f64, 12.0) as usize } else { least };
    (more(2, size, 2.0), more(4, f64::from(job.slop), 1.0))
}

fn card(told: &Answers, unit: &str, title: &Title, number: usize, part: &Part, row: &Row, drawn: bool) -> String {
    let job = match row.answer.job {
        0 => format!("Block {number}"),
        job => format!("Job {job}"),
    };
    let name = if title.name.is_empty() { String::new() } else { format!(" <span class=\"name\">{}</span>", title.name) };
    let mut out = format!(
        "<section class=\"card {}\" id=\"block{number}\">\n<h3><span class=\"mark\">{}</span> {job}{name} <small>block {number}</small></h3>\n",
        row.look.class(),
        row.known.as_ref().map_or("refused", Known::word),
    );
    match (&row.answer.told, part, row.sampled, &row.known) {
        (Ok(verdict), Part::Block(block), Some(sampled), Some(known)) => {
            let worked = Worked { job: &Job::of(block), verdict, known, sampled: &sampled, row, unit };
            worked.write(told, &format!("{job}, block {number}"), drawn, &mut out);
        }
        (Err(refusal), ..) => refused(*refusal, &row.faults, &mut out),
        _ => {}
    }
    exact(part, told, row, &mut out);
    out.push_str("</section>\n");
    out
}

/// What a refusal says.
pub fn reason(refusal: u32) -> &'static str {
    match refusal {
        3 => "a corner is not a number, or lies too far out",
        4 => "a radius is not a number, below 0, or too large",
        5 => "a rotation is no cosine and sine",
        6 => "a centre is not a number, or lies too far out",
        7 => "the max fraction is not in 0 to 1",
        8 => "the slop is not a number, not above 0, or too large",
        9 => "the batch ends within a block",
        10 => "the block's check is wrong",
        11 => "a field of the block is not what it may be",
        13 => "the block has no known form",
        _ => "no reason is known",
    }
}

fn refused(refusal: u32, faults: &[String], out: &mut String) {
    let _ = writeln!(out, "<p class=\"proved\">Refused by {refusal}: {}.</p>", escaped(reason(refusal)));
    for fault in faults {
        let _ = writeln!(out, "<p class=\"fault\">At fault: {}.</p>", escaped(fault));
    }
    out.push_str("<p>Nothing was looked at: this is no answer about the move.</p>\n");
}

/// A block that was worked.
struct Worked<'a> {
    job: &'a Job,
    verdict: &'a Verdict,
    known: &'a Known,
    sampled: &'a Sampled,
    row: &'a Row,
    unit: &'a str,
}

impl Worked<'_> {
    /// The fraction of a sample, for reading.
    fn at(&self, k: usize, places: usize) -> String {
        rounded(f64::from(fraction(self.job, k)), places)
    }

    fn write(&self, told: &Answers, title: &str, drawn: bool, out: &mut String) {
        let (places, gap_places) = places(self.job);
        let _ = writeln!(out, "<p class=\"proved\">{}</p>", self.known.sentence(self.job));
        let _ = writeln!(out, "<p class=\"said\">{}</p>", self.sentence(places));
        for why in self.reasons() {
            let _ = writeln!(out, "<p class=\"why\">{why}</p>");
        }
        if let Some(said) = self.padding() {
            let _ = writeln!(out, "<p class=\"pad\">{said}</p>");
        }
        let missed = self.missed();
        let moments = moments(self.job, self.verdict, missed);
        out.push_str("<div class=\"sides\">\n");
        if drawn {
            if let Some((svg, square)) = outlines(self.job, self.verdict, &moments, &format!("{title}: the outlines on squared paper")) {
                let unit = if self.unit.is_empty() { String::new() } else { format!(" (unit: {})", escaped(self.unit)) };
                let legend = escaped(&legend(self.job, self.verdict, &moments));
                let _ = writeln!(out, "<figure>{svg}\n<figcaption>{legend}; one square is {square} by {square}{unit}</figcaption></figure>");
            }
        }
        out.push_str("<div class=\"facts\">\n<table>\n");
        self.facts(&moments, places, gap_places, out);
        out.push_str("</table>\n");
        if drawn {
            let svg = curve(self.job, &told.gaps, &self.known.cells, self.sampled, &moments, &format!("{title}: the gap over the move"));
            let _ = writeln!(
                out,
                "<figure>{svg}\n<figcaption>curve: the gap at {} samples, not proved between them; band, proved: C clear, T contact, \
                 O not settled</figcaption></figure>",
                PIECES + 1
            );
        }
        out.push_str("</div>\n</div>\n");
    }

    /// The letter, and what it is worth.
    fn sentence(&self, places: usize) -> String {
        let [t, x, y, ..] = self.verdict.floats.map(f64::from);
        let (t, x, y) = (rounded(t, 4), rounded(x, places), rounded(y, places));
        match self.verdict.status {
            Status::Separated => "The search says S: separated along one axis, where it stood and at the end; it does not look in between.".to_string(),
            Status::Hit => format!("The search says H: hit at {t} of the move, at x {x} y {y}; that nothing touches before is not proved by it."),
            Status::Overlapped => {
                "The search says O: touching or overlapping where it stood. (Its fraction is printed as 0, although it may have got further.)".to_string()
            }
            Status::Failed => format!("The search says F, no verdict: it gave up where it stood, at {t} of the move."),
        }
    }

    /// Where the search and what is proved disagree, why; and what else has to be known of such a verdict.
    fn reasons(&self) -> Vec<String> {
        let (job, status) = (self.job, self.verdict.status);
        let turning = job.turns(0) || job.turns(1);
        let (slop, radii) = (f64::from(job.slop), f64::from(job.radius[0]) + f64::from(job.radius[1]));
        // the search calls it contact within a quarter of the slop of the target, and with radii that is an overlap
        let target = slop.max(radii - slop);
        let [least, most] = [target - slop / 4.0, target + slop / 4.0];
        let overlaps = radii > most;
        let turn = format!(
            "a turn, by {}°, that the search does not look into: it looks along one axis at a time, and at the ends of an interval",
            rounded(job.moves[0].turn().max(job.moves[1].turn()), 1)
        );
        let early = "the search tells a hit up to a quarter of the slop before the target";
        let off = "the search works with rounded numbers, and is off by that much here";
        let hit = self.verdict.floats[0];
        let mut out = Vec::new();
        match (status, self.known.proved) {
            (Status::Separated, Proved::Touch(..)) => {
                let why = match (overlaps && f64::from(self.sampled.gap) > most, turning) {
                    (true, _) => "with radii S lets the bodies overlap by up to three quarters of the slop",
                    (false, true) => &turn,
                    (false, false) => off,
                };
                out.push(format!("Why S, and yet not clear: {why}."));
            }
            (Status::Hit, Proved::Touch(_, t)) if hit > t => {
                let why = match (self.row.before.map_or(true, |(_, gap)| f64::from(gap) > least), overlaps, turning) {
                    (true, true, _) => "with radii the search tells a hit only where the bodies overlap by about a slop",
                    (true, false, _) => "the search tells a hit up to a quarter of the slop behind the target",
                    (false, _, true) => &turn,
                    (false, _, false) => off,
                };
                out.push(format!("Why the hit is told later than the contact: {why}."));
            }
            (Status::Hit, Proved::Touch(u, _)) if f64::from(u) - f64::from(hit) > 1e-4 => {
                let why = if overlaps { off } else { early };
                out.push(format!("Why the hit is told before they are within that distance: {why}."));
            }
            (Status::Hit, Proved::Clear) => {
                let near = self.known.room.map_or(true, |room| f64::from(room) <= most);
                let why = if near && !overlaps { early } else { off };
                out.push(format!("Why H, and yet clear: {why}."));
            }
            (Status::Overlapped, Proved::Clear) => {
                out.push("Why O, and yet clear: where sides are tiny, or its rounds run out, the search tells O of outlines that are apart.".to_string());
            }
            (Status::Overlapped, Proved::Touch(u, _)) if u > 0.0 => {
                out.push("Why O, and yet a contact later than the start: the search had got further than the 0 that it prints.".to_string());
            }
            (Status::Failed, Proved::Clear) => {
                out.push("Why no verdict, and yet clear: the search gave up, which says nothing of the move.".to_string());
            }
            (Status::Failed, Proved::Touch(..)) => {
                out.push("Why no verdict, and yet a contact: the search gave up, which says nothing of the move.".to_string());
            }
            (_, Proved::Open(_)) => {
                out.push("Neither clears it: what the search says is not proved. Cut the move into steps, or leave more room.".to_string());
                if let Some(k) = self.sampled.first_touching {
                    out.push(format!("Sampled, not proved: at {} of the move the outlines touch or overlap.", self.at(k, 4)));
                }
            }
            _ => {}
        }
        if self.known.proved != Proved::Clear {
            for (_, name) in ["A", "B"].iter().enumerate().filter(|(body, _)| job.half_turn(*body)) {
                out.push(format!("{name} makes a half turn, which has no direction and no pose halfway: cut it into steps."));
            }
        } else if self.sampled.first_touching.is_some() || self.sampled.unknown > 0 {
            out.push("The sampled curve says otherwise, and is wrong: tiny sides, the round limit and the middle of a half turn do that.".to_string());
        }
        out
    }

    /// A moment to draw at which they are in contact, where the search tells none or a later one; a sampled one where nothing is proved.
    fn missed(&self) -> Option<f32> {
        let t = match (self.verdict.status, self.known.proved) {
            (Status::Separated | Status::Failed, Proved::Touch(_, t)) => t,
            (Status::Hit, Proved::Touch(_, t)) if self.verdict.floats[0] > t => t,
            (Status::Separated | Status::Hit | Status::Failed, Proved::Open(_)) => return self.sampled.first_touching.map(|k| fraction(self.job, k)),
            _ => return None,
        };
        match (self.verdict.status, self.sampled.middle()) {
            // deep in it, where that was sampled
            (Status::Separated, Some(k)) => Some(fraction(self.job, k)),
            _ => Some(t),
        }
    }

    /// Which corners come first, in words; of a hit alone.
    fn padding(&self) -> Option<String> {
        if self.verdict.status != Status::Hit {
            return None;
        }
        let corners = |body: usize| {
            let name = ["A", "B"][body];
            self.verdict.corners[body].map(|[first, second]| match first == second {
                true => format!("corner {first} of {name}"),
                false => format!("corners {first} and {second} of {name}"),
            })
        };
        let said = match [corners(0), corners(1)] {
            [None, None] => return None,
            [Some(a), Some(b)] => format!("{a} and {b}, which come toward each other"),
            [Some(a), None] => format!("{a}, coming toward a side of B"),
            [None, Some(b)] => format!("{b}, coming toward a side of A"),
        };
        Some(format!("To pad: {said}, as the last search found them."))
    }

    fn facts(&self, moments: &Moments, places: usize, gap_places: usize, out: &mut String) {
        let (job, verdict, sampled) = (self.job, self.verdict, self.sampled);
        // what a printed card has no room for
        let more = ["point", "normal", "last search", "work", "rounded", "target"];
        let mut row = |name: &str, said: String| {
            let class = if more.contains(&name) { " class=\"more\"" } else { "" };
            let _ = writeln!(out, "<tr{class}><th>{name}</th><td>{said}</td></tr>");
        };
        let pair = |[x, y]: [f32; 2]| format!("x {} y {}", rounded(f64::from(x), places), rounded(f64::from(y), places));
        let angle = |body: usize, t: f32| degrees(job, body, t).map_or("no number".to_string(), |angle| format!("{}°", rounded(angle, 1)));
        for (body, name) in ["A", "B"].iter().enumerate() {
            let m = &job.moves[body];
            let mut said = if m.first == m.last { format!("stands at {}", pair(m.first)) } else { format!("goes from {} to {}", pair(m.first), pair(m.last)) };
            if job.turns(body) {
                let _ = write!(said, ", turns from {} to {}", angle(body, 0.0), angle(body, 1.0));
            } else if m.first_rotation != [1.0, 0.0] {
                let _ = write!(said, ", turned by {}", angle(body, 0.0));
            }
            row(name, said);
        }
        if job.max_fraction != 1.0 {
            row("planned", format!("up to {} of the move", rounded(f64::from(job.max_fraction), 4)));
        }
        let fraction_told = rounded(f64::from(verdict.floats[0]), 4);
        match verdict.status {
            Status::Hit => row("hit at", format!("{fraction_told} of the move")),
            Status::Failed => row("search stood at", format!("{fraction_told} of the move")),
            Status::Separated | Status::Overlapped => {}
        }
        if verdict.status == Status::Hit {
            let way = |body: usize| {
                let whole = job.moves[body].way();
                let [gone, planned] = [moments.told, moments.end].map(|t| rounded(whole * f64::from(t), places));
                (whole > 0.0).then(|| format!("{} {gone} of {planned}", ["A", "B"][body]))
            };
            let ways: Vec<String> = (0..2).filter_map(way).collect();
            if !ways.is_empty() {
                row("way travelled", ways.join(", "));
            }
        }
        let turning: Vec<String> = (0..2).filter(|&body| job.turns(body)).map(|body| format!("{} {}", ["A", "B"][body], angle(body, moments.told))).collect();
        if !turning.is_empty() && verdict.status != Status::Overlapped {
            row(if verdict.status == Status::Separated { "angle at the end" } else { "angle there" }, turning.join(", "));
        }
        if verdict.floats[3..] != [0.0, 0.0] {
            let [_, x, y, nx, ny] = verdict.floats;
            row("point", pair([x, y]));
            row("normal", format!("x {} y {}, from A to B", rounded(f64::from(nx), 4), rounded(f64::from(ny), 4)));
        }
        if verdict.corners != [None, None] {
            let side = |body: usize| match verdict.corners[body] {
                None => format!("a side of {}", ["A", "B"][body]),
                Some([first, second]) if first == second => format!("corner {first} of {}", ["A", "B"][body]),
                Some([first, second]) => format!("corners {first} and {second} of {}, on one line", ["A", "B"][body]),
            };
            row("last search", format!("{}, {}", side(0), side(1)));
        }
        let [calls, searches, steps] = verdict.counts;
        row("work", format!("distance calls {calls}, searches {searches}, root steps {steps}"));
        if job.radius != [0.0, 0.0] {
            let [a, b] = job.radius.map(|r| length(f64::from(r), places.max(4)));
            row("radii", format!("A {a}, B {b}"));
        }
        row("distance to keep", format!("{} ({})", kept(job), if keep_is_radii(job) { "the radii together" } else { "the slop" }));
        row("target", format!("{} (slop {})", length(f64::from(job.target()), gap_places), length(f64::from(job.slop), gap_places)));
        let told = |gap: f32, k: usize| format!("{} at {} of the move", length(f64::from(gap), gap_places), self.at(k, 4));
        let least = if sampled.gap.is_nan() { "no number".to_string() } else { told(sampled.gap, sampled.least) };
        row("least sampled gap", least);
        if !sampled.gap.is_nan() {
            let radii = if job.radius == [0.0, 0.0] { "no radii" } else { "the gap less the radii" };
            row("clearance there", format!("{} ({radii})", signed(self.row.clearance, gap_places)));
        }
        if let Some((k, gap)) = self.row.before {
            row("before the hit", format!("least sampled gap {}", told(gap, k)));
        }
        if (places, gap_places) != (2, 4) {
            row("rounded", format!("coordinates to {places} places, gaps to {gap_places}"));
        }
    }
}

fn legend(job: &Job, verdict: &Verdict, moments: &Moments) -> String {
    let told = rounded(f64::from(moments.told), 4);
    let end = moments.told == moments.end;
    let thick = match verdict.status {
        Status::Separated => "at the end".to_string(),
        Status::Overlapped => "at the start".to_string(),
        Status::Hit | Status::Failed if end => format!("at {told}, the end"),
        Status::Hit | Status::Failed => format!("at {told}"),
    };
    let mut said = if job.stands(0) && job.stands(1) { "nothing moves".to_string() } else { format!("thin: start; thick: {thick}") };
    if !end && moments.end > 0.0 {
        said.push_str("; dashed: end");
    }
    if let Some(t) = moments.missed {
        let _ = write!(said, "; dotted: at {}", rounded(f64::from(t), 2));
    }
    said
}

fn degrees(job: &Job, body: usize, t: f32) -> Option<f64> {
    job.moves[body].placed(t).map(|placed| placed.rotation[1].atan2(placed.rotation[0]).to_degrees())
}

/// The fold-out: the programs' lines, and every number by its bits and its shortest decimal.
fn exact(part: &Part, told: &Answers, row: &Row, out: &mut String) {
    out.push_str("<details><summary>exact numbers</summary>\n<pre>");
    let _ = writeln!(out, "line on the sheet\n<code>{}</code>", escaped(&row.answer.line));
    if row.known.is_some() {
        let _ = writeln!(out, "line of clearance\n<code>{}</code>\nline of rooms\n<code>{}</code>", escaped(&told.clearance), escaped(&told.rooms));
    }
    if let (Ok(verdict), Part::Block(block)) = (&row.answer.told, part) {
        let job = Job::of(block);
        let mut number = |name: &str, x: f32| {
            let _ = writeln!(out, "{name:<24}{:08X}  {}", if x.is_nan() { 0x7fc0_0000 } else { x.to_bits() }, shortest(x));
        };
        for (name, x) in ["fraction", "point x", "point y", "normal x", "normal y"].iter().zip(verdict.floats) {
            number(name, x);
        }
        for (name, x) in [("radius of A", job.radius[0]), ("radius of B", job.radius[1]), ("max fraction", job.max_fraction), ("slop", job.slop)] {
            number(name, x);
        }
        number("target", job.target());
        for (body, m) in ["A", "B"].iter().zip(&job.moves) {
            for (what, parts, [x, y]) in [
                ("local centre", ["x", "y"], m.local_center),
                ("first centre", ["x", "y"], m.first),
                ("last centre", ["x", "y"], m.last),
                ("first rotation", ["c", "s"], m.first_rotation),
                ("last rotation", ["c", "s"], m.last_rotation),
            ] {
                number(&format!("{body}, {what} {}", parts[0]), x);
                number(&format!("{body}, {what} {}", parts[1]), y);
            }
        }
        for (body, points) in ["A", "B"].iter().zip(&job.points) {
            for (i, x) in points.iter().enumerate() {
                number(&format!("{body}, corner {} {}", i / 2, ["x", "y"][i % 2]), *x);
            }
        }
    }
    out.push_str("</pre></details>\n");
}
