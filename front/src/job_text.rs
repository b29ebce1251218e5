//! Jobs as a person writes them, turned into blocks, and into the lines that `pack` makes blocks of.
//!
//! A job is a paragraph of lines `name: numbers`, the numbers parted by blanks; `#` starts a comment, and a blank line ends a job. Lengths are in the
//! shop's unit, angles in degrees, counterclockwise. Names, and what a missing line means:
//!
//! | name | numbers |
//! |---|---|
//! | `job` | a whole number, 1 to 4294967295: must be there |
//! | `name` | none. Words, for the page |
//! | `a`, `b` | the corners, x y x y ..: 1 to 16 points: must be there, or one of the next two |
//! | `a plate` | half sizes x y: a rectangle about 0 0, its corners in the library's order |
//! | `a bar` | the two ends, x y x y |
//! | `radius a`, `radius b` | 0 |
//! | `fraction` | 1 |
//! | `slop` | 0.005 |
//! | `a centre` | 0 0: the turning centre, in the outline's own numbers |
//! | `a from`, `a to` | 0 0, and where it started: where the turning centre stands in the hall, first and last |
//! | `a turned` | 0. One angle: turned but not turning; two: from the first to the second, less than 180 degrees apart |
//! | `turn by` | not cut. So many degrees at most: the job becomes several, whose turns are equal and no larger, each with the next job number |
//! | `meant` | `number again`, where an earlier job has the number too; `refused by 8`, where the sheet is to refuse it. A comma parts two |
//!
//! and plate, bar, centre, from, to, turned for b. A first paragraph may have the line `unit` alone, words for the page, as `unit: 100 mm`.
//!
//! A text in which anything does not fit is refused whole, each fault told with its line and its job; so is what the sheet would refuse by 3 to 8.
use super::batch::BLOCK;
use super::text::{
    between, coordinate_fault, corners, counted, decoded, no_such_name, numbers, pieces, plate, radians_warning, step_of, steps, steps_fault, to_f32,
    turn_warning, turned, Piece, Told, HALF_TURN, NO_NAME,
};
use std::collections::HashMap;
use std::fmt::Write;

const NAMES: [&str; 22] = [
    "job", "name", "meant", "unit", "a", "b", "a plate", "b plate", "a bar", "b bar", "radius a", "radius b", "fraction", "slop", "a centre", "b centre",
    "a from", "b from", "a to", "b to", "a turned", "b turned",
];

/// One job of a text, or one step of its turn.
#[derive(Clone, Debug, PartialEq, Eq)]
pub struct Written {
    /// The line with its number.
    pub line: usize,
    /// What the text calls it; empty where it says nothing.
    pub name: String,
    /// Which step it is, from 1, and of how many.
    pub step: [u32; 2],
    /// The words of its block, in form 1.
    pub words: [u32; 128],
}

impl Written {
    /// The block, in form 1.
    pub fn block(&self) -> [u8; BLOCK] {
        let mut bytes = [0u8; BLOCK];
        bytes.chunks_mut(4).zip(&self.words).for_each(|(place, word)| place.copy_from_slice(&word.to_le_bytes()));
        bytes
    }

    /// Whether a block, of either form, is of this job, bit by bit.
    pub fn is(&self, block: &[u8; BLOCK]) -> bool {
        let mut plain = *block;
        if plain[6] == 2 {
            plain[6] = 0;
        }
        plain[..508] == self.block()[..508]
    }

    /// The name as the page shows it.
    pub fn title(&self) -> String {
        match self.step {
            [_, 1] => self.name.clone(),
            [step, steps] if self.name.is_empty() => format!("step {step} of {steps}"),
            [step, steps] => format!("{}, step {step} of {steps}", self.name),
        }
    }
}

/// What a text comes to.
#[derive(Clone, Debug, PartialEq, Eq)]
pub struct Jobs {
    /// The unit, in the text's words; empty where it says none.
    pub unit: String,
    /// The jobs, in order.
    pub jobs: Vec<Written>,
    /// Warnings, turns that were cut, and what was meant.
    pub notes: Vec<Told>,
}

impl Jobs {
    /// A line for each job, with its newline, as `pack` takes them.
    pub fn lines(&self) -> String {
        let mut out = String::new();
        for job in &self.jobs {
            let [a, b] = [job.words[1] & 0xff, job.words[1] >> 8 & 0xff].map(|count| 2 * count as usize);
            let _ = write!(out, "{} {} {}", job.words[0], a / 2, b / 2);
            for word in job.words[2..26 + a].iter().chain(&job.words[58..58 + b]) {
                let _ = write!(out, " {word:08X}");
            }
            out.push('\n');
        }
        out
    }
}

/// One line of a job, fitting its name.
struct Field<'a> {
    line: usize,
    said: &'a str,
    numbers: Vec<f64>,
}

type Fields<'a> = HashMap<String, Field<'a>>;

/// A job as the text has it.
struct Given<'a> {
    fields: Fields<'a>,
    number: Option<u32>,
    again: bool,
    refusal: Option<u32>,
}

/// All jobs of a text, or every fault, in the order of the lines.
pub fn read(bytes: &[u8]) -> Result<Jobs, Vec<Told>> {
    let text = decoded(bytes)?;
    let mut faults = Vec::new();
    let mut out = Jobs { unit: String::new(), jobs: Vec::new(), notes: Vec::new() };
    let mut taken: HashMap<u32, Owner> = HashMap::new();
    let mut all = pieces(text);
    if all.first().map_or(false, |piece| piece.lines.len() == 1 && piece.lines[0].name == "unit") {
        out.unit = all.remove(0).lines[0].said.to_string();
    }
    for (i, piece) in all.iter().enumerate() {
        let found = faults.len();
        // a blank line within a job leaves two pieces that are none
        let follows = all.get(i + 1).map_or(false, |next| !next.lines.iter().any(|line| line.name == "job"));
        let given = given(piece, i > 0, follows, &mut faults);
        if let Some(number) = given.number {
            let whole = faults.len() == found;
            let count = if whole { count_of(&given.fields) } else { 1 };
            claim(number, count, &given, &mut taken, &mut faults);
            if whole {
                write_job(number, count, &given, &mut out, &mut faults);
            }
        }
    }
    if all.is_empty() && faults.is_empty() {
        faults.push(Told { line: 1, job: None, what: "no job is in the text".to_string() });
    }
    if faults.is_empty() {
        Ok(out)
    } else {
        faults.sort();
        Err(faults)
    }
}

/// Who has a number: the job's line, and the first number of its steps with the line that cuts them.
struct Owner {
    line: usize,
    cut: Option<(u32, usize)>,
}

/// Takes the numbers of a job and of its steps, each of which may stand once, unless a later job says that it is meant.
fn claim(number: u32, count: u32, given: &Given, taken: &mut HashMap<u32, Owner>, faults: &mut Vec<Told>) {
    let line = given.fields["job"].line;
    let mut told = false;
    for mine in number..=number.saturating_add(count - 1) {
        let cut = (count > 1).then(|| (number, given.fields["turn by"].line));
        if let Some(other) = taken.get(&mine) {
            if !told && !given.again {
                let what = match (other.cut, cut) {
                    (Some((first, by)), _) => format!("the steps of job {first} count on to this number, {mine}: line {by}"),
                    (None, Some(_)) if mine != number => format!("its steps count on to {mine}, which another job has: line {}", other.line),
                    _ => format!("this number stands already: line {}; `meant: number again` says that it is meant", other.line),
                };
                faults.push(Told { line, job: Some(number), what });
                told = true;
            }
        } else {
            taken.insert(mine, Owner { line, cut });
        }
    }
}

/// The lines that can give the outline of a side.
fn outline_names(side: &str) -> [String; 3] {
    [side.to_string(), format!("{side} plate"), format!("{side} bar")]
}

/// The lines of a piece, each fitting its name, with every fault told.
fn given<'a>(piece: &Piece<'a>, follows_another: bool, goes_on: bool, faults: &mut Vec<Told>) -> Given<'a> {
    let mut out = Given { fields: Fields::new(), number: None, again: false, refusal: None };
    let mut found: Vec<(usize, String)> = Vec::new();
    for line in &piece.lines {
        let name = &line.name;
        if name.is_empty() {
            found.push((line.line, NO_NAME.to_string()));
            continue;
        }
        if out.fields.contains_key(name) {
            found.push((line.line, format!("`{name}` stands twice")));
            continue;
        }
        let outline = ["a", "b"].into_iter().map(outline_names).find(|names| names.contains(name));
        if let Some(other) = outline.and_then(|names| names.into_iter().find(|other| out.fields.contains_key(other))) {
            found.push((line.line, format!("the outline was given already, by `{other}`")));
            continue;
        }
        let numbers = match name.as_str() {
            "name" => Ok(Vec::new()),
            "meant" => meant(line.said, &mut out).map(|()| Vec::new()),
            "unit" => Err("`unit` stands alone, before the first job".to_string()),
            _ => numbers_of(name, line.said),
        };
        let numbers = numbers.unwrap_or_else(|what| {
            found.push((line.line, what));
            Vec::new()
        });
        if name == "job" && !numbers.is_empty() {
            out.number = Some(numbers[0] as u32);
        }
        out.fields.insert(name.clone(), Field { line: line.line, said: line.said, numbers });
    }
    if !out.fields.contains_key("job") {
        let ended = if follows_another { ": a blank line ends a job, and one stands before this line" } else { "" };
        found.push((piece.first, format!("no line `job`{ended}")));
    }
    for side in ["a", "b"] {
        if !outline_names(side).iter().any(|name| out.fields.contains_key(name)) {
            let ended = if goes_on { " (a blank line ends a job)" } else { "" };
            found.push((piece.first, format!("no line `{side}`, `{side} plate` or `{side} bar`{ended}")));
        }
    }
    whole_job_faults(&out.fields, &mut found);
    domain_faults(&out, &mut found);
    faults.extend(found.into_iter().map(|(line, what)| Told { line, job: out.number, what }));
    out
}

/// What a job says that it means.
fn meant(said: &str, out: &mut Given) -> Result<(), String> {
    for part in said.split(',') {
        let words: Vec<&str> = part.split_whitespace().collect();
        match (words.as_slice(), words.last().and_then(|word| word.parse().ok())) {
            (["number", "again"], _) => out.again = true,
            (["refused", "by", _], Some(number)) if (3..=8).contains(&number) => out.refusal = Some(number),
            _ => return Err("`meant` takes `number again` or `refused by` 3 to 8, a comma between two".to_string()),
        }
    }
    Ok(())
}

/// The numbers of a line, fitting its name.
fn numbers_of(name: &str, said: &str) -> Result<Vec<f64>, String> {
    if name == "job" {
        return match said.parse::<u32>() {
            Ok(number) if number > 0 && said.bytes().all(|b| b.is_ascii_digit()) => Ok(vec![f64::from(number)]),
            _ => Err("a job number is one whole number from 1 to 4294967295".to_string()),
        };
    }
    if name != "turn by" && !NAMES.contains(&name) {
        let known: Vec<&str> = NAMES.iter().copied().chain(["turn by"]).collect();
        return Err(no_such_name(name, &known));
    }
    let own = name.strip_prefix("a ").or_else(|| name.strip_prefix("b ")).unwrap_or("");
    let given = numbers(said)?;
    match (name, own) {
        ("a" | "b", _) => corners(given, 16, "a batch"),
        ("turn by", _) => counted(name, given, 1, 1).and_then(step_of),
        (_, "plate") => match counted(name, given, 2, 2)? {
            half if half.iter().any(|x| *x < 0.0) => Err("a half size is not below 0".to_string()),
            half => Ok(half),
        },
        (_, "centre" | "from" | "to") => counted(name, given, 2, 2),
        (_, "bar") => counted(name, given, 4, 4),
        (_, "turned") => counted(name, given, 1, 2),
        _ => counted(name, given, 1, 1),
    }
}

fn turn_of(turned: &[f64]) -> f64 {
    turned.last().unwrap_or(&0.0) - turned.first().unwrap_or(&0.0)
}

/// The larger turn of a job, in degrees.
fn largest_turn(fields: &Fields) -> f64 {
    let turns = ["a turned", "b turned"].map(|name| fields.get(name).map_or(0.0, |turned| turn_of(&turned.numbers).abs()));
    turns[0].max(turns[1])
}

fn count_of(fields: &Fields) -> u32 {
    fields.get("turn by").map_or(1.0, |by| steps(largest_turn(fields), by.numbers[0])) as u32
}

/// What no line is wrong in by itself: a turn too large to be one, a cut beside a part of a move.
fn whole_job_faults(fields: &Fields, found: &mut Vec<(usize, String)>) {
    let cut = fields.get("turn by").filter(|by| !by.numbers.is_empty());
    for side in ["a", "b"] {
        if let Some(turned) = fields.get(&format!("{side} turned")) {
            if cut.is_none() && turn_of(&turned.numbers).abs() >= 180.0 {
                found.push((turned.line, HALF_TURN.to_string()));
            }
        }
    }
    if let Some(by) = cut {
        found.extend(steps_fault(largest_turn(fields), by.numbers[0]).map(|what| (by.line, what)));
        if fields.get("fraction").map_or(false, |fraction| !fraction.numbers.is_empty() && fraction.numbers != [1.0]) {
            found.push((by.line, "a turn is cut as a whole: `fraction` has to be 1 beside `turn by`".to_string()));
        }
    }
}

/// What the sheet would refuse by 3 to 8, unless just that is meant: the line, the number and what is wrong.
fn domain_faults(given: &Given, found: &mut Vec<(usize, String)>) {
    let mut wrong: Vec<(u32, usize, String)> = Vec::new();
    for (name, field) in &given.fields {
        let numbers = to_f32(&field.numbers);
        let own = name.strip_prefix("a ").or_else(|| name.strip_prefix("b ")).unwrap_or("");
        let mut tell = |refusal: u32, what: Option<String>| wrong.extend(what.map(|what| (refusal, field.line, what)));
        let below = |what: &str, x: f32| if x < 0.0 { Some(format!("{what} is {x}, below 0")) } else { coordinate_fault(what, x) };
        match (name.as_str(), own) {
            ("a" | "b", _) => {
                for (i, x) in numbers.iter().enumerate() {
                    tell(3, coordinate_fault(&format!("corner {}: {}", i / 2, ["x", "y"][i % 2]), *x));
                }
            }
            (_, "plate") => numbers.iter().for_each(|x| tell(3, coordinate_fault("a half size", *x))),
            (_, "bar") => numbers.iter().for_each(|x| tell(3, coordinate_fault("an end's part", *x))),
            ("radius a" | "radius b", _) => numbers.iter().for_each(|x| tell(4, below("the radius", *x))),
            (_, "centre" | "from" | "to") => numbers.iter().for_each(|x| tell(6, coordinate_fault("a part", *x))),
            ("fraction", _) => numbers.iter().filter(|x| !(0.0..=1.0).contains(*x)).for_each(|x| {
                tell(7, Some(format!("the fraction is {x}, and has to lie in 0 to 1")));
            }),
            ("slop", _) => numbers.iter().for_each(|x| {
                let why = if *x == 0.0 { Some("the slop is 0 as a float of 32 bits, and has to be above 0".to_string()) } else { below("the slop", *x) };
                tell(8, why);
            }),
            _ => {}
        }
    }
    wrong.sort();
    let first = wrong.first().map(|(refusal, ..)| *refusal);
    match (given.refusal, first) {
        (Some(meant), told) if Some(meant) != told => {
            let line = given.fields["meant"].line;
            let is = told.map_or("would not refuse it".to_string(), |told| format!("would refuse it by {told}"));
            found.push((line, format!("meant to be refused by {meant}, and the sheet {is}")));
        }
        (Some(_), _) => {}
        _ => found.extend(wrong.into_iter().map(|(refusal, line, what)| (line, format!("{what}: the sheet would refuse it by {refusal}")))),
    }
}

/// The corners of a side.
fn outline(side: &str, fields: &Fields) -> Vec<f32> {
    let [typed, by_plate, by_bar] = outline_names(side);
    match fields.get(&by_plate) {
        Some(half) => plate(&to_f32(&half.numbers)),
        None => to_f32(&fields.get(&by_bar).unwrap_or_else(|| &fields[&typed]).numbers),
    }
}

/// The words of one job whose fields fit: one block, or one for each step of its turn.
fn write_job(number: u32, count: u32, given: &Given, out: &mut Jobs, faults: &mut Vec<Told>) {
    let fields = &given.fields;
    let told = |line: usize, what: String| Told { line, job: Some(number), what };
    let get = |name: &str, missing: &[f64]| fields.get(name).map_or_else(|| missing.to_vec(), |field| field.numbers.clone());
    let outlines = [outline("a", fields), outline("b", fields)];
    let limits = to_f32(&[get("radius a", &[0.0])[0], get("radius b", &[0.0])[0], get("fraction", &[1.0])[0], get("slop", &[0.005])[0]]);
    let last = match number.checked_add(count - 1) {
        Some(last) => last,
        None => return faults.push(told(fields["job"].line, "the steps count on above 4294967295".to_string())),
    };
    for step in 0..count {
        let mut floats = limits.clone();
        for side in ["a", "b"] {
            let named = |name: &str| format!("{side} {name}");
            let first = get(&named("from"), &[0.0, 0.0]);
            let last = get(&named("to"), &first);
            let angles = get(&named("turned"), &[0.0]);
            let place = |k: u32| [between(first[0], last[0], k, count), between(first[1], last[1], k, count)];
            let angle = |k: u32| turned(between(angles[0], angles[angles.len() - 1], k, count));
            floats.extend(to_f32(&get(&named("centre"), &[0.0, 0.0])));
            floats.extend(to_f32(&[place(step), place(step + 1)].concat()));
            floats.extend([angle(step), angle(step + 1)].concat());
        }
        let mut words = [0u32; 128];
        words[..2].copy_from_slice(&[number + step, (outlines[0].len() / 2 | outlines[1].len() / 2 << 8) as u32]);
        for (from, list) in [(2, &floats), (26, &outlines[0]), (58, &outlines[1])] {
            words[from..].iter_mut().zip(list).for_each(|(place, x)| *place = x.to_bits());
        }
        words[127] = !words.iter().fold(0u32, |sum, word| sum.wrapping_add(*word));
        let name = fields.get("name").map_or(String::new(), |field| field.said.to_string());
        out.jobs.push(Written { line: fields["job"].line, name, step: [step + 1, count], words });
    }
    if let (Some(by), true) = (fields.get("turn by"), count > 1) {
        out.notes.push(told(by.line, format!("cut into {count} steps, jobs {number} to {last}")));
    }
    if let Some(refusal) = given.refusal {
        out.notes.push(told(fields["meant"].line, format!("the sheet will refuse it by {refusal}, as is meant")));
    }
    for side in ["a", "b"] {
        if let Some(field) = fields.get(&format!("{side} turned")) {
            let turn = turn_of(&field.numbers);
            let looked = if field.numbers.len() == 1 { field.numbers[0] } else { turn };
            out.notes.extend(radians_warning(looked).map(|what| told(field.line, what)));
            out.notes.extend(turn_warning(side, turn / f64::from(count)).map(|what| told(field.line, what)));
        }
    }
}

/// For `--help`.
pub const HELP: &str = "\
usage: foldflake jobtext JOBS

Reads jobs written as text and prints the lines that `pack` makes blocks of; JOBS may be - for standard input. So:
  set -o pipefail; foldflake jobtext shift.txt | foldflake pack - | foldflake sheet -

A job is a paragraph of lines `name: numbers`, blanks between the numbers, angles in degrees; a blank line ends it, # starts a comment.
  job: 2104              its number, 1 to 4294967295; it may stand once
  name: cart at press 2  words for the page
  a plate: 6 4           half sizes; or  a bar: x y  x y ; or  a: x y  x y ..  corners, 1 to 16; the same for b
  a from: -30 0          where its turning centre stands first; 0 0 where nothing is said
  a to: 30 0             and last; where it started where nothing is said
  a turned: 0 90         from one angle to another, or one angle: turned, not turning
  a centre: 1 0          the turning centre, in the outline's own numbers; 0 0
  turn by: 10            cuts the turn into equal steps of at most so many degrees, each a job
  radius a: 0.5          0
  fraction: 0.5          how much of the move is planned; 1
  slop: 0.005            how near counts as contact
  meant: number again    where an earlier job has the number too; `refused by 8` where the sheet is to refuse it
A first paragraph `unit: 100 mm` says the unit, for the page.

What does not fit is told with its line, nothing is printed then, and the exit status is 2. How many jobs were written is
told on standard error.
";

/// What `jobtext` prints and tells.
pub fn made(bytes: &[u8]) -> Result<super::reader::Made, Vec<Told>> {
    read(bytes).map(|jobs| {
        let n = jobs.jobs.len();
        super::reader::Made { text: jobs.lines(), wrote: format!("{n} {} written", if n == 1 { "job" } else { "jobs" }), notes: jobs.notes }
    })
}
