//! A batch's answers for other programs: rows parted by commas, or one JSON document.
use super::answers::Proved;
use super::batch::{faults, parts, read, Part, Status, Verdict};
use super::page::reason;
use super::page_file::name_of;
use super::programs::{Fault, Programs};
use super::reader::{self, bytes_of};
use super::words::shortest;
use std::ffi::OsString;
use std::fmt::Write;
use std::sync::Arc;

pub const CSV: &str = "\
usage: foldflake csv BATCH

Prints a header and a row for each block, and no totals: the fields of the sheet and of clearance, each float as the shortest decimal that reads back to it and
by its bits; of a refused block its refusal and the reason. A field that says nothing is empty. BATCH may be - for standard input.
The exit status is 0 where the table is whole, 2 where something fails; nothing is printed then.
";

pub const JSON: &str = "\
usage: foldflake json BATCH

Prints one JSON document: the batch's name, its blocks with what `foldflake csv` tells of them, and the totals. A float has its shortest decimal as `value`,
null where it is no number, and its `bits`. BATCH may be - for standard input. The exit status is 0 where the document is whole, 2 where something fails;
nothing is printed then.
";

/// What is told of one block.
struct Row {
    block: usize,
    job: u32,
    told: Result<(Verdict, Proved, u64), (u32, String)>,
}

fn rows(words: Vec<OsString>) -> Result<(String, Vec<Row>), Fault> {
    let [name] = super::verbs::names::<1>(words, "a batch is named")?;
    let bytes = Arc::new(bytes_of(&name)?);
    reader::no_text(&name, &bytes)?;
    let all = Programs::found()?.answers(&bytes, &[])?;
    let row = |(i, (part, answers)): (usize, (Part, &super::answers::Answers))| {
        let sheet = read(answers.sheet.clone());
        let told = match (sheet.told, Proved::of(&answers.clearance)) {
            (Ok(verdict), Some(Ok((proved, pieces)))) => Ok((verdict, proved, pieces)),
            (Err(refusal), Some(Err(same))) if refusal == same => {
                let why = faults(&part, refusal).join("; ");
                Err((refusal, if why.is_empty() { reason(refusal).to_string() } else { why }))
            }
            _ => return Err(Fault::Said(format!("block {}: `sheet` and `clearance` do not fit together", i + 1))),
        };
        Ok(Row { block: i + 1, job: sheet.job, told })
    };
    Ok((name_of(&name), parts(&bytes).zip(&all).enumerate().map(row).collect::<Result<_, _>>()?))
}

fn letter(status: Status) -> &'static str {
    match status {
        Status::Overlapped => "O",
        Status::Hit => "H",
        Status::Separated => "S",
        Status::Failed => "F",
    }
}

fn bits(x: f32) -> u32 {
    if x.is_nan() {
        0x7fc0_0000
    } else {
        x.to_bits()
    }
}

/// The word of a verdict, and its fractions: clear up to, contact by.
fn proved(proved: Proved) -> (&'static str, [Option<f32>; 2]) {
    match proved {
        Proved::Clear => ("CLEAR", [None, None]),
        Proved::Touch(u, t) => ("TOUCH", [Some(u), Some(t)]),
        Proved::Open(u) => ("OPEN", [Some(u), None]),
    }
}

const FLOATS: [&str; 5] = ["fraction", "point_x", "point_y", "normal_x", "normal_y"];
const COUNTS: [&str; 3] = ["distance_calls", "searches", "root_steps"];
const CORNERS: [&str; 4] = ["corner_a_1", "corner_a_2", "corner_b_1", "corner_b_2"];
const PROVED: [&str; 2] = ["clear_up_to", "contact_by"];

pub fn csv(words: Vec<OsString>) -> Result<u8, Fault> {
    let (_, rows) = rows(words)?;
    reader::printed(&csv_of(&rows))?;
    Ok(0)
}

fn csv_of(rows: &[Row]) -> String {
    let mut out = "block,job,refusal,reason,status".to_string();
    FLOATS.iter().for_each(|name| out.push_str(&format!(",{name},{name}_bits")));
    COUNTS.iter().chain(&CORNERS).chain(&["proved"]).for_each(|name| out.push_str(&format!(",{name}")));
    PROVED.iter().for_each(|name| out.push_str(&format!(",{name},{name}_bits")));
    out.push_str(",pieces\n");
    let columns = out.matches(',').count();
    for row in rows {
        let mut line = format!("{},{}", row.block, row.job);
        match &row.told {
            Err((refusal, why)) => {
                let _ = write!(line, ",{refusal},\"{}\"", why.replace('"', "\"\""));
                line.push_str(&",".repeat(columns - 3));
            }
            Ok((verdict, told, pieces)) => {
                let _ = write!(line, ",,,{}", letter(verdict.status));
                verdict.floats.iter().for_each(|x| line.push_str(&format!(",{},{:08X}", shortest(*x), bits(*x))));
                verdict.counts.iter().for_each(|count| line.push_str(&format!(",{count}")));
                for side in verdict.corners {
                    line.push_str(&side.map_or(",,".to_string(), |[first, second]| format!(",{first},{second}")));
                }
                let (word, fractions) = proved(*told);
                let _ = write!(line, ",{word}");
                for x in fractions {
                    line.push_str(&x.map_or(",,".to_string(), |x| format!(",{},{:08X}", shortest(x), bits(x))));
                }
                let _ = write!(line, ",{pieces}");
            }
        }
        out.push_str(&line);
        out.push('\n');
    }
    out
}

pub fn json(words: Vec<OsString>) -> Result<u8, Fault> {
    let (name, rows) = rows(words)?;
    reader::printed(&json_of(&name, &rows))?;
    Ok(0)
}

/// A text between quotes.
fn quoted(text: &str) -> String {
    let mut out = "\"".to_string();
    for c in text.chars() {
        match c {
            '"' | '\\' => out.extend(['\\', c]),
            c if c < ' ' => out.push_str(&format!("\\u{:04x}", c as u32)),
            c => out.push(c),
        }
    }
    out + "\""
}

fn float(x: f32) -> String {
    let value = if x.is_finite() { shortest(x) } else { "null".to_string() };
    format!("{{\"value\": {value}, \"bits\": \"{:08X}\"}}", bits(x))
}

fn json_of(name: &str, rows: &[Row]) -> String {
    let mut out = format!("{{\"batch\": {}, \"blocks\": [", quoted(name));
    let mut totals = [0usize; 8];
    for (i, row) in rows.iter().enumerate() {
        out.push_str(if i == 0 { "\n" } else { ",\n" });
        let _ = write!(out, "{{\"block\": {}, \"job\": {}", row.block, row.job);
        match &row.told {
            Err((refusal, why)) => {
                totals[7] += 1;
                let _ = write!(out, ", \"refusal\": {refusal}, \"reason\": {}", quoted(why));
            }
            Ok((verdict, told, pieces)) => {
                totals["SHOF".find(letter(verdict.status)).unwrap_or(0)] += 1;
                let _ = write!(out, ", \"status\": \"{}\"", letter(verdict.status));
                FLOATS.iter().zip(verdict.floats).for_each(|(name, x)| out.push_str(&format!(", \"{name}\": {}", float(x))));
                COUNTS.iter().zip(verdict.counts).for_each(|(name, count)| out.push_str(&format!(", \"{name}\": {count}")));
                for (side, corners) in ["a", "b"].iter().zip(verdict.corners) {
                    let corners = corners.map_or("null".to_string(), |[first, second]| format!("[{first}, {second}]"));
                    let _ = write!(out, ", \"corners_{side}\": {corners}");
                }
                let (word, fractions) = proved(*told);
                totals[4 + ["CLEAR", "TOUCH", "OPEN"].iter().position(|known| *known == word).unwrap_or(0)] += 1;
                let _ = write!(out, ", \"proved\": \"{word}\"");
                for (name, x) in PROVED.iter().zip(fractions) {
                    if let Some(x) = x {
                        let _ = write!(out, ", \"{name}\": {}", float(x));
                    }
                }
                let _ = write!(out, ", \"pieces\": {pieces}");
            }
        }
        out.push('}');
    }
    let _ = write!(out, "\n], \"totals\": {{\"blocks\": {}", rows.len());
    ["S", "H", "O", "F", "CLEAR", "TOUCH", "OPEN", "refused"].iter().zip(totals).for_each(|(name, n)| out.push_str(&format!(", \"{name}\": {n}")));
    out + "}}\n"
}
