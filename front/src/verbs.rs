//! The verbs of `foldflake`.
use super::files::Work;
use super::programs::{beside_programs, of, Ended, Fault, Input, Programs};
use super::reader::{self, bytes_of, is_stream, put};
use super::{check, job_text, page_file, route_text, tables};
use std::ffi::OsString;
use std::path::{Path, PathBuf};
use std::sync::Arc;

/// The version, as Cargo.toml has it.
const VERSION: &str = "1.0.0";

const HELP: &str = "\
usage: foldflake VERB ..

  check [--page PAGE.html] [--rooms] JOBS.txt|BATCH ..    what is proved of each job's whole move, in words
  page [--drawings N|all] [--text JOBS] BATCH PAGE.html   the batch as a page to read and print
  text JOBS.txt OUT.batch                                 a batch from jobs as text
  csv BATCH, json BATCH                                   all answers, for other programs

  clearance BATCH       what holds at every moment of each move: CLEAR, TOUCH or OPEN
  all-clear BATCH       the first block that is not proved clear, or none
  sheet, sheet64 BATCH  the travel sheet, worked in f32 or f64
  any-contact BATCH     the first block that the search calls a contact, or none
  report BATCH ..       one table over several batches
  route ROUTE           a cart's route past still outlines by the search; ROUTE is as text or as `route` reads it
  route-clearance ROUTE the same, proved over each whole leg
  unpack BATCH, pack LINES                                a batch as lines, and back
  convert IN OUT        each block in the other form
  salvage IN OUT        the whole blocks of a damaged batch
  jobtext JOBS.txt, routetext ROUTE.txt                   texts as the lines that `pack` and `route` read

`foldflake VERB --help` says more, `foldflake --version` what this is. - stands for a standard stream.
Exit status: check, clearance, all-clear and route-clearance give 0 where every job or leg is proved clear, and 1 where one is not; the other verbs give 0 where
their output is whole. 2 is for wrong arguments and for whatever fails.
";

const TEXT: &str = "\
usage: foldflake text JOBS.txt OUT.batch

Writes the blocks of jobs as text (`foldflake jobtext --help` lists the names); - stands for a standard stream. What does not fit is told with its line, and
then nothing is written. The file is made beside its place and put there once it is whole; a file there that is no batch is kept as OUT.batch.old.
The exit status is 0, or 2 where something fails.
";

const REPORT: &str = "\
usage: foldflake report BATCH ..

Prints one table over the batches; - alone stands for standard input. The exit status is 0 where it is whole, or 2.
";

const CONVERT: &str = "\
usage: foldflake convert IN OUT

Writes each block of IN in the other form to OUT, and prints the numbers of those that are refused; - stands for a standard stream, and where OUT is - the
numbers go to standard error. The exit status is 0 where every block was written, or 2.
";

const SALVAGE: &str = "\
usage: foldflake salvage IN OUT

Writes the whole blocks of a damaged batch to OUT, and prints which bytes were skipped, then TOTAL; - stands for a standard stream, and where OUT is - the
lines go to standard error. The exit status is 0 where TOTAL came, or 2.
";

/// What has to come of a program so that its output is whole, and what it judges.
#[derive(Clone, Copy)]
enum Whole {
    /// A last line of totals.
    Total,
    /// The same, and all blocks are CLEAR.
    AllClear,
    /// A line.
    Line,
    /// The line `none`.
    None,
    /// A line that begins with this.
    Begins(&'static str),
    /// A last line that begins with this.
    Last(&'static str),
    /// Nothing told on standard error: no line or block is left out.
    Silent,
}

/// Verbs that print what a program prints: verb, program, what it reads, what makes it whole, in words.
const PASSED: [(&str, &str, &str, Whole, &str); 9] = [
    ("sheet", "sheet", "BATCH", Whole::Total, "Prints the travel sheet: a line a block, then TOTAL."),
    ("sheet64", "sheet64", "BATCH", Whole::Total, "Prints the travel sheet, worked in f64."),
    ("clearance", "clearance", "BATCH", Whole::AllClear, "Prints what holds at every moment of each block's move: CLEAR, TOUCH or OPEN; then TOTAL."),
    ("any-contact", "any_contact", "BATCH", Whole::Line, "Prints the number of the first block that is H or O, or none, which clears nothing."),
    ("all-clear", "all_clear", "BATCH", Whole::None, "Prints the number of the first block that is not proved clear over its whole move, or none."),
    ("route", "route", "ROUTE", Whole::Line, "Prints how a route ends by the search. ROUTE may be as text, too."),
    ("route-clearance", "route_clearance", "ROUTE", Whole::Begins("0 CLEAR "), "Prints what is proved of a route. ROUTE may be as text, too."),
    ("unpack", "unpack", "BATCH", Whole::Silent, "Prints a line for each block of form 1."),
    ("pack", "pack", "LINES", Whole::Silent, "Writes a block for each line."),
];

/// Runs the verb that the words begin with.
pub fn run(mut words: Vec<OsString>) -> u8 {
    let verb = match words.is_empty() {
        true => {
            eprint!("{HELP}");
            return 2;
        }
        false => words.remove(0).to_string_lossy().into_owned(),
    };
    let ended = match (verb.as_str(), help_of(&verb)) {
        ("help" | "--help" | "-h", _) if words.is_empty() => reader::printed(HELP).map(|()| 0),
        ("help" | "--help" | "-h", _) => {
            return run(vec![words.remove(0), OsString::from("--help")]);
        }
        ("--version" | "-V", _) => version(),
        (_, None) => Err(Fault::Said("there is no such verb; `foldflake help` lists them".to_string())),
        (_, Some(help)) if words.iter().any(|word| word == "--help" || word == "-h") => reader::printed(&help).map(|()| 0),
        (verb, Some(_)) => worked(verb, words),
    };
    match ended {
        Ok(status) => status,
        // as the shell tells of a program that the signal ended
        Err(Fault::Pipe) => 141,
        Err(Fault::Said(what)) => {
            eprintln!("foldflake {verb}: {what}");
            2
        }
        Err(Fault::Usage(what)) => {
            let help = help_of(&verb).unwrap_or_default();
            eprintln!("foldflake {verb}: {what}; {}; --help explains", help.lines().next().unwrap_or_default());
            2
        }
    }
}

fn help_of(verb: &str) -> Option<String> {
    let fixed = match verb {
        "check" => check::HELP,
        "page" => page_file::HELP,
        "csv" => tables::CSV,
        "json" => tables::JSON,
        "jobtext" => job_text::HELP,
        "routetext" => route_text::HELP,
        "text" => TEXT,
        "report" => REPORT,
        "convert" => CONVERT,
        "salvage" => SALVAGE,
        _ => {
            let (_, _, reads, whole, says) = PASSED.iter().find(|row| row.0 == verb)?;
            let status = match whole {
                Whole::AllClear => "0 where every block is proved clear, 1 where one is not, 2 where something fails or no block came",
                Whole::None => "0 after none, 1 after a number, 2 where something fails or no block came",
                Whole::Begins(_) => "0 where every leg is proved clear past every outline, 1 where one is not, 2 where something fails",
                Whole::Silent => "0, or 2 where something fails or is left out, which is told on standard error",
                _ => "0 where that is whole, or 2",
            };
            return Some(format!("usage: foldflake {verb} {reads}\n\n{says} {reads} may be - for standard input.\nThe exit status is {status}.\n"));
        }
    };
    Some(fixed.to_string())
}

fn version() -> Result<u8, Fault> {
    let built = std::env::var("FOLDFLAKE_BUILT").ok().or_else(|| beside_programs("built")).unwrap_or_default();
    reader::printed(&format!("foldflake {VERSION}\n{}", if built.is_empty() { String::new() } else { format!("{}\n", built.trim_end()) }))?;
    Ok(0)
}

/// The names that a verb takes, no more and no fewer.
pub fn names<const N: usize>(words: Vec<OsString>, what: &str) -> Result<[PathBuf; N], Fault> {
    if let Some(what) = words.iter().find_map(|word| reader::option_fault(&word.to_string_lossy())) {
        return Err(Fault::Said(what));
    }
    let names: Vec<PathBuf> = words.into_iter().map(PathBuf::from).collect();
    names.try_into().map_err(|_| Fault::Usage(what.to_string()))
}

fn worked(verb: &str, words: Vec<OsString>) -> Result<u8, Fault> {
    match verb {
        "check" => check::run(words),
        "page" => page_file::run(words),
        "text" => check::text(words),
        "csv" => tables::csv(words),
        "json" => tables::json(words),
        "jobtext" | "routetext" => {
            let [name] = names::<1>(words, "a text is named")?;
            let make = if verb == "jobtext" { job_text::made } else { route_text::made };
            let made = reader::read(&name, make(&bytes_of(&name)?), |made| &made.notes)?;
            reader::printed(&made.text)?;
            eprintln!("{}: {}", name.display(), made.wrote);
            Ok(0)
        }
        "report" => report(words),
        "convert" | "salvage" => to_file(verb, words),
        _ => passed(verb, words),
    }
}

fn passed(verb: &str, words: Vec<OsString>) -> Result<u8, Fault> {
    let (_, program, reads, whole, _) = PASSED.iter().find(|row| row.0 == verb).ok_or(Fault::Pipe)?;
    let [name] = names::<1>(words, "what is read is named")?;
    let input = match *reads {
        "ROUTE" => {
            let bytes = bytes_of(&name)?;
            match is_route_text(&bytes) {
                true => {
                    let made = reader::read(&name, route_text::made(&bytes), |made| &made.notes)?;
                    Input::Bytes(Arc::new(made.text.into_bytes()))
                }
                false => Input::Bytes(Arc::new(bytes)),
            }
        }
        "BATCH" => batch_input(&name)?,
        _ => input(&name)?,
    };
    let ended = Programs::found()?.run(program, &[], input, true, &mut |part| put(part))?;
    judged(program, *whole, &ended)
}

fn input(name: &Path) -> Result<Input, Fault> {
    match is_stream(name) {
        true => reader::input_is_open().map(|()| Input::Standard),
        false => Ok(Input::File(name.to_path_buf())),
    }
}

/// What a program reads that wants a batch.
fn batch_input(name: &Path) -> Result<Input, Fault> {
    reader::no_text(name, &reader::start_of(name))?;
    input(name)
}

/// Whether a route is one that a person wrote: it does not begin as `route` reads it, and has names with a colon.
fn is_route_text(bytes: &[u8]) -> bool {
    !bytes.starts_with(b"SLOP ") && bytes.contains(&b':')
}

/// The status of a program's output; a fault where it is not whole.
fn judged(program: &str, whole: Whole, ended: &Ended) -> Result<u8, Fault> {
    ended.well(program)?;
    let torn = || Fault::Said(format!("what `{program}` printed is not whole"));
    if let Whole::Silent = whole {
        let what = format!("`{program}` told {} lines on standard error: what they name is not in its output", ended.told.len());
        return if ended.told.is_empty() { Ok(0) } else { Err(Fault::Said(what)) };
    }
    let line = ended.last_line().ok_or_else(torn)?;
    match whole {
        Whole::Total if line.starts_with("TOTAL ") => Ok(0),
        Whole::AllClear => {
            let counts: Option<Vec<u64>> = line.strip_prefix("TOTAL ").and_then(|counts| counts.split(' ').map(|count| count.parse().ok()).collect());
            match counts.as_deref() {
                Some([0, ..]) => Err(Fault::Said("no block came: nothing is proved".to_string())),
                Some([blocks, clear, ..]) => Ok(u8::from(blocks != clear)),
                _ => Err(torn()),
            }
        }
        Whole::Line if !line.is_empty() => Ok(0),
        Whole::None => Ok(u8::from(line != "none")),
        Whole::Begins(start) => Ok(u8::from(!line.starts_with(start))),
        Whole::Last(start) if line.starts_with(start) => Ok(0),
        _ => Err(torn()),
    }
}

fn report(words: Vec<OsString>) -> Result<u8, Fault> {
    if let Some(what) = words.iter().find_map(|word| reader::option_fault(&word.to_string_lossy())) {
        return Err(Fault::Said(what));
    }
    let (arguments, input) = match words.as_slice() {
        [] => return Err(Fault::Usage("batches are named".to_string())),
        [one] if one == "-" => (Vec::new(), input(Path::new("-"))?),
        all if all.iter().any(|name| name == "-") => return Err(Fault::Usage("standard input is reported alone".to_string())),
        all => {
            all.iter().map(Path::new).try_for_each(|name| reader::no_text(name, &reader::start_of(name)))?;
            (words, Input::Nothing)
        }
    };
    let ended = Programs::found()?.run("report", &arguments, input, true, &mut |part| put(part))?;
    judged("report", Whole::Last("STEPS "), &ended)
}

/// `convert` and `salvage`, which write a file.
fn to_file(verb: &str, words: Vec<OsString>) -> Result<u8, Fault> {
    let [from, to] = names::<2>(words, "what is read and what is written are named")?;
    // any bytes can be walked for blocks
    let input = if verb == "salvage" { input(&from)? } else { batch_input(&from)? };
    if std::fs::canonicalize(&from).is_ok_and(|from| std::fs::canonicalize(&to).is_ok_and(|to| from == to)) {
        return Err(Fault::Said(format!("{}: it is read, and would be replaced", to.display())));
    }
    let programs = Programs::found()?;
    let stream = is_stream(&to);
    let work = if stream { Some(Work::new()?) } else { None };
    let file = work.as_ref().map_or(to, |work| work.file("out"));
    let printed = &mut |part: &[u8]| match stream {
        true => std::io::Write::write_all(&mut std::io::stderr(), part),
        false => put(part),
    };
    let ended = programs.run(verb, &[file.clone().into_os_string()], input, true, printed)?;
    ended.well(verb)?;
    // what is kept as .old is told, and no fault
    let faults = ended.told.iter().filter(|line| !line.contains(".old")).count();
    let status = match verb {
        "salvage" => judged(verb, Whole::Total, &ended)?,
        _ if faults > 0 => return Err(Fault::Said("what it wrote is not whole".to_string())),
        _ if !ended.first.is_empty() => return Err(Fault::Said("the blocks whose numbers it printed are refused, and not in what it wrote".to_string())),
        _ => 0,
    };
    if stream {
        let bytes = std::fs::read(&file).map_err(of(file.display()))?;
        put(&bytes).map_err(of("standard output"))?;
    }
    Ok(status)
}

#[cfg(test)]
mod tests {
    use super::*;

    #[test]
    fn every_verb_has_its_help() {
        let more = ["check", "page", "text", "csv", "json", "report", "convert", "salvage", "jobtext", "routetext"];
        for verb in more.iter().chain(PASSED.iter().map(|row| &row.0)) {
            let help = help_of(verb).unwrap();
            assert!(help.starts_with(&format!("usage: foldflake {verb} ")) && help.ends_with('\n') && help.contains("xit status"), "{help}");
            assert!(HELP.contains(&format!("  {verb} ")) || HELP.contains(&format!(", {verb} ")) || HELP.contains(&format!("  {verb},")), "{verb}");
            assert!(help.lines().chain(HELP.lines()).all(|line| line.len() <= 160), "{verb}");
        }
        assert_eq!(help_of("jobs"), None);
    }

    #[test]
    fn the_version_is_the_packages() {
        assert!(include_str!("../Cargo.toml").contains(&format!("\nversion = \"{VERSION}\"\n")));
    }

    #[test]
    fn a_route_as_text_is_told_from_one_in_bits() {
        assert!(is_route_text(include_bytes!("../../examples/hall.txt")) && !is_route_text(include_bytes!("../../examples/hall.route")));
        assert!(!is_route_text(b"") && !is_route_text(b"CART 00000000\n"));
    }
}
