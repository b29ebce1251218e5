//! What the texts of jobs and of routes share: pieces of lines `name: ..`, numbers, and how a fault is told.
use std::fmt;

/// The largest coordinate, radius or slop of the domain.
pub(super) const LIMIT: f32 = 1_048_576.0;

/// The most jobs or legs that one turn is cut into.
const MOST_STEPS: f64 = 1000.0;

/// A turn by more degrees than this in one step gets a warning.
const SMALL_TURN: f64 = 10.0;

/// The longest word that a message repeats, in characters.
const LONGEST_WORD: usize = 40;

/// Something told of a text, with its place.
#[derive(Clone, Debug, PartialEq, Eq, PartialOrd, Ord)]
pub struct Told {
    /// The line, counted from 1.
    pub line: usize,
    /// The job's number, where the text says one.
    pub job: Option<u32>,
    /// What is told.
    pub what: String,
}

impl fmt::Display for Told {
    fn fmt(&self, f: &mut fmt::Formatter<'_>) -> fmt::Result {
        match self.job {
            Some(job) => write!(f, "line {}, job {job}: {}", self.line, self.what),
            None => write!(f, "line {}: {}", self.line, self.what),
        }
    }
}

impl std::error::Error for Told {}

/// One line `name: said` of a text.
pub(super) struct Line<'a> {
    pub line: usize,
    pub name: String,
    pub said: &'a str,
}

/// A piece of a text, its lines up to a blank one.
pub(super) struct Piece<'a> {
    pub first: usize,
    pub lines: Vec<Line<'a>>,
}

/// What is told of a line without a name.
pub(super) const NO_NAME: &str = "a line is `name: numbers`";

/// The text as its lines, comments gone, in pieces; the name is empty where a line has none.
pub(super) fn pieces(text: &str) -> Vec<Piece<'_>> {
    let mut all: Vec<Piece> = Vec::new();
    let mut open = false;
    for (i, line) in text.lines().enumerate() {
        let said = line.split('#').next().unwrap_or("").trim();
        if line.trim().is_empty() {
            open = false;
        }
        if said.is_empty() {
            continue;
        }
        if !open {
            all.push(Piece { first: i + 1, lines: Vec::new() });
            open = true;
        }
        let (name, said) = said.split_once(':').unwrap_or(("", said));
        let name = name.split_whitespace().collect::<Vec<_>>().join(" ");
        if let Some(piece) = all.last_mut() {
            piece.lines.push(Line { line: i + 1, name, said: said.trim() });
        }
    }
    all
}

/// The text without its byte order mark, or every line that is no UTF-8.
pub(super) fn decoded(bytes: &[u8]) -> Result<&str, Vec<Told>> {
    let fault = |line, what: String| Told { line, job: None, what };
    if bytes.starts_with(b"\xff\xfe") || bytes.starts_with(b"\xfe\xff") {
        return Err(vec![fault(1, "this is UTF-16: save the text as UTF-8".to_string())]);
    }
    let bytes = bytes.strip_prefix(b"\xef\xbb\xbf").unwrap_or(bytes);
    std::str::from_utf8(bytes).map_err(|_| {
        let wrong = |(i, line): (usize, &[u8])| {
            let place = std::str::from_utf8(line).err()?.valid_up_to();
            Some(fault(i + 1, format!("byte {} of the line, {:02X}, is no UTF-8: save the text as UTF-8", place + 1, line[place])))
        };
        bytes.split(|b| *b == b'\n').enumerate().filter_map(wrong).collect()
    })
}

/// A word as a message repeats it.
pub(super) fn cut(word: &str) -> String {
    if word.chars().count() <= LONGEST_WORD {
        return word.to_string();
    }
    word.chars().take(LONGEST_WORD - 2).chain("..".chars()).collect()
}

/// A number that f32 can hold; `nan`, `inf` and `1_000` are words here.
pub(super) fn number(word: &str) -> Result<f64, String> {
    let digits = word.bytes().all(|b| b.is_ascii_digit() || b"+-.eE".contains(&b));
    let shown = cut(word);
    match (digits, word.parse::<f64>(), word.parse::<f32>()) {
        // rounded once: where rounding twice would give another float of 32 bits, that float itself
        (true, Ok(x), Ok(small)) if small.is_finite() => Ok(if x as f32 == small { x } else { f64::from(small) }),
        (true, Ok(_), Ok(_)) => Err(format!("{shown} is too large for a float of 32 bits")),
        _ => {
            let pointed = word.replacen(',', ".", 1);
            let cure = if !word.contains(',') {
                if word.starts_with(['\u{2212}', '\u{2013}', '\u{2014}']) {
                    ": the minus sign is `-`".to_string()
                } else {
                    String::new()
                }
            } else if !pointed.contains(',') && pointed.parse::<f64>().is_ok() {
                format!(": the decimal point is `.`, as in {}, and blanks part numbers", cut(&pointed))
            } else {
                ": blanks part numbers, not commas".to_string()
            };
            Err(format!("`{shown}` is not a number{cure}"))
        }
    }
}

/// The numbers of a line.
pub(super) fn numbers(said: &str) -> Result<Vec<f64>, String> {
    said.split_whitespace().map(number).collect()
}

/// So many numbers, or what is wrong.
pub(super) fn counted(name: &str, numbers: Vec<f64>, least: usize, most: usize) -> Result<Vec<f64>, String> {
    let n = numbers.len();
    if (least..=most).contains(&n) {
        return Ok(numbers);
    }
    let takes = match (least, most) {
        (1, 1) => "one number",
        (2, 2) => "two numbers",
        (4, 4) => "four numbers",
        _ => "one number or two",
    };
    Err(format!("`{name}` takes {takes}, not {n}"))
}

/// The numbers of an outline's corners, of which a batch or a route takes so many.
pub(super) fn corners(numbers: Vec<f64>, most: usize, taker: &str) -> Result<Vec<f64>, String> {
    let n = numbers.len();
    if n % 2 == 1 {
        return Err(format!("{n} {} no point{}: x y for each", if n == 1 { "number is" } else { "numbers are" }, if n == 1 { "" } else { "s" }));
    }
    if !(1..=most).contains(&(n / 2)) {
        return Err(format!("{} points: {taker} takes 1 to {most}", n / 2));
    }
    Ok(numbers)
}

pub(super) fn to_f32(numbers: &[f64]) -> Vec<f32> {
    numbers.iter().map(|x| *x as f32).collect()
}

/// The corners of a rectangle about 0 0, in the library's order.
pub(super) fn plate(half: &[f32]) -> Vec<f32> {
    let (x, y) = (half[0], half[1]);
    vec![x, y, -x, y, x, -y, -x, -y]
}

/// Cosine and sine, exact at quarter turns.
pub(super) fn turned(degrees: f64) -> [f32; 2] {
    let quarter = degrees.rem_euclid(360.0);
    for (angle, exact) in [(0.0, [1.0, 0.0]), (90.0, [0.0, 1.0]), (180.0, [-1.0, 0.0]), (270.0, [0.0, -1.0])] {
        if quarter == angle {
            return exact;
        }
    }
    let (sine, cosine) = degrees.to_radians().sin_cos();
    [cosine as f32, sine as f32]
}

/// How many equal steps of at most so many degrees a turn makes.
pub(super) fn steps(turn: f64, by: f64) -> f64 {
    // a rest of less than a millionth is rounding
    (turn.abs() / by - 1e-6).ceil().max(1.0)
}

/// Why a turn cannot be cut so.
pub(super) fn steps_fault(turn: f64, by: f64) -> Option<String> {
    (steps(turn, by) > MOST_STEPS).then(|| format!("that makes more than {MOST_STEPS} steps"))
}

/// The degrees of a step, fitting.
pub(super) fn step_of(numbers: Vec<f64>) -> Result<Vec<f64>, String> {
    if numbers[0] > 0.0 && numbers[0] < 180.0 {
        Ok(numbers)
    } else {
        Err("a step of a turn is above 0 and below 180 degrees".to_string())
    }
}

/// From one number to another in so many steps; the ends themselves are not worked out.
pub(super) fn between(from: f64, to: f64, k: u32, count: u32) -> f64 {
    match k {
        0 => from,
        k if k == count => to,
        k => from + (to - from) * (f64::from(k) / f64::from(count)),
    }
}

pub(super) const HALF_TURN: &str = "a turn of 180 degrees or more goes another way round: cut it into steps, as by `turn by: 10`";

/// What a turn that is none in degrees looks like.
pub(super) fn radians_warning(degrees: f64) -> Option<String> {
    let size = degrees.abs();
    (size > 0.0 && size < 6.3 && size.fract() != 0.0)
        .then(|| format!("warning: {degrees} looks like radians; turns are in degrees, and {degrees} radians are {:.2}", degrees.to_degrees()))
}

/// What a turn in one step is worth.
pub(super) fn turn_warning(body: &str, step: f64) -> Option<String> {
    let size = step.abs();
    (size > SMALL_TURN + 1e-6).then(|| {
        let shown = format!("{size:.2}");
        let shown = shown.trim_end_matches('0').trim_end_matches('.');
        format!("warning: {body} turns by {shown} degrees in one step, and S does not clear such a turn: `turn by: 10` cuts it")
    })
}

/// Which field lies outside the domain, in words.
pub(super) fn coordinate_fault(what: &str, x: f32) -> Option<String> {
    (x.abs() > LIMIT).then(|| format!("{what} is {x}, above {LIMIT} in size"))
}

/// Words that people write for those of the texts.
const KIN: &[(&str, &str)] = &[
    ("center", "centre"),
    ("middle", "centre"),
    ("pivot", "centre"),
    ("start", "from"),
    ("begin", "from"),
    ("first", "from"),
    ("end", "to"),
    ("last", "to"),
    ("goal", "to"),
    ("turn", "turned"),
    ("angle", "turned"),
    ("rotation", "turned"),
    ("rotated", "turned"),
    ("degrees", "turned"),
    ("rectangle", "plate"),
    ("rect", "plate"),
    ("box", "plate"),
    ("segment", "bar"),
    ("tolerance", "slop"),
    ("max fraction", "fraction"),
    ("step", "turn by"),
    ("steps", "turn by"),
    ("number", "job"),
    ("units", "unit"),
    ("waypoint", "at"),
    ("position", "at"),
    ("obstacle", "still"),
    ("column", "still"),
];

/// The message for a name that no text has, with the one that was meant where it can be told.
pub(super) fn no_such_name(name: &str, known: &[&str]) -> String {
    let shown = cut(name);
    match meant(name, known) {
        Some(meant) => format!("no such name: `{shown}`; is `{meant}` meant?"),
        None => format!("no such name: `{shown}`"),
    }
}

fn meant(name: &str, known: &[&str]) -> Option<String> {
    let plain = name.to_lowercase().replace(['_', '-'], " ");
    let words: Vec<&str> = plain.split_whitespace().collect();
    let kin = |word: &str| KIN.iter().find(|(said, _)| *said == word).map_or(word.to_string(), |(_, meant)| meant.to_string());
    let mut tries = vec![words.join(" ")];
    let whole = kin(&tries[0]);
    tries.push(whole);
    tries.push(words.iter().map(|word| kin(word)).collect::<Vec<_>>().join(" "));
    tries.push(words.iter().rev().map(|word| kin(word)).collect::<Vec<_>>().join(" "));
    for said in &tries {
        if known.contains(&said.as_str()) {
            return Some(said.clone());
        }
    }
    let near = |known: &&&str| tries.iter().map(|said| changes(said, known)).min().unwrap_or(usize::MAX);
    let best = known.iter().min_by_key(near)?;
    (near(&best) <= 1 + best.len() / 6).then(|| best.to_string())
}

/// How many letters have to be changed, added or taken away.
fn changes(from: &str, to: &str) -> usize {
    let to: Vec<char> = to.chars().collect();
    let mut row: Vec<usize> = (0..=to.len()).collect();
    for (i, a) in from.chars().enumerate().take(200) {
        let mut corner = row[0];
        row[0] = i + 1;
        for (j, b) in to.iter().enumerate() {
            let next = (corner + usize::from(a != *b)).min(row[j] + 1).min(row[j + 1] + 1);
            corner = row[j + 1];
            row[j + 1] = next;
        }
    }
    row[to.len()]
}

#[cfg(test)]
mod tests {
    use super::*;

    #[test]
    fn a_name_leads_to_the_one_that_was_meant() {
        let known = ["job", "a", "a plate", "radius a", "a centre", "a from", "a turned", "turn by", "slop", "unit"];
        for (said, told) in [
            ("a center", "a centre"),
            ("A plate", "a plate"),
            ("A", "a"),
            ("a_plate", "a plate"),
            ("plate a", "a plate"),
            ("a radius", "radius a"),
            ("a start", "a from"),
            ("a turn", "a turned"),
            ("a angle", "a turned"),
            ("Slop", "slop"),
            ("slopp", "slop"),
            ("a form", "a from"),
            ("turn-by", "turn by"),
            ("tolerance", "slop"),
        ] {
            assert_eq!(meant(said, &known).as_deref(), Some(told), "{said}");
        }
        assert_eq!(meant("weather", &known), None);
    }

    #[test]
    fn numbers_and_their_cures() {
        assert_eq!(number("12.5"), Ok(12.5));
        assert_eq!(number("12,5").unwrap_err(), "`12,5` is not a number: the decimal point is `.`, as in 12.5, and blanks part numbers");
        assert_eq!(number("1,2,3").unwrap_err(), "`1,2,3` is not a number: blanks part numbers, not commas");
        assert_eq!(number("\u{2212}5").unwrap_err(), "`\u{2212}5` is not a number: the minus sign is `-`");
        let long = number(&"x".repeat(5000)).unwrap_err();
        assert_eq!(long, format!("`{}..` is not a number", "x".repeat(38)));
    }

    #[test]
    fn what_is_no_utf_8_has_its_line() {
        assert_eq!(decoded(b"\xef\xbb\xbfjob: 7"), Ok("job: 7"));
        let faults = decoded(b"job: 7\nname: K\xe4fig\nb: \xff\n").unwrap_err();
        let told: Vec<String> = faults.iter().map(Told::to_string).collect();
        assert_eq!(
            told,
            ["line 2: byte 8 of the line, E4, is no UTF-8: save the text as UTF-8", "line 3: byte 4 of the line, FF, is no UTF-8: save the text as UTF-8"]
        );
        assert_eq!(decoded(b"\xff\xfej\0").unwrap_err()[0].to_string(), "line 1: this is UTF-16: save the text as UTF-8");
    }

    #[test]
    fn turns_that_are_worth_a_word() {
        assert!(radians_warning(1.5708).unwrap().contains("1.5708 radians are 90.00"));
        for plain in [0.0, 1.0, 6.0, 6.5, 90.0, 22.5] {
            assert_eq!(radians_warning(plain), None);
        }
        assert!(radians_warning(-0.1).is_some());
        assert_eq!(turn_warning("a", 10.0), None);
        let told = "warning: a turns by 22.5 degrees in one step, and S does not clear such a turn: `turn by: 10` cuts it";
        assert_eq!(turn_warning("a", -22.5).unwrap(), told);
    }
}
