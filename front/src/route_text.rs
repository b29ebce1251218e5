//! A route as a person writes it, turned into the text that `route` reads.
//!
//! The text has a paragraph for the cart, then one for each waypoint in order and one for each still outline in order; a blank line ends each, `#` starts a
//! comment. Lengths are in the shop's unit, angles in degrees, counterclockwise.
//!
//! | paragraph | name | numbers |
//! |---|---|---|
//! | the cart | `cart`, `cart plate` or `cart bar` | corners about the cart's centre, 1 to 64 points; half sizes; two ends: one of them must be there |
//! | | `slop` | 0.005 |
//! | | `unit` | none. Words |
//! | a waypoint | `at` | where the cart's centre stands, x y: must be there |
//! | | `turned` | as at the waypoint before; 0 at the first |
//! | | `turn by` | not cut. So many degrees at most: the leg that leads here becomes several, equal ones |
//! | a still outline | `still`, `still plate` or `still bar` | as the cart's: one of them must be there |
//! | | `at`, `turned` | 0 0 and 0: turned about 0 0, then shifted |
//! | each | `name` | none. Words, told with the number that `route` prints |
//!
//! A text in which anything does not fit is refused whole, each fault told with its line; so is what `route` would refuse.
use super::text::{
    between, coordinate_fault, corners, counted, cut, decoded, no_such_name, numbers, pieces, plate, radians_warning, step_of, steps, steps_fault, to_f32,
    turn_warning, turned, Piece, Told, HALF_TURN, NO_NAME,
};
use std::collections::HashMap;
use std::fmt::Write;

const MOST_POINTS: usize = 64;
const MOST_WAYPOINTS: usize = 33;
const MOST_STILLS: usize = 32;

const NAMES: [&str; 12] = ["cart", "cart plate", "cart bar", "slop", "unit", "at", "turned", "turn by", "still", "still plate", "still bar", "name"];

/// What a text comes to.
#[derive(Clone, Debug, PartialEq)]
pub struct Route {
    /// The slop.
    pub slop: f32,
    /// The cart's corners, x y x y ..
    pub cart: Vec<f32>,
    /// Each waypoint: centre x y, rotation c s.
    pub ways: Vec<[f32; 4]>,
    /// Each still outline where it stands.
    pub stills: Vec<Vec<f32>>,
    /// Warnings, legs that were cut, and what was named.
    pub notes: Vec<Told>,
}

impl Route {
    /// The text that `route` reads.
    pub fn lines(&self) -> String {
        let mut out = String::new();
        let mut line = |name: &str, numbers: &[f32]| {
            out.push_str(name);
            for x in numbers {
                let _ = write!(out, " {:08X}", x.to_bits());
            }
            out.push('\n');
        };
        line("SLOP", &[self.slop]);
        line("CART", &self.cart);
        self.ways.iter().for_each(|way| line("AT", way));
        self.stills.iter().for_each(|still| line("STILL", still));
        out
    }
}

/// One line of a piece, fitting its name.
struct Field<'a> {
    line: usize,
    said: &'a str,
    numbers: Vec<f64>,
}

type Fields<'a> = HashMap<String, Field<'a>>;

/// A waypoint with its angle in degrees.
struct Way {
    at: [f64; 2],
    angle: f64,
}

/// The route of a text, or every fault, in the order of the lines.
pub fn read(bytes: &[u8]) -> Result<Route, Vec<Told>> {
    let text = decoded(bytes)?;
    let mut faults = Vec::new();
    let mut out = Route { slop: 0.005, cart: Vec::new(), ways: Vec::new(), stills: Vec::new(), notes: Vec::new() };
    let all = pieces(text);
    let mut before: Option<Way> = None;
    let mut told_last = 1;
    for piece in &all {
        told_last = piece.first;
        let fields = given(piece, &mut faults);
        let kind = |name: &str| [name.to_string(), format!("{name} plate"), format!("{name} bar")].into_iter().find(|name| fields.contains_key(name));
        let mut tell = |line: usize, what: String| faults.push(Told { line, job: None, what });
        let (own, takes): (&str, &[&str]) = match (kind("cart"), kind("still"), fields.contains_key("at")) {
            (Some(_), ..) => ("the cart", &["slop", "unit", "name"]),
            (None, Some(_), _) => ("a still outline", &["at", "turned", "name"]),
            (None, None, true) => ("a waypoint", &["at", "turned", "turn by", "name"]),
            _ => {
                tell(piece.first, "a paragraph is the cart (`cart`), a waypoint (`at`) or a still outline (`still`); a blank line ends it".to_string());
                continue;
            }
        };
        let outline = kind("cart").or_else(|| kind("still"));
        for (name, field) in &fields {
            if !takes.contains(&name.as_str()) && Some(name) != outline.as_ref() {
                tell(field.line, format!("`{name}` does not belong to {own}"));
            }
        }
        let found = faults.len();
        match (own, outline) {
            ("a waypoint", _) => waypoint(&fields, &mut before, &mut out, &mut faults),
            ("the cart", Some(name)) => cart(&name, &fields, piece.first, &mut out, &mut faults),
            (_, Some(name)) => still(&name, &fields, &mut out, &mut faults),
            _ => {}
        }
        if let (true, Some(field)) = (faults.len() == found, fields.get("name")) {
            let number = match own {
                "a waypoint" => format!("waypoint {}", out.ways.len()),
                "the cart" => own.to_string(),
                _ => format!("outline {}", out.stills.len()),
            };
            out.notes.push(Told { line: field.line, job: None, what: format!("{number} is {}", cut(field.said)) });
        }
    }
    let mut tell = |what: String| faults.push(Told { line: told_last, job: None, what });
    if all.is_empty() {
        tell("no route is in the text".to_string());
    } else if out.cart.is_empty() {
        tell("no line `cart`, `cart plate` or `cart bar`".to_string());
    }
    if !all.is_empty() && !(2..=MOST_WAYPOINTS).contains(&out.ways.len()) {
        tell(format!("{} waypoints: a route takes 2 to {MOST_WAYPOINTS}, and would be refused by 16", out.ways.len()));
    }
    if !all.is_empty() && !(1..=MOST_STILLS).contains(&out.stills.len()) {
        tell(format!("{} still outlines: a route takes 1 to {MOST_STILLS}, and would be refused by 17", out.stills.len()));
    }
    if faults.is_empty() {
        Ok(out)
    } else {
        faults.sort();
        Err(faults)
    }
}

/// The lines of a piece, each fitting its name, with every fault told. A line that does not fit is there without its numbers.
fn given<'a>(piece: &Piece<'a>, faults: &mut Vec<Told>) -> Fields<'a> {
    let mut fields = Fields::new();
    for line in &piece.lines {
        let mut tell = |what: String| faults.push(Told { line: line.line, job: None, what });
        let name = &line.name;
        if fields.contains_key(name) {
            tell(format!("`{name}` stands twice: a blank line ends a waypoint and an outline"));
            continue;
        }
        let numbers = match name.as_str() {
            "" => Err(NO_NAME.to_string()),
            "name" | "unit" => Ok(Vec::new()),
            _ => numbers_of(name, line.said),
        };
        match numbers {
            Ok(numbers) => {
                fields.insert(name.clone(), Field { line: line.line, said: line.said, numbers });
            }
            Err(what) => {
                tell(what);
                // the piece keeps its kind
                if NAMES.contains(&name.as_str()) {
                    fields.insert(name.clone(), Field { line: line.line, said: line.said, numbers: Vec::new() });
                }
            }
        }
    }
    fields
}

fn numbers_of(name: &str, said: &str) -> Result<Vec<f64>, String> {
    if !NAMES.contains(&name) {
        return Err(no_such_name(name, &NAMES));
    }
    let given = numbers(said)?;
    match name {
        "cart" | "still" => corners(given, MOST_POINTS, "an outline"),
        "cart plate" | "still plate" => match counted(name, given, 2, 2)? {
            half if half.iter().any(|x| *x < 0.0) => Err("a half size is not below 0".to_string()),
            half => Ok(half),
        },
        "cart bar" | "still bar" => counted(name, given, 4, 4),
        "at" => counted(name, given, 2, 2),
        "turn by" => counted(name, given, 1, 1).and_then(step_of),
        _ => counted(name, given, 1, 1),
    }
}

/// The corners of an outline line, as they are written or built; none where its numbers do not fit.
fn outline(name: &str, fields: &Fields, faults: &mut Vec<Told>) -> Vec<f32> {
    let field = &fields[name];
    let numbers = to_f32(&field.numbers);
    let list = if name.ends_with(" plate") && !numbers.is_empty() { plate(&numbers) } else { numbers };
    if let Some(what) = list.iter().find_map(|x| coordinate_fault("a corner's part", *x)) {
        faults.push(Told { line: field.line, job: None, what: format!("{what}: it would be refused by 3") });
    }
    list
}

fn cart(name: &str, fields: &Fields, first: usize, out: &mut Route, faults: &mut Vec<Told>) {
    if !out.cart.is_empty() {
        return faults.push(Told { line: first, job: None, what: "a route has one cart".to_string() });
    }
    out.cart = outline(name, fields, faults);
    if let Some(field) = fields.get("slop").filter(|field| !field.numbers.is_empty()) {
        out.slop = field.numbers[0] as f32;
        let told = if out.slop <= 0.0 { Some(format!("the slop is {}, and has to be above 0", out.slop)) } else { coordinate_fault("the slop", out.slop) };
        faults.extend(told.map(|what| Told { line: field.line, job: None, what: format!("{what}: it would be refused by 8") }));
    }
}

/// A still outline, turned about 0 0 and then shifted, each operation rounded as the library's builders round it.
fn still(name: &str, fields: &Fields, out: &mut Route, faults: &mut Vec<Told>) {
    let mut list = outline(name, fields, faults);
    let get = |name: &str| fields.get(name).filter(|field| !field.numbers.is_empty());
    if get("at").is_some() || get("turned").is_some() {
        let [c, s] = turned(get("turned").map_or(0.0, |field| field.numbers[0]));
        let shift = get("at").map_or(vec![0.0, 0.0], |field| to_f32(&field.numbers));
        for p in list.chunks_exact_mut(2) {
            let (x, y) = (p[0], p[1]);
            p[0] = c * x - s * y + shift[0];
            p[1] = s * x + c * y + shift[1];
        }
        if let Some(what) = list.iter().find_map(|x| coordinate_fault("a corner's part, where it stands,", *x)) {
            faults.push(Told { line: fields[name].line, job: None, what: format!("{what}: it would be refused by 3") });
        }
    }
    let note = get("turned").and_then(|field| radians_warning(field.numbers[0]).map(|what| Told { line: field.line, job: None, what }));
    out.notes.extend(note);
    out.stills.push(list);
}

/// A waypoint, or several where the turn that leads to it is cut.
fn waypoint(fields: &Fields, before: &mut Option<Way>, out: &mut Route, faults: &mut Vec<Told>) {
    let at = match fields["at"].numbers.as_slice() {
        [x, y] => [*x, *y],
        _ => return,
    };
    let mut fault = |line: usize, what: String| faults.push(Told { line, job: None, what });
    for x in at {
        if let Some(what) = coordinate_fault("a part", x as f32) {
            fault(fields["at"].line, format!("{what}: it would be refused by 6"));
        }
    }
    let field = fields.get("turned").filter(|field| !field.numbers.is_empty());
    let angle = field.map_or(before.as_ref().map_or(0.0, |way| way.angle), |field| field.numbers[0]);
    let mut note = |line: usize, what: Option<String>| out.notes.extend(what.map(|what| Told { line, job: None, what }));
    let by = fields.get("turn by").filter(|by| !by.numbers.is_empty());
    let mut count = 1;
    match (&*before, by) {
        (None, Some(by)) => fault(by.line, "no leg leads to the first waypoint: there is nothing to cut".to_string()),
        (None, None) => note(field.map_or(0, |field| field.line), radians_warning(angle)),
        (Some(from), by) => {
            let turn = angle - from.angle;
            let line = field.map_or(fields["at"].line, |field| field.line);
            match by {
                Some(by) => match steps_fault(turn, by.numbers[0]) {
                    Some(what) => fault(by.line, what),
                    None => count = steps(turn, by.numbers[0]) as u32,
                },
                None if turn.abs() >= 180.0 => fault(line, HALF_TURN.to_string()),
                None => {}
            }
            note(line, radians_warning(turn));
            note(line, turn_warning("the cart", turn / f64::from(count)));
            if let (Some(by), true) = (by, count > 1) {
                let leg = out.ways.len();
                note(by.line, Some(format!("cut into {count} steps, legs {leg} to {}", leg + count as usize - 1)));
            }
        }
    }
    let from = before.take().unwrap_or(Way { at, angle });
    let first = if out.ways.is_empty() { count } else { 1 };
    for k in first..=count {
        let [c, s] = turned(between(from.angle, angle, k, count));
        out.ways.push([between(from.at[0], at[0], k, count) as f32, between(from.at[1], at[1], k, count) as f32, c, s]);
    }
    *before = Some(Way { at, angle });
}

/// For `--help`.
pub const HELP: &str = "\
usage: foldflake routetext ROUTE

Reads a route written as text and prints what `route` reads; ROUTE may be - for standard input. So:
  set -o pipefail; foldflake routetext hall.txt | foldflake route -

Paragraphs of lines `name: numbers`, blanks between the numbers, angles in degrees; a blank line ends a paragraph, # starts a comment.
  cart plate: 1 0.6      the cart: half sizes; or  cart bar: x y  x y ; or  cart: x y  x y ..  corners about its centre, 1 to 64
  slop: 0.005            beside it; how near counts as contact
  unit: m                beside it; words

  at: 6 0                a waypoint: where the cart's centre stands; a paragraph for each, in order, 2 to 33
  turned: 90             its angle there; as at the one before where nothing is said
  turn by: 10            cuts the leg that leads here into equal steps of at most so many degrees
  name: bay 3            words, told with the number that `route` prints

  still plate: 0.5 0.5   a still outline; or  still bar , or  still ; a paragraph for each, 1 to 32
  at: 4 2                turned about 0 0 and then shifted so; 0 0
  turned: 45             0

What does not fit is told with its line, nothing is printed then, and the exit status is 2.
";

/// What `routetext` prints and tells.
pub fn made(bytes: &[u8]) -> Result<super::reader::Made, Vec<Told>> {
    read(bytes).map(|route| super::reader::Made {
        text: route.lines(),
        wrote: format!("a route of {} legs past {} outlines written", route.ways.len() - 1, route.stills.len()),
        notes: route.notes,
    })
}
