//! Texts of jobs and of routes: what they come to, and each message.
use super::batch::Job;
use super::job_text::{self, read};
use super::route_text;
use super::text::Told;

fn lines(text: &str) -> Vec<String> {
    let jobs = read(text.as_bytes()).unwrap_or_else(|faults| panic!("{text}\n{faults:?}"));
    let lines = jobs.lines();
    assert!(lines.is_empty() || lines.ends_with('\n'));
    lines.lines().map(str::to_string).collect()
}

fn notes(text: &str) -> Vec<String> {
    read(text.as_bytes()).unwrap().notes.iter().map(Told::to_string).collect()
}

#[test]
fn plates_and_bars_are_their_corners() {
    let same = |shapes: &str, corners: &str| assert_eq!(lines(&format!("job: 7\n{shapes}\n")), lines(&format!("job: 7\n{corners}\n")), "{shapes}");
    same("a plate: 6 4\nb bar: 1 2 -3 4", "a: 6 4  -6 4  6 -4  -6 -4\nb: 1 2  -3 4");
    same("a bar: 1 2 1 2\nb plate: 0 2", "a: 1 2  1 2\nb: 0 2  -0 2  0 -2  -0 -2");
    same("a plate: -0 0\nb: 1 1", "a: -0 0  0 0  -0 -0  0 -0\nb: 1 1");
}

#[test]
fn what_is_missing_and_how_lines_may_stand() {
    let short = lines("job: 7\na: 0 0\nb: 1 1");
    let spelt = "# one job\r\n  job :  7 # its number\r\na:0 0\nb: 1 1\n# a comment parts nothing\nradius a: 0\nradius b: 0\nfraction: 1\nslop: 0.005\n\
                 a   centre: 0 0\na from: 0 0\na to: 0 0\na turned: 0 0\nb centre: 0 0\nb from: 0 0\nb to: 0 0\nb turned: 360\n\n\n";
    assert_eq!(short, lines(spelt));
    // where the body starts is where it ends, unless another place is said
    assert_eq!(lines("job: 7\na: 0 0\nb: 1 1\na from: 3 4\n"), lines("job: 7\na: 0 0\nb: 1 1\na from: 3 4\na to: 3 4\n"));
}

/// 1 + 2^-24 lies between two floats, and a little above it rounds up, although the nearest double is 1 + 2^-24 itself.
#[test]
fn a_decimal_is_rounded_once() {
    let text = lines("job: 7\na: 1.00000005960464477540 0.1\nb: 1 1\n");
    assert!(text[0].contains(" 3F800001 3DCCCCCD "), "{}", text[0]);
}

const SWING: &str = "a plate: 5 5\nb: 0 -20  4 -20  4 20  0 20\nb from: 6 0\na turned: 0 90\n";

#[test]
fn a_turn_is_cut_into_steps() {
    let cut = format!("job: 2113\n{SWING}turn by: 10\n");
    assert_eq!(notes(&cut), ["line 6, job 2113: cut into 9 steps, jobs 2113 to 2121"]);
    let jobs: Vec<String> = lines(&cut).iter().map(|job| job.split(' ').next().unwrap().to_string()).collect();
    assert_eq!(jobs, ["2113", "2114", "2115", "2116", "2117", "2118", "2119", "2120", "2121"]);
    // at most so many degrees, in equal steps: 90 in four of 22.5
    assert!(notes(&format!("job: 1\n{SWING}turn by: 25\n"))[0].contains("cut into 4 steps"));
    // each step is the one that would be typed
    let second = "job: 2114\na plate: 5 5\nb: 0 -20  4 -20  4 20  0 20\nb from: 6 0\na turned: 10 20\n";
    assert_eq!(lines(&cut)[1], lines(second)[0]);
    assert_eq!(lines(&format!("job: 1\n{SWING}turn by: 90\n")), lines(&format!("job: 1\n{SWING}")), "one step");
    assert!(!notes(&format!("job: 1\n{SWING}turn by: 90\n")).iter().any(|note| note.contains("cut into")));
}

#[test]
fn the_centre_goes_straight_through_the_steps() {
    let cut = lines("job: 5\na plate: 1 1\nb: 9 9\na from: 0 3\na to: 6 0\na turned: 0 -30\nb turned: 5 10\nturn by: 10\n");
    let typed = |from: &str, to: &str, a: &str, b: &str| format!("a plate: 1 1\nb: 9 9\na from: {from}\na to: {to}\na turned: {a}\nb turned: {b}\n");
    assert_eq!(cut.len(), 3);
    assert_eq!(cut[0], lines(&format!("job: 5\n{}", typed("0 3", "2 2", "0 -10", "5 6.666666666666667")))[0]);
    assert_eq!(cut[2], lines(&format!("job: 7\n{}", typed("4 1", "6 0", "-20 -30", "8.333333333333334 10")))[0]);
    // cut, a turn may be of any size
    assert_eq!(lines("job: 5\na plate: 1 1\nb: 9 9\na turned: 0 720\nturn by: 90\n").len(), 8);
}

/// The first fault of a text: its line and job, and a part of what is said.
fn refused(text: &str, at: &str, what: &str) {
    let told = read(text.as_bytes()).expect_err(text)[0].to_string();
    assert!(told.starts_with(&format!("{at}: ")) && told.contains(what), "{text}\n{told}");
}

#[test]
fn every_fault_names_line_and_job() {
    for (said, what) in [
        ("a form: 1 2", "no such name"),
        ("c from: 1 2", "no such name"),
        ("a: 2 2", "`a` stands twice"),
        ("a plate: 2 2", "given already, by `a`"),
        ("b bar: 0 0 1 1", "given already, by `b`"),
        ("a from 1 2", "name: numbers"),
        ("a from: 1,2", "`1,2` is not a number: the decimal point is `.`, as in 1.2, and blanks part numbers"),
        ("radius a: 12,5", "`12,5` is not a number: the decimal point is `.`, as in 12.5"),
        ("a from: 1,2,3", "blanks part numbers, not commas"),
        ("a center: 0 0", "no such name: `a center`; is `a centre` meant?"),
        ("A plate: 1 1", "no such name: `A plate`; is `a plate` meant?"),
        ("A from: 1 1", "is `a from` meant?"),
        ("a radius: 1", "is `radius a` meant?"),
        ("Slop: 1", "is `slop` meant?"),
        ("a angle: 0 90", "is `a turned` meant?"),
        ("unit: mm", "`unit` stands alone, before the first job"),
        ("meant: so", "`meant` takes `number again` or `refused by` 3 to 8"),
        ("meant: refused by 9", "`meant` takes"),
        ("meant: refused by 8", "meant to be refused by 8, and the sheet would not refuse it"),
        ("a from: 1", "takes two numbers, not 1"),
        ("slop: 0.1 0.2", "takes one number, not 2"),
        ("a turned: 1 2 3", "takes one number or two, not 3"),
        ("slop:", "takes one number, not 0"),
        ("slop: nan", "not a number"),
        ("slop: 1_0", "not a number"),
        ("slop: 0x1", "not a number"),
        ("slop: 1e39", "too large"),
        ("a turned: 0 180", "180 degrees or more"),
        ("a turned: 90 -100", "180 degrees or more"),
        ("turn by: 0", "above 0 and below 180"),
        ("turn by: 180", "above 0 and below 180"),
    ] {
        refused(&format!("job: 7\na: 0 0\nb: 1 1\n{said}\n"), "line 4, job 7", what);
    }
    for points in ["0 0 1", "", &(0..34).map(|i| format!("{i} ")).collect::<String>()] {
        refused(&format!("job: 8\nb: 1 1\na: {points}\n"), "line 3, job 8", "point");
    }
    for number in ["0", "4294967296", "1.5", "-3", "+3", "", "7 8"] {
        refused(&format!("job: {number}\na: 0 0\nb: 1 1\n"), "line 1", "a job number is one whole number");
    }
    for (said, what) in [
        ("a plate: 6", "takes two numbers"),
        ("a plate: 6 -4", "not below 0"),
        ("a plate: 6 x", "not a number"),
        ("a plate: 2000000 1", "a half size is 2000000, above 1048576 in size: the sheet would refuse it by 3"),
        ("a bar: 0 0", "takes four numbers"),
        ("a bar: 0 0 0 -2000000", "an end's part is -2000000, above 1048576 in size: the sheet would refuse it by 3"),
    ] {
        refused(&format!("job: 9\nb bar: 0 0 1 1\n{said}\n"), "line 3, job 9", what);
    }
    refused("job: 9\nb bar: 0 0 1 1\nb: 0 0\na: 1 1\n", "line 3, job 9", "given already, by `b bar`");
    refused("\njob: 9\na: 0 0\n", "line 2, job 9", "no line `b`");
    refused("\n\nb plate: 1 1\njob: 9\n", "line 3, job 9", "no line `a`");
    refused("a: 0 0\nb: 1 1\n", "line 1", "no line `job`");
}

#[test]
fn steps_that_cannot_be_counted_are_refused() {
    refused(&format!("job: 4294967295\n{SWING}turn by: 10\n"), "line 1, job 4294967295", "count on above");
    refused(&format!("job: 7\n{SWING}turn by: 0.01\n"), "line 6, job 7", "more than 1000 steps");
    refused(&format!("job: 7\n{SWING}turn by: 10\nfraction: 0.5\n"), "line 6, job 7", "`fraction` has to be 1");
    refused(&format!("job: 7\n{SWING}turn by: 10\n\njob: 15\na: 0 0\nb: 1 1\n"), "line 8, job 15", "the steps of job 7 count on to this number, 15: line 6");
    refused(&format!("job: 7\n{SWING}turn by: 10\n\njob: 7\n{SWING}turn by: 30\n"), "line 8, job 7", "the steps of job 7 count on to this number, 7: line 6");
    assert_eq!(lines(&format!("job: 7\n{SWING}turn by: 10\n\njob: 16\na: 0 0\nb: 1 1\n")).len(), 10);
}

#[test]
fn every_fault_of_a_text_is_told() {
    let faults = read(b"job: 1\na: 1\nb: 0\n\njob: 2\na plate: 2000000 1\nb: 0 0\n\nnonsense\n").unwrap_err();
    let at: Vec<usize> = faults.iter().map(|fault| fault.line).collect();
    assert_eq!(at, [2, 3, 6, 9, 9, 9, 9]);
}

#[test]
fn a_number_stands_once_unless_it_is_meant() {
    let twice = |more: &str| format!("job: 7\na: 0 0\nb: 1 1\n\njob: 7\na: 0 0\nb: 1 1\n{more}");
    refused(&twice(""), "line 5, job 7", "this number stands already: line 1; `meant: number again` says that it is meant");
    assert_eq!(lines(&twice("meant: number again\n")).len(), 2);
    // the earlier one cannot say it for the later
    refused("job: 7\na: 0 0\nb: 1 1\nmeant: number again\n\njob: 7\na: 0 0\nb: 1 1\n", "line 6, job 7", "stands already");
    refused(&format!("job: 9\na: 0 0\nb: 1 1\n\njob: 7\n{SWING}turn by: 10\n"), "line 5, job 7", "its steps count on to 9, which another job has: line 1");
}

#[test]
fn what_the_sheet_would_refuse_is_told_here() {
    for (said, what) in [
        ("a: 0 4000000", "corner 0: y is 4000000, above 1048576 in size: the sheet would refuse it by 3"),
        ("radius a: -1", "the radius is -1, below 0: the sheet would refuse it by 4"),
        ("radius b: 1048577", "the radius is 1048577, above 1048576 in size: the sheet would refuse it by 4"),
        ("a centre: 0 -2e6", "a part is -2000000, above 1048576 in size: the sheet would refuse it by 6"),
        ("b from: 2e6 0", "the sheet would refuse it by 6"),
        ("b to: 0 2e6", "the sheet would refuse it by 6"),
        ("fraction: 1.5", "the fraction is 1.5, and has to lie in 0 to 1: the sheet would refuse it by 7"),
        ("fraction: -0.1", "the sheet would refuse it by 7"),
        ("slop: 0", "the slop is 0 as a float of 32 bits, and has to be above 0: the sheet would refuse it by 8"),
        ("slop: 1e-50", "the slop is 0 as a float of 32 bits"),
        ("slop: -0.1", "the slop is -0.1, below 0: the sheet would refuse it by 8"),
        ("slop: 2e6", "the sheet would refuse it by 8"),
    ] {
        let a = if said.starts_with("a: ") { "" } else { "a: 0 0\n" };
        let text = format!("job: 7\nb: 1 1\n{a}{said}\n");
        let line = 3 + usize::from(!a.is_empty());
        refused(&text, &format!("line {line}, job 7"), what);
        let refusal = what.rsplit(' ').next().and_then(|n| n.parse::<u32>().ok()).unwrap_or(8);
        assert_eq!(lines(&format!("{text}meant: refused by {refusal}\n")).len(), 1, "{said}");
        let other = if refusal == 3 { 4 } else { 3 };
        let told = read(format!("{text}meant: refused by {other}\n").as_bytes()).unwrap_err()[0].to_string();
        assert!(told.ends_with(&format!("meant to be refused by {other}, and the sheet would refuse it by {refusal}")), "{told}");
    }
    // -0 and the limit itself are fine
    assert_eq!(lines("job: 7\na: 1048576 -1048576\nb: 1 1\nradius a: -0\nfraction: -0\n").len(), 1);
}

#[test]
fn a_blank_line_within_a_job_is_told() {
    let faults = read(b"job: 7\na: 0 0\n\nb: 1 1\n").unwrap_err();
    let told: Vec<String> = faults.iter().map(Told::to_string).collect();
    assert_eq!(told[0], "line 1, job 7: no line `b`, `b plate` or `b bar` (a blank line ends a job)");
    assert!(told.contains(&"line 4: no line `job`: a blank line ends a job, and one stands before this line".to_string()), "{told:?}");
}

#[test]
fn texts_as_files_have_them() {
    let plain = lines("job: 7\na: 0 0\nb: 1 1\n");
    assert_eq!(lines("\u{feff}job: 7\na: 0 0\nb: 1 1\n"), plain, "a byte order mark");
    assert_eq!(lines("job: 7\r\na: 0 0\r\nb: 1 1\r\n"), plain);
    for empty in ["", "\n", "# nothing\n\n", "\u{feff}", "unit: mm\n"] {
        refused(empty, "line 1", "no job is in the text");
    }
    let told = read(b"job: 7\nname: K\xe4fig\na: 0 0\nb: 1 1\n").unwrap_err();
    assert_eq!(told.iter().map(Told::to_string).collect::<Vec<_>>(), ["line 2: byte 8 of the line, E4, is no UTF-8: save the text as UTF-8"]);
    let long = "9".repeat(3000);
    let told = read(format!("job: 7\na: 0 {long}x\nb: 1 1\n").as_bytes()).unwrap_err()[0].to_string();
    assert_eq!(told, format!("line 2, job 7: `{}..` is not a number", "9".repeat(38)));
    let told = read(format!("job: 7\na: 0 0\nb: 1 1\n{long}: 1\n").as_bytes()).unwrap_err()[0].to_string();
    assert!(told.len() < 100, "{told}");
}

#[test]
fn turns_get_a_warning() {
    let turn = |said: &str| notes(&format!("job: 7\na plate: 1 1\nb: 9 9\n{said}\n"));
    assert_eq!(turn("a turned: 0 10"), Vec::<String>::new());
    let cure = "in one step, and S does not clear such a turn: `turn by: 10` cuts it";
    assert_eq!(turn("a turned: 0 90"), [format!("line 4, job 7: warning: a turns by 90 degrees {cure}")]);
    assert_eq!(turn("b turned: 20 -2.5"), [format!("line 4, job 7: warning: b turns by 22.5 degrees {cure}")]);
    assert_eq!(turn("a turned: 0 90\nturn by: 10").len(), 1, "that it is cut");
    assert!(turn("a turned: 0 90\nturn by: 30")[1].contains("turns by 30 degrees in one step"));
    let radians = "line 4, job 7: warning: 1.5708 looks like radians; turns are in degrees, and 1.5708 radians are 90.00";
    assert_eq!(turn("a turned: 0 1.5708"), [radians]);
    assert_eq!(turn("a turned: 1.5708"), [radians]);
    assert_eq!(turn("a turned: 0 6"), Vec::<String>::new());
    assert_eq!(turn("a turned: 45"), Vec::<String>::new(), "turned, not turning");
}

#[test]
fn names_and_the_unit_are_kept() {
    let jobs =
        read(b"# a shift\nunit: 100 mm\n\njob: 7\nname: cart at press 2\na: 0 0\nb: 1 1\n\njob: 8\na: 0 0\nb: 1 1\na turned: 0 20\nturn by: 10\nname: swing\n")
            .unwrap();
    assert_eq!(jobs.unit, "100 mm");
    let titles: Vec<String> = jobs.jobs.iter().map(|job| job.title()).collect();
    assert_eq!(titles, ["cart at press 2", "swing, step 1 of 2", "swing, step 2 of 2"]);
    let block = jobs.jobs[0].block();
    assert_eq!((Job::of(&block).number, jobs.jobs[0].is(&block), jobs.jobs[1].is(&block)), (7, true, false));
    let mut form_2 = block;
    form_2[6] = 2;
    assert!(jobs.jobs[0].is(&form_2));
    let sample = read(include_bytes!("../../examples/shift.txt")).unwrap();
    let made: Vec<u8> = sample.jobs.iter().flat_map(|job| job.block()).collect();
    assert!(made == include_bytes!("../../examples/shift.batch"), "another batch");
    assert_eq!(sample.notes.len(), 2 + 4, "two are meant to be refused, four turn: {:?}", sample.notes);
    assert_eq!(job_text::made(b"job: 7\na: 0 0\nb: 1 1\n").unwrap().wrote, "1 job written");
}

// ---- routes

const ROUTE: &str = "cart plate: 1 0.5\nslop: 0.01\n\nat: 0 0\n\nat: 9 0\n\nstill: 5 3\n";

fn route_refused(text: &str, told: &str) {
    let faults = route_text::read(text.as_bytes()).expect_err(text);
    assert!(faults.iter().any(|fault| fault.to_string().starts_with(told)), "{text}\n{faults:?}\n{told}");
}

#[test]
fn a_route_comes_to_the_lines_of_route() {
    let lines = route_text::read(ROUTE.as_bytes()).unwrap().lines();
    assert_eq!(
        lines,
        "SLOP 3C23D70A\nCART 3F800000 3F000000 BF800000 3F000000 3F800000 BF000000 BF800000 BF000000\nAT 00000000 00000000 3F800000 00000000\n\
         AT 41100000 00000000 3F800000 00000000\nSTILL 40A00000 40400000\n"
    );
    let hall = route_text::read(include_bytes!("../../examples/hall.txt")).unwrap();
    assert_eq!((hall.ways.len(), hall.stills.len(), hall.slop), (6, 6, 0.005));
    // the stored route has its corners in another order, and a quarter turn a hair off
    let mut stored = include_str!("../../examples/hall.route").lines();
    assert_eq!(hall.lines().lines().next(), stored.next());
    let first_still = [4.5f32, 2.5, 3.5, 2.5, 4.5, 1.5, 3.5, 1.5];
    assert_eq!(hall.stills[0], first_still);
    let told: Vec<String> = hall.notes.iter().map(Told::to_string).collect();
    for said in [
        "line 14: cut into 3 steps, legs 2 to 4",
        "line 15: waypoint 5 is between the columns",
        "line 22: outline 1 is column 1",
        "line 4: the cart is die cart",
    ] {
        assert!(told.iter().any(|told| told == said), "{said}: {told:?}");
    }
    assert!(told.iter().any(|told| told.contains("warning: the cart turns by 30 degrees in one step")), "{told:?}");
    // turned about 0 0, then shifted; a waypoint keeps the angle of the one before
    let placed = route_text::read(b"cart bar: 0 0  1 0\n\nat: 0 0\nturned: 90\n\nat: 1 1\n\nstill bar: 0 0  2 0\nturned: 90\nat: 5 5\n").unwrap();
    assert_eq!(placed.stills, [[5.0, 5.0, 5.0, 7.0]]);
    assert_eq!(placed.ways[1], [1.0, 1.0, 0.0, 1.0]);
    assert_eq!(route_text::made(ROUTE.as_bytes()).unwrap().wrote, "a route of 1 legs past 1 outlines written");
}

#[test]
fn every_fault_of_a_route_is_told() {
    for (from, to, told) in [
        ("cart plate: 1 0.5", "cart plate: 1 -0.5", "line 1: a half size is not below 0"),
        ("cart plate: 1 0.5", "cart: 1", "line 1: 1 number is no point: x y for each"),
        ("cart plate: 1 0.5", "cart plate: 1 2e6", "line 1: a corner's part is 2000000, above 1048576 in size: it would be refused by 3"),
        ("cart plate: 1 0.5", "Cart plate: 1 1", "line 1: no such name: `Cart plate`; is `cart plate` meant?"),
        ("slop: 0.01", "slop: 0", "line 2: the slop is 0, and has to be above 0: it would be refused by 8"),
        ("slop: 0.01", "slop: 0,01", "line 2: `0,01` is not a number: the decimal point is `.`, as in 0.01"),
        ("slop: 0.01", "turned: 5", "line 2: `turned` does not belong to the cart"),
        ("at: 9 0", "at: 9", "line 6: `at` takes two numbers, not 1"),
        ("at: 9 0", "at: 2e6 0", "line 6: a part is 2000000, above 1048576 in size: it would be refused by 6"),
        ("at: 9 0", "at: 9 0\nturned: 180", "line 7: a turn of 180 degrees or more"),
        ("at: 9 0", "at: 9 0\nturned: 170\nturn by: 5", "line 10: 35 waypoints: a route takes 2 to 33, and would be refused by 16"),
        ("at: 0 0", "at: 0 0\nturn by: 5", "line 5: no leg leads to the first waypoint"),
        ("at: 0 0\n\n", "at: 0 0\n", "line 5: `at` stands twice: a blank line ends a waypoint and an outline"),
        ("still: 5 3", "still: 5 3\nturn by: 5", "line 9: `turn by` does not belong to a still outline"),
        ("still: 5 3", "still: 1048576 0\nat: 1 0", "line 8: a corner's part, where it stands, is 1048577"),
        ("still: 5 3", "name: x", "line 8: a paragraph is the cart (`cart`), a waypoint (`at`) or a still outline (`still`)"),
        ("still: 5 3", "", "line 6: 0 still outlines: a route takes 1 to 32, and would be refused by 17"),
        ("cart plate: 1 0.5\nslop: 0.01\n", "", "line 6: no line `cart`, `cart plate` or `cart bar`"),
    ] {
        route_refused(&ROUTE.replacen(from, to, 1), told);
    }
    route_refused("", "line 1: no route is in the text");
    let warned = ROUTE.replacen("at: 9 0", "at: 9 0\nturned: 1.5708", 1);
    let told = route_text::read(warned.as_bytes()).unwrap().notes[0].to_string();
    assert_eq!(told, "line 7: warning: 1.5708 looks like radians; turns are in degrees, and 1.5708 radians are 90.00");
}

#[test]
fn a_short_text_of_jobs_and_its_faults() {
    let jobs = read(b"job: 7\na plate: 1 1\nb: 0 0\nb from: 9 0\nb to: 1 0\n").unwrap();
    assert!(jobs.lines().starts_with("7 4 1 00000000 00000000 3F800000 3BA3D70A "));
    let faults = read(b"job: 7\nb: 0 0\n\njob: 8\na: 1\nb: 0 0\n").unwrap_err();
    assert_eq!(faults[0].to_string(), "line 1, job 7: no line `a`, `a plate` or `a bar`");
    assert_eq!(faults[1].to_string(), "line 5, job 8: 1 number is no point: x y for each");
}

#[test]
fn a_short_text_of_a_route() {
    let route = route_text::read(b"cart plate: 1 0.5\nslop: 0.01\n\nat: 0 0\n\nat: 9 0\n\nstill: 5 3\nname: post\n").unwrap();
    assert_eq!(route.lines().lines().last(), Some("STILL 40A00000 40400000"));
    assert_eq!(route.notes[0].to_string(), "line 9: outline 1 is post");
}
