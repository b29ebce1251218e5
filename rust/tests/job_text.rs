//! Jobs and routes from text through the proved library. What each text comes to, and every message, is tested beside the code, in front/.
use foldflake::{bar, line, placed_bar, placed_plate, plate, route, Route, Waypoint};
use front::{job_text, route_text};

#[allow(dead_code)]
#[path = "../../front/src"]
mod front {
    pub mod batch;
    pub mod job_text;
    mod moves;
    pub mod route_text;
    mod text;
    mod words;

    // of the front end's reader only what a text comes to: its streams and programs are not wanted here
    mod reader {
        pub struct Made {
            pub text: String,
            pub wrote: String,
            pub notes: Vec<super::text::Told>,
        }
    }
}

/// The letters that the sheet has for a text's jobs.
fn letters(text: &str) -> String {
    let jobs = job_text::read(text.as_bytes()).unwrap().jobs;
    jobs.iter().map(|job| line(1, &job.block()).unwrap().split(' ').nth(3).unwrap().to_string()).collect()
}

const SWING: &str = "a plate: 5 5\nb: 0 -20  4 -20  4 20  0 20\nb from: 6 0\na turned: 0 90\n";

#[test]
fn a_cut_turn_tells_what_the_whole_one_hides() {
    assert_eq!(letters(&format!("job: 2113\n{SWING}")), "S");
    assert_eq!(letters(&format!("job: 2113\n{SWING}turn by: 10\n")), "SHOOOOOOS");
}

/// A text that is taken is refused by none of 3 to 8, and one that means a refusal by just that.
#[test]
fn what_is_told_here_is_what_the_sheet_refuses() {
    for (said, refusal) in [
        ("a: 0 4000000", 3),
        ("radius a: -1", 4),
        ("radius b: 1048577", 4),
        ("a centre: 0 -2e6", 6),
        ("b from: 2e6 0", 6),
        ("fraction: 1.5", 7),
        ("slop: 0", 8),
        ("slop: 1e-50", 8),
        ("slop: 2e6\nradius a: -1\nb to: 0 3e6", 4),
    ] {
        let a = if said.starts_with("a: ") { "" } else { "a: 0 0\n" };
        let text = format!("job: 7\nb: 1 1\n{a}{said}\nmeant: refused by {refusal}\n");
        let job = &job_text::read(text.as_bytes()).unwrap().jobs[0];
        assert_eq!(line(1, &job.block()).unwrap(), format!("1 7 {refusal}\n"), "{said}");
    }
    for said in ["a turned: 33 77.25", "radius a: 1048576", "slop: 1048576", "slop: 1e-45", "fraction: 0", "a from: 1048576 -1048576", "a turned: -1e9 -1e9"] {
        let text = format!("job: 7\na: 0 0\nb: 1 1\n{said}\n");
        let job = &job_text::read(text.as_bytes()).unwrap().jobs[0];
        assert!(line(1, &job.block()).unwrap().starts_with("1 7 0 "), "{said}");
    }
}

/// Plates, bars and where they are placed come out as the library builds them, bit by bit.
#[test]
fn outlines_are_the_librarys() {
    let mut list = [0f32; 8];
    let bits = |numbers: &[f32]| numbers.iter().map(|x| x.to_bits()).collect::<Vec<u32>>();
    for half in [[6.0f32, 4.0], [0.0, 2.5], [-0.0, 0.1]] {
        let job = &job_text::read(format!("job: 7\na plate: {} {}\nb: 0 0\n", half[0], half[1]).as_bytes()).unwrap().jobs[0];
        assert_eq!(job.words[26..34], bits(plate(half, &mut list).unwrap())[..], "{half:?}");
    }
    let job = &job_text::read(b"job: 7\na bar: 0.1 -0.7 3 4\nb: 0 0\n").unwrap().jobs[0];
    assert_eq!(job.words[26..30], bits(bar([0.1, -0.7], [3.0, 4.0], &mut list).unwrap())[..]);
    for degrees in [0.0f64, 90.0, 33.3, -120.0, 271.5] {
        let placed = format!("at: 4.1 -2.2\nturned: {degrees}\n\n");
        let text = format!("cart: 0 0\n\nat: 0 0\n\nat: 9 0\n\nstill plate: 1.3 0.7\n{placed}still bar: 0 0  3 1\n{placed}");
        let route = route_text::read(text.as_bytes()).unwrap();
        let (sine, cosine) = degrees.to_radians().sin_cos();
        let turned = if degrees % 90.0 == 0.0 { [cosine.round() as f32, sine.round() as f32] } else { [cosine as f32, sine as f32] };
        assert_eq!(bits(&route.stills[0]), bits(placed_plate([1.3, 0.7], turned, [4.1, -2.2], &mut list).unwrap()), "{degrees}");
        assert_eq!(bits(&route.stills[1]), bits(placed_bar([0.0, 0.0], [3.0, 1.0], turned, [4.1, -2.2], &mut list).unwrap()), "{degrees}");
    }
}

#[test]
fn the_hall_has_no_contact() {
    let hall = route_text::read(include_bytes!("../../examples/hall.txt")).unwrap();
    let ways: Vec<Waypoint> = hall.ways.iter().map(|w| Waypoint { center: [w[0], w[1]], rotation: [w[2], w[3]] }).collect();
    let stills: Vec<&[f32]> = hall.stills.iter().map(Vec::as_slice).collect();
    assert_eq!(route(&hall.cart, &ways, &stills, hall.slop), Ok(Route::Clear(34)));
}
