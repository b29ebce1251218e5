//! The safe face against answers worked out by hand or listed in the pages.
use foldflake::{
    bar, clearance, distance, gap, line, placed_bar, placed_plate, plate, pose, root, route, route_clearance, sweep, Cache, Clearance, Ending, Move, Pair, Pose,
    Refusal, Route, RouteClearance, RouteRefusal, Stop, Sweep, Waypoint,
};

const SQUARE: [f32; 8] = [-1.0, -1.0, 1.0, -1.0, 1.0, 1.0, -1.0, 1.0];
const POINT: [f32; 2] = [0.0, 0.0];
const WALL: [f32; 8] = [0.0, -20.0, 4.0, -20.0, 4.0, 20.0, 0.0, 20.0];

fn still(x: f32, y: f32) -> Move {
    Move { local_center: [0.0; 2], first: [x, y], last: [x, y], first_rotation: [1.0, 0.0], last_rotation: [1.0, 0.0] }
}

fn goes(from: [f32; 2], to: [f32; 2]) -> Move {
    Move { first: from, last: to, ..still(0.0, 0.0) }
}

#[test]
fn root_is_the_processors() {
    for bits in [0x4080_0000u32, 0x4000_0000, 1, 0x7f7f_ffff, 0x8000_0000, 0x7f80_0000, 0x3f80_0001] {
        let x = f32::from_bits(bits);
        assert_eq!(root(x).to_bits(), x.sqrt().to_bits(), "{bits:08X}");
    }
}

/// The example of docs/BATCH.md: job 7, a point goes from (4, 0) to a point at (0, 0).
fn example_block() -> [u8; 512] {
    let mut words = [0u32; 128];
    words[0] = 7;
    words[1] = 0x0101;
    for (place, x) in [(4, 1.0f32), (5, 0.5), (12, 1.0), (14, 1.0), (18, 4.0), (22, 1.0), (24, 1.0)] {
        words[place] = x.to_bits();
    }
    words[127] = !words.iter().fold(0u32, |sum, w| sum.wrapping_add(*w));
    assert_eq!(words[127], 0x42ff_fef7);
    let mut block = [0u8; 512];
    block.chunks_mut(4).zip(&words).for_each(|(place, w)| place.copy_from_slice(&w.to_le_bytes()));
    block
}

#[test]
fn a_block_has_its_line() {
    let block = example_block();
    let text = line(1, &block).unwrap();
    assert!(text.starts_with("1 7 0 H 3F600000 3E800000 00000000 3F800000 00000000 2 2 2 0 0 0 0"), "{text}");
    assert!(line(u64::MAX, &block).is_none() && line(0, &block).is_none());
    assert!(line(1 << 63, &block).unwrap().starts_with("9223372036854775808 7 0 H "));
    let mut damaged = block;
    damaged[3] ^= 1;
    assert_eq!(line(2, &damaged).unwrap(), "2 0 10\n");
}

#[test]
fn every_refusal_of_a_sweep() {
    let stands = still(4.0, 0.0);
    let by = |a: &[f32], b: &[f32], radius, m: &Move, fraction, slop| sweep(a, radius, m, b, 0.0, &stands, fraction, slop);
    let m = goes([0.0, 0.0], [4.0, 0.0]);
    let far = [1_048_576.125, 0.0];
    assert_eq!(by(&[], &SQUARE, 0.0, &m, 1.0, 0.01), Err(Refusal(1)));
    assert_eq!(by(&SQUARE, &[0.0; 3], 0.0, &m, 1.0, 0.01), Err(Refusal(2)));
    assert_eq!(by(&[0.0; 130], &SQUARE, 0.0, &m, 1.0, 0.01), Err(Refusal(1)));
    assert_eq!(by(&far, &SQUARE, 0.0, &m, 1.0, 0.01), Err(Refusal(3)));
    assert_eq!(by(&SQUARE, &SQUARE, -1.0, &m, 1.0, 0.01), Err(Refusal(4)));
    assert_eq!(by(&SQUARE, &SQUARE, 0.0, &Move { last_rotation: [1.0, 1.0], ..m }, 1.0, 0.01), Err(Refusal(5)));
    assert_eq!(by(&SQUARE, &SQUARE, 0.0, &Move { last: far, ..m }, 1.0, 0.01), Err(Refusal(6)));
    assert_eq!(by(&SQUARE, &SQUARE, 0.0, &m, f32::NAN, 0.01), Err(Refusal(7)));
    assert_eq!(by(&SQUARE, &SQUARE, 0.0, &m, 1.0, 0.0), Err(Refusal(8)));
    assert!(matches!(by(&[0.0; 128], &SQUARE, 0.0, &m, 1.0, 0.01), Ok(Sweep::Hit(..))));
}

#[test]
fn a_refusal_is_an_error_that_says_why() {
    for n in (1..=8).chain([15]) {
        let told = Refusal(n).to_string();
        assert!(told.starts_with(&format!("refused by {n}: ")) && !told.contains("no reason"), "{told}");
    }
    let error: Box<dyn std::error::Error> = Refusal(8).into();
    assert_eq!(error.to_string(), "refused by 8: the slop is not above 0, above 1048576, or not a number");
}

#[test]
fn every_status() {
    let by = |m: &Move, b: &Move| sweep(&SQUARE, 0.0, m, &SQUARE, 0.0, b, 1.0, 0.01);
    assert!(matches!(by(&goes([0.0, 0.0], [4.0, 0.0]), &still(4.0, 0.0)), Ok(Sweep::Hit(..))));
    assert!(matches!(by(&goes([0.0, 0.0], [0.0, 9.0]), &still(4.0, 0.0)), Ok(Sweep::Separated(..))));
    assert!(matches!(by(&still(3.5, 0.5), &still(4.0, 0.0)), Ok(Sweep::Overlapped(..))));
    // a half turn has no direction: the search gives up
    let half = Move { last_rotation: [-1.0, 0.0], ..still(0.0, 0.0) };
    let gave_up = sweep(&SQUARE.map(|x| 5.0 * x), 0.0, &half, &WALL, 0.0, &still(6.0, 0.0), 1.0, 0.005);
    assert!(matches!(gave_up, Ok(Sweep::Failed(_, counts, _)) if counts.distance_calls == 20 && counts.searches == 160 && counts.root_steps == 8000));
}

/// What `Separated` does not see: the second is a bar that would sweep through the point whichever way it turned.
#[test]
fn separated_does_not_clear_a_turn() {
    let big = SQUARE.map(|x| 5.0 * x);
    let turned = |degrees: f32| [degrees.to_radians().cos(), degrees.to_radians().sin()];
    let kind = |from: f32, to: f32| {
        let turns = Move { first_rotation: turned(from), last_rotation: turned(to), ..still(0.0, 0.0) };
        match sweep(&big, 0.0, &turns, &WALL, 0.0, &still(6.0, 0.0), 1.0, 0.005).unwrap() {
            Sweep::Separated(..) => 'S',
            Sweep::Hit(..) => 'H',
            Sweep::Overlapped(..) => 'O',
            Sweep::Failed(..) => 'F',
        }
    };
    assert_eq!(kind(0.0, 90.0), 'S');
    let steps: String = (0..9).map(|i| kind(10.0 * i as f32, 10.0 * (i + 1) as f32)).collect();
    assert_eq!(steps, "SHOOOOOOS");
    let half = Move { last_rotation: [-1.0, 0.0], ..still(0.0, 0.0) };
    assert!(matches!(sweep(&[0.0, 0.0, 4.0, 0.0], 0.0, &half, &POINT, 0.0, &still(0.0, 3.0), 1.0, 0.005), Ok(Sweep::Separated(..))));
}

#[test]
fn a_distance_call_and_its_cache() {
    let mut cache = Cache { pair: 7, ..Cache::default() };
    let at = |x, y, pair, cache: &mut Cache| distance([1.0, 0.0], [x, y], &SQUARE, 0.0, &SQUARE, 0.0, false, pair, cache);
    assert_eq!(at(0.5, 0.5, 41, &mut cache).unwrap().ending, Ending::Touching);
    assert_eq!(cache, Cache { pair: 7, ..Cache::default() }, "an empty cache has no pair, and touching leaves its number");
    let measured = at(4.0, 0.0, 41, &mut cache).unwrap();
    assert_eq!((measured.distance, measured.normal, measured.ending), (2.0, [1.0, 0.0], Ending::Settled));
    assert!((1..=3).contains(&cache.count));
    assert_eq!(cache.pair, 41, "a written cache has the caller's number");
    let kept = cache;
    assert_eq!(at(0.5, 0.5, 41, &mut cache).unwrap().ending, Ending::Touching);
    assert_eq!(cache, kept, "touching leaves the cache");
    assert_eq!(at(f32::INFINITY, 0.0, 41, &mut cache), Err(Refusal(6)));
    assert_eq!(at(f32::INFINITY, 0.0, 42, &mut cache), Err(Refusal(6)), "6 comes before 12");
    assert_eq!(at(4.0, 0.0, 42, &mut cache), Err(Refusal(12)));
    assert_eq!(cache, kept, "a refusal leaves the cache");
    let mut wild = Cache { pair: 41, count: 255, index_a: [u32::MAX; 3], index_b: [7, 8, 9] };
    let far = |pair, wild: &mut Cache| distance([1.0, 0.0], [3.0, 4.0], &POINT, 0.0, &POINT, 0.0, false, pair, wild);
    assert_eq!(far(42, &mut wild), Err(Refusal(12)), "be it valid or not");
    assert_eq!(far(41, &mut wild).unwrap().distance, 5.0);
}

fn bits(numbers: &[f32]) -> Vec<u32> {
    numbers.iter().map(|x| x.to_bits()).collect()
}

/// Corner k by the rule of bits, with the sign of every zero.
#[test]
fn every_corner_of_a_plate() {
    for x in [0.0f32, -0.0, 1e-45, 6.0, 1_048_576.0] {
        for y in [0.0f32, -0.0, 0.1, 4.0, 1_048_576.0] {
            let mut list = [7.5; 11];
            let corners = plate([x, y], &mut list).unwrap().to_vec();
            let rule: Vec<f32> = (0..4).flat_map(|k| [if k & 1 == 0 { x } else { -x }, if k & 2 == 0 { y } else { -y }]).collect();
            assert_eq!(bits(&corners), bits(&rule), "{x} {y}");
            assert_eq!(bits(&list[..8]), bits(&rule));
            assert_eq!(list[8..], [7.5; 3], "the rest stays");
            let apart = distance([1.0, 0.0], [0.0, 0.0], &corners, 0.0, &POINT, 0.0, false, 41, &mut Cache::default());
            assert!(apart.is_ok(), "a built plate is accepted");
        }
    }
}

#[test]
fn both_ends_of_a_bar() {
    let mut list = [7.5; 6];
    assert_eq!(bits(bar([-0.0, 2.0], [-3.0, 0.0], &mut list).unwrap()), bits(&[-0.0, 2.0, -3.0, 0.0]));
    assert_eq!(list[4..], [7.5; 2], "the rest stays");
    assert_eq!(bar([1.0, 1.0], [1.0, 1.0], &mut list).unwrap(), [1.0, 1.0, 1.0, 1.0], "both ends may be one");
}

#[test]
fn placed_corners_are_turned_and_then_moved() {
    let (c, s, x, y) = (0.8f32, 0.6f32, 0.1f32, -3.7f32);
    let moved = |p: &[f32]| -> Vec<f32> { p.chunks(2).flat_map(|p| [(c * p[0] - s * p[1]) + x, (s * p[0] + c * p[1]) + y]).collect() };
    let (mut still, mut placed) = ([7.5; 9], [7.5; 9]);
    let expected = moved(plate([6.3, 0.7], &mut still).unwrap());
    assert_eq!(bits(placed_plate([6.3, 0.7], [c, s], [x, y], &mut placed).unwrap()), bits(&expected));
    assert_eq!(placed[8], 7.5, "the rest stays");
    let expected = moved(bar([0.3, 1.0], [-9.1, 2.2], &mut still).unwrap());
    assert_eq!(bits(placed_bar([0.3, 1.0], [-9.1, 2.2], [c, s], [x, y], &mut placed).unwrap()), bits(&expected));
    // what lies too far out is refused by the call that takes it
    let far = placed_bar([0.0; 2], [1_048_576.0, 0.0], [1.0, 0.0], [1_048_576.0, 0.0], &mut placed).unwrap().to_vec();
    assert_eq!(far, [1_048_576.0, 0.0, 2_097_152.0, 0.0]);
    assert_eq!(distance([1.0, 0.0], [0.0; 2], &far, 0.0, &POINT, 0.0, false, 41, &mut Cache::default()), Err(Refusal(3)));
}

/// The first that applies of 3, 5, 6 and 15, and a list that stays.
#[test]
fn every_refusal_of_a_builder() {
    let far = 1_048_576.125;
    let one = [1.0, 1.0];
    let (good, bad) = ([1.0, 0.0], [1.0, 1.0]);
    for room in 0..10 {
        let mut list = vec![7.5f32; room];
        let mut refused = Vec::new();
        for size in [-1.0, -1e-45, far, f32::NAN, f32::INFINITY, f32::NEG_INFINITY] {
            for sizes in [[size, 1.0], [1.0, size]] {
                refused.push((3, plate(sizes, &mut list).err()));
                refused.push((3, placed_plate(sizes, bad, [far, 0.0], &mut list).err()));
            }
        }
        for part in [-far, far, f32::NAN, f32::INFINITY, f32::NEG_INFINITY] {
            for end in [[part, 1.0], [1.0, part]] {
                refused.push((3, bar(end, one, &mut list).err()));
                refused.push((3, bar(one, end, &mut list).err()));
                refused.push((3, placed_bar(one, end, bad, [far, 0.0], &mut list).err()));
                refused.push((6, placed_plate(one, good, end, &mut list).err()));
                refused.push((6, placed_bar(one, one, good, end, &mut list).err()));
            }
        }
        for rotation in [bad, [0.0, 0.0], [1.5, 0.0], [f32::NAN, 0.0], [0.9, 0.9]] {
            refused.push((5, placed_plate(one, rotation, [far, 0.0], &mut list).err()));
            refused.push((5, placed_bar(one, one, rotation, [far, 0.0], &mut list).err()));
        }
        if room < 8 {
            refused.push((15, plate(one, &mut list).err()));
            refused.push((15, placed_plate(one, good, one, &mut list).err()));
        }
        if room < 4 {
            refused.push((15, bar(one, one, &mut list).err()));
            refused.push((15, placed_bar(one, one, good, one, &mut list).err()));
        }
        assert!(list.iter().all(|&x| x == 7.5), "a refusal leaves the list");
        for (i, (number, answer)) in refused.into_iter().enumerate() {
            assert_eq!(answer, Some(Refusal(number)), "call {i}, room for {room}");
        }
        assert_eq!(plate(one, &mut list).is_ok(), room >= 8);
        assert_eq!(bar(one, one, &mut list).is_ok(), room >= 4);
    }
}

/// The entry points behind the safe face, which always hands over a pose of four numbers.
#[test]
fn a_pose_of_another_length_is_told_first_of_all() {
    extern "C" {
        fn foldflake_placed_plate(half_x: f32, half_y: f32, pose: *const f32, pose_len: usize, out: *mut f32, out_len: usize) -> u32;
        fn foldflake_placed_bar(ax: f32, ay: f32, bx: f32, by: f32, pose: *const f32, pose_len: usize, out: *mut f32, out_len: usize) -> u32;
    }
    for (size, pose) in [(1.0, [1.0, 0.0, 2.0, 3.0, 4.0]), (f32::NAN, [f32::NAN; 5])] {
        for (pose_len, room) in [(0, 8), (3, 8), (5, 8), (5, 0), (4, 8)] {
            let mut out = [7.5f32; 8];
            let answer = match pose_len {
                4 if size == 1.0 => 32,
                4 => 3,
                _ => 255,
            };
            // Safety: each list is at least as long as the length handed over, and the one that is written is ours alone.
            let plate = unsafe { foldflake_placed_plate(size, size, pose.as_ptr(), pose_len, out.as_mut_ptr(), room) };
            let bar = unsafe { foldflake_placed_bar(size, size, size, size, pose.as_ptr(), pose_len, out.as_mut_ptr(), room) };
            assert_eq!((plate, bar), (answer, answer), "{size} {pose_len} {room}");
            assert_eq!(plate == 32, out != [7.5; 8], "written only where built");
        }
    }
}

#[test]
fn the_pose_at_a_fraction() {
    let turn = Move { local_center: [1.0, 0.0], first: [4.0, 0.0], last: [8.0, 2.0], first_rotation: [1.0, 0.0], last_rotation: [0.0, 1.0] };
    assert_eq!(pose(&turn, 0.0), Ok(Pose { rotation: [1.0, 0.0], translation: [3.0, 0.0] }));
    assert_eq!(pose(&turn, 1.0), Ok(Pose { rotation: [0.0, 1.0], translation: [8.0, 1.0] }));
    // halfway, nlerp is at 45 degrees
    let middle = pose(&turn, 0.5).unwrap();
    let half = 0.5f32.sqrt();
    assert!((middle.rotation[0] - half).abs() < 1e-6 && (middle.rotation[1] - half).abs() < 1e-6);
    assert!((middle.translation[0] - (6.0 - half)).abs() < 1e-5 && (middle.translation[1] - (1.0 - half)).abs() < 1e-5);
}

#[test]
fn every_refusal_of_a_moment() {
    let m = goes([0.0, 0.0], [4.0, 0.0]);
    let far = [1_048_576.1, 0.0];
    for (refusal, planned) in [(5, Move { last_rotation: [1.0, 1.0], last: far, ..m }), (6, Move { local_center: far, ..m })] {
        assert_eq!(pose(&planned, f32::NAN), Err(Refusal(refusal)));
        assert_eq!(gap(&SQUARE, &m, &SQUARE, &planned, f32::NAN), Err(Refusal(refusal)));
        assert_eq!(gap(&SQUARE, &planned, &SQUARE, &m, 2.0), Err(Refusal(refusal)));
    }
    for fraction in [-1e-45, 1.000_000_1, f32::NAN, f32::INFINITY] {
        assert_eq!(pose(&m, fraction), Err(Refusal(7)));
        assert_eq!(gap(&SQUARE, &m, &SQUARE, &m, fraction), Err(Refusal(7)));
    }
    let bad = Move { last_rotation: [1.0, 1.0], ..m };
    assert_eq!(gap(&[], &bad, &[], &bad, 2.0), Err(Refusal(1)));
    assert_eq!(gap(&SQUARE, &bad, &[0.0; 3], &bad, 2.0), Err(Refusal(2)));
    assert_eq!(gap(&SQUARE, &bad, &far, &bad, 2.0), Err(Refusal(3)));
    assert_eq!(gap(&SQUARE, &m, &SQUARE, &m, -0.0), Ok(0.0));
}

/// The gap is the distance call's where that call takes the pose; where the one rotation seen from the other rounds above 1 it is told all the same.
#[test]
fn the_gap_is_a_distance_that_is_not_checked_again() {
    let turned = |degrees: f32| [degrees.to_radians().cos(), degrees.to_radians().sin()];
    let mut above = 0;
    for i in 0..60 {
        let angle = 3.0 * i as f32;
        let turns = Move { first_rotation: turned(angle), last_rotation: turned(angle + 40.0), ..goes([0.0, 0.0], [3.0, 1.0]) };
        let stands = Move { first_rotation: turned(angle), last_rotation: turned(angle), ..still(9.0, 0.5) };
        for k in 0..=64 {
            let t = k as f32 / 64.0;
            let apart = gap(&SQUARE, &turns, &SQUARE, &stands, t).unwrap();
            let (a, b) = (pose(&turns, t).unwrap(), pose(&stands, t).unwrap());
            let ([c, s], [x, y]) = (a.rotation, [b.translation[0] - a.translation[0], b.translation[1] - a.translation[1]]);
            let seen = [c * b.rotation[0] + s * b.rotation[1], c * b.rotation[1] - s * b.rotation[0]];
            match distance(seen, [c * x + s * y, c * y - s * x], &SQUARE, 0.0, &SQUARE, 0.0, false, 41, &mut Cache::default()) {
                Ok(measured) => assert!((measured.distance - apart).abs() < 1e-5, "{} {apart}", measured.distance),
                Err(refusal) => {
                    assert!(refusal == Refusal(5) && seen[0] > 1.0);
                    above += 1;
                }
            }
            assert!((3.0..9.0).contains(&apart));
        }
    }
    assert!(above > 0, "no pose that a distance call refuses");
}

/// The entry points behind the safe face, which always hands over lists of the right length.
#[test]
fn a_moment_of_another_length_is_told_first_of_all() {
    extern "C" {
        fn foldflake_pose(planned: *const f32, planned_len: usize, fraction: f32, out: *mut f32, out_len: usize) -> u32;
        #[allow(clippy::too_many_arguments)]
        fn foldflake_gap(
            points_a: *const f32,
            numbers_in_a: usize,
            move_a: *const f32,
            move_a_len: usize,
            points_b: *const f32,
            numbers_in_b: usize,
            move_b: *const f32,
            move_b_len: usize,
            fraction: f32,
            out: *mut f32,
            out_len: usize,
        ) -> u32;
    }
    let planned = [0.0f32, 0.0, 1.0, 2.0, 3.0, 4.0, 1.0, 0.0, 1.0, 0.0, 9.0];
    let p = planned.as_ptr();
    for (len, room) in [(10, 4), (9, 4), (11, 4), (10, 3), (10, 5), (0, 0)] {
        let mut out = [7.5f32; 5];
        // Safety: each list is at least as long as the length handed over, and the one that is written is ours alone.
        let answer = unsafe { foldflake_pose(p, len, 0.5, out.as_mut_ptr(), room) };
        let good = (len, room) == (10, 4);
        assert_eq!((answer, out), if good { (32, [1.0, 0.0, 2.0, 3.0, 7.5]) } else { (255, [7.5; 5]) });
    }
    for (a, b, room) in [(10, 10, 1), (9, 10, 1), (10, 11, 1), (10, 10, 0), (10, 10, 2)] {
        let mut out = [7.5f32; 2];
        // Safety: as above.
        let answer = unsafe { foldflake_gap(POINT.as_ptr(), 2, p, a, SQUARE.as_ptr(), 8, p, b, f32::NAN, out.as_mut_ptr(), room) };
        let good = (a, b, room) == (10, 10, 1);
        assert_eq!((answer, out), (if good { 7 } else { 255 }, [7.5; 2]), "{a} {b} {room}");
    }
}

fn at(x: f32, y: f32) -> Waypoint {
    Waypoint { center: [x, y], rotation: [1.0, 0.0] }
}

#[test]
fn every_answer_of_a_route() {
    let there = [at(0.0, 0.0), at(9.0, 0.0), at(9.0, 9.0)];
    let far: &[f32] = &[50.0, 50.0];
    assert_eq!(route(&POINT, &there, &[far], 0.01), Ok(Route::Clear(2)));
    let (stop, contact) = match route(&POINT, &there, &[far, &[9.0, 5.0]], 0.01) {
        Ok(Route::Hit(stop, contact)) => (stop, contact),
        other => panic!("{other:?}"),
    };
    assert_eq!((stop.leg, stop.outline), (2, 2));
    // the sweep named, asked by itself
    let alone = sweep(&POINT, 0.0, &goes([9.0, 0.0], [9.0, 9.0]), &[9.0, 5.0], 0.0, &still(0.0, 0.0), 1.0, 0.01);
    assert!(matches!(alone, Ok(Sweep::Hit(same, ..)) if same == contact), "{alone:?}");
    assert_eq!(route(&SQUARE, &there, &[far, &SQUARE], 0.01), Ok(Route::Overlapped(Stop { leg: 1, outline: 2, distance_calls: 2 })));
    // a case of tests/cases/route_cases.py: so small a slop that no root step lands, and all 20 calls are made
    let cart = [-1.0, -0.5, 1.0, -0.5, 1.0, 0.5, -1.0, 0.5];
    let turned = |x, y, turn: f64| Waypoint { center: [x, y], rotation: [turn.to_radians().cos() as f32, turn.to_radians().sin() as f32] };
    let post: &[f32] = &[0.3, 0.2, 1.7, 0.2, 1.7, 0.8, 0.3, 0.8];
    let (stop, contact) = match route(&cart, &[turned(-6.0, 4.0, 20.0), turned(8.0, -3.0, 70.0)], &[post], 1e-7) {
        Ok(Route::Failed(stop, contact)) => (stop, contact),
        other => panic!("{other:?}"),
    };
    assert_eq!((stop, contact.point[0].to_bits()), (Stop { leg: 1, outline: 1, distance_calls: 20 }, 0xC012_DB86));
    let refused = |number, at| Err(RouteRefusal { refusal: Refusal(number), at });
    let at_2 = |number| refused(number, Some(Stop { leg: 1, outline: 2, distance_calls: 1 }));
    let at_1 = |number| refused(number, Some(Stop { leg: 1, outline: 1, distance_calls: 0 }));
    assert_eq!(route(&[], &there, &[far], 0.01), at_1(1));
    assert_eq!(route(&POINT, &there, &[far, &[]], 0.01), at_2(2));
    assert_eq!(route(&POINT, &there, &[far, &[0.0; 130]], 0.01), at_2(2));
    assert_eq!(route(&POINT, &there, &[far, &[f32::NAN, 0.0]], 0.01), at_2(3));
    assert_eq!(route(&POINT, &[at(0.0, 0.0), Waypoint { center: [9.0, 0.0], rotation: [0.0, 0.0] }], &[far], 0.01), at_1(5));
    assert_eq!(route(&POINT, &[at(0.0, 0.0), at(f32::INFINITY, 0.0)], &[far], 0.01), at_1(6));
    assert_eq!(route(&POINT, &there, &[far], 0.0), at_1(8));
    assert_eq!(route(&POINT, &there[..1], &[], 0.01), refused(16, None));
    assert_eq!(route(&POINT, &[at(0.0, 0.0); 34], &[far], 0.01), refused(16, None));
    assert!(matches!(route(&POINT, &[at(0.0, 0.0); 33], &[far; 32], 0.01), Ok(Route::Clear(_))));
    assert_eq!(route(&[], &there, &[], 0.01), refused(17, None));
    assert_eq!(route(&[], &there, &[far; 33], 0.01), refused(17, None));
}

#[test]
fn every_answer_of_a_whole_route() {
    let there = [at(0.0, 0.0), at(9.0, 0.0), at(9.0, 9.0)];
    let far: &[f32] = &[50.0, 50.0];
    assert!(matches!(route_clearance(&POINT, &there, &[far], 0.01), Ok(RouteClearance::Clear { pieces: 2.. })));
    let (pair, clear_up_to, within_by) = match route_clearance(&POINT, &there, &[far, &[9.0, 5.0]], 0.01) {
        Ok(RouteClearance::Touch { pair, clear_up_to, within_by }) => (pair, clear_up_to, within_by),
        other => panic!("{other:?}"),
    };
    assert_eq!((pair.leg, pair.outline), (2, 2));
    // the pair named, asked by itself
    let alone = clearance(&POINT, 0.0, &goes([9.0, 0.0], [9.0, 9.0]), &[9.0, 5.0], 0.0, &still(0.0, 0.0), 0.0, 1.0, 0.01);
    assert!(matches!(alone, Ok(Clearance::Touch { clear_up_to: u, within_by: t, .. }) if (u, t) == (clear_up_to, within_by)), "{alone:?}");
    let touching = route_clearance(&SQUARE, &there, &[&SQUARE, far], 0.01);
    assert_eq!(touching, Ok(RouteClearance::Touch { pair: Pair { leg: 1, outline: 1, pieces: 0 }, clear_up_to: 0.0, within_by: 0.0 }));
    // an exact half turn has no rotation half way
    let half = [at(0.0, 0.0), Waypoint { center: [0.0; 2], rotation: [-1.0, 0.0] }];
    let beside: &[f32] = &[1.41, -4.0, 1.41, 4.0];
    let open = route_clearance(&SQUARE, &half, &[far, beside], 0.001);
    assert!(matches!(open, Ok(RouteClearance::Open { pair: Pair { leg: 1, outline: 2, .. }, clear_up_to }) if clear_up_to < 0.5), "{open:?}");
    let refused = |told: Result<RouteClearance, RouteRefusal<Pair>>| told.map_err(|r| (r.refusal.0, r.at.map(|p| (p.leg, p.outline))));
    assert_eq!(refused(route_clearance(&[], &there, &[far], 0.01)), Err((1, Some((1, 1)))));
    assert_eq!(refused(route_clearance(&POINT, &there, &[far, &[]], 0.01)), Err((2, Some((1, 2)))));
    assert_eq!(refused(route_clearance(&POINT, &there, &[far, &[f32::NAN, 0.0]], 0.01)), Err((3, Some((1, 2)))));
    assert_eq!(refused(route_clearance(&POINT, &[there[0], there[1], at(f32::INFINITY, 0.0)], &[far], 0.01)), Err((6, Some((2, 1)))));
    assert_eq!(refused(route_clearance(&POINT, &there, &[far], 0.0)), Err((8, Some((1, 1)))));
    assert_eq!(refused(route_clearance(&POINT, &there[..1], &[], 0.01)), Err((16, None)));
    assert_eq!(refused(route_clearance(&[], &there, &[far; 33], 0.01)), Err((17, None)));
}

/// A square of half size 5 turns a quarter about its middle, beside a wall whose side stands at x.
fn beside(x: f32, from: f32, end: f32, slop: f32) -> Result<Clearance, Refusal> {
    let square = SQUARE.map(|part| 5.0 * part);
    let turns = Move { last_rotation: [0.0, 1.0], ..still(0.0, 0.0) };
    clearance(&square, 0.0, &turns, &WALL, 0.0, &still(x, 0.0), from, end, slop)
}

#[test]
fn every_answer_of_a_look_at_the_whole_move() {
    // its corners reach 7.0711 half way
    assert!(matches!(beside(7.08, 0.0, 1.0, 0.005), Ok(Clearance::Clear { pieces: 1.. })));
    let (clear_up_to, within_by, pieces) = match beside(6.0, 0.0, 1.0, 0.005) {
        Ok(Clearance::Touch { clear_up_to, within_by, pieces }) => (clear_up_to, within_by, pieces),
        other => panic!("{other:?}"),
    };
    assert!(0.187 < clear_up_to && clear_up_to < within_by && within_by < 0.188 && pieces <= 4096, "{clear_up_to} {within_by} {pieces}");
    // places are multiples of 2^-24
    for place in [clear_up_to, within_by] {
        assert_eq!((place * 16_777_216.0).fract(), 0.0);
    }
    // a look at a part of the way: up to the touch and after it
    assert!(matches!(beside(6.0, 0.0, clear_up_to, 0.005), Ok(Clearance::Clear { .. })));
    assert!(matches!(beside(6.0, 0.9, 1.0, 0.005), Ok(Clearance::Clear { .. })));
    assert_eq!(beside(6.0, 0.5, 1.0, 0.005), Ok(Clearance::Touch { clear_up_to: 0.5, within_by: 0.5, pieces: 0 }));
    // a single moment, the last one too
    assert!(matches!(beside(6.0, 0.0, 0.0, 0.005), Ok(Clearance::Clear { .. })));
    assert!(matches!(beside(6.0, 1.0, 1.0, 0.005), Ok(Clearance::Clear { .. })));
    assert!(matches!(beside(6.0, -0.0, -0.0, 0.005), Ok(Clearance::Clear { .. })));
    // more room is asked for by a larger slop
    assert!(matches!(beside(7.08, 0.0, 1.0, 0.02), Ok(Clearance::Touch { .. })));
    // an exact half turn has no rotation half way: it is clear where the disc about its middle is free, at 7.5 or less of the square
    let half = Move { last_rotation: [-1.0, 0.0], ..still(0.0, 0.0) };
    let look = |x| clearance(&SQUARE.map(|part| 5.0 * part), 0.0, &half, &WALL, 0.0, &still(x, 0.0), 0.0, 1.0, 0.005);
    assert!(matches!(look(7.05), Ok(Clearance::Open { clear_up_to, .. }) if 0.49 < clear_up_to && clear_up_to < 0.5), "{:?}", look(7.05));
    assert!(matches!(look(7.6), Ok(Clearance::Clear { .. })), "{:?}", look(7.6));
}

#[test]
fn every_refusal_of_a_look_at_the_whole_move() {
    let stands = still(4.0, 0.0);
    let m = goes([0.0, 0.0], [4.0, 0.0]);
    let far = [1_048_576.125, 0.0];
    let bent = Move { last_rotation: [0.0, 0.0], ..m };
    let away = Move { last: far, ..m };
    let by = |a: &[f32], b: &[f32], radius, m: &Move, from, end, slop| clearance(a, radius, m, b, 0.0, &stands, from, end, slop);
    assert_eq!(by(&[], &[], -1.0, &bent, 2.0, 2.0, 0.0), Err(Refusal(1)));
    assert_eq!(by(&SQUARE, &[0.0; 130], -1.0, &bent, 2.0, 2.0, 0.0), Err(Refusal(2)));
    assert_eq!(by(&far, &SQUARE, -1.0, &bent, 2.0, 2.0, 0.0), Err(Refusal(3)));
    assert_eq!(by(&SQUARE, &SQUARE, -1.0, &bent, 2.0, 2.0, 0.0), Err(Refusal(4)));
    assert_eq!(by(&SQUARE, &SQUARE, 0.0, &bent, 2.0, 2.0, 0.0), Err(Refusal(5)));
    assert_eq!(by(&SQUARE, &SQUARE, 0.0, &away, 2.0, 2.0, 0.0), Err(Refusal(6)));
    assert_eq!(by(&SQUARE, &SQUARE, 0.0, &m, 0.0, 2.0, 0.0), Err(Refusal(7)));
    for from in [-0.25, 0.75, 1.5, f32::NAN] {
        assert_eq!(by(&SQUARE, &SQUARE, 0.0, &m, from, 0.5, 0.0), Err(Refusal(7)), "{from}");
    }
    assert_eq!(by(&SQUARE, &SQUARE, 0.0, &m, 0.5, 0.5, 0.0), Err(Refusal(8)));
    assert!(by(&[0.0; 128], &SQUARE, 0.0, &m, 0.5, 0.5, 0.01).is_ok());
}

/// The entry point behind it, which always hands over lists of the right length. A refusal, too, leaves both lists.
#[test]
fn a_look_with_a_list_of_another_length_is_told_first_of_all() {
    extern "C" {
        #[allow(clippy::too_many_arguments)]
        fn foldflake_clearance(
            points_a: *const f32,
            numbers_in_a: usize,
            points_b: *const f32,
            numbers_in_b: usize,
            numbers: *const f32,
            numbers_len: usize,
            from: f32,
            out: *mut f32,
            out_len: usize,
            pieces: *mut u32,
            pieces_len: usize,
        ) -> u32;
    }
    let mut numbers = [0f32; 25];
    for (place, x) in [(2, 0.75f32), (3, 0.5), (10, 1.0), (12, 1.0), (16, 4.0), (18, 4.0), (20, 1.0), (22, 1.0)] {
        numbers[place] = x;
    }
    let (p, n) = (POINT.as_ptr(), numbers.as_ptr());
    let told = [(24, 2, 1, 0.0, 32), (24, 2, 1, 0.8, 7)];
    let wrong = [(23, 2, 1), (25, 2, 1), (24, 1, 1), (24, 3, 1), (24, 2, 0), (24, 2, 2)].map(|(len, room, words)| (len, room, words, 0.0, 255));
    for (len, room, words, from, answer) in told.into_iter().chain(wrong) {
        let (mut out, mut pieces) = ([7.5f32; 3], [7u32; 2]);
        // Safety: each list is at least as long as the length handed over, and the two that are written are ours alone.
        let told = unsafe { foldflake_clearance(p, 2, p, 2, n, len, from, out.as_mut_ptr(), room, pieces.as_mut_ptr(), words) };
        let left = if answer == 32 { [0.75, 0.75, 7.5] } else { [7.5; 3] };
        assert_eq!((told, out, pieces[1]), (answer, left, 7), "{len} {room} {words} {from}");
        assert!(answer == 32 || pieces[0] == 7);
    }
}
