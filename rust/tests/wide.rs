//! The calls in f64, beside those in f32 and beside answers worked out by hand.
use foldflake::{distance, sweep, wide, Cache, Ending, Move, Refusal, Sweep};

const SQUARE: [f64; 8] = [-1.0, -1.0, 1.0, -1.0, 1.0, 1.0, -1.0, 1.0];
const POINT: [f64; 2] = [0.0, 0.0];
const LIMIT: f64 = 1_048_576.0;
/// The next f64 above [`LIMIT`]; as an f32 it is the limit itself.
const BEYOND: f64 = LIMIT + 1.0 / 4_294_967_296.0;

fn goes(from: [f64; 2], to: [f64; 2]) -> Move<f64> {
    Move { local_center: [0.0; 2], first: from, last: to, first_rotation: [1.0, 0.0], last_rotation: [1.0, 0.0] }
}

fn still(x: f64, y: f64) -> Move<f64> {
    goes([x, y], [x, y])
}

/// Rounded to f32; whole numbers of the tests stay what they are.
fn narrow(numbers: &[f64]) -> Vec<f32> {
    numbers.iter().map(|&x| x as f32).collect()
}

fn narrow_move(m: &Move<f64>) -> Move {
    let pair = |p: [f64; 2]| p.map(|x| x as f32);
    Move {
        local_center: pair(m.local_center),
        first: pair(m.first),
        last: pair(m.last),
        first_rotation: pair(m.first_rotation),
        last_rotation: pair(m.last_rotation),
    }
}

/// A plain generator of whole numbers below a bound.
struct Draw(u64);

impl Draw {
    fn below(&mut self, bound: u64) -> f64 {
        self.0 = self.0.wrapping_mul(6_364_136_223_846_793_005).wrapping_add(1_442_695_040_888_963_407);
        ((self.0 >> 33) % bound) as f64
    }
}

#[test]
fn root_is_the_processors() {
    let mut draw = Draw(1);
    let special = [0u64, 1, 1 << 63, 0x7FF0 << 48, 0x7FEF_FFFF_FFFF_FFFF, 0x3FF0_0000_0000_0001, 0x3FEF_FFFF_FFFF_FFFF, 0x000F_FFFF_FFFF_FFFF];
    let random = (0..100_000).map(|_| (draw.below(1 << 31) as u64) << 32 | draw.below(1 << 31) as u64);
    for bits in special.into_iter().chain(random) {
        let x = f64::from_bits(bits);
        let (ours, processors) = (wide::root(x), x.sqrt());
        assert!(ours.to_bits() == processors.to_bits() || ours.is_nan() && processors.is_nan(), "{bits:016X}");
    }
    assert!(wide::root(-1.0).is_nan());
}

/// On whole numbers within 16 no turn of the search is rounded in either width: same ending, rounds and corners; whole distances are the same number.
#[test]
fn whole_numbers_measure_the_same_in_both_widths() {
    let mut draw = Draw(2);
    let [mut apart, mut touching, mut whole] = [0; 3];
    for _ in 0..20_000 {
        let mut outline = |points: u64| -> Vec<f64> { (0..2 * points).map(|_| draw.below(5)).collect() };
        let (a, b) = (outline(4), outline(3));
        let shift = [draw.below(9) - 4.0, draw.below(9) - 4.0];
        let turn = [[1.0, 0.0], [0.0, 1.0], [-1.0, 0.0], [0.0, -1.0]][draw.below(4) as usize];
        let (mut cache, mut cache64) = (Cache::default(), Cache::default());
        let told = distance(turn.map(|x| x as f32), shift.map(|x| x as f32), &narrow(&a), 0.0, &narrow(&b), 0.0, false, 41, &mut cache).unwrap();
        let told64 = wide::distance(turn, shift, &a, 0.0, &b, 0.0, false, 41, &mut cache64).unwrap();
        assert_eq!((told.ending, told.rounds, cache), (told64.ending, told64.rounds, cache64), "{a:?} {b:?} {turn:?} {shift:?}");
        assert!((f64::from(told.distance) - told64.distance).abs() <= 1e-6 * told64.distance, "{told:?} {told64:?}");
        if told.ending == Ending::Touching {
            touching += 1;
        } else {
            apart += 1;
        }
        if cache.count == 1 && told64.distance.fract() == 0.0 {
            assert_eq!(f64::from(told.distance), told64.distance);
            whole += 1;
        }
    }
    assert!(apart > 1000 && touching > 1000 && whole > 100, "{apart} {touching} {whole}");
}

/// Where every number on the way has few digits the sweeps are one, down to the contact.
#[test]
fn short_numbers_sweep_the_same_in_both_widths() {
    let mut hits = 0;
    for way in [2.0, 4.0, 8.0, 64.0, 1024.0] {
        for slop in [0.5, 0.25, 0.0625] {
            for (a, b) in [(&POINT[..], &POINT[..]), (&POINT[..], &SQUARE[..]), (&SQUARE[..], &SQUARE[..])] {
                let (m, stands) = (goes([-way, 0.0], [way, 0.0]), still(0.0, 0.0));
                let told = sweep(&narrow(a), 0.0, &narrow_move(&m), &narrow(b), 0.0, &narrow_move(&stands), 1.0, slop as f32).unwrap();
                let told64 = wide::sweep(a, 0.0, &m, b, 0.0, &stands, 1.0, slop).unwrap();
                match (told, told64) {
                    (Sweep::Hit(contact, counts, corners), Sweep::Hit(contact64, counts64, corners64)) => {
                        assert_eq!((counts, corners), (counts64, corners64));
                        assert_eq!(f64::from(contact.fraction), contact64.fraction, "{way} {slop}");
                        assert_eq!((contact.point.map(f64::from), contact.normal.map(f64::from)), (contact64.point, contact64.normal));
                        hits += 1;
                    }
                    (Sweep::Overlapped(counts, corners), Sweep::Overlapped(counts64, corners64)) => {
                        assert_eq!((counts, corners), (counts64, corners64));
                    }
                    other => panic!("{way} {slop}: {other:?}"),
                }
            }
        }
    }
    assert!(hits >= 40, "{hits}");
}

/// The distance of two boxes side by side with axes in common, by their gaps.
fn box_gap(half_a: [f64; 2], half_b: [f64; 2], shift: [f64; 2]) -> f64 {
    let gap = |i: usize| (shift[i].abs() - half_a[i] - half_b[i]).max(0.0);
    gap(0).hypot(gap(1))
}

/// Millimetres over a hall: the f64 call is right to a millionth where the f32 call is off by more than a hundredth.
#[test]
fn a_hall_in_millimetres() {
    let mut draw = Draw(3);
    let corners = |half: [f64; 2], at: [f64; 2]| -> Vec<f64> {
        [[1.0, 1.0], [-1.0, 1.0], [1.0, -1.0], [-1.0, -1.0]].iter().flat_map(|s| [at[0] + s[0] * half[0], at[1] + s[1] * half[1]]).collect()
    };
    let (mut worst, mut worst64) = (0f64, 0f64);
    for _ in 0..2000 {
        let mut number = |bound: u64| draw.below(1000 * bound) / 1000.0;
        let (half_a, half_b) = ([1.0 + number(900), 1.0 + number(900)], [1.0 + number(900), 1.0 + number(900)]);
        let (at_a, at_b) = ([400_000.0 + number(5000), 300_000.0], [410_000.0 + number(5000), 300_000.0 + number(3000)]);
        let exact = box_gap(half_a, half_b, [at_b[0] - at_a[0], at_b[1] - at_a[1]]);
        let (a, b) = (corners(half_a, at_a), corners(half_b, at_b));
        let told = distance([1.0, 0.0], [0.0; 2], &narrow(&a), 0.0, &narrow(&b), 0.0, false, 41, &mut Cache::default()).unwrap();
        let told64 = wide::distance([1.0, 0.0], [0.0; 2], &a, 0.0, &b, 0.0, false, 41, &mut Cache::default()).unwrap();
        worst = worst.max((f64::from(told.distance) - exact).abs());
        worst64 = worst64.max((told64.distance - exact).abs());
    }
    assert!(worst64 < 1e-6 && worst > 1e-2, "{worst64} {worst}");
    // a gap that f32 cannot hold
    let near = [999_998.999, 0.0];
    let told = distance([1.0, 0.0], [1e6, 0.0], &narrow(&near), 0.0, &narrow(&SQUARE), 0.0, false, 41, &mut Cache::default()).unwrap();
    let told64 = wide::distance([1.0, 0.0], [1e6, 0.0], &near, 0.0, &SQUARE, 0.0, false, 41, &mut Cache::default()).unwrap();
    assert_eq!((told.ending, told64.ending), (Ending::Touching, Ending::Settled));
    assert!((told64.distance - 0.001).abs() < 1e-9);
}

#[test]
fn every_status() {
    let by = |m: &Move<f64>, b: &Move<f64>| wide::sweep(&SQUARE, 0.0, m, &SQUARE, 0.0, b, 1.0, 0.01);
    assert!(matches!(by(&goes([0.0, 0.0], [4.0, 0.0]), &still(4.0, 0.0)), Ok(Sweep::Hit(contact, ..)) if (contact.fraction - 0.4975).abs() < 0.001));
    assert!(matches!(by(&goes([0.0, 0.0], [0.0, 9.0]), &still(4.0, 0.0)), Ok(Sweep::Separated(..))));
    assert!(matches!(by(&still(3.5, 0.5), &still(4.0, 0.0)), Ok(Sweep::Overlapped(..))));
    // a half turn has no direction: the search gives up
    let half = Move { last_rotation: [-1.0, 0.0], ..still(0.0, 0.0) };
    let wall = [0.0, -20.0, 4.0, -20.0, 4.0, 20.0, 0.0, 20.0];
    let gave_up = wide::sweep(&SQUARE.map(|x| 5.0 * x), 0.0, &half, &wall, 0.0, &still(6.0, 0.0), 1.0, 0.005);
    assert!(matches!(gave_up, Ok(Sweep::Failed(_, counts, _)) if counts.distance_calls == 20 && counts.searches == 160 && counts.root_steps == 8000));
}

/// The bounds are those of f32, held by f64's own numbers: one step beyond them is refused, although rounded to f32 it would pass.
#[test]
fn every_refusal() {
    let step = f64::EPSILON;
    let m = goes([0.0, 0.0], [4.0, 0.0]);
    let by = |a: &[f64], b: &[f64], radius, m: &Move<f64>, fraction, slop| wide::sweep(a, radius, m, b, 0.0, &still(4.0, 0.0), fraction, slop);
    let at = |b: &[f64], radius, turn, shift| wide::distance(turn, shift, &SQUARE, radius, b, 0.0, false, 41, &mut Cache::default());
    let upright = [1.0, 0.0];
    assert_eq!(by(&[], &[0.0; 3], 0.0, &m, 1.0, 0.01), Err(Refusal(1)));
    assert_eq!(by(&[0.0; 130], &SQUARE, 0.0, &m, 1.0, 0.01), Err(Refusal(1)));
    assert_eq!(at(&[0.0; 3], -1.0, upright, [0.0; 2]), Err(Refusal(2)));
    assert_eq!(by(&[BEYOND, 0.0], &SQUARE, -1.0, &m, 1.0, 0.01), Err(Refusal(3)));
    assert_eq!(at(&[0.0, -BEYOND], -1.0, upright, [0.0; 2]), Err(Refusal(3)));
    for radius in [BEYOND, -5e-324, f64::NAN] {
        assert_eq!(by(&SQUARE, &SQUARE, radius, &Move { last_rotation: [1.0, 1.0], ..m }, 1.0, 0.01), Err(Refusal(4)));
        assert_eq!(at(&SQUARE, radius, [1.0, 1.0], [0.0; 2]), Err(Refusal(4)));
    }
    for turn in [[1.0 + step, 0.0], [0.0, f64::NAN], [0.5, 0.5]] {
        assert_eq!(by(&SQUARE, &SQUARE, 0.0, &Move { last_rotation: turn, last: [BEYOND, 0.0], ..m }, 1.0, 0.01), Err(Refusal(5)));
        assert_eq!(at(&SQUARE, 0.0, turn, [BEYOND, 0.0]), Err(Refusal(5)));
    }
    assert_eq!(by(&SQUARE, &SQUARE, 0.0, &Move { local_center: [BEYOND, 0.0], ..m }, f64::NAN, 0.01), Err(Refusal(6)));
    assert_eq!(at(&SQUARE, 0.0, upright, [0.0, BEYOND]), Err(Refusal(6)));
    assert_eq!(by(&SQUARE, &SQUARE, 0.0, &m, 1.0 + step, 0.0), Err(Refusal(7)));
    for slop in [0.0, BEYOND, f64::NAN] {
        assert_eq!(by(&SQUARE, &SQUARE, 0.0, &m, 1.0, slop), Err(Refusal(8)));
    }
    // the bounds themselves pass
    assert!(at(&[LIMIT, -LIMIT], LIMIT, upright, [LIMIT, -LIMIT]).is_ok());
    assert!(by(&[0.0; 128], &SQUARE, 0.0, &m, 1.0, 5e-324).is_ok());
    // what the f64 refuses is the limit itself once it is rounded
    let rounded = distance([1.0, 0.0], [0.0; 2], &narrow(&[BEYOND, 0.0]), 0.0, &narrow(&POINT), 0.0, false, 41, &mut Cache::default());
    assert_eq!(rounded.unwrap().distance, 1_048_576.0);
}

/// c * c + s * s is rounded down to the bound in f32, and lies above it in f64.
#[test]
fn a_rotation_that_only_f32_lets_pass() {
    let turn = [f32::from_bits(0x3F80_0000), f32::from_bits(0x3E00_0003)];
    let turn64 = turn.map(f64::from);
    assert!(distance(turn, [9.0, 0.0], &[0.0, 0.0], 0.0, &[0.0, 0.0], 0.0, false, 41, &mut Cache::default()).is_ok());
    assert_eq!(wide::distance(turn64, [9.0, 0.0], &POINT, 0.0, &POINT, 0.0, false, 41, &mut Cache::default()), Err(Refusal(5)));
    for (first, last) in [(turn64, [1.0, 0.0]), ([1.0, 0.0], turn64)] {
        let turns = Move { first_rotation: first, last_rotation: last, ..still(9.0, 0.0) };
        let stands = still(0.0, 0.0);
        assert!(sweep(&[0.0; 2], 0.0, &narrow_move(&turns), &[0.0; 2], 0.0, &narrow_move(&stands), 1.0, 0.01).is_ok());
        assert_eq!(wide::sweep(&POINT, 0.0, &turns, &POINT, 0.0, &stands, 1.0, 0.01), Err(Refusal(5)));
        assert_eq!(wide::sweep(&POINT, 0.0, &stands, &POINT, 0.0, &turns, 1.0, 0.01), Err(Refusal(5)));
    }
    // a step nearer, and it passes in both
    let turn = [1.0f32, f32::from_bits(0x3E00_0000)];
    assert!(wide::distance(turn.map(f64::from), [9.0, 0.0], &POINT, 0.0, &POINT, 0.0, false, 41, &mut Cache::default()).is_ok());
}

/// A cache is written by one width and taken by the other, under the same number.
#[test]
fn a_cache_goes_to_and_fro() {
    let narrow_square: Vec<f32> = narrow(&SQUARE);
    let at = |x: f32, pair, cache: &mut Cache| distance([1.0, 0.0], [x, 6.0], &narrow_square, 0.0, &narrow_square, 0.0, false, pair, cache);
    let at64 = |x: f64, pair, cache: &mut Cache| wide::distance([1.0, 0.0], [x, 6.0], &SQUARE, 0.0, &SQUARE, 0.0, false, pair, cache);
    let (mut cache, mut cache64) = (Cache::default(), Cache::default());
    let (first, first64) = (at(5.0, 41, &mut cache).unwrap(), at64(5.0, 41, &mut cache64).unwrap());
    assert_eq!(cache, cache64);
    assert_eq!((cache.pair, cache.count, first.distance, first64.distance), (41, 1, 5.0, 5.0));
    // each goes on from the other's corner pair: the first round finds nothing nearer
    assert_eq!((first.rounds, first64.rounds), (2, 2));
    assert_eq!(at64(5.5, 41, &mut cache).unwrap().rounds, 1);
    assert_eq!(at(5.5, 41, &mut cache64).unwrap().rounds, 1);
    assert_eq!(cache, cache64);
    let kept = cache;
    assert_eq!(at64(4.0, 42, &mut cache), Err(Refusal(12)));
    assert_eq!(at64(f64::INFINITY, 42, &mut cache), Err(Refusal(6)), "6 comes before 12");
    let overlapping = wide::distance([1.0, 0.0], [0.5, 0.5], &SQUARE, 0.0, &SQUARE, 0.0, false, 41, &mut cache);
    assert_eq!(overlapping.unwrap().ending, Ending::Touching);
    assert_eq!(cache, kept, "a refusal and a touching call leave the cache");
    let mut wild = Cache { pair: 41, count: 255, index_a: [u32::MAX; 3], index_b: [7, 8, 9] };
    assert_eq!(at64(4.0, 42, &mut wild), Err(Refusal(12)), "be it valid or not");
    assert_eq!(at64(5.0, 41, &mut wild).unwrap(), first64, "corners that no outline has count as none");
}

/// The entry points behind the safe face: a refusal and a wrong length leave every list.
#[test]
fn a_refusal_leaves_the_lists() {
    extern "C" {
        #[allow(clippy::too_many_arguments)]
        fn foldflake_sweep64(
            points_a: *const f64,
            numbers_in_a: usize,
            points_b: *const f64,
            numbers_in_b: usize,
            numbers: *const f64,
            numbers_len: usize,
            out: *mut f64,
            out_len: usize,
            counts: *mut u32,
            counts_len: usize,
        ) -> u32;
        #[allow(clippy::too_many_arguments)]
        fn foldflake_distance64(
            points_a: *const f64,
            numbers_in_a: usize,
            points_b: *const f64,
            numbers_in_b: usize,
            numbers: *const f64,
            numbers_len: usize,
            use_radii: u32,
            pair: u32,
            cache: *mut u32,
            cache_len: usize,
            out: *mut f64,
            out_len: usize,
        ) -> u32;
    }
    let p = SQUARE.as_ptr();
    let mut moves = [0.0, 0.0, 1.0, 0.01, 0.0, 0.0, 0.0, 0.0, 4.0, 0.0, 1.0, 0.0, 1.0, 0.0, 0.0, 0.0, 4.0, 0.0, 4.0, 0.0, 1.0, 0.0, 1.0, 0.0, 9.0];
    let wrong = [(23, 5, 7), (25, 5, 7), (24, 4, 7), (24, 6, 7), (24, 5, 6), (24, 5, 8)].map(|lengths| (lengths, 0.0, 255));
    for ((len, room, counted), slop, answer) in [((24, 5, 7), 0.01, 17), ((24, 5, 7), 0.0, 8)].into_iter().chain(wrong) {
        moves[3] = slop;
        let (mut out, mut counts) = ([7.5; 6], [77; 8]);
        // Safety: each list is at least as long as the length handed over, and the two that are written are ours alone.
        let told = unsafe { foldflake_sweep64(p, 8, p, 8, moves.as_ptr(), len, out.as_mut_ptr(), room, counts.as_mut_ptr(), counted) };
        assert_eq!(told, answer, "{len} {room} {counted}");
        let written = (0..5).filter(|&i| out[i] != 7.5).count() + (0..7).filter(|&i| counts[i] != 77).count();
        assert_eq!((written, out[5], counts[7]), (if answer == 17 { 12 } else { 0 }, 7.5, 77));
    }
    let pose = [1.0, 0.0, 4.0, 0.0, 0.0, 0.0, 9.0];
    let wrong = [(5, 8, 7), (7, 8, 7), (6, 7, 7), (6, 9, 7), (6, 8, 6), (6, 8, 8)].map(|lengths| (lengths, 42, 1, 255));
    let right = [(41, 1, 17), (42, 1, 12), (42, 256, 255)].map(|(pair, count, answer)| ((6, 8, 7), pair, count, answer));
    for ((len, kept, room), pair, count, answer) in right.into_iter().chain(wrong) {
        let came = [41, count, 3, 3, 3, 3, 3, 3, 77];
        let (mut out, mut cache) = ([7.5; 8], came);
        // Safety: as above.
        let told = unsafe { foldflake_distance64(p, 8, p, 8, pose.as_ptr(), len, 0, pair, cache.as_mut_ptr(), kept, out.as_mut_ptr(), room) };
        assert_eq!(told % 256, answer, "{len} {kept} {room} {pair} {count}");
        if answer == 17 {
            assert_eq!((out[6], out[7], cache[0], cache[8]), (2.0, 7.5, 41, 77));
            assert_ne!(cache, came);
        } else {
            assert_eq!((out, cache), ([7.5; 8], came));
        }
    }
}
