//! Every call on input that nobody would hand over: it answers or refuses by a number that its page has, it does not panic, and it answers the same in threads
//! that run at once.
use foldflake::{
    bar, clearance, distance, gap, line, placed_bar, placed_plate, plate, pose, root, route, route_clearance, sweep, wide, Cache, Move, Refusal, RouteRefusal,
    Stop, Waypoint,
};
use std::error::Error;

/// Words that follow from a seed alone, and one in how many numbers is an odd one.
struct Words {
    state: u64,
    odd: usize,
}

impl Words {
    fn of(seed: u64) -> Words {
        let mut words = Words { state: seed.wrapping_mul(0x9E37_79B9_7F4A_7C15) | 1, odd: 1 };
        words.odd = [2, 10, 100, 100_000][words.below(4)];
        words
    }

    fn next(&mut self) -> u64 {
        // xorshift64*, whose state is never 0
        self.state ^= self.state >> 12;
        self.state ^= self.state << 25;
        self.state ^= self.state >> 27;
        self.state.wrapping_mul(0x2545_F491_4F6C_DD1D)
    }

    fn below(&mut self, n: usize) -> usize {
        (self.next() >> 33) as usize % n
    }

    /// A number of the domain; an odd one is at its edges, no number, or any bits.
    fn number(&mut self) -> f32 {
        let tame = (self.next() >> 44) as f32 / 65_536.0 - 8.0;
        self.odd_or(tame)
    }

    fn odd_or(&mut self, tame: f32) -> f32 {
        const ODD: [f32; 14] = [
            f32::NAN,
            f32::INFINITY,
            f32::NEG_INFINITY,
            f32::MAX,
            f32::MIN,
            f32::MIN_POSITIVE,
            f32::EPSILON,
            0.0,
            -0.0,
            1.0,
            -1.0,
            1_048_576.0,
            -1_048_576.0,
            1_048_576.125,
        ];
        match self.below(2 * self.odd) {
            0 => ODD[self.below(ODD.len())],
            1 => f32::from_bits(self.next() as u32),
            _ => tame,
        }
    }

    fn pair(&mut self) -> [f32; 2] {
        [self.number(), self.number()]
    }

    /// Mostly a rotation, so that calls get past 5.
    fn rotation(&mut self) -> [f32; 2] {
        match self.below(4 * self.odd) {
            0 => self.pair(),
            1 => [-1.0, 0.0],
            2 => [1.0, 0.125],
            _ => {
                let angle = self.below(6284) as f32 / 1000.0;
                [angle.cos(), angle.sin()]
            }
        }
    }

    fn list(&mut self) -> Vec<f32> {
        const LENGTHS: [usize; 8] = [0, 1, 3, 129, 130, 4000, 128, 32];
        let length = if self.below(self.odd) == 0 { LENGTHS[self.below(LENGTHS.len())] } else { 2 + 2 * self.below(8) };
        (0..length).map(|_| self.number()).collect()
    }

    fn planned(&mut self) -> Move {
        Move { local_center: self.pair(), first: self.pair(), last: self.pair(), first_rotation: self.rotation(), last_rotation: self.rotation() }
    }

    fn cache(&mut self) -> Cache {
        let index = [self.next() as u32, self.below(200) as u32, self.below(4) as u32];
        Cache { pair: self.below(2) as u32, count: self.below(6) as u8, index_a: index, index_b: index }
    }
}

/// The numbers that a call may be refused by.
fn within<T, E: Into<Refusal>>(told: Result<T, E>, numbers: &[u32]) {
    if let Err(refusal) = told.map_err(E::into) {
        assert!(numbers.contains(&refusal.0), "{refusal}");
        assert_ne!(refusal.text(), Refusal(99).text());
    }
}

fn widened(list: &[f32]) -> Vec<f64> {
    list.iter().map(|x| f64::from(*x)).collect()
}

fn wide_move(m: &Move) -> Move<f64> {
    let wide = |p: [f32; 2]| p.map(f64::from);
    Move {
        local_center: wide(m.local_center),
        first: wide(m.first),
        last: wide(m.last),
        first_rotation: wide(m.first_rotation),
        last_rotation: wide(m.last_rotation),
    }
}

/// A block of these numbers whose check is right, in form 1 or 2; odd ones have other counts or bytes that must be zero and are not.
fn block(w: &mut Words, numbers: &[f32]) -> [u8; 512] {
    let wrong = w.below(w.odd) == 0;
    let form = if wrong { w.below(4) } else { 2 * w.below(2) };
    let counts = if wrong { [w.below(18), w.below(18)] } else { [1 + w.below(16), 1 + w.below(16)] };
    let mut words = vec![1 + w.below(3) as u32, (counts[0] | counts[1] << 8 | form << 16) as u32];
    words.extend(numbers.iter().map(|x| x.to_bits()));
    for count in counts {
        words.extend((0..32).map(|place| if place < 2 * count { w.number().to_bits() } else { 0 }));
    }
    words.resize(127, 0);
    if wrong {
        words[w.below(127)] ^= 1 << w.below(16);
    }
    let second = words[1] >> 16 & 0xFF == 2;
    let sum = words.iter().zip(1u32..).fold(0u32, |sum, (word, place)| sum.wrapping_add(word.wrapping_mul(if second { place } else { 1 })));
    words.push(!sum);
    let mut block = [0u8; 512];
    block.chunks_exact_mut(4).zip(words).for_each(|(at, word)| at.copy_from_slice(&word.to_le_bytes()));
    block
}

/// What all calls tell of one seed, as text.
fn told(seed: u64) -> String {
    let w = &mut Words::of(seed);
    let (a, b, move_a, move_b) = (w.list(), w.list(), w.planned(), w.planned());
    let (radius_a, radius_b, fraction, slop) = (w.odd_or(0.5), w.odd_or(0.0), w.odd_or(0.875), w.odd_or(0.01));
    let mut said = Vec::new();

    let swept = sweep(&a, radius_a, &move_a, &b, radius_b, &move_b, fraction, slop);
    within(swept, &[1, 2, 3, 4, 5, 6, 7, 8]);
    let from = w.odd_or(0.25);
    let looked = clearance(&a, radius_a, &move_a, &b, radius_b, &move_b, from, fraction, slop);
    within(looked, &[1, 2, 3, 4, 5, 6, 7, 8]);
    let stands = pose(&move_a, fraction);
    within(stands, &[5, 6, 7]);
    let apart = gap(&a, &move_a, &b, &move_b, fraction);
    within(apart, &[1, 2, 3, 5, 6, 7]);
    said.push(format!("{swept:?} {looked:?} {stands:?} {apart:?} {:?}", root(slop)));

    let (before, pair) = (w.cache(), w.below(2) as u32);
    let mut after = before;
    let measured = distance(w.rotation(), w.pair(), &a, radius_a, &b, radius_b, true, pair, &mut after);
    within(measured, &[1, 2, 3, 4, 5, 6, 12]);
    if let Err(_) | Ok(foldflake::Distance { ending: foldflake::Ending::Touching, .. }) = measured {
        assert_eq!(after, before);
    }
    said.push(format!("{measured:?} {after:?}"));

    let (wide_a, wide_b) = (widened(&a), widened(&b));
    let [r, s, f, l] = [radius_a, radius_b, fraction, slop].map(f64::from);
    let swept = wide::sweep(&wide_a, r, &wide_move(&move_a), &wide_b, s, &wide_move(&move_b), f, l);
    within(swept, &[1, 2, 3, 4, 5, 6, 7, 8]);
    let turn = w.rotation().map(f64::from);
    let measured = wide::distance(turn, w.pair().map(f64::from), &wide_a, r, &wide_b, s, false, pair, &mut after);
    within(measured, &[1, 2, 3, 4, 5, 6, 12]);
    said.push(format!("{swept:?} {measured:?} {after:?} {:?}", wide::root(l)));

    let mut list = vec![0f32; w.below(10)];
    within(plate(w.pair(), &mut list).map(drop), &[3, 15]);
    within(bar(w.pair(), w.pair(), &mut list).map(drop), &[3, 15]);
    within(placed_plate(w.pair(), w.rotation(), w.pair(), &mut list).map(drop), &[3, 5, 6, 15]);
    within(placed_bar(w.pair(), w.pair(), w.rotation(), w.pair(), &mut list).map(drop), &[3, 5, 6, 15]);
    said.push(format!("{list:?}"));

    let ways: Vec<Waypoint> = (0..[2, 3, 2, 3, 33, 0, 1, 34, 400][w.below(9)]).map(|_| Waypoint { center: w.pair(), rotation: w.rotation() }).collect();
    let lists: Vec<Vec<f32>> = (0..[1, 2, 1, 2, 32, 0, 33, 400][w.below(8)]).map(|_| w.list()).collect();
    let stills: Vec<&[f32]> = lists.iter().map(Vec::as_slice).collect();
    let went = route(&a, &ways, &stills, slop);
    within(went, &[1, 2, 3, 5, 6, 8, 16, 17]);
    let looked = route_clearance(&a, &ways, &stills, slop);
    within(looked, &[1, 2, 3, 5, 6, 8, 16, 17]);
    said.push(format!("{went:?} {looked:?}"));

    let pairs = |m: &Move| [m.local_center, m.first, m.last, m.first_rotation, m.last_rotation].concat();
    let block = block(w, &[vec![radius_a, radius_b, fraction, slop], pairs(&move_a), pairs(&move_b)].concat());
    let number = [0, 1, 7, 1 << 63, (1 << 63) + 1, u64::MAX][w.below(6)];
    let text = line(number, &block);
    assert_eq!(text.is_some(), number > 0 && number <= 1 << 63);
    assert!(text.as_ref().map_or(true, |text| text.starts_with(&format!("{number} ")) && text.ends_with('\n')));
    said.push(format!("{text:?}"));
    said.join("\n")
}

/// The seeds of a run; HOSTILE asks for more.
fn seeds() -> std::ops::RangeInclusive<u64> {
    1..=std::env::var("HOSTILE").ok().and_then(|n| n.parse().ok()).unwrap_or(500)
}

/// What calls answer; the letters are those of lines.
const ANSWERS: [&str; 12] = ["Clear", "F", "Failed", "H", "Hit", "O", "Overlapped", "S", "Separated", "Settled", "Touch", "Touching"];

#[test]
fn every_call_answers_or_refuses() {
    let (mut refused, mut answered) = (std::collections::BTreeSet::new(), std::collections::BTreeSet::new());
    for seed in seeds() {
        let said = told(seed);
        refused.extend(said.split("Refusal(").skip(1).filter_map(|rest| rest.split(')').next()?.parse::<u32>().ok()));
        let line = said.rsplit('\n').next().and_then(|text| text.strip_prefix("Some(\"")?.strip_suffix("\\n\")"));
        let words: Vec<&str> = line.unwrap_or_default().split(' ').collect();
        refused.extend(words.get(2).and_then(|number| number.parse::<u32>().ok()).filter(|number| *number > 0));
        answered.extend(words.get(3).map(|letter| letter.to_string()));
        answered.extend(ANSWERS.iter().filter(|name| name.len() > 1 && said.contains(*name)).map(|name| name.to_string()));
    }
    // all refusals of these calls occurred, and so did answers
    assert_eq!(refused.into_iter().collect::<Vec<u32>>(), [1, 2, 3, 4, 5, 6, 7, 8, 11, 12, 13, 16, 17]);
    assert_eq!(answered.into_iter().collect::<Vec<String>>(), ANSWERS);
}

#[test]
fn threads_at_once_answer_as_one() {
    let alone: Vec<String> = (1..=40).map(told).collect();
    let threads: Vec<_> = (0..4).map(|_| std::thread::spawn(|| (1..=40).map(told).collect::<Vec<String>>())).collect();
    for thread in threads {
        assert!(thread.join().unwrap() == alone);
    }
}

#[test]
fn refusals_are_errors() {
    fn first() -> Result<(), Box<dyn Error + Send + Sync>> {
        pose(&Move { local_center: [0.0; 2], first: [0.0; 2], last: [0.0; 2], first_rotation: [1.0, 0.0], last_rotation: [1.0, 0.0] }, 2.0)?;
        Ok(())
    }
    fn second() -> Result<(), Box<dyn Error + Send + Sync>> {
        route(&[], &[Waypoint { center: [0.0; 2], rotation: [1.0, 0.0] }; 2], &[&[0.0, 0.0]], 0.01)?;
        Ok(())
    }
    fn third() -> Result<(), Box<dyn Error + Send + Sync>> {
        route_clearance(&[], &[], &[], 0.01)?;
        Ok(())
    }
    assert_eq!(first().unwrap_err().to_string(), "refused by 7: a fraction is not in 0 to 1, or a look starts behind the max fraction");
    let told = second().unwrap_err();
    assert_eq!(told.to_string(), "leg 1, outline 1: refused by 1: outline A is empty, of odd length, or above 64 points");
    let known: Option<&RouteRefusal<Stop>> = told.downcast_ref();
    assert_eq!(known.map(|r| r.refusal), Some(Refusal(1)));
    assert_eq!(third().unwrap_err().to_string(), "refused by 16: the route has fewer than 2 or more than 33 waypoints");
}
