//! The blocks of a batch in f64, by the safe Rust face: prints what `examples/wide.c` prints, from its own reading of the block.
use foldflake::{line, wide, Cache, Contact, Corners, Counts, Distance, Ending, Move, Sweep};
use std::fmt::Write as _;
use std::io::{self, Read, Write as _};

fn main() -> io::Result<()> {
    let mut bytes = Vec::new();
    io::stdin().read_to_end(&mut bytes)?;
    let mut out = io::BufWriter::new(io::stdout());
    for (number, part) in (1..).zip(bytes.chunks(512)) {
        let text = match <&[u8; 512]>::try_from(part) {
            Ok(block) => {
                let line = line(number, block).expect("a file has fewer than 2^63 blocks");
                // 10, 11 and 13 are about the block's bytes, whatever its floats are worked in
                match line.split_whitespace().nth(2) {
                    Some("10" | "11" | "13") => line,
                    _ => work(number, &Job::of(block)),
                }
            }
            Err(_) => format!("{number} 0 9\n"),
        };
        out.write_all(text.as_bytes())?;
    }
    out.flush()
}

/// What a block says of its job, every number as an f64: the same number.
struct Job {
    number: u32,
    points: [Vec<f64>; 2],
    /// The radii, the max fraction and the slop.
    numbers: [f64; 4],
    moves: [Move<f64>; 2],
}

impl Job {
    fn of(block: &[u8; 512]) -> Job {
        let word = |place: usize| u32::from_le_bytes([block[place], block[place + 1], block[place + 2], block[place + 3]]);
        let number = |place: usize| f64::from(f32::from_bits(word(place)));
        let pair = |place: usize| [number(place), number(place + 4)];
        let planned = |from: usize| Move {
            local_center: pair(from),
            first: pair(from + 8),
            last: pair(from + 16),
            first_rotation: pair(from + 24),
            last_rotation: pair(from + 32),
        };
        let points = |from: usize, count: u8| (0..2 * usize::from(count.min(16))).map(|i| number(from + 4 * i)).collect();
        Job {
            number: word(0),
            points: [points(104, block[4]), points(232, block[5])],
            numbers: [8, 12, 16, 20].map(number),
            moves: [planned(24), planned(64)],
        }
    }
}

fn told(numbers: &[f64]) -> String {
    let bits = |x: &f64| if x.is_nan() { 0x7FF8_0000_0000_0000 } else { x.to_bits() };
    numbers.iter().map(|x| format!(" {:016X}", bits(x))).collect()
}

fn work(number: u64, job: &Job) -> String {
    let [a, b] = &job.points;
    let [radius_a, radius_b, max_fraction, slop] = job.numbers;
    let [move_a, move_b] = job.moves;
    let mut text = format!("{number} {} ", job.number);
    match wide::sweep(a, radius_a, &move_a, b, radius_b, &move_b, max_fraction, slop) {
        Err(refusal) => write!(text, "{}", refusal.0),
        Ok(Sweep::Overlapped(counts, corners)) => {
            let contact = Contact { fraction: 0.0, point: [0.0; 2], normal: [0.0; 2] };
            write!(text, "0 O{}", verdict(contact, counts, corners))
        }
        Ok(Sweep::Hit(contact, counts, corners)) => write!(text, "0 H{}", verdict(contact, counts, corners)),
        Ok(Sweep::Separated(contact, counts, corners)) => write!(text, "0 S{}", verdict(contact, counts, corners)),
        Ok(Sweep::Failed(contact, counts, corners)) => write!(text, "0 F{}", verdict(contact, counts, corners)),
    }
    .expect("a string takes all");

    let mut cache = Cache::default();
    for (turn_b, centre_a, centre_b) in [(move_b.first_rotation, move_a.first, move_b.first), (move_b.last_rotation, move_a.last, move_b.last)] {
        let seen = [centre_b[0] - centre_a[0], centre_b[1] - centre_a[1]];
        let (answer, out) = match wide::distance(turn_b, seen, a, radius_a, b, radius_b, true, job.number, &mut cache) {
            Err(refusal) => (refusal.0, [0.0; 7]),
            Ok(Distance { point_a, point_b, normal, distance, rounds, ending }) => {
                let ending = match ending {
                    Ending::Touching => 16,
                    Ending::Settled => 17,
                    Ending::RoundLimit => 18,
                };
                (256 * rounds + ending, [point_a[0], point_a[1], point_b[0], point_b[1], normal[0], normal[1], distance])
            }
        };
        let ([i, j, k], [l, m, n]) = (cache.index_a, cache.index_b);
        write!(text, "\nD {answer} {} {} {i} {j} {k} {l} {m} {n}{}", cache.pair, cache.count, told(&out)).expect("a string takes all");
    }

    let mut numbers = vec![radius_a, radius_b, max_fraction, slop];
    for m in [move_a, move_b] {
        numbers.extend([m.local_center, m.first, m.last, m.first_rotation, m.last_rotation].concat());
    }
    let roots: Vec<f64> = numbers.into_iter().map(wide::root).collect();
    text + "\nR" + &told(&roots) + "\n"
}

/// The fields of a line behind its status.
fn verdict(contact: Contact<f64>, counts: Counts, corners: Corners) -> String {
    let [[x, y], [u, v]] = [contact.point, contact.normal];
    let side = |corners: Option<[u32; 2]>| corners.map_or("- -".to_string(), |[first, second]| format!("{first} {second}"));
    let Counts { distance_calls, searches, root_steps } = counts;
    format!("{} {distance_calls} {searches} {root_steps} {} {}", told(&[contact.fraction, x, y, u, v]), side(corners.a), side(corners.b))
}
