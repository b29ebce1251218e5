//! A batch's bytes: its blocks, the fields that each holds, and the answer that the proved line tells of it.
use super::moves::Move;
use super::text::LIMIT;
use super::words::shortest;

/// How many bytes a block has.
pub const BLOCK: usize = 512;

/// A piece of a batch.
#[derive(Clone, Copy, Debug)]
pub enum Part<'a> {
    /// A whole block.
    Block(&'a [u8; BLOCK]),
    /// Fewer bytes than a block has, at the end.
    Rest(&'a [u8]),
}

/// The pieces of a batch, in order.
pub fn parts(bytes: &[u8]) -> impl Iterator<Item = Part<'_>> {
    bytes.chunks(BLOCK).map(|chunk| match chunk.try_into() {
        Ok(block) => Part::Block(block),
        Err(_) => Part::Rest(chunk),
    })
}

/// What a block says of its job. Nothing is checked here: the sheet says whether the block is refused.
#[derive(Clone, Debug, PartialEq)]
pub struct Job {
    /// The job's number.
    pub number: u32,
    /// The corners, x y x y .., of A and of B; at most 16 points each.
    pub points: [Vec<f32>; 2],
    /// The radius of A and of B.
    pub radius: [f32; 2],
    /// How much of the moves is planned.
    pub max_fraction: f32,
    /// The slop.
    pub slop: f32,
    /// The move of A and of B.
    pub moves: [Move; 2],
}

impl Job {
    /// The fields of a block.
    pub fn of(block: &[u8; BLOCK]) -> Job {
        let float = |place: usize| f32::from_bits(word(block, place));
        let pair = |place: usize| [float(place), float(place + 4)];
        let planned = |from: usize| Move {
            local_center: pair(from),
            first: pair(from + 8),
            last: pair(from + 16),
            first_rotation: pair(from + 24),
            last_rotation: pair(from + 32),
        };
        let points = |from: usize, count: u8| (0..2 * usize::from(count.min(16))).map(|i| float(from + 4 * i)).collect();
        Job {
            number: word(block, 0),
            points: [points(104, block[4]), points(232, block[5])],
            radius: pair(8),
            max_fraction: float(16),
            slop: float(20),
            moves: [planned(24), planned(64)],
        }
    }

    /// The distance of the outlines that counts as contact: the larger of the slop and the radii together less the slop.
    pub fn target(&self) -> f32 {
        self.slop.max(self.radius[0] + self.radius[1] - self.slop)
    }

    /// Whether the body turns on its way: 0 for A, 1 for B.
    pub fn turns(&self, body: usize) -> bool {
        self.moves[body].first_rotation != self.moves[body].last_rotation
    }

    /// Whether the body makes a half turn, within a tenth of a degree: it has no direction.
    pub fn half_turn(&self, body: usize) -> bool {
        let m = &self.moves[body];
        let [c, s] = [0, 1].map(|i| f64::from(m.first_rotation[i]) + f64::from(m.last_rotation[i]));
        c.hypot(s) < 2.0 * 89.95f64.to_radians().cos()
    }

    /// Whether the body stays as it is.
    pub fn stands(&self, body: usize) -> bool {
        !self.turns(body) && self.moves[body].first == self.moves[body].last
    }
}

fn word(block: &[u8; BLOCK], place: usize) -> u32 {
    u32::from_le_bytes([block[place], block[place + 1], block[place + 2], block[place + 3]])
}

/// How a sweep ended: the letter of the sheet.
#[derive(Clone, Copy, Debug, PartialEq, Eq)]
pub enum Status {
    /// O
    Overlapped,
    /// H
    Hit,
    /// S
    Separated,
    /// F
    Failed,
}

/// What the sheet's line tells of a block that was worked.
#[derive(Clone, Debug, PartialEq)]
pub struct Verdict {
    /// The status.
    pub status: Status,
    /// The fraction, the point x y and the normal x y.
    pub floats: [f32; 5],
    /// Distance calls, separation searches, root steps.
    pub counts: [u64; 3],
    /// For A and for B, the two corners on one line that the last search named, often the same; none for a side, or where none was told.
    pub corners: [Option<[u32; 2]>; 2],
}

/// What the sheet's line tells.
#[derive(Clone, Debug, PartialEq)]
pub struct Answer {
    /// The line itself, without its newline.
    pub line: String,
    /// The job that it names; 0 where the block's number of job is not to be trusted.
    pub job: u32,
    /// The verdict, or the number of the refusal.
    pub told: Result<Verdict, u32>,
}

/// What a line of the sheet tells, with the corners of the last search or without.
pub fn read(line: String) -> Answer {
    let words: Vec<&str> = line.split(' ').collect();
    let number_at = |i: usize| words.get(i).and_then(|word| word.parse().ok()).unwrap_or(0u64);
    let status = match words.get(3).copied() {
        Some("O") => Status::Overlapped,
        Some("H") => Status::Hit,
        Some("S") => Status::Separated,
        Some("F") => Status::Failed,
        _ => return Answer { job: number_at(1) as u32, told: Err(number_at(2) as u32), line },
    };
    let mut floats = [0f32; 5];
    for (place, word) in floats.iter_mut().zip(&words[4..]) {
        *place = f32::from_bits(u32::from_str_radix(word, 16).expect("a float is told by eight hexadecimal digits"));
    }
    let corner = |i: usize| words.get(i).and_then(|word| word.parse().ok());
    let pair = |i: usize| corner(i).and_then(|first| corner(i + 1).map(|second| [first, second]));
    let verdict = Verdict { status, floats, counts: [number_at(9), number_at(10), number_at(11)], corners: [pair(12), pair(14)] };
    Answer { job: number_at(1) as u32, told: Ok(verdict), line }
}

/// Which field of a refused piece is at fault, in words: all that the number speaks of.
pub fn faults(part: &Part, refusal: u32) -> Vec<String> {
    let block = match part {
        Part::Rest(rest) => return vec![format!("only {} of a block's {BLOCK} bytes are there; nothing after them is read", rest.len())],
        Part::Block(block) => *block,
    };
    let job = Job::of(block);
    let mut found = Vec::new();
    match refusal {
        3 => {
            for (body, points) in ["A", "B"].iter().zip(&job.points) {
                for (i, x) in points.iter().enumerate() {
                    part_fault(&format!("outline {body}, corner {}: {}", i / 2, ["x", "y"][i % 2]), *x, &mut found);
                }
            }
        }
        4 => {
            for (body, r) in ["A", "B"].iter().zip(job.radius) {
                size_fault(&format!("the radius of {body}"), r, &mut found);
            }
        }
        5 => {
            for (body, m) in ["A", "B"].iter().zip(&job.moves) {
                for (which, [c, s]) in [("first", m.first_rotation), ("last", m.last_rotation)] {
                    let square = c * c + s * s;
                    if !(c.abs() <= 1.0 && s.abs() <= 1.0 && (0.984375..=1.015625).contains(&square)) {
                        let [c, s, square] = [c, s, square].map(shortest);
                        found.push(format!("the {which} rotation of {body} is no cosine and sine: c {c}, s {s}, their squares add up to {square}"));
                    }
                }
            }
        }
        6 => {
            for (body, m) in ["A", "B"].iter().zip(&job.moves) {
                for (which, [x, y]) in [("local", m.local_center), ("first", m.first), ("last", m.last)] {
                    part_fault(&format!("the {which} centre of {body}: x"), x, &mut found);
                    part_fault(&format!("the {which} centre of {body}: y"), y, &mut found);
                }
            }
        }
        7 => found.push(format!("the max fraction is {}, and has to lie in 0 to 1", shortest(job.max_fraction))),
        8 if job.slop == 0.0 => found.push("the slop is 0, and has to be above 0".to_string()),
        8 => size_fault("the slop", job.slop, &mut found),
        10 => {
            let (sum, rule) = if block[6] == 2 {
                (weighted(block), "the words, each times its place, and the check")
            } else {
                ((0..128).fold(0u32, |sum, i| sum.wrapping_add(word(block, 4 * i))), "the words")
            };
            found.push(format!("the check is wrong: {rule} add up to {sum:08X}, not to FFFFFFFF"));
        }
        11 => field_faults(block, &mut found),
        13 => found.push(format!("byte 6 is {}, and has to be 0 or 2", block[6])),
        _ => {}
    }
    found
}

/// The sum of form 2: word i times i + 1 over all but the check, and the check.
fn weighted(block: &[u8; BLOCK]) -> u32 {
    (0..127u32).fold(word(block, 508), |sum, i| sum.wrapping_add(word(block, 4 * i as usize).wrapping_mul(i + 1)))
}

fn part_fault(what: &str, x: f32, found: &mut Vec<String>) {
    if !x.is_finite() {
        found.push(format!("{what} is {}, and has to be a number", shortest(x)));
    } else if x.abs() > LIMIT {
        found.push(format!("{what} is {}, above {LIMIT} in size", shortest(x)));
    }
}

fn size_fault(what: &str, x: f32, found: &mut Vec<String>) {
    if x < 0.0 {
        found.push(format!("{what} is {}, below 0", shortest(x)));
    } else {
        part_fault(what, x, found);
    }
}

/// What refusal 11 speaks of.
fn field_faults(block: &[u8; BLOCK], found: &mut Vec<String>) {
    if word(block, 0) == 0 {
        found.push("the job's number is 0".to_string());
    }
    for (body, count) in [("A", block[4]), ("B", block[5])] {
        if !(1..=16).contains(&count) {
            found.push(format!("outline {body} has {count} points, and may have 1 to 16"));
        }
    }
    let used = |count: u8| 8 * usize::from(count.min(16));
    let form = if block[6] == 2 { 7..8 } else { 6..8 };
    let zeros = [form, 104 + used(block[4])..232, 232 + used(block[5])..360, 360..508];
    let wrong: Vec<usize> = zeros.into_iter().flatten().filter(|&place| block[place] != 0).collect();
    if let Some(&place) = wrong.first() {
        let more = if wrong.len() > 1 { format!(", and {} more", wrong.len() - 1) } else { String::new() };
        found.push(format!("byte {place} is {}, and has to be 0{more}", block[place]));
    }
}

#[cfg(test)]
mod tests {
    use super::*;

    #[test]
    fn a_line_is_read_with_corners_or_without() {
        let start = "1 7 0 H 3F600000 3E800000 00000000 3F800000 7FC00000 2 5 21";
        for (end, corners) in [("", [None, None]), (" 0 3 1 1", [Some([0, 3]), Some([1, 1])]), (" - - 2 4", [None, Some([2, 4])]), (" - - - -", [None, None])] {
            let told = read(format!("{start}{end}")).told.unwrap();
            assert_eq!((told.status, told.floats[..4].to_vec(), told.counts), (Status::Hit, vec![0.875, 0.25, 0.0, 1.0], [2, 5, 21]));
            assert!(told.floats[4].is_nan() && told.corners == corners, "{end}");
        }
        assert_eq!(read("3 0 10".to_string()), Answer { line: "3 0 10".to_string(), job: 0, told: Err(10) });
        assert_eq!(read("4 4294967295 3".to_string()).job, u32::MAX);
    }
}
