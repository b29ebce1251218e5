//! Seeded batches, and rows of blocks with their lines. They are made in f32, the width of a block, and of the f64 build no part.
use crate::math::{Rotation, Vector};
use crate::pool::{angle, edge_rotations, move_numbers, movement, outline, ABOVE_LIMIT};
use crate::random::{Random, SPECIAL};
use crate::sheet::{check, line, word, SIZE};
use crate::sweep_toi::sweep::Sweep;
use crate::words::{self, Parts};
use std::io::Write;

/// What a block asks for; the head is both radii, the max fraction and the slop.
pub struct Job {
    pub a: Vec<f32>,
    pub b: Vec<f32>,
    pub head: [f32; 4],
    pub moves: [Sweep; 2],
}

pub fn block(job: u32, j: &Job) -> [u8; SIZE] {
    let mut b = [0u8; SIZE];
    let mut put = |at: usize, w: u32| b[at..at + 4].copy_from_slice(&w.to_le_bytes());
    put(0, job);
    put(4, (j.a.len() / 2) as u32 | ((j.b.len() / 2) as u32) << 8);
    for (i, x) in j.head.iter().enumerate() {
        put(8 + 4 * i, x.to_bits());
    }
    for (k, m) in j.moves.iter().enumerate() {
        for (i, x) in move_numbers(m).iter().enumerate() {
            put(24 + 40 * k + 4 * i, x.to_bits());
        }
    }
    for (at, s) in [(104, &j.a), (232, &j.b)] {
        for (i, x) in s.iter().enumerate() {
            put(at + 4 * i, x.to_bits());
        }
    }
    seal(&mut b);
    b
}

fn seal(b: &mut [u8; SIZE]) {
    let fits = check(b);
    b[508..].copy_from_slice(&fits.to_le_bytes());
}

fn short(r: &mut Random) -> Vec<f32> {
    let mut s = outline(r);
    s.truncate(32);
    s
}

/// One job of one of twelve families.
fn job(r: &mut Random, family: u64) -> Job {
    let radius = |r: &mut Random| if r.below(2) == 0 { 0.0 } else { r.unit().abs() };
    let slop = r.pick(&[0.005, 0.005, 0.01, 0.5, 1e-3, 1e-4]);
    let fraction = r.pick(&[1.0, 1.0, 1.0, 0.5, 0.75, 0.0]);
    let mut j = Job { a: short(r), b: short(r), head: [radius(r), radius(r), fraction, slop], moves: [movement(r), movement(r)] };
    let still = |v: Vector| Sweep { local_center: Vector::ZERO, c1: v, c2: v, q1: Rotation { c: 1.0, s: 0.0 }, q2: Rotation { c: 1.0, s: 0.0 } };
    match family {
        // small grid, straight moves
        1 => {
            let mut grid = |n: u64| (0..2 * n).map(|_| r.whole(3)).collect::<Vec<f32>>();
            j.a = grid(3);
            j.b = grid(4);
            j.moves = [still(Vector::ZERO), Sweep { c2: Vector::new(r.whole(2), r.whole(2)), ..still(Vector::new(r.whole(12), r.whole(12))) }];
        }
        // repeated and collinear points
        2 => {
            let p = [r.whole(3), r.whole(3)];
            j.a = p.repeat(1 + r.below(16) as usize);
            let n = 1 + r.below(16);
            j.b = (0..n).flat_map(|i| [i as f32, 2.0 * i as f32]).collect();
        }
        // touching or overlapping starts
        3 => {
            let c = j.moves[0].c1;
            j.moves[1].c1 = c;
            j.moves[1].local_center = Vector::ZERO;
            j.moves[0].local_center = Vector::ZERO;
        }
        // rotations of every kind
        4 => {
            for m in &mut j.moves {
                m.q1 = angle(r);
                m.q2 = angle(r);
                m.local_center = Vector::new(5.0 * r.unit(), 5.0 * r.unit());
            }
        }
        // edges of the domain, in and out
        5 => {
            let edges = edge_rotations();
            let odd = [1_048_576.0, ABOVE_LIMIT, -0.0, 1e-45, -1e-45, 1.0];
            for _ in 0..1 + r.below(3) {
                match r.below(7) {
                    0 => j.head[r.below(2) as usize] = r.pick(&odd),
                    1 => j.head[2] = r.pick(&[f32::from_bits(0x3f80_0000), f32::from_bits(0x3f80_0001), -0.0, -1e-45]),
                    2 => j.head[3] = r.pick(&[f32::from_bits(1), 0.0, -0.0, 1_048_576.0, ABOVE_LIMIT]),
                    3 => j.moves[r.below(2) as usize].q1 = edges[r.below(4) as usize],
                    4 => j.moves[r.below(2) as usize].c2.x = r.pick(&odd),
                    5 => { let i = r.below(j.a.len() as u64) as usize; j.a[i] = r.pick(&odd) }
                    _ => { let i = r.below(j.b.len() as u64) as usize; j.b[i] = r.pick(&odd) }
                }
            }
        }
        // special values anywhere
        6 => {
            for _ in 0..1 + r.below(4) {
                let x = r.pick(&SPECIAL);
                match r.below(6) {
                    0 => j.head[r.below(4) as usize] = x,
                    1 => j.moves[r.below(2) as usize].c1.y = x,
                    2 => j.moves[r.below(2) as usize].local_center.x = x,
                    3 => j.moves[r.below(2) as usize].q2.s = x,
                    4 => { let i = r.below(j.a.len() as u64) as usize; j.a[i] = x }
                    _ => { let i = r.below(j.b.len() as u64) as usize; j.b[i] = x }
                }
            }
        }
        // small slops, long searches
        7 => j.head[3] = r.pick(&[1e-6, 1e-7, 1e-20, 1e-45]),
        _ => {}
    }
    j
}

/// Two neighbouring words exchanged, from place 0 to 125.
fn exchange(b: &mut [u8; SIZE], place: usize) {
    for k in 4 * place..4 * place + 4 {
        b.swap(k, k + 4);
    }
}

/// Block i of a batch: twelve families in turn. Two are damaged blocks, sealed again or not; the last two are blocks of form 2, as they should be and
/// with two neighbouring words exchanged.
fn made(r: &mut Random, i: u64) -> [u8; SIZE] {
    let family = i % 12;
    let number = if family == 8 && r.below(8) == 0 { 0 } else { r.next() as u32 | 1 };
    let mut b = block(number, &job(r, family));
    if family >= 10 {
        b[6] = 2;
        seal(&mut b);
        if family == 11 {
            let any = r.below(126) as usize;
            exchange(&mut b, r.pick(&[0, 1, 26, any]));
        }
    } else if family >= 8 {
        for _ in 0..1 + r.below(3) {
            let any = r.below(508) as usize;
            let at = r.pick(&[4, 5, 6, 7, 103, 230, 231, 358, 359, 360, 400, 507, any]);
            b[at] = r.pick(&[0, 1, 2, 16, 17, 128, 255]);
        }
        if family == 8 || r.below(2) == 0 {
            seal(&mut b);
        } else {
            b[r.below(512) as usize] ^= 1 << r.below(8);
        }
    }
    b
}

pub fn batch(seed: u64, count: u64) {
    let mut r = Random(seed);
    let mut out = std::io::BufWriter::new(std::io::stdout().lock());
    for i in 0..count {
        out.write_all(&made(&mut r, i)).unwrap();
    }
}

/// A block as block `number` of a file, in 168 words: the block, the bytes of its line, zeros, and the line's kind.
pub fn row(number: u64, b: &[u8; SIZE]) -> Vec<u32> {
    let (text, kind) = line(number, b);
    let mut bytes = [&b[..], text.as_bytes()].concat();
    assert!(bytes.len() <= 668);
    bytes.resize(668, 0);
    bytes.chunks_exact(4).map(|w| word(w, 0)).chain([kind]).collect()
}

pub fn rows(seed: u64, count: u64) {
    let mut r = Random(seed);
    let mut out = Parts::new();
    out.table(words::BLOCK);
    let mut seen = [0u32; 20];
    for i in 1..=count {
        let words = row(i, &made(&mut r, i));
        seen[words[167] as usize] += 1;
        out.row(&words);
    }
    out.end();
    eprintln!("{seen:?}");
}
