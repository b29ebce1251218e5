//! The sheet and the gaps of a batch by the oracle. A block's floats are f32; f64 takes each over as the same number.
use crate::math::{Real, Rotation, Vector};
use crate::pool::points;
use crate::sweep;
use crate::sweep_toi::proxy_distance::{proxy_distance, SimplexCache};
use crate::sweep_toi::sweep::Sweep;
use crate::sweep_toi::toi_proxy::ToiProxy;
use crate::width::{bits, HEX};
use std::io::{Read, Write};

pub const SIZE: usize = 512;

pub fn word(b: &[u8], at: usize) -> u32 {
    u32::from_le_bytes(b[at..at + 4].try_into().unwrap())
}

fn float(b: &[u8], at: usize) -> Real {
    f32::from_bits(word(b, at)) as Real
}

fn vector(b: &[u8], at: usize) -> Vector {
    Vector::new(float(b, at), float(b, at + 4))
}

fn rotation(b: &[u8], at: usize) -> Rotation {
    Rotation { c: float(b, at), s: float(b, at + 4) }
}

fn movement_at(b: &[u8], at: usize) -> Sweep {
    Sweep { local_center: vector(b, at), c1: vector(b, at + 8), c2: vector(b, at + 16), q1: rotation(b, at + 24), q2: rotation(b, at + 32) }
}

/// The check that fits in a form: byte 6 holds 0, or 2 where each word counts times its place from 1.
pub fn check(b: &[u8]) -> u32 {
    !(0..127).fold(0u32, |s, i| s.wrapping_add(word(b, 4 * i).wrapping_mul(if b[6] == 2 { i as u32 + 1 } else { 1 })))
}

/// Refusal 13, 10 or 11, or 0.
fn fields(b: &[u8]) -> u32 {
    if b[6] != 0 && b[6] != 2 {
        return 13;
    }
    if word(b, 508) != check(b) {
        return 10;
    }
    let (na, nb) = (b[4] as usize, b[5] as usize);
    let count_bad = |n: usize| n < 1 || n > 16;
    if word(b, 0) == 0 || count_bad(na) || count_bad(nb) {
        return 11;
    }
    let zero = |from: usize, to: usize| b[from..to].iter().all(|&x| x == 0);
    if zero(7, 8) && zero(104 + 8 * na, 232) && zero(232 + 8 * nb, 360) && zero(360, 508) {
        0
    } else {
        11
    }
}

/// The line of a block, and its kind: the number of refusal, or 16 O, 17 H, 18 S, 19 F.
pub fn line(number: u64, b: &[u8; SIZE]) -> (String, u32) {
    let refused = fields(b);
    if refused != 0 {
        let job = if refused == 11 { word(b, 0) } else { 0 };
        return (format!("{number} {job} {refused}\n"), refused);
    }
    let numbers = |at: usize, n: usize| (0..2 * n).map(|i| float(b, at + 4 * i)).collect::<Vec<Real>>();
    let x = sweep::answer(&numbers(104, b[4] as usize), float(b, 8), &movement_at(b, 24), &numbers(232, b[5] as usize), float(b, 12), &movement_at(b, 64), float(b, 16), float(b, 20));
    if x.refused != 0 {
        return (format!("{number} {} {}\n", word(b, 0), x.refused), x.refused);
    }
    let f = x.floats.map(bits);
    let k = x.corners.map(|i| if i == u32::MAX { "-".to_string() } else { i.to_string() });
    let text = format!(
        "{number} {} 0 {} {:0HEX$X} {:0HEX$X} {:0HEX$X} {:0HEX$X} {:0HEX$X} {} {} {} {}\n",
        word(b, 0), ["O", "H", "S", "F"][x.status as usize], f[0], f[1], f[2], f[3], f[4], x.counts[0], x.counts[1], x.counts[2], k.join(" ")
    );
    (text, 16 + x.status)
}

/// The same with the gaps of a worked block in place of its answer: without radii, by a distance call of its own at each 256th of the max fraction,
/// asked as the sweep asks.
fn gaps_line(number: u64, b: &[u8; SIZE]) -> (String, u32) {
    let (text, kind) = line(number, b);
    if kind < 16 {
        return (text, kind);
    }
    let numbers = |at: usize, n: usize| (0..2 * n).map(|i| float(b, at + 4 * i)).collect::<Vec<Real>>();
    let (pa, pb) = (points(&numbers(104, b[4] as usize)), points(&numbers(232, b[5] as usize)));
    let (wa, wb) = (movement_at(b, 24), movement_at(b, 64));
    let (seen_a, seen_b) = (wa.shifted(wa.c1), wb.shifted(wa.c1));
    let gaps = (0..=256).map(|k| {
        let t = float(b, 16) * (k as Real / 256.0);
        let pose = seen_a.transform_at(t).inv_mul(&seen_b.transform_at(t));
        let told = proxy_distance(&pose, &ToiProxy::from_points(&pa, 0.0), &ToiProxy::from_points(&pb, 0.0), false, &mut SimplexCache::default());
        format!("{:0HEX$X}", bits(told.distance))
    });
    (format!("{number} {} 0 {}\n", word(b, 0), gaps.collect::<Vec<_>>().join(" ")), kind)
}

/// Prints a line for each block of standard input; how many there were, were clear, contact, undecided and refused.
fn each(line: fn(u64, &[u8; SIZE]) -> (String, u32), out: &mut impl Write) -> [u64; 5] {
    let mut input = std::io::stdin().lock();
    let mut totals = [0u64; 5];
    let mut b = [0u8; SIZE];
    loop {
        let mut n = 0;
        while n < SIZE {
            match input.read(&mut b[n..]).expect("standard input can be read") {
                0 => break,
                k => n += k,
            }
        }
        if n == 0 {
            break;
        }
        totals[0] += 1;
        let (text, kind) = if n < SIZE { (format!("{} 0 9\n", totals[0]), 9) } else { line(totals[0], &b) };
        let place = match kind {
            18 => 1,
            16 | 17 => 2,
            19 => 3,
            _ => 4,
        };
        totals[place] += 1;
        out.write_all(text.as_bytes()).unwrap();
        if kind == 9 {
            break;
        }
    }
    totals
}

pub fn sheet() {
    let mut out = std::io::BufWriter::new(std::io::stdout().lock());
    let totals = each(line, &mut out);
    writeln!(out, "TOTAL {} {} {} {} {}", totals[0], totals[1], totals[2], totals[3], totals[4]).unwrap();
}

pub fn gaps() {
    let mut out = std::io::BufWriter::new(std::io::stdout().lock());
    let totals = each(gaps_line, &mut out);
    writeln!(out, "TOTAL {} {}", totals[0], totals[4]).unwrap();
}
