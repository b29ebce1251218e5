//! Corners of plates with the numbers that the Rust gives them: `Cuboid::vertex_feature_id`, which build.sh cuts from its text.
//! Each row has corner number, half sizes x y and corner x y, floats as the eight hexadecimal digits of their bits. The half sizes have a clear
//! sign bit, so the number is the corner's place in the list, that of a corner with -0 too.
use crate::domain::LIMIT;
use crate::math::Vector;
use crate::random::Random;
use crate::shape::Cuboid;

/// Zero, subnormals and their neighbours, ordinary ones, the edge of the domain.
const SIZES: [f32; 10] = [0.0, 1e-45, 1.1754942e-38, f32::MIN_POSITIVE, 0.1, 1.0, 1.0000001, 6.0, 1_048_575.9, LIMIT];

/// Corner k: the half sizes, x negated where bit 0 of k is set, y where bit 1 is.
fn corner(half: Vector, k: u32) -> Vector {
    Vector::new(if k & 1 == 0 { half.x } else { -half.x }, if k & 2 == 0 { half.y } else { -half.y })
}

/// All pairs of `SIZES`, then 300 of seeded patterns in the domain. Ends at the first corner to which the Rust gives another number.
pub fn rows() {
    let mut random = Random(3);
    let mut size = || f32::from_bits(random.below(LIMIT.to_bits() as u64 + 1) as u32);
    let mut halves: Vec<Vector> = SIZES.iter().flat_map(|&x| SIZES.iter().map(move |&y| Vector::new(x, y))).collect();
    halves.extend((0..300).map(|_| Vector::new(size(), size())));
    let mut negative_zeros = 0;
    for half in &halves {
        for k in 0..4 {
            let at = corner(*half, k);
            let words = [half.x, half.y, at.x, at.y].map(f32::to_bits);
            let number = Cuboid::vertex_feature_id(at);
            if number != k {
                eprintln!("corner {k} of half sizes {:08X} {:08X} has the number {number}", words[0], words[1]);
                std::process::exit(1);
            }
            negative_zeros += words[2..].iter().filter(|&&w| w == 1 << 31).count();
            println!("{number} {:08X} {:08X} {:08X} {:08X}", words[0], words[1], words[2], words[3]);
        }
    }
    eprintln!("{} plates, {} corners, {negative_zeros} parts -0", halves.len(), 4 * halves.len());
}
