//! The sweep and the distance call as one text for both widths of numbers, over the entry points of each.
use crate::{Cache, Contact, Corners, Counts, Distance, Ending, Move, Refusal, Sweep};

/// A width: its entry points, with lists of the lengths that they ask for.
pub trait Width: Copy + Default {
    fn root(self) -> Self;
    fn sweep(points_a: &[Self], points_b: &[Self], numbers: &[Self; 24], out: &mut [Self; 5], counts: &mut [u32; 7]) -> u32;
    fn distance(
        points_a: &[Self],
        points_b: &[Self],
        numbers: &[Self; 6],
        use_radii: bool,
        pair: u32,
        cache: &mut [u32; 8],
        out: &mut [Self; 7],
    ) -> u32;
}

macro_rules! width {
    ($number:ty, $root:ident, $sweep:ident, $distance:ident) => {
        extern "C" {
            fn $root(x: $number) -> $number;
            fn $sweep(
                points_a: *const $number,
                numbers_in_a: usize,
                points_b: *const $number,
                numbers_in_b: usize,
                numbers: *const $number,
                numbers_len: usize,
                out: *mut $number,
                out_len: usize,
                counts: *mut u32,
                counts_len: usize,
            ) -> u32;
            fn $distance(
                points_a: *const $number,
                numbers_in_a: usize,
                points_b: *const $number,
                numbers_in_b: usize,
                numbers: *const $number,
                numbers_len: usize,
                use_radii: u32,
                pair: u32,
                cache: *mut u32,
                cache_len: usize,
                out: *mut $number,
                out_len: usize,
            ) -> u32;
        }

        impl Width for $number {
            fn root(self) -> Self {
                // Safety: the call takes and returns a number.
                unsafe { $root(self) }
            }

            fn sweep(a: &[Self], b: &[Self], numbers: &[Self; 24], out: &mut [Self; 5], counts: &mut [u32; 7]) -> u32 {
                let (told, counted) = (out.as_mut_ptr(), counts.as_mut_ptr());
                // Safety: each list has the length handed over, and the two that are written are lent to us alone.
                unsafe { $sweep(a.as_ptr(), a.len(), b.as_ptr(), b.len(), numbers.as_ptr(), 24, told, 5, counted, 7) }
            }

            fn distance(
                a: &[Self],
                b: &[Self],
                numbers: &[Self; 6],
                use_radii: bool,
                pair: u32,
                cache: &mut [u32; 8],
                out: &mut [Self; 7],
            ) -> u32 {
                let (radii, kept, told) = (use_radii as u32, cache.as_mut_ptr(), out.as_mut_ptr());
                // Safety: as above.
                unsafe { $distance(a.as_ptr(), a.len(), b.as_ptr(), b.len(), numbers.as_ptr(), 6, radii, pair, kept, 8, told, 7) }
            }
        }
    };
}

width!(f32, foldflake_root, foldflake_sweep, foldflake_distance);
width!(f64, foldflake_root64, foldflake_sweep64, foldflake_distance64);

impl<T: Copy> Move<T> {
    /// The ten numbers of the move, in the order of a block.
    pub(crate) fn numbers(&self) -> [T; 10] {
        let Move { local_center: [a, b], first: [c, d], last: [e, f], first_rotation: [g, h], last_rotation: [i, j] } = *self;
        [a, b, c, d, e, f, g, h, i, j]
    }
}

/// The 24 numbers that a sweep takes beside its outlines.
pub fn numbers<T: Copy>(radius_a: T, move_a: &Move<T>, radius_b: T, move_b: &Move<T>, max_fraction: T, linear_slop: T) -> [T; 24] {
    let [a, b, c, d, e, f, g, h, i, j] = move_a.numbers();
    let [k, l, m, n, o, p, q, r, s, t] = move_b.numbers();
    [radius_a, radius_b, max_fraction, linear_slop, a, b, c, d, e, f, g, h, i, j, k, l, m, n, o, p, q, r, s, t]
}

#[allow(clippy::too_many_arguments)]
pub fn sweep<T: Width>(
    points_a: &[T],
    radius_a: T,
    move_a: &Move<T>,
    points_b: &[T],
    radius_b: T,
    move_b: &Move<T>,
    max_fraction: T,
    linear_slop: T,
) -> Result<Sweep<T>, Refusal> {
    let numbers = numbers(radius_a, move_a, radius_b, move_b, max_fraction, linear_slop);
    let (mut out, mut counts) = ([T::default(); 5], [0u32; 7]);
    let answer = T::sweep(points_a, points_b, &numbers, &mut out, &mut counts);
    let contact = Contact { fraction: out[0], point: [out[1], out[2]], normal: [out[3], out[4]] };
    let side = |first: u32, second: u32| if first == u32::MAX { None } else { Some([first, second]) };
    let corners = Corners { a: side(counts[3], counts[4]), b: side(counts[5], counts[6]) };
    let counts = Counts { distance_calls: counts[0], searches: counts[1], root_steps: counts[2] };
    match answer {
        16 => Ok(Sweep::Overlapped(counts, corners)),
        17 => Ok(Sweep::Hit(contact, counts, corners)),
        18 => Ok(Sweep::Separated(contact, counts, corners)),
        19 => Ok(Sweep::Failed(contact, counts, corners)),
        number => Err(Refusal(number)),
    }
}

#[allow(clippy::too_many_arguments)]
pub fn distance<T: Width>(
    rotation: [T; 2],
    translation: [T; 2],
    points_a: &[T],
    radius_a: T,
    points_b: &[T],
    radius_b: T,
    use_radii: bool,
    pair: u32,
    cache: &mut Cache,
) -> Result<Distance<T>, Refusal> {
    let numbers = [rotation[0], rotation[1], translation[0], translation[1], radius_a, radius_b];
    let (a, b) = (cache.index_a, cache.index_b);
    let mut words = [cache.pair, cache.count as u32, a[0], a[1], a[2], b[0], b[1], b[2]];
    let mut out = [T::default(); 7];
    let answer = T::distance(points_a, points_b, &numbers, use_radii, pair, &mut words, &mut out);
    let ending = match answer % 256 {
        16 => Ending::Touching,
        17 => Ending::Settled,
        18 => Ending::RoundLimit,
        number => return Err(Refusal(number)),
    };
    *cache = Cache { pair: words[0], count: words[1] as u8, index_a: [words[2], words[3], words[4]], index_b: [words[5], words[6], words[7]] };
    Ok(Distance {
        point_a: [out[0], out[1]],
        point_b: [out[2], out[3]],
        normal: [out[4], out[5]],
        distance: out[6],
        rounds: answer / 256,
        ending,
    })
}
