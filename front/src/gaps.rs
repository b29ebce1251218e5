//! The gap over the move: sampled, not proved.
use super::batch::Job;

/// How many equal pieces the planned part of a move is cut into; one sample more than that.
pub const PIECES: usize = 256;

/// The fraction of sample `k`.
pub fn fraction(job: &Job, k: usize) -> f32 {
    (f64::from(job.max_fraction) * k as f64 / PIECES as f64) as f32
}

/// What the samples of one job come to.
#[derive(Clone, Copy, Debug, PartialEq)]
pub struct Sampled {
    /// The first sample with the smallest gap.
    pub least: usize,
    /// That gap.
    pub gap: f32,
    /// The longest run of samples at which the gap is 0: its first and last sample.
    pub touching: Option<[usize; 2]>,
    /// The first sample at which the gap is 0.
    pub first_touching: Option<usize>,
    /// How many samples gave no number.
    pub unknown: usize,
}

impl Sampled {
    /// Of the samples in order.
    pub fn of(samples: &[f32]) -> Sampled {
        let mut out = Sampled { least: 0, gap: f32::NAN, touching: None, first_touching: None, unknown: 0 };
        let mut run: Option<usize> = None;
        for (k, &x) in samples.iter().enumerate() {
            if x.is_nan() {
                out.unknown += 1;
            } else if out.gap.is_nan() || x < out.gap {
                (out.least, out.gap) = (k, x);
            }
            run = if x == 0.0 { run.or(Some(k)) } else { None };
            if let Some(from) = run {
                out.first_touching = out.first_touching.or(Some(k));
                let longest = out.touching.map_or(0, |[from, to]| to - from + 1);
                if k - from + 1 > longest {
                    out.touching = Some([from, k]);
                }
            }
        }
        out
    }

    /// The sample to tell where the outlines touch: the middle of the longest run.
    pub fn middle(&self) -> Option<usize> {
        self.touching.map(|[from, to]| (from + to) / 2)
    }
}

#[cfg(test)]
mod tests {
    use super::*;

    #[test]
    fn the_longest_run_of_zeros_is_told() {
        let told = Sampled::of(&[3.0, 0.0, 1.0, 0.0, 0.0, 0.0, f32::NAN, 0.5]);
        assert_eq!(told, Sampled { least: 1, gap: 0.0, touching: Some([3, 5]), first_touching: Some(1), unknown: 1 });
        assert_eq!(told.middle(), Some(4));
        let apart = Sampled::of(&[3.0, 2.0, 2.0]);
        assert_eq!((apart.least, apart.gap, apart.touching, apart.middle()), (1, 2.0, None, None));
        assert!(Sampled::of(&[f32::NAN]).gap.is_nan());
    }
}
