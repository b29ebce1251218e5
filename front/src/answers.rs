//! What the proved programs tell of a batch, block by block.

/// What the four programs tell of one block.
#[derive(Clone, Debug, Default, PartialEq)]
pub struct Answers {
    /// The line of `sheet`, without its newline.
    pub sheet: String,
    /// The line of `clearance`, without its newline.
    pub clearance: String,
    /// The line of `rooms`, without its newline.
    pub rooms: String,
    /// What `gaps` tells, NaN where no number is worked out; empty where the block is refused.
    pub gaps: Vec<f32>,
}

/// The numbers of a line of `gaps`.
pub fn gaps(line: &str) -> Vec<f32> {
    line.split(' ').skip(3).filter_map(|word| u32::from_str_radix(word, 16).ok()).map(f32::from_bits).collect()
}

/// What is proved of a whole move.
#[derive(Clone, Copy, Debug, PartialEq)]
pub enum Proved {
    /// Farther apart than the distance to keep, all of it.
    Clear,
    /// So up to the first fraction; at the second no more.
    Touch(f32, f32),
    /// So up to the fraction; what comes later is not settled.
    Open(f32),
}

impl Proved {
    /// What a line of `clearance` tells, with the number of pieces that were tried; or the number of the refusal.
    pub fn of(line: &str) -> Option<Result<(Proved, u64), u32>> {
        let words: Vec<&str> = line.split(' ').collect();
        let float = |i: usize| words.get(i).and_then(|word| u32::from_str_radix(word, 16).ok()).map(f32::from_bits);
        let pieces = || words.last().and_then(|word| word.parse().ok());
        match (words.get(2).copied()?, words.get(3).copied()) {
            ("0", Some("CLEAR")) => Some(Ok((Proved::Clear, pieces()?))),
            ("0", Some("TOUCH")) => Some(Ok((Proved::Touch(float(4)?, float(5)?), pieces()?))),
            ("0", Some("OPEN")) => Some(Ok((Proved::Open(float(4)?), pieces()?))),
            (refusal, None) => refusal.parse().ok().map(Err),
            _ => None,
        }
    }
}

/// The room that a line of `rooms` tells: a distance of the outlines for which the whole move is proved clear.
pub fn room(line: &str) -> Option<f32> {
    line.split(' ').nth(3).filter(|word| *word != "-").and_then(|word| u32::from_str_radix(word, 16).ok()).map(f32::from_bits)
}

#[cfg(test)]
mod tests {
    use super::*;

    #[test]
    fn lines_are_read() {
        assert_eq!(Proved::of("1 2101 0 CLEAR 3"), Some(Ok((Proved::Clear, 3))));
        assert_eq!(Proved::of("13 2113 0 TOUCH 3E3FC000 3E3FC400 35"), Some(Ok((Proved::Touch(0.187_255_86, 0.187_271_12), 35))));
        assert_eq!(Proved::of("2 7 0 OPEN 3F000000 4096"), Some(Ok((Proved::Open(0.5), 4096))));
        assert_eq!(Proved::of("11 2111 8"), Some(Err(8)));
        assert_eq!([Proved::of(""), Proved::of("1 7 0 MAYBE 3"), Proved::of("1 7 0 TOUCH 3E3FC000")], [None, None, None]);
        assert_eq!([room("2 2102 0 3F000000 CCCC"), room("13 2113 0 - CCTT"), room("11 2111 8")], [Some(0.5), None, None]);
        assert!(gaps("1 7 0 3F000000 7FC00000")[1].is_nan() && gaps("1 7 8").is_empty());
    }
}
