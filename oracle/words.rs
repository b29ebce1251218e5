//! Tables on standard output, in parts of 65,536 bytes of words as wide as a float, little-endian: the table's number, how many of its rows came before,
//! two zeros, and rows. No row lies across two parts; zeros fill what is left of one.
use crate::pool::Pool;
use crate::width::Bits;
use std::io::Write;

/// The tables, by their numbers.
pub const POOL: Bits = 0;
pub const GROUND: Bits = 1;
pub const DISTANCE: Bits = 2;
pub const SWEEP: Bits = 3;
pub const BLOCK: Bits = 4;

const PART: usize = 65_536 / std::mem::size_of::<Bits>();

pub struct Parts {
    out: std::io::BufWriter<std::io::StdoutLock<'static>>,
    used: usize,
    table: Bits,
    rows: Bits,
}

impl Parts {
    pub fn new() -> Self {
        Self { out: std::io::BufWriter::new(std::io::stdout().lock()), used: 0, table: POOL, rows: 0 }
    }

    fn put(&mut self, words: &[Bits]) {
        for w in words {
            self.out.write_all(&w.to_le_bytes()).expect("standard output takes the words");
        }
        self.used = (self.used + words.len()) % PART;
    }

    fn pad(&mut self) {
        self.put(&vec![0; (PART - self.used) % PART]);
    }

    /// The rows that follow are a table's first.
    pub fn table(&mut self, table: Bits) {
        self.pad();
        self.table = table;
        self.rows = 0;
    }

    pub fn row(&mut self, words: &[Bits]) {
        assert!(words.len() <= PART - 4, "{} words", words.len());
        if self.used + words.len() > PART {
            self.pad();
        }
        if self.used == 0 {
            self.put(&[self.table, self.rows, 0, 0]);
        }
        self.put(words);
        self.rows += 1;
    }

    /// The pool that the rows of the tables after it refer to.
    pub fn pool(&mut self, pool: &Pool) {
        self.table(POOL);
        self.row(&pool.words());
    }

    pub fn end(mut self) {
        self.pad();
        self.out.flush().expect("standard output takes the words");
    }
}
