//! How far a long run is: told on standard error where that is a terminal, or where FOLDFLAKE_PROGRESS asks for it, then in lines.
use std::io::{self, IsTerminal, Write};
use std::time::{Duration, Instant};

/// How many blocks are worked between two looks at the clock, and between two lines.
const EVERY: usize = 1000;

pub struct Progress {
    what: String,
    all: usize,
    began: Instant,
    told: Option<Instant>,
    lines: bool,
    terminal: bool,
}

impl Progress {
    pub fn new(what: &str, all: usize) -> Progress {
        let lines = std::env::var_os("FOLDFLAKE_PROGRESS").is_some_and(|asked| !asked.is_empty());
        Progress { what: what.to_string(), all, began: Instant::now(), told: None, lines, terminal: io::stderr().is_terminal() }
    }

    /// So many blocks are done.
    pub fn at(&mut self, done: usize) {
        let said = || format!("{}: {done} of {} blocks, {} s", self.what, self.all, self.began.elapsed().as_secs());
        if self.lines {
            if self.all > EVERY && (done % EVERY == 0 || done == self.all) {
                eprintln!("{}", said());
            }
        } else if self.terminal && (done % 100 == 0) && self.told.unwrap_or(self.began).elapsed() > Duration::from_millis(500) {
            eprint!("\r{}\x1b[K", said());
            self.told = Some(Instant::now());
        }
    }
}

impl Drop for Progress {
    fn drop(&mut self) {
        if self.told.is_some() {
            eprint!("\r\x1b[K");
            let _ = io::stderr().flush();
        }
    }
}
