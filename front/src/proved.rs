//! What `clearance` and `rooms` tell of a block, which is proved of its whole move; and the words for it.
use super::answers::{room, Answers, Proved};
use super::batch::Job;
use super::words::{downward, fraction_down, fraction_up, rounded, shortest};

/// What is known of one 64th of a move.
#[derive(Clone, Copy, Debug, PartialEq, Eq)]
pub enum Cell {
    Clear,
    Touch,
    Open,
}

/// What the two programs tell of a block that is not refused.
#[derive(Clone, Debug, PartialEq)]
pub struct Known {
    /// What holds at every moment.
    pub proved: Proved,
    /// The largest distance found that the outlines are proved to keep, where they are clear.
    pub room: Option<f32>,
    /// The parts of the move, in order.
    pub cells: Vec<Cell>,
}

impl Known {
    /// Of both lines; none where the block is refused. What cannot be read is not settled.
    pub fn of(told: &Answers) -> Option<Known> {
        let proved = match Proved::of(&told.clearance) {
            Some(Ok((proved, _))) => proved,
            Some(Err(_)) => return None,
            None => Proved::Open(0.0),
        };
        let cell = |letter: char| match letter {
            'C' => Cell::Clear,
            'T' => Cell::Touch,
            _ => Cell::Open,
        };
        let cells = told.rooms.split(' ').nth(4).map_or(Vec::new(), |cells| cells.chars().map(cell).collect());
        Some(Known { proved, room: room(&told.rooms).filter(|_| proved == Proved::Clear), cells })
    }

    /// The word that `clearance` prints.
    pub fn word(&self) -> &'static str {
        match self.proved {
            Proved::Clear => "CLEAR",
            Proved::Touch(..) => "TOUCH",
            Proved::Open(_) => "OPEN",
        }
    }

    /// How a card opens.
    pub fn sentence(&self, job: &Job) -> String {
        let keep = kept(job);
        let named = if keep_is_radii(job) { format!("{keep} (the radii together)") } else { keep.clone() };
        match self.proved {
            Proved::Clear => format!("proved clear over {}: {}", planned(job), self.apart(job)),
            Proved::Touch(_, t) if t <= 0.0 => format!("not clear: within {named} at the start already"),
            Proved::Touch(u, t) if u <= 0.0 => format!("not clear: within {named} by {} of the move", fraction_up(t)),
            Proved::Touch(u, t) => {
                format!("not clear: further apart than {named} up to {} of the move, within {keep} by {}", fraction_down(u), fraction_up(t))
            }
            Proved::Open(u) if u <= 0.0 => "not settled: the proof comes no further than the start".to_string(),
            Proved::Open(u) => format!("not settled after {}: further apart than {named} up to there, and the proof comes no further", fraction_down(u)),
        }
    }

    /// The same for the table of all jobs.
    pub fn short(&self, job: &Job) -> String {
        match self.proved {
            Proved::Clear => match downward(self.room.unwrap_or(job.slop), job.radius) {
                Some(room) => format!("at least {room} apart"),
                None => "they do not meet".to_string(),
            },
            Proved::Touch(_, t) if t <= 0.0 => "contact at the start".to_string(),
            Proved::Touch(_, t) => format!("contact by {}", fraction_up(t)),
            Proved::Open(u) => format!("not settled after {}", fraction_down(u)),
        }
    }

    /// The distance that is kept, in words: radii taken off where there are any.
    fn apart(&self, job: &Job) -> String {
        let who = if job.radius == [0.0, 0.0] { "the outlines" } else { "the bodies, radii included," };
        match downward(self.room.unwrap_or(job.slop), job.radius) {
            Some(room) => format!("{who} stay at least {room} apart"),
            None => format!("{who} do not meet"),
        }
    }
}

/// How much of a move a verdict speaks of.
fn planned(job: &Job) -> String {
    match job.max_fraction == 1.0 {
        true => "the whole move".to_string(),
        false => format!("all that is planned, up to {} of the move", trimmed(&rounded(f64::from(job.max_fraction), 4))),
    }
}

/// A decimal without the zeros at its end.
pub fn trimmed(text: &str) -> &str {
    if text.contains('.') {
        text.trim_end_matches('0').trim_end_matches('.')
    } else {
        text
    }
}

/// Whether the radii together are what has to be kept, and not the slop.
pub fn keep_is_radii(job: &Job) -> bool {
    f64::from(job.radius[0]) + f64::from(job.radius[1]) > f64::from(job.slop)
}

/// The distance to keep, the larger of the slop and the radii together, by its shortest decimal.
pub fn kept(job: &Job) -> String {
    shortest(if keep_is_radii(job) { job.radius[0] + job.radius[1] } else { job.slop })
}

#[cfg(test)]
mod tests {
    use super::super::job_text::read;
    use super::*;

    fn told(clearance: &str, rooms: &str) -> Option<Known> {
        Known::of(&Answers { clearance: clearance.to_string(), rooms: rooms.to_string(), ..Answers::default() })
    }

    #[test]
    fn both_lines_are_read() {
        let cells = "C".repeat(10) + &"T".repeat(20) + &"O".repeat(34);
        let touch = told("3 7 0 TOUCH 3E3FC000 3E3FC400 35", &format!("3 7 0 - {cells}")).unwrap();
        assert_eq!((touch.proved, touch.room, touch.word()), (Proved::Touch(0.187_255_86, 0.187_271_12), None, "TOUCH"));
        assert_eq!([9, 10, 29, 30].map(|k| touch.cells[k]), [Cell::Clear, Cell::Touch, Cell::Touch, Cell::Open]);
        assert_eq!(touch.cells.len(), 64);
        let clear = told("3 7 0 CLEAR 1", &format!("3 7 0 3F000000 {}", "C".repeat(64))).unwrap();
        assert_eq!((clear.proved, clear.room), (Proved::Clear, Some(0.5)));
        // refused, and an answer that nobody knows
        assert_eq!(told("3 7 8", "3 7 8"), None);
        assert_eq!(told("3 7 0 FINE 1", &format!("3 7 0 3F000000 {cells}")).map(|known| (known.proved, known.room)), Some((Proved::Open(0.0), None)));
    }

    /// Whatever the programs may tell, in words.
    #[test]
    fn each_verdict_in_words() {
        let jobs = |more: &str| read(format!("job: 7\na plate: 1 1\nb plate: 1 1\nb from: 6 0\n{more}").as_bytes()).unwrap().jobs[0].block();
        let said = |more: &str, clearance: &str, rooms: &str| {
            let job = Job::of(&jobs(more));
            let known = told(&format!("1 7 0 {clearance}"), &format!("1 7 0 {rooms}")).unwrap();
            [known.sentence(&job), known.short(&job)]
        };
        assert_eq!(said("", "CLEAR 3", "3E400000 C"), ["proved clear over the whole move: the outlines stay at least 0.187 apart", "at least 0.187 apart"]);
        assert_eq!(
            said("radius a: 1\nfraction: 0.5\n", "CLEAR 3", "3FC00000 C"),
            ["proved clear over all that is planned, up to 0.5 of the move: the bodies, radii included, stay at least 0.500 apart", "at least 0.500 apart"]
        );
        assert_eq!(
            said("radius a: 1\n", "CLEAR 3", "3F800000 C"),
            ["proved clear over the whole move: the bodies, radii included, do not meet", "they do not meet"]
        );
        assert_eq!(
            said("", "TOUCH 3E3FC000 3E3FC400 35", "- C"),
            ["not clear: further apart than 0.005 up to 0.1872 of the move, within 0.005 by 0.1873", "contact by 0.1873"]
        );
        assert_eq!(
            said("radius a: 1\nradius b: 0.5\n", "TOUCH 3E3FC000 3E3FC400 35", "- C")[0],
            "not clear: further apart than 1.5 (the radii together) up to 0.1872 of the move, within 1.5 by 0.1873"
        );
        assert_eq!(said("", "TOUCH 00000000 00000000 0", "- C"), ["not clear: within 0.005 at the start already", "contact at the start"]);
        assert_eq!(said("", "TOUCH 00000000 3E3FC400 0", "- C")[0], "not clear: within 0.005 by 0.1873 of the move");
        assert_eq!(
            said("", "OPEN 3EDFFFFF 4096", "- C"),
            ["not settled after 0.4374: further apart than 0.005 up to there, and the proof comes no further", "not settled after 0.4374"]
        );
        assert_eq!(said("", "OPEN 00000000 4096", "- C")[0], "not settled: the proof comes no further than the start");
    }
}
