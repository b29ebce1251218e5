//! Files that take another's place once they are whole, and batches for programs to read.
use super::programs::{of, Fault};
use std::fs::{self, File, OpenOptions};
use std::io::{self, Read};
use std::path::{Path, PathBuf};

/// A kind of file, so that an older one of ours can be told from another.
pub struct Kind {
    /// What it is called.
    pub name: &'static str,
    /// Whether a file with this start and of this length is one.
    pub is: fn(&[u8], u64) -> bool,
}

pub const PAGE: Kind = Kind { name: "page", is: |start, _| start.starts_with(b"<!DOCTYPE html>") };
pub const BATCH: Kind = Kind { name: "batch", is: |_, length| length % 512 == 0 };

/// Where a file is to come. What is there stays until the new one is whole.
pub struct Place<'a> {
    named: &'a Path,
    place: PathBuf,
    part: PathBuf,
    keep: bool,
    kind: &'a Kind,
}

impl<'a> Place<'a> {
    /// Refused where the file would take the place of one that is read, or of something that is no file.
    pub fn new(named: &'a Path, kind: &'a Kind, read: &[(&Path, &str)]) -> Result<Place<'a>, Fault> {
        let refused = |why: String| Err(Fault::Said(format!("{}: {why}", named.display())));
        // a link stays one: the file takes the place of what it leads to
        let place = fs::canonicalize(named).unwrap_or_else(|_| named.to_path_buf());
        for (read, what) in read {
            if fs::canonicalize(read).map_or(false, |read| read == place) {
                return refused(format!("the {} would take the {what}'s place", kind.name));
            }
        }
        if place.exists() && !place.is_file() {
            return refused(format!("no file that a {} can take the place of", kind.name));
        }
        let keep = is_another(&place, kind).map_err(of(named.display()))?;
        let part = beside(&place, &format!(".{}.part", std::process::id()));
        let out = Place { named, place, part, keep, kind };
        match keep && out.old().symlink_metadata().is_ok() {
            true => refused(format!("it is no {}, and {} is there already: nothing is replaced", kind.name, out.old().display())),
            false => Ok(out),
        }
    }

    fn old(&self) -> PathBuf {
        beside(&self.place, ".old")
    }

    /// Writes the file beside its place and puts it there once it is whole.
    pub fn filled<T>(&self, write: impl FnOnce(&mut File) -> Result<T, Fault>) -> Result<T, Fault> {
        let fault = of(self.named.display());
        let mut file = OpenOptions::new().write(true).create_new(true).open(&self.part).map_err(&fault)?;
        let written = write(&mut file).and_then(|made| {
            // a full disk may tell it only now
            file.sync_all().map_err(&fault)?;
            if self.keep {
                // a second name, which fails where somebody has it: the bytes never lack one
                fs::hard_link(&self.place, self.old()).map_err(&fault)?;
            }
            fs::rename(&self.part, &self.place).map_err(&fault).map(|()| made)
        });
        if written.is_err() {
            // what was begun is of no use to anyone
            let _ = fs::remove_file(&self.part);
        } else if self.keep {
            eprintln!("{}: it was no {}; what it held is kept as {}", self.named.display(), self.kind.name, self.old().display());
        }
        written
    }
}

fn beside(place: &Path, end: &str) -> PathBuf {
    let mut name = place.as_os_str().to_os_string();
    name.push(end);
    PathBuf::from(name)
}

/// Whether a file is there that has bytes and is of another kind.
fn is_another(place: &Path, kind: &Kind) -> io::Result<bool> {
    let mut start = Vec::new();
    match File::open(place) {
        Ok(file) => {
            let length = file.metadata()?.len();
            file.take(64).read_to_end(&mut start)?;
            Ok(!start.is_empty() && !(kind.is)(&start, length))
        }
        Err(error) if error.kind() == io::ErrorKind::NotFound => Ok(false),
        Err(error) => Err(error),
    }
}

/// A folder for what a verb needs on its way; it is gone with it.
pub struct Work(PathBuf);

impl Work {
    pub fn new() -> Result<Work, Fault> {
        let place = std::env::temp_dir();
        for k in 0..1000 {
            let folder = place.join(format!("foldflake-{}-{k}", std::process::id()));
            match fs::create_dir(&folder) {
                Ok(()) => return Ok(Work(folder)),
                Err(error) if error.kind() == io::ErrorKind::AlreadyExists => {}
                Err(error) => return Err(of(folder.display())(error)),
            }
        }
        Err(Fault::Said(format!("{}: no name is free for a folder", place.display())))
    }

    pub fn file(&self, name: &str) -> PathBuf {
        self.0.join(name)
    }
}

impl Drop for Work {
    fn drop(&mut self) {
        let _ = fs::remove_dir_all(&self.0);
    }
}
