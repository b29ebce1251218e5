//! Standard streams, closed ones too; files and texts that are read whole.
use super::programs::{of, Fault};
use super::text::Told;
use std::io::{self, Read, Write};
use std::path::Path;
use std::sync::atomic::{AtomicBool, Ordering};

/// What a text comes to.
pub struct Made {
    /// What is printed.
    pub text: String,
    /// How much that is, in words.
    pub wrote: String,
    /// What is told besides.
    pub notes: Vec<Told>,
}

/// Whether standard input and output were closed when the program was started. Rust's start-up opens /dev/null in the place of a closed one, so that what is
/// written to it would vanish without a word: the system is asked before that.
static CLOSED: [AtomicBool; 2] = [AtomicBool::new(false), AtomicBool::new(false)];

#[cfg(target_os = "linux")]
mod at_start {
    use super::{Ordering, CLOSED};

    extern "C" {
        fn fcntl(fd: i32, command: i32, ...) -> i32;
    }
    const F_GETFD: i32 = 1;

    extern "C" fn look() {
        for (fd, closed) in CLOSED.iter().enumerate() {
            // Safety: the question changes nothing, whatever the descriptor is.
            closed.store(unsafe { fcntl(fd as i32, F_GETFD) } < 0, Ordering::Relaxed);
        }
    }

    #[used]
    #[link_section = ".init_array"]
    static LOOK: extern "C" fn() = look;
}

pub fn closed(fd: usize) -> bool {
    CLOSED[fd].load(Ordering::Relaxed)
}

/// Why a name is not taken: nobody means a file by `--help`.
pub fn option_fault(name: &str) -> Option<String> {
    (name.starts_with('-') && name != "-").then(|| format!("{name}: a name that begins with - is not taken; ./{name} names such a file"))
}

/// Whether a name stands for a standard stream.
pub fn is_stream(name: &Path) -> bool {
    name.as_os_str() == "-"
}

/// What messages call it.
pub fn called(name: &Path) -> String {
    name.display().to_string()
}

/// The bytes of a file, or of standard input for `-`.
pub fn bytes_of(name: &Path) -> Result<Vec<u8>, Fault> {
    if !is_stream(name) {
        return std::fs::read(name).map_err(of(name.display()));
    }
    input_is_open()?;
    let mut bytes = Vec::new();
    io::stdin().read_to_end(&mut bytes).map_err(of("standard input"))?;
    Ok(bytes)
}

/// The first bytes of a regular file. Of anything else none: it could not be read a second time.
pub fn start_of(name: &Path) -> Vec<u8> {
    let mut bytes = Vec::new();
    if std::fs::metadata(name).is_ok_and(|about| about.is_file()) {
        // what fails here fails again, and is told, where the file is read
        let _ = std::fs::File::open(name).and_then(|file| file.take(1 << 16).read_to_end(&mut bytes));
    }
    bytes
}

/// Fails where a batch is asked for and these are jobs as text: every block has a zero byte, and every text of jobs a line `job`.
pub fn no_text(name: &Path, bytes: &[u8]) -> Result<(), Fault> {
    let is_job = |line: &str| line.split_once(':').is_some_and(|(name, _)| name.trim() == "job");
    match !bytes.contains(&0) && String::from_utf8_lossy(bytes).lines().any(is_job) {
        true => Err(Fault::Said(format!("{}: jobs as text, and no batch: `check` takes them as they are, `text` makes a batch of them", called(name)))),
        false => Ok(()),
    }
}

/// Fails where standard input was closed.
pub fn input_is_open() -> Result<(), Fault> {
    match closed(0) {
        true => Err(Fault::Said("standard input: it is closed".to_string())),
        false => Ok(()),
    }
}

/// What a text comes to. What it tells is told with the text's name; a text with faults is refused whole.
pub fn read<T>(name: &Path, read: Result<T, Vec<Told>>, notes: impl Fn(&T) -> &[Told]) -> Result<T, Fault> {
    let name = called(name);
    match read {
        Ok(made) => {
            notes(&made).iter().for_each(|note| eprintln!("{name}, {note}"));
            Ok(made)
        }
        Err(faults) => {
            faults.iter().for_each(|fault| eprintln!("{name}, {fault}"));
            Err(Fault::Said(format!("{name}: refused, and nothing is printed")))
        }
    }
}

/// Writes to standard output, at once.
pub fn put(bytes: &[u8]) -> io::Result<()> {
    if closed(1) {
        return Err(io::Error::new(io::ErrorKind::Other, "it is closed"));
    }
    let mut out = io::stdout().lock();
    out.write_all(bytes).and_then(|()| out.flush())
}

/// Prints a text.
pub fn printed(text: &str) -> Result<(), Fault> {
    put(text.as_bytes()).map_err(of("standard output"))
}
