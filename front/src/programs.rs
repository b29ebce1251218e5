//! The proved programs, and how this machine runs them. They are x86-64 programs: elsewhere the kit's emulator, loader and C library stand before them, as `rt`
//! itself runs what it proved.
use super::answers::{gaps, Answers};
use super::batch::BLOCK;
use super::progress::Progress;
use std::ffi::OsString;
use std::fs::File;
use std::io::{self, BufRead, BufReader, Read, Write};
use std::path::{Path, PathBuf};
use std::process::{Child, Command, ExitStatus, Stdio};
use std::sync::Arc;
use std::thread::JoinHandle;

/// Why a verb cannot be done.
#[derive(Debug, PartialEq, Eq)]
pub enum Fault {
    /// What is told.
    Said(String),
    /// What is told, and how the verb is used.
    Usage(String),
    /// Whoever read our output is gone: there is nobody to tell it to.
    Pipe,
}

/// A fault of a file, by its name.
pub fn of(what: impl std::fmt::Display) -> impl Fn(io::Error) -> Fault {
    move |error| match error.kind() {
        io::ErrorKind::BrokenPipe => Fault::Pipe,
        _ => Fault::Said(format!("{what}: {error}")),
    }
}

/// What a program reads.
pub enum Input {
    Standard,
    File(PathBuf),
    Bytes(Arc<Vec<u8>>),
    Nothing,
}

/// How a program ended.
pub struct Ended {
    /// The start of what it printed, up to some hundred bytes.
    pub first: Vec<u8>,
    /// The end of what it printed: the last line is in it.
    last: Vec<u8>,
    /// The lines that it told on standard error; the first thousand.
    pub told: Vec<String>,
    status: ExitStatus,
}

const KEPT: usize = 400;

impl Ended {
    /// The last line that it printed; none where its newline is missing.
    pub fn last_line(&self) -> Option<String> {
        let text = String::from_utf8_lossy(&self.last).into_owned();
        text.strip_suffix('\n').map(|text| text.rsplit('\n').next().unwrap_or_default().to_string())
    }

    /// Fails where the program was ended by a signal, or by itself with a status.
    pub fn well(&self, name: &str) -> Result<(), Fault> {
        match self.status.success() {
            true => Ok(()),
            false => Err(Fault::Said(format!("{name}: it ended early: {}", self.status))),
        }
    }
}

/// Where the programs are, and what stands before one so that it runs.
pub struct Programs {
    pub folder: PathBuf,
    before: Vec<OsString>,
}

impl Programs {
    /// FOLDFLAKE_PROGRAMS names the folder; else it is libexec/foldflake beside the folder of this program. RUN, where it is set, stands in the place of the
    /// kit's emulator.
    pub fn found() -> Result<Programs, Fault> {
        let before = match std::env::var_os("RUN") {
            Some(run) => run.to_string_lossy().split_whitespace().map(OsString::from).collect(),
            None if cfg!(target_arch = "x86_64") => Vec::new(),
            None => emulator().map_err(Fault::Said)?,
        };
        Ok(Programs { folder: folder()?, before })
    }

    /// The command that runs a program.
    fn command(&self, name: &str) -> Result<Command, Fault> {
        let program = self.folder.join(name);
        if !program.is_file() {
            return Err(Fault::Said(format!("{}: there is no such program", program.display())));
        }
        let mut words = self.before.iter().cloned().chain([program.into_os_string()]);
        let mut command = Command::new(words.next().unwrap_or_default());
        command.args(words);
        Ok(command)
    }

    fn started(&self, name: &str, arguments: &[OsString], input: Input) -> Result<(Child, Option<JoinHandle<()>>), Fault> {
        let mut command = self.command(name)?;
        let mut bytes = None;
        command.args(arguments).stdout(Stdio::piped()).stderr(Stdio::piped()).stdin(match input {
            Input::Nothing => Stdio::null(),
            Input::Standard => Stdio::inherit(),
            Input::File(path) => Stdio::from(File::open(&path).map_err(of(path.display()))?),
            Input::Bytes(read) => {
                bytes = Some(read);
                Stdio::piped()
            }
        });
        let mut child = command.spawn().map_err(of(name))?;
        // each stream has its own thread, so that none waits for another; a program that reads no further says by itself why
        let fed = bytes.zip(child.stdin.take()).map(|(bytes, mut to)| {
            std::thread::spawn(move || {
                let _ = to.write_all(&bytes);
            })
        });
        Ok((child, fed))
    }

    /// Runs a program and hands on what it prints as it comes; what it tells on standard error is passed on where `aloud`.
    pub fn run(&self, name: &str, arguments: &[OsString], input: Input, aloud: bool, out: &mut dyn FnMut(&[u8]) -> io::Result<()>) -> Result<Ended, Fault> {
        let (mut child, fed) = self.started(name, arguments, input)?;
        let telling = child.stderr.take().map(|errors| std::thread::spawn(move || told(errors, aloud)));
        let (mut first, mut last) = (Vec::new(), Vec::new());
        let mut fault = None;
        if let Some(mut printed) = child.stdout.take() {
            let mut part = vec![0; 1 << 16];
            loop {
                let n = match printed.read(&mut part) {
                    Ok(0) => break,
                    Ok(n) => n,
                    Err(error) if error.kind() == io::ErrorKind::Interrupted => continue,
                    Err(error) => {
                        fault = Some(of(name)(error));
                        break;
                    }
                };
                let part = &part[..n];
                first.extend_from_slice(&part[..n.min(KEPT.saturating_sub(first.len()))]);
                last.extend_from_slice(&part[n.saturating_sub(KEPT)..]);
                last.drain(..last.len().saturating_sub(KEPT));
                if let Err(error) = out(part) {
                    fault = Some(of("standard output")(error));
                    break;
                }
            }
            // where nobody reads on, the program's pipe is closed here, and it ends
        }
        let status = child.wait().map_err(of(name))?;
        let told = telling.and_then(|telling| telling.join().ok()).unwrap_or_default();
        if let Some(fed) = fed {
            let _ = fed.join();
        }
        match fault {
            Some(fault) => Err(fault),
            None => Ok(Ended { first, last, told, status }),
        }
    }

    /// The lines that a program prints of a batch, each handed on without its newline, but for the one of the totals, which is handed back. What is not whole
    /// is a fault. What it tells on standard error is told only where `aloud`: of several programs over one batch one is enough.
    pub fn lines(&self, name: &str, batch: &Arc<Vec<u8>>, aloud: bool, each: &mut dyn FnMut(&str)) -> Result<String, Fault> {
        let (mut child, fed) = self.started(name, &[], Input::Bytes(batch.clone()))?;
        let telling = child.stderr.take().map(|errors| std::thread::spawn(move || told(errors, aloud)));
        let mut total = None;
        let mut read = Ok(());
        if let Some(printed) = child.stdout.take() {
            let mut printed = BufReader::with_capacity(1 << 16, printed);
            let mut line = String::new();
            loop {
                line.clear();
                match printed.read_line(&mut line) {
                    Ok(0) => break,
                    Ok(_) => match (line.strip_suffix('\n'), &total) {
                        (Some(last), None) if last.starts_with("TOTAL ") => total = Some(last.to_string()),
                        (Some(line), None) => each(line),
                        _ => read = Err("something stands behind its totals, or a line has no end".to_string()),
                    },
                    Err(error) => read = Err(error.to_string()),
                }
                if read.is_err() {
                    break;
                }
            }
        }
        let status = child.wait().map_err(of(name))?;
        let told = telling.and_then(|telling| telling.join().ok()).unwrap_or_default();
        if let Some(fed) = fed {
            let _ = fed.join();
        }
        let told = if aloud { String::new() } else { told.iter().map(|line| format!("{line}\n")).collect() };
        match (read, total) {
            (Ok(()), Some(total)) if status.success() => Ok(total),
            (Ok(()), _) => Err(Fault::Said(format!("{told}{name}: what it printed is not whole"))),
            (Err(why), _) => Err(Fault::Said(format!("{told}{name}: {why}"))),
        }
    }

    /// What programs tell of a batch, block by block: `sheet` and `clearance` always, `rooms` and `gaps` where they are asked for.
    pub fn answers(&self, batch: &Arc<Vec<u8>>, more: &[&str]) -> Result<Vec<Answers>, Fault> {
        let blocks = (batch.len() + BLOCK - 1) / BLOCK;
        let mut all = vec![Answers::default(); blocks];
        for name in ["sheet", "clearance"].iter().chain(more) {
            let mut progress = Progress::new(name, blocks);
            let mut place = 0;
            self.lines(name, batch, *name == "sheet", &mut |line| {
                if let Some(answers) = all.get_mut(place) {
                    match *name {
                        "sheet" => answers.sheet = line.to_string(),
                        "clearance" => answers.clearance = line.to_string(),
                        "rooms" => answers.rooms = line.to_string(),
                        _ => answers.gaps = gaps(line),
                    }
                }
                place += 1;
                progress.at(place);
            })?;
            if place != blocks {
                return Err(Fault::Said(format!("{name}: {place} lines of {blocks} blocks")));
            }
        }
        Ok(all)
    }
}

/// What a program tells on standard error, line by line.
fn told(errors: impl Read, aloud: bool) -> Vec<String> {
    let mut lines = Vec::new();
    for line in BufReader::new(errors).split(b'\n').map_while(Result::ok) {
        let line = String::from_utf8_lossy(&line).into_owned();
        if aloud {
            eprintln!("{line}");
        }
        if lines.len() < 1000 {
            lines.push(line);
        }
    }
    lines
}

/// The folder of the programs.
fn folder() -> Result<PathBuf, Fault> {
    match std::env::var_os("FOLDFLAKE_PROGRAMS") {
        Some(named) if !named.is_empty() => Ok(PathBuf::from(named)),
        _ => {
            let here = std::env::current_exe().map_err(of("where this program is"))?;
            Ok(here.parent().and_then(Path::parent).map(|place| place.join("libexec/foldflake")).unwrap_or_default())
        }
    }
}

/// What stands beside the programs in a file, as the kit and the commit that an installed one was built from.
pub fn beside_programs(name: &str) -> Option<String> {
    std::fs::read_to_string(folder().ok()?.join(name)).ok()
}

/// The kit's emulator with its loader, found by way of `rt doc`.
fn emulator() -> Result<Vec<OsString>, String> {
    let machine = std::env::consts::ARCH;
    let missing = |why: String| format!("no emulator of the kit runs x86-64 programs on {machine}: {why}; RUN may name another");
    let out = Command::new("rt").arg("doc").stdin(Stdio::null()).output().map_err(|error| missing(format!("rt doc: {error}")))?;
    let guide = PathBuf::from(String::from_utf8_lossy(&out.stdout).trim());
    let kit = guide.parent().and_then(Path::parent).ok_or_else(|| missing("`rt doc` names no guide".to_string()))?;
    let tools = kit.join("on").join(machine).join("toolchain");
    let emulator = tools.join("bin/qemu-x86_64");
    if !emulator.is_file() {
        return Err(missing(format!("there is no {}", emulator.display())));
    }
    let library = tools.join("lib");
    Ok(vec![emulator.into(), library.join("ld-linux-x86-64.so.2").into(), "--library-path".into(), library.into()])
}
