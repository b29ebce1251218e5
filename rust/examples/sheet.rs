//! The sheet of a batch by the safe Rust face: a line for each block of standard input as it comes, then TOTAL. What fails is told on standard
//! error, with exit status 1 and no TOTAL; an argument with exit status 2. On standard error too, one distance, one sweep
//! and one look at a whole move.
use foldflake::{clearance, distance, line, sweep, Cache, Move, Refusal};
use std::io::{self, ErrorKind, Read, Write};
use std::process::ExitCode;

fn main() -> ExitCode {
    if std::env::args_os().len() > 1 {
        eprintln!("sheet: no argument is taken");
        return ExitCode::from(2);
    }
    let mut input = io::stdin().lock();
    let mut out = io::BufWriter::new(io::stdout().lock());
    if let Err((what, error)) = sheet(&mut input, &mut out) {
        eprintln!("{what}: {error}");
        // what did not go out is not tried again
        let _ = out.into_parts();
        return ExitCode::FAILURE;
    }
    match small_calls() {
        Ok(()) => ExitCode::SUCCESS,
        Err(refusal) => {
            eprintln!("{refusal}");
            ExitCode::FAILURE
        }
    }
}

/// What failed, and how.
type Fault = (&'static str, io::Error);

fn sheet(input: &mut impl Read, out: &mut impl Write) -> Result<(), Fault> {
    let unread = |error| ("standard input", error);
    let unwritten = |error| ("standard output", error);
    let [mut blocks, mut clear, mut contact, mut undecided, mut refused] = [0u64; 5];
    let mut block = [0u8; 512];
    loop {
        let got = fill(input, &mut block).map_err(unread)?;
        if got == 0 {
            break;
        }
        blocks += 1;
        // a rest of fewer than 512 bytes has no line of its own: refusal 9
        let text = if got == 512 { line(blocks, &block).expect("a file has fewer than 2^63 blocks") } else { format!("{blocks} 0 9\n") };
        let mut words = text.split_whitespace().skip(2);
        match (words.next(), words.next()) {
            (Some("0"), Some("S")) => clear += 1,
            (Some("0"), Some("F")) => undecided += 1,
            (Some("0"), _) => contact += 1,
            _ => refused += 1,
        }
        out.write_all(text.as_bytes()).map_err(unwritten)?;
        if got < 512 {
            break;
        }
    }
    writeln!(out, "TOTAL {blocks} {clear} {contact} {undecided} {refused}").map_err(unwritten)?;
    out.flush().map_err(unwritten)
}

/// How many bytes of the block were there to read; fewer than 512 only at the end.
fn fill(input: &mut impl Read, block: &mut [u8; 512]) -> io::Result<usize> {
    let mut got = 0;
    while got < 512 {
        match input.read(&mut block[got..]) {
            Ok(0) => break,
            Ok(n) => got += n,
            Err(error) if error.kind() == ErrorKind::Interrupted => {}
            Err(error) => return Err(error),
        }
    }
    Ok(got)
}

fn small_calls() -> Result<(), Refusal> {
    let square = [-1.0, -1.0, 1.0, -1.0, 1.0, 1.0, -1.0, 1.0];
    let mut cache = Cache::default();
    let measured = distance([1.0, 0.0], [4.0, 0.0], &square, 0.0, &square, 0.0, false, 41, &mut cache)?;
    eprintln!("distance: {measured:?}");
    let upright = [1.0, 0.0];
    let goes = Move { local_center: [0.0; 2], first: [0.0; 2], last: [4.0, 0.0], first_rotation: upright, last_rotation: upright };
    let stands = Move { first: [4.0, 0.0], ..goes };
    let swept = sweep(&square, 0.0, &goes, &square, 0.0, &stands, 1.0, 0.01)?;
    eprintln!("sweep: {swept:?}");
    // the same move turned by a quarter on the way, at every fraction of it
    let turns = Move { last_rotation: [0.0, 1.0], ..goes };
    let looked = clearance(&square, 0.0, &turns, &square, 0.0, &stands, 0.0, 1.0, 0.01)?;
    eprintln!("clearance: {looked:?}");
    Ok(())
}
