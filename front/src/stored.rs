//! What the proved programs told of the tests' blocks, stored: tests/programs/front-stored.sh writes stored.txt anew, by these very tests, each of whose blocks
//! is then given to the programs.
use super::answers::{gaps, Answers};
use super::batch::{parts, Part, BLOCK};
use super::digest::sha256;
use std::collections::HashMap;
use std::fs::{self, OpenOptions};
use std::io::Write;
use std::process::{Command, Stdio};

const PROGRAMS: [&str; 4] = ["sheet", "clearance", "rooms", "gaps"];

/// What the programs tell of a batch.
pub fn told(bytes: &[u8]) -> Vec<Answers> {
    let lines: Vec<&str> = include_str!("stored.txt").lines().collect();
    let stored: HashMap<&str, &[&str]> = lines.chunks_exact(1 + PROGRAMS.len()).map(|lines| (lines[0], &lines[1..])).collect();
    let block = |(i, part): (usize, Part)| {
        let lines: Vec<String> = match part {
            Part::Rest(_) => vec!["0 9".to_string(); 4],
            Part::Block(block) => {
                let digest = sha256(block);
                match (stored.get(digest.as_str()), std::env::var("FOLDFLAKE_RUN"), std::env::var("FOLDFLAKE_STORED")) {
                    (_, Ok(run), Ok(file)) => asked(&digest, block, &run, &file),
                    (Some(lines), ..) => lines.iter().map(|line| line.to_string()).collect(),
                    _ => panic!("nothing is stored of a block: run tests/programs/front-stored.sh"),
                }
            }
        };
        let line = |k: usize| format!("{} {}", i + 1, lines[k]);
        Answers { sheet: line(0), clearance: line(1), rooms: line(2), gaps: gaps(&line(3)) }
    };
    parts(bytes).enumerate().map(block).collect()
}

/// The line of each program without the block's number, by running it: `run`, a command of the shell, takes the program's name. They are appended to the file
/// unless it has them.
fn asked(digest: &str, block: &[u8; BLOCK], run: &str, file: &str) -> Vec<String> {
    let before = fs::read_to_string(file).unwrap_or_default();
    if let Some(place) = before.find(digest) {
        return before[place..].lines().skip(1).take(PROGRAMS.len()).map(str::to_string).collect();
    }
    let line = |name: &&str| {
        let mut child = Command::new("sh").args(["-c", &format!("{run}{name}")]).stdin(Stdio::piped()).stdout(Stdio::piped()).spawn().unwrap();
        child.stdin.take().unwrap().write_all(block).unwrap();
        let told = String::from_utf8(child.wait_with_output().unwrap().stdout).unwrap();
        assert_eq!(told.lines().count(), 2, "{name}: a line and the totals");
        told.lines().next().unwrap().strip_prefix("1 ").unwrap().to_string()
    };
    let lines: Vec<String> = PROGRAMS.iter().map(line).collect();
    let mut out = OpenOptions::new().append(true).create(true).open(file).unwrap();
    out.write_all(format!("{digest}\n{}\n", lines.join("\n")).as_bytes()).unwrap();
    lines
}
