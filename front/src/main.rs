//! The front end of `./foldflake`: one command over the proved programs, jobs and routes as text, and the page. Nothing here is linked with the programs: all
//! answers come from the lines that they print.
mod answers;
mod batch;
mod check;
mod digest;
mod draw;
mod files;
mod gaps;
mod job_text;
mod moves;
mod page;
mod page_file;
#[cfg(test)]
mod page_tests;
mod programs;
mod progress;
mod proved;
mod reader;
mod route_text;
#[cfg(test)]
mod stored;
mod tables;
mod text;
#[cfg(test)]
mod text_tests;
mod verbs;
mod words;

fn main() -> std::process::ExitCode {
    std::process::ExitCode::from(verbs::run(std::env::args_os().skip(1).collect()))
}
