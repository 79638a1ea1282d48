//! A second implementation of `yardjudge`, written from the pages in `docs/`
//! alone, to compare the first one with. It is plain and slow, and it works
//! out a judging in another way: by the longest ways between all stops.
//!
//!     reference judge                      answers as yardjudge does
//!     reference check REPLIES_FILE         compares the replies of another program
//!     reference generate SEED KIND FOLDER  writes a random yard.hex and stdin
//!
//! `judge` and `check` read `yard.hex` in the current folder, and standard input.

mod check;
mod damage;
mod generate;
mod judge;
mod lines;
mod plan;
mod random;
mod script;
mod session;
mod sheet;
mod walks;
mod ways;
mod yard;

use std::env;
use std::fs;
use std::io::{self, BufRead, Read, Write};
use std::path::Path;
use std::process::ExitCode;

use check::Difference;
use lines::Reply;
use session::Session;

const USAGE: &str = "usage: reference judge
       reference check REPLIES_FILE
       reference generate SEED KIND FOLDER";

fn main() -> ExitCode {
    let arguments: Vec<String> = env::args().skip(1).collect();
    let words: Vec<&str> = arguments.iter().map(String::as_str).collect();
    let outcome = match words.as_slice() {
        ["judge"] => run_judge(),
        ["check", replies] => run_check(replies),
        ["generate", seed, kind, folder] => run_generate(seed, kind, folder),
        _ => Err(io::Error::other(USAGE)),
    };
    outcome.unwrap_or_else(|error| {
        eprintln!("{error}");
        ExitCode::from(2)
    })
}

/// A yard file that cannot be read counts as empty.
fn yard_file() -> Vec<u8> {
    fs::read("yard.hex").unwrap_or_default()
}

fn run_judge() -> io::Result<ExitCode> {
    match Session::open(&yard_file()) {
        Ok(session) => answer_lines(session)?,
        Err(refusal) => print_reply(&Reply::Refused(refusal))?,
    }
    Ok(ExitCode::SUCCESS)
}

fn answer_lines(mut session: Session) -> io::Result<()> {
    let mut input = io::stdin().lock();
    let mut line = Vec::new();
    while input.read_until(b'\n', &mut line)? > 0 {
        if line.last() == Some(&b'\n') {
            line.pop();
        }
        print_reply(&session.answer(&line))?;
        line.clear();
    }
    Ok(())
}

fn print_reply(reply: &Reply) -> io::Result<()> {
    let mut output = io::stdout().lock();
    writeln!(output, "{}", reply.digits())?;
    output.flush()
}

fn run_check(replies_file: &str) -> io::Result<ExitCode> {
    let replies = fs::read(replies_file)?;
    let mut input = Vec::new();
    io::stdin().lock().read_to_end(&mut input)?;
    match check::compare(&yard_file(), &input, &replies) {
        Ok(count) => {
            println!("ok: {count} replies");
            Ok(ExitCode::SUCCESS)
        }
        Err(difference) => {
            print_difference(&difference);
            Ok(ExitCode::FAILURE)
        }
    }
}

fn print_difference(difference: &Difference) {
    println!(
        "difference at reply {}: {}",
        difference.number, difference.what
    );
    println!("  line:      {}", beginning(&difference.line));
    println!("  reference: {}", difference.expected);
    println!("  other:     {}", beginning(&difference.found));
}

/// All of a reply, but not all of a line that is far too long.
fn beginning(bytes: &[u8]) -> String {
    const SHOWN: usize = 8_300;
    match bytes.get(..SHOWN) {
        Some(begin) => format!("{} … {} bytes", begin.escape_ascii(), bytes.len()),
        None => bytes.escape_ascii().to_string(),
    }
}

fn run_generate(seed: &str, kind: &str, folder: &str) -> io::Result<ExitCode> {
    let seed = seed
        .parse()
        .map_err(|_| io::Error::other("SEED is no whole number"))?;
    let kind = generate::Kind::named(kind)
        .ok_or_else(|| io::Error::other(format!("KIND is none of {}", generate::Kind::names())))?;
    generate::generate(seed, kind).write_to(Path::new(folder))?;
    Ok(ExitCode::SUCCESS)
}
