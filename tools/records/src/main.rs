//! Readable lines to `pagemon`'s records and back.
mod output;

use calls::Kind;
use records::{decode, explain, lines, parse};
use std::io::{self, Read, Write};
use std::process::ExitCode;

fn usage() -> String {
    let calls = Kind::recorded().map(|kind| format!("  {} {}\n", kind.name(), kind.parameters().join(" ")));
    format!(
        "\
usage: records encode < SCRIPT > RECORDS     lines to records
       records decode < RECORDS > SCRIPT     records to lines
       records explain SCRIPT < OUTPUT       the script with pagemon's answers, in words
       records --help

A line is a call and its numbers, decimal or 0x hexadecimal; # starts a comment:
{}
A record has four words. Those that the call does not use may stand behind a bar, as in `begin 256 | 0x0 0x7`; without a bar they are 0.

Exit status: 0; 1 if a line, a record or pagemon's output is wrong, or something can't be read or written; 2 for a wrong command.
",
        calls.collect::<String>()
    )
}

/// What is to be written, and what was wrong.
type Outcome = (Vec<u8>, Vec<String>);

fn run(arguments: &[&str]) -> io::Result<Option<Outcome>> {
    Ok(Some(match arguments {
        ["encode"] => whole(parse(&input()?).map(|calls| calls::records(&calls))),
        ["decode"] => {
            let (calls, wrong) = decode(&input()?);
            (lines(&calls).into_bytes(), wrong.into_iter().collect())
        }
        ["explain", path] => {
            let script =
                std::fs::read(path).map_err(|error| io::Error::new(error.kind(), format!("{path}: {error}")))?;
            whole(explain(&script, &String::from_utf8_lossy(&input()?)).map(String::into_bytes))
        }
        ["--help"] => (usage().into_bytes(), Vec::new()),
        _ => return Ok(None),
    }))
}

/// All or nothing.
fn whole(result: Result<Vec<u8>, Vec<String>>) -> Outcome {
    match result {
        Ok(bytes) => (bytes, Vec::new()),
        Err(wrong) => (Vec::new(), wrong),
    }
}

fn input() -> io::Result<Vec<u8>> {
    let mut bytes = Vec::new();
    io::stdin().lock().read_to_end(&mut bytes)?;
    Ok(bytes)
}

/// Says what is wrong. Where that can't be written either, the exit status tells it.
fn complain(message: &str) {
    let _ = io::stderr().write_all(message.as_bytes());
}

fn main() -> ExitCode {
    let arguments: Vec<String> = std::env::args().skip(1).collect();
    let arguments: Vec<&str> = arguments.iter().map(String::as_str).collect();
    let outcome = run(&arguments).and_then(|outcome| {
        if let Some((bytes, _)) = &outcome {
            output::write(bytes)?;
        }
        Ok(outcome)
    });
    match outcome {
        Ok(Some((_, wrong))) if wrong.is_empty() => ExitCode::SUCCESS,
        Ok(Some((_, wrong))) => {
            complain(&wrong.iter().map(|line| format!("{line}\n")).collect::<String>());
            ExitCode::from(1)
        }
        Ok(None) => {
            complain(&usage());
            ExitCode::from(2)
        }
        Err(error) => {
            complain(&format!("records: {error}\n"));
            ExitCode::from(1)
        }
    }
}
