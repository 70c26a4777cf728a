//! A plain model of the chip stand-in, written from its documents alone.

mod calendar;
mod chip;
mod generate;
mod log;
mod memory;
mod registers;
mod selftest;

use std::io::{Read, Write};
use std::process::ExitCode;

fn main() -> ExitCode {
    let arguments: Vec<String> = std::env::args().skip(1).collect();
    let words: Vec<&str> = arguments.iter().map(String::as_str).collect();
    match words[..] {
        ["reply"] => reply(),
        ["generate", seed] => match seed.parse() {
            Ok(seed) => put(&generate::log(seed)),
            Err(_) => problem("the seed is a number from 0 to 18446744073709551615"),
        },
        ["selftest"] => selftest::run(),
        _ => problem("usage: reference reply < LOG | generate SEED | selftest"),
    }
}

fn problem(sentence: &str) -> ExitCode {
    eprintln!("{sentence}");
    ExitCode::FAILURE
}

fn put(bytes: &[u8]) -> ExitCode {
    match std::io::stdout().write_all(bytes) {
        Ok(()) => ExitCode::SUCCESS,
        Err(error) => problem(&format!("The output could not be written: {error}.")),
    }
}

fn reply() -> ExitCode {
    let mut text = Vec::new();
    if let Err(error) = std::io::stdin().read_to_end(&mut text) {
        return problem(&format!("The log could not be read: {error}."));
    }
    match log::reply(&mut log::Session::new(1_000_000), &text) {
        Some(reply) => put(reply.as_bytes()),
        None => {
            eprintln!("The log is above 8192 bytes, so nothing of it was run (refusal 11).");
            ExitCode::SUCCESS
        }
    }
}
