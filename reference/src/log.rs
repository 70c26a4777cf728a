//! Logs: lines, calls and the reply.

use crate::chip::{Chip, Refusal};
use crate::memory::Image;
use std::fmt::Write;

pub const NAMES: &str = "call one two";
pub const LIMIT: usize = 8_192;
const REPLY_NAMES: &str = "line sda fault area address\n";

#[derive(Clone, Copy, PartialEq, Debug)]
pub enum Call {
    Level(u16, u16),
    Tick(u16),
    Supply(u16),
}

/// A module and its memory.
pub struct Session {
    pub chip: Chip,
    pub memory: Image,
}

impl Session {
    pub fn new(life: u32) -> Session {
        Session { chip: Chip::make(), memory: Image::factory(life) }
    }

    pub fn work(&mut self, call: Call) -> Result<(), Refusal> {
        match call {
            Call::Level(scl, sda) => self.chip.level(&mut self.memory, scl, sda),
            Call::Supply(which) => self.chip.supply(which),
            Call::Tick(n) => {
                (0..n).for_each(|_| self.chip.tick(&self.memory));
                Ok(())
            }
        }
    }
}

fn number(text: &[u8]) -> Option<u16> {
    if text.is_empty() || text.len() > 5 || !text.iter().all(u8::is_ascii_digit) {
        return None;
    }
    let value = text.iter().fold(0u32, |value, digit| 10 * value + u32::from(digit - b'0'));
    u16::try_from(value).ok()
}

/// The call of a value line, none where it cannot be read.
pub fn call(line: &[u8]) -> Option<Call> {
    let words: Vec<&[u8]> = line.split(|byte| *byte == b' ').collect();
    let [name, one, two] = words[..] else { return None };
    let (one, two) = (number(one)?, number(two)?);
    match name {
        b"level" => Some(Call::Level(one, two)),
        b"tick" if two == 0 => Some(Call::Tick(one)),
        b"supply" if two == 0 => Some(Call::Supply(one)),
        _ => None,
    }
}

/// The lines of a log. After the last LF there is none.
fn lines(log: &[u8]) -> Vec<&[u8]> {
    let mut lines: Vec<&[u8]> = log.split(|byte| *byte == b'\n').collect();
    if lines.last().is_some_and(|line| line.is_empty()) {
        lines.pop();
    }
    lines
}

/// The reply to a log, none where the log is too long.
pub fn reply(session: &mut Session, log: &[u8]) -> Option<String> {
    if log.len() > LIMIT {
        return None;
    }
    let mut text = String::from(REPLY_NAMES);
    let lines = lines(log);
    if lines.first() != Some(&NAMES.as_bytes()) {
        row(&mut text, 1, session, (9, 0, 0));
        return Some(text);
    }
    for (index, line) in lines.iter().enumerate().skip(1) {
        let Some(call) = call(line) else {
            row(&mut text, index + 1, session, (10, 0, 0));
            break;
        };
        let report = session.work(call).err().map_or((0, 0, 0), Refusal::report);
        row(&mut text, index + 1, session, report);
    }
    Some(text)
}

fn row(text: &mut String, line: usize, session: &Session, report: (u32, u32, usize)) {
    let sda = if session.chip.pulls() { 0 } else { 1 };
    let (fault, area, address) = report;
    writeln!(text, "{line} {sda} {fault} {area} {address}").expect("a string takes any text");
}
