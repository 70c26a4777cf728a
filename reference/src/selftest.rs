//! The worked examples of the documents.

use crate::calendar::{self, Date, START};
use crate::chip::Refusal;
use crate::log::{call, reply, Call, Session};
use crate::registers::Area;
use std::process::ExitCode;

struct Tally {
    passed: usize,
    failed: usize,
}

impl Tally {
    fn check(&mut self, what: &str, holds: bool) {
        if holds {
            self.passed += 1;
        } else {
            self.failed += 1;
            println!("FAILED: {what}");
        }
    }
}

/// A master that works a session by whole frames.
struct Master {
    session: Session,
}

impl Master {
    /// Main supply over factory bytes, with the status writes given.
    fn new(life: u32, latches: &[u8]) -> Master {
        let mut master = Master { session: Session::new(life) };
        let _ = master.session.work(Call::Supply(1));
        latches.iter().for_each(|byte| master.status(*byte));
        master
    }

    fn ready(latches: &[u8]) -> Master {
        Master::new(1_000, latches)
    }

    fn level(&mut self, scl: u16, sda: u16) -> Result<(), Refusal> {
        self.session.work(Call::Level(scl, sda))
    }

    fn pulse(&mut self, sda: u16) -> bool {
        let _ = self.level(0, sda);
        let _ = self.level(1, sda);
        sda == 1 && !self.session.chip.pulls()
    }

    fn start(&mut self) {
        let _ = self.level(0, 1);
        let _ = self.level(1, 1);
        let _ = self.level(1, 0);
    }

    /// Sends a byte. Answers whether it was acknowledged.
    fn send(&mut self, byte: u8) -> bool {
        for place in (0..8).rev() {
            self.pulse(u16::from(byte >> place & 1));
        }
        !self.pulse(1)
    }

    /// Takes a byte, with the ninth level given.
    fn take(&mut self, ninth: u16) -> u8 {
        let byte = (0..8).fold(0, |value, _| 2 * value + u8::from(self.pulse(1)));
        self.pulse(ninth);
        byte
    }

    /// Stops after one rise for each of the levels and one more.
    fn stop_after(&mut self, more: &[u16]) -> Result<(), Refusal> {
        more.iter().for_each(|sda| { self.pulse(*sda); });
        self.pulse(0);
        self.level(1, 1)
    }

    fn frame(&mut self, bytes: &[u8]) -> Result<(), Refusal> {
        self.start();
        bytes.iter().for_each(|byte| { self.send(*byte); });
        self.stop_after(&[])
    }

    fn status(&mut self, byte: u8) {
        let _ = self.frame(&[0xDE, 0x00, 0x3F, byte]);
    }

    fn ticks(&mut self, n: u32) {
        for _ in 0..n {
            let _ = self.session.work(Call::Tick(1));
        }
    }

    fn life(&self) -> u32 {
        self.session.memory.life()
    }

    fn place(&self, place: usize) -> u8 {
        self.session.memory.read(place)
    }

    fn counter(&self) -> usize {
        self.session.chip.counter()
    }

    fn latches(&self) -> u8 {
        self.session.chip.status() & 0x06
    }

    fn is_busy(&self) -> bool {
        self.session.chip.cycle() == 164
    }

    fn is_untouched(&self) -> bool {
        self.life() == 1_000 && self.place(64) == 0xFF && !self.is_busy()
    }
}

pub fn run() -> ExitCode {
    let mut tally = Tally { passed: 0, failed: 0 };
    array_stops(&mut tally);
    register_stops(&mut tally);
    clock_stops(&mut tally);
    clock_example(&mut tally);
    latch_example(&mut tally);
    read_examples(&mut tally);
    calendar_cases(&mut tally);
    log_lines(&mut tally);
    log_examples(&mut tally);
    println!("{} checks passed, {} failed", tally.passed, tally.failed);
    if tally.failed == 0 {
        ExitCode::SUCCESS
    } else {
        ExitCode::FAILURE
    }
}

fn array_stops(tally: &mut Tally) {
    let bytes = [0xAE, 0x00, 0x40, 0x5A];
    let mut m = Master::ready(&[0x02]);
    let passed = m.frame(&bytes).is_ok();
    tally.check("one byte", passed && m.place(64) == 0x5A && m.life() == 999 && m.is_busy());
    m.ticks(163);
    m.start();
    tally.check("busy after 163 ticks", !m.send(0xAE));
    let mut m = Master::ready(&[0x02]);
    let _ = m.frame(&bytes);
    m.ticks(164);
    m.start();
    tally.check("hears after 164 ticks", m.send(0xAE));
    for (what, more) in [("38 rises", &[0][..]), ("four bits more", &[0, 0, 0])] {
        let mut m = Master::ready(&[0x02]);
        m.start();
        bytes.iter().for_each(|byte| { m.send(*byte); });
        let passed = m.stop_after(more).is_ok();
        tally.check(what, passed && m.is_untouched());
    }
    let mut m = Master::ready(&[]);
    m.start();
    let heard: Vec<bool> = bytes.iter().map(|byte| m.send(*byte)).collect();
    let passed = m.stop_after(&[]).is_ok();
    tally.check("WEL off", passed && heard == [true, true, true, false] && m.is_untouched());

    let mut m = Master::ready(&[0x02]);
    let _ = m.frame(&[0xAE, 0x00, 0x3F, 0x11, 0x22]);
    let held = m.place(63) == 0x11 && m.place(0) == 0x22;
    tally.check("a wrap", held && m.life() == 998 && m.counter() == 1);

    let mut m = Master::ready(&[0x02]);
    let data: Vec<u8> = (1..=30).collect();
    let _ = m.frame(&[&[0xAE, 0x00, 0x28], &data[..]].concat());
    let held = (0..24).all(|i| m.place(40 + i) == data[i]) && (0..6).all(|i| m.place(i) == data[24 + i]);
    tally.check("30 bytes", held && m.life() == 970 && m.counter() == 6 && m.place(6) == 0xFF);

    let mut m = Master::ready(&[0x02]);
    let data: Vec<u8> = (1..=70).collect();
    let _ = m.frame(&[&[0xAE, 0x00, 0x10], &data[..]].concat());
    let held = (6..48).all(|i| m.place(16 + i) == data[i])
        && (0..16).all(|i| m.place(i) == data[48 + i])
        && (0..6).all(|i| m.place(16 + i) == data[64 + i]);
    tally.check("70 bytes", held && m.life() == 936);

    let mut m = Master::ready(&[0x02]);
    let _ = m.frame(&[0xAE, 0x02, 0x40, 0x5A]);
    tally.check("address 240h", m.place(64) == 0x5A && m.life() == 999);

    let mut m = Master::new(1, &[0x02]);
    let answer = m.frame(&[0xAE, 0x00, 0x40, 0x11, 0x22]);
    let worn = Refusal::Worn { area: Area::Array, address: 64, life: 1 };
    tally.check("worn", answer == Err(worn) && m.place(64) == 0xFF && m.life() == 1 && !m.is_busy());
}

fn register_stops(tally: &mut Tally) {
    let both = [0x02, 0x06];
    let mut m = Master::ready(&both);
    let passed = m.frame(&[0xDE, 0x00, 0x10, 0x80]).is_ok();
    tally.check("BL", passed && m.place(528) == 0x80 && m.latches() == 0x02 && m.is_busy());
    m.ticks(164);
    let answer = m.frame(&[0xAE, 0x00, 0x3F, 0x5A]);
    tally.check("locked", answer.map_err(Refusal::report) == Err((8, 1, 63)) && m.place(63) == 0xFF);
    let passed = m.frame(&[0xAE, 0x00, 0x40, 0x5A]).is_ok();
    tally.check("not locked", passed && m.place(64) == 0x5A);

    let mut m = Master::ready(&both);
    let _ = m.frame(&[0xDE, 0x00, 0x11, 0xFF]);
    tally.check("INT", m.place(529) == 0xF8);

    let mut m = Master::ready(&both);
    let _ = m.frame(&[0xDE, 0x00, 0x12, 0xFF, 0xFE, 0xFD, 0xFC, 0xEA]);
    let held = [0xE0, 0xF8, 0x2A, 0x06] == [m.place(528), m.place(529), m.place(530), m.place(531)];
    tally.check("five control bytes", held && m.life() == 996 && m.counter() == 0x13);

    let mut m = Master::ready(&[0x02]);
    let answer = m.frame(&[0xDE, 0x00, 0x00, 0x80]).map_err(Refusal::report);
    tally.check("RWEL off", answer == Err((6, 2, 0)) && m.place(512) == 0x00);
}

fn clock_stops(tally: &mut Tally) {
    let mut m = Master::ready(&[0x02, 0x06]);
    let answer = m.frame(&[0xDE, 0x00, 0x33, 0x30, 0x02]).map_err(Refusal::report);
    tally.check("30 February", answer == Err((7, 2, 51)) && m.latches() == 0x06);
    let passed = m.frame(&[0xDE, 0x00, 0x30, 0x00]).is_ok();
    let waits = m.session.chip.waiting() == Some(START);
    tally.check("start date waits", passed && waits && m.session.chip.status() == 0x02);
    let answer = m.frame(&[0xDE, 0x00, 0x30, 0x00]).map_err(Refusal::report);
    tally.check("once more", answer == Err((6, 2, 48)) && !m.is_busy());

    let mut m = Master::ready(&[0x02, 0x06]);
    let _ = m.frame(&[0xDE, 0x00, 0x36, 0x03, 0x20, 0x15]);
    let joined = [0x15, 0x00, 0x12, 0x01, 0x01, 0x00, 0x03, 0x20];
    tally.check("36h, 37h, 30h", m.session.chip.waiting() == Some(joined));
}

fn clock_example(tally: &mut Tally) {
    let mut m = Master::ready(&[]);
    m.ticks(100_000);
    tally.check("100,000 ticks", m.session.chip.clock() == START && m.session.chip.divider() == 1_696);
    m.status(0x02);
    m.status(0x06);
    let _ = m.frame(&[0xDE, 0x00, 0x30, 0x00]);
    tally.check("RTCF off", m.session.chip.clock() == START && m.session.chip.status() & 1 == 0);
    m.ticks(31_071);
    tally.check("31,071 ticks", m.session.chip.clock() == START && m.session.chip.divider() == 32_767);
    m.ticks(1);
    let taken = m.session.chip.waiting().is_none();
    tally.check("the first mark", taken && m.session.chip.clock() == START);
    m.ticks(32_768);
    let later = [0x01, 0x00, 0x12, 0x01, 0x01, 0x00, 0x00, 0x20];
    tally.check("one second", m.session.chip.clock() == later);
}

fn latch_example(tally: &mut Tally) {
    let mut m = Master::ready(&[]);
    let steps: [(&[u8], u8, u32); 9] = [
        (&[0x3F, 0x06], 0x00, 0),
        (&[0x3F, 0x02], 0x02, 0),
        (&[0x3F, 0x06], 0x06, 0),
        (&[0x33, 0x30, 0x02], 0x06, 7),
        (&[0x30, 0x00], 0x02, 0),
        (&[0x30, 0x00], 0x02, 6),
        (&[0x3F, 0x06], 0x06, 0),
        (&[0x3F, 0x02], 0x02, 0),
        (&[0x3F, 0x00], 0x00, 0),
    ];
    for (rest, latches, fault) in steps {
        let answer = m.frame(&[&[0xDE, 0x00], rest].concat());
        let number = answer.err().map_or(0, |refusal| refusal.report().0);
        tally.check("latches", m.latches() == latches && number == fault);
    }
}

fn read_examples(tally: &mut Tally) {
    let mut m = Master::ready(&[0x02]);
    let _ = m.frame(&[0xAE, 0x00, 0x00, 0xA5, 0x5A]);
    m.ticks(164);
    let _ = m.session.work(Call::Supply(0));
    let _ = m.session.work(Call::Supply(1));
    m.start();
    let heard = m.send(0xAF);
    let bytes = [m.take(0), m.take(1)];
    tally.check("array read", heard && bytes == [0xA5, 0x5A] && m.counter() == 2);

    let mut m = Master::ready(&[0x02, 0x06]);
    let _ = m.frame(&[0xDE, 0x00, 0x12, 0x21, 0x05, 0x20]);
    m.ticks(164);
    m.start();
    [0xDE, 0x00, 0x12].iter().for_each(|byte| { m.send(*byte); });
    m.start();
    m.send(0xDF);
    tally.check("register read", [m.take(0), m.take(0), m.take(1)] == [0x21, 0x05, 0x20]);

    alarm_read(tally, false);
    alarm_read(tally, true);
    recovery(tally);
}

/// Nine low rises before the tenth is high, and a start after battery amid an acknowledge.
fn recovery(tally: &mut Tally) {
    let mut m = Master::ready(&[]);
    m.start();
    (0..8).rev().for_each(|place| { m.pulse(0xDF >> place & 1); });
    let rises: Vec<bool> = (0..10).map(|_| m.pulse(1)).collect();
    tally.check("ten pulses", rises.iter().position(|high| *high) == Some(9));

    let mut m = Master::ready(&[]);
    m.start();
    let acknowledged = m.send(0xDE);
    let _ = m.session.work(Call::Supply(2));
    let released = !m.session.chip.pulls();
    let _ = m.session.work(Call::Supply(1));
    let _ = m.level(1, 0);
    tally.check("battery amid an acknowledge", acknowledged && released && m.send(0xDF));
}

/// A flag that a status read clears, but not where the alarm matches again inside it.
fn alarm_read(tally: &mut Tally, matches_again: bool) {
    let mut m = Master::ready(&[0x02, 0x06]);
    let _ = m.frame(&[0xDE, 0x00, 0x0E, 0x80]);
    m.ticks(164);
    m.status(0x06);
    let _ = m.frame(&[0xDE, 0x00, 0x30, 0x00]);
    m.ticks(32_768 - 164);
    let was_on = m.session.chip.status() & 0x60 == 0x40;
    m.start();
    [0xDE, 0x00, 0x3F].iter().for_each(|byte| { m.send(*byte); });
    m.start();
    m.send(0xDF);
    m.pulse(1);
    if matches_again {
        m.ticks(32_768);
    }
    (1..8).for_each(|_| { m.pulse(1); });
    let still_on = m.session.chip.status() & 0x40 != 0;
    m.pulse(1);
    let after = m.session.chip.status() & 0x40 != 0;
    tally.check("status read", was_on && still_on && after == matches_again);
}

fn calendar_cases(tally: &mut Tally) {
    let cases: [([u8; 8], [u8; 8]); 6] = [
        ([0x59, 0x59, 0xA3, 0x31, 0x12, 0x99, 6, 0x19], [0, 0, 0x80, 1, 1, 0x00, 0, 0x20]),
        ([0x59, 0x59, 0xA3, 0x28, 0x02, 0x00, 1, 0x19], [0, 0, 0x80, 1, 3, 0x00, 2, 0x19]),
        ([0x59, 0x59, 0xA3, 0x28, 0x02, 0x00, 1, 0x20], [0, 0, 0x80, 0x29, 2, 0x00, 2, 0x20]),
        ([0x59, 0x59, 0xA3, 0x31, 0x12, 0x99, 3, 0x20], [0, 0, 0x80, 1, 1, 0x00, 4, 0x20]),
        ([0x59, 0x59, 0x11, 0x05, 0x05, 0x05, 5, 0x20], [0, 0, 0x32, 5, 5, 5, 5, 0x20]),
        ([0x59, 0x59, 0x31, 0x05, 0x05, 0x05, 5, 0x20], [0, 0, 0x12, 6, 5, 5, 6, 0x20]),
    ];
    for (shown, later) in cases {
        tally.check("one second later", calendar::next(&shown) == later);
    }
    let february = [0, 0, 0x12, 0x30, 0x02, 0, 0, 0x20];
    tally.check("30 February", Date::read(&february) == Err(0x33));
    let thirteenth = [0, 0, 0x12, 0x31, 0x13, 0, 0, 0x20];
    tally.check("month 13h", Date::read(&thirteenth) == Err(0x34));
    tally.check("a stray bit 6", Date::read(&[0, 0, 0x52, 1, 1, 0, 0, 0x20]) == Err(0x32));
}

fn log_lines(tally: &mut Tally) {
    let readable = [
        ("supply 1 00000", Call::Supply(1)),
        ("level 65535 0", Call::Level(65_535, 0)),
        ("supply 3 0", Call::Supply(3)),
    ];
    for (line, meant) in readable {
        tally.check(line, call(line.as_bytes()) == Some(meant));
    }
    let unreadable = [
        "level 000001 1", "level 65536 0", "supply 3 1", "tick 1 1", "level 1  0", " level 1 0",
        "level 1 0 ", "level 1 0\r", "",
    ];
    for line in unreadable {
        tally.check(line, call(line.as_bytes()).is_none());
    }
}

fn log_examples(tally: &mut Tally) {
    let names = "line sda fault area address\n";
    let second = "call one two\nlevel 0 7\nsupply 1 0\nlevel 1 1\nlevel 1 0\ntick 32768 0\n\
                  supply 3 0\nlevel 1\ntick 1 0\n";
    let second_rows = "2 1 1 0 1\n3 1 0 0 0\n4 1 0 0 0\n5 1 0 0 0\n6 1 0 0 0\n7 1 2 0 0\n8 1 10 0 0\n";
    let cases = [
        ("call one two\nsupply 1 0\nlevel 2 0", "2 1 0 0 0\n3 1 1 0 0\n"),
        (second, second_rows),
        ("call one  two\ntick 1 0\n", "1 1 9 0 0\n"),
        ("call one two\r\n", "1 1 9 0 0\n"),
        ("", "1 1 9 0 0\n"),
        ("call one two", ""),
        ("call one two\n", ""),
        ("call one two\n\n", "2 1 10 0 0\n"),
    ];
    for (log, rows) in cases {
        let answer = reply(&mut Session::new(1_000_000), log.as_bytes());
        tally.check(log, answer == Some(format!("{names}{rows}")));
    }
    let long = vec![b'x'; 8_193];
    tally.check("8,193 bytes", reply(&mut Session::new(1_000_000), &long).is_none());
    let most = vec![b'x'; 8_192];
    tally.check("8,192 bytes", reply(&mut Session::new(1_000_000), &most).is_some());
}
