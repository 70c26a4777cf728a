//! The module, told by the rises since the last start.
//!
//! A frame keeps the level of the wire at each rise. Everything else (which
//! byte it is, what was sent, what a stop does) is worked out from these.

use crate::calendar::{self, ClockBytes, Date};
use crate::memory::Image;
use crate::registers::{locks, mask, Area, Ring, Section};
use std::collections::BTreeMap;

pub const WRITE_CYCLE: u32 = 164;
pub const SECOND: u32 = 32_768;

#[derive(Clone, Copy, PartialEq, Debug)]
pub enum Supply {
    None,
    Main,
    Battery,
}

#[derive(Clone, Copy, PartialEq, Debug)]
pub enum Refusal {
    BadLevel { line: usize },
    BadSupply,
    Worn { area: Area, address: usize, life: u32 },
    RwelOff { register: usize },
    NotADate { register: usize },
    Locked { address: usize },
}

impl Refusal {
    /// Number, area and address.
    pub fn report(self) -> (u32, u32, usize) {
        match self {
            Refusal::BadLevel { line } => (1, 0, line),
            Refusal::BadSupply => (2, 0, 0),
            Refusal::Worn { area: Area::Array, address, .. } => (5, 1, address),
            Refusal::Worn { area: Area::Registers, address, .. } => (5, 2, address),
            Refusal::RwelOff { register } => (6, 2, register),
            Refusal::NotADate { register } => (7, 2, register),
            Refusal::Locked { address } => (8, 1, address),
        }
    }
}

#[derive(Clone, Copy, PartialEq)]
enum Direction {
    Read,
    Write,
}

#[derive(Clone, Copy)]
struct Slave {
    area: Area,
    direction: Direction,
}

impl Slave {
    fn of(byte: u8) -> Option<Slave> {
        let (area, direction) = match byte {
            0xAE => (Area::Array, Direction::Write),
            0xAF => (Area::Array, Direction::Read),
            0xDE => (Area::Registers, Direction::Write),
            0xDF => (Area::Registers, Direction::Read),
            _ => return None,
        };
        Some(Slave { area, direction })
    }
}

enum Edge {
    Start,
    Stop,
    Rise(bool),
    Fall,
    Still,
}

#[derive(Clone, Copy)]
struct Levels {
    scl: bool,
    sda: bool,
}

impl Levels {
    fn wire(self, pull: bool) -> bool {
        self.sda && !pull
    }
}

fn edge(before: Levels, after: Levels, pull: bool) -> Edge {
    let (old, new) = (before.wire(pull), after.wire(pull));
    match (before.scl, after.scl) {
        (true, true) if old && !new => Edge::Start,
        (true, true) if !old && new => Edge::Stop,
        (false, true) => Edge::Rise(new),
        (true, false) => Edge::Fall,
        _ => Edge::Still,
    }
}

/// An open frame in which every byte so far was acknowledged.
struct Frame {
    /// The wire at each rise since the start.
    levels: Vec<bool>,
    clock_copy: ClockBytes,
    status_copy: u8,
    /// Which alarms have matched since status was copied.
    matched: [bool; 2],
    /// The byte that the module sends now.
    sent: u8,
}

impl Frame {
    fn open() -> Frame {
        Frame {
            levels: Vec::new(),
            clock_copy: calendar::START,
            status_copy: 0,
            matched: [false, false],
            sent: 0,
        }
    }

    fn byte(&self, k: usize) -> u8 {
        self.levels[9 * k..9 * k + 8].iter().fold(0, |value, level| 2 * value + u8::from(*level))
    }

    fn slave(&self) -> Option<Slave> {
        if self.levels.len() < 8 {
            return None;
        }
        Slave::of(self.byte(0))
    }

    fn is_read(&self) -> bool {
        self.slave().is_some_and(|slave| slave.direction == Direction::Read)
    }

    /// Whether byte k is sent by the module.
    fn sends(&self, k: usize) -> bool {
        k > 0 && self.is_read()
    }

    /// The address that the two address bytes of a write name.
    fn address(&self, area: Area) -> usize {
        let whole = 256 * usize::from(self.byte(1)) + usize::from(self.byte(2));
        match area {
            Area::Array => whole % 512,
            Area::Registers => whole % 64,
        }
    }

    /// The write on which a stop would act now.
    fn write(&self) -> Option<Write> {
        let slave = self.slave()?;
        let (n, more) = (self.levels.len() / 9, self.levels.len() % 9);
        if slave.direction == Direction::Read || more != 1 || n < 4 {
            return None;
        }
        Some(Write {
            area: slave.area,
            address: self.address(slave.area),
            data: (3..n).map(|k| self.byte(k)).collect(),
            clock_copy: self.clock_copy,
        })
    }
}

struct Write {
    area: Area,
    address: usize,
    data: Vec<u8>,
    clock_copy: ClockBytes,
}

impl Write {
    /// The last byte sent to each address, in rising order.
    fn by_address(&self, ring: Ring) -> BTreeMap<usize, u8> {
        let mut sent = BTreeMap::new();
        for (i, byte) in self.data.iter().enumerate() {
            sent.insert(ring.on(self.address, i), *byte);
        }
        sent
    }
}

pub struct Chip {
    levels: Levels,
    supply: Supply,
    frame: Option<Frame>,
    pull: bool,
    counter: usize,
    wel: bool,
    rwel: bool,
    cycle: u32,
    rtcf: bool,
    divider: u32,
    clock: ClockBytes,
    waiting: Option<ClockBytes>,
    flags: [bool; 2],
}

impl Chip {
    pub fn make() -> Chip {
        Chip {
            levels: Levels { scl: true, sda: true },
            supply: Supply::None,
            frame: None,
            pull: false,
            counter: 0,
            wel: false,
            rwel: false,
            cycle: 0,
            rtcf: true,
            divider: 0,
            clock: calendar::START,
            waiting: None,
            flags: [false, false],
        }
    }

    pub fn pulls(&self) -> bool {
        self.pull
    }

    pub fn counter(&self) -> usize {
        self.counter
    }

    pub fn divider(&self) -> u32 {
        self.divider
    }

    pub fn cycle(&self) -> u32 {
        self.cycle
    }

    pub fn waiting(&self) -> Option<ClockBytes> {
        self.waiting
    }

    pub fn clock(&self) -> ClockBytes {
        self.clock
    }

    pub fn supplied(&self) -> Supply {
        self.supply
    }

    pub fn status(&self) -> u8 {
        let bits = [
            (0x80, self.supply == Supply::Battery),
            (0x40, self.flags[1]),
            (0x20, self.flags[0]),
            (0x04, self.rwel),
            (0x02, self.wel),
            (0x01, self.rtcf),
        ];
        bits.iter().filter(|(_, on)| *on).map(|(weight, _)| weight).sum()
    }

    fn hears(&self) -> bool {
        self.supply == Supply::Main && self.cycle == 0
    }

    // The three calls.

    pub fn level(&mut self, memory: &mut Image, scl: u16, sda: u16) -> Result<(), Refusal> {
        for (line, number) in [scl, sda].into_iter().enumerate() {
            if number > 1 {
                return Err(Refusal::BadLevel { line });
            }
        }
        let after = Levels { scl: scl == 1, sda: sda == 1 };
        let edge = if self.hears() { edge(self.levels, after, self.pull) } else { Edge::Still };
        self.levels = after;
        match edge {
            Edge::Start => self.frame = Some(Frame::open()),
            Edge::Stop => return self.stop(memory),
            Edge::Rise(level) => self.rise(level),
            Edge::Fall => self.fall(memory),
            Edge::Still => {}
        }
        Ok(())
    }

    pub fn supply(&mut self, which: u16) -> Result<(), Refusal> {
        match which {
            0 => *self = Chip { levels: self.levels, ..Chip::make() },
            1 => self.supply = Supply::Main,
            2 => {
                self.supply = Supply::Battery;
                self.wel = false;
                self.rwel = false;
                self.frame = None;
                self.pull = false;
                self.cycle = 0;
                self.counter = 0;
            }
            _ => return Err(Refusal::BadSupply),
        }
        Ok(())
    }

    pub fn tick(&mut self, memory: &Image) {
        if self.supply == Supply::None {
            return;
        }
        self.cycle = self.cycle.saturating_sub(1);
        self.divider = (self.divider + 1) % SECOND;
        if self.divider == 0 && !self.rtcf {
            self.second_mark(memory);
        }
    }

    fn second_mark(&mut self, memory: &Image) {
        self.clock = match self.waiting.take() {
            Some(bytes) => bytes,
            None => calendar::next(&self.clock),
        };
        for alarm in 0..2 {
            let stored: ClockBytes = std::array::from_fn(|k| memory.read(512 + 8 * alarm + k));
            if calendar::matches(&stored, &self.clock) {
                self.flags[alarm] = true;
                if let Some(frame) = &mut self.frame {
                    frame.matched[alarm] = true;
                }
            }
        }
    }

    // Rises and falls.

    fn rise(&mut self, level: bool) {
        let Some(frame) = &mut self.frame else { return };
        frame.levels.push(level);
        let rises = frame.levels.len();
        // A high ninth level after a byte sent ends the read.
        if rises % 9 == 0 && frame.sends(rises / 9 - 1) && level {
            self.frame = None;
        }
    }

    fn fall(&mut self, memory: &Image) {
        let Some(mut frame) = self.frame.take() else {
            self.pull = false;
            return;
        };
        let (k, place) = (frame.levels.len() / 9, frame.levels.len() % 9);
        let stays_open = match place {
            8 if frame.sends(k) => self.byte_was_sent(&frame),
            8 => self.byte_has_come(&frame, k),
            0 if k > 0 => {
                self.ninth_is_over(&mut frame, k - 1, memory);
                true
            }
            _ => {
                self.pull = frame.sends(k) && frame.sent & (0x80 >> place) == 0;
                true
            }
        };
        if stays_open {
            self.frame = Some(frame);
        }
    }

    /// The eighth bit of a byte from the master is over. Answers whether the byte is taken.
    fn byte_has_come(&mut self, frame: &Frame, k: usize) -> bool {
        self.pull = match (frame.slave(), k) {
            (None, _) => false,
            (Some(_), 0..=2) => true,
            (Some(slave), _) => self.takes_data(slave.area, frame.address(slave.area), k - 3),
        };
        self.pull
    }

    /// Whether data byte i of a write to the address is taken.
    fn takes_data(&self, area: Area, address: usize, i: usize) -> bool {
        match area {
            Area::Array => self.wel,
            Area::Registers => match Section::of(address) {
                None => false,
                Some(Section::Status) => i == 0,
                Some(_) => self.wel,
            },
        }
    }

    /// The eighth bit of a byte that the module sent is over. Answers whether it listens.
    fn byte_was_sent(&mut self, frame: &Frame) -> bool {
        self.pull = false;
        let area = frame.slave().map(|slave| slave.area);
        let register = self.counter % 64;
        if area == Some(Area::Array) {
            self.counter = (self.counter + 1) % 512;
            return true;
        }
        match Section::of(register) {
            Some(Section::Status) => {
                self.clear_flags(frame);
                return false;
            }
            Some(section) => self.counter = Ring::section(section).on(register, 1),
            None => {}
        }
        true
    }

    fn clear_flags(&mut self, frame: &Frame) {
        for (alarm, weight) in [(0, 0x20), (1, 0x40)] {
            if frame.status_copy & weight != 0 && !frame.matched[alarm] {
                self.flags[alarm] = false;
            }
        }
    }

    /// The ninth level of byte k is over.
    fn ninth_is_over(&mut self, frame: &mut Frame, k: usize, memory: &Image) {
        self.pull = false;
        let Some(slave) = frame.slave() else { return };
        if slave.direction == Direction::Read {
            if k == 0 {
                frame.clock_copy = self.clock;
                frame.status_copy = self.status();
                frame.matched = [false, false];
            }
            frame.sent = self.byte_to_send(slave.area, frame, memory);
            self.pull = frame.sent & 0x80 == 0;
        } else if k == 2 {
            self.counter = frame.address(slave.area);
            frame.clock_copy = self.clock;
        } else if k > 2 {
            let ring = match slave.area {
                Area::Array => Some(Ring::page(self.counter)),
                Area::Registers => Section::of(self.counter).map(Ring::section),
            };
            if let Some(ring) = ring {
                self.counter = ring.on(self.counter, 1);
            }
        }
    }

    fn byte_to_send(&self, area: Area, frame: &Frame, memory: &Image) -> u8 {
        if area == Area::Array {
            return memory.read(self.counter);
        }
        let register = self.counter % 64;
        match Section::of(register) {
            None => 0x00,
            Some(Section::Clock) => frame.clock_copy[register - 0x30],
            Some(Section::Status) => frame.status_copy,
            Some(_) => memory.read(512 + register),
        }
    }

    // The stop.

    fn stop(&mut self, memory: &mut Image) -> Result<(), Refusal> {
        let Some(frame) = self.frame.take() else { return Ok(()) };
        let Some(write) = frame.write() else { return Ok(()) };
        match write.area {
            Area::Array => self.close_array(&write, memory),
            Area::Registers => match Section::of(write.address) {
                None => Ok(()),
                Some(Section::Status) => {
                    self.command(write.data[0]);
                    Ok(())
                }
                Some(Section::Clock) => self.close_clock(&write),
                Some(section) => self.close_stored(&write, section, memory),
            },
        }
    }

    fn close_array(&mut self, write: &Write, memory: &mut Image) -> Result<(), Refusal> {
        if locks(memory.read(512 + 0x10), write.address) {
            return Err(Refusal::Locked { address: write.address });
        }
        let sent = write.by_address(Ring::page(write.address));
        self.store(write, 0, sent, memory)
    }

    fn close_stored(
        &mut self,
        write: &Write,
        section: Section,
        memory: &mut Image,
    ) -> Result<(), Refusal> {
        if !self.rwel {
            return Err(Refusal::RwelOff { register: write.address });
        }
        let mut sent = write.by_address(Ring::section(section));
        for (register, byte) in &mut sent {
            *byte &= mask(*register);
        }
        self.store(write, 512, sent, memory)?;
        self.rwel = false;
        Ok(())
    }

    /// Writes each address sent, all or none, and opens a write cycle.
    fn store(
        &mut self,
        write: &Write,
        first_place: usize,
        sent: BTreeMap<usize, u8>,
        memory: &mut Image,
    ) -> Result<(), Refusal> {
        let life = memory.life();
        if (life as usize) < sent.len() {
            return Err(Refusal::Worn { area: write.area, address: write.address, life });
        }
        for (address, byte) in sent {
            memory.write(first_place + address, byte);
        }
        self.cycle = WRITE_CYCLE;
        Ok(())
    }

    fn close_clock(&mut self, write: &Write) -> Result<(), Refusal> {
        if !self.rwel {
            return Err(Refusal::RwelOff { register: write.address });
        }
        let mut joined = write.clock_copy;
        for (register, byte) in write.by_address(Ring::section(Section::Clock)) {
            joined[register - 0x30] = byte;
        }
        if let Err(register) = Date::read(&joined) {
            return Err(Refusal::NotADate { register: usize::from(register) });
        }
        self.waiting = Some(joined);
        self.rtcf = false;
        self.rwel = false;
        Ok(())
    }

    /// A status write.
    fn command(&mut self, byte: u8) {
        match byte {
            0x00 => (self.wel, self.rwel) = (false, false),
            0x02 => (self.wel, self.rwel) = (true, false),
            0x06 if self.wel => self.rwel = true,
            _ => {}
        }
    }
}
