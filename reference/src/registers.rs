//! Areas, sections, masks and locks.

#[derive(Clone, Copy, PartialEq, Debug)]
pub enum Area {
    Array,
    Registers,
}

#[derive(Clone, Copy, PartialEq, Debug)]
pub enum Section {
    Alarm0,
    Alarm1,
    Control,
    Clock,
    Status,
}

impl Section {
    /// The section of a register address, none for an empty one.
    pub fn of(register: usize) -> Option<Section> {
        match register {
            0x00..=0x07 => Some(Section::Alarm0),
            0x08..=0x0F => Some(Section::Alarm1),
            0x10..=0x13 => Some(Section::Control),
            0x30..=0x37 => Some(Section::Clock),
            0x3F => Some(Section::Status),
            _ => None,
        }
    }

    pub fn first(self) -> usize {
        match self {
            Section::Alarm0 => 0x00,
            Section::Alarm1 => 0x08,
            Section::Control => 0x10,
            Section::Clock => 0x30,
            Section::Status => 0x3F,
        }
    }

    pub fn length(self) -> usize {
        match self {
            Section::Alarm0 | Section::Alarm1 | Section::Clock => 8,
            Section::Control => 4,
            Section::Status => 1,
        }
    }
}

/// A stretch of addresses that a write goes round in.
#[derive(Clone, Copy)]
pub struct Ring {
    first: usize,
    length: usize,
}

impl Ring {
    pub fn page(address: usize) -> Ring {
        Ring { first: address - address % 64, length: 64 }
    }

    pub fn section(section: Section) -> Ring {
        Ring { first: section.first(), length: section.length() }
    }

    /// The address `steps` on from `address`.
    pub fn on(self, address: usize, steps: usize) -> usize {
        self.first + (address - self.first + steps) % self.length
    }
}

/// The bits that a write to a stored register keeps.
pub fn mask(register: usize) -> u8 {
    const ALARM: [u8; 8] = [0xFF, 0xFF, 0xBF, 0xBF, 0x9F, 0x00, 0x87, 0x39];
    match register {
        0x10 => 0xE0,
        0x11 => 0xF8,
        0x12 => 0x3F,
        0x13 => 0x07,
        _ => ALARM[register % 8],
    }
}

/// Whether BL locks an address of the array.
pub fn locks(bl: u8, address: usize) -> bool {
    match bl >> 5 {
        0 => false,
        1 => address >= 0x180,
        2 => address >= 0x100,
        3 => true,
        4 => address <= 0x03F,
        5 => address <= 0x07F,
        6 => address <= 0x0FF,
        _ => true,
    }
}
