//! Random logs that reach deep states. A module runs along while the log is
//! written, so that the next step can fit the state.

use crate::calendar;
use crate::chip::{Supply, SECOND};
use crate::log::{Call, Session, LIMIT, NAMES};

/// A xorshift generator.
struct Random(u64);

impl Random {
    fn new(seed: u64) -> Random {
        // The state must not be 0; a few steps part neighbouring seeds.
        let mut random = Random(seed.wrapping_mul(0x9E37_79B9_7F4A_7C15) | 1);
        random.0 ^= seed.rotate_left(32) & !1;
        (0..16).for_each(|_| { random.next(); });
        random
    }

    fn next(&mut self) -> u64 {
        self.0 ^= self.0 << 13;
        self.0 ^= self.0 >> 7;
        self.0 ^= self.0 << 17;
        self.0 >> 16
    }

    fn below(&mut self, bound: usize) -> usize {
        (self.next() % bound as u64) as usize
    }

    fn one_in(&mut self, n: usize) -> bool {
        self.below(n) == 0
    }

    fn pick<T: Copy>(&mut self, choices: &[T]) -> T {
        choices[self.below(choices.len())]
    }

    fn byte(&mut self) -> u8 {
        self.below(256) as u8
    }
}

const UNREADABLE: [&str; 12] = [
    "", "level 1", "level 1  0", " level 1 0", "level 1 0 ", "level 000001 1", "level 65536 0",
    "tick 1 1", "supply 3 1", "Level 1 0", "level 1 0\r", "tick -1 0",
];
const BAD_NAMES: [&str; 4] = ["call one  two", "call one two\r", "Call one two", ""];

struct Writer {
    random: Random,
    session: Session,
    text: Vec<u8>,
    /// Damage comes before one line in so many; none at 0.
    damage: usize,
    /// Whether SDA moves in calls of its own.
    careful: bool,
    full: bool,
}

/// A random log of at most 8,192 bytes.
pub fn log(seed: u64) -> Vec<u8> {
    let mut random = Random::new(seed);
    let names = if random.one_in(80) { random.pick(&BAD_NAMES) } else { NAMES };
    let damage = random.pick(&[0, 0, 0, 400, 120, 40]);
    let careful = random.one_in(6);
    let mut writer = Writer {
        random,
        session: Session::new(1_000_000),
        text: format!("{names}\n").into_bytes(),
        damage,
        careful,
        full: false,
    };
    writer.begin();
    while !writer.full {
        writer.step();
    }
    writer.finish()
}

impl Writer {
    // Lines.

    fn put(&mut self, line: &str) {
        if self.full || self.text.len() + line.len() + 1 > LIMIT {
            self.full = true;
            return;
        }
        self.text.extend_from_slice(line.as_bytes());
        self.text.push(b'\n');
    }

    fn call(&mut self, call: Call) {
        // Leading zeros go only where the number keeps to five digits.
        let zeros = self.random.one_in(150);
        let zero = |number: u16| if zeros && number < 10 { "0000" } else { "" };
        let line = match call {
            Call::Level(scl, sda) => format!("level {}{scl} {sda}", zero(scl)),
            Call::Tick(n) => format!("tick {n} {}0", zero(0)),
            Call::Supply(which) => format!("supply {}{which} 0", zero(which)),
        };
        self.put(&line);
        if !self.full {
            let _ = self.session.work(call);
        }
    }

    fn level(&mut self, scl: u16, sda: u16) {
        if self.damage > 0 && self.random.one_in(self.damage) && self.harm() {
            return;
        }
        self.call(Call::Level(scl, sda));
    }

    fn ticks(&mut self, n: usize) {
        self.call(Call::Tick(n.min(65_535) as u16));
    }

    fn supply(&mut self, which: u16) {
        self.call(Call::Supply(which));
    }

    /// Something unforeseen before a line. Answers whether the line is left out.
    fn harm(&mut self) -> bool {
        match self.random.below(9) {
            0 => return true,
            1 => self.some_levels(1),
            2 => {
                let sda = self.random.below(2) as u16;
                self.call(Call::Level(0, sda));
                self.call(Call::Level(1, sda));
                self.call(Call::Level(0, sda));
            }
            3 => self.refused(),
            4 => self.switch_supply(),
            5 | 6 => self.some_ticks(),
            7 => {
                self.call(Call::Level(1, 0));
                self.call(Call::Level(1, 1));
            }
            _ => {
                self.call(Call::Level(1, 1));
                self.call(Call::Level(1, 0));
            }
        }
        false
    }

    // Pieces of frames. SCL is high before and after each of them.

    fn start(&mut self) {
        self.level(1, 1);
        self.level(1, 0);
    }

    fn restart(&mut self) {
        self.level(0, 1);
        self.level(1, 1);
        self.level(1, 0);
    }

    fn bit(&mut self, sda: u16) {
        if self.careful {
            self.level(0, 1);
        }
        self.level(0, sda);
        self.level(1, sda);
    }

    fn bits(&mut self, byte: u8, n: u32) {
        for place in 0..n {
            self.bit(u16::from(byte >> (7 - place) & 1));
        }
    }

    fn byte(&mut self, byte: u8) {
        self.bits(byte, 8);
        let held = self.random.one_in(12);
        self.bit(if held { 0 } else { 1 });
    }

    fn stop(&mut self) {
        self.level(0, 0);
        self.level(1, 0);
        self.level(1, 1);
    }

    fn frame(&mut self, bytes: &[u8]) {
        self.start();
        bytes.iter().for_each(|byte| self.byte(*byte));
        if self.random.one_in(25) {
            // One pulse more or one less than a write needs.
            if self.random.one_in(2) {
                self.bit(0);
            } else {
                self.level(1, 0);
                self.level(1, 1);
                return;
            }
        }
        self.stop();
    }

    /// Reads n bytes from the counter on, with a start before.
    fn read(&mut self, slave: u8, n: usize, again: bool) {
        if again {
            self.restart();
        } else {
            self.start();
        }
        self.byte(slave);
        for i in 0..n {
            if self.random.one_in(5) {
                self.some_ticks();
            }
            for _ in 0..8 {
                self.bit(1);
            }
            self.bit(if i + 1 < n { 0 } else { 1 });
        }
        if self.random.one_in(2) {
            self.stop();
        }
    }

    fn read_at(&mut self, slave: u8, address: usize, n: usize) {
        self.start();
        self.byte(slave & 0xFE);
        self.byte((address >> 8) as u8);
        self.byte(address as u8);
        if self.random.one_in(4) {
            self.stop();
            self.read(slave | 1, n, false);
        } else {
            self.read(slave | 1, n, true);
        }
    }

    // Whole steps.

    fn status(&mut self, byte: u8) {
        self.frame(&[0xDE, 0x00, 0x3F, byte]);
    }

    fn need_main(&mut self) {
        if self.session.chip.supplied() != Supply::Main {
            self.supply(1);
        }
        let cycle = self.session.chip.cycle() as usize;
        if cycle > 0 {
            let early = self.random.one_in(8);
            self.ticks(if early { cycle - 1 } else { cycle });
        }
    }

    fn need_wel(&mut self) {
        self.need_main();
        if self.session.chip.status() & 0x02 == 0 {
            self.status(0x02);
        }
    }

    fn need_rwel(&mut self) {
        self.need_wel();
        if self.session.chip.status() & 0x04 == 0 {
            self.status(0x06);
        }
    }

    fn write(&mut self, slave: u8, address: usize, data: &[u8]) {
        let high = (address >> 8) as u8 | if self.random.one_in(10) { 0x82 } else { 0 };
        let mut bytes = vec![slave, high, address as u8];
        bytes.extend_from_slice(data);
        self.frame(&bytes);
    }

    fn some_bytes(&mut self, most: usize) -> Vec<u8> {
        let n = 1 + self.random.below(most);
        (0..n).map(|_| self.random.byte()).collect()
    }

    fn array_address(&mut self) -> usize {
        let edge = 64 * self.random.below(9) + self.random.below(4);
        if self.random.one_in(3) {
            self.random.below(512)
        } else {
            (edge + 510) % 512
        }
    }

    fn register(&mut self) -> usize {
        const REGISTERS: [usize; 18] = [
            0x00, 0x02, 0x04, 0x05, 0x06, 0x07, 0x08, 0x0E, 0x0F, 0x10, 0x11, 0x12, 0x13, 0x14, 0x2F,
            0x38, 0x3E, 0x3F,
        ];
        self.random.pick(&REGISTERS)
    }

    fn array_write(&mut self) {
        self.need_wel();
        let address = self.array_address();
        let data = self.some_bytes(5);
        self.write(0xAE, address, &data);
    }

    fn register_write(&mut self) {
        if !self.random.one_in(5) {
            self.need_rwel();
        }
        let address = self.register();
        let data = self.some_bytes(4);
        self.write(0xDE, address, &data);
    }

    fn lock(&mut self) {
        self.need_rwel();
        // Every lock but none, with stray low bits.
        let bl = (1 + self.random.below(7) as u8) << 5 | self.random.byte() >> 3;
        self.write(0xDE, 0x10, &[bl]);
        self.array_write();
    }

    /// A clock write of one to four bytes; now and then of a whole late date.
    fn clock_write(&mut self) {
        self.need_rwel();
        const LATE: [[u8; 8]; 6] = [
            [0x59, 0x59, 0xA3, 0x31, 0x12, 0x99, 0x06, 0x20],
            [0x59, 0x59, 0x31, 0x31, 0x12, 0x99, 0x02, 0x19],
            [0x59, 0x59, 0xA3, 0x28, 0x02, 0x00, 0x05, 0x19],
            [0x58, 0x59, 0x31, 0x28, 0x02, 0x00, 0x06, 0x20],
            [0x59, 0x59, 0x11, 0x30, 0x04, 0x23, 0x00, 0x20],
            [0x59, 0x59, 0x92, 0x29, 0x02, 0x24, 0x03, 0x20],
        ];
        let date = self.random.pick(&LATE);
        let from = if self.random.one_in(3) { 0 } else { self.random.below(8) };
        let n = if from == 0 { self.random.pick(&[3, 5, 5, 8]) } else { 1 + self.random.below(4) };
        let mut data: Vec<u8> = (0..n).map(|i| date[(from + i) % 8]).collect();
        if self.random.one_in(3) {
            let at = self.random.below(n);
            data[at] = self.random.byte();
        }
        self.write(0xDE, 0x30 + from, &data);
        if self.random.one_in(2) {
            let mark = self.to_mark();
            self.ticks(mark);
            self.ticks(SECOND as usize);
        }
    }

    fn need_running_clock(&mut self) {
        if self.session.chip.status() & 0x01 != 0 {
            self.need_rwel();
            let seconds = self.random.pick(&[0x00, 0x15, 0x58, 0x59]);
            self.write(0xDE, 0x30, &[seconds]);
        }
    }

    fn to_mark(&self) -> usize {
        (SECOND - self.session.chip.divider()) as usize
    }

    /// Sets an alarm that matches within the next marks, lets it match and reads status.
    fn alarm(&mut self) {
        self.need_running_clock();
        let chip = &self.session.chip;
        let soon = chip.waiting().unwrap_or(calendar::next(&chip.clock()));
        let later = calendar::next(&soon);
        let shown = if self.random.one_in(2) { soon } else { later };
        let field = self.random.pick(&[0, 0, 0, 1, 2, 3, 4, 6]);
        let first = 8 * self.random.below(2);
        let byte = 0x80 | shown[field] & 0x7F;
        self.need_rwel();
        self.write(0xDE, first + field, &[byte]);
        let mark = self.to_mark();
        let reads_over_mark = self.random.one_in(3);
        self.ticks(mark);
        self.ticks(SECOND as usize - if reads_over_mark { 1 } else { 0 });
        self.status_read(reads_over_mark);
    }

    /// A status read, with a second mark inside if asked.
    fn status_read(&mut self, mark_inside: bool) {
        self.need_main();
        self.start();
        self.byte(0xDE);
        self.byte(0x00);
        self.byte(0x3F);
        self.restart();
        self.byte(0xDF);
        let at = self.random.below(9);
        for bit in 0..9 {
            if mark_inside && bit == at {
                let mark = self.to_mark();
                self.ticks(mark);
            }
            self.bit(1);
        }
        if self.random.one_in(2) {
            // A second read shows what was cleared.
            self.read(0xDF, 1, true);
        }
    }

    fn some_read(&mut self) {
        self.need_main();
        let n = 1 + self.random.below(4);
        match self.random.below(5) {
            0 => {
                let slave = self.random.pick(&[0xAF, 0xDF]);
                self.read(slave, n, false);
            }
            1 => {
                let address = self.array_address();
                self.read_at(0xAF, address, n);
            }
            2 => {
                let address = 0x30 + self.random.below(8);
                self.read_at(0xDF, address, n);
            }
            3 => {
                let address = self.register();
                self.read_at(0xDF, address, n);
            }
            _ => {
                // An array address read as registers.
                let address = self.random.pick(&[255, 511, 0x110, 0x137, 0x0D4, 64]);
                self.start();
                [0xAE, (address >> 8) as u8, address as u8].iter().for_each(|b| self.byte(*b));
                self.read(0xDF, n, true);
                self.read(0xAF, 1, true);
            }
        }
    }

    fn some_ticks(&mut self) {
        let mark = self.to_mark();
        let any = self.random.below(65_536);
        let few = self.random.below(200);
        let n = self.random.pick(&[
            0, 1, 163, 164, 165, few, mark, mark, mark, mark - 1, mark + 1, 32_768, 65_535, any,
        ]);
        self.ticks(n);
    }

    fn some_levels(&mut self, most: usize) {
        for _ in 0..1 + self.random.below(most) {
            let (scl, sda) = (self.random.below(2) as u16, self.random.below(2) as u16);
            self.call(Call::Level(scl, sda));
        }
    }

    fn refused(&mut self) {
        let call = self.random.pick(&[
            Call::Level(2, 0), Call::Level(0, 2), Call::Level(65_535, 7), Call::Level(1, 65_535),
            Call::Supply(3), Call::Supply(65_535),
        ]);
        self.call(call);
    }

    fn switch_supply(&mut self) {
        let away = self.random.pick(&[0, 1, 2, 2, 2]);
        self.supply(away);
        if self.random.one_in(3) {
            self.some_ticks();
        }
        if self.random.one_in(4) {
            self.some_levels(3);
        }
        self.supply(1);
    }

    /// A frame of fitting bytes, broken off at any rise by a stop, a start or the supply.
    fn broken_frame(&mut self) {
        self.need_main();
        let slave = self.random.pick(&[0xAE, 0xAF, 0xDE, 0xDF, 0xDE, 0x55]);
        let low = self.random.pick(&[0x00, 0x10, 0x30, 0x3F, 0x40]);
        let whole = [slave, 0x00, low, 0x02, 0x06];
        let rises = 1 + self.random.below(46);
        self.start();
        whole.iter().take(rises / 9).for_each(|byte| self.byte(*byte));
        if rises % 9 > 0 && rises / 9 < whole.len() {
            self.bits(whole[rises / 9], (rises % 9).min(8) as u32);
        }
        match self.random.below(5) {
            0 => self.switch_supply(),
            1 => self.restart(),
            2 => {
                self.level(1, 1);
                self.level(1, 0);
                self.level(1, 1);
            }
            3 => self.some_levels(8),
            _ => {
                self.level(1, 0);
                self.level(1, 1);
            }
        }
    }

    /// Frames begun inside the write cycle of the one before.
    fn busy_frame(&mut self) {
        self.array_write();
        let before = self.random.pick(&[0, 100, 162, 163]);
        self.ticks(before);
        self.start();
        self.bits(0xDE, 8);
        let rest = (self.session.chip.cycle() as usize).saturating_sub(self.random.below(2));
        self.ticks(rest);
        self.start();
        self.byte(0xDF);
    }

    fn ten_pulses(&mut self) {
        self.level(0, 1);
        (0..10).for_each(|_| self.bit(1));
        self.start();
        let slave = self.random.pick(&[0xAE, 0xAF, 0xDE, 0xDF]);
        self.byte(slave);
    }

    /// The first steps: power-up, and one deep state.
    fn begin(&mut self) {
        if self.random.one_in(10) {
            self.some_levels(3);
            self.some_ticks();
        }
        if self.random.one_in(15) {
            self.supply(2);
        }
        self.supply(1);
        match self.random.below(12) {
            0 => self.array_write(),
            1..=3 => self.lock(),
            4..=6 => self.clock_write(),
            7..=8 => self.alarm(),
            9 => self.register_write(),
            10 => self.need_rwel(),
            _ => {}
        }
    }

    fn step(&mut self) {
        match self.random.below(26) {
            0..=2 => self.array_write(),
            3..=4 => self.register_write(),
            5..=6 => self.clock_write(),
            7..=8 => self.alarm(),
            9 => self.lock(),
            10..=13 => self.some_read(),
            14 => self.status_read(false),
            15..=16 => self.some_ticks(),
            17 => self.switch_supply(),
            18..=20 => self.broken_frame(),
            21 => self.busy_frame(),
            22 => self.ten_pulses(),
            23 => self.refused(),
            24 => {
                let byte = self.random.pick(&[0x00, 0x02, 0x06, 0x06, 0x04, 0xFF]);
                self.need_main();
                self.status(byte);
            }
            _ => self.some_levels(20),
        }
        if self.random.one_in(150) {
            let line = self.random.pick(&UNREADABLE);
            self.put(line);
        }
    }

    /// The bytes of the log, now and then with an unreadable line or without the last LF.
    fn finish(mut self) -> Vec<u8> {
        if self.random.one_in(4) {
            let line = self.random.pick(&UNREADABLE);
            self.text.truncate(LIMIT - 40);
            while self.text.last().is_some_and(|byte| *byte != b'\n') {
                self.text.pop();
            }
            self.text.extend_from_slice(line.as_bytes());
            self.text.extend_from_slice(b"\ntick 1 0\n");
        }
        if self.random.one_in(6) {
            self.text.pop();
        }
        self.text
    }
}
