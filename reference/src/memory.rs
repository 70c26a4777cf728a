//! The byte image: 532 bytes and the writes that it still takes.

pub const PLACES: usize = 532;

pub struct Image {
    bytes: [u8; PLACES],
    life: u32,
}

impl Image {
    /// An image of the factory bytes.
    pub fn factory(life: u32) -> Image {
        let mut bytes = [0xFF; PLACES];
        bytes[512..].fill(0x00);
        bytes[519] = 0x20;
        bytes[527] = 0x20;
        Image { bytes, life }
    }

    pub fn read(&self, place: usize) -> u8 {
        self.bytes[place]
    }

    pub fn life(&self) -> u32 {
        self.life
    }

    /// Writes one byte. The caller has looked at the life before.
    pub fn write(&mut self, place: usize, byte: u8) {
        assert!(self.life > 0, "a write without life");
        self.bytes[place] = byte;
        self.life -= 1;
    }
}
