//! "The PHY's follower": where a party stands in the stream of levels. PHYs and the listener follow alike.

/// The ones of a whole preamble. No more are counted.
pub const PREAMBLE: u8 = 32;

/// Hunting with some ones, or inside a frame with some bits.
#[derive(Clone, Copy, Debug, PartialEq, Eq)]
pub struct Follower {
    /// Ones that let a 0 start a frame.
    enough: u8,
    /// Ones heard while hunting, 0 inside a frame.
    ones: u8,
    /// Bits of the frame heard, 0 while hunting.
    bits: u8,
    /// The frame's bits so far.
    frame: u32,
}

/// What is whole with a level, as the frame's 32 bits; those to come are 0.
pub enum Whole {
    /// The 14th bit: start, op, address and register.
    Header(u32),
    /// The 32nd bit.
    Frame(u32),
}

impl Follower {
    /// Hunting with 0 ones.
    pub fn hunting(enough: u8) -> Follower {
        Follower { enough, ones: 0, bits: 0, frame: 0 }
    }

    /// Bits of the frame heard, 0 while hunting.
    pub fn bits(&self) -> u8 {
        self.bits
    }

    /// One level. "A frame runs 32 bits, then hunting with 0 ones", whatever it says and whoever it is for: by document 02, E2, also if
    /// it starts 00.
    pub fn hear(&mut self, level: bool) -> Option<Whole> {
        if self.bits == 0 {
            self.hunt(level);
            return None;
        }
        self.bits += 1;
        self.frame = self.frame << 1 | u32::from(level);
        let frame = self.frame;
        match self.bits {
            14 => return Some(Whole::Header(frame << 18)),
            32 => {
                *self = Follower::hunting(self.enough);
                return Some(Whole::Frame(frame));
            }
            _ => {}
        }
        None
    }

    /// "A 1 adds one to the ones, at most 32. A 0 with enough ones starts a frame; with fewer, ones become 0."
    fn hunt(&mut self, level: bool) {
        if level {
            self.ones = (self.ones + 1).min(PREAMBLE);
        } else {
            self.bits = u8::from(self.ones >= self.enough);
            self.ones = 0;
        }
    }
}
