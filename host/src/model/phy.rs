//! One transceiver: its registers, what writes, reads and device events do to them. Its place on the wire is in `wire`.

use super::follower::PREAMBLE;

/// Bits of register 0.
pub mod control {
    pub const RESET: u16 = 1 << 15;
    pub const LOOPBACK: u16 = 1 << 14;
    pub const SPEED_LOW: u16 = 1 << 13;
    pub const NEGOTIATE: u16 = 1 << 12;
    pub const POWER_DOWN: u16 = 1 << 11;
    pub const ISOLATE: u16 = 1 << 10;
    pub const RESTART: u16 = 1 << 9;
    pub const FULL_DUPLEX: u16 = 1 << 8;
    pub const COLLISION_TEST: u16 = 1 << 7;
    pub const SPEED_HIGH: u16 = 1 << 6;
    pub const UNIDIRECTIONAL: u16 = 1 << 5;

    pub const SPEED: u16 = SPEED_HIGH | SPEED_LOW;
    /// "Bits 14, 11, 10, 7 stored."
    pub const STORED: u16 = LOOPBACK | POWER_DOWN | ISOLATE | COLLISION_TEST;
}

/// Bits of register 1.
pub mod status {
    pub const ABILITIES: u16 = 0xFE00;
    pub const EXTENDED_STATUS: u16 = 1 << 8;
    pub const UNIDIRECTIONAL_ABLE: u16 = 1 << 7;
    pub const PREAMBLE_SUPPRESSION: u16 = 1 << 6;
    pub const NEGOTIATED: u16 = 1 << 5;
    pub const REMOTE_FAULT: u16 = 1 << 4;
    pub const NEGOTIATE_ABLE: u16 = 1 << 3;
    pub const LINK: u16 = 1 << 2;
    pub const JABBER: u16 = 1 << 1;
    pub const EXTENDED_REGISTERS: u16 = 1 << 0;

    /// What the device changes; all else of register 1 stands at default.
    pub const MOVING: u16 = NEGOTIATED | REMOTE_FAULT | LINK | JABBER;
}

pub const CONTROL: usize = 0;
pub const STATUS: usize = 1;
pub const EXTENDED: usize = 15;

/// What registers 1 and 15 say that a PHY can do.
#[derive(Clone, Copy, Debug, PartialEq, Eq)]
pub struct Abilities {
    pub ten: bool,
    pub hundred: bool,
    pub thousand: bool,
    pub full: bool,
    pub half: bool,
}

impl Abilities {
    pub fn of(status: u16, extended: u16) -> Abilities {
        let any = |register: u16, bits: &[u16]| bits.iter().any(|bit| register >> bit & 1 == 1);
        Abilities {
            ten: any(status, &[12, 11]),
            hundred: any(status, &[15, 14, 13, 10, 9]),
            thousand: any(extended, &[15, 14, 13, 12]),
            full: any(status, &[14, 12, 10]) || any(extended, &[15, 13]),
            half: any(status, &[15, 13, 11, 9]) || any(extended, &[14, 12]),
        }
    }

    /// Whether the speed that these bits (6,13) of a control word name is able: "00 is 10, 01 is 100, 10 is 1000".
    fn speed_able(self, word: u16) -> bool {
        match word & control::SPEED {
            0 => self.ten,
            control::SPEED_LOW => self.hundred,
            control::SPEED_HIGH => self.thousand,
            _ => false,
        }
    }

    fn fastest(self) -> u16 {
        if self.thousand {
            control::SPEED_HIGH
        } else if self.hundred {
            control::SPEED_LOW
        } else {
            0
        }
    }
}

/// Default of register 0, bit 10 apart: "fastest speed, bit 12 equal to 1.3, bit 8 one only if half is not able, others zero".
pub fn derived_control(status: u16, extended: u16) -> u16 {
    let abilities = Abilities::of(status, extended);
    let negotiate = if status & status::NEGOTIATE_ABLE != 0 { control::NEGOTIATE } else { 0 };
    let duplex = if abilities.half { 0 } else { control::FULL_DUPLEX };
    abilities.fastest() | negotiate | duplex
}

/// A device event, by its code in the file.
#[derive(Clone, Copy, Debug, PartialEq, Eq)]
pub enum Event {
    LinkUp = 1,
    LinkDown = 2,
    RemoteFault = 3,
    Jabber = 4,
    Negotiated = 5,
    Restarted = 6,
    ResetDone = 7,
}

impl Event {
    pub fn from_code(code: u8) -> Option<Event> {
        Some(match code {
            1 => Event::LinkUp,
            2 => Event::LinkDown,
            3 => Event::RemoteFault,
            4 => Event::Jabber,
            5 => Event::Negotiated,
            6 => Event::Restarted,
            7 => Event::ResetDone,
            _ => return None,
        })
    }
}

/// A transceiver's registers and link.
#[derive(Clone, Debug, PartialEq, Eq)]
pub struct Phy {
    pub address: u8,
    pub implemented: u32,
    pub defaults: [u16; 32],
    pub write_masks: [u16; 32],
    pub registers: [u16; 32],
    pub link: bool,
}

impl Phy {
    /// "A load gives hunting, 0 ones, link down, defaults."
    pub fn fresh(address: u8, implemented: u32, defaults: [u16; 32], write_masks: [u16; 32]) -> Phy {
        Phy { address, implemented, defaults, write_masks, registers: defaults, link: false }
    }

    pub fn implements(&self, register: u8) -> bool {
        self.implemented >> register & 1 == 1
    }

    /// A 0 starts a frame after this many ones.
    pub fn ones_enough(&self) -> u8 {
        if self.registers[STATUS] & status::PREAMBLE_SUPPRESSION != 0 {
            1
        } else {
            PREAMBLE
        }
    }

    fn in_reset(&self) -> bool {
        self.registers[CONTROL] & control::RESET != 0
    }

    /// A read of an implemented register; of register 1 with its effect.
    pub fn read(&mut self, register: u8) -> u16 {
        let value = self.registers[usize::from(register)];
        if usize::from(register) == STATUS {
            let mut held = value & !(status::REMOTE_FAULT | status::JABBER | status::LINK);
            if self.link {
                held |= status::LINK;
            }
            self.registers[STATUS] = held;
        }
        value
    }

    /// A write; to a register that is not implemented it is ignored.
    pub fn write(&mut self, register: u8, data: u16) {
        if self.in_reset() || !self.implements(register) {
            return;
        }
        match usize::from(register) {
            CONTROL => self.write_control(data),
            STATUS => {}
            ordinary => {
                let mask = self.write_masks[ordinary];
                self.registers[ordinary] = self.registers[ordinary] & !mask | data & mask;
            }
        }
    }

    fn write_control(&mut self, data: u16) {
        if data & control::RESET != 0 {
            self.registers = self.defaults;
            self.registers[CONTROL] |= control::RESET;
            self.link = false;
            return;
        }
        let old = self.registers[CONTROL];
        let status = self.registers[STATUS];
        let abilities = Abilities::of(status, self.registers[EXTENDED]);
        let mut new = data & control::STORED;
        new |= control::SPEED & if abilities.speed_able(data) { data } else { old };
        if status & status::NEGOTIATE_ABLE != 0 {
            new |= data & control::NEGOTIATE;
        }
        if new & control::NEGOTIATE != 0 {
            new |= (old | data) & control::RESTART;
        }
        new |= match (abilities.full, abilities.half) {
            (true, true) => data & control::FULL_DUPLEX,
            (true, false) => control::FULL_DUPLEX,
            _ => 0,
        };
        if status & status::UNIDIRECTIONAL_ABLE != 0 {
            new |= data & control::UNIDIRECTIONAL;
        }
        if new & control::NEGOTIATE == 0 || data & control::RESTART != 0 {
            self.registers[STATUS] &= !status::NEGOTIATED;
        }
        self.registers[CONTROL] = new;
    }

    /// A device event. "In reset only 7 acts."
    pub fn happen(&mut self, event: Event) {
        if self.in_reset() && event != Event::ResetDone {
            return;
        }
        match event {
            Event::LinkUp => self.link = true,
            Event::LinkDown => {
                self.link = false;
                self.registers[STATUS] &= !status::LINK;
            }
            Event::RemoteFault => self.registers[STATUS] |= status::REMOTE_FAULT,
            Event::Jabber => self.registers[STATUS] |= status::JABBER,
            Event::Negotiated => {
                if self.registers[CONTROL] & (control::NEGOTIATE | control::RESTART) == control::NEGOTIATE {
                    self.registers[STATUS] |= status::NEGOTIATED;
                }
            }
            Event::Restarted => self.registers[CONTROL] &= !control::RESTART,
            Event::ResetDone => self.registers[CONTROL] &= !control::RESET,
        }
    }
}
