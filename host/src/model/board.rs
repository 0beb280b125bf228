//! The board file: up to 32 PHYs, each record checked against those before it.

use super::phy::{control, derived_control, status, Phy, CONTROL, EXTENDED, STATUS};
use super::records::{records, word, Refusal, BOARD_RECORD, MOST_PHYS};
use super::wire::Party;

/// The PHYs in the file's order, and where each stands in the frames on the wire.
#[derive(Clone, Debug, PartialEq, Eq)]
pub struct Board {
    pub phys: Vec<Phy>,
    pub parties: Vec<Party>,
    /// The place of the PHY at an address, for the 32 addresses.
    places: [Option<u8>; 32],
}

impl Board {
    pub fn load(file: &[u8]) -> Result<Board, Refusal> {
        let records = records(file, MOST_PHYS)?;
        let mut board = Board { phys: Vec::with_capacity(MOST_PHYS), parties: Vec::with_capacity(MOST_PHYS), places: [None; 32] };
        for (index, record) in records.iter().enumerate() {
            let phy = board.next_phy(record).map_err(|number| Refusal { number, index })?;
            board.places[usize::from(phy.address)] = Some(index as u8);
            board.parties.push(Party::hunting(&phy));
            board.phys.push(phy);
        }
        Ok(board)
    }

    /// Where the PHY with this address stands, if there is one.
    pub fn place(&self, address: u8) -> Option<usize> {
        self.places.get(usize::from(address))?.map(usize::from)
    }

    /// The PHY of one record: "address, a zero byte, implemented mask, 32 defaults, 32 write masks".
    fn next_phy(&self, record: &[u8; BOARD_RECORD]) -> Result<Phy, u8> {
        let [address, zero, m3, m2, m1, m0, words @ ..] = record;
        if *address > 31 || *zero != 0 {
            return Err(Refusal::FIELD);
        }
        if self.place(*address).is_some() {
            return Err(Refusal::REPEATED_ADDRESS);
        }
        let (defaults, write_masks) = words.split_at(64);
        let phy = Phy::fresh(*address, u32::from_be_bytes([*m3, *m2, *m1, *m0]), words_of(defaults), words_of(write_masks));
        if !register_set_right(&phy) {
            return Err(Refusal::REGISTER_SET);
        }
        if !defaults_right(&phy) {
            return Err(Refusal::DEFAULT);
        }
        Ok(phy)
    }
}

fn words_of(bytes: &[u8]) -> [u16; 32] {
    std::array::from_fn(|register| word(bytes[2 * register], bytes[2 * register + 1]))
}

/// Check 5: "registers 0 and 1 implemented, 13 and 14 not; 15 implemented exactly if default bit 1.8 is one; bit 1.0 one exactly
/// if any other register above 1, 15 apart, is implemented".
fn register_set_right(phy: &Phy) -> bool {
    const BASIC: u32 = 0x0000_0003;
    const INDIRECT: u32 = 0x0000_6000;
    const EXTENDED_STATUS: u32 = 0x0000_8000;
    let set = phy.implemented;
    let status = phy.defaults[STATUS];
    set & BASIC == BASIC
        && set & INDIRECT == 0
        && (set & EXTENDED_STATUS != 0) == (status & status::EXTENDED_STATUS != 0)
        && (set & !(BASIC | INDIRECT | EXTENDED_STATUS) != 0) == (status & status::EXTENDED_REGISTERS != 0)
}

/// Check 6: "unimplemented registers have default and mask zero; masks of 0, 1, 2, 3, 15 zero; default 1.5, 1.4, 1.2, 1.1 zero;
/// 15.11:0 zero; at least one ability; default of 0 as derived, bit 10 free".
fn defaults_right(phy: &Phy) -> bool {
    let unimplemented_zero =
        (0..32).all(|r| phy.implements(r) || phy.defaults[usize::from(r)] == 0 && phy.write_masks[usize::from(r)] == 0);
    let status = phy.defaults[STATUS];
    let extended = phy.defaults[EXTENDED];
    unimplemented_zero
        && [0, 1, 2, 3, 15].iter().all(|&register: &usize| phy.write_masks[register] == 0)
        && status & status::MOVING == 0
        && extended & 0x0FFF == 0
        && (status & status::ABILITIES != 0 || extended != 0)
        && phy.defaults[CONTROL] & !control::ISOLATE == derived_control(status, extended)
}
