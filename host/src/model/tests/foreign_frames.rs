//! Document 02, E2: frames of Clause 45 gear, which start 00, on the wire of our PHYs.

use super::*;
use crate::make::levels;
use crate::random::Random;

/// Status words of a part that accepts suppressed preambles, bit 1.6, and of one that does not.
const ONE_IS_ENOUGH: u16 = 0x7849;
const ALL_32_ARE_NEEDED: u16 = 0x7809;

/// Each kind of part, and the ones that let a 0 start a frame.
const PARTS: [(u16, usize); 2] = [(ONE_IS_ENOUGH, 1), (ALL_32_ARE_NEEDED, 32)];

/// A part whose registers 16 to 31 take any word.
fn part(address: u8, status: u16) -> Vec<u8> {
    phy(address, 0xFFFF0003, &[(0, 0x3000), (1, status)], &std::array::from_fn::<_, 16, _>(|k| (16 + k, 0xFFFF)))
}

/// The log of a board's next clocks.
fn clocked(board: &mut Board, steps: &[u8], events: &[u8]) -> Vec<[u8; 5]> {
    let mut log = vec![9; 5 * steps.len()];
    run(board, steps, events, &mut log).unwrap();
    log.as_chunks().0.to_vec()
}

fn anyone_drives(log: &[[u8; 5]]) -> bool {
    log.iter().any(|clock| clock[1..] != [0; 4])
}

/// The Clause 45 write of 0ABC to port 10, device 3. From the port's first bit on, after the op's 1, it looks like a write of ours to
/// register 24 of the PHY at address 1, which four ones behind the frame make whole.
#[expect(clippy::unusual_byte_groupings, reason = "the groups are the frame's fields")]
const CLAUSE_45_WRITE: u32 = 0b00_01_01010_00011_10_0000101010111100;

#[test]
fn a_payload_that_looks_like_a_write_is_not_stored() {
    let levels = [levels(1, CLAUSE_45_WRITE), vec![1; 4]].concat();
    let after = |levels: &[u8]| {
        let mut board = Board::load(&part(1, ONE_IS_ENOUGH)).unwrap();
        assert!(!anyone_drives(&clocked(&mut board, levels, &[])));
        board.phys[0].registers[24]
    };
    assert_eq!(after(&levels), 0);
    assert_eq!(after(&levels[3..]), 0xABCF, "without the start of 00 it is a write");
}

/// A board with a part at every address, each with latches that a read of its status would clear.
fn full_board(status: u16) -> Board {
    let file: Vec<u8> = (0..32).flat_map(|address| part(address, status)).collect();
    let mut board = Board::load(&file).unwrap();
    let latches = |address| [event(0, address, LINK_UP), event(0, address, REMOTE_FAULT)].concat();
    clocked(&mut board, &[], &(0..32).flat_map(latches).collect::<Vec<u8>>());
    board
}

#[test]
fn a_frame_that_starts_00_drives_nothing_stores_nothing_and_ends_in_hunting_with_0_ones() {
    let mut random = Random::new(7);
    for (status, enough) in PARTS {
        let before = full_board(status);
        let mut would_be_taken = 0;
        for _ in 0..5_000 {
            let others = random.number() as u32 & 0x3FFF_FFFF;
            let mut board = before.clone();
            assert!(!anyone_drives(&clocked(&mut board, &levels(enough, others), &[])), "{others:08X}");
            assert!(board == before, "{others:08X}");
            let driven = anyone_drives(&clocked(&mut board, &levels(enough, 1 << 30 | others), &[]));
            would_be_taken += usize::from(driven || board != before);
        }
        assert!(would_be_taken > 1_000, "only {would_be_taken} of the frames would be taken if they started 01");
    }
}

#[test]
fn after_a_frame_that_starts_00_a_preamble_and_a_frame_of_ours_are_taken() {
    for (status, enough) in PARTS {
        for others in [CLAUSE_45_WRITE, 0x0000_FFFF, 0x3FFF_FFFF] {
            let stored_after = |ones| {
                let mut board = Board::load(&part(1, status)).unwrap();
                let ours = records::Transaction { write: true, address: 1, register: 24, data: 0xBEEF };
                clocked(&mut board, &[levels(enough, others), levels(ones, ours.frame())].concat(), &[]);
                board.phys[0].registers[24]
            };
            assert_eq!(stored_after(enough - 1), 0, "{others:08X} and too few ones");
            assert_eq!(stored_after(enough), 0xBEEF, "{others:08X}");
        }
    }
}
