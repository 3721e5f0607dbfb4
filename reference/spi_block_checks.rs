//! Unit checks of SPI mode, its blocks and what is done to memory: `rustc --test main.rs`. Bytes are those of the
//! papers, checks of blocks are worked out elsewhere.

use crate::card::spi::Phase;
use crate::card::*;
use crate::checks::{bytes, frame, settings, Slot};
use crate::spi_checks::{idle, led, open, ready};

const CSD: &str = "FE002600321F598003C0004F8082400053BD70";
const UNLOCK: &str = "FE000441424344B23C";
const LOCK: &str = "FE040441424344B49D";
const SET: &str = "FE010441424344F79C";

#[test]
fn registers() {
    let mut slot = ready();
    let answer = |slot: &mut Slot, index| (slot.command(index, 0xFFFF_0000), slot.take());
    assert_eq!(answer(&mut slot, 9), ("00".into(), CSD.into()));
    assert_eq!(answer(&mut slot, 10), ("00".into(), format!("FE{}011021", "00".repeat(15))));
    assert_eq!((slot.application(51, 0), slot.take()), ("00".into(), "FE020100000000000037C7".into()));
    assert_eq!((slot.application(13, 0), slot.take()), ("0000".into(), format!("FE{}", "00".repeat(66))));
    slot.command(28, 0x4000);
    slot.over();
    assert_eq!((slot.command(30, 0), slot.take()), ("00".into(), "FE000000022042".into()));
    let cid = Cid { mid: 0x1B, oid: 0x534D, pnm: *b"00000", prv: 0x12, psn: 0x3456_7890, mdt: 0x162 };
    let mut slot = idle(Settings { cid, tmp_write_protect: true, ..settings(64) });
    slot.application(41, 0);
    assert_eq!(answer(&mut slot, 10).1, "FE1B534D303030303012345678900162C5020F");
    assert_eq!(answer(&mut slot, 9).1[..34], *"FE002600321F598003C0004F8082401061");
}

/// A write and a read with their tokens.
#[test]
fn write_and_read() {
    let mut slot = ready();
    assert_eq!(slot.command(24, 0x200), "00");
    assert_eq!(slot.give(&led(0xFC, 0x5A)), None);
    assert_eq!(slot.give(&led(0xFF, 0x5A)), None);
    assert_eq!(slot.memory[512], 7);
    assert_eq!(slot.give(&led(0xFE, 0x5A)), Some(0x05));
    assert_eq!(slot.command(13, 0), "0000");
    assert_eq!(slot.command(17, 0x200), "04");
    slot.over();
    assert_eq!(slot.command(17, 0x200), "00");
    assert_eq!(slot.take(), format!("FE{}3D1F", "5A".repeat(512)));
    assert_eq!(slot.command(12, 0), "04");
    // a part of a block, and what the start checks say
    assert_eq!(slot.command(16, 2), "00");
    assert_eq!(slot.command(17, 0x3FF), "20");
    assert_eq!((slot.command(17, 0x3FE), slot.take()), ("00".into(), "FE5A5A1ACB".into()));
    assert_eq!(slot.command(24, 0), "40");
    assert_eq!(slot.command(16, 0), "40");
    assert_eq!(slot.command(16, 512), "00");
    assert_eq!(slot.command(24, 0x8000), "40");
    assert_eq!(slot.command(24, 1), "20");
    assert_eq!(slot.command(13, 0), "0000");
}

#[test]
fn stop_token() {
    let mut slot = ready();
    assert_eq!(slot.command(25, 0x200), "00");
    assert_eq!(slot.give(&led(0xFC, 1)), Some(0x05));
    assert_eq!(slot.give(&led(0xFE, 2)), None);
    assert_eq!(slot.give(&led(0xFD, 2)), None);
    assert_eq!(slot.give(&led(0xFC, 2)), Some(0x05));
    for byte in (0..=255).filter(|&byte| byte != 0xFD) {
        let before = slot.card.clone();
        assert_eq!(slot.give(&[byte]), None);
        assert!(slot.card == before);
    }
    let before = slot.card.clone();
    assert_eq!(slot.give(&[0xFD]), None);
    assert_eq!(slot.card, Card { transfer: Transfer::None, state: State::Prg, ..before });
    assert_eq!(slot.refused(1), Refusal::Size);
    slot.over();
    assert_eq!((slot.memory[512], slot.memory[1024], slot.memory[1536]), (1, 2, 7));
    assert_eq!((slot.application(22, 0), slot.take()), ("00".into(), "FE000000022042".into()));
    // held at the end of the card: its bit shows behind it
    slot.command(25, 0x7E00);
    assert_eq!(slot.give(&led(0xFC, 3)), Some(0x05));
    assert_eq!(slot.give(&led(0xFC, 4)), None);
    assert_eq!(slot.give(&[0xFC]), None);
    assert_eq!(slot.give(&led(0xFC, 4)), None);
    assert_eq!(slot.give(&[0xFD]), None);
    slot.over();
    assert_eq!(slot.command(13, 0), "4080");
    assert_eq!(slot.command(13, 0), "0000");
    // 12 does the same, with an R1
    slot.command(25, 0);
    assert_eq!(slot.command(12, 0), "00");
    slot.over();
}

/// 12 and 0 end any transfer.
#[test]
fn transfers_ended_by_commands() {
    for (mut slot, index) in open() {
        let writes = matches!(index, 24 | 25 | 42);
        assert_eq!(slot.command(55, 0), "04");
        assert_eq!(slot.command(13, 0), "0000");
        assert_eq!(slot.command(12, 0), "00");
        assert_eq!(slot.card.phase(), if writes { Phase::Busy } else { Phase::Ready }, "{index}");
    }
    for (mut slot, _) in open() {
        assert_eq!(slot.low(0, 0), "01");
        assert_eq!((slot.card.phase(), slot.card.transfer), (Phase::Idle, Transfer::None));
    }
    let mut slot = ready();
    slot.command(29, 0);
    assert_eq!(slot.command(12, 0), "04");
    assert_eq!(slot.command(0, 0), "01");
    assert_eq!(slot.card.busy_over(&slot.memory), Err(Refusal::State));
}

/// Held reads are silent until they are ended; 0 ends them too.
#[test]
fn held_reads() {
    let mut slot = ready();
    assert_eq!(slot.command(18, 0x7E00), "00");
    assert_eq!(slot.take()[..6], *"FE0707");
    assert_eq!((slot.take(), slot.take()), (String::new(), String::new()));
    assert_eq!(slot.command(17, 0), "04");
    assert_eq!(slot.command(12, 0), "40");
    slot.command(16, 300);
    assert_eq!(slot.command(18, 0), "00");
    assert_eq!(slot.take().len(), 606);
    assert_eq!(slot.take(), "");
    assert_eq!(slot.command(13, 0), "2000");
    assert_eq!(slot.command(12, 0), "00");
}

/// With checks on a wrong one is 0Bh; with checks off it is not looked at.
#[test]
fn checks_of_blocks() {
    for crc_on in [false, true] {
        for (index, token) in [(24, 0xFE), (25, 0xFC)] {
            let mut slot = ready();
            slot.command(59, u32::from(crc_on));
            slot.command(index, 0);
            let mut block = led(token, 9);
            block[514] ^= 1;
            assert_eq!(slot.give(&block), Some(if crc_on { 0x0B } else { 0x05 }));
            assert_eq!(slot.memory[0], if crc_on { 7 } else { 9 });
            let phase = match (index, crc_on) {
                (24, true) => Phase::Ready,
                (24, false) => Phase::Busy,
                _ => Phase::Open,
            };
            assert_eq!(slot.card.phase(), phase);
            if index == 25 {
                assert_eq!(slot.give(&led(token, 9)), if crc_on { None } else { Some(0x05) });
                assert_eq!(slot.give(&[0xFD]), None);
                slot.over();
            }
            // a token is no part of what the check covers
            slot.command(12, 0);
            slot.over_if_busy();
            slot.command(index, 0);
            assert_eq!(slot.give(&led(token ^ 2, 9)), None);
            assert_eq!(slot.give(&led(token, 9)), Some(0x05));
        }
    }
}

impl Slot {
    fn over_if_busy(&mut self) {
        _ = self.card.busy_over(&self.memory);
    }
}

#[test]
fn protection() {
    let mut slot = ready();
    slot.command(28, 0x3FFF);
    slot.over();
    for index in [24, 25] {
        assert_eq!(slot.command(index, 0), "00");
        assert_eq!((slot.card.phase(), slot.refused(SPI_BLOCK)), (Phase::Ready, Refusal::State));
        assert_eq!(slot.command(16, 512), "00");
        assert_eq!(slot.command(13, 0), "0020");
        assert_eq!(slot.command(13, 0), "0000");
    }
    slot.command(29, 0);
    slot.over();
    slot.command(28, 0x4000);
    slot.over();
    slot.command(25, 0x3E00);
    assert_eq!(slot.give(&led(0xFC, 1)), Some(0x05));
    assert_eq!(slot.give(&led(0xFC, 2)), None);
    assert_eq!(slot.give(&[0xFD]), None);
    assert_eq!(slot.command(13, 0), "0020");
    assert_eq!((slot.memory[0x3E00], slot.memory[0x4000]), (1, 7));
    slot.over();
    let mut slot = idle(Settings { perm_write_protect: true, ..settings(64) });
    slot.application(41, 0);
    assert_eq!((slot.command(24, 0), slot.command(13, 0)), ("00".into(), "0020".into()));
}

#[test]
fn erase() {
    let mut slot = ready();
    assert_eq!(slot.command(33, 0), "10");
    assert_eq!(slot.command(38, 0), "10");
    assert_eq!(slot.command(32, 0x200), "00");
    assert_eq!(slot.command(13, 0), "0000");
    assert_eq!(slot.command(33, 0x8000), "40");
    assert_eq!(slot.command(33, 0x5FF), "00");
    assert_eq!(slot.command(13, 0), "0000");
    assert_eq!(slot.command(38, 0), "00");
    slot.over();
    assert!(slot.memory[..0x200] == [7; 0x200] && slot.memory[0x200..0x600] == [0; 0x400]);
    assert_eq!(slot.memory[0x600], 7);
    // a second address below the first
    slot.command(32, 0x200);
    slot.command(33, 0);
    assert_eq!((slot.command(38, 0), slot.card.phase()), ("00".into(), Phase::Ready));
    assert_eq!(slot.command(13, 0), "0040");
    // a protected group is skipped
    slot.command(28, 0);
    slot.over();
    slot.command(32, 0x3E00);
    slot.command(33, 0x4000);
    assert_eq!(slot.command(38, 0), "00");
    assert_eq!(slot.command(13, 0), "0002");
    slot.over();
    assert_eq!((slot.memory[0x3E00], slot.memory[0x4000], slot.memory[0x4200]), (7, 0, 7));
    // every other command that runs drops the marks; one that does not run leaves them
    for (index, argument) in [(8, 0x1AA), (9, 0), (10, 0), (16, 512), (17, 0), (25, 0x4000), (30, 0), (42, 0)]
        .into_iter()
        .chain([(55, 0), (58, 0), (59, 0), (18, 0), (28, 0), (29, 0), (24, 0x4000)])
    {
        let mut slot = ready();
        slot.command(32, 0);
        slot.command(33, 0);
        assert_eq!((slot.command(12, 0), slot.card.erase_end), ("04".into(), Some(0)));
        assert_eq!(slot.command(index, argument)[..2], *"02", "{index}");
        assert_eq!((slot.card.erase_start, slot.card.erase_end, slot.card.status), (None, None, 0));
    }
}

#[test]
fn lock() {
    let mut slot = ready();
    slot.command(16, 6);
    let operate = |slot: &mut Slot, block: &str| {
        assert_eq!(slot.command(42, 0), "00");
        assert_eq!(slot.give(&bytes(block)), Some(0x05));
        let r2 = slot.command(13, 0);
        slot.over();
        r2
    };
    assert_eq!(operate(&mut slot, SET), "0000");
    assert_eq!(operate(&mut slot, LOCK), "0001");
    assert_eq!(operate(&mut slot, LOCK), "0003");
    for index in [17, 18, 24, 25, 28, 29, 30, 32, 33, 38] {
        assert_eq!(slot.command(index, 0), "04", "{index}");
    }
    for index in [13, 22, 23, 51] {
        assert_eq!(slot.application(index, 0), "04", "A{index}");
    }
    assert_eq!(slot.command(58, 0), "0080FF8000");
    assert_eq!((slot.command(59, 1), slot.application(42, 0)), ("00".into(), "00".into()));
    assert_eq!((slot.command(9, 0), slot.take()), ("00".into(), CSD.into()));
    // damaged, with checks on
    slot.command(42, 0);
    assert_eq!(slot.give(&bytes("FE000441424344B23D")), Some(0x0B));
    assert_eq!((slot.card.phase(), slot.card.locked), (Phase::Ready, true));
    // 0 changes neither lock nor password
    assert_eq!(slot.command(0, 0), "01");
    assert_eq!(slot.application(41, 0), "00");
    assert_eq!(slot.command(13, 0), "0001");
    slot.command(16, 6);
    assert_eq!(operate(&mut slot, UNLOCK), "0000");
    assert_eq!(operate(&mut slot, LOCK), "0001");
    slot.command(16, 1);
    assert_eq!(operate(&mut slot, "FE088108"), "0000");
    assert!(slot.memory.iter().all(|&byte| byte == 0));
}

/// Rows 1 and 4 with a token more, and a lone byte in 25's transfers alone.
#[test]
fn refusals_of_blocks() {
    let sizes = |slot: &mut Slot, due: usize| {
        for size in [0, 1, 2, due - 1, due + 1, 514, 516].into_iter().filter(|&size| size != due) {
            assert_eq!(slot.refused(size), Refusal::Size, "{size}");
        }
    };
    for mut slot in [idle(settings(64)), ready()].into_iter().chain(open().take(8).map(|(slot, _)| slot)) {
        sizes(&mut slot, 515);
        assert_eq!(slot.refused(515), Refusal::State);
    }
    for index in [24, 42] {
        let mut slot = ready();
        slot.command(index, 0);
        sizes(&mut slot, 515);
        assert_eq!(slot.give(&led(0xFD, 0)), None);
    }
    let mut slot = ready();
    slot.command(16, 6);
    slot.command(42, 0);
    sizes(&mut slot, 9);
    assert_eq!(slot.give(&[0xFC; 9]), None);
    let mut slot = ready();
    slot.command(25, 0);
    assert_eq!(
        (slot.refused(514), slot.refused(2), slot.refused(0)),
        (Refusal::Size, Refusal::Size, Refusal::Size)
    );
    let unsound = Card { block_len: 0, ..slot.card.clone() };
    assert_eq!(unsound.clone().block_in(&[0; 3], &mut []), Err(Refusal::Unsound));
    assert_eq!(slot.card.clone().block_in(&[0; 3], &mut []), Err(Refusal::Size));
    assert_eq!(slot.card.clone().block_in(&[0xFD], &mut []), Err(Refusal::Memory));
    let mut slot = ready();
    slot.command(9, 0);
    assert_eq!(slot.card.clone().take(&[], &mut [0; 514]), Err(Refusal::Memory));
    assert_eq!(slot.card.clone().take(&slot.memory, &mut [0; 514]), Err(Refusal::Output));
    assert_eq!(slot.card.clone().take(&slot.memory, &mut [0; 515]), Ok(19));
    let reset = frame(0, 0);
    assert_eq!(slot.card.command_frame(&reset, true, &mut slot.memory, &mut [0; 16]), Err(Refusal::Output));
    assert_eq!(slot.card.command_frame(&reset[..5], true, &mut [], &mut []), Err(Refusal::Size));
}
