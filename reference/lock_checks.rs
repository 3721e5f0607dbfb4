//! Unit checks of the lock: `rustc --test main.rs`. Blocks and their checks are worked out by hand elsewhere.

use crate::card::*;
use crate::checks::{bytes, settings, Slot};
use crate::lines::Bench;

const ABCD: &[u8] = b"ABCD";

const SET: &str = "010441424344F79C";
const SET_AND_LOCK: &str = "050441424344F13D";
const UNLOCK: &str = "000441424344B23C";
const CLEAR: &str = "020441424344397C";
const LOCK: &str = "040441424344B49D";
const REPLACE: &str = "0106414243445859E44A";
const FORCE_ERASE: &str = "088108";

fn password(content: &[u8]) -> Password {
    Password::new(content).unwrap()
}

fn no_password() -> Password {
    Password::default()
}

/// In tran, with a password or none.
fn tran(content: &[u8], locked: bool) -> Slot {
    let mut slot = Slot::new(settings(64)).select();
    slot.memory.fill(7);
    slot.card.settings.password = Password::new(content).unwrap_or_default();
    slot.card.locked = locked;
    slot
}

fn sealed(payload: &[u8]) -> Vec<u8> {
    [payload, &crc16(payload).to_be_bytes()].concat()
}

/// A block for a password: flags, PWDS_LEN and the password.
fn operation(flags: u8, data: &[u8]) -> Vec<u8> {
    [&[flags, data.len() as u8], data].concat()
}

impl Slot {
    fn status(&mut self) -> u32 {
        let r1 = self.command(13, u32::from(self.card.rca) << 16);
        u32::from_str_radix(&r1[2..10], 16).unwrap()
    }

    fn lock(&self) -> (Password, bool) {
        (self.card.settings.password, self.card.locked)
    }

    fn send(&mut self, packet: &[u8]) -> CrcStatus {
        self.command(16, packet.len() as u32 - 2);
        self.command(42, 0);
        self.card.block_in(packet, &mut self.memory).unwrap()
    }

    /// Sends a block with a right check, and says whether its operation was done.
    fn done(&mut self, payload: &[u8]) -> bool {
        let before = self.card.clone();
        assert_eq!(self.send(&sealed(payload)), CrcStatus::Accepted);
        assert_eq!((self.card.state, self.card.transfer), (State::Prg, Transfer::None));
        let failed = self.card.status & LOCK_UNLOCK_FAILED != 0;
        if failed {
            assert_eq!((self.card.settings, self.card.locked), (before.settings, before.locked));
            assert_eq!(self.card.write_prot, before.write_prot);
            assert!(self.memory.iter().all(|&byte| byte == 7));
        }
        self.card.busy_over(&self.memory).unwrap();
        self.card.status = 0;
        !failed
    }

    /// A published block with its check.
    fn sent(&mut self, packet: &str) -> bool {
        let packet = bytes(packet);
        assert_eq!(sealed(&packet[..packet.len() - 2]), packet);
        self.done(&packet[..packet.len() - 2])
    }
}

#[test]
fn published_blocks() {
    let mut slot = tran(b"", false);
    assert!(slot.sent(SET));
    assert_eq!(slot.lock(), (password(ABCD), false));
    assert!(slot.sent(LOCK));
    assert_eq!(slot.lock(), (password(ABCD), true));
    assert!(!slot.sent(LOCK));
    assert!(slot.sent(UNLOCK));
    assert_eq!(slot.lock(), (password(ABCD), false));
    assert!(!slot.sent(UNLOCK));
    assert!(!slot.sent(FORCE_ERASE));
    assert!(slot.sent(REPLACE));
    assert_eq!(slot.lock(), (password(b"XY"), false));
    assert!(!slot.sent(CLEAR));
    assert!(slot.done(&operation(2, b"XY")));
    assert_eq!(slot.lock(), (no_password(), false));
    assert!(slot.sent(SET_AND_LOCK));
    assert_eq!(slot.lock(), (password(ABCD), true));
    assert!(!slot.sent("1FE3DE"));
    assert!(slot.sent("189339"));
    assert_eq!(slot.lock(), (no_password(), false));
    assert!(slot.memory.iter().all(|&byte| byte == 0));
}

/// From a locked card: replacing unlocks or stays locked, clearing unlocks.
#[test]
fn locked_card_operations() {
    let mut slot = tran(ABCD, true);
    assert!(slot.sent(REPLACE));
    assert_eq!(slot.lock(), (password(b"XY"), false));
    let mut slot = tran(ABCD, true);
    assert!(slot.done(&operation(5, b"ABCDXY")));
    assert_eq!(slot.lock(), (password(b"XY"), true));
    assert!(slot.done(&operation(2, b"XY")));
    assert_eq!(slot.lock(), (no_password(), false));
}

/// What the data of a block has to do with the password ABCD, if that is set.
#[derive(Clone, Copy, Debug, PartialEq)]
enum Data {
    Right,
    RightAndNew,
    Other,
    Empty,
}

const DATA: [(Data, &[u8]); 4] =
    [(Data::Right, ABCD), (Data::RightAndNew, b"ABCDXY"), (Data::Other, b"ABCE"), (Data::Empty, b"")];

/// Each combination of the flags, with each of the reserved bits, on every kind of card.
#[test]
fn combinations() {
    for flags in 0..=255u8 {
        for (is_set, locked) in [(false, false), (true, false), (true, true)] {
            for (data, content) in DATA {
                let (old, new) = (is_set && data == Data::Right, is_set && data == Data::RightAndNew);
                let sets = new || !is_set && data != Data::Empty;
                let expected = match flags & 15 {
                    8 => locked.then_some((false, false)),
                    4 => (old && !locked).then_some((true, true)),
                    0 => (old && locked).then_some((true, false)),
                    2 => old.then_some((false, false)),
                    1 => sets.then_some((true, false)),
                    5 => sets.then_some((true, true)),
                    _ => None,
                };
                let mut slot = tran(if is_set { ABCD } else { b"" }, locked);
                let done = slot.done(&operation(flags, content));
                let now = (slot.card.settings.password.is_set(), slot.card.locked);
                let case = format!("{flags:02X} set {is_set} locked {locked} {data:?}");
                assert_eq!(done.then_some(now), expected, "{case}");
                assert_eq!(slot.memory[0], if flags & 15 == 8 && locked { 0 } else { 7 }, "{case}");
            }
        }
    }
}

/// The failure shows in the next R1 and in no later one; the R1 to 42 has only the lock.
#[test]
fn wrong_password_shows_once() {
    let mut slot = tran(ABCD, true);
    slot.command(16, 6);
    assert_eq!(slot.command(42, 0)[2..10], *"02000900");
    assert_eq!(slot.card.block_in(&sealed(b"\0\x04ABCE"), &mut slot.memory), Ok(CrcStatus::Accepted));
    assert_eq!(slot.command(7, 0), "");
    assert_eq!(slot.status(), 0x0300_1000);
    assert_eq!(slot.status(), 0x0200_1000);
    assert!(slot.card.locked);
}

/// R2 and R6 carry neither bit.
#[test]
fn failure_waits_for_r1() {
    let mut slot = tran(ABCD, true);
    slot.send(&sealed(b"\0\x01A"));
    slot.card.busy_over(&slot.memory).unwrap();
    slot.command(7, 0);
    assert_eq!(slot.command(3, 0)[..10], *"0300020700");
    slot.command(9, 0x2_0000);
    assert_eq!(slot.status(), 0x0300_0700);
    assert_eq!(slot.status(), 0x0200_0700);
}

#[test]
fn passwords_are_compared_whole() {
    let long = b"0123456789ABCDEF";
    for length in 1..=16 {
        let stored = &long[..length];
        for flags in [0, 2] {
            for prefix in 0..length {
                assert!(
                    !tran(stored, true).done(&operation(flags, &stored[..prefix])),
                    "{prefix} of {length}"
                );
            }
            assert!(!tran(stored, true).done(&operation(flags, &[stored, b"G"].concat())));
            assert!(!tran(stored, true).done(&operation(flags, &[stored, b"\0"].concat())));
            for place in 0..length {
                let mut other = stored.to_vec();
                other[place] ^= 0x80 >> (place % 8);
                assert!(!tran(stored, true).done(&operation(flags, &other)), "byte {place} of {length}");
            }
            assert!(tran(stored, true).done(&operation(flags, stored)));
            // the rest of the block is ignored
            assert!(tran(stored, true).done(&[operation(flags, stored), vec![9; 300]].concat()));
        }
    }
}

/// Bytes behind the password's length, which a record may have, count for nothing and go.
#[test]
fn nothing_behind_a_password() {
    let mut slot = tran(ABCD, true);
    slot.card.settings.password.bytes[4..].fill(9);
    assert!(slot.card.is_sound());
    assert!(slot.sent(UNLOCK));
    assert!(slot.done(&operation(1, b"ABCDX")));
    assert_eq!(slot.lock(), (password(b"X"), false));
    assert_eq!(slot.card.settings.password.bytes[1..], [0; 15]);

    let handed = Password { bytes: [9; 16], length: 3 };
    let slot = Slot::new(Settings { password: handed, ..settings(64) });
    assert_eq!(slot.lock(), (password(&[9; 3]), true));
    let handed = Password { bytes: [9; 16], length: 0 };
    assert_eq!(Slot::new(Settings { password: handed, ..settings(64) }).lock(), (no_password(), false));
}

#[test]
fn new_passwords() {
    let long = [0x55; 255];
    for old in [0, 1, 4, 16] {
        for new in 0..=33 {
            for (flags, locked) in [(1, false), (5, false), (1, true), (5, true)] {
                if old == 0 && locked {
                    continue;
                }
                let mut slot = tran(&long[..old], locked);
                let done = slot.done(&operation(flags, &long[..old + new]));
                assert_eq!(done, (1..=16).contains(&new), "{old} and {new}");
                if done {
                    assert_eq!(slot.lock(), (password(&long[..new]), flags == 5));
                }
            }
        }
    }
    assert!(!tran(b"", false).done(&operation(1, &long)));
}

/// 42's blocks of 1 to 6 bytes and the set length: what is not there cannot match.
#[test]
fn short_blocks() {
    for (flags, content, locked) in
        [(0, ABCD, true), (2, ABCD, true), (4, ABCD, false), (1, b"ABCDX", false), (5, b"ABCDX", true)]
    {
        let whole = operation(flags, content);
        for size in 1..whole.len() {
            assert!(!tran(ABCD, locked).done(&whole[..size]), "{flags} with {size}");
        }
        assert!(tran(ABCD, locked).done(&whole));
    }
    // PWDS_LEN says more than there is, though the password is
    assert!(!tran(ABCD, true).done(b"\0\x05ABCD"));
    // force erase looks at nothing but its first byte
    for block in [&b"\x08"[..], b"\x08\xFF", b"\xF8\x04ABCD", b"\x08\0"] {
        assert!(tran(ABCD, true).done(block));
        assert!(!tran(ABCD, false).done(block));
    }
}

#[test]
fn force_erase() {
    for (perm_write_protect, tmp_write_protect, marked) in
        [0, 1, 2, 3, 4, 5, 6, 7].map(|i| (i & 1 != 0, i & 2 != 0, i & 4 != 0))
    {
        let mut slot = tran(ABCD, true);
        let settings = Settings { perm_write_protect, tmp_write_protect, ..slot.card.settings };
        slot.card.settings = settings;
        slot.card.write_prot[0] = if marked { 3 } else { 0 };
        assert_eq!(slot.sent(FORCE_ERASE), !perm_write_protect);
        if perm_write_protect {
            assert_eq!(slot.lock(), (password(ABCD), true));
            continue;
        }
        assert_eq!(slot.card.settings, Settings { tmp_write_protect: false, ..self::settings(64) });
        assert_eq!((slot.card.locked, slot.card.write_prot), (false, [0; 256]));
        assert!(slot.memory.iter().all(|&byte| byte == 0));
        slot.command(16, 512);
        assert_eq!(slot.command(24, 0), "18000009005D");
        assert_eq!(slot.block(1), CrcStatus::Accepted);
        slot.card.busy_over(&slot.memory).unwrap();
        slot.command(7, 0);
        assert_eq!(slot.command(9, 0x1_0000), "3F002600321F598003C0004F8082400053");
    }
}

/// Set, clear and lock look at no write protection.
#[test]
fn protected_cards_take_passwords() {
    let protected = Settings { perm_write_protect: true, tmp_write_protect: true, ..settings(64) };
    let mut slot = Slot::new(protected).select();
    slot.memory.fill(7);
    assert!(slot.sent(SET_AND_LOCK) && slot.sent(UNLOCK) && slot.sent(LOCK) && slot.sent(CLEAR));
    assert_eq!(slot.card.settings, protected);
}

const ILLEGAL: [u8; 10] = [17, 18, 24, 25, 28, 29, 30, 32, 33, 38];

#[test]
fn locked_column() {
    for index in ILLEGAL {
        let mut slot = tran(ABCD, true);
        assert_eq!(slot.command(index, 0), "", "{index}");
        assert_eq!((slot.status(), slot.status()), (0x0240_0900, 0x0200_0900));
        slot.card.locked = false;
        assert_ne!(slot.command(index, 0), "");
    }
    for (index, runs) in [(13, false), (22, false), (23, false), (42, true), (51, false)] {
        let mut slot = tran(ABCD, true);
        assert_eq!(slot.command(55, 0x1_0000)[2..10], *"02000920");
        let expected = if runs { "02000920" } else { "" };
        assert_eq!(slot.command(index, 0).get(2..10).unwrap_or(""), expected, "A{index}");
        assert!(!slot.card.app_mark && slot.card.state == State::Tran);
    }
    // every row of class 0, 16 and 42
    let mut slot = Slot::new(Settings { password: password(ABCD), start_polls: 1, ..settings(64) });
    assert_eq!(slot.command(0, 0), "");
    assert_eq!(slot.command(8, 0x1AA), "08000001AA13");
    slot = slot.select();
    assert_eq!(slot.status(), 0x0200_0900);
    assert_eq!(slot.command(16, 6)[2..10], *"02000900");
    assert_eq!(slot.command(16, 0)[2..10], *"22000900");
    assert_eq!(slot.command(42, 0)[2..10], *"02000900");
    assert_eq!(slot.command(12, 0)[2..10], *"02000D00");
    assert_eq!(slot.command(7, 0), "");
    assert_eq!(slot.command(7, 0x1_0000)[2..10], *"02001000");
    slot.card.busy_over(&slot.memory).unwrap();
    assert_eq!(slot.command(7, 0), "");
    assert!(slot.command(9, 0x1_0000).starts_with("3F00260032") && slot.command(10, 0x1_0000).len() == 34);
    assert_eq!(slot.command(3, 0)[..10], *"0300020700");
    assert_eq!(slot.command(15, 0x2_0000), "");
    assert_eq!(slot.card.state, State::Ina);
}

#[test]
fn power_up_and_reset() {
    let mut slot = Slot::new(Settings { password: password(ABCD), ..settings(64) }).select();
    assert_eq!(slot.lock(), (password(ABCD), true));
    slot.command(0, 0);
    assert_eq!(slot.lock(), (password(ABCD), true));
    let mut slot = slot.select();
    slot.memory.fill(7);
    assert!(slot.sent(UNLOCK));
    slot.command(0, 0);
    assert_eq!(slot.lock(), (password(ABCD), false));

    let memory = [0; 4 * BLOCK];
    let refused = |length, count| {
        let password = Password { bytes: [0; 16], length };
        Card::power_up(Settings { password, ..settings(count) }, &memory).err()
    };
    assert_eq!((refused(0, 4), refused(1, 4), refused(16, 4)), (None, None, None));
    assert_eq!((refused(17, 4), refused(255, 4)), (Some(Refusal::Setting), Some(Refusal::Setting)));
    assert_eq!(refused(17, 8), Some(Refusal::Memory));
}

#[test]
fn unsound_locks() {
    let judge = |change: &dyn Fn(&mut Card)| {
        let mut card = tran(ABCD, true).card;
        change(&mut card);
        card.is_sound()
    };
    assert!(judge(&|_| ()));
    assert!(judge(&|card| card.locked = false));
    assert!(!judge(&|card| card.settings.password.length = 0));
    assert!(judge(&|card| (card.locked, card.settings.password.length) = (false, 0)));
    assert!(judge(&|card| card.settings.password.length = 16));
    assert!(!judge(&|card| card.settings.password.length = 17));
    assert!(!judge(&|card| (card.locked, card.settings.password.length) = (false, 17)));
    // 42's transfer has no address: A22's count has only the card's bound
    let rcv = |count| {
        judge(&|card| {
            (card.state, card.transfer, card.num_wr_blocks) = (State::Rcv, Transfer::LockUnlock, count)
        })
    };
    assert!(rcv(0) && rcv(64) && !rcv(65));
    assert!(!judge(&|card| card.transfer = Transfer::LockUnlock));
    assert!(!judge(&|card| (card.state, card.transfer) = (State::Data, Transfer::LockUnlock)));
    // a locked card may have any transfer open, though no history leads there
    assert!(judge(&|card| (card.state, card.transfer) = (State::Data, Transfer::SdStatus)));
}

/// Rows 2, 1, 3, 5, and the size that is due.
#[test]
fn block_refusals_come_in_order() {
    let mut open = tran(ABCD, true);
    open.command(16, 6);
    open.command(42, 0xFFFF_FFFF);
    let refused = |card: &Card, size: usize, blocks: usize| {
        let mut after = card.clone();
        let answer = after.block_in(&vec![0; size], &mut vec![7; blocks * BLOCK]);
        assert!(answer.is_ok() || after == *card);
        answer.err()
    };
    let mut unsound = open.card.clone();
    unsound.settings.password.length = 0;
    assert_eq!(refused(&unsound, 7, 1), Some(Refusal::Unsound));
    assert_eq!(refused(&unsound, 8, 1), Some(Refusal::Unsound));
    assert_eq!(refused(&open.card, 7, 1), Some(Refusal::Size));
    assert_eq!(refused(&open.card, 514, 64), Some(Refusal::Size));
    assert_eq!(refused(&open.card, 8, 1), Some(Refusal::Memory));
    assert_eq!(refused(&open.card, 8, 64), None);
    // in no transfer, and in one of memory, the set length does not matter
    let mut slot = tran(ABCD, false);
    slot.command(16, 6);
    assert_eq!(refused(&slot.card, 8, 64), Some(Refusal::Size));
    assert_eq!(refused(&slot.card, 514, 64), Some(Refusal::State));
    (slot.card.state, slot.card.transfer) =
        (State::Rcv, Transfer::Write { multiple: false, address: 0, held: false });
    assert_eq!(refused(&slot.card, 8, 64), Some(Refusal::Size));
    assert_eq!(refused(&slot.card, 514, 64), None);
}

/// 101 and back to tran, and nothing else, whichever bit it was.
#[test]
fn damaged_blocks() {
    for (packet, locked) in
        [(UNLOCK, true), (FORCE_ERASE, true), (CLEAR, true), (LOCK, false), (REPLACE, false)]
    {
        let packet = bytes(packet);
        for bit in 0..8 * packet.len() {
            let mut slot = tran(ABCD, locked);
            slot.command(16, packet.len() as u32 - 2);
            let before = slot.card.clone();
            slot.command(42, 0);
            let mut damaged = packet.clone();
            damaged[bit / 8] ^= 0x80 >> (bit % 8);
            assert_eq!(slot.card.block_in(&damaged, &mut slot.memory), Ok(CrcStatus::Rejected));
            assert!(slot.card == before && slot.memory.iter().all(|&byte| byte == 7), "bit {bit}");
        }
    }
}

#[test]
fn lengths() {
    for size in 1..=512 {
        let mut block = vec![9; size];
        block[0] = 8;
        assert!(tran(ABCD, true).done(&block), "{size}");
        let mut block = [operation(0, ABCD), vec![9; 512]].concat();
        block.truncate(size);
        assert_eq!(tran(ABCD, true).done(&block), size >= 6, "{size}");
    }
}

/// A22 counts the blocks of the last write, whatever 42 does after it.
#[test]
fn a22_stays() {
    let mut slot = tran(b"", false);
    slot.command(25, 0x200);
    (0..3).for_each(|_| assert_eq!(slot.block(7), CrcStatus::Accepted));
    slot.command(12, 0);
    slot.card.busy_over(&slot.memory).unwrap();
    assert!(slot.sent(SET_AND_LOCK) && !slot.sent(LOCK) && slot.sent(CLEAR));
    slot.command(42, 0);
    slot.command(12, 0);
    slot.card.busy_over(&slot.memory).unwrap();
    slot.command(42, 0);
    assert_eq!(slot.send_damaged(), CrcStatus::Rejected);
    slot.command(55, 0x1_0000);
    slot.command(22, 0);
    assert_eq!(slot.take(), "000000033063");
}

impl Slot {
    /// A block of the set length with a wrong check.
    fn send_damaged(&mut self) -> CrcStatus {
        let mut packet = sealed(&vec![0; self.card.block_len as usize]);
        packet[0] ^= 1;
        self.card.block_in(&packet, &mut self.memory).unwrap()
    }
}

#[test]
fn erase_marks_fall() {
    let mut slot = tran(b"", false);
    slot.command(32, 0);
    slot.command(33, 0x200);
    assert_eq!(slot.command(42, 0)[2..10], *"00002900");
    assert_eq!((slot.card.erase_start, slot.card.erase_end), (None, None));
}

/// After 55 index 42 is A42, which opens nothing.
#[test]
fn index_42_after_55() {
    let mut slot = tran(b"", false);
    slot.command(55, 0x1_0000);
    assert_eq!(slot.command(42, 0)[2..10], *"00000920");
    assert_eq!((slot.card.state, slot.card.transfer), (State::Tran, Transfer::None));
    assert_eq!(slot.command(42, 0)[2..10], *"00000900");
    assert_eq!((slot.card.state, slot.card.transfer), (State::Rcv, Transfer::LockUnlock));
    assert_eq!(slot.command(55, 0x1_0000)[2..10], *"00000D20");
    assert_eq!(slot.command(42, 0), "");
}

/// A sound record with a write of memory open on a locked card: the block goes on as it would.
#[test]
fn unreached_write_while_locked() {
    let mut slot = tran(ABCD, true);
    (slot.card.state, slot.card.transfer) =
        (State::Rcv, Transfer::Write { multiple: false, address: 512, held: false });
    assert_eq!(slot.block(3), CrcStatus::Accepted);
    assert_eq!((slot.memory[511], slot.memory[512], slot.memory[1024]), (7, 3, 7));
    slot.card.busy_over(&slot.memory).unwrap();
    (slot.card.state, slot.card.transfer) =
        (State::Data, Transfer::Read { multiple: false, address: 512, held: false });
    assert_eq!(slot.take()[..4], *"0303");
}

/// The console's line: two fields more than before, both needed.
#[test]
fn power_lines() {
    let mut bench = Bench::console();
    let line = |rest: &str| format!("power 00000040 00 {} 00{rest}", "0".repeat(30)).replace(' ', "\t");
    let password = "41424344000000000000000000000000";
    let mut answer =
        |rest: String| String::from_utf8_lossy(bench.answer(line(&rest).as_bytes())).into_owned();
    assert_eq!(answer(format!(" 04 {password}")), "none\n");
    assert_eq!(answer(format!(" 10 {password}")), "none\n");
    assert_eq!(answer(format!(" 11 {password}")), "ref\t6\n");
    assert_eq!(answer(format!(" FF {password}")), "ref\t6\n");
    for unreadable in
        ["", " 04", " 04 ", " 4 41", " 04 41424344", " 004 X", " 04 X0", " 04 X ", "  X", " 0g X", " 04 X 00"]
    {
        assert_eq!(answer(unreadable.replace('X', password)), "ref\t1\n", "{unreadable}");
    }
}
