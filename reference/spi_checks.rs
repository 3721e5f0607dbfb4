//! Unit checks of SPI mode, its frames and responses: `rustc --test main.rs`. Bytes are those of the papers.

use crate::card::spi::Phase;
use crate::card::*;
use crate::checks::{bytes, frame, hex, settings, Slot};
use crate::lines::Bench;

impl Slot {
    pub fn low(&mut self, index: u8, argument: u32) -> String {
        self.frame(&frame(index, argument), true)
    }

    /// The frame with these bits flipped, bit 0 is sent first.
    fn damaged(&mut self, index: u8, argument: u32, bits: &[usize]) -> String {
        let mut frame = frame(index, argument);
        bits.iter().for_each(|bit| frame[bit / 8] ^= 0x80 >> (bit % 8));
        self.frame(&frame, false)
    }

    pub fn application(&mut self, index: u8, argument: u32) -> String {
        assert_eq!(self.command(55, 0), if self.card.phase() == Phase::Idle { "01" } else { "00" });
        self.command(index, argument)
    }

    pub fn give(&mut self, block: &[u8]) -> Option<u8> {
        self.card.block_in(block, &mut self.memory).unwrap().token()
    }

    pub fn refused(&mut self, size: usize) -> Refusal {
        let before = self.card.clone();
        let refusal = self.card.block_in(&vec![0xFD; size], &mut self.memory).unwrap_err();
        assert!(self.card == before);
        refusal
    }

    pub fn over(&mut self) {
        assert_eq!(self.card.phase(), Phase::Busy);
        self.card.busy_over(&self.memory).unwrap();
        assert_eq!(self.card.phase(), Phase::Ready);
    }
}

pub fn idle(settings: Settings) -> Slot {
    let mut slot = Slot::new(settings);
    assert_eq!(slot.low(0, 0), "01");
    slot
}

/// Initialized, with memory of sevens.
pub fn ready() -> Slot {
    let mut slot = idle(settings(64));
    assert_eq!(slot.application(41, 0), "00");
    slot.memory.fill(7);
    slot
}

/// Behind a token, with a right check.
pub fn led(token: u8, byte: u8) -> Vec<u8> {
    let payload = [byte; BLOCK];
    [&[token][..], &payload, &crc16(&payload).to_be_bytes()].concat()
}

const KINDS: [(u8, u32, bool); 11] = [
    (17, 0, false),
    (18, 0, false),
    (30, 0, false),
    (9, 0, false),
    (10, 0, false),
    (13, 0, true),
    (22, 0, true),
    (51, 0, true),
    (24, 0, false),
    (25, 0, false),
    (42, 0, false),
];

/// A card with each kind of transfer open.
pub fn open() -> impl Iterator<Item = (Slot, u8)> {
    KINDS.into_iter().map(|(index, argument, application)| {
        let mut slot = ready();
        let r1 = if application { slot.application(index, argument) } else { slot.command(index, argument) };
        assert_eq!((&r1[..2], slot.card.phase()), ("00", Phase::Open));
        (slot, index)
    })
}

#[test]
fn bring_up() {
    let mut slot = Slot::new(Settings { start_polls: 2, ..settings(64) });
    assert_eq!(slot.low(0, 0), "01");
    assert_eq!(slot.command(8, 0x1AA), "01000001AA");
    assert_eq!(slot.command(8, 0xFFFF_F1AA), "01000001AA");
    assert_eq!(slot.command(8, 0x2AA), "01000000AA");
    assert_eq!(slot.command(8, 0x355), "0100000055");
    assert_eq!(slot.command(58, 0), "0100FF8000");
    assert_eq!(slot.command(59, 1), "01");
    // no window is looked at
    assert_eq!(slot.application(41, 0), "01");
    assert_eq!(slot.application(41, 0x4000_0000), "01");
    assert_eq!(slot.application(41, 1), "00");
    assert_eq!(slot.command(58, 0), "0080FF8000");
    assert_eq!(slot.command(8, 0x1AA), "00000001AA");
    assert_eq!(slot.application(41, 0), "00");
    assert_eq!(slot.command(13, 0x1234_0000), "0000");
    assert_eq!((slot.card.rca, slot.card.mode), (0, Mode::Spi { crc_on: true }));
    // 0 refills the polls and turns the checks off, whatever chip select is
    assert_eq!(slot.command(0, 0), "01");
    assert_eq!((slot.card.polls_left, slot.card.mode), (2, Mode::Spi { crc_on: false }));
    let card = Card::power_up(slot.card.settings, &slot.memory).unwrap();
    assert_eq!(card.mode, Mode::Sd);
}

/// A slot in SD mode, led to a state by commands.
fn led_to(state: State) -> Slot {
    let mut slot = Slot::new(settings(64));
    let way: &[(u8, u32)] = match state {
        State::Idle => &[],
        State::Ready => &[(55, 0), (41, 0x00FF_8000)],
        State::Ident => &[(55, 0), (41, 0x00FF_8000), (2, 0)],
        State::Ina => &[(55, 0), (41, 1)],
        _ => &[(55, 0), (41, 0x00FF_8000), (2, 0), (3, 0)],
    };
    let on: &[(u8, u32)] = match state {
        State::Tran => &[(7, 0x1_0000)],
        State::Data => &[(7, 0x1_0000), (17, 0)],
        State::Rcv => &[(7, 0x1_0000), (25, 0)],
        State::Prg => &[(7, 0x1_0000), (28, 0)],
        State::Dis => &[(7, 0x1_0000), (28, 0), (7, 0)],
        _ => &[],
    };
    way.iter().chain(on).for_each(|&(index, argument)| _ = slot.command(index, argument));
    assert_eq!(slot.card.state, state);
    slot
}

/// A right 0 with chip select low, from every state but ina. A damaged one does not, and its bit shows.
#[test]
fn chosen_from_every_state() {
    use State::*;
    for state in [Idle, Ready, Ident, Stby, Tran, Data, Rcv, Prg, Dis] {
        let mut slot = led_to(state);
        let marks = slot.card.write_prot;
        let mut fresh = Card::power_up(settings(64), &slot.memory).unwrap();
        (fresh.mode, fresh.last_rca) = (Mode::Spi { crc_on: false }, slot.card.last_rca);
        fresh.write_prot = marks;
        let mut noisy = led_to(state);
        assert_eq!(slot.low(0, 0xFFFF_FFFF), "01", "{state:?}");
        assert_eq!(slot.card, fresh);

        let mut damaged = frame(0, 0);
        damaged[5] ^= 2;
        assert_eq!(noisy.frame(&damaged, true), "");
        assert_eq!((noisy.card.mode, noisy.card.state), (Mode::Sd, state));
        assert_eq!(noisy.command(63, 0), "");
        assert_eq!(noisy.low(0, 0), "0D", "{state:?}");
        assert_eq!(noisy.card, fresh);
        assert_eq!(noisy.low(0, 0), "01");
    }
    let mut slot = led_to(Ina);
    assert_eq!(slot.low(0, 0), "");
    assert_eq!(slot.card, led_to(Ina).card);
    // with chip select high, and other commands with it low
    let mut slot = led_to(Tran);
    assert_eq!(slot.low(13, 0x1_0000), "0D000009003F");
    assert_eq!(slot.command(0, 0), "");
    assert_eq!(slot.card.mode, Mode::Sd);
}

/// Of the R1 of 0, in either mode: all held bits that an R1 has, and none is held behind it.
#[test]
fn held_bits_show_in_the_r1_of_0() {
    let bits = [(31, "41"), (30, "21"), (29, "41"), (28, "11"), (27, "01"), (26, "01"), (24, "01")];
    for (bit, r1) in bits.into_iter().chain([(23, "09"), (22, "05"), (15, "01"), (13, "03")]) {
        for mut slot in [led_to(State::Tran), ready(), idle(settings(64))] {
            slot.card.status = 1 << bit;
            assert_eq!(slot.low(0, 0), r1, "bit {bit}");
            assert_eq!(slot.card.status, 0);
        }
    }
    // a read that was held, in either mode; pending erase marks are no error
    for mut slot in [led_to(State::Tran), ready()] {
        slot.command(18, 0x7E00);
        assert_ne!(slot.take(), "");
        assert_eq!(slot.take(), "");
        assert_eq!(slot.low(0, 0), "41");
        assert_eq!(slot.low(0, 0), "01");
    }
    for mut slot in [led_to(State::Tran), ready()] {
        slot.command(32, 0);
        assert_eq!(slot.low(0, 0), "01");
        assert_eq!((slot.card.erase_start, slot.card.status), (None, 0));
    }
}

/// Each kept bit: which response shows it, and which clears it.
#[test]
fn status_bits() {
    let bits = [(31, "40", "80"), (30, "20", "00"), (29, "40", "00"), (28, "10", "00"), (13, "02", "00")];
    for (bit, r1, second) in bits {
        for (index, rest) in [(16, ""), (58, "80FF8000"), (8, "00000000"), (13, second)] {
            let mut slot = ready();
            slot.card.status = 1 << bit;
            let argument = if index == 16 { 512 } else { 0 };
            assert_eq!(slot.command(index, argument), format!("{r1}{rest}"), "bit {bit}, {index}");
            assert_eq!((slot.command(13, 0).as_str(), slot.card.status), ("0000", 0));
        }
    }
    for (bit, second) in [(27, "40"), (26, "20"), (24, "02"), (15, "02")] {
        let mut slot = ready();
        slot.card.status = 1 << bit;
        for (index, answer) in [(16, "00"), (58, "0080FF8000"), (8, "00000001AA")] {
            assert_eq!(slot.command(index, if index == 16 { 512 } else { 0x1AA }), answer);
        }
        assert_eq!(slot.card.status, 1 << bit);
        let mut other = Slot { card: slot.card.clone(), memory: slot.memory.clone() };
        assert_eq!(slot.command(13, 0), format!("00{second}"));
        assert_eq!(slot.command(13, 0), "0000");
        assert_eq!(other.application(13, 0), format!("00{second}"));
        assert_eq!(other.card.status, 0);
    }
    // 23 and 22 are never held in SPI, but a sound record may have them: any command clears them
    let mut slot = ready();
    slot.card.status = COM_CRC_ERROR | ILLEGAL_COMMAND;
    assert_eq!((slot.command(58, 0), slot.card.status), ("0C80FF8000".into(), 0));
}

/// With checks off only the end bit counts, and the check of 8; nothing is kept, and the mark lasts.
#[test]
fn damaged_frames() {
    for (mut slot, r1) in [(idle(settings(64)), "09"), (ready(), "08")] {
        for crc_on in [false, true] {
            slot.command(59, u32::from(crc_on) | 0xFFFF_FFFE);
            slot.command(55, 0);
            let before = slot.card.clone();
            for bit in (0..48).filter(|bit| crc_on || *bit < 2 || *bit == 47) {
                let expected = if bit < 2 { "" } else { r1 };
                assert_eq!(slot.damaged(41, 0, &[bit]), expected, "bit {bit}");
                assert!(slot.card == before);
            }
            assert_eq!(slot.damaged(8, 0x1AA, &[20]), r1);
            assert_eq!(slot.damaged(8, 0x1AA, &[46]), r1);
            assert!(slot.card == before && slot.card.app_mark);
        }
        assert_eq!(slot.damaged(59, 0, &[40]), r1);
        assert_eq!(slot.damaged(0, 0, &[40]), r1);
        assert_eq!(slot.card.mode, Mode::Spi { crc_on: true });
        // 59 is judged by the setting before it
        let off = slot.command(59, 0);
        assert_eq!(slot.damaged(59, 1, &[40, 46]), off);
        assert_eq!(slot.card.mode, Mode::Spi { crc_on: true });
        assert_eq!(slot.command(0, 0), "01");
        assert_eq!(slot.damaged(0, 0, &[40]), "01");
    }
}

const NOWHERE: [u8; 6] = [1, 2, 3, 7, 15, 41];

/// Every index in each phase: the frames that run, and what the others get.
#[test]
fn allowed_commands() {
    let allowed = |slot: &Slot, index: u8| match slot.card.phase() {
        Phase::Idle => matches!(index, 0 | 8 | 55 | 58 | 59),
        Phase::Open => matches!(index, 0 | 12 | 13),
        Phase::Busy => matches!(index, 0 | 13),
        Phase::Ready => Command::of_paper(index) && !NOWHERE.contains(&index) && index != 12,
    };
    let mut busy = ready();
    busy.command(28, 0);
    let slots = [idle(settings(64)), ready(), busy].into_iter().chain(open().map(|(slot, _)| slot));
    for slot in slots {
        for index in 0..64 {
            let mut slot = Slot { card: slot.card.clone(), memory: slot.memory.clone() };
            let before = slot.card.clone();
            let idle = u8::from(before.phase() == Phase::Idle);
            let answer = slot.command(index, 0);
            if allowed(&slot_of(&before), index) {
                assert_eq!(bytes(&answer)[0] & 0x0C, 0, "{index} in {:?}", before.phase());
            } else {
                assert_eq!(answer, hex(&[4 | idle]), "{index} in {:?}", before.phase());
                assert!(slot.card == before);
            }
        }
    }
}

fn slot_of(card: &Card) -> Slot {
    Slot { card: card.clone(), memory: Vec::new() }
}

impl Command {
    /// The plain rows of 01, with 42, 58 and 59.
    fn of_paper(index: u8) -> bool {
        matches!(index, 0 | 8..=10 | 12 | 13 | 16..=18 | 24 | 25 | 28..=30 | 32 | 33 | 38 | 42 | 55 | 58 | 59)
    }
}

/// After 55 an index with an A row is that only. A frame that is not allowed drops the mark.
#[test]
fn application_commands() {
    for (index, in_idle, answer) in
        [(13, false, "0000"), (22, false, "00"), (23, false, "00"), (41, true, "00"), (42, false, "00")]
    {
        let mut slot = idle(settings(64));
        assert_eq!(slot.application(index, 0), if in_idle { "00" } else { "05" }, "A{index}");
        assert!(!slot.card.app_mark);
        let mut slot = ready();
        assert_eq!(slot.application(index, 0), answer, "A{index}");
        assert!(!slot.card.app_mark);
    }
    let mut slot = ready();
    assert_eq!(slot.application(6, 2), "04");
    assert_eq!(slot.command(22, 0), "04");
    assert_eq!(slot.application(58, 0), "0080FF8000");
    assert_eq!(slot.command(22, 0), "04");
}

/// Of the unsound list, what is about bus states, the RCA and the application mark is about SD mode.
#[test]
fn unsound_records() {
    let judge = |mode, change: &dyn Fn(&mut Card)| {
        let mut card = led_to(State::Tran).card;
        card.mode = mode;
        change(&mut card);
        card.is_sound()
    };
    for mode in [Mode::Spi { crc_on: false }, Mode::Spi { crc_on: true }] {
        let write = |address| Transfer::Write { multiple: true, address, held: false };
        assert!(judge(mode, &|card| card.rca = 0) && judge(mode, &|card| card.rca = 9));
        assert!(judge(mode, &|card| (card.state, card.app_mark) = (State::Ready, true)));
        assert!(
            judge(mode, &|card| card.transfer = write(512)) && !judge(mode, &|card| card.transfer = write(1))
        );
        assert!(judge(mode, &|card| card.state = State::Rcv));
        assert!(!judge(mode, &|card| (card.transfer, card.num_wr_blocks) = (write(512), 2)));
        assert!(!judge(mode, &|card| card.status = 1 << 25) && !judge(mode, &|card| card.polls_left = 1));
        assert!(!judge(mode, &|card| card.erase_start = Some(0x8000)));
    }
    assert!(!judge(Mode::Sd, &|card| card.rca = 0));
    assert!(!judge(Mode::Sd, &|card| card.state = State::Rcv));
}

/// Sound records that no history reaches follow the rules as written.
#[test]
fn unreached_records() {
    // outside idle A41 changes nothing but what any command does
    let mut slot = ready();
    (slot.card.settings.start_polls, slot.card.polls_left) = (3, 2);
    (slot.card.app_mark, slot.card.erase_end) = (true, Some(0));
    assert_eq!(slot.command(41, 0), "02");
    assert_eq!((slot.card.polls_left, slot.card.erase_end, slot.card.phase()), (2, None, Phase::Ready));
    // no bus state but idle and busy means anything
    use State::*;
    for state in [Ready, Ident, Stby, Tran, Data, Rcv, Ina] {
        let mut slot = ready();
        (slot.card.state, slot.card.rca, slot.card.app_mark) = (state, 9, true);
        assert_eq!((slot.command(58, 0), slot.command(17, 0)), ("0080FF8000".into(), "00".into()));
    }
    // the application mark with a transfer open: 13 is A13, which is not allowed
    let mut slot = ready();
    slot.command(17, 0);
    slot.card.app_mark = true;
    assert_eq!((slot.command(13, 0), slot.command(13, 0)), ("04".into(), "0000".into()));
    // 24 past the end is held; a lone byte is no size for it
    let mut slot = ready();
    slot.card.transfer = Transfer::Write { multiple: false, address: 0x8000, held: false };
    assert_eq!((slot.give(&led(0xFE, 1)), slot.give(&led(0xFE, 1))), (None, None));
    assert_eq!(
        (slot.refused(1), slot.command(13, 0), slot.command(12, 0)),
        (Refusal::Size, "4080".into(), "00".into())
    );
}

/// `low` is the console's; replay cannot read it.
#[test]
fn lines() {
    let answer = |bench: &mut Bench, line: &str| {
        String::from_utf8_lossy(bench.answer(line.replace(' ', "\t").as_bytes()))
            .trim_end()
            .replace('\t', " ")
    };
    let mut bench = Bench::replay();
    assert_eq!(answer(&mut bench, "low 400000000095"), "ref 1");
    let mut bench = Bench::console();
    for (line, expected) in [
        ("low 4000000000", "ref 1"),
        ("low 48000001AA87", "rsp 08000001AA13"),
        ("low 400000000095", "rsp 01"),
        ("cmd 48000001AA87", "rsp 01000001AA"),
        ("low 7A00000000FF", "rsp 0100FF8000"),
        ("cmd 770000000065", "rsp 01"),
        ("cmd 6900000000E5", "rsp 00"),
        ("cmd 510000020079", "rsp 00"),
        ("cmd 4C0000000061", "rsp 00"),
        ("cmd 590000000003", "rsp 00"),
        ("blk FF", "none"),
        ("blk FD", "none"),
        ("blk FD", "ref 1"),
        ("over", "none"),
        ("cmd 4D000000000D", "rsp 0000"),
        ("cmd 4F0000000095", "rsp 04"),
        ("cmd 800000000095", "none"),
    ] {
        assert_eq!(answer(&mut bench, line), expected, "{line}");
    }
    assert_eq!(answer(&mut bench, "cmd 580000020043"), "rsp 00");
    assert_eq!(answer(&mut bench, &format!("blk {}", hex(&led(0xFE, 0x5A)))), "rsp 05");
    assert_eq!(answer(&mut bench, "over"), "none");
    assert_eq!(
        (answer(&mut bench, "cmd 510000020079"), answer(&mut bench, "take")),
        ("rsp 00".into(), format!("blk {}", hex(&led(0xFE, 0x5A))))
    );
}
