//! Random frames and blocks of SPI mode for the differential tester: damage where SPI looks, tokens, sizes.

use crate::calls::{damage, flip, Call, Frame};
use crate::card::Card;
use crate::chance::Rng;
use crate::lines::LONGEST_BLOCK;

const TOKENS: [u8; 7] = [0xFE, 0xFC, 0xFD, 0xFF, 0x00, 0x7E, 0x05];
const STOP_TRAN: u8 = 0xFD;

/// Wrong in start, transmission or end bit, in its check alone, or anywhere.
pub fn damage_spi(rng: &mut Rng, call: Call) -> Call {
    let Call::Cmd(mut frame, _, is_low) = call else {
        return call;
    };
    match rng.below(100) {
        0..12 => frame[0] ^= rng.pick(&[0x80, 0x40, 0xC0]),
        12..27 => frame[5] ^= 1,
        27..32 => frame[5] ^= 1 | 2 << rng.below(7),
        32..60 => flip(rng, &mut frame[5..], 1),
        60..70 => frame[5] = rng.byte() | 1,
        _ => return damage(rng, call),
    }
    Call::Cmd(frame, Frame::Damaged, is_low)
}

/// A packet behind a token, mostly the one that is due.
pub fn led(rng: &mut Rng, card: &Card, packet: &[u8]) -> Vec<u8> {
    let any = rng.byte();
    let token = match rng.below(100) {
        0..8 => rng.pick(&TOKENS),
        8..10 => any,
        10..12 => card.start_token() ^ 1 << rng.below(8),
        _ => card.start_token(),
    };
    [&[token], packet].concat()
}

pub fn lone_byte(rng: &mut Rng, stops: u64) -> Call {
    let any = rng.byte();
    let other = rng.pick(&[0xFC, 0xFE, 0xFF, 0x00, STOP_TRAN ^ 1 << (any & 7), any]);
    Call::Blk(vec![if rng.chance(stops) { STOP_TRAN } else { other }])
}

/// A block of a size that is not due, mostly by a byte or two.
pub fn missized(rng: &mut Rng, mut block: Vec<u8>) -> Call {
    let due = block.len();
    let size = match rng.below(100) {
        0..12 => 0,
        12..70 => rng.pick(&[due - 2, due - 1, due + 1, due + 2]),
        70..90 => rng.pick(&[2, 3, 16, 512, 513, 514, 515, 516]),
        _ => rng.below(LONGEST_BLOCK as u64 + 1) as usize,
    };
    block.resize(size.min(LONGEST_BLOCK), rng.pick(&[0, 0xFF]));
    Call::Blk(block)
}
