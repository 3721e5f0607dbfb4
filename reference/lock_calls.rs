//! Random passwords for the differential tester, and blocks of command 42. They go by the card's record: most
//! passwords are the right one, or nearly so.

use crate::card::{Card, Password, LONGEST_PASSWORD};
use crate::chance::Rng;

const SET_PWD: u8 = 1;
const SET_AND_LOCK: u8 = 5;
const FORCE_ERASE: u8 = 8;

/// Of a power-up; what stands behind its length may be anything.
pub fn settings_password(rng: &mut Rng) -> Password {
    let any = rng.byte();
    let length = match rng.below(100) {
        0..62 => 0,
        62..91 => 1 + rng.below(16) as u8,
        91..95 => 17,
        _ => rng.pick(&[18, 32, 128, 255, any]),
    };
    let mut password = Password { length, ..Password::default() };
    let content = content(rng, LONGEST_PASSWORD);
    let kept = if rng.chance(50) { LONGEST_PASSWORD } else { LONGEST_PASSWORD.min(length.into()) };
    password.bytes[..kept].copy_from_slice(&content[..kept]);
    password
}

/// Bytes of a new password: any, all the same, or a few zeros at its end.
fn content(rng: &mut Rng, length: usize) -> Vec<u8> {
    let mut bytes: Vec<u8> = (0..length).map(|_| rng.byte()).collect();
    match rng.below(10) {
        0 => bytes.fill(0),
        1 => bytes.fill(rng.byte()),
        2 => bytes.iter_mut().for_each(|byte| *byte &= 1),
        3 => bytes.iter_mut().rev().take(2).for_each(|byte| *byte = 0),
        _ => {}
    }
    bytes
}

/// A length for 16 before 42.
pub fn lock_len(rng: &mut Rng, card: &Card) -> u32 {
    let fields = 2 + u32::from(card.settings.password.length);
    match rng.below(100) {
        0..26 => 512,
        26..48 => fields,
        48..66 => fields + 1 + rng.below(18) as u32,
        66..70 => fields - 1,
        70..76 => 1,
        76..80 => 2,
        80..87 => 3 + rng.below(14) as u32,
        87..94 => 17 + rng.below(18) as u32,
        _ => 1 + rng.below(512) as u32,
    }
}

/// What a block of 42 carries: flags, PWDS_LEN, passwords and a rest, cut where the set length ends.
pub fn lock_payload(rng: &mut Rng, card: &Card, former: &Password) -> Vec<u8> {
    let size = card.block_len as usize;
    let mut payload = vec![flags(rng, card), 0];
    payload.extend(match payload[0] & 15 {
        SET_PWD | SET_AND_LOCK => both_passwords(rng, card, former),
        _ => old_password(rng, card, former),
    });
    let pwds_len = payload.len() as u8 - 2;
    payload[1] = match rng.below(100) {
        0..2 => rng.byte(),
        2..4 => pwds_len + 1,
        4..5 => pwds_len.saturating_sub(1),
        _ => pwds_len,
    };
    let rest = rng.byte();
    payload.resize_with(size, || if rest < 128 { rest & 1 } else { rng.byte() });
    payload
}

/// Mostly an operation that this card may do; of a single byte force erase is the only one.
fn flags(rng: &mut Rng, card: &Card) -> u8 {
    let any = rng.below(16) as u8;
    let flags = if card.block_len == 1 && rng.chance(40) {
        FORCE_ERASE
    } else if card.locked {
        rng.weighted(&[(40, 0), (8, 1), (9, 5), (14, 2), (5, 4), (14, 8), (10, any)])
    } else if card.settings.password.is_set() {
        rng.weighted(&[(34, 4), (14, 1), (16, 5), (9, 2), (7, 0), (8, 8), (12, any)])
    } else {
        rng.weighted(&[(30, 1), (30, 5), (7, 2), (7, 0), (7, 4), (7, 8), (12, any)])
    };
    let reserved = if rng.chance(75) { 0 } else { rng.byte() & 0xF0 };
    flags | reserved
}

/// The card's own, or one that is only nearly so.
fn old_password(rng: &mut Rng, card: &Card, former: &Password) -> Vec<u8> {
    let mut password = card.settings.password.content().to_vec();
    let length = password.len();
    if length == 0 {
        let length = rng.below(17) as usize;
        return if rng.chance(30) { former.content().to_vec() } else { content(rng, length) };
    }
    match rng.below(100) {
        0..56 => {}
        56..66 => password[length - 1] ^= 1 << rng.below(8),
        66..72 => password[rng.below(length as u64) as usize] ^= 1 << rng.below(8),
        72..77 => password.truncate(rng.below(length as u64) as usize),
        77..80 => password.clear(),
        80..84 => password.push(rng.pick(&[0, 0xFF])),
        84..88 => password.extend(content(rng, 5)),
        88..90 => password.resize(LONGEST_PASSWORD, 0),
        90..96 => password = former.content().to_vec(),
        _ => password = content(rng, length),
    }
    password
}

/// The old one and a new one, which mostly fit into the block; seldom only the old one.
fn both_passwords(rng: &mut Rng, card: &Card, former: &Password) -> Vec<u8> {
    let present = card.settings.password.content();
    if rng.chance(20) {
        return old_password(rng, card, former);
    }
    let mut passwords = match present {
        [] => Vec::new(),
        _ if rng.chance(50) => present.to_vec(),
        _ => old_password(rng, card, former),
    };
    let room = (card.block_len as usize).saturating_sub(2 + present.len()).clamp(1, LONGEST_PASSWORD);
    let length = match rng.below(100) {
        0..70 => 1 + rng.below(room as u64) as usize,
        70..85 => 1 + rng.below(16) as usize,
        85..88 => 16,
        88..92 => 17,
        92..96 => 0,
        _ => 17 + rng.below(60) as usize,
    };
    passwords.extend(match rng.below(10) {
        // again the same, its beginning, or with something behind it
        0 => present.iter().copied().cycle().take(if present.is_empty() { 0 } else { length }).collect(),
        1 => former.content().to_vec(),
        _ => content(rng, length),
    });
    passwords
}
