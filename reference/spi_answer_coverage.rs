//! What the differential tester has seen of answers in SPI mode: kinds, the bits of R1 and R2, operations of 42.

use crate::calls::Call;
use crate::card::Card;
use crate::tally::{names, Tally};

#[derive(Default)]
pub struct SpiAnswerCoverage {
    tally: Tally,
}

/// Bits of R1, with the commands that must have shown them; then of R2's second byte.
const FIRST: [(&str, &[&str]); 7] = [
    ("R1 bit 6", &["0", "12", "13", "16", "17", "18", "24", "25", "28", "29", "30", "32", "33"]),
    ("R1 bit 5", &["0", "12", "13", "17", "18", "24", "25"]),
    ("R1 bit 4", &["33", "38"]),
    ("R1 bit 3", &["alone", "with idle", "0, chosen"]),
    ("R1 bit 2", &["alone", "with idle", "0, chosen"]),
    (
        "R1 bit 1",
        &["0", "8", "9", "10", "16", "17", "18", "24", "25", "28", "29", "30", "42", "55", "58", "59"],
    ),
    ("R1 bit 0", &["0", "8", "55", "58", "59", "A41"]),
];
const SECOND: [(&str, &[&str]); 5] = [
    ("R2 bit 7", &["13"]),
    ("R2 bit 6", &["13", "A13"]),
    ("R2 bit 5", &["13", "A13"]),
    ("R2 bit 1", &["13", "A13"]),
    ("R2 bit 0", &["13"]),
];
const KINDS: [&str; 19] = [
    "R1",
    "R2",
    "R3 00FF8000",
    "R3 80FF8000",
    "R7 00000000",
    "R7 00000100",
    "05",
    "0B",
    "none",
    "mem",
    "blk of 4",
    "blk of 8",
    "blk of 16",
    "blk of 64",
    "blk of 512",
    "blk of another length",
    "ref 1",
    "ref 5",
    "ref 6",
];

impl SpiAnswerCoverage {
    /// Also to the 0 that chooses SPI, which met a card in SD mode.
    pub fn answer(&mut self, call: &Call, met: &Card, answer: &[u8]) {
        let text = String::from_utf8_lossy(answer.trim_ascii_end()).replace('\t', " ");
        let (word, digits) = text.split_once(' ').unwrap_or((&text, ""));
        let kind = match (word, call, digits.len()) {
            ("rsp", Call::Blk(_), _) => digits.into(),
            ("rsp", _, 2) => "R1".into(),
            ("rsp", _, 4) => "R2".into(),
            ("rsp", Call::Cmd([0x48, ..], ..), 10) => format!("R7 {}00", &digits[2..8]),
            ("rsp", ..) => format!("R3 {}", &digits[2..]),
            ("blk", _, length @ (14 | 22 | 38 | 134 | 1030)) => format!("blk of {}", length / 2 - 3),
            ("blk", ..) => "blk of another length".into(),
            ("mem", ..) => "mem".into(),
            _ => text.clone(),
        };
        self.tally.add("answers", kind);
        if let (Call::Cmd(frame, ..), "rsp") = (call, word) {
            self.bits(frame[0] & 0x3F, met, digits);
        }
    }

    fn bits(&mut self, index: u8, met: &Card, digits: &str) {
        let byte = |at: usize| u8::from_str_radix(digits.get(at..at + 2).unwrap_or("00"), 16).unwrap_or(0);
        let (r1, second) = (byte(0), if digits.len() == 4 { byte(2) } else { 0 });
        let name =
            if met.app_mark && matches!(index, 13 | 41) { format!("A{index}") } else { index.to_string() };
        let is_error = met.mode.is_spi() && r1 & 0x0C != 0;
        for (bit, (subject, _)) in (0..7).rev().zip(FIRST) {
            let by = match bit {
                _ if r1 >> bit & 1 == 0 => continue,
                0 if is_error => continue,
                2 | 3 if !is_error => "0, chosen",
                2 | 3 if r1 & 1 == 1 => "with idle",
                2 | 3 => "alone",
                _ => &name,
            };
            self.tally.add(subject, by);
        }
        for (bit, (subject, _)) in [7, 6, 5, 1, 0].into_iter().zip(SECOND) {
            if second >> bit & 1 == 1 {
                self.tally.add(subject, name.clone());
            }
        }
    }

    pub fn print(&self) {
        println!("\nanswers in SPI mode");
        let mut wanted = vec![("answers", names(&KINDS))];
        wanted.extend(FIRST.into_iter().chain(SECOND).map(|(subject, by)| (subject, names(by))));
        self.tally.print(&wanted);
    }
}
