//! Unit checks of the reference host: `rustc --test main.rs`.

use crate::bring_up::{read_answer, read_limit, run, seal, Frame, USAGE};
use crate::lines::Bench;

/// What the program writes for these arguments and lines of the card.
fn written(arguments: &[&str], lines: &[&str]) -> Vec<String> {
    let arguments: Vec<String> = arguments.iter().map(|&text| text.into()).collect();
    let mut lines = lines.iter();
    let mut written = Vec::new();
    let say = |line: &[u8]| {
        written.push(String::from_utf8_lossy(line).trim_end_matches('\n').into());
        Ok(())
    };
    run(&arguments, say, || Ok(lines.next().map(|line| line.replace(' ', "\t").into_bytes()))).unwrap();
    written
}

/// The last line, with spaces for tabs.
fn end(limit: &str, lines: &[&str]) -> String {
    written(&[limit], lines).last().unwrap().replace('\t', " ")
}

const R7: &str = "rsp 08000001AA13";
const R1: &str = "rsp 370000012083";
const READY: &str = "rsp 3F80FF8000FF";
const BUSY: &str = "rsp 3F00FF8000FF";
const CID: &str = "rsp 3F00000000000000000000000000000001";
const R6: &str = "rsp 0300010500A5";
const CSD: &str = "rsp 3F002600321F598003C0004F8082400053";
const R1_7: &str = "rsp 070000070075";

/// A card that is ready at the first poll.
const GOOD: [&str; 8] = ["none", R7, R1, READY, CID, R6, CSD, R1_7];

/// The same, but for one answer.
fn but(step: usize, line: &str) -> String {
    let mut lines = GOOD;
    lines[step] = line;
    end("1000", &lines)
}

#[test]
fn ready() {
    let expected = [
        "cmd\t400000000095",
        "cmd\t48000001AA87",
        "cmd\t770000000065",
        "cmd\t6900FF800085",
        "cmd\t42000000004D",
        "cmd\t430000000021",
        "cmd\t4900010000F1",
        "cmd\t4700010000DD",
        "selected\t0001\t1\t64",
    ];
    assert_eq!(written(&[], &GOOD), expected);
    assert_eq!(written(&["1"], &GOOD), expected);
}

#[test]
fn polls() {
    let mut lines = vec!["none", R7, R1, BUSY, R1, BUSY, R1, READY];
    lines.extend(&GOOD[4..]);
    assert_eq!(end("3", &lines), "selected 0001 3 64");
    let gave_up = written(&["2"], &lines);
    assert_eq!(gave_up.last().unwrap(), "busy\t2");
    assert_eq!(gave_up.iter().filter(|line| line.starts_with("cmd\t69")).count(), 2);
    assert_eq!(gave_up.iter().filter(|line| line.starts_with("cmd\t77")).count(), 2);
    assert_eq!(end("1", &lines), "busy 1");
}

#[test]
fn most_polls() {
    let busy = [["none", R7].as_slice(), &[R1, BUSY].repeat(1001)].concat();
    assert_eq!(end("1000", &busy), "busy 1000");
    let ready = [["none", R7].as_slice(), &[R1, BUSY].repeat(999), &GOOD[2..]].concat();
    assert_eq!(end("1000", &ready), "selected 0001 1000 64");
}

/// Busy is bit 31 alone, whatever the window says; and so is ready.
#[test]
fn windows() {
    for window in ["3F00000000FF", "3F7FFFFFFFFF", "3F00FF0000FF"] {
        let line = format!("rsp {window}");
        assert_eq!(end("1", &["none", R7, R1, &line]), "busy 1");
    }
    assert_eq!(but(3, "rsp 3F80000000FF"), "selected 0001 1 64");
    assert_eq!(but(3, "rsp 3FFFFFFFFFFF"), "selected 0001 1 64");
}

#[test]
fn echoes() {
    assert_eq!(but(1, &r7(0x1AB)), "stopped 8 echo");
    assert_eq!(but(1, &r7(0x2AA)), "stopped 8 echo");
    assert_eq!(but(1, &r7(0x0AA)), "stopped 8 echo");
    // reserved bits
    assert_eq!(but(1, &r7(0xFFFF_F1AA)), "selected 0001 1 64");
}

fn r7(content: u32) -> String {
    short(8, content)
}

fn short(index: u8, content: u32) -> String {
    let mut frame: Frame = [index, 0, 0, 0, 0, 0];
    frame[1..5].copy_from_slice(&content.to_be_bytes());
    frame[5] = seal(&frame[..5]);
    format!("rsp {}", frame.iter().map(|byte| format!("{byte:02X}")).collect::<String>())
}

/// Any status bits, and any RCA.
#[test]
fn contents() {
    assert_eq!(but(2, &short(55, 0xFFFF_FFFF)), "selected 0001 1 64");
    assert_eq!(but(7, &short(7, 0xFDFF_E008)), "selected 0001 1 64");
    assert_eq!(but(5, &short(3, 0xFFFF_0000)), "selected FFFF 1 64");
    assert_eq!(but(5, &short(3, 0x0000_E500)), "selected 0000 1 64");
    let published = short(3, 0xBEEF_0500);
    let lines = [&GOOD[..5], &[&published]].concat();
    assert!(written(&[], &lines)[6].starts_with("cmd\t49BEEF0000"));
}

#[test]
fn heard_after_reset() {
    assert_eq!(but(0, "rsp 00"), "stopped 0 heard");
    assert_eq!(but(0, R1), "stopped 0 heard");
}

#[test]
fn sizes() {
    let names = ["0", "8", "55", "A41", "2", "3", "9", "7"];
    for step in 1..8 {
        let stopped = format!("stopped {} 1", names[step]);
        assert_eq!(but(step, "none"), stopped);
        assert_eq!(but(step, &GOOD[step][..GOOD[step].len() - 2]), stopped);
        assert_eq!(but(step, &format!("{}00", GOOD[step])), stopped);
        assert_eq!(but(step, &format!("rsp {}", "0".repeat(1028))), stopped);
        assert_eq!(but(step, &format!("rsp {}", "0".repeat(1030))), format!("stopped {} line", names[step]));
    }
}

/// Each bit by itself is seen, but that R3 has no check.
#[test]
fn single_bits() {
    let names = ["0", "8", "55", "A41", "2", "3", "9", "7"];
    for step in 1..8 {
        let bytes = read_answer(GOOD[step].replace(' ', "\t").as_bytes()).unwrap();
        for bit in 0..8 * bytes.len() {
            let mut damaged = bytes.clone();
            damaged[bit / 8] ^= 0x80 >> (bit % 8);
            let digits: String = damaged.iter().map(|byte| format!("{byte:02X}")).collect();
            let expected = match (step, bit) {
                // busy, and 55 gets the next answer
                (3, 8) => "stopped 55 1".into(),
                (3, 9..=39) => "selected 0001 1 64".into(),
                _ => format!("stopped {} 7", names[step]),
            };
            assert_eq!(but(step, &format!("rsp {digits}")), expected, "{} bit {bit}", names[step]);
        }
    }
}

/// The right answer to another command.
#[test]
fn indices() {
    assert_eq!(but(2, R1_7), "stopped 55 7");
    assert_eq!(but(7, R1), "stopped 7 7");
    assert_eq!(but(5, R1), "stopped 3 7");
    assert_eq!(but(1, R6), "stopped 8 7");
    assert_eq!(but(3, R1), "stopped A41 7");
    assert_eq!(but(4, READY), "stopped 2 1");
}

#[test]
fn no_answers() {
    let others =
        ["", "ref 1", "ack", "nak", "none ", "NONE", "rsp", "rsp ", "rsp 0", "rsp 37000001208", "mem 00"];
    for line in others {
        assert_eq!(but(2, line), "stopped 55 line", "{line}");
        assert_eq!(but(0, line), "stopped 0 line", "{line}");
    }
    assert_eq!(but(2, "rsp 37000001208g"), "stopped 55 line");
    assert_eq!(but(3, "rsp 3f80ff8000ff"), "stopped A41 line");
    assert_eq!(but(3, "rsp 3F80FF8000FF "), "stopped A41 line");
    assert_eq!(but(3, "rsp  3F80FF8000FF"), "stopped A41 line");
    for count in 0..8 {
        let written = written(&[], &GOOD[..count]);
        assert!(written.last().unwrap().ends_with("\tline"), "the input ends after {count}");
    }
}

#[test]
fn limits() {
    for text in ["0", "1001", "x", "", "-1", "+1", "1.", " 1", "1 ", "65537", "4294967297", "000", "0x1"] {
        assert_eq!(read_limit(&[text.into()]), None, "{text}");
        assert_eq!(written(&[text], &GOOD), [USAGE]);
    }
    assert_eq!(read_limit(&["1".into(), "2".into()]), None);
    assert_eq!(read_limit(&["99999999999999999999999999999999999999999999".into()]), None);
    for (text, limit) in [("1", 1), ("1000", 1000), ("0007", 7), ("00000000000000000000000000001000", 1000)] {
        assert_eq!(read_limit(&[text.into()]), Some(limit));
    }
    assert_eq!(read_limit(&[]), Some(1000));
}

/// Block counts of cards, locked ones too, and of size pairs that no card here has.
#[test]
fn block_counts() {
    for (count, polls, length) in [(4u32, 0u8, 0), (64, 15, 16), (2048, 1, 1), (32, 0, 4)] {
        let mut bench = Bench::console();
        let power = format!("power\t{count:08X}\t{polls:02X}\t{:030X}\t00\t{length:02X}\t{:032X}", 7, 9);
        assert_eq!(bench.answer(power.as_bytes()), b"none\n");
        assert_eq!(brought_up(bench), format!("selected\t0001\t{}\t{count}", polls + 1));
    }
    let most = csd(4095, 7);
    assert_eq!(but(6, &most), "selected 0001 1 2097152");
    assert_eq!(but(6, &csd(0, 0)), "selected 0001 1 4");
    assert_eq!(but(6, &csd(2048, 3)), "selected 0001 1 65568");
}

/// An R2 with this size pair and all other bits one.
fn csd(c_size: u128, c_size_mult: u128) -> String {
    let others = !(0xFFF << 62 | 7 << 47);
    let register = u128::MAX & others | c_size << 62 | c_size_mult << 47;
    let mut bytes = register.to_be_bytes();
    bytes[15] = seal(&bytes[..15]);
    format!("rsp 3F{}", bytes.iter().map(|byte| format!("{byte:02X}")).collect::<String>())
}

/// The end of a host that speaks with a card.
fn brought_up(mut bench: Bench) -> String {
    let said = std::cell::RefCell::new(Vec::new());
    let say = |line: &[u8]| {
        *said.borrow_mut() = line.trim_ascii_end().to_vec();
        Ok(())
    };
    run(&[], say, || Ok(Some(bench.answer(&said.borrow()).trim_ascii_end().to_vec()))).unwrap();
    String::from_utf8(said.into_inner()).unwrap()
}

/// Those of crates/bring_up_transcripts, each with its limit.
#[test]
fn transcripts() {
    macro_rules! check {
        ($($limit:literal $name:literal)*) => {$(
            let input = include_str!(concat!("../crates/bring_up_transcripts/data/", $name, ".in"));
            let output = include_str!(concat!("../crates/bring_up_transcripts/data/", $name, ".out"));
            let lines: Vec<&str> = input.split_terminator('\n').collect();
            let expected: Vec<&str> = output.split_terminator('\n').collect();
            assert_eq!(written(&[$limit], &lines), expected, $name);
        )*};
    }
    check!("1000" "ready" "4" "three-polls" "1000" "silence-to-8" "1000" "damaged-r1" "1000" "wrong-pattern");
    check!("3" "busy-to-the-limit" "1" "ready-at-limit-1" "1" "busy-at-limit-1" "1000" "strange-windows");
    check!("1000" "error-bits" "1000" "locked" "1000" "carriage-return" "1000" "far-too-long-line" "1001" "limit-1001");
}
