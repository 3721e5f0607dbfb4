// Nanoseconds a byte, on 512-byte blocks, all at -O3: the proved CRC16, the same table in plain Rust, and bit by bit.
mod table;

use std::hint::black_box;
use std::time::Instant;

type Check = fn(&[u8]) -> u16;

extern "C" {
    fn proved_crc16(ptr: *const u8, len: usize) -> u16;
}

fn proved(s: &[u8]) -> u16 {
    unsafe { proved_crc16(s.as_ptr(), s.len()) }
}

#[inline(never)]
fn tabled(s: &[u8]) -> u16 {
    table::crc16(s)
}

#[inline(always)]
fn turned(s: &[u8], poly: u16) -> u16 {
    let mut r: u16 = 0;
    for &b in s {
        r ^= (b as u16) << 8;
        for _ in 0..8 {
            r = table::shift(r, poly);
        }
    }
    r
}

// The compiler takes this loop for a check, and where it knows the polynomial makes a table of its own.
#[no_mangle]
#[inline(never)]
fn idiom(s: &[u8]) -> u16 {
    turned(s, table::POLY)
}

// So here it is not told. tools/speed looks that no table came of this, and that one came of `idiom`.
#[no_mangle]
#[inline(never)]
fn bitwise(s: &[u8]) -> u16 {
    turned(s, black_box(table::POLY))
}

fn time(f: Check, block: &[u8], rounds: u32) -> f64 {
    let start = Instant::now();
    for _ in 0..rounds {
        black_box(f(black_box(block)));
    }
    start.elapsed().as_nanos() as f64 / (rounds as f64 * block.len() as f64)
}

fn fill(block: &mut [u8]) {
    let mut x: u32 = 1;
    for b in block.iter_mut() {
        x = x.wrapping_mul(1664525).wrapping_add(1013904223);
        *b = (x >> 24) as u8;
    }
}

fn main() {
    let ways: [(&str, Check); 4] = [
        ("proved, table", proved),
        ("plain Rust, the same table", tabled),
        ("plain Rust, bit by bit", bitwise),
        ("plain Rust, a table by the compiler", idiom),
    ];
    let mut block = [0u8; 512];
    fill(&mut block);
    assert_eq!(proved(&[0xFF; 512]), 0x7FA1);
    let bytes: [u8; 256] = std::array::from_fn(|b| b as u8);
    for s in (0..=512).map(|n| &block[..n]).chain(bytes.chunks(1)) {
        for (_, f) in ways {
            assert_eq!(f(s), bitwise(s));
        }
    }
    // the best of a hundred runs each, by turns, so that all have the machine at the same speed
    let mut best = [f64::MAX; 4];
    for _ in 0..100 {
        for (way, (_, f)) in ways.into_iter().enumerate() {
            block.fill(0);
            fill(&mut block);
            best[way] = best[way].min(time(f, &block, 1000));
        }
    }
    for (way, (name, _)) in ways.into_iter().enumerate() {
        println!(
            "CRC16, {name:36}{:6.3} ns a byte; the proved takes {:.3} of it",
            best[way],
            best[0] / best[way]
        );
    }
}
