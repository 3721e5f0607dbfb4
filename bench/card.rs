// Nanoseconds a block: commands 18 and 25 through the proved card, against plain Rust that copies and checks the same
// blocks from the same table, both at -O3. The card is brought up, and goes through as many blocks as the memory has.
// With the argument `spi` the card is brought up in SPI mode, checks on, and blocks have their tokens.
mod table;

use std::hint::black_box;
use std::time::Instant;
use table::crc16;

const BLOCKS: usize = 4096;
const PACKET: usize = 514;

const START_BLOCK: u8 = 0xFE;
const START_BLOCK_MULTIPLE: u8 = 0xFC;

extern "C" {
    fn proved_reads(spi: bool, memory: *mut u8, size: usize, out: *mut u8, room: usize, count: u32) -> u32;
    fn proved_writes(spi: bool, memory: *mut u8, size: usize, block: *const u8, length: usize, count: u32) -> u32;
}

// A buffer with room for a token is one of SPI mode.
fn reads(memory: &mut [u8], out: &mut [u8]) -> u32 {
    let spi = out.len() > PACKET;
    unsafe { proved_reads(spi, memory.as_mut_ptr(), memory.len(), out.as_mut_ptr(), out.len(), BLOCKS as u32) }
}

fn writes(memory: &mut [u8], block: &mut [u8]) -> u32 {
    let spi = block.len() > PACKET;
    unsafe { proved_writes(spi, memory.as_mut_ptr(), memory.len(), block.as_ptr(), block.len(), BLOCKS as u32) }
}

#[inline(never)]
fn plain_read(memory: &[u8], out: &mut [u8], block: usize) {
    out[..512].copy_from_slice(&memory[block * 512..block * 512 + 512]);
    let check = crc16(&out[..512]);
    out[512..514].copy_from_slice(&check.to_be_bytes());
}

#[inline(never)]
fn plain_write(memory: &mut [u8], packet: &[u8], block: usize) -> bool {
    if crc16(&packet[..512]).to_be_bytes() != packet[512..514] {
        return false;
    }
    memory[block * 512..block * 512 + 512].copy_from_slice(&packet[..512]);
    true
}

fn plain_reads(memory: &mut [u8], out: &mut [u8]) -> u32 {
    for block in 0..BLOCKS {
        plain_read(black_box(memory), black_box(out), block);
    }
    BLOCKS as u32
}

fn plain_writes(memory: &mut [u8], packet: &mut [u8]) -> u32 {
    (0..BLOCKS).filter(|&block| plain_write(black_box(memory), black_box(packet), block)).count() as u32
}

fn plain_spi_reads(memory: &mut [u8], out: &mut [u8]) -> u32 {
    for block in 0..BLOCKS {
        let out = black_box(&mut *out);
        out[0] = START_BLOCK;
        plain_read(black_box(memory), &mut out[1..], block);
    }
    BLOCKS as u32
}

fn plain_spi_write(memory: &mut [u8], block: &[u8], number: usize) -> bool {
    block[0] == START_BLOCK_MULTIPLE && plain_write(memory, &block[1..], number)
}

fn plain_spi_writes(memory: &mut [u8], block: &mut [u8]) -> u32 {
    (0..BLOCKS).filter(|&number| plain_spi_write(black_box(memory), black_box(block), number)).count() as u32
}

// What is measured: two ways to do it, what clears the bytes that it writes, and whether they are right again behind it.
struct Measured {
    name: &'static str,
    ways: [fn(&mut [u8], &mut [u8]) -> u32; 2],
    clear: fn(&mut [u8], &mut [u8]),
    right: fn(&[u8], &[u8]) -> bool,
}

// The best of forty runs each, by turns, so that both have the machine at the same speed.
fn measure(measured: Measured, memory: &mut [u8], block: &mut [u8]) {
    let mut best = [f64::MAX; 2];
    for _ in 0..40 {
        for (way, run) in measured.ways.into_iter().enumerate() {
            (measured.clear)(memory, block);
            let start = Instant::now();
            assert_eq!(run(memory, block), BLOCKS as u32);
            best[way] = best[way].min(start.elapsed().as_nanos() as f64 / BLOCKS as f64);
            assert!((measured.right)(memory, block));
        }
    }
    let [p, q] = best;
    println!("{}: proved {p:.0} ns a block, plain Rust {q:.0} ns a block, ratio {:.2}", measured.name, p / q);
}

// A block's token, if it has one, and its packet.
fn parts(block: &[u8]) -> (&[u8], &[u8]) {
    block.split_at(block.len() - PACKET)
}

fn main() {
    let is_spi = std::env::args().nth(1).as_deref() == Some("spi");
    let mut memory = vec![0u8; BLOCKS * 512];
    let mut x: u32 = 1;
    for b in memory.iter_mut() {
        x = x.wrapping_mul(1664525).wrapping_add(1013904223);
        *b = (x >> 24) as u8;
    }
    let mut block = vec![0u8; PACKET + usize::from(is_spi)];
    let reading = Measured {
        name: if is_spi { "command 18, SPI" } else { "command 18" },
        ways: [reads, if is_spi { plain_spi_reads } else { plain_reads }],
        clear: |_, out| out.fill(0),
        right: |memory, out| {
            let last = &memory[(BLOCKS - 1) * 512..];
            let (token, packet) = parts(out);
            token.iter().all(|&token| token == START_BLOCK)
                && packet[..512] == *last
                && packet[512..] == crc16(last).to_be_bytes()
        },
    };
    measure(reading, &mut memory, &mut block);
    if is_spi {
        block[0] = START_BLOCK_MULTIPLE;
    }
    let writing = Measured {
        name: if is_spi { "command 25, SPI" } else { "command 25" },
        ways: [writes, if is_spi { plain_spi_writes } else { plain_writes }],
        clear: |memory, _| memory.fill(0),
        right: |memory, block| memory.chunks(512).all(|stored| *stored == parts(block).1[..512]),
    };
    measure(writing, &mut memory, &mut block);
}
