// The CRC16 in plain Rust, a byte at a time from a table of its own.

pub const POLY: u16 = 0x1021;

pub const fn shift(r: u16, poly: u16) -> u16 {
    if r & 0x8000 != 0 {
        (r << 1) ^ poly
    } else {
        r << 1
    }
}

const TABLE: [u16; 256] = {
    let mut t = [0u16; 256];
    let mut b = 0;
    while b < 256 {
        let mut r = (b as u16) << 8;
        let mut k = 0;
        while k < 8 {
            r = shift(r, POLY);
            k += 1;
        }
        t[b] = r;
        b += 1;
    }
    t
};

pub fn crc16(s: &[u8]) -> u16 {
    let mut r: u16 = 0;
    for &b in s {
        let x = r ^ ((b as u16) << 8);
        r = (x << 8) ^ TABLE[(x >> 8) as usize];
    }
    r
}
