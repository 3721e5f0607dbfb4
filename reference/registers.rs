//! CID and CSD of the reference card, made from its settings.

use super::{crc7, Cid, Settings};

impl Settings {
    /// C_SIZE and the smallest C_SIZE_MULT that give the block count.
    pub(super) fn c_size(&self) -> Option<(u32, u32)> {
        (0..=7).find_map(|mult| {
            let unit = 1 << (mult + 2);
            let units = self.block_count / unit;
            (self.block_count % unit == 0 && (1..=4096).contains(&units)).then(|| (units - 1, mult))
        })
    }

    pub(super) fn cid_register(&self) -> [u8; 16] {
        let Cid { mid, oid, pnm, prv, psn, mdt } = self.cid;
        let [p0, p1, p2, p3, p4] = pnm.map(u32::from);
        register(&[
            (8, u32::from(mid)),
            (16, u32::from(oid)),
            (8, p0),
            (8, p1),
            (8, p2),
            (8, p3),
            (8, p4),
            (8, u32::from(prv)),
            (32, psn),
            (4, 0),
            (12, u32::from(mdt)),
        ])
    }

    pub(super) fn csd_register(&self) -> [u8; 16] {
        let (c_size, c_size_mult) = self.c_size().unwrap_or_default();
        register(&[
            (2, 0),      // CSD_STRUCTURE
            (6, 0),      // reserved
            (8, 0x26),   // TAAC
            (8, 0),      // NSAC
            (8, 0x32),   // TRAN_SPEED
            (12, 0x1F5), // CCC
            (4, 9),      // READ_BL_LEN
            (1, 1),      // READ_BL_PARTIAL
            (1, 0),      // WRITE_BLK_MISALIGN
            (1, 0),      // READ_BLK_MISALIGN
            (1, 0),      // DSR_IMP
            (2, 0),      // reserved
            (12, c_size),
            (3, 0), // VDD_R_CURR_MIN
            (3, 0), // VDD_R_CURR_MAX
            (3, 0), // VDD_W_CURR_MIN
            (3, 0), // VDD_W_CURR_MAX
            (3, c_size_mult),
            (1, 1),  // ERASE_BLK_EN
            (7, 31), // SECTOR_SIZE
            (7, 0),  // WP_GRP_SIZE
            (1, 1),  // WP_GRP_ENABLE
            (2, 0),  // reserved
            (3, 0),  // R2W_FACTOR
            (4, 9),  // WRITE_BL_LEN
            (1, 0),  // WRITE_BL_PARTIAL
            (5, 0),  // reserved
            (1, 0),  // FILE_FORMAT_GRP
            (1, 0),  // COPY
            (1, u32::from(self.perm_write_protect)),
            (1, u32::from(self.tmp_write_protect)),
            (2, 0), // FILE_FORMAT
            (2, 0), // reserved
        ])
    }
}

/// Packs (width, value) fields, high bit first, and ends with CRC7 and a 1.
fn register(fields: &[(u32, u32)]) -> [u8; 16] {
    let content = fields.iter().fold(0u128, |bits, &(width, value)| bits << width | u128::from(value));
    let mut register = (content << 8).to_be_bytes();
    register[15] = crc7(&register[..15]) << 1 | 1;
    register
}
