//! The lock of the reference card: what a block of command 42 does (02, order 4).

use super::{Card, LOCK_UNLOCK_FAILED, MARK_BYTES};

pub const LONGEST_PASSWORD: usize = 16;

const SET_PWD: u8 = 1 << 0;
const CLR_PWD: u8 = 1 << 1;
const LOCK_UNLOCK: u8 = 1 << 2;
const ERASE: u8 = 1 << 3;
/// The rest is reserved and ignored.
const FLAGS: u8 = ERASE | LOCK_UNLOCK | CLR_PWD | SET_PWD;

const UNLOCK: u8 = 0;
const SET_AND_LOCK: u8 = SET_PWD | LOCK_UNLOCK;

#[derive(Clone, Copy, Debug, Default, PartialEq, Eq)]
pub struct Password {
    pub bytes: [u8; LONGEST_PASSWORD],
    /// 0 where none is set.
    pub length: u8,
}

impl Password {
    /// None where it is empty or too long.
    pub fn new(content: &[u8]) -> Option<Password> {
        if !(1..=LONGEST_PASSWORD).contains(&content.len()) {
            return None;
        }
        let mut bytes = [0; LONGEST_PASSWORD];
        bytes[..content.len()].copy_from_slice(content);
        Some(Password { bytes, length: content.len() as u8 })
    }

    pub fn is_allowed(&self) -> bool {
        usize::from(self.length) <= LONGEST_PASSWORD
    }

    pub fn is_set(&self) -> bool {
        self.length > 0
    }

    pub fn content(&self) -> &[u8] {
        &self.bytes[..usize::from(self.length)]
    }

    /// With nothing behind its length.
    pub fn trimmed(&self) -> Password {
        Password::new(self.content()).unwrap_or_default()
    }
}

impl Card {
    /// The operation of a block whose check is right. Only its status bit shows that it failed.
    pub(super) fn lock_unlock(&mut self, block: &[u8], memory: &mut [u8]) {
        if self.operate(block, memory).is_none() {
            self.status |= LOCK_UNLOCK_FAILED;
        }
    }

    /// Nothing where it fails, and then nothing has changed.
    fn operate(&mut self, block: &[u8], memory: &mut [u8]) -> Option<()> {
        let flags = block.first()? & FLAGS;
        if flags == ERASE {
            return self.force_erase(memory);
        }
        let pwds_len = usize::from(*block.get(1)?);
        let data = block.get(2..2 + pwds_len)?;
        match flags {
            SET_PWD => self.set_password(data, false),
            SET_AND_LOCK => self.set_password(data, true),
            CLR_PWD => self.clear_password(data),
            LOCK_UNLOCK => self.change_lock(data, true),
            UNLOCK => self.change_lock(data, false),
            _ => None,
        }
    }

    fn force_erase(&mut self, memory: &mut [u8]) -> Option<()> {
        if !self.locked || self.settings.perm_write_protect {
            return None;
        }
        memory.fill(0);
        self.write_prot = [0; MARK_BYTES];
        self.settings.tmp_write_protect = false;
        self.remove_password();
        Some(())
    }

    /// The old password, if there is one, stands before the new one. How long it is the card knows.
    fn set_password(&mut self, data: &[u8], locked: bool) -> Option<()> {
        let new = data.strip_prefix(self.settings.password.content())?;
        self.settings.password = Password::new(new)?;
        self.locked = locked;
        Some(())
    }

    fn clear_password(&mut self, data: &[u8]) -> Option<()> {
        self.check_password(data)?;
        self.remove_password();
        Some(())
    }

    fn change_lock(&mut self, data: &[u8], locked: bool) -> Option<()> {
        self.check_password(data)?;
        if self.locked == locked {
            return None;
        }
        self.locked = locked;
        Some(())
    }

    fn check_password(&self, data: &[u8]) -> Option<()> {
        let password = &self.settings.password;
        (password.is_set() && data == password.content()).then_some(())
    }

    fn remove_password(&mut self) {
        self.settings.password = Password::default();
        self.locked = false;
    }
}
