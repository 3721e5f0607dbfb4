//! What the differential tester's host does about the lock: command 42, and the block for it.

use crate::calls::{block, packet, sized_block, Call};
use crate::card::{Transfer, BLOCK, PACKET};
use crate::chance::Rng;
use crate::host::Host;
use crate::lines::LONGEST_BLOCK;
use crate::lock_calls::{lock_len, lock_payload};

impl Host {
    /// Command 42, mostly behind a length for its block. Replay reads blocks of 514 bytes only.
    pub fn lock_unlock(&mut self, rng: &mut Rng) -> Call {
        let length = if self.is_console { lock_len(rng, &self.card) } else { BLOCK as u32 };
        let argument = if rng.chance(70) { 0 } else { rng.word() };
        let command = Call::command(42, argument);
        if length == self.card.block_len || rng.chance(10) {
            return command;
        }
        self.plan.push_front(command);
        Call::command(16, length)
    }

    /// A block for the transfer that is open.
    pub fn block(&self, rng: &mut Rng) -> Call {
        if self.card.transfer != Transfer::LockUnlock || !self.is_console && self.card.packet_size() != PACKET
        {
            return block(rng);
        }
        let payload = lock_payload(rng, &self.card, &self.former);
        packet(rng, payload)
    }

    /// A block of a size that is not due; for 42 mostly one that carries something.
    pub fn sized_block(&self, rng: &mut Rng) -> Call {
        if self.card.transfer != Transfer::LockUnlock || rng.chance(30) {
            return sized_block(rng);
        }
        let Call::Blk(mut block) = self.block(rng) else {
            unreachable!("a block was asked for");
        };
        let size = block.len();
        let other = rng.pick(&[size - 2, size - 1, size + 1, size + 2, BLOCK, PACKET, 6, 8]);
        block.resize(other.min(LONGEST_BLOCK), 0);
        Call::Blk(block)
    }
}
