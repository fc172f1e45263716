//! Jobs, written from document 02 (2026-03) and the layouts of include/par1.h alone: what a job holds, what a push makes of it, and when it is
//! refused with 20, "pushed or ended after the end, or a job whose counts no run of pushes gives".

use crate::{field, md5};

/// A running hash, `struct par1_hash`.
#[repr(C)]
#[derive(Clone, Copy, Debug, PartialEq)]
pub struct Hash {
    pub words: [u32; 4],
    pub tail: [u8; 64],
    pub total: u64,
    pub ended: u64,
}

/// The hash of no bytes.
pub const HASH: Hash = Hash { words: md5::START, tail: [0; 64], total: 0, ended: 0 };

impl Hash {
    /// As it lies in memory, and back.
    pub fn bytes(&self) -> [u8; 96] {
        unsafe { std::mem::transmute(*self) }
    }

    pub fn of(bytes: &[u8]) -> Hash {
        unsafe { std::mem::transmute::<[u8; 96], Hash>(bytes.try_into().unwrap()) }
    }

    /// Whole blocks go into the words, the rest waits in the tail.
    pub fn pushed(mut self, bytes: &[u8]) -> Hash {
        let all = [&self.tail[..self.total as usize % 64], bytes].concat();
        let (whole, rest) = all.split_at(all.len() / 64 * 64);
        self.words = md5::blocks(self.words, whole);
        self.tail = [0; 64];
        self.tail[..rest.len()].copy_from_slice(rest);
        self.total = self.total.wrapping_add(bytes.len() as u64);
        self
    }

    pub fn digest(self) -> [u8; 16] {
        md5::output(self.pushed(&md5::padding(self.total)).words)
    }
}

/// The number at this place of a job's bytes.
pub fn number(job: &[u8], at: usize) -> u64 {
    u64::from_le_bytes(job[at..at + 8].try_into().unwrap())
}

/// The length of a mul_add in chunks, and where its numbers stand.
pub const MUL_ADD: usize = 24;
pub const WEIGHT: usize = 0;
pub const POSITION: usize = 8;
pub const MUL_ADD_ENDED: usize = 16;

pub fn mul_add_refused(job: &[u8]) -> bool {
    job.len() != MUL_ADD || number(job, WEIGHT) > 255 || number(job, MUL_ADD_ENDED) != 0
}

/// Job and buffer after a push: the bytes of the buffer from the position on are those of the fragment's mul_add.
pub fn mul_add_pushed(job: &[u8], fragment: &[u8], buffer: &[u8]) -> (Vec<u8>, Vec<u8>) {
    let (weight, position) = (number(job, WEIGHT) as u8, number(job, POSITION));
    let (before, after) = buffer.split_at(position.min(buffer.len() as u64) as usize);
    let mut next = job.to_vec();
    next[POSITION..POSITION + 8].copy_from_slice(&position.saturating_add(fragment.len() as u64).to_le_bytes());
    (next, [before, &field::mul_add(weight, fragment, after)].concat())
}

/// The length of a reading in chunks, where its counts stand, and where its total stops.
pub const READ: usize = 392;
pub const TOTAL: usize = 0;
pub const CONTROL_TOTAL: usize = 184;
pub const AT: usize = 248;
pub const ENTRIES: usize = 272;
pub const SAVED: usize = 280;
pub const SET_TOTAL: usize = 376;
pub const READ_ENDED: usize = 384;
pub const MOST: u64 = 33_554_433;

/// Bytes from 32 on are hashed; those from 96 on can be entries, each whole one of 58 bytes or more, whose MD5s are hashed where it is saved.
pub fn read_refused(job: &[u8]) -> bool {
    if job.len() != READ {
        return true;
    }
    let [total, control, at, entries, saved, set, ended] =
        [TOTAL, CONTROL_TOTAL, AT, ENTRIES, SAVED, SET_TOTAL, READ_ENDED].map(|place| number(job, place) as u128);
    let given = total <= MOST as u128
        && control == total.saturating_sub(32)
        && at + 58 * entries <= total.saturating_sub(96)
        && saved <= entries
        && set == 16 * saved;
    !given || ended != 0
}
