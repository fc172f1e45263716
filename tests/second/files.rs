//! Files with contents, status and name, and the volumes that are written afresh from them.

use crate::compare_faults::put;
use crate::field::{self, Code};
use crate::{par1, Random};

#[derive(Clone)]
pub struct File {
    pub contents: Vec<u8>,
    pub status: u64,
    pub name: Vec<u8>,
}

impl File {
    /// Its entry, with any status and any units in its name: writing an entry takes no status above 1, and not every name.
    pub fn entry(&self) -> Vec<u8> {
        let mut entry = par1::write_entry(&self.contents, 0, &b"A\0".repeat(self.name.len() / 2)).unwrap();
        put(&mut entry, 8, self.status);
        entry[56..].copy_from_slice(&self.name);
        entry
    }

    pub fn is_saved(&self) -> bool {
        self.status % 2 == 1
    }
}

/// Contents of this length, any 64 bits of status but that of saved, a name of one to four units.
pub fn file(random: &mut Random, length: usize, saved: bool) -> File {
    let bits = (random.below(1 << 31) as u64) << 33 | (random.below(1 << 31) as u64) << 2;
    let status = [0, 2, bits, u64::MAX - 1][random.below(4)] | saved as u64;
    let units = 1 + random.below(4);
    let name = (0..units).flat_map(|_| [65 + random.below(26) as u8, random.below(3) as u8]).collect();
    File { contents: random.bytes(length), status, name }
}

/// Where the saved files stand; file f is the one at place f - 1 of these.
pub fn saved(files: &[File]) -> Vec<usize> {
    (0..files.len()).filter(|&i| files[i].is_saved()).collect()
}

pub fn list(files: &[File]) -> Vec<u8> {
    files.iter().flat_map(File::entry).collect()
}

/// Volume v of the files as they are now, by the factors of a code.
pub fn afresh(code: Code, files: &[File], v: u64) -> Vec<u8> {
    let contents: Vec<Vec<u8>> = saved(files).into_iter().map(|i| files[i].contents.clone()).collect();
    par1::write_volume(code, 0x0500_0001, v, &list(files), &field::parity(code, &contents, v)).unwrap()
}
