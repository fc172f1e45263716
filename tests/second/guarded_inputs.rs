//! Inputs for the calls beside guard pages: index files and volumes of two small sets, a catalog, an inventory and jobs that the calls of a round work
//! on, and ways of changing bytes.

use crate::compare_catalog::index;
use crate::compare_faults::put;
use crate::compare_par1::rehashed;
use crate::field::{Code, CODES};
use crate::files::{afresh, file, saved, File};
use crate::jobs::{number, Hash, HASH, MUL_ADD, READ};
use crate::{job_calls, par1, Random};

pub struct Inputs {
    pub random: Random,
    /// What is listed in the files of the first set.
    pub set: Vec<File>,
    /// Files that reading accepts.
    pub files: Vec<Vec<u8>>,
    pub catalog: Vec<u8>,
    pub inventory: Vec<u8>,
    pub hash: Hash,
    pub mul_add: Vec<u8>,
    /// A reading as it starts; one that runs; the file that it is given; how much of it, where that is known.
    pub fresh: Vec<u8>,
    pub reading: Vec<u8>,
    pub source: Vec<u8>,
    pub pushed: Option<usize>,
}

/// Numbers at the ends of ranges.
const EDGES: [u64; 24] = [
    0, 1, 2, 3, 57, 58, 59, 60, 95, 96, 97, 253, 254, 255, 256, 65_536, 131_328, 16_777_216, 16_777_217, 33_554_432, 1 << 32, 1 << 63, u64::MAX - 1, u64::MAX,
];

impl Random {
    pub fn pick<T: Clone>(&mut self, from: &[T]) -> T {
        from[self.below(from.len())].clone()
    }

    /// One of so many times.
    pub fn one_in(&mut self, n: usize) -> bool {
        self.below(n) == 0
    }
}

/// One to four files, most of them saved, of few bytes and now and then of some more than the 16k MD5 goes over; of half the sets all names fit a line.
fn set(random: &mut Random) -> Vec<File> {
    let plain = random.one_in(2);
    let one = |i| {
        let length = if random.one_in(200) { 16_380 + random.below(9) } else { random.pick(&[0, 1, 2, 7, 8, 31, 63, 64, 100]) };
        let saved = i == 0 || !random.one_in(4);
        let mut file = file(random, length, saved);
        if plain {
            file.name.chunks_mut(2).for_each(|unit| unit[1] = 0);
        }
        file
    };
    let mut files: Vec<File> = (0..4).map(one).collect();
    files.truncate(1 + random.below(4));
    files
}

/// An index and two volumes of each code.
fn files_of(random: &mut Random, set: &[File]) -> Vec<Vec<u8>> {
    let most = 255 - saved(set).len();
    let numbers = [1 + random.below(4), random.pick(&[5, 6, most - 1, most])];
    let volumes = |code: Code| numbers.map(|number| afresh(code, set, number as u64));
    CODES.into_iter().flat_map(|code| [vec![index(code, set)], volumes(code).to_vec()].concat()).collect()
}

impl Inputs {
    pub fn new(seed: u64) -> Inputs {
        let mut random = Random((seed ^ seed << 32).wrapping_mul(0x9e37_79b9_7f4a_7c15));
        random.below(2);
        let (set, other) = (set(&mut random), set(&mut random));
        let files = [files_of(&mut random, &set), files_of(&mut random, &other)].concat();
        let fresh = job_calls::read_start(&[0; READ]).1;
        Inputs {
            set,
            files,
            catalog: vec![],
            inventory: vec![],
            hash: HASH,
            mul_add: vec![0; MUL_ADD],
            reading: fresh.clone(),
            fresh,
            source: vec![],
            pushed: Some(0),
            random,
        }
    }

    pub fn number(&mut self) -> u64 {
        match self.random.below(4) {
            0 => self.random.pick(&EDGES),
            1 => self.random.below(256) as u64,
            _ => self.random.below(8) as u64,
        }
    }

    /// The number of a code, or of none.
    pub fn code(&mut self) -> u32 {
        if self.random.one_in(8) { self.number() as u32 } else { self.random.below(2) as u32 }
    }

    /// Up to so many bytes.
    pub fn bytes(&mut self, most: usize) -> Vec<u8> {
        let length = self.random.below(most + 1);
        self.random.bytes(length)
    }

    /// A room for so many bytes: of this length, a byte off, longer, shorter, none.
    pub fn room(&mut self, need: usize) -> Vec<u8> {
        let length = match self.random.below(8) {
            0 => self.random.pick(&[0, need.saturating_sub(1)]),
            1 => self.random.below(need + 1),
            2 => need + 1,
            3 => need + self.random.below(40),
            _ => need,
        };
        self.random.bytes(length)
    }

    /// The number of a file or of a volume that there is, most times.
    pub fn member(&mut self) -> u64 {
        if self.random.one_in(4) { self.number() } else { 1 + self.random.below(5) as u64 }
    }

    /// Bytes with one or two changes: a bit, a number, a byte that has a meaning, a byte more or less, cut, longer.
    pub fn changed(&mut self, mut bytes: Vec<u8>) -> Vec<u8> {
        for _ in 0..1 + self.random.below(2) {
            let n = bytes.len();
            match self.random.below(10) {
                0 => bytes.truncate(self.random.below(n + 1)),
                1 => bytes.extend(self.bytes(20)),
                2 => bytes.insert(self.random.below(n + 1), 10),
                3 if n > 0 => drop(bytes.remove(self.random.below(n))),
                4 | 5 if n >= 8 => put(&mut bytes, 8 * self.random.below(n / 8), self.number()),
                6 | 7 if n > 0 => bytes[self.random.below(n)] = self.random.pick(b"\0\n ./09:F\\a~\xff"),
                _ if n > 0 => bytes[self.random.below(n)] ^= 1 << self.random.below(8),
                _ => bytes.push(0),
            }
        }
        bytes
    }

    /// These bytes as they are, changed, or any bytes.
    pub fn any(&mut self, bytes: &[u8]) -> Vec<u8> {
        match self.random.below(8) {
            0 => self.bytes(200),
            1 | 2 => self.changed(bytes.to_vec()),
            _ => bytes.to_vec(),
        }
    }

    pub fn file(&mut self) -> Vec<u8> {
        self.files[self.random.below(self.files.len())].clone()
    }

    /// A file as it is, changed, with its control hash put right or not, with another unit at the end of its list, or any bytes.
    pub fn any_file(&mut self) -> Vec<u8> {
        let mut file = self.file();
        match self.random.below(16) {
            0 => self.bytes(200),
            1 | 2 => self.changed(file),
            3..=7 => rehashed(self.changed(file)),
            8 => {
                let end = 96 + number(&file, 72) as usize;
                file[end - 2..end].copy_from_slice(&[self.random.pick(b"\0./:A\\"), 0]);
                rehashed(file)
            }
            _ => file,
        }
    }

    /// The list and the data of a file that reading accepts.
    pub fn parts(&mut self) -> (Vec<u8>, Vec<u8>) {
        let file = self.file();
        let start = par1::read(&file).expect("a file that was written")[5] as usize;
        (file[96..start].to_vec(), file[start..].to_vec())
    }
}
