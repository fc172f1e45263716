//! Par 1.0 files, written from document 000, document 01 ("Byte layout", "What comes back") and document 02 (2026-01, 2026-02,
//! 2026-09, 2026-13, 2026-14) alone.

use crate::field::{Code, CODES};
use crate::md5::digest;

const MAGIC: &[u8; 8] = b"PAR\0\0\0\0\0";
pub const FILE_LIMIT: u64 = 16_777_216;
pub const VOLUME_LIMIT: usize = 33_554_432;

/// The bytes of the numbers that reading gives.
pub const PARTS: usize = 64;

/// "32-bit version, 65,536"; "The layout is that of 01 with version 131,328"
pub fn version(code: Code) -> u32 {
    match code {
        Code::Powers => 65_536,
        Code::Cauchy => 131_328,
    }
}

fn number(bytes: &[u8]) -> u64 {
    bytes.iter().rev().fold(0, |n, &b| n << 8 | b as u64)
}

/// A refusal: its number, and the place in its list, from 1, of the entry at fault, or in its text of the line; 0 where there is none.
#[derive(Debug)]
pub struct Refusal {
    pub number: u32,
    pub place: u64,
}

impl Refusal {
    /// As C gets it: the number, and 32 times the place.
    pub fn answer(self) -> u64 {
        self.number as u64 + 32 * self.place
    }
}

impl From<u32> for Refusal {
    fn from(number: u32) -> Refusal {
        Refusal { number, place: 0 }
    }
}

/// The refusal `number` unless its test is passed.
pub fn test(number: u32, passed: bool) -> Result<(), u32> {
    if passed { Ok(()) } else { Err(number) }
}

/// What an entry says, in the layout's order.
#[derive(Clone)]
pub struct Entry {
    pub status: u64,
    pub size: u64,
    pub md5: [u8; 16],
    pub md5_16k: [u8; 16],
    pub name: Vec<u8>,
}

/// "no unit is 47 ("/") or 92 ("\\")"; "Units 0 and 58 (":") are now not allowed anywhere, nor the whole names "." and "..""
fn name_allowed(name: &[u8]) -> bool {
    let units: Vec<u64> = name.chunks(2).map(number).collect();
    let whole = name.len() % 2 == 0 && !units.is_empty();
    whole && units != [46] && units != [46, 46] && units.iter().all(|unit| ![0, 47, 58, 92].contains(unit))
}

/// "entry size odd, below 58, past the list's end .. or fewer than 8 bytes left": the size of the first entry, where it is none of these
fn entry_size(list: &[u8]) -> Result<usize, u32> {
    test(16, list.len() >= 8)?;
    let size = number(&list[..8]);
    test(16, size % 2 == 0 && size >= 58 && size <= list.len() as u64)?;
    Ok(size as usize)
}

/// What an entry says whose size is right. "17 file size above the limit", "18 name unit not allowed", "in that order"
fn fields(e: &[u8]) -> Result<Entry, u32> {
    let entry = Entry {
        status: number(&e[8..16]),
        size: number(&e[16..24]),
        md5: e[24..40].try_into().unwrap(),
        md5_16k: e[40..56].try_into().unwrap(),
        name: e[56..].to_vec(),
    };
    test(17, entry.size <= FILE_LIMIT)?;
    test(18, name_allowed(&entry.name))?;
    Ok(entry)
}

/// The first entry of a list and its length, or the number of the first rule that it breaks.
pub fn entry(list: &[u8]) -> Result<(Entry, usize), u32> {
    let size = entry_size(list)?;
    Ok((fields(&list[..size])?, size))
}

/// "(lone entry) short of its slice"
pub fn lone_entry(slice: &[u8]) -> Result<Entry, u32> {
    test(16, entry_size(slice)? == slice.len())?;
    fields(slice)
}

/// "Entries are walked from the first; the first fault is given with the entry's place in the list, from 1"
pub fn entries(mut list: &[u8]) -> Result<Vec<Entry>, Refusal> {
    let mut found = vec![];
    while !list.is_empty() {
        let (e, length) = entry(list).map_err(|number| Refusal { number, place: found.len() as u64 + 1 })?;
        found.push(e);
        list = &list[length..];
    }
    Ok(found)
}

fn saved(list: &[Entry]) -> Vec<&Entry> {
    list.iter().filter(|e| e.status % 2 == 1).collect()
}

fn set_hash(list: &[Entry]) -> [u8; 16] {
    digest(&saved(list).iter().flat_map(|e| e.md5).collect::<Vec<u8>>())
}

fn numbers_fit(number: u64, n: u64) -> bool {
    n <= 254 && (number == 0 || (n > 0 && number <= 255 - n))
}

/// "data size is the greatest size among saved entries"; 0 where none is saved
pub fn data_size(list: &[Entry]) -> u64 {
    saved(list).iter().map(|e| e.size).max().unwrap_or(0)
}

fn data_fits(number: u64, list: &[Entry], size: u64) -> bool {
    if number == 0 { size % 2 == 0 } else { size == data_size(list) }
}

/// Tests 1 to 5, 16 to 19, 7 to 9 in order; "test 3 now passes both"; accepted: program, volume number, entries, saved entries, list size, data start,
/// data size, code.
pub fn read(file: &[u8]) -> Result<[u64; 8], Refusal> {
    test(1, file.len() >= 96 && file.len() <= VOLUME_LIMIT)?;
    let field = |at: usize| number(&file[at..at + 8]);
    test(2, &file[..8] == MAGIC)?;
    let code = CODES.into_iter().find(|&code| number(&file[8..12]) == version(code) as u64).ok_or(3)?;
    let (list_start, list_size, data_start, data_size) = (field(64), field(72) as u128, field(80) as u128, field(88) as u128);
    test(4, list_start == 96 && data_start == 96 + list_size && data_start + data_size == file.len() as u128)?;
    test(5, digest(&file[32..]) == file[16..32])?;
    let list = entries(&file[96..96 + list_size as usize])?;
    test(19, list.len() as u64 == field(56))?;
    let n = saved(&list).len() as u64;
    test(7, numbers_fit(field(48), n))?;
    test(8, set_hash(&list) == file[32..48])?;
    test(9, data_fits(field(48), &list, data_size as u64))?;
    Ok([number(&file[12..16]), field(48), field(56), n, list_size as u64, data_start as u64, data_size as u64, code.number() as u64])
}

/// Tests 16 to 18, 7, 9, 1; the caller tests 14. The count is its own, so there is no 19.
pub fn write_volume(code: Code, program: u32, volume: u64, list: &[u8], data: &[u8]) -> Result<Vec<u8>, Refusal> {
    let parsed = entries(list)?;
    test(7, numbers_fit(volume, saved(&parsed).len() as u64))?;
    test(9, data_fits(volume, &parsed, data.len() as u64))?;
    test(1, 96 + list.len() + data.len() <= VOLUME_LIMIT)?;
    let start = 96 + list.len() as u64;
    let mut rest = set_hash(&parsed).to_vec();
    for x in [volume, parsed.len() as u64, 96, list.len() as u64, start, data.len() as u64] {
        rest.extend(x.to_le_bytes());
    }
    rest.extend(list);
    rest.extend(data);
    Ok([&MAGIC[..], &version(code).to_le_bytes(), &program.to_le_bytes(), &digest(&rest), &rest].concat())
}

/// Tests 17 (contents, a status other than 0 and 1), 18 (a bad name, an empty or odd one too); the caller tests 14.
pub fn write_entry(contents: &[u8], status: u64, name: &[u8]) -> Result<Vec<u8>, u32> {
    test(17, contents.len() as u64 <= FILE_LIMIT && status <= 1)?;
    test(18, name_allowed(name))?;
    let mut e = (56 + name.len() as u64).to_le_bytes().to_vec();
    e.extend(status.to_le_bytes());
    e.extend((contents.len() as u64).to_le_bytes());
    e.extend(digest(contents));
    e.extend(digest(&contents[..contents.len().min(16384)]));
    e.extend(name);
    Ok(e)
}

/// Tests 16 to 18 of a lone entry, then 15; 0 where it is accepted.
pub fn check(slice: &[u8], contents: &[u8]) -> u32 {
    let checked = || {
        let e = lone_entry(slice)?;
        let first = &contents[..contents.len().min(16384)];
        test(15, e.size == contents.len() as u64 && e.md5 == digest(contents) && e.md5_16k == digest(first))
    };
    checked().err().unwrap_or(0)
}
