//! The C library's calls on catalogs. Rooms and records have guards on both sides.

use crate::calls::lent;
use crate::catalog::Row;
use crate::pages::{self, readable};
use crate::refusals::{counted, Call};

/// `struct par1_row` as memory has it: the file number in the low half of the first word, whose other half is padding; the size; the MD5.
type Record = [u64; 4];

extern "C" {
    fn par1_catalog_open(file: *const u8, file_len: usize, out: *mut u8, out_len: usize) -> u64;
    fn par1_catalog_add(catalog: *mut u8, catalog_len: usize, volume: *const u8, volume_len: usize) -> u64;
    fn par1_catalog_drop(catalog: *mut u8, catalog_len: usize, number: u64) -> u64;
    fn par1_catalog_load(catalog: *const u8, catalog_len: usize, rows: *mut Record, rows_len: usize) -> u64;
}

pub fn open(file: &[u8], room: &[u8]) -> (u64, Vec<u8>) {
    let [file] = readable([file]);
    lent(Call::CatalogOpen, room, |out, len| unsafe { par1_catalog_open(file.as_ptr(), file.len(), out, len) })
}

pub fn add(room: &[u8], volume: &[u8]) -> (u64, Vec<u8>) {
    let [volume] = readable([volume]);
    lent(Call::CatalogAdd, room, |catalog, len| unsafe { par1_catalog_add(catalog, len, volume.as_ptr(), volume.len()) })
}

pub fn drop(room: &[u8], number: u64) -> (u64, Vec<u8>) {
    lent(Call::CatalogDrop, room, |catalog, len| unsafe { par1_catalog_drop(catalog, len, number) })
}

fn row(record: &Record) -> Row {
    let hash: Vec<u8> = record[2..].iter().flat_map(|word| word.to_le_bytes()).collect();
    Row { number: record[0] as u32, size: record[1], hash: hash.try_into().unwrap() }
}

/// Lends records out of the middle of these, which have a guard of two on both sides, or a page that cannot be touched beside them.
fn lent_records(space: &mut [Record], call: impl FnOnce(*mut Record) -> u64) -> u64 {
    let middle = 2..space.len() - 2;
    let Some(side) = pages::side() else { return call(space[middle].as_mut_ptr()) };
    let bytes: Vec<u8> = space[middle.clone()].iter().flatten().flat_map(|word| word.to_le_bytes()).collect();
    let (answer, after) = pages::lent(side, &bytes, |records, _| call(records.cast()));
    for (word, bytes) in space[middle].iter_mut().flatten().zip(after.chunks(8)) {
        *word = u64::from_le_bytes(bytes.try_into().unwrap());
    }
    answer
}

/// The answer and the records that it says are filled. One past them that changed, or a guard, ends the run.
pub fn load(catalog: &[u8], records: usize) -> (u64, Vec<Row>) {
    let [catalog] = readable([catalog]);
    let paint: Vec<Record> = (0..records as u64 + 4).map(|i| [!i, i << 40 | 5, !i << 9, i << 50 | 7]).collect();
    let mut space = paint.clone();
    let answer = lent_records(&mut space, |rows| unsafe { par1_catalog_load(catalog.as_ptr(), catalog.len(), rows, records) });
    counted(Call::CatalogLoad, answer);
    let filled = if answer % 32 == 0 { (answer / 32) as usize } else { 0 };
    assert!(filled <= records, "more records than were lent");
    assert!(space[..2] == paint[..2] && space[2 + filled..] == paint[2 + filled..], "a record past those filled was written");
    (answer, space[2..2 + filled].iter().map(row).collect())
}
