//! What documents 01 and 02 say of each call: its answer, and the room after it. An answer is a number, or in 64 bits a number and a value.

use crate::amend::{self, Amendment};
use crate::field::Code;
use crate::inventory::{Change, Inventory};
use crate::jobs::{self, Hash};
use crate::par1::Refusal;
use crate::{catalog, differences, field, md5, md5sum, par1, replay};

/// A refusal changes nothing; 14 where the room is shorter than what is to be written; else 0, and the room's first bytes.
fn written<A: From<u32>>(value: Result<Vec<u8>, A>, room: &[u8]) -> (A, Vec<u8>) {
    match value {
        Err(refusal) => (refusal, room.to_vec()),
        Ok(bytes) if room.len() < bytes.len() => (14.into(), room.to_vec()),
        Ok(bytes) => (0.into(), [&bytes, &room[bytes.len()..]].concat()),
    }
}

/// The same, and the answer of an accepted call has the length of what it wrote as its value.
fn length_told(value: Result<Vec<u8>, u64>, room: &[u8]) -> (u64, Vec<u8>) {
    let length = value.as_ref().map_or(0, Vec::len) as u64;
    let (answer, after) = written(value, room);
    (if answer == 0 { 32 * length } else { answer }, after)
}

pub fn md5(bytes: &[u8], room: &[u8]) -> (u32, Vec<u8>) {
    written(Ok(md5::digest(bytes).to_vec()), room)
}

pub fn inverse(x: u8, room: &[u8]) -> (u32, Vec<u8>) {
    written(field::inverse(x).map(|b| vec![b]).ok_or(10), room)
}

/// The code of a number, or 10, as for any number outside its range.
fn code_of(number: u32) -> Result<Code, u32> {
    Code::of(number as u64).ok_or(10)
}

pub fn coefficient(code: u32, f: u64, v: u64, room: &[u8]) -> (u32, Vec<u8>) {
    let out_of_range = f == 0 || v == 0 || f as u128 + v as u128 > 255;
    let factor = |code| if out_of_range { Err(10) } else { Ok(vec![field::coefficient(code, f as u8, v as u8)]) };
    written(code_of(code).and_then(factor), room)
}

/// Numbers of 64 bits, lowest byte first, one after another.
fn bytes(numbers: &[u64]) -> Vec<u8> {
    numbers.iter().flat_map(|x| x.to_le_bytes()).collect()
}

pub fn read(file: &[u8], room: &[u8]) -> (u64, Vec<u8>) {
    written(par1::read(file).map(|parts| bytes(&parts)).map_err(Refusal::answer), room)
}

/// Length, status and file size of the first entry; three zeros where the list is over.
pub fn entry(list: &[u8], room: &[u8]) -> (u32, Vec<u8>) {
    let numbers = if list.is_empty() {
        Ok([0; 3])
    } else {
        par1::entry(list).map(|(e, length)| [length as u64, e.status, e.size])
    };
    written(numbers.map(|n| bytes(&n)), room)
}

pub fn write_entry(contents: &[u8], status: u64, name: &[u8], room: &[u8]) -> (u32, Vec<u8>) {
    written(par1::write_entry(contents, status, name), room)
}

/// Another code is 10, first of all.
pub fn write_volume(code: u32, program: u32, number: u64, list: &[u8], data: &[u8], room: &[u8]) -> (u64, Vec<u8>) {
    let volume = code_of(code).map_err(Refusal::from).and_then(|code| par1::write_volume(code, program, number, list, data));
    written(volume.map_err(Refusal::answer), room)
}

/// The value of an accepted amendment is the volume's new length.
pub fn amend(room: &[u8], length: u64, a: &Amendment) -> (u64, Vec<u8>) {
    length_told(amend::amend(room, length, a).map_err(Refusal::answer), room)
}

/// The value is the length of the lines; no pair of files is refused but for the room.
pub fn compare(one: &[u8], two: &[u8], room: &[u8]) -> (u64, Vec<u8>) {
    length_told(Ok(differences::compare(one, two)), room)
}

/// The value is the length of the text.
pub fn export(file: &[u8], room: &[u8]) -> (u64, Vec<u8>) {
    length_told(md5sum::export(file).map_err(Refusal::answer), room)
}

/// The value is the number of entries, each of which takes a byte.
pub fn import(file: &[u8], text: &[u8], room: &[u8]) -> (u64, Vec<u8>) {
    length_told(md5sum::import(file, text).map_err(Refusal::answer), room)
}

/// The value of an accepted call on a catalog is its length, of loading the number of entries.
pub fn catalog_open(file: &[u8], room: &[u8]) -> (u64, Vec<u8>) {
    length_told(catalog::open(file).map_err(Refusal::answer), room)
}

pub fn catalog_add(room: &[u8], volume: &[u8]) -> (u64, Vec<u8>) {
    length_told(catalog::add(room, volume).map_err(Refusal::answer), room)
}

pub fn catalog_drop(room: &[u8], number: u64) -> (u64, Vec<u8>) {
    length_told(catalog::drop(room, number).map_err(Refusal::answer), room)
}

/// The records that are filled; the others stay.
pub fn catalog_load(bytes: &[u8], records: usize) -> (u64, Vec<catalog::Row>) {
    match catalog::load(bytes, records) {
        Ok(rows) => (32 * rows.len() as u64, rows),
        Err(refusal) => (refusal.answer(), vec![]),
    }
}

/// The sizes are numbers of 64 bits; bytes left over make their number another one than n.
pub fn open(code: u32, n: u64, sizes: &[u8], room: &[u8]) -> (u32, Vec<u8>) {
    let numbers: Vec<u64> = sizes.chunks_exact(8).map(|b| u64::from_le_bytes(b.try_into().unwrap())).collect();
    let opened = |code| if sizes.len() % 8 == 0 { Inventory::open(code, n, &numbers) } else { Err(10) };
    written(code_of(code).and_then(opened).map(|i| i.bytes()), room)
}

pub fn change(inventory: &[u8], change: Change, number: u64) -> (u32, Vec<u8>) {
    let Some(mut next) = Inventory::parse(inventory) else { return (10, inventory.to_vec()) };
    let refusal = next.change(change, number);
    (refusal, if refusal == 0 { next.bytes() } else { inventory.to_vec() })
}

pub fn count(inventory: &[u8], room: &[u8]) -> (u32, Vec<u8>) {
    let counts = Inventory::parse(inventory).map(|i| i.count()).ok_or(10);
    written(counts.map(|counts| bytes(&counts)), room)
}

pub fn query(inventory: &[u8], file: u64, room: &[u8]) -> (u32, Vec<u8>) {
    written(Inventory::parse(inventory).ok_or(10).and_then(|i| i.query(file)), room)
}

/// The value is the length of the text; what ends a replay is a line of it.
pub fn replay(log: &[u8], room: &[u8]) -> (u64, Vec<u8>) {
    length_told(Ok(replay::replay(log)), room)
}

/// 20 where the hash is over, and then nothing changes.
pub fn hash_push(hash: &Hash, bytes: &[u8]) -> (u32, Hash) {
    if hash.ended != 0 { (20, *hash) } else { (0, hash.pushed(bytes)) }
}

/// The room after 20, 14 or an accepted end.
pub fn hash_end(hash: &Hash, room: &[u8]) -> (u32, Vec<u8>) {
    written(if hash.ended != 0 { Err(20) } else { Ok(hash.digest().to_vec()) }, room)
}

pub fn mul_add_start(weight: u8, room: &[u8]) -> (u32, Vec<u8>) {
    written(Ok(bytes(&[weight as u64, 0, 0])), room)
}

/// The number, the job and the buffer; 20 changes neither.
pub fn mul_add_push(job: &[u8], fragment: &[u8], buffer: &[u8]) -> (u32, Vec<u8>, Vec<u8>) {
    if jobs::mul_add_refused(job) {
        return (20, job.to_vec(), buffer.to_vec());
    }
    let (next, buffer) = jobs::mul_add_pushed(job, fragment, buffer);
    (0, next, buffer)
}
