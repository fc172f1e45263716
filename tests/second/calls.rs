//! The C library's calls. Each room that a call writes has guard bytes on both sides; those of mul_add's buffer are where it is compared. Where `pages`
//! says so, rooms and slices lie beside pages that cannot be touched instead.

use crate::amend::Amendment;
use crate::inventory::Change;
use crate::pages::{self, readable};
use crate::refusals::{counted, Call};

extern "C" {
    fn par1_md5(bytes: *const u8, bytes_len: usize, out: *mut u8, out_len: usize) -> u32;
    fn par1_inverse(x: u8, out: *mut u8, out_len: usize) -> u32;
    fn par1_coefficient(code: u32, file: u64, volume: u64, out: *mut u8, out_len: usize) -> u32;
    fn par1_read(file: *const u8, file_len: usize, out: *mut u8, out_len: usize) -> u64;
    fn par1_entry(list: *const u8, list_len: usize, out: *mut u8, out_len: usize) -> u32;
    fn par1_write_entry(contents: *const u8, contents_len: usize, status: u64, name: *const u8, name_len: usize, out: *mut u8, out_len: usize) -> u32;
    fn par1_write_volume(code: u32, program: u32, number: u64, list: *const u8, list_len: usize, data: *const u8, data_len: usize, out: *mut u8, out_len: usize) -> u64;
    fn par1_amend(volume: *mut u8, volume_len: usize, length: u64, file: u64, place: u64, old: *const u8, old_len: usize, new: *const u8, new_len: usize, entry: *const u8, entry_len: usize) -> u64;
    fn par1_compare(one: *const u8, one_len: usize, two: *const u8, two_len: usize, out: *mut u8, out_len: usize) -> u64;
    fn par1_export(file: *const u8, file_len: usize, out: *mut u8, out_len: usize) -> u64;
    fn par1_import(file: *const u8, file_len: usize, text: *const u8, text_len: usize, out: *mut u8, out_len: usize) -> u64;
    fn par1_check(entry: *const u8, entry_len: usize, contents: *const u8, contents_len: usize) -> u32;
    fn par1_open(code: u32, n: u64, sizes: *const u8, sizes_len: usize, out: *mut u8, out_len: usize) -> u32;
    fn par1_add_file(inventory: *mut u8, len: usize, file: u64) -> u32;
    fn par1_remove_file(inventory: *mut u8, len: usize, file: u64) -> u32;
    fn par1_add_volume(inventory: *mut u8, len: usize, code: u32, volume: u64) -> u32;
    fn par1_remove_volume(inventory: *mut u8, len: usize, volume: u64) -> u32;
    fn par1_quarantine(inventory: *mut u8, len: usize, volume: u64) -> u32;
    fn par1_release(inventory: *mut u8, len: usize, volume: u64) -> u32;
    fn par1_count(inventory: *const u8, len: usize, out: *mut u8, out_len: usize) -> u32;
    fn par1_query(inventory: *const u8, len: usize, file: u64, out: *mut u8, out_len: usize) -> u32;
    fn par1_replay(log: *const u8, log_len: usize, out: *mut u8, out_len: usize) -> u64;
    fn par1_mul_add(weight: u8, fragment: *const u8, fragment_len: usize, buffer: *mut u8, buffer_len: usize);
}

/// The numbers of the codes: PAR1_POWERS and PAR1_CAUCHY of include/par1.h.
pub const POWERS: u32 = 0;
pub const CAUCHY: u32 = 1;

const GUARD: usize = 32;

/// Lends a copy of `room` with guard bytes around it: the call's answer, and the room after it. A guard that changed ends the run.
pub fn guarded<A>(room: &[u8], call: impl FnOnce(*mut u8, usize) -> A) -> (A, Vec<u8>) {
    if let Some(side) = pages::side() {
        return pages::lent(side, room, call);
    }
    let mut space = vec![0xa5; GUARD];
    space.extend_from_slice(room);
    space.extend(vec![0x5a; GUARD]);
    let answer = call(space[GUARD..].as_mut_ptr(), room.len());
    let end = GUARD + room.len();
    assert!(space[..GUARD].iter().all(|&b| b == 0xa5), "a byte before the room was written");
    assert!(space[end..].iter().all(|&b| b == 0x5a), "a byte past the room was written");
    (answer, space[GUARD..end].to_vec())
}

/// The same, and the answer's number is counted.
pub fn lent<A: Copy + Into<u64>>(name: Call, room: &[u8], call: impl FnOnce(*mut u8, usize) -> A) -> (A, Vec<u8>) {
    let (answer, after) = guarded(room, call);
    (counted(name, answer), after)
}

pub fn md5(bytes: &[u8], room: &[u8]) -> (u32, Vec<u8>) {
    let [bytes] = readable([bytes]);
    lent(Call::Md5, room, |out, len| unsafe { par1_md5(bytes.as_ptr(), bytes.len(), out, len) })
}

pub fn inverse(x: u8, room: &[u8]) -> (u32, Vec<u8>) {
    lent(Call::Inverse, room, |out, len| unsafe { par1_inverse(x, out, len) })
}

pub fn coefficient(code: u32, file: u64, volume: u64, room: &[u8]) -> (u32, Vec<u8>) {
    lent(Call::Coefficient, room, |out, len| unsafe { par1_coefficient(code, file, volume, out, len) })
}

pub fn mul_add(weight: u8, fragment: &[u8], buffer: &mut [u8]) {
    let [fragment] = readable([fragment]);
    unsafe { par1_mul_add(weight, fragment.as_ptr(), fragment.len(), buffer.as_mut_ptr(), buffer.len()) }
}

pub fn read(file: &[u8], room: &[u8]) -> (u64, Vec<u8>) {
    let [file] = readable([file]);
    lent(Call::Read, room, |out, len| unsafe { par1_read(file.as_ptr(), file.len(), out, len) })
}

pub fn entry(list: &[u8], room: &[u8]) -> (u32, Vec<u8>) {
    let [list] = readable([list]);
    lent(Call::Entry, room, |out, len| unsafe { par1_entry(list.as_ptr(), list.len(), out, len) })
}

pub fn check(entry: &[u8], contents: &[u8]) -> u32 {
    let [entry, contents] = readable([entry, contents]);
    counted(Call::Check, unsafe { par1_check(entry.as_ptr(), entry.len(), contents.as_ptr(), contents.len()) })
}

pub fn write_entry(contents: &[u8], status: u64, name: &[u8], room: &[u8]) -> (u32, Vec<u8>) {
    let [m, n] = readable([contents, name]);
    lent(Call::WriteEntry, room, |out, len| unsafe { par1_write_entry(m.as_ptr(), m.len(), status, n.as_ptr(), n.len(), out, len) })
}

pub fn write_volume(code: u32, program: u32, number: u64, list: &[u8], data: &[u8], room: &[u8]) -> (u64, Vec<u8>) {
    let [l, d] = readable([list, data]);
    lent(Call::WriteVolume, room, |out, len| unsafe { par1_write_volume(code, program, number, l.as_ptr(), l.len(), d.as_ptr(), d.len(), out, len) })
}

pub fn amend(room: &[u8], length: u64, a: &Amendment) -> (u64, Vec<u8>) {
    let [o, n, e] = readable([&a.old, &a.new, &a.entry]);
    let amend = |volume, len| unsafe {
        par1_amend(volume, len, length, a.file, a.place, o.as_ptr(), o.len(), n.as_ptr(), n.len(), e.as_ptr(), e.len())
    };
    lent(Call::Amend, room, amend)
}

pub fn compare(one: &[u8], two: &[u8], room: &[u8]) -> (u64, Vec<u8>) {
    let [one, two] = readable([one, two]);
    let (answer, after) = lent(Call::Compare, room, |out, len| unsafe { par1_compare(one.as_ptr(), one.len(), two.as_ptr(), two.len(), out, len) });
    count_lines(Call::CompareLine, answer, &after);
    (answer, after)
}

pub fn export(file: &[u8], room: &[u8]) -> (u64, Vec<u8>) {
    let [file] = readable([file]);
    lent(Call::Export, room, |out, len| unsafe { par1_export(file.as_ptr(), file.len(), out, len) })
}

pub fn import(file: &[u8], text: &[u8], room: &[u8]) -> (u64, Vec<u8>) {
    let [file, text] = readable([file, text]);
    lent(Call::Import, room, |out, len| unsafe { par1_import(file.as_ptr(), file.len(), text.as_ptr(), text.len(), out, len) })
}

pub fn open(code: u32, n: u64, sizes: &[u8], room: &[u8]) -> (u32, Vec<u8>) {
    let [sizes] = readable([sizes]);
    lent(Call::Open, room, |out, len| unsafe { par1_open(code, n, sizes.as_ptr(), sizes.len(), out, len) })
}

/// A change of an inventory: the number, and the inventory after it.
pub fn change(inventory: &[u8], change: Change, number: u64) -> (u32, Vec<u8>) {
    let name = match change {
        Change::AddFile => Call::AddFile,
        Change::RemoveFile => Call::RemoveFile,
        Change::AddVolume(_) => Call::AddVolume,
        Change::RemoveVolume => Call::RemoveVolume,
        Change::SetAside => Call::Quarantine,
        Change::TakeBack => Call::Release,
    };
    lent(name, inventory, |bytes, len| unsafe {
        match change {
            Change::AddFile => par1_add_file(bytes, len, number),
            Change::RemoveFile => par1_remove_file(bytes, len, number),
            Change::AddVolume(code) => par1_add_volume(bytes, len, code, number),
            Change::RemoveVolume => par1_remove_volume(bytes, len, number),
            Change::SetAside => par1_quarantine(bytes, len, number),
            Change::TakeBack => par1_release(bytes, len, number),
        }
    })
}

pub fn count(inventory: &[u8], room: &[u8]) -> (u32, Vec<u8>) {
    let [inventory] = readable([inventory]);
    lent(Call::Count, room, |out, len| unsafe { par1_count(inventory.as_ptr(), inventory.len(), out, len) })
}

pub fn query(inventory: &[u8], file: u64, room: &[u8]) -> (u32, Vec<u8>) {
    let [inventory] = readable([inventory]);
    lent(Call::Query, room, |out, len| unsafe { par1_query(inventory.as_ptr(), inventory.len(), file, out, len) })
}

pub fn replay(log: &[u8], room: &[u8]) -> (u64, Vec<u8>) {
    let [log] = readable([log]);
    let (answer, after) = lent(Call::Replay, room, |out, len| unsafe { par1_replay(log.as_ptr(), log.len(), out, len) });
    count_lines(Call::ReplayLine, answer, &after);
    (answer, after)
}

/// Counts the number at the end of each line `refused ..` of a text.
fn count_lines(name: Call, answer: u64, room: &[u8]) {
    let text = &room[..room.len().min((answer / 32) as usize)];
    for line in text.split(|&b| b == 10) {
        let number = line.strip_prefix(b"refused ").and_then(|rest| std::str::from_utf8(rest).ok()?.split(' ').next_back()?.parse::<u32>().ok());
        counted(name, number.unwrap_or(0));
    }
}
