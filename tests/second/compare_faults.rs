//! What is wrong with an entry, and where (document 02, 2026-01): each fault at the first, a middle and the last entry of a list, two of them in
//! one entry and in two, bytes left over, another number of entries. Answers are held against the second program's and against the number and
//! the place that the document gives.

use crate::calls::POWERS;
use crate::compare_par1::{rehashed, unhashed};
use crate::par1::PARTS;
use crate::{calls, expected, par1, small, Counts, Random};

/// The length of the entries below.
pub const LENGTH: usize = 60;

/// A list of entries that keep the rules.
pub fn good(entries: usize) -> Vec<u8> {
    par1::write_entry(b"12345", 1, b"A\0B\0").unwrap().repeat(entries)
}

/// What is wrong, its number, and how it is made in a part of a list, at the entry that the part begins with.
pub type Fault = (&'static str, u32, fn(&mut [u8]));

pub const FAULTS: [Fault; 17] = [
    ("entry size 0", 16, |rest| put(rest, 0, 0)),
    ("entry size 56", 16, |rest| put(rest, 0, 56)),
    ("entry size 57", 16, |rest| put(rest, 0, 57)),
    ("entry size 59", 16, |rest| put(rest, 0, 59)),
    ("entry size 2 past the end", 16, |rest| put(rest, 0, rest.len() as u64 + 2)),
    ("entry size 2^64 - 2", 16, |rest| put(rest, 0, u64::MAX - 1)),
    ("entry size 2^64 - 1", 16, |rest| put(rest, 0, u64::MAX)),
    ("file size 16,777,217", 17, |rest| put(rest, 16, 16_777_217)),
    ("file size 2^64 - 1", 17, |rest| put(rest, 16, u64::MAX)),
    ("first unit 47", 18, |rest| rest[56] = 47),
    ("first unit 92", 18, |rest| rest[56] = 92),
    ("last unit 47", 18, |rest| rest[58] = 47),
    ("first unit 0", 18, |rest| rest[56] = 0),
    ("last unit 0", 18, |rest| rest[58] = 0),
    ("first unit 58", 18, |rest| rest[56] = 58),
    ("last unit 58", 18, |rest| rest[58] = 58),
    ("the name ..", 18, |rest| rest[56..60].copy_from_slice(b".\0.\0")),
];

pub fn put(rest: &mut [u8], at: usize, number: u64) {
    rest[at..at + 8].copy_from_slice(&number.to_le_bytes());
}

/// A refusal with its place, as C gets it.
pub const fn at(number: u32, place: usize) -> u64 {
    number as u64 + 32 * place as u64
}

/// Reading `file` is refused with this answer, and changes no byte.
fn read(counts: &mut Counts, what: &str, file: &[u8], room: usize, answer: u64) {
    let room = vec![3; room];
    let got = (calls::read(file, &room), expected::read(file, &room));
    counts.same(|| format!("reading: {what}"), got, ((answer, room.clone()), (answer, room.clone())));
}

/// Writing with this list is refused with this answer, and changes no byte.
fn write(counts: &mut Counts, what: &str, volume: u64, list: &[u8], room: usize, answer: u64) {
    let room = vec![3; room];
    let got = (calls::write_volume(POWERS, 9, volume, list, b"12345", &room), expected::write_volume(POWERS, 9, volume, list, b"12345", &room));
    counts.same(|| format!("writing: {what}"), got, ((answer, room.clone()), (answer, room.clone())));
}

/// A list whose entry at `place` has a fault, in each call that meets the list: before a count, a volume number, a set hash, data and a room
/// that are wrong too, but after the control hash.
fn refused(counts: &mut Counts, what: &str, list: &[u8], number: u32, place: usize) {
    for (volume, entries) in [(0, 3), (0, 0), (0, u64::MAX), (256, 3), (u64::MAX, 4)] {
        let mut file = unhashed(volume, entries, list);
        read(counts, what, &file, PARTS, at(number, place));
        read(counts, what, &file, 0, at(number, place));
        file[16] ^= 1;
        read(counts, what, &file, PARTS, 5);
    }
    for (volume, room) in [(0, 400), (0, 0), (1, 400), (256, 400), (u64::MAX, 0)] {
        write(counts, what, volume, list, room, at(number, place));
    }
    let rest = &list[(place - 1) * LENGTH..];
    for room in [0, 24] {
        let room = vec![3; room];
        counts.same(|| format!("the entry: {what}"), calls::entry(rest, &room), (number, room));
    }
}

/// One fault in three entries.
fn one(counts: &mut Counts) {
    for (what, number, fault) in FAULTS {
        for place in 1..=3 {
            let mut list = good(3);
            fault(&mut list[(place - 1) * LENGTH..]);
            refused(counts, &format!("{what} at entry {place}"), &list, number, place);
        }
    }
}

/// Two faults in three entries: the first entry counts, and in an entry the least number.
fn two(counts: &mut Counts) {
    for (what, number, fault) in FAULTS {
        for (also, second, other) in FAULTS {
            for (place, later) in [(1, 1), (2, 2), (3, 3), (1, 2), (1, 3), (2, 3)] {
                let mut list = good(3);
                fault(&mut list[(place - 1) * LENGTH..]);
                other(&mut list[(later - 1) * LENGTH..]);
                let number = if place == later { number.min(second) } else { number };
                refused(counts, &format!("{what} at entry {place}, {also} at entry {later}"), &list, number, place);
            }
        }
    }
}

/// 1 to 57 bytes after the last entry: the front of an entry, zeros, ones, or bytes that begin with their own length.
fn left_over(counts: &mut Counts) {
    for entries in [0, 1, 3] {
        for n in (1..=57).step_by(if small() { 7 } else { 1 }) {
            let own = [&[n as u8][..], &vec![0; n - 1]].concat();
            for rest in [good(1)[..n].to_vec(), vec![0; n], vec![255; n], own] {
                let list = [good(entries), rest].concat();
                refused(counts, &format!("{n} bytes after {entries} entries"), &list, 16, entries + 1);
            }
        }
    }
}

/// Another number of entries than the file says: 19 without a place, after the entries and before 7, 8 and 9. Writing counts them itself.
fn count(counts: &mut Counts) {
    for entries in 0..=3 {
        let list = good(entries);
        let right = entries as u64;
        for said in [right + 1, right.wrapping_sub(1), right + 256, right + (1 << 32), u64::MAX - right] {
            for volume in [0, 1, 253, 256, u64::MAX] {
                let what = format!("{entries} entries, said to be {said}, volume {volume}");
                read(counts, &what, &unhashed(volume, said, &list), PARTS, 19);
                read(counts, &what, &unhashed(volume, said, &list), 0, 19);
            }
        }
        read(counts, "a volume number that is too great", &unhashed(256, right, &list), PARTS, 7);
        let (number, mut file) = calls::write_volume(POWERS, 9, 0, &list, &[], &vec![0; 96 + list.len()]);
        counts.same(|| format!("an index of {entries} entries"), (number, calls::read(&file, &[0; PARTS]).0), (0, 0));
        file[56] ^= 1;
        read(counts, "the count alone differs", &rehashed(file), PARTS, 19);
    }
}

fn check(counts: &mut Counts, what: &str, entry: &[u8], contents: &[u8], number: u32) {
    counts.same(|| format!("checking: {what}"), (calls::check(entry, contents), par1::check(entry, contents)), (number, number));
}

/// A lone entry: its faults come before contents that differ, and being short of its slice before its file's size and its name.
fn lone(counts: &mut Counts) {
    check(counts, "the contents", &good(1), b"12345", 0);
    check(counts, "other contents", &good(1), b"12346", 15);
    for n in (0..LENGTH).chain(LENGTH + 1..=2 * LENGTH) {
        check(counts, &format!("{n} bytes lent"), &good(2)[..n], b"12345", 16);
    }
    for (what, number, fault) in FAULTS {
        for (also, second, other) in FAULTS {
            let mut entry = good(1);
            fault(&mut entry);
            other(&mut entry);
            for contents in [&b"12345"[..], b"12346"] {
                check(counts, &format!("{what}, {also}"), &entry, contents, number.min(second));
            }
        }
        let mut entry = good(2);
        fault(&mut entry);
        for more in [1, 2, 58, LENGTH] {
            check(counts, &format!("{what}, {more} bytes more"), &entry[..LENGTH + more], b"12345", 16);
        }
    }
}

/// Writing an entry: contents and status before the name, all before the room.
fn written(counts: &mut Counts) {
    let long = vec![0; 16_777_217];
    let names: [(&[u8], u32); 7] = [(b"A\0", 0), (b"", 18), (b"A", 18), (b"A\0B", 18), (b"/\0", 18), (b"A\0\\\0", 18), (b"/\0A", 18)];
    let unstorable: [(&[u8], u32); 6] = [(b"\0\0", 18), (b"A\0:\0", 18), (b".\0", 18), (b".\0.\0", 18), (b".\0.\0.\0", 0), (b".\0A\0", 0)];
    for (name, named) in names.into_iter().chain(unstorable) {
        let statuses = [(&b"12345"[..], 1, 0), (b"", 2, 17), (b"", 3, 17), (b"", 4, 17), (b"", u64::MAX, 17), (&long, 0, 17), (&long, 2, 17)];
        for (contents, status, sized) in statuses {
            for room in [0, 100] {
                let number = if sized != 0 { sized } else if named != 0 { named } else if room == 0 { 14 } else { 0 };
                let room = vec![3; room];
                let what = || format!("an entry of {} bytes, status {status}, name {name:?}, room {}", contents.len(), room.len());
                let got = calls::write_entry(contents, status, name, &room);
                counts.same(what, &got, &expected::write_entry(contents, status, name, &room));
                counts.same(what, got.0, number);
            }
        }
    }
}

/// The last of the most entries that a file has room for, and of more than that.
fn many(counts: &mut Counts) {
    let entry = par1::write_entry(b"", 0, b"A\0").unwrap();
    for entries in [578_523, 600_000] {
        let mut list = entry.repeat(entries);
        let last = list.len() - 2;
        list[last] = 92;
        write(counts, "the last of many entries", 0, &list, 0, at(18, entries));
        let answer = if entries == 578_523 { at(18, entries) } else { 1 };
        read(counts, "the last of many entries", &unhashed(0, 0, &list), PARTS, answer);
    }
}

pub fn run(counts: &mut Counts, _: &mut Random) {
    one(counts);
    left_over(counts);
    count(counts);
    lone(counts);
    written(counts);
    if !small() {
        two(counts);
        many(counts);
    }
}
