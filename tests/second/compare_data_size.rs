//! How long a volume's data is (document 02, 2026-02): lists in which files are saved and not saved, with data as long as each file, and a byte
//! off, in volumes that are read and written; and the place of 9 among the other refusals. Answers are held against the second program's and
//! against the number that the document gives.

use crate::compare_par1::rehashed;
use crate::field::{Code, CODES};
use crate::par1::PARTS;
use crate::{calls, expected, par1, small, Counts, Random};

/// What a set is, the status and size of each of its files, and its data size.
type Set = (&'static str, &'static [(u64, u64)], u64);

const SETS: [Set; 10] = [
    ("the longest file first, not saved", &[(0, 300), (1, 5), (1, 42)], 42),
    ("the longest file between, not saved", &[(1, 42), (0, 300), (1, 5)], 42),
    ("the longest file last, not saved", &[(1, 5), (1, 42), (0, 300)], 42),
    ("the longest file saved", &[(0, 42), (1, 300), (0, 5)], 300),
    ("a file as long as the longest saved one, not saved", &[(0, 42), (1, 42)], 42),
    ("the longest file checked, not saved", &[(2, 300), (3, 42)], 42),
    ("every bit but that of saved", &[(u64::MAX - 1, 300), (u64::MAX, 42)], 42),
    ("the saved files empty", &[(1, 0), (0, 300), (1, 0)], 0),
    ("all files empty", &[(0, 0), (1, 0)], 0),
    ("the greatest file size, not saved", &[(0, 16_777_216), (1, 42)], 42),
];

/// An entry with this status and size; its hashes are those of no bytes.
fn entry(&(status, size): &(u64, u64)) -> Vec<u8> {
    let mut entry = par1::write_entry(b"", 0, b"A\0B\0").unwrap();
    entry[8..16].copy_from_slice(&status.to_le_bytes());
    entry[16..24].copy_from_slice(&size.to_le_bytes());
    entry
}

fn list(files: &[(u64, u64)]) -> Vec<u8> {
    files.iter().flat_map(entry).collect()
}

/// A file with this volume number, list and data, whether they fit or not; its hashes are right.
fn file(code: Code, volume: u64, list: &[u8], data: &[u8]) -> Vec<u8> {
    let index = par1::write_volume(code, 9, 0, list, &[]).unwrap();
    let mut file = [&index[..], data].concat();
    file[48..56].copy_from_slice(&volume.to_le_bytes());
    file[88..96].copy_from_slice(&(data.len() as u64).to_le_bytes());
    rehashed(file)
}

fn read(counts: &mut Counts, what: &str, file: &[u8], room: usize, number: u64) {
    let room = vec![3; room];
    let got = calls::read(file, &room);
    counts.same(|| format!("reading: {what}"), got.0, number);
    counts.same(|| format!("reading: {what}"), got, expected::read(file, &room));
}

fn write(counts: &mut Counts, what: &str, volume: u64, list: &[u8], data: &[u8], room: usize, number: u64) {
    let room = vec![3; room];
    for code in CODES {
        let got = calls::write_volume(code.number(), 9, volume, list, data, &room);
        counts.same(|| format!("writing: {what}, {code:?}"), got.0, number);
        counts.same(|| format!("writing: {what}, {code:?}"), got, expected::write_volume(code.number(), 9, volume, list, data, &room));
    }
}

/// Data as long as each file of a set, as its data size, a byte less and a byte more: a volume is refused with 9 but where it is the data size,
/// an index where it is odd.
fn lengths(counts: &mut Counts) {
    for (set, files, data_size) in SETS {
        let list = list(files);
        let mut lengths: Vec<u64> = files.iter().map(|&(_, size)| size).collect();
        lengths.extend([data_size, data_size.saturating_sub(1), data_size + 1]);
        lengths.retain(|&n| n <= 300 || !small());
        for n in lengths {
            let data = vec![7; n as usize];
            let room = 96 + list.len() + data.len();
            let what = format!("{set}, {n} bytes of data");
            for (volume, fits) in [(0, n % 2 == 0), (1, n == data_size), (2, n == data_size)] {
                let number = if fits { 0 } else { 9 };
                for code in CODES {
                    read(counts, &what, &file(code, volume, &list, &data), PARTS, number);
                }
                write(counts, &what, volume, &list, &data, room, number);
            }
        }
    }
}

/// "9 keeps its place": in reading after 8 and before 14, in writing after 7 and before 1 and 14.
fn order(counts: &mut Counts) {
    let list = list(&[(1, 42), (0, 300)]);
    let as_the_unsaved = vec![7; 300];
    let volume = file(Code::Powers, 1, &list, &as_the_unsaved);
    read(counts, "9 before 14", &volume, 0, 9);
    let mut other_set = volume.clone();
    other_set[32] ^= 1;
    read(counts, "8 before 9", &rehashed(other_set), PARTS, 8);
    read(counts, "7 before 9", &file(Code::Cauchy, 255, &list, &as_the_unsaved), PARTS, 7);
    write(counts, "9 before 14", 1, &list, &as_the_unsaved, 0, 9);
    write(counts, "7 before 9", 255, &list, &as_the_unsaved, 1000, 7);
    write(counts, "14 for data as long as the saved file", 1, &list, &as_the_unsaved[..42], 0, 14);
    if !small() {
        write(counts, "9 before 1", 1, &list, &vec![7; 33_554_432], 0, 9);
    }
}

/// A volume of files none of which is saved is 7 whatever its data is; an index of them is accepted.
fn none_saved(counts: &mut Counts) {
    let list = list(&[(0, 300), (2, 42)]);
    for n in [0, 42, 300] {
        let data = vec![7; n];
        for (volume, number) in [(0, 0), (1, 7)] {
            let what = format!("none saved, volume {volume}, {n} bytes of data");
            for code in CODES {
                read(counts, &what, &file(code, volume, &list, &data), PARTS, number);
            }
            write(counts, &what, volume, &list, &data, 1000, number);
        }
    }
}

pub fn run(counts: &mut Counts, _: &mut Random) {
    lengths(counts);
    order(counts);
    none_saved(counts);
}
