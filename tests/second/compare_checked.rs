//! The "checked" mark, bit 1 of a status (document 02, 2026-09): it is not written any more; files that differ in it alone are read, exported,
//! imported and put into catalogs alike, in chunks too, and written back unchanged. Amending, comparing and control hashes see it.

use crate::amend::Amendment;
use crate::compare_catalog::index;
use crate::field::{Code, CODES};
use crate::files::{afresh, file, saved, File};
use crate::par1::PARTS;
use crate::{calls, catalog_calls, expected, job_calls, par1, rounds, Counts, Random};

/// Every status but 0 and 1 is 17, before 18 and 14, whatever the other bits are.
fn written(counts: &mut Counts, random: &mut Random) {
    let bits = (1..64).map(|bit| 1u64 << bit);
    for status in (0..=8).chain(bits.clone()).chain(bits.map(|bit| bit | 1)).chain([u64::MAX, u64::MAX - 1]) {
        for (name, room) in [(&b"A\0"[..], 58), (b"A\0", 57), (b"", 58), (b"/\0", 0)] {
            let room = random.bytes(room);
            let got = calls::write_entry(b"12345", status, name, &room);
            counts.same(|| format!("an entry with status {status}"), &got, &expected::write_entry(b"12345", status, name, &room));
            let number = if status > 1 { 17 } else if name != b"A\0" { 18 } else if room.len() < 58 { 14 } else { 0 };
            counts.same(|| format!("an entry with status {status}, name {name:?}"), got.0, number);
        }
    }
}

/// Read in chunks: the answer and the parts.
fn read_in_chunks(file: &[u8]) -> (u64, Vec<u8>) {
    let (_, mut job) = job_calls::read_start(&[0; 392]);
    for chunk in file.chunks(50) {
        job = job_calls::read_push(&job, chunk).1;
    }
    let (answer, _, room) = job_calls::read_end(&job, &[0; PARTS]);
    (answer, room)
}

/// Everything that a file says but for the bit: the calls that must not act on it give the same of both.
fn same(counts: &mut Counts, what: &str, plain: &[u8], marked: &[u8], text: &[u8]) {
    let said = |file: &[u8]| {
        let opened = catalog_calls::open(file, &[7; 400]);
        (calls::read(file, &[7; PARTS]), read_in_chunks(file), calls::export(file, &[7; 900]), calls::import(file, text, &[7; 20]), opened)
    };
    counts.same(|| format!("what {what} says, with the mark and without"), said(plain), said(marked));
    counts.same(|| format!("{what} is accepted"), calls::read(marked, &[7; PARTS]).0, 0);
}

/// "Old volumes that carry it are still read and written back unchanged"
fn written_back(counts: &mut Counts, file: &[u8]) {
    let [program, number, _, _, size, start, _, code] = par1::read(file).unwrap();
    let (list, data) = (&file[96..96 + size as usize], &file[start as usize..]);
    let got = calls::write_volume(code as u32, program as u32, number, list, data, &vec![7; file.len()]);
    counts.same(|| "a file written back".into(), got, (0, file.to_vec()));
}

/// Entry by entry: length and size are the same, the status is told as it stands, and contents are checked against both.
fn entries(counts: &mut Counts, plain: &[File], marked: &[File]) {
    for (one, other) in plain.iter().zip(marked) {
        let numbers = |file: &File| calls::entry(&file.entry(), &[7; 24]);
        let mut want = numbers(one);
        want.1[8..16].copy_from_slice(&other.status.to_le_bytes());
        counts.same(|| "the numbers of an entry".into(), numbers(other), want);
        counts.same(|| "contents checked".into(), calls::check(&other.entry(), &one.contents), 0);
    }
}

/// The volume of marked files goes into the catalog of the others, and the other way round.
fn catalogs(counts: &mut Counts, plain: &[u8], marked: &[u8], entries: usize) {
    let length = 16 + 28 * (entries + 1);
    for (one, other) in [(plain, marked), (marked, plain)] {
        let (_, catalog) = catalog_calls::open(one, &vec![7; length]);
        let (answer, after) = catalog_calls::add(&catalog, other);
        counts.same(|| "a volume in the catalog of the others".into(), answer, 32 * length as u64);
        counts.same(|| "its control hash".into(), &after[length - 16..], &other[16..32]);
    }
}

/// "amending, comparing and control hashes apart": the control hash and the entries' statuses are what differs, and an amendment wants the status
/// that stands in the volume.
fn apart(counts: &mut Counts, plain: (&[File], &[u8]), marked: (&[File], &[u8])) {
    let places: Vec<usize> = (0..plain.0.len()).filter(|&i| plain.0[i].status != marked.0[i].status).collect();
    let lines: String = places.iter().map(|i| format!("entry {} status\n", i + 1)).collect();
    let text = if places.is_empty() { String::new() } else { format!("head control\n{lines}") };
    let got = calls::compare(plain.1, marked.1, &vec![7; text.len()]);
    counts.same(|| "the lines of two files".into(), got, (32 * text.len() as u64, text.into_bytes()));
    for (f, &i) in (1..).zip(&saved(plain.0)) {
        let (one, other) = (&plain.0[i], &marked.0[i]);
        let amendment = |entry| Amendment { file: f, place: 0, old: vec![], new: vec![], entry };
        let length = marked.1.len() as u64;
        let answer = |file: &File| calls::amend(marked.1, length, &amendment(file.entry())).0;
        counts.same(|| "amended with its own status".into(), answer(other), 32 * length);
        counts.same(|| "amended with another status".into(), answer(one), if one.status == other.status { 32 * length } else { 21 });
    }
}

pub fn run(counts: &mut Counts, random: &mut Random) {
    written(counts, random);
    for round in 0..rounds(400) {
        let lengths: Vec<usize> = (0..1 + round % 5).map(|_| random.below(30)).collect();
        let mut plain: Vec<File> = (0..).zip(lengths).map(|(i, length)| file(random, length, i % 3 != 1)).collect();
        if round % 2 == 0 {
            plain.iter_mut().for_each(|file| file.name.iter_mut().skip(1).step_by(2).for_each(|high| *high = 0));
        }
        let mut marked = plain.clone();
        marked.iter_mut().for_each(|file| file.status ^= (random.below(2) as u64) << 1);
        let text = calls::export(&index(Code::Powers, &plain), &[7; 900]);
        let text = if text.0 % 32 == 0 { text.1[..(text.0 / 32) as usize].to_vec() } else { vec![] };
        same(counts, "an index", &index(Code::Powers, &plain), &index(Code::Powers, &marked), &text);
        let number = 1 + random.below(250) as u64;
        let code = CODES[round % 2];
        let volumes = (afresh(code, &plain, number), afresh(code, &marked, number));
        same(counts, "a volume", &volumes.0, &volumes.1, &text);
        written_back(counts, &index(Code::Powers, &marked));
        written_back(counts, &volumes.1);
        entries(counts, &plain, &marked);
        catalogs(counts, &volumes.0, &volumes.1, plain.len());
        apart(counts, (&plain, &volumes.0), (&marked, &volumes.1));
    }
}
