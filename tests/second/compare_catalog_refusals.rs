//! The refusals of calls on catalogs in their order (document 02, 2026-08): each by itself and each with each that comes after it; catalogs with each
//! bit changed, cut at each byte, with any numbers in their head and their rows, of random bytes.

use crate::catalog::{HEAD, ROW};
use crate::compare_catalog::{accepted, add, drop, index, load, open};
use crate::compare_differences::refused_files;
use crate::field::Code;
use crate::files::{afresh, File};
use crate::{catalog_calls as calls, rounds, small, Counts, Random};

/// An addition: the catalog, the room after it, and the volume by its code, its files and its number, or other bytes in its place.
#[derive(Clone)]
struct Addition {
    code: Code,
    catalog: Vec<u8>,
    spare: usize,
    files: Vec<File>,
    number: u64,
    instead: Option<Vec<u8>>,
}

impl Addition {
    fn room(&self) -> Vec<u8> {
        [&self.catalog[..], &vec![0xee; self.spare]].concat()
    }

    fn volume(&self) -> Vec<u8> {
        let written = || if self.number == 0 { index(self.code, &self.files) } else { afresh(self.code, &self.files, self.number) };
        self.instead.clone().unwrap_or_else(written)
    }
}

fn file(contents: &[u8], status: u64) -> File {
    File { contents: contents.to_vec(), status, name: b"A\0B\0".to_vec() }
}

/// Two saved files and a longer one between that is not.
fn files() -> Vec<File> {
    vec![file(b"12", 1), file(b"not saved", 0), file(b"abcdef", 3)]
}

const LENGTH: usize = HEAD + ROW * (3 + 2);

/// A catalog of these files with volumes 3 and 7, each of another code.
fn catalog() -> Vec<u8> {
    let room = calls::open(&index(Code::Powers, &files()), &[0xee; LENGTH]).1;
    let room = calls::add(&room, &afresh(Code::Powers, &files(), 7)).1;
    calls::add(&room, &afresh(Code::Cauchy, &files(), 3)).1
}

/// Its place in the order, what is wrong, the number, and how it is made. Of two the later one is made first.
type Fault = (u32, &'static str, u64, fn(&mut Addition));

const FAULTS: [Fault; 22] = [
    (1, "the entry rows start at 17", 30, |a| a.catalog[8] = 17),
    (1, "a row too many is said", 30, |a| {
        a.catalog[4] = 3;
        a.spare = a.spare.min(ROW - 1)
    }),
    (1, "a file number again", 30, |a| a.catalog[HEAD + 2 * ROW] = 1),
    (1, "volumes that do not ascend", 30, |a| a.catalog[HEAD + 3 * ROW] = 7),
    (1, "another data size", 30, |a| a.catalog[HEAD + 4 * ROW + 4] ^= 1),
    (1, "a catalog that ends early", 30, |a| {
        a.catalog.pop();
        a.spare = 0
    }),
    (2, "an index", 10, |a| a.number = 0),
    (2, "a number that fewer files have", 10, |a| {
        a.files = vec![file(b"12", 1)];
        a.number = 254
    }),
    (3, "other contents", 25, |a| a.files[0].contents[0] ^= 1),
    (3, "other contents of a file that is not saved", 25, |a| a.files[1].contents[0] ^= 1),
    (3, "another size", 25, |a| a.files[2].contents.push(1)),
    (3, "a file that is not saved any more", 25, |a| a.files[0].status ^= 1),
    (3, "a file that is saved now", 25, |a| a.files[1].status ^= 1),
    (3, "an entry less", 25, |a| {
        a.files.remove(1);
    }),
    (3, "an entry more", 25, |a| a.files.push(file(b"", 0))),
    (3, "1,025 entries", 25, |a| a.files.extend(vec![file(b"", 0); 1022])),
    (3, "two entries that have changed places", 25, |a| a.files.swap(0, 2)),
    (5, "a first number again", 11, |a| a.number = 3),
    (5, "a number again, by the other code", 11, |a| {
        a.code = Code::Cauchy;
        a.number = 7
    }),
    (5, "a last number again", 11, |a| a.number = 7),
    (6, "no room", 14, |a| a.spare = 0),
    (6, "room that is a byte short", 14, |a| a.spare = ROW - 1),
];

/// Refused with this answer, and no byte changes.
fn refused(counts: &mut Counts, what: &str, a: &Addition, answer: u64) {
    let (room, volume) = (a.room(), a.volume());
    let got = add(counts, what, &room, &volume);
    counts.same(|| what.into(), (got.0, got.1 == room), (answer, true));
}

/// Each fault alone and with each later one, and with a volume that is refused by reading.
fn adding(counts: &mut Counts) {
    let right = Addition { code: Code::Powers, catalog: catalog(), spare: 2 * ROW, files: files(), number: 5, instead: None };
    let got = add(counts, "without a fault", &right.room(), &right.volume()).0;
    counts.same(|| "without a fault".into(), got, accepted(LENGTH + ROW));
    let of_the_other = Addition { code: Code::Cauchy, ..right.clone() };
    let got = add(counts, "of the other code", &of_the_other.room(), &of_the_other.volume()).0;
    counts.same(|| "of the other code".into(), got, accepted(LENGTH + ROW));
    let renamed = File { name: b"OTHER NAME".to_vec(), ..file(b"12", 5) };
    let other = Addition { files: vec![renamed, file(b"not saved", 2), file(b"abcdef", 1)], ..right.clone() };
    let got = add(counts, "other names and bits of status", &other.room(), &other.volume()).0;
    counts.same(|| "other names and bits of status".into(), got, accepted(LENGTH + ROW));
    for (place, what, answer, fault) in FAULTS {
        let later = FAULTS.into_iter().filter(|other| other.0 > place);
        let pairs = later.map(|(_, also, _, other)| (format!("{what}, {also}"), Some(other)));
        for (what, other) in [(what.to_string(), None)].into_iter().chain(pairs) {
            let mut one = right.clone();
            if let Some(other) = other {
                other(&mut one);
            }
            fault(&mut one);
            refused(counts, &what, &one, answer);
        }
        for (number, instead) in refused_files() {
            let mut one = right.clone();
            fault(&mut one);
            one.instead = Some(instead);
            let got = add(counts, what, &one.room(), &one.volume());
            counts.same(|| format!("{number} before {what}"), (got.0 % 32, got.1), (number as u64, one.room()));
        }
    }
}

/// Dropping: 30, 10, 11. Loading: 30, 14.
fn dropping(counts: &mut Counts) {
    let whole = catalog();
    let mut broken = whole.clone();
    broken[HEAD] = 2;
    for number in [0, 1, 2, 3, 4, 6, 7, 8, 252, 253, 254, 255, 256, 259, (1 << 32) + 3, 1 << 63, u64::MAX] {
        let present = number == 3 || number == 7;
        let want = if number == 0 || number > 253 { 10 } else if present { accepted(LENGTH - ROW) } else { 11 };
        let got = drop(counts, "a catalog", &whole, number).0;
        counts.same(|| format!("dropping {number}"), got, want);
        let got = drop(counts, "a broken catalog", &broken, number).0;
        counts.same(|| format!("dropping {number} of a broken catalog"), got, 30);
    }
    for records in 0..6 {
        let got = load(counts, "a catalog", &whole, records);
        counts.same(|| format!("{records} records"), got, if records < 3 { 14 } else { accepted(3) });
        let got = load(counts, "a broken catalog", &broken, records);
        counts.same(|| format!("{records} records of a broken catalog"), got, 30);
    }
}

/// Opening: those of reading with their places, then 26 (in the limits), then 14.
fn opening(counts: &mut Counts) {
    for (number, refused) in refused_files() {
        for room in [0, 99, 300] {
            let room = vec![0xee; room];
            let got = open(counts, "a refused file", &refused, &room);
            counts.same(|| format!("{number} in opening"), (got.0 % 32, got.1), (number as u64, room));
        }
    }
    let whole = index(Code::Cauchy, &files());
    for n in 0..HEAD + ROW * 3 + 3 {
        let got = open(counts, "rooms", &whole, &vec![0xee; n]).0;
        counts.same(|| format!("opening into {n} bytes"), got, if n < HEAD + ROW * 3 { 14 } else { accepted(HEAD + ROW * 3) });
    }
}

/// The three calls on bytes that may be a catalog.
fn calls_on(counts: &mut Counts, what: &str, room: &[u8], volume: &[u8]) {
    add(counts, what, room, volume);
    drop(counts, what, room, 7);
    load(counts, what, room, 3);
}

/// Each bit changed: of the hashes any will do, of the starts none; of the others the second program knows whether there is such a set. Each front.
fn damaged(counts: &mut Counts) {
    let (whole, volume) = (catalog(), afresh(Code::Powers, &files(), 5));
    for bit in (0..8 * LENGTH).step_by(if small() { 41 } else { 1 }) {
        let mut one = [&whole[..], &[0xee; 40]].concat();
        one[bit / 8] ^= 1 << (bit % 8);
        calls_on(counts, "a catalog with one bit changed", &one, &volume);
        let (hash, start) = (bit / 8 >= HEAD && (bit / 8 - HEAD) % ROW >= 12, (8..HEAD).contains(&(bit / 8)));
        if hash || start {
            let got = calls::load(&one, 3).0;
            counts.same(|| format!("bit {bit}"), got, if hash { accepted(3) } else { 30 });
        }
    }
    for n in 0..LENGTH {
        calls_on(counts, "the front of a catalog", &whole[..n], &volume);
        counts.same(|| format!("{n} bytes of a catalog"), calls::drop(&whole[..n], 7).0, 30);
    }
    for n in 0..2 * ROW {
        calls_on(counts, "a catalog with more room", &[&whole[..], &vec![0; n]].concat(), &volume);
    }
}

/// Any numbers in the head, and file numbers, sizes and volume numbers of all kinds in the rows.
fn numbers(counts: &mut Counts, random: &mut Random) {
    let (whole, volume) = (catalog(), afresh(Code::Powers, &files(), 5));
    let heads = [0, 1, 2, 3, 4, 5, 6, 16, 17, 28, 100, 128, 1024, 1025, 1 << 16, 1 << 30, u32::MAX / 28, u32::MAX / 28 + 1, u32::MAX - 1, u32::MAX];
    for at in (0..HEAD).step_by(4) {
        for number in heads {
            let mut one = [&whole[..], &vec![0; 3 * ROW]].concat();
            one[at..at + 4].copy_from_slice(&number.to_le_bytes());
            calls_on(counts, "any number in the head", &one, &volume);
        }
    }
    for _ in 0..rounds(20_000) {
        let mut one = [&whole[..], &vec![0; ROW]].concat();
        for _ in 0..1 + random.below(3) {
            let at = HEAD + ROW * random.below(5);
            let size = [0, 2, 6, 9, 16_777_216, 16_777_217, 1 << 32 | 6, u64::MAX][random.below(8)];
            match random.below(3) {
                0 => one[at..at + 4].copy_from_slice(&[0, 1, 2, 3, 4, 253, 254, 255, 256, 1 << 16, u32::MAX][random.below(11)].to_le_bytes()),
                1 => one[at + 4..at + 12].copy_from_slice(&size.to_le_bytes()),
                _ => one[at] = one[HEAD + ROW * random.below(5)],
            }
        }
        calls_on(counts, "any numbers in the rows", &one, &volume);
    }
}

/// Rows of as many entries and volumes as are said, random numbers in them; and random bytes.
fn anything(counts: &mut Counts, random: &mut Random) {
    let volume = afresh(Code::Powers, &files(), 5);
    for _ in 0..rounds(20_000) {
        let (entries, volumes) = (random.below(4), random.below(4));
        let mut one: Vec<u8> = [entries, volumes, HEAD, HEAD + ROW * entries].iter().flat_map(|&n| (n as u32).to_le_bytes()).collect();
        let mut next = 1;
        for _ in 0..entries {
            let number = if random.below(3) == 0 { 0 } else { next };
            next += (number != 0) as u32;
            one.extend((number + (random.below(12) == 0) as u32).to_le_bytes());
            one.extend((random.below(2) as u64).to_le_bytes());
            one.extend(random.bytes(16));
        }
        let mut number = 0;
        for _ in 0..volumes {
            number += [0, 1, 1, 1, 84, 250][random.below(6)];
            one.extend((number as u32).to_le_bytes());
            one.extend((random.below(3) as u64 / 2 * 3).to_le_bytes());
            one.extend(random.bytes(16));
        }
        let n = random.below(3) * 40;
        one.extend(random.bytes(n));
        calls_on(counts, "rows of random numbers", &one, &volume);
        let n = random.below(100);
        calls_on(counts, "random bytes", &random.bytes(n), &volume);
    }
}

/// 30 also of numbers of files and volumes that no set has: n above 254, volumes of no saved file.
fn no_such_set(counts: &mut Counts) {
    let catalog = |entries: u32, saved: u32, volumes: &[u32]| {
        let mut bytes: Vec<u8> = [entries, volumes.len() as u32, 16, 16 + 28 * entries].iter().flat_map(|n| n.to_le_bytes()).collect();
        for number in (1..=entries).map(|e| if e <= saved { e } else { 0 }).chain(volumes.iter().copied()) {
            bytes.extend(number.to_le_bytes());
            bytes.extend([0; 24]);
        }
        bytes
    };
    let cases: [(u32, u32, &[u32], bool); 16] = [
        (0, 0, &[], true),
        (0, 0, &[1], false),
        (3, 0, &[1], false),
        (3, 0, &[], true),
        (1, 1, &[254], true),
        (1, 1, &[255], false),
        (254, 254, &[1], true),
        (254, 254, &[2], false),
        (255, 255, &[], false),
        (255, 254, &[1], true),
        (1024, 254, &[1], true),
        (1025, 254, &[1], false),
        (3, 3, &[1, 2, 252], true),
        (3, 3, &[1, 2, 253], false),
        (3, 3, &[0, 2], false),
        (3, 3, &[2, 2], false),
    ];
    for (entries, saved, volumes, is) in cases {
        let bytes = catalog(entries, saved, volumes);
        let what = format!("{entries} entries, {saved} saved, volumes {volumes:?}");
        let answer = load(counts, &what, &bytes, 1100);
        counts.same(|| what.clone(), answer, if is { accepted(entries as usize) } else { 30 });
        calls_on(counts, &what, &bytes, &afresh(Code::Powers, &files(), 5));
    }
}

pub fn run(counts: &mut Counts, random: &mut Random) {
    adding(counts);
    dropping(counts);
    opening(counts);
    damaged(counts);
    numbers(counts, random);
    anything(counts, random);
    no_such_set(counts);
}
