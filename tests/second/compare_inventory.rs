//! Inventories of both codes: random lists of calls, refused ones too, each answer and each lent byte compared; inventories that no calls give; the
//! worked examples; and rebuilt files.

use crate::calls::{CAUCHY, POWERS};
use crate::field::{self, Code, CODES};
use crate::inventory::Change::{self, AddFile, AddVolume, RemoveFile, RemoveVolume, SetAside, TakeBack};
use crate::inventory::{Inventory, CODE, LENGTH};
use crate::{calls, expected, rounds, small, Counts, Random};

/// The calls that change an inventory, adding with each code and with numbers that are none.
const CHANGES: [Change; 10] = [
    AddFile,
    RemoveFile,
    AddVolume(POWERS),
    AddVolume(CAUCHY),
    AddVolume(2),
    AddVolume(256),
    AddVolume(u32::MAX),
    RemoveVolume,
    SetAside,
    TakeBack,
];

/// A change against what the documents say of it: the number, and the inventory after it.
fn changed(counts: &mut Counts, bytes: &[u8], change: Change, number: u64) -> (u32, Vec<u8>) {
    let got = calls::change(bytes, change, number);
    counts.same(|| format!("{change:?} {number} of {bytes:?}"), &got, &expected::change(bytes, change, number));
    got
}

/// Every call on these bytes as an inventory, which the second program reads as well.
fn every_call(counts: &mut Counts, random: &mut Random, bytes: &[u8]) {
    let numbers = [0, 1, 2, random.below(26) as u64, random.below(256) as u64, 254, 255, 256, u64::MAX];
    for number in numbers {
        for change in CHANGES {
            changed(counts, bytes, change, number);
        }
        let n = [0, 254, 255, 300][random.below(4)];
        let room = random.bytes(n);
        let what = || format!("query {number} of {bytes:?}");
        counts.same(what, calls::query(bytes, number, &room), expected::query(bytes, number, &room));
    }
    for room in [0, 16, 23, 24, 28] {
        let room = vec![5; room];
        counts.same(|| format!("count of {bytes:?}"), calls::count(bytes, &room), expected::count(bytes, &room));
    }
}

fn opening(counts: &mut Counts, random: &mut Random) {
    for n in [0, 1, 2, 24, 253, 254, 255, 256, 1 << 32, u64::MAX] {
        for count in [n as usize % 300, 0, 1, 24, 254] {
            for k in 0..4 {
                let size = |r: &mut Random| [0, 1, 16_777_216, 16_777_217, u64::MAX][r.below(if k < 2 { 3 } else { 5 })];
                let mut sizes: Vec<u8> = (0..count).flat_map(|_| size(random).to_le_bytes()).collect();
                if random.below(8) == 0 {
                    sizes.push(0);
                }
                let n_of_room = [0, 136, LENGTH - 1, LENGTH, LENGTH + 4][random.below(5)];
                let room = random.bytes(n_of_room);
                for code in [POWERS, CAUCHY, 2, 256, 1 << 31, u32::MAX] {
                    let what = || format!("open {n} with {count} sizes, code {code}");
                    counts.same(what, calls::open(code, n, &sizes, &room), expected::open(code, n, &sizes, &room));
                }
            }
        }
    }
}

/// A list of calls on one inventory, additions of volumes of the other code among them; each goes to the bytes last handed back.
fn lists(counts: &mut Counts, random: &mut Random) {
    for round in 0..rounds(300) {
        let n = 1 + random.below(if round % 30 == 0 { 60 } else { 10 });
        let sizes: Vec<u8> = (0..n).flat_map(|_| (random.below(4) as u64).to_le_bytes()).collect();
        let code = CODES[random.below(2)];
        let (_, mut bytes) = calls::open(code.number(), n as u64, &sizes, &[0; LENGTH]);
        for _ in 0..60 {
            let added = AddVolume(if random.below(6) > 0 { code } else { code.other() }.number());
            let change = [AddFile, AddFile, AddFile, added, added, added, RemoveFile, RemoveVolume, SetAside, SetAside, TakeBack][random.below(11)];
            let number = random.below(if matches!(change, AddFile | RemoveFile) { n + 2 } else { 14 }) as u64;
            bytes = changed(counts, &bytes, change, number).1;
            let f = random.below(n + 2) as u64;
            let n_of_room = [254, 255, 260][random.below(3)];
            let room = random.bytes(n_of_room);
            counts.same(|| format!("query {f} of {bytes:?}"), calls::query(&bytes, f, &room), expected::query(&bytes, f, &room));
        }
        every_call(counts, random, &bytes);
    }
}

/// Bytes that no calls give: a spare bit, an n out of range, a code that is none, another length.
fn invalid(counts: &mut Counts, random: &mut Random) {
    for _ in 0..rounds(200) {
        let n = 1 + random.below(254);
        let sizes: Vec<u8> = (0..n).flat_map(|_| (random.below(2) as u64).to_le_bytes()).collect();
        let (_, mut bytes) = calls::open(CODES[random.below(2)].number(), n as u64, &sizes, &[0; LENGTH]);
        bytes[random.below(LENGTH)] ^= 1 << random.below(8);
        if n <= 12 || Inventory::parse(&bytes).is_none() {
            every_call(counts, random, &bytes);
        }
    }
    for n in [0, 1, 104, 136, LENGTH - 1, LENGTH + 1] {
        every_call(counts, random, &vec![0; n]);
    }
    every_call(counts, random, &[0; LENGTH]);
    let (_, opened) = calls::open(POWERS, 3, &[0; 24], &[0; LENGTH]);
    let codes = (0..64).map(|bit| 1 << bit).chain([0, 3, 255, 257, (1 << 32) + 1, u64::MAX]);
    for code in codes {
        let mut bytes = opened.clone();
        bytes[CODE..].copy_from_slice(&code.to_le_bytes());
        counts.same(|| format!("an inventory of code {code}"), calls::count(&bytes, &[0; 24]).0, if code < 2 { 0 } else { 10 });
        every_call(counts, random, &bytes);
    }
    counts.same(|| "136 bytes, of before".into(), calls::count(&opened[..CODE], &[0; 24]).0, 10);
}

/// Files rebuilt by following the weights, in a random order of the fragments, from a set whose contents are known.
fn rebuilt(counts: &mut Counts, random: &mut Random) {
    for _ in 0..rounds(200) {
        let n = 1 + random.below(9);
        let mut files = vec![];
        for _ in 0..n {
            let size = random.below(40);
            files.push(random.bytes(size));
        }
        let sizes: Vec<u8> = files.iter().flat_map(|f| (f.len() as u64).to_le_bytes()).collect();
        let code = CODES[random.below(2)];
        let (_, mut bytes) = calls::open(code.number(), n as u64, &sizes, &[0; LENGTH]);
        let mut fragments: Vec<(usize, Vec<u8>)> = vec![];
        for f in 1..=n {
            if random.below(2) == 0 {
                bytes = calls::change(&bytes, AddFile, f as u64).1;
                fragments.push((f, files[f - 1].clone()));
            }
        }
        for v in 1..=6 {
            if random.below(2) == 0 {
                bytes = calls::change(&bytes, AddVolume(code.number()), v as u64).1;
                let zeros = vec![0; random.below(3)];
                fragments.push((n + v, [field::parity(code, &files, v as u64), zeros].concat()));
            }
        }
        for f in 1..=n {
            let (number, weights) = calls::query(&bytes, f as u64, &[0; 255]);
            if number == 0 {
                let mut buffer = vec![0; files[f - 1].len()];
                while fragments.len() > 1 && random.below(3) > 0 {
                    let (i, j) = (random.below(fragments.len()), random.below(fragments.len()));
                    fragments.swap(i, j);
                }
                for (place, fragment) in &fragments {
                    calls::mul_add(weights[place - 1], fragment, &mut buffer);
                }
                counts.same(|| format!("file {f} of {n} rebuilt by {code:?}"), buffer, files[f - 1].clone());
            }
        }
    }
}

/// Every set of contents of up to two files of one byte, and of others that are empty: a file is recoverable exactly when no two sets that are
/// alike in what is present differ in it.
fn brute_force(counts: &mut Counts, code: Code) {
    for sizes in [&[0][..], &[0, 0], &[1, 1], &[1, 0], &[0, 1], &[1, 1, 0], &[0, 1, 1], &[1, 0, 1]] {
        let n = sizes.len();
        let bytes: Vec<u8> = sizes.iter().flat_map(|&s: &u64| s.to_le_bytes()).collect();
        let (_, opened) = calls::open(code.number(), n as u64, &bytes, &[0; LENGTH]);
        for present in 0..1 << (n + 3) {
            let mut inventory = opened.clone();
            for k in (0..n + 3).filter(|k| present >> k & 1 == 1) {
                let (change, number) = if k < n { (AddFile, k + 1) } else { (AddVolume(code.number()), k - n + 1) };
                inventory = calls::change(&inventory, change, number as u64).1;
            }
            for f in (1..=n).filter(|f| present >> (f - 1) & 1 == 0) {
                let what = || format!("file {f} of sizes {sizes:?}, present {present:b}, {code:?}");
                let answered = calls::query(&inventory, f as u64, &[0; 255]).0 == 0;
                counts.same(what, answered, determined(code, sizes, present, f));
            }
        }
    }
}

/// Whether all sets of contents that show the same bytes in what is present have the same file f.
fn determined(code: Code, sizes: &[u64], present: usize, f: usize) -> bool {
    let n = sizes.len();
    let filled: Vec<usize> = (0..n).filter(|&g| sizes[g] == 1).collect();
    let factors: Vec<Vec<u8>> = (1..=3).map(|v| (1..=n).map(|g| field::coefficient(code, g as u8, v)).collect()).collect();
    let mut seen = std::collections::HashMap::new();
    for contents in 0..1usize << (8 * filled.len()) {
        let mut file = vec![0u8; n];
        filled.iter().enumerate().for_each(|(i, &g)| file[g] = (contents >> (8 * i)) as u8);
        let mut shown = 0u64;
        for k in (0..n + 3).filter(|k| present >> k & 1 == 1) {
            shown = shown << 8 | if k < n { file[k] } else { factors[k - n].iter().zip(&file).fold(0, |sum, (&c, &x)| sum ^ field::product(c, x)) } as u64;
        }
        if *seen.entry(shown).or_insert(file[f - 1]) != file[f - 1] {
            return false;
        }
    }
    true
}

/// P10 to P12: files 7 and 24 of 24, and 5, with volumes 1 and 4, then 2 too; and the same by the other code, where the volumes are counted.
fn seven_and_twenty_four(counts: &mut Counts, code: Code, answers: [[u32; 3]; 3]) {
    let sizes: Vec<u8> = (0..24).flat_map(|_| 9u64.to_le_bytes()).collect();
    let (_, mut bytes) = calls::open(code.number(), 24, &sizes, &[0; LENGTH]);
    for f in (1..=24).filter(|f| ![7, 24].contains(f)) {
        bytes = calls::change(&bytes, AddFile, f).1;
    }
    for v in [1, 4] {
        bytes = calls::change(&bytes, AddVolume(code.number()), v).1;
    }
    let numbers = |bytes: &[u8]| [5, 7, 24].map(|f| calls::query(bytes, f, &[0; 255]).0);
    counts.same(|| format!("P10, {code:?}"), numbers(&bytes), answers[0]);
    bytes = calls::change(&bytes, RemoveFile, 5).1;
    counts.same(|| format!("P11, {code:?}"), numbers(&bytes), answers[1]);
    bytes = calls::change(&bytes, AddVolume(code.number()), 2).1;
    counts.same(|| format!("P12, {code:?}"), numbers(&bytes), answers[2]);
}

/// A query ends on a stack of 80 KiB, of which it needs some 70: 127 files missing, every volume present.
fn small_stack(counts: &mut Counts, code: Code) {
    let sizes: Vec<u8> = (0..127).flat_map(|_| 9u64.to_le_bytes()).collect();
    let (_, mut bytes) = calls::open(code.number(), 127, &sizes, &[0; LENGTH]);
    for v in 1..=128 {
        bytes = calls::change(&bytes, AddVolume(code.number()), v).1;
    }
    let expected = expected::query(&bytes, 7, &[0; 255]);
    let query = move || calls::query(&bytes, 7, &[0; 255]);
    let got = std::thread::Builder::new().stack_size(80 << 10).spawn(query).unwrap().join().unwrap();
    counts.same(|| format!("a query on a stack of 80 KiB, {code:?}"), got, expected);
}

/// Files and volumes in all four words of a set, up to n = 254: all files present, then three of them removed.
fn large(counts: &mut Counts, code: Code) {
    for n in [63, 64, 65, 127, 128, 129, 191, 192, 193, 253, 254u64] {
        let sizes: Vec<u8> = (0..n).flat_map(|_| 1u64.to_le_bytes()).collect();
        let opened = calls::open(code.number(), n, &sizes, &[7; LENGTH]);
        counts.same(|| format!("open {n}"), opened.clone(), expected::open(code.number(), n, &sizes, &[7; LENGTH]));
        let mut bytes = opened.1;
        let added = (1..=n).map(|f| (AddFile, f)).chain([1, 2, 255 - n].map(|v| (AddVolume(code.number()), v)));
        for (change, number) in added.chain([1, n / 2, n].map(|f| (RemoveFile, f))) {
            bytes = changed(counts, &bytes, change, number).1;
            if change == RemoveFile {
                counts.same(|| format!("count of {n}"), calls::count(&bytes, &[3; 24]), expected::count(&bytes, &[3; 24]));
                for f in [1, n / 2, n] {
                    counts.same(|| format!("query {f} of {n}"), calls::query(&bytes, f, &[3; 256]), expected::query(&bytes, f, &[3; 256]));
                }
            }
        }
    }
}

pub fn run(counts: &mut Counts, random: &mut Random) {
    opening(counts, random);
    lists(counts, random);
    invalid(counts, random);
    rebuilt(counts, random);
    for code in CODES {
        large(counts, code);
        small_stack(counts, code);
        if !small() {
            brute_force(counts, code);
        }
    }
    seven_and_twenty_four(counts, Code::Powers, [[13, 12, 12], [0, 12, 12], [0, 0, 0]]);
    seven_and_twenty_four(counts, Code::Cauchy, [[13, 0, 0], [12, 12, 12], [0, 0, 0]]);
}
