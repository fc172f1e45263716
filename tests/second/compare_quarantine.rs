//! Volumes in quarantine (document 02, 2026-10): what each call answers of a volume that is absent, present or set aside; setting aside against
//! removal and taking back against adding, answer by answer; lists of calls against a new inventory that is told what is present and what is set
//! aside; inventories that have a volume in both; a volume that passes its hash and brings back a wrong file.

use crate::calls::CAUCHY;
use crate::field::{self, Code};
use crate::files::File;
use crate::inventory::Change::{AddFile, AddVolume, RemoveFile, RemoveVolume, SetAside, TakeBack};
use crate::inventory::{Inventory, CODE, LENGTH};
use crate::{calls, expected, par1, rounds, Counts, Random};

/// Nothing present of so many files, of sizes 0 to 3, and of volumes of either code.
fn opened(random: &mut Random, n: usize) -> Vec<u8> {
    let sizes: Vec<u8> = (0..n).flat_map(|_| (random.below(4) as u64).to_le_bytes()).collect();
    calls::open(random.below(2) as u32, n as u64, &sizes, &[0; LENGTH]).1
}

/// Adds a volume of the inventory's own code.
fn add(bytes: &[u8], v: u64) -> (u32, Vec<u8>) {
    calls::change(bytes, AddVolume(bytes[CODE] as u32), v)
}

/// The calls on a volume, by name.
const CALLS: [(&str, fn(&[u8], u64) -> (u32, Vec<u8>)); 4] = [
    ("added", add),
    ("removed", |bytes, v| calls::change(bytes, RemoveVolume, v)),
    ("set aside", |bytes, v| calls::change(bytes, SetAside, v)),
    ("taken back", |bytes, v| calls::change(bytes, TakeBack, v)),
];

/// What the document gives for each call in each state, and for numbers out of range in any.
fn by_hand(counts: &mut Counts, random: &mut Random) {
    for (n, v) in [(1, 1), (1, 254), (5, 63), (5, 64), (5, 250), (254, 1)] {
        let absent = opened(random, n);
        let present = add(&absent, v).1;
        let aside = calls::change(&present, SetAside, v).1;
        let states = [("absent", &absent, [0, 11, 11, 11]), ("present", &present, [11, 0, 0, 11]), ("aside", &aside, [27, 0, 11, 0])];
        let after = [&present, &absent, &aside, &present];
        for (state, bytes, numbers) in states {
            for (((call, run), number), after) in CALLS.into_iter().zip(numbers).zip(after) {
                let want = (number, if number == 0 { after.clone() } else { bytes.clone() });
                counts.same(|| format!("volume {v} of {n} files, {state}, {call}"), run(bytes, v), want);
            }
            for out_of_range in [0, 256 - n as u64, 255, 256, (1 << 32) + v, u64::MAX] {
                if out_of_range > 255 - n as u64 || out_of_range == 0 {
                    for (call, run) in CALLS {
                        counts.same(|| format!("volume {out_of_range} of {n} files, {call}"), run(bytes, out_of_range), (10, bytes.clone()));
                    }
                }
            }
        }
        let counted = |bytes: &[u8]| calls::count(bytes, &[7; 25]).1[..].chunks(8).map(|b| b[0]).collect::<Vec<u8>>();
        let want = [[0, 0, 0, 7], [0, 1, 0, 7], [0, 0, 1, 7]].map(Vec::from);
        counts.same(|| "the counts".into(), [&absent, &present, &aside].map(|bytes| counted(bytes)), want);
        for room in [0, 16, 23] {
            counts.same(|| format!("a count into {room} bytes"), calls::count(&aside, &vec![7; room]), (14, vec![7; room]));
        }
    }
}

/// Every answer about files, and the first two counts.
fn answers(bytes: &[u8], n: usize) -> (Vec<(u32, Vec<u8>)>, Vec<u8>) {
    let queries = (0..=n as u64 + 1).map(|f| calls::query(bytes, f, &[7; 255])).collect();
    (queries, calls::count(bytes, &[7; 24]).1[..16].to_vec())
}

/// "setting aside counts as withdrawal for every answer of condition 3 and for the count; taking it back counts as noting"
fn as_removal(counts: &mut Counts, bytes: &[u8], n: usize, v: u64) {
    let (aside, removed) = (calls::change(bytes, SetAside, v), calls::change(bytes, RemoveVolume, v));
    if aside.0 == 0 {
        counts.same(|| format!("volume {v} set aside, and removed"), answers(&aside.1, n), answers(&removed.1, n));
        counts.same(|| format!("volume {v} taken back"), calls::change(&aside.1, TakeBack, v), (0, bytes.to_vec()));
    }
    let back = calls::change(bytes, TakeBack, v);
    if back.0 == 0 {
        let added = add(&removed.1, v);
        counts.same(|| format!("volume {v} taken back, and added"), answers(&back.1, n), answers(&added.1, n));
    }
}

/// "Every answer is then that of a new sheet told what is in hand and what is set aside": told in any order.
fn told_anew(random: &mut Random, opened: &[u8], files: &[bool], volumes: &[Option<bool>]) -> Vec<u8> {
    let mut told: Vec<(bool, u64)> = (1..).zip(files).filter(|(_, present)| **present).map(|(f, _)| (false, f)).collect();
    told.extend((1..).zip(volumes).filter(|(_, state)| state.is_some()).map(|(v, _)| (true, v)));
    for i in 0..told.len() {
        told.swap(i, random.below(i + 1));
    }
    let mut bytes = opened.to_vec();
    let mut late = vec![];
    for (volume, number) in told {
        bytes = if volume { add(&bytes, number) } else { calls::change(&bytes, AddFile, number) }.1;
        if volume && volumes[number as usize - 1] == Some(false) {
            if random.below(2) == 0 { late.push(number) } else { bytes = calls::change(&bytes, SetAside, number).1 }
        }
    }
    late.into_iter().fold(bytes, |bytes, v| calls::change(&bytes, SetAside, v).1)
}

/// A list of calls with a model of its own: which files are present, and which volumes are, or are aside.
fn lists(counts: &mut Counts, random: &mut Random) {
    for round in 0..rounds(300) {
        let n = 1 + random.below(if round % 30 == 0 { 60 } else { 8 });
        let start = opened(random, n);
        let (mut bytes, mut files, mut volumes) = (start.clone(), vec![false; n], vec![None; 12.min(255 - n)]);
        for _ in 0..40 {
            let v = 1 + random.below(volumes.len());
            let f = 1 + random.below(n);
            let got = match random.below(6) {
                0 => {
                    let add = !files[f - 1];
                    files[f - 1] = add;
                    calls::change(&bytes, if add { AddFile } else { RemoveFile }, f as u64)
                }
                call => {
                    let (name, run) = CALLS[call % 4];
                    let got = run(&bytes, v as u64);
                    let state = &mut volumes[v - 1];
                    let (number, next) = match (name, *state) {
                        ("added", None) => (0, Some(true)),
                        ("added", Some(false)) => (27, Some(false)),
                        ("removed", Some(_)) => (0, None),
                        ("set aside", Some(true)) => (0, Some(false)),
                        ("taken back", Some(false)) => (0, Some(true)),
                        (_, state) => (11, state),
                    };
                    *state = next;
                    counts.same(|| format!("volume {v} {name}"), got.0, number);
                    got
                }
            };
            bytes = got.1;
            as_removal(counts, &bytes, n, v as u64);
        }
        let anew = told_anew(random, &start, &files, &volumes);
        counts.same(|| "an inventory against one told anew".into(), (&bytes, answers(&bytes, n)), (&anew, answers(&anew, n)));
        let sizes = |wanted: Option<bool>| volumes.iter().filter(|&&state| state == wanted).count() as u8;
        let counted = [files.iter().filter(|&&present| present).count() as u8, sizes(Some(true)), sizes(Some(false))];
        let got: Vec<u8> = calls::count(&bytes, &[0; 24]).1.chunks(8).map(|b| b[0]).collect();
        counts.same(|| "three counts".into(), got, counted.to_vec());
    }
}

/// An inventory that has a volume both present and aside, or one out of range aside, is one that no calls give; any other is given.
fn no_calls_give(counts: &mut Counts, random: &mut Random) {
    for n in [1, 2, 100, 191, 253, 254usize] {
        let start = opened(random, n);
        for v in 0..256 {
            let (mut aside, mut both) = (start.clone(), start.clone());
            aside[104 + v / 8] |= 1 << (v % 8);
            both[104 + v / 8] |= 1 << (v % 8);
            both[40 + v / 8] |= 1 << (v % 8);
            let in_range = (1..=255 - n).contains(&v);
            counts.same(|| format!("volume {v} of {n} files aside"), calls::count(&aside, &[0; 24]).0, if in_range { 0 } else { 10 });
            counts.same(|| format!("volume {v} of {n} files in both"), calls::count(&both, &[0; 24]).0, 10);
            for (call, run) in CALLS {
                counts.same(|| format!("volume {v} in both, {call}"), run(&both, v as u64), (10, both.clone()));
            }
            counts.same(|| "a query of such".into(), calls::query(&both, 1, &[7; 255]).0, 10);
            counts.same(|| "the second program".into(), Inventory::parse(&aside).is_some(), in_range);
            counts.same(|| "a query of one aside".into(), calls::query(&aside, 1, &[7; 255]), expected::query(&aside, 1, &[7; 255]));
        }
    }
}

/// "A volume passes its hash and still the rebuilt file fails with 15": with the volume set aside another one brings the file back.
fn suspicion(counts: &mut Counts, random: &mut Random) {
    let files = [random.bytes(40), random.bytes(30), random.bytes(20)];
    let entry = File { contents: files[1].clone(), status: 1, name: b"B\0".to_vec() }.entry();
    let mut data: Vec<Vec<u8>> = (1..=3).map(|v| field::parity(Code::Cauchy, &files, v)).collect();
    data[0][7] ^= 1;
    let sizes: Vec<u8> = files.iter().flat_map(|file| (file.len() as u64).to_le_bytes()).collect();
    let mut bytes = calls::open(CAUCHY, 3, &sizes, &[0; LENGTH]).1;
    for (change, number) in [(AddFile, 1), (AddFile, 3), (AddVolume(CAUCHY), 1), (AddVolume(CAUCHY), 3)] {
        bytes = calls::change(&bytes, change, number).1;
    }
    let rebuilt = |bytes: &[u8]| {
        let (number, weights) = calls::query(bytes, 2, &[0; 255]);
        let mut buffer = vec![0; 30];
        for (f, file) in files.iter().enumerate().filter(|(f, _)| *f != 1) {
            calls::mul_add(weights[f], file, &mut buffer);
        }
        for v in [1, 3] {
            calls::mul_add(weights[3 + v - 1], &data[v - 1], &mut buffer);
        }
        (number, calls::check(&entry, &buffer), par1::check(&entry, &buffer))
    };
    counts.same(|| "by a damaged volume".into(), rebuilt(&bytes), (0, 15, 15));
    let aside = calls::change(&bytes, SetAside, 1).1;
    counts.same(|| "without it".into(), rebuilt(&aside), (0, 0, 0));
    let both = calls::change(&aside, SetAside, 3).1;
    counts.same(|| "with none".into(), rebuilt(&both).0, 12);
}

pub fn run(counts: &mut Counts, random: &mut Random) {
    by_hand(counts, random);
    lists(counts, random);
    no_calls_give(counts, random);
    suspicion(counts, random);
}
