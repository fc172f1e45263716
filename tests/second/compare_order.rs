//! The refusals of each call in their order (documents 01 and 02): each by itself and with each later one that can hold beside it, and no byte changes.
//! Amendments and calls on catalogs have their own (`compare_amend_refusals`, `compare_catalog_refusals`), as have entries (`compare_faults`), text of
//! md5sum and logs.

use crate::catalog::{HEAD, ROW};
use crate::compare_amend_refusals::refused_files_of;
use crate::compare_catalog::index;
use crate::compare_faults::{at, good, put};
use crate::compare_read_cuts::pushed;
use crate::field::{Code, CODES};
use crate::files::{afresh, File};
use crate::inventory::Change::{self, AddFile, AddVolume, RemoveFile, RemoveVolume, SetAside, TakeBack};
use crate::inventory::{CODE, LENGTH};
use crate::par1::VOLUME_LIMIT;
use crate::{calls, catalog_calls, cuts, expected, job_calls, par1, small, Counts, Random};

/// Refused with this answer, and the bytes are those lent.
fn refused<A: PartialEq + std::fmt::Debug>(counts: &mut Counts, what: impl Fn() -> String, got: (A, Vec<u8>), answer: A, lent: &[u8]) {
    counts.same(what, (got.0, got.1 == lent), (answer, true));
}

/// Two saved files and one between that is not, with a name that fits no line.
fn files() -> Vec<File> {
    let file = |contents: &[u8], status, name: &[u8]| File { contents: contents.to_vec(), status, name: name.to_vec() };
    vec![file(b"12", 1, b"A\0B\0"), file(b"not saved", 0, b"A\0\x7f\0"), file(b"abcdef", 3, b"A\0B\0")]
}

/// Texts of which one has a line of another shape, and one a listed name again with another sum.
fn texts() -> [Vec<u8>; 3] {
    let line = |digit: &str| format!("{}  AB\n", digit.repeat(32)).into_bytes();
    [vec![], b"no line\n".to_vec(), [line("0"), line("1")].concat()]
}

/// Catalogs for a volume 7 of the files: one of another list, one that has it, one without room for it, and bytes that are none.
fn catalogs(code: Code) -> [Vec<u8>; 4] {
    let other = par1::write_volume(code, 1, 0, &good(1), b"").unwrap();
    let opened = |file: &[u8], entries: usize, spare: usize| catalog_calls::open(file, &vec![3; HEAD + ROW * entries + spare]).1;
    let with = catalog_calls::add(&opened(&index(code, &files()), 3, ROW), &afresh(code, &files(), 7)).1;
    [opened(&other, 1, ROW), with, opened(&index(code, &files()), 3, 0), vec![3; 200]]
}

/// A file that reading refuses, in each call that reads one, beside everything that the call tests after it.
fn in_each_call(counts: &mut Counts, what: &str, answer: u64, file: &[u8], catalogs: &[Vec<u8>]) {
    for room in [&[3; 300][..], &[]] {
        refused(counts, || format!("reading: {what}"), calls::read(file, room), answer, room);
        let (taken, job) = pushed(&cuts::each(file, 50));
        let (number, over, after) = job_calls::read_end(&job, room);
        refused(counts, || format!("reading in chunks: {what}"), ((taken, number), after), (true, answer), room);
        let (number, again, after) = job_calls::read_end(&over, room);
        refused(counts, || format!("20 first: {what}"), ((number, again), after), (20, over), room);
        refused(counts, || format!("exporting: {what}"), calls::export(file, room), answer, room);
        for text in texts() {
            refused(counts, || format!("importing: {what}"), calls::import(file, &text, room), answer, room);
        }
        refused(counts, || format!("opening a catalog: {what}"), catalog_calls::open(file, room), answer, room);
    }
    for catalog in catalogs {
        refused(counts, || format!("adding to a catalog: {what}"), catalog_calls::add(catalog, file), answer, catalog);
    }
    let lines = format!("refused 1 {}\n", answer % 32).into_bytes();
    let got = calls::compare(file, &index(Code::Powers, &files()), &vec![3; lines.len()]);
    counts.same(|| format!("comparing: {what}"), got, (32 * lines.len() as u64, lines));
}

/// Volumes and indices of two faults: that of the first is answered. One of 1,025 entries is refused by its faults before 26, and by 26 before 14. What
/// the others would be refused with is so where there is no fault.
fn reading(counts: &mut Counts) {
    for code in CODES {
        let (volume, index) = (afresh(code, &files(), 7), index(code, &files()));
        let catalogs = catalogs(code);
        for (what, answer, file) in refused_files_of(&volume).into_iter().chain(refused_files_of(&index)) {
            in_each_call(counts, &what, answer, &file, &catalogs);
        }
        for (file, answers) in [(&volume, [25, 11, 14, 30]), (&index, [10, 10, 10, 30])] {
            let added: Vec<u64> = catalogs.iter().map(|catalog| catalog_calls::add(catalog, file).0).collect();
            counts.same(|| "added without a fault".into(), added, answers.to_vec());
            counts.same(|| "exported without a fault".into(), calls::export(file, &[]).0, 24);
            let imported: Vec<u64> = texts().iter().map(|text| calls::import(file, text, &[]).0).collect();
            counts.same(|| "imported without a fault".into(), imported, vec![14, at(22, 1), at(23, 2)]);
        }
        let mut many = files();
        many.resize(1025, many[1].clone());
        let many = afresh(code, &many, 7);
        for (what, answer, file) in refused_files_of(&many) {
            refused(counts, || format!("1,025 entries: {what}"), catalog_calls::open(&file, &[]), answer, &[]);
        }
        for room in [vec![], vec![3; 40_000]] {
            refused(counts, || "1,025 entries".into(), catalog_calls::open(&many, &room), 26, &room);
        }
    }
}

/// Its place in the order, what is wrong, the answer, and how it is made. Of two the later one is made first.
type Fault<C, A> = (u32, &'static str, A, fn(&mut C));

/// Each fault alone, and with each later one, as `run` makes the call: its answer, and whether no byte changed.
fn in_order<C: Clone, A: Copy + PartialEq + std::fmt::Debug>(counts: &mut Counts, right: &C, faults: &[Fault<C, A>], run: impl Fn(&C) -> (A, bool)) {
    for (place, what, answer, fault) in faults {
        for other in [None].into_iter().chain(faults.iter().filter(|other| other.0 > *place).map(Some)) {
            let mut call = right.clone();
            if let Some((_, _, _, other)) = other {
                other(&mut call);
            }
            fault(&mut call);
            counts.same(|| format!("{what}, {}", other.map_or("alone", |other| other.1)), run(&call), (*answer, true));
        }
    }
}

#[derive(Clone)]
struct Written {
    code: u32,
    number: u64,
    list: Vec<u8>,
    data: Vec<u8>,
    room: usize,
}

/// A volume of two files; the longer one has entries after theirs that are not saved, and its length is above the greatest.
fn writing(counts: &mut Counts) {
    let right = |list: Vec<u8>| Written { code: 1, number: 2, room: 96 + list.len() + 5, list, data: b"12345".to_vec() };
    let faults: [Fault<Written, u64>; 10] = [
        (0, "a code that is none", 10, |w| w.code = 2),
        (1, "an entry's size", at(16, 2), |w| put(&mut w.list[60..], 0, 59)),
        (2, "a file's size", at(17, 2), |w| put(&mut w.list[60..], 16, 16_777_217)),
        (3, "a name", at(18, 2), |w| w.list[60 + 56] = 58),
        (4, "the volume's number", 7, |w| w.number = 254),
        (4, "no file is saved", 7, |w| [0, 60].into_iter().for_each(|entry| w.list[entry + 8] = 0)),
        (5, "a byte of data more", 9, |w| w.data.push(0)),
        (5, "a byte of data less", 9, |w| w.data.truncate(4)),
        (7, "a byte of room less", 14, |w| w.room -= 1),
        (7, "no room", 14, |w| w.room = 0),
    ];
    let run = |w: &Written| {
        let room = vec![3; w.room];
        let (answer, after) = calls::write_volume(w.code, 9, w.number, &w.list, &w.data, &room);
        (answer, after == room)
    };
    in_order(counts, &right(good(2)), &faults, run);
    if small() {
        return;
    }
    let name = vec![65; VOLUME_LIMIT - 96 - 120 - 5 - 56 + 1];
    let long = right([good(2), par1::write_entry(b"", 0, &name).unwrap()].concat());
    let before: Vec<Fault<Written, u64>> = faults.into_iter().filter(|fault| fault.0 < 6).collect();
    for (_, what, answer, fault) in [(6, "too long", 1, (|_| ()) as fn(&mut Written))].into_iter().chain(before) {
        for room in [long.room, 0] {
            let mut call = Written { room, ..long.clone() };
            fault(&mut call);
            counts.same(|| format!("{what}, a volume too long"), run(&call), (answer, true));
        }
    }
}

#[derive(Clone)]
struct Opened {
    code: u32,
    n: u64,
    sizes: Vec<u8>,
    room: usize,
}

fn opening(counts: &mut Counts) {
    let right = Opened { code: 0, n: 3, sizes: [1u64, 2, 3].iter().flat_map(|size| size.to_le_bytes()).collect(), room: LENGTH };
    let faults: [Fault<Opened, u32>; 11] = [
        (0, "a code that is none", 10, |o| o.code = 2),
        (0, "no files", 10, |o| (o.n, o.sizes) = (0, vec![])),
        (0, "255 files", 10, |o| (o.n, o.sizes) = (255, o.sizes.repeat(85))),
        (0, "a file more", 10, |o| o.n += 1),
        (0, "a file less", 10, |o| o.n -= 1),
        (0, "a byte more", 10, |o| o.sizes.push(0)),
        (0, "no sizes", 10, |o| o.sizes.clear()),
        (1, "a first size", 1, |o| put(&mut o.sizes, 0, 16_777_217)),
        (1, "a last size", 1, |o| put(&mut o.sizes, 16, u64::MAX)),
        (2, "a byte of room less", 14, |o| o.room -= 1),
        (2, "no room", 14, |o| o.room = 0),
    ];
    in_order(counts, &right, &faults, |o| {
        let room = vec![3; o.room];
        let (answer, after) = calls::open(o.code, o.n, &o.sizes, &room);
        (answer, after == room)
    });
}

/// What makes an inventory one that no calls give.
const BREAKS: [fn(&mut Vec<u8>); 7] = [
    |bytes| bytes[0] = 0,
    |bytes| bytes[0] = 255,
    |bytes| bytes[8] |= 1,
    |bytes| bytes[40] |= 1 << 4,
    |bytes| bytes[CODE] = 2,
    |bytes| bytes.truncate(LENGTH - 1),
    |bytes| bytes.push(0),
];

/// Of four files 1 and 2 are present, 3 and 4 are not; of the volumes 1 is present, 4 in quarantine, and 2 and 3 are neither. A broken inventory is 10
/// whatever else is wrong; else each is refused as its row says, 29 before 27 and 11, 14 after 13 and 12.
fn inventories(counts: &mut Counts) {
    for code in CODES {
        let (own, other) = (code.number(), code.other().number());
        let mut right = calls::open(own, 4, &1u64.to_le_bytes().repeat(4), &[0; LENGTH]).1;
        for (change, number) in [(AddFile, 1), (AddFile, 2), (AddVolume(own), 1), (AddVolume(own), 4), (SetAside, 4)] {
            right = calls::change(&right, change, number).1;
        }
        let faults: [(Change, u64, u32); 15] = [
            (AddFile, 1, 11),
            (RemoveFile, 3, 11),
            (AddVolume(own), 1, 11),
            (AddVolume(own), 4, 27),
            (AddVolume(other), 1, 29),
            (AddVolume(other), 2, 29),
            (AddVolume(other), 4, 29),
            (AddVolume(2), 1, 10),
            (AddVolume(2), 4, 10),
            (AddVolume(other), 252, 10),
            (AddVolume(other), 0, 10),
            (RemoveVolume, 2, 11),
            (SetAside, 2, 11),
            (SetAside, 4, 11),
            (TakeBack, 1, 11),
        ];
        let mut inventories = vec![(right.clone(), false)];
        inventories.extend(BREAKS.into_iter().map(|broken| {
            let mut bytes = right.clone();
            broken(&mut bytes);
            (bytes, true)
        }));
        for (bytes, broken) in inventories {
            for (change, number, answer) in faults {
                let answer = if broken { 10 } else { answer };
                refused(counts, || format!("{change:?} {number}, broken: {broken}"), calls::change(&bytes, change, number), answer, &bytes);
            }
            for (file, answer) in [(1, 13), (3, 12), (0, 10), (5, 10)] {
                for room in [&[3; 255][..], &[3; 254], &[]] {
                    let answer = if broken { 10 } else { answer };
                    refused(counts, || format!("query {file}, broken: {broken}"), calls::query(&bytes, file, room), answer, room);
                }
            }
            refused(counts, || format!("a count, broken: {broken}"), calls::count(&bytes, &[3; 23]), if broken { 10 } else { 14 }, &[3; 23]);
        }
        let back = calls::change(&right, AddVolume(own), 2).1;
        for room in [&[3; 254][..], &[]] {
            refused(counts, || "a query into little room".into(), calls::query(&back, 3, room), 14, room);
        }
    }
}

/// 10 before 14 in the field's calls.
fn field(counts: &mut Counts) {
    refused(counts, || "the inverse of 0".into(), calls::inverse(0, &[]), 10, &[]);
    refused(counts, || "an inverse".into(), calls::inverse(1, &[]), 14, &[]);
    for (code, f, v, answer) in [(2, 1, 1, 10), (0, 0, 1, 10), (1, 1, 0, 10), (0, 1, 255, 10), (1, 1, 254, 14)] {
        refused(counts, || format!("the factor of {f} in {v} by {code}"), calls::coefficient(code, f, v, &[]), answer, &[]);
        counts.same(|| "the second program".into(), expected::coefficient(code, f, v, &[]).0, answer);
    }
}

pub fn run(counts: &mut Counts, _: &mut Random) {
    reading(counts);
    writing(counts);
    opening(counts);
    inventories(counts);
    field(counts);
}
