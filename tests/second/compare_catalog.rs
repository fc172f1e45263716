//! Runs of calls on catalogs (document 02, 2026-08): random sets, volumes of both codes, of theirs and of others, opened, added, dropped and loaded,
//! refused calls between; after each call the catalog must be the one that is opened from the same list and given only the volumes now in it, in any
//! order. Then sets of 0, 1, 254, 1,024 and 1,025 entries, none and 254 of them saved.

use crate::catalog::{Catalog, HEAD, ROW};
use crate::compare_par1::rehashed;
use crate::field::{Code, CODES};
use crate::files::{afresh, file, list, saved, File};
use crate::{catalog_calls as calls, expected, par1, rounds, small, Counts, Random};
use std::collections::BTreeMap;

/// An accepted call, as C gets it.
pub fn accepted(value: usize) -> u64 {
    32 * value as u64
}

/// Calls against what the documents say of them.
pub fn open(counts: &mut Counts, what: &str, file: &[u8], room: &[u8]) -> (u64, Vec<u8>) {
    let got = calls::open(file, room);
    counts.same(|| format!("opening {what}, a room of {} bytes", room.len()), &got, &expected::catalog_open(file, room));
    got
}

pub fn add(counts: &mut Counts, what: &str, room: &[u8], volume: &[u8]) -> (u64, Vec<u8>) {
    let got = calls::add(room, volume);
    counts.same(|| format!("adding {what}, a room of {} bytes", room.len()), &got, &expected::catalog_add(room, volume));
    got
}

pub fn drop(counts: &mut Counts, what: &str, room: &[u8], number: u64) -> (u64, Vec<u8>) {
    let got = calls::drop(room, number);
    counts.same(|| format!("dropping {number}, {what}"), &got, &expected::catalog_drop(room, number));
    got
}

pub fn load(counts: &mut Counts, what: &str, room: &[u8], records: usize) -> u64 {
    let got = calls::load(room, records);
    counts.same(|| format!("loading {what} into {records} records"), &got, &expected::catalog_load(room, records));
    got.0
}

pub fn index(code: Code, files: &[File]) -> Vec<u8> {
    par1::write_volume(code, 7, 0, &list(files), b"").unwrap()
}

/// A catalog of three files and a volume, by hand, with sums of RFC 1321's suite.
fn by_hand(counts: &mut Counts) {
    let file = |contents: &[u8], status| File { contents: contents.to_vec(), status, name: b"A\0".to_vec() };
    let files = [file(b"a", 1), file(b"message digest", 2), file(b"abc", 3)];
    let volume = afresh(Code::Powers, &files, 200);
    let hash = |digits: &str| (0..16).map(|i| u8::from_str_radix(&digits[2 * i..2 * i + 2], 16).unwrap()).collect::<Vec<u8>>();
    let rows = [
        vec![1, 0, 0, 0, 1, 0, 0, 0, 0, 0, 0, 0],
        hash("0cc175b9c0f1b6a831c399e269772661"),
        vec![0, 0, 0, 0, 14, 0, 0, 0, 0, 0, 0, 0],
        hash("f96b697d7cb7938d525a2f31aaf161d0"),
        vec![2, 0, 0, 0, 3, 0, 0, 0, 0, 0, 0, 0],
        hash("900150983cd24fb0d6963f7d28e17f72"),
    ];
    let opened = [&[3, 0, 0, 0, 0, 0, 0, 0, 16, 0, 0, 0, 100, 0, 0, 0][..], &rows.concat()].concat();
    let room = vec![0xee; 150];
    let want = [&opened[..], &room[100..]].concat();
    counts.same(|| "a catalog by hand".into(), calls::open(&volume, &room), (accepted(100), want.clone()));
    let mut added = want.clone();
    added[4] = 1;
    let row = [&[200, 0, 0, 0, 3, 0, 0, 0, 0, 0, 0, 0][..], &volume[16..32]].concat();
    added[100..128].copy_from_slice(&row);
    counts.same(|| "a volume added by hand".into(), calls::add(&want, &volume), (accepted(128), added.clone()));
    added[4] = 0;
    let mut with_volume = added.clone();
    with_volume[4] = 1;
    counts.same(|| "a volume dropped by hand".into(), calls::drop(&with_volume, 200), (accepted(100), added));
    let loaded: Vec<(u32, u64)> = calls::load(&want, 3).1.iter().map(|row| (row.number, row.size)).collect();
    counts.same(|| "loaded by hand".into(), loaded, vec![(1, 1), (0, 14), (2, 3)]);
}

/// "After any run the index equals one opened from the same list and given only the volumes now in it": by the library's own calls, in any order.
fn afresh_catalog(random: &mut Random, file: &[u8], present: &BTreeMap<u64, Vec<u8>>, entries: usize) -> Vec<u8> {
    let mut volumes: Vec<&Vec<u8>> = present.values().collect();
    for i in 0..volumes.len() {
        volumes.swap(i, random.below(i + 1));
    }
    let mut room = calls::open(file, &random.bytes(HEAD + ROW * (entries + volumes.len()))).1;
    for volume in volumes {
        room = calls::add(&room, volume).1;
    }
    room
}

/// A set with a pool of files to open from and volumes to add: its own, some with other data, those of other sets, an index, damaged ones.
struct Pool {
    files: Vec<File>,
    opening: Vec<Vec<u8>>,
    volumes: Vec<Vec<u8>>,
}

fn pool(random: &mut Random, entries: usize) -> Pool {
    let lengths: Vec<usize> = (0..entries).map(|_| [0, 1, 5, 20][random.below(4)]).collect();
    let files: Vec<File> = (0..).zip(lengths).map(|(i, length)| file(random, length, i % 3 != 1)).collect();
    let n = saved(&files).len();
    let mut other = files.clone();
    if let Some(last) = other.last_mut() {
        last.contents.push(9);
    }
    let mut opening = CODES.map(|code| index(code, &files)).to_vec();
    let mut volumes = vec![index(Code::Powers, &files), index(Code::Cauchy, &other)];
    if n > 0 {
        for number in [1, 2, 3, 254 - n, 255 - n].into_iter().filter(|&v| v > 0).map(|v| v as u64) {
            volumes.extend(CODES.map(|code| afresh(code, &files, number)));
            let mut data = afresh(CODES[number as usize % 2], &files, number);
            *data.last_mut().unwrap() ^= 1;
            volumes.push(data.clone());
            volumes.push(rehashed(data));
            volumes.push(afresh(CODES[number as usize % 2], &other, number));
        }
        opening.extend(CODES.map(|code| afresh(code, &files, 1)));
    }
    Pool { files, opening, volumes }
}

/// A run over one room, in which a model keeps which volume stands for each number.
fn calls_in_a_row(counts: &mut Counts, random: &mut Random, pool: &Pool, steps: usize) {
    let entries = pool.files.len();
    let length = HEAD + ROW * (entries + 4) + random.below(2 * ROW);
    let mut room = random.bytes(length);
    let mut present = BTreeMap::new();
    (_, room) = open(counts, "a set", &pool.opening[0], &room);
    for _ in 0..steps {
        let volume = &pool.volumes[random.below(pool.volumes.len())];
        let number = u64::from_le_bytes(volume[48..56].try_into().unwrap());
        let answer = match random.below(12) {
            0 => {
                present.clear();
                let opening = &pool.opening[random.below(pool.opening.len())];
                open(counts, "a set again", opening, &room)
            }
            1..=6 => {
                let got = add(counts, "a volume", &room, volume);
                if got.0 % 32 == 0 {
                    counts.same(|| "a number that stood for no volume".into(), present.insert(number, volume.clone()), None);
                }
                got
            }
            7..=10 => {
                let number = [number, number, random.below(257) as u64, number << 32][random.below(4)];
                let got = drop(counts, "a volume", &room, number);
                counts.same(|| format!("whether {number} is dropped"), got.0 % 32 == 0, present.remove(&number).is_some());
                got
            }
            _ => (load(counts, "a set", &room, random.below(entries + 3)), room.clone()),
        };
        room = answer.1;
        let fresh = afresh_catalog(random, &pool.opening[0], &present, entries);
        counts.same(|| format!("a catalog of {} volumes against one opened afresh", present.len()), &room[..fresh.len()], &fresh);
    }
}

/// Volumes added in an order and dropped in another; the numbers ascend in between, and what is past the catalog stays.
fn many_volumes(counts: &mut Counts, random: &mut Random) {
    let files = [file(random, 3, true), file(random, 9, false)];
    let mut numbers: Vec<u64> = (1..=254).collect();
    let room = random.bytes(HEAD + ROW * (2 + 254));
    let mut catalog = open(counts, "a set of one saved file", &index(Code::Powers, &files), &room).1;
    for adding in [true, false] {
        for i in 0..numbers.len() {
            numbers.swap(i, random.below(i + 1));
        }
        for (done, &number) in (1..).zip(&numbers) {
            let (answer, after) = match adding {
                true => add(counts, "one of many", &catalog, &afresh(CODES[number as usize % 3 % 2], &files, number)),
                false => drop(counts, "one of many", &catalog, number),
            };
            let length = HEAD + ROW * (2 + if adding { done } else { 254 - done });
            counts.same(|| format!("volume {number} of many"), answer, accepted(length));
            counts.same(|| "what is past it".into(), &after[length..], &catalog[length..]);
            let volumes = Catalog::parse(&after).unwrap().volumes;
            counts.same(|| "numbers that ascend".into(), volumes.windows(2).all(|two| two[0].number < two[1].number), true);
            catalog = after;
        }
    }
}

/// So many entries, of which the first are saved; the longest of all is not.
fn entries(random: &mut Random, entries: usize, saved: usize) -> Vec<File> {
    (0..entries).map(|i| if i < saved { file(random, i % 7, true) } else { file(random, 9, false) }).collect()
}

/// Numbers of entries at the ends of their range, none, one or 254 of them saved.
fn limits(counts: &mut Counts, random: &mut Random) {
    let few = [(0, 0), (1, 0), (1, 1), (254, 254), (300, 254)];
    let many = [(1023, 254), (1024, 0), (1024, 1), (1024, 254), (1025, 0), (1025, 254), (3000, 1)];
    for (n, saved) in few.into_iter().chain(many.into_iter().skip(if small() { 5 } else { 0 })) {
        let files = entries(random, n, saved);
        let code = CODES[saved % 2];
        let length = HEAD + ROW * n;
        let what = format!("{n} entries, {saved} saved");
        let (answer, room) = open(counts, &what, &index(code, &files), &vec![0xee; length + 2 * ROW + 5]);
        counts.same(|| format!("opening {what}"), answer, if n > 1024 { 26 } else { accepted(length) });
        open(counts, &what, &index(code, &files), &vec![0xee; length - 1]);
        if n > 1024 {
            counts.same(|| "26 before 14".into(), calls::open(&index(code, &files), &[]), (26, vec![]));
            continue;
        }
        for records in [0, n.saturating_sub(1), n, n + 1] {
            let answer = load(counts, &what, &room, records);
            counts.same(|| format!("{what} into {records} records"), answer, if records < n { 14 } else { accepted(n) });
        }
        for number in [0, 1, 254 - saved as u64, 255 - saved as u64, 256 - saved as u64, 255, 256] {
            let in_range = number > 0 && number <= 255 - saved as u64;
            let answer = drop(counts, &what, &room, number).0;
            counts.same(|| format!("dropping {number}, {what}"), answer, if in_range { 11 } else { 10 });
        }
        if saved > 0 {
            let last = 255 - saved as u64;
            let (answer, room) = add(counts, &what, &room, &afresh(code, &files, last));
            counts.same(|| format!("adding volume {last}, {what}"), answer, accepted(length + ROW));
            add(counts, &what, &room, &afresh(code.other(), &files, 1));
            load(counts, &what, &room, n);
            drop(counts, &what, &room, last);
            let more: Vec<File> = files.iter().cloned().chain([file(random, 1, false)]).collect();
            let answer = add(counts, "an entry more", &room, &afresh(code, &more, last)).0;
            counts.same(|| format!("adding a volume of an entry more, {what}"), answer, 25);
        }
    }
}

/// The greatest file and volume sizes.
fn longest(counts: &mut Counts) {
    let files = [File { contents: vec![1; 16_777_216], status: 1, name: b"A\0".to_vec() }];
    let volume = afresh(Code::Cauchy, &files, 254);
    let (_, room) = open(counts, "the longest file", &volume, &[0xee; 72]);
    let (answer, room) = add(counts, "the longest file's volume", &room, &volume);
    counts.same(|| "the longest file".into(), answer, accepted(72));
    load(counts, "the longest file", &room, 1);
}

pub fn run(counts: &mut Counts, random: &mut Random) {
    by_hand(counts);
    for round in 0..rounds(300) {
        let pool = pool(random, round % 7);
        calls_in_a_row(counts, random, &pool, 30);
    }
    many_volumes(counts, random);
    limits(counts, random);
    if !small() {
        longest(counts);
    }
}
