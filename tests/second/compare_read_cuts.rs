//! Reading in chunks (document 02, 2026-03): files that are accepted, and of every refusal, cut everywhere in two and in three, byte by byte, with
//! chunks of no bytes; damaged files, random bytes and each front of a file in random chunks. The end must give the answer of the whole, a push
//! none but 0, and the job's bytes before the end must be the same for every cut.

use crate::compare_faults::{at, good, put, FAULTS, LENGTH};
use crate::compare_par1::{file, rehashed, unhashed};
use crate::cuts::{self, Chunks};
use crate::field::Code::{Cauchy, Powers};
use crate::files::File;
use crate::job_calls::{read_end, read_push, read_start};
use crate::jobs::{number, CONTROL_TOTAL, ENTRIES, HASH, READ, READ_ENDED, SAVED, SET_TOTAL, TOTAL};
use crate::par1::PARTS;
use crate::{expected, par1, rounds, small, Counts, Random};

/// A run of pushes: whether each is accepted, and the job after them.
pub fn pushed(chunks: &Chunks) -> (bool, Vec<u8>) {
    let (mut accepted, mut job) = (true, read_start(&[9; READ]).1);
    for chunk in chunks {
        let (number, next) = read_push(&job, chunk);
        accepted &= number == 0;
        job = next;
    }
    (accepted, job)
}

/// A file with what it must give, in this room, and the job of one push.
struct Whole<'a> {
    what: &'a str,
    file: &'a [u8],
    room: Vec<u8>,
    answer: (u64, Vec<u8>),
    job: Vec<u8>,
}

fn whole<'a>(what: &'a str, file: &'a [u8], room: usize) -> Whole<'a> {
    let room = vec![3; room];
    Whole { what, file, answer: expected::read(file, &room), room, job: pushed(&vec![file]).1 }
}

fn cut(counts: &mut Counts, whole: &Whole, chunks: Chunks) {
    let (accepted, job) = pushed(&chunks);
    let (answer, after, room) = read_end(&job, &whole.room);
    let over = number(&after, READ_ENDED) != 0;
    let lengths = || chunks.iter().map(|chunk| chunk.len()).collect::<Vec<_>>();
    let what = || format!("reading {}, {} bytes, in chunks of {:?}", whole.what, whole.file.len(), lengths());
    counts.same(what, (accepted, job == whole.job, (answer, room), over), (true, true, whole.answer.clone(), true));
}

/// Cut everywhere in two, and in chunks of one length.
fn in_two(counts: &mut Counts, whole: &Whole) {
    for chunks in cuts::in_two(whole.file).step_by(if small() { 13 } else { 1 }) {
        cut(counts, whole, chunks);
    }
    for length in [1, 2, 7, 64, 97, 4096] {
        cut(counts, whole, cuts::each(whole.file, length));
    }
    cut(counts, whole, cuts::spaced(whole.file));
}

fn in_three(counts: &mut Counts, whole: &Whole) {
    for chunks in cuts::in_three(whole.file).step_by(if small() { 997 } else { 1 }) {
        cut(counts, whole, chunks);
    }
}

/// Entries with these names, sizes and states: units that are allowed, and would not be if their bytes were paired with their neighbours'; and dots.
fn names() -> Vec<u8> {
    let units: [&[u8]; 7] = [b"A\0", b"/\x01\0/\0\\\\\x02", b"\0/\0\\", b"x\0y\0z\0", b":\x01\0:\0.", b".\0.\0.\0", b".\0A\0"];
    (0..).zip(units).flat_map(|(status, name)| File { contents: b"12345".to_vec(), status, name: name.to_vec() }.entry()).collect()
}

/// Files that are accepted.
fn accepted() -> Vec<(&'static str, Vec<u8>)> {
    let entry = good(1);
    let empty = par1::write_entry(b"", 1, b"E\0").unwrap();
    vec![
        ("an index of no entries", par1::write_volume(Powers, 1, 0, &[], &[]).unwrap()),
        ("an index of no entries with a comment", par1::write_volume(Powers, 1, 0, &[], b"a\0b\0").unwrap()),
        ("an index", par1::write_volume(Powers, 1, 0, &entry, &[]).unwrap()),
        ("an index of the other code", par1::write_volume(Cauchy, 1, 0, &entry, &[]).unwrap()),
        ("an index of two", par1::write_volume(Powers, 1, 0, &[&entry[..], &empty].concat(), b"c\0").unwrap()),
        ("a volume", par1::write_volume(Powers, 2, 254, &entry, b"12345").unwrap()),
        ("a volume of the other code", par1::write_volume(Cauchy, 2, 254, &entry, b"12345").unwrap()),
        ("a volume of an empty file", par1::write_volume(Cauchy, 2, 1, &empty, &[]).unwrap()),
        ("a volume with names of many units", par1::write_volume(Powers, 2, 3, &names(), b"54321").unwrap()),
    ]
}

/// A file with one number put in its header, its control hash right.
fn with(file: &[u8], place: usize, number: u64) -> Vec<u8> {
    let mut file = file.to_vec();
    put(&mut file, place, number);
    rehashed(file)
}

/// Files that the header, its hashes or the numbers refuse, one or more for each refusal but 16 to 18.
fn refused() -> Vec<(&'static str, u64, Vec<u8>)> {
    let index = par1::write_volume(Powers, 1, 0, &good(1), b"a\0").unwrap();
    let volume = par1::write_volume(Powers, 1, 2, &good(2), b"12345").unwrap();
    let length = index.len() as u64;
    let sums = with(&with(&with(&index, 72, u64::MAX - 1), 80, 94), 88, length - 94);
    let changed = |place: usize| [&volume[..place], &[volume[place] ^ 1], &volume[place + 1..]].concat();
    let versioned = |version: u32| [&volume[..8], &version.to_le_bytes(), &volume[12..]].concat();
    let unsaved = par1::write_entry(b"12345", 0, b"A\0").unwrap();
    vec![
        ("95 bytes", 1, index[..95].to_vec()),
        ("no bytes", 1, vec![]),
        ("another signature", 2, changed(4)),
        ("another version", 3, changed(9)),
        ("version 131,327", 3, versioned(131_327)),
        ("version 131,329", 3, versioned(131_329)),
        ("another list start", 4, with(&index, 64, 97)),
        ("another list size", 4, with(&index, 72, 62)),
        ("a list past the end", 4, with(&index, 72, u64::MAX)),
        ("another data start", 4, with(&index, 80, 158)),
        ("another data size", 4, with(&index, 88, 4)),
        ("sums above 64 bits", 4, sums),
        ("a byte less", 4, volume[..volume.len() - 1].to_vec()),
        ("a byte more", 4, [&volume[..], &[0]].concat()),
        ("another control hash", 5, changed(31)),
        ("another byte of data", 5, changed(volume.len() - 1)),
        ("another name", 5, changed(96 + 57)),
        ("another count", 19, with(&volume, 56, 3)),
        ("a great count", 19, with(&index, 56, u64::MAX)),
        ("a volume number too great", 7, with(&volume, 48, 254)),
        ("a volume of no saved files", 7, unhashed(1, 1, &unsaved)),
        ("another set hash", 8, rehashed(changed(47))),
        ("the greatest volume number", 8, with(&unhashed(254, 1, &good(1)), 40, 1)),
        ("an odd comment", 9, with(&[&index[..], &[0]].concat(), 88, 3)),
        ("more data than the greatest size", 9, with(&[&volume[..], &[0]].concat(), 88, 6)),
        ("less data than the greatest size", 9, with(&volume[..volume.len() - 1], 88, 4)),
    ]
}

/// Each fault of an entry at each place of a list of two; the place comes back with its number. Then bytes that are left over.
fn faults() -> Vec<(String, u64, Vec<u8>)> {
    let mut files = vec![];
    for (what, number, fault) in FAULTS {
        for place in [1, 2] {
            let mut list = good(2);
            fault(&mut list[(place - 1) * LENGTH..]);
            files.push((format!("{what} at entry {place}"), at(number, place), unhashed(0, 2, &list)));
        }
    }
    for n in [1, 7, 8, 57] {
        let list = [&good(1)[..], &good(1)[..n]].concat();
        files.push((format!("{n} bytes left over"), at(16, 2), unhashed(0, 1, &list)));
    }
    files
}

fn every_cut(counts: &mut Counts) {
    for (what, file) in accepted() {
        let whole = whole(what, &file, PARTS);
        counts.same(|| format!("{what} is accepted"), whole.answer.0, 0);
        in_two(counts, &whole);
        in_three(counts, &whole);
    }
    let mut three = [false; 32];
    let plain = refused().into_iter().map(|(what, number, file)| (what.to_string(), number, file));
    for (what, answer, file) in plain.chain(faults()) {
        let whole = whole(&what, &file, PARTS);
        counts.same(|| format!("{what} is refused"), whole.answer.0, answer);
        in_two(counts, &whole);
        if !std::mem::replace(&mut three[(answer % 32) as usize], true) {
            in_three(counts, &whole);
        }
    }
    let numbers: Vec<usize> = (0..32).filter(|&n| three[n]).collect();
    counts.same(|| "each refusal has a file cut in three".into(), numbers, vec![1, 2, 3, 4, 5, 7, 8, 9, 16, 17, 18, 19]);
}

/// Rooms too short, which are refused last of all and change no byte of theirs.
fn rooms(counts: &mut Counts) {
    for room in [0, 1, 56, PARTS - 1, PARTS + 1, 100] {
        for (what, file) in accepted() {
            in_two(counts, &whole(what, &file, room));
        }
        for (what, _, file) in refused() {
            cut(counts, &whole(what, &file, room), cuts::each(&file, 10));
        }
    }
}

/// Each front of a file, which is a file that ends early; and no push at all.
fn fronts(counts: &mut Counts, random: &mut Random) {
    for (what, file) in accepted() {
        for n in (0..file.len()).step_by(if small() { 11 } else { 1 }) {
            let whole = whole(what, &file[..n], PARTS);
            cut(counts, &whole, cuts::each(whole.file, 1));
            cut(counts, &whole, cuts::random(whole.file, 100, random));
        }
    }
    let nothing = whole("nothing", &[], PARTS);
    cut(counts, &nothing, vec![]);
    cut(counts, &nothing, vec![&[], &[]]);
}

/// Files of random lists, with a bit or a field changed, their control hash put right or not.
fn damaged(counts: &mut Counts, random: &mut Random) {
    for _ in 0..rounds(3000) {
        let mut one = file(random);
        let place = random.below(one.len().min(600));
        match random.below(3) {
            0 => {}
            1 => one[place] ^= 1 << random.below(8),
            _ => {
                let numbers = [0, 1, 2, 58, 60, 96, 255, 1 << 32, u64::MAX - 1, u64::MAX, random.below(1 << 16) as u64];
                put(&mut one, 48 + 8 * random.below(9).min(5), numbers[random.below(11)]);
            }
        }
        let one = if random.below(4) > 0 { rehashed(one) } else { one };
        let whole = whole("a file that may be damaged", &one, PARTS);
        for _ in 0..3 {
            cut(counts, &whole, cuts::random(&one, 300, random));
        }
        let n = random.below(400);
        let bytes = random.bytes(n);
        cut(counts, &self::whole("random bytes", &bytes, PARTS), cuts::random(&bytes, 90, random));
    }
}

/// What the header says of a job's bytes: how many came, the first 96 of them, the hash of those from 32 on; and after a whole file that is
/// accepted no entry at hand, the entries, those saved, the hash of their MD5s.
fn layout(counts: &mut Counts) {
    for (what, file) in accepted() {
        for n in 0..=file.len() {
            let (_, job) = pushed(&cuts::each(&file[..n], 5));
            let mut header = file[..n.min(96)].to_vec();
            header.resize(96, 0);
            let got = (number(&job, TOTAL), &job[8..104], &job[104..CONTROL_TOTAL + 8]);
            counts.same(|| format!("the job after {n} bytes of {what}"), got, (n as u64, &header[..], &hash_bytes(&file[n.min(32)..n])[..]));
        }
        let (_, job) = pushed(&vec![&file]);
        let parts = par1::read(&file).unwrap();
        let list = par1::entries(&file[96..96 + parts[4] as usize]).unwrap();
        let saved: Vec<u8> = list.iter().filter(|e| e.status % 2 == 1).flat_map(|e| e.md5).collect();
        let got = (number(&job, crate::jobs::AT), number(&job, ENTRIES), number(&job, SAVED), &job[296..SET_TOTAL + 8]);
        counts.same(|| format!("the job after {what}"), got, (0, parts[2], parts[3], &hash_bytes(&saved)[..]));
    }
}

/// The running hash of a message as it stands in a job.
fn hash_bytes(message: &[u8]) -> Vec<u8> {
    let hash = HASH.pushed(message);
    let words: Vec<u8> = hash.words.iter().flat_map(|w| w.to_le_bytes()).collect();
    [&words[..], &hash.tail, &hash.total.to_le_bytes()].concat()
}

pub fn run(counts: &mut Counts, random: &mut Random) {
    every_cut(counts);
    rooms(counts);
    fronts(counts, random);
    damaged(counts, random);
    layout(counts);
}
