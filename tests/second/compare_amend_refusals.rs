//! The refusals of an amendment in their order (document 02, 2026-05): each by itself and each with each that comes after it, on a volume in which
//! nothing else is wrong; refused calls change no byte. Then damaged volumes, and volumes of the greatest length.

use crate::amend::Amendment;
use crate::compare_amend::{accepted, amend, answers};
use crate::compare_faults::{at, put, LENGTH};
use crate::compare_par1::rehashed;
use crate::field::{Code, CODES};
use crate::files::{afresh, File};
use crate::par1::VOLUME_LIMIT;
use crate::{calls, small, Counts, Random};
use std::ops::RangeInclusive;

#[derive(Clone)]
struct Call {
    room: Vec<u8>,
    length: u64,
    amendment: Amendment,
}

/// Two saved files and a longer one between that is not, with entries of one length; and, where `name` is not empty, one more that is not saved.
fn files(name: &[u8]) -> Vec<File> {
    let file = |contents: &[u8], status| File { contents: contents.to_vec(), status, name: b"A\0B\0".to_vec() };
    let mut files = vec![file(b"12", 1), file(b"not saved", 0), file(b"abcdef", 3)];
    if !name.is_empty() {
        files.push(File { name: name.to_vec(), ..file(b"", 0) });
    }
    files
}

/// These bytes go on the end of file 2, by which volume 7 grows; the room has ten bytes more than the volume.
fn growth(code: Code, files: &[File], new: &[u8]) -> Call {
    let volume = afresh(code, files, 7);
    let mut file = files[2].clone();
    let place = file.contents.len() as u64;
    file.contents.extend(new);
    let amendment = Amendment { file: 2, place, old: vec![], new: new.to_vec(), entry: file.entry() };
    Call { length: volume.len() as u64, room: [volume, vec![0xee; 10]].concat(), amendment }
}

impl Call {
    /// The room's volume, changed by `change`, with its control hash put right.
    fn rehash(&mut self, change: impl FnOnce(&mut [u8])) {
        let rest = self.room.split_off(self.length as usize);
        change(&mut self.room);
        self.room = rehashed(std::mem::take(&mut self.room));
        self.room.extend(rest);
    }

    /// A number of the header, so much greater.
    fn raise(&mut self, place: usize, by: u64) {
        let number = u64::from_le_bytes(self.room[place..place + 8].try_into().unwrap());
        put(&mut self.room, place, number.wrapping_add(by));
    }
}

/// Its place in the order, in which 18 is a volume too long (`longest`); what is wrong, the answer, and how it is made. Of two the later one is made
/// first.
type Fault = (u32, &'static str, u64, fn(&mut Call));

/// Where entry 2 of the list begins.
const SECOND: usize = 96 + LENGTH;

const FAULTS: [Fault; 49] = [
    (0, "the room ends a byte early", 14, |c| {
        c.length = c.length.max(1);
        c.room.truncate(c.length as usize - 1)
    }),
    (0, "a length past the room", 14, |c| c.length = c.room.len() as u64 + 1),
    (0, "the greatest length", 14, |c| c.length = u64::MAX),
    (1, "95 bytes", 1, |c| c.length = 95),
    (1, "no bytes", 1, |c| c.length = 0),
    (2, "another signature", 2, |c| c.room[4] ^= 1),
    (3, "another version", 3, |c| c.room[9] ^= 1),
    (3, "a version between", 3, |c| c.room[10] ^= 3),
    (4, "another list size", 4, |c| c.raise(72, 2)),
    (4, "another data size", 4, |c| c.raise(88, 1)),
    (4, "a byte more", 4, |c| {
        c.room.insert(c.length as usize, 0);
        c.length += 1
    }),
    (4, "a byte less", 4, |c| c.length -= 1),
    (5, "another control hash", 5, |c| c.room[31] ^= 1),
    (5, "another byte of data", 5, |c| c.room[c.length as usize - 1] ^= 1),
    (6, "the size of entry 2", at(16, 2), |c| c.rehash(|volume| put(&mut volume[SECOND..], 0, 59))),
    (7, "the file size of entry 2", at(17, 2), |c| c.rehash(|volume| put(&mut volume[SECOND..], 16, 16_777_217))),
    (8, "the name of entry 2", at(18, 2), |c| c.rehash(|volume| volume[SECOND + 56] = 47)),
    (9, "another count", 19, |c| c.rehash(|volume| volume[56] ^= 64)),
    (10, "a volume number too great", 7, |c| c.rehash(|volume| put(volume, 48, 254))),
    (11, "another set hash", 8, |c| c.rehash(|volume| volume[47] ^= 1)),
    (12, "a byte of data more", 9, |c| {
        c.room.insert(c.length as usize, 0);
        c.length += 1;
        c.raise(88, 1);
        c.rehash(|_| ())
    }),
    (13, "an index", 10, |c| c.rehash(|volume| put(volume, 48, 0))),
    (13, "file 0", 10, |c| c.amendment.file = 0),
    (13, "file 3", 10, |c| c.amendment.file = 3),
    (13, "file 258", 10, |c| c.amendment.file = 258),
    (13, "file 2^32 + 2", 10, |c| c.amendment.file = (1 << 32) + 2),
    (13, "file 2^64 - 1", 10, |c| c.amendment.file = u64::MAX),
    (14, "an entry of no bytes", 16, |c| c.amendment.entry.clear()),
    (14, "an entry of 7 bytes", 16, |c| c.amendment.entry.truncate(7)),
    (14, "an entry a byte short", 16, |c| c.amendment.entry.truncate(LENGTH - 1)),
    (14, "two bytes after the entry", 16, |c| c.amendment.entry.extend([0; 2])),
    (14, "two entries", 16, |c| c.amendment.entry = c.amendment.entry.repeat(2)),
    (14, "an entry size of 56", 16, |c| put(&mut c.amendment.entry, 0, 56)),
    (14, "an odd entry size", 16, |c| put(&mut c.amendment.entry, 0, 59)),
    (15, "a file size above the limit", 17, |c| put(&mut c.amendment.entry, 16, 16_777_217)),
    (15, "the greatest file size", 17, |c| put(&mut c.amendment.entry, 16, u64::MAX)),
    (16, "a first unit 47", 18, |c| c.amendment.entry[56] = 47),
    (16, "a last unit 92", 18, |c| c.amendment.entry[58] = 92),
    (17, "a place past the end", 21, |c| c.amendment.place += 1),
    (17, "a place before the end", 21, |c| c.amendment.place -= 1),
    (17, "the greatest place", 21, |c| c.amendment.place = u64::MAX),
    (17, "an old byte", 21, |c| c.amendment.old.push(0)),
    (17, "a new byte more", 21, |c| c.amendment.new.push(0)),
    (17, "an entry with another size", 21, |c| c.amendment.entry[16] ^= 1),
    (17, "an entry that is not saved", 21, |c| c.amendment.entry[8] ^= 1),
    (17, "an entry with another status", 21, |c| c.amendment.entry[15] ^= 128),
    (17, "an entry with another name", 21, |c| c.amendment.entry[58] ^= 1),
    (19, "a room of the present length", 14, |c| c.room.truncate(c.length as usize)),
    (19, "a room a byte short of the new length", 14, |c| c.room.truncate(c.length as usize + 2)),
];

/// Refused with this answer, and no byte changes.
fn refused(counts: &mut Counts, what: &str, call: &Call, answer: u64) {
    let got = calls::amend(&call.room, call.length, &call.amendment);
    counts.same(|| what.into(), (got.0, got.1 == call.room), (answer, true));
}

/// The call with each fault at these places of the order, alone and with each later one: what is wrong, the answer, the call.
fn with_faults(call: &Call, places: RangeInclusive<u32>) -> Vec<(String, u64, Call)> {
    let faults: Vec<Fault> = FAULTS.into_iter().filter(|fault| places.contains(&fault.0)).collect();
    let mut calls = vec![];
    for (place, what, answer, fault) in &faults {
        let later = faults.iter().filter(|other| other.0 > *place);
        let pairs = later.map(|(_, also, _, other)| (format!("{what}, {also}"), Some(other)));
        for (what, other) in [(what.to_string(), None)].into_iter().chain(pairs) {
            let mut call = call.clone();
            if let Some(other) = other {
                other(&mut call);
            }
            fault(&mut call);
            calls.push((what, *answer, call));
        }
    }
    calls
}

/// An index file or volume, of entries as long as those above, with each fault that reading refuses and each two of them: the answer is the first's.
pub fn refused_files_of(file: &[u8]) -> Vec<(String, u64, Vec<u8>)> {
    let amendment = Amendment { file: 0, place: 0, old: vec![], new: vec![], entry: vec![] };
    let calls = with_faults(&Call { room: file.to_vec(), length: file.len() as u64, amendment }, 1..=12);
    calls.into_iter().map(|(what, answer, call)| (what, answer, call.room[..call.length as usize].to_vec())).collect()
}

/// Each fault alone and with each later one, against the document's order and against the second program.
fn in_order(counts: &mut Counts, code: Code) {
    let call = growth(code, &files(b""), b"ghi");
    answers(counts, "without a fault", &call.room, call.length, &call.amendment, accepted(call.length as usize + 3));
    for (what, answer, call) in with_faults(&call, 0..=19) {
        refused(counts, &what, &call, answer);
        amend(counts, &what, &call.room, call.length, &call.amendment);
    }
}

/// Each front of a volume; one bit of it changed, its control hash right or not; numbers of its header; random bytes.
fn damaged(counts: &mut Counts, random: &mut Random, code: Code) {
    let call = growth(code, &files(b""), b"ghi");
    let n = call.length as usize;
    for i in (0..n).step_by(if small() { 19 } else { 1 }) {
        amend(counts, "the front of a volume", &call.room, i as u64, &call.amendment);
        amend(counts, "the front of a volume in as much room", &call.room[..i], i as u64, &call.amendment);
        for rehash in [false, true] {
            let mut one = call.clone();
            one.room[i] ^= 1 << random.below(8);
            if rehash {
                one.rehash(|_| ());
            }
            amend(counts, "a volume with one bit changed", &one.room, one.length, &one.amendment);
        }
    }
    for field in (48..96).step_by(8) {
        for number in [0, 1, 2, 3, 96, 253, 254, 255, 256, 1 << 32, u64::MAX - 1, u64::MAX] {
            let mut one = call.clone();
            one.rehash(|volume| put(volume, field, number));
            amend(counts, "a volume with a number changed", &one.room, one.length, &one.amendment);
        }
    }
    for _ in 0..100 {
        let n = random.below(300);
        let (room, length) = (random.bytes(n), random.below(n + 2) as u64);
        amend(counts, "random bytes", &room, length, &call.amendment);
    }
}

/// The place of an entry at fault in the volume's list is told; the new entry stands in no list.
fn places(counts: &mut Counts) {
    let call = growth(Code::Cauchy, &files(b""), b"ghi");
    for (number, place, byte) in [(16, 0, 59), (17, 23, 1), (18, 56, 92)] {
        for entry in 1..=3 {
            let mut one = call.clone();
            one.rehash(|volume| volume[96 + (entry - 1) * LENGTH + place] = byte);
            refused(counts, &format!("{number} in entry {entry}"), &one, at(number, entry));
        }
        let mut one = call.clone();
        one.amendment.entry[place] = byte;
        refused(counts, &format!("{number} in the new entry"), &one, at(number, 0));
    }
}

/// Files of which a volume is two bytes short of the greatest length, by a long name.
fn long_files() -> Vec<File> {
    let without_name = afresh(Code::Powers, &files(b""), 7).len() + 56;
    files(&b"N\0".repeat((VOLUME_LIMIT - 2 - without_name) / 2))
}

/// A volume that would be longer than the greatest length is 1, after every refusal but that of the room; one of the greatest length is accepted.
fn longest(counts: &mut Counts) {
    let mut files = long_files();
    let call = growth(Code::Powers, &files, b"ghi");
    refused(counts, "a byte above the greatest length", &call, 1);
    let mut last = None;
    for (place, what, answer, fault) in FAULTS {
        if last.replace(place) != Some(place) || answer == 21 {
            let mut call = call.clone();
            fault(&mut call);
            refused(counts, &format!("{what}, above the greatest length"), &call, if place > 18 { 1 } else { answer });
        }
    }
    let mut call = growth(Code::Cauchy, &files, b"gh");
    call.room.truncate(VOLUME_LIMIT - 1);
    refused(counts, "the greatest length, a room a byte short", &call, 14);
    call.room.push(0xee);
    files[2].contents.extend(b"gh");
    let got = calls::amend(&call.room, call.length, &call.amendment);
    counts.same(|| "the greatest length".into(), (got.0, got.1 == afresh(Code::Cauchy, &files, 7)), (accepted(VOLUME_LIMIT), true));
    call = Call { length: VOLUME_LIMIT as u64, room: got.1, ..growth(Code::Cauchy, &files[..3], b"i") };
    refused(counts, "the greatest length grown", &call, 1);
    call.room.extend([0; 9]);
    refused(counts, "the greatest length grown in more room", &call, 1);
    call.length += 1;
    refused(counts, "a present length above the greatest", &call, 1);
}

pub fn run(counts: &mut Counts, random: &mut Random) {
    for code in CODES {
        in_order(counts, code);
        damaged(counts, random, code);
    }
    places(counts);
    if !small() {
        longest(counts);
    }
}
