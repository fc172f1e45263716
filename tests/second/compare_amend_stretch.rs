//! Which stretches and entries an amendment takes (document 02, 2026-05): every short stretch at every place of a file, with entries of every size;
//! places at the end of 64 bits; entries with another name, status or hash; rooms; old bytes that are not the file's; volumes of both codes.

use crate::amend::Amendment;
use crate::compare_amend::{accepted, amend, answers};
use crate::compare_faults::put;
use crate::field::{Code, CODES};
use crate::files::{afresh, saved, File};
use crate::{small, Counts, Random};

/// Two saved files and two that are not, all 64 bits of status in use; file 2 is the longer one.
fn files() -> Vec<File> {
    let file = |contents: &[u8], status, name: &[u8]| File { contents: contents.to_vec(), status, name: name.to_vec() };
    vec![
        file(b"not saved", 1 << 63, b"N\0"),
        file(b"12345", 0xf0f0_0000_8001_0205, b"A\0B\0"),
        file(b"", 2, b"E\0"),
        file(b"abcdefgh", u64::MAX, b"C\0"),
    ]
}

/// Volume 3 of these files, by a code, in a room with 12 bytes more.
fn room(code: Code, files: &[File]) -> (Vec<u8>, u64) {
    let volume = afresh(code, files, 3);
    ([&volume[..], &[0xee; 12]].concat(), volume.len() as u64)
}

/// An amendment of file f that is true: the files change with it.
fn true_amendment(files: &mut [File], f: u64, place: usize, old: usize, new: &[u8]) -> Amendment {
    let file = &mut files[saved(files)[f as usize - 1]];
    let old: Vec<u8> = file.contents.splice(place..place + old, new.iter().copied()).collect();
    Amendment { file: f, place: place as u64, old, new: new.to_vec(), entry: file.entry() }
}

/// Every place from 0 to past the end, old and new stretches of up to 4 bytes, entries of sizes about that of the file. Accepted are just those
/// inside and those on the end, with the size that they give; the data is 8 bytes long, or as long as the file where that is more.
fn grid(counts: &mut Counts, code: Code, f: u64) {
    let files = files();
    let (room, length) = room(code, &files);
    let file = &files[saved(&files)[f as usize - 1]];
    let size = file.contents.len();
    let stretches = (0..=size + 3).flat_map(|place| (0..25).map(move |i| (place, i / 5, i % 5)));
    for (place, old, new) in stretches.step_by(if small() { 20 } else { 1 }) {
        for said in size.saturating_sub(4)..=size + 6 {
            let mut entry = file.entry();
            put(&mut entry, 16, said as u64);
            let a = Amendment { file: f, place: place as u64, old: vec![9; old], new: vec![7; new], entry };
            let inside = old == new && place + old <= size && said == size;
            let on_the_end = old == 0 && place == size && said == size + new;
            let grown = length as usize - 8 + said.max(8);
            let want = if inside || on_the_end { accepted(grown) } else { 21 };
            answers(counts, &format!("to a size of {said}"), &room, length, &a, want);
        }
    }
}

/// Places that are above 32 bits, or whose sum with the stretch's length is above 64.
fn great_places(counts: &mut Counts) {
    let files = files();
    let (room, length) = room(Code::Powers, &files);
    for n in 0..=5 {
        for place in [u64::MAX, u64::MAX - n as u64, u64::MAX - n as u64 / 2, 1 << 63, 1 << 32, (1 << 32) + 5] {
            for old in [0, n] {
                let a = Amendment { file: 1, place, old: vec![9; old], new: vec![7; n], entry: files[1].entry() };
                answers(counts, "at a great place", &room, length, &a, 21);
            }
        }
    }
}

/// An entry with one bit changed: in the hashes it is taken over, anywhere else it is refused.
fn entry_bits(counts: &mut Counts) {
    let mut files = files();
    let (room, length) = room(Code::Powers, &files);
    let a = true_amendment(&mut files, 1, 1, 3, b"xyz");
    for bit in (64..8 * a.entry.len()).step_by(if small() { 5 } else { 1 }) {
        let mut a = a.clone();
        a.entry[bit / 8] ^= 1 << (bit % 8);
        let (answer, after) = amend(counts, "an entry with one bit changed", &room, length, &a);
        let hashes = (24..56).contains(&(bit / 8));
        counts.same(|| format!("bit {bit} of the entry"), answer % 32 == 0, hashes);
        counts.same(|| format!("bit {bit} taken over"), after.windows(a.entry.len()).any(|part| part == a.entry), hashes);
    }
}

/// Names that begin alike or end alike, and are longer or shorter; an entry of another file of the list.
fn names(counts: &mut Counts) {
    let mut files = files();
    let (room, length) = room(Code::Powers, &files);
    let a = true_amendment(&mut files, 1, 1, 3, b"xyz");
    for name in [&b"A\0"[..], b"B\0", b"A\0B\0C\0", b"C\0A\0B\0", b"A\0A\0", b"B\0A\0", b"a\0b\0", b"C\0", b"N\0"] {
        let other = Amendment { entry: File { name: name.to_vec(), ..files[1].clone() }.entry(), ..a.clone() };
        answers(counts, &format!("with the name {name:?}"), &room, length, &other, 21);
    }
    for entry in files.iter().map(File::entry) {
        let want = if entry == a.entry { accepted(length as usize) } else { 21 };
        answers(counts, "with an entry of the list", &room, length, &Amendment { entry, ..a.clone() }, want);
    }
}

/// Rooms from the volume's present length on: 14 up to a byte less than the new one, then the bytes past it stay.
fn rooms(counts: &mut Counts, code: Code) {
    for (f, place, old, new) in [(1, 5, 0, 4), (1, 5, 0, 3), (1, 2, 2, 2), (2, 8, 0, 1), (2, 8, 0, 9), (2, 0, 8, 8), (1, 5, 0, 0), (2, 8, 0, 0)] {
        let mut files = files();
        let before = afresh(code, &files, 3);
        let a = true_amendment(&mut files, f, place, old, &b"0123456789"[..new]);
        let after = afresh(code, &files, 3);
        for spare in 0..=12 {
            let rest = [0xee; 12][..spare].to_vec();
            let room = [&before[..], &rest].concat();
            let got = amend(counts, "a room", &room, before.len() as u64, &a);
            let want = if room.len() < after.len() { (14, room) } else { (accepted(after.len()), [&after[..], &room[after.len()..]].concat()) };
            counts.same(|| format!("file {f}, {new} bytes for {old}, a room of {spare} bytes more"), got, want);
        }
    }
}

/// Old bytes are not held against the data: the parity gains them, whatever they are. The true old bytes in their place, and the wrong ones taken
/// back, give the volume that is written afresh.
fn untrue_old_bytes(counts: &mut Counts, random: &mut Random, code: Code) {
    let mut files = files();
    let (room, length) = room(code, &files);
    let a = true_amendment(&mut files, 2, 2, 5, b"tuvwx");
    let fresh = afresh(code, &files, 3);
    for _ in 0..20 {
        let wrong = random.bytes(5);
        let (answer, after) = amend(counts, "with other old bytes", &room, length, &Amendment { old: wrong.clone(), ..a.clone() });
        counts.same(|| "other old bytes".into(), (answer, after[..length as usize] == fresh), (accepted(length as usize), wrong == a.old));
        let mended = Amendment { new: wrong, ..a.clone() };
        let (_, after) = amend(counts, "the old bytes put right", &after, length, &mended);
        counts.same(|| "the old bytes put right".into(), &after[..length as usize], &fresh);
    }
}

/// A change taken back, with the entry of before, gives the volume of before.
fn back(counts: &mut Counts, random: &mut Random, code: Code) {
    let before = files();
    let (room, length) = room(code, &before);
    for (f, size) in [(1, 5), (2, 8)] {
        for place in 0..=size {
            let mut files = before.clone();
            let entry = files[saved(&files)[f as usize - 1]].entry();
            let new = random.bytes(size - place);
            let a = true_amendment(&mut files, f, place, size - place, &new);
            let (_, after) = amend(counts, "forth", &room, length, &a);
            let taken_back = Amendment { old: a.new.clone(), new: a.old.clone(), entry, ..a };
            let got = amend(counts, "and back", &after, length, &taken_back);
            counts.same(|| format!("file {f} from place {place} on, forth and back"), got, (accepted(length as usize), room.clone()));
        }
    }
}

pub fn run(counts: &mut Counts, random: &mut Random) {
    great_places(counts);
    entry_bits(counts);
    names(counts);
    for code in CODES {
        grid(counts, code, 1);
        grid(counts, code, 2);
        rooms(counts, code);
        untrue_old_bytes(counts, random, code);
        back(counts, random, code);
    }
}
