//! Runs of amendments (document 02, 2026-05), of volumes of both codes: sets of files that change and grow, with refused calls between; after each
//! amendment each volume must be the one that is written afresh from the files as they are now, and differ from what it was only where the document
//! allows it.

use crate::amend::Amendment;
use crate::field::{Code, CODES};
use crate::files::{afresh, file, list, saved, File};
use crate::{calls, expected, rounds, small, Counts, Random};

/// An accepted amendment as C gets it.
pub fn accepted(length: usize) -> u64 {
    32 * length as u64
}

/// A call against what the documents say of it.
pub fn amend(counts: &mut Counts, what: &str, room: &[u8], length: u64, a: &Amendment) -> (u64, Vec<u8>) {
    let got = calls::amend(room, length, a);
    let stretch = || format!("file {}, place {}, {} bytes for {}", a.file, a.place, a.new.len(), a.old.len());
    counts.same(|| format!("amending {what}, {length} of {} bytes: {}", room.len(), stretch()), &got, &expected::amend(room, length, a));
    got
}

/// The same, and its answer against the one that a comparison knows beforehand.
pub fn answers(counts: &mut Counts, what: &str, room: &[u8], length: u64, a: &Amendment, answer: u64) {
    let got = amend(counts, what, room, length, a).0;
    counts.same(|| format!("the answer of amending {what}"), got, answer);
}

/// A volume in its room.
struct Volume {
    code: Code,
    number: u64,
    room: Vec<u8>,
    length: usize,
}

/// The room is made as long as the volume will be, or longer, with any bytes after it.
fn resize(volume: &mut Volume, length: usize, random: &mut Random) {
    let spare = [0, 0, 1, 100][random.below(4)];
    volume.room.truncate(volume.length);
    volume.room.extend(random.bytes(length - volume.length + spare));
}

/// A stretch inside the file or on its end: place, old bytes, new bytes. Growth is up to the greatest size, a byte less, a byte more, or any.
fn stretch(contents: &[u8], greatest: usize, random: &mut Random) -> (usize, Vec<u8>, Vec<u8>) {
    let size = contents.len();
    let place = random.below(size + 1);
    let (place, old) = match random.below(8) {
        0 => (place, 0),
        1 => (0, size),
        2..=4 => (place, random.below(size - place + 1)),
        _ => (size, 0),
    };
    let room = greatest - size;
    let growths = [0, 1, room.saturating_sub(1), room, room + 1, random.below(40)];
    let new = if place == size { growths[random.below(6)] } else { old };
    (place, contents[place..place + old].to_vec(), random.bytes(new))
}

/// Changes file f of a set: what there is to amend.
fn change(files: &mut [File], f: usize, random: &mut Random) -> Amendment {
    let numbered = saved(files);
    let greatest = numbered.iter().map(|&i| files[i].contents.len()).max().unwrap();
    let changed = &mut files[numbered[f - 1]];
    let (place, old, new) = stretch(&changed.contents, greatest, random);
    changed.contents.splice(place..place + old.len(), new.clone());
    Amendment { file: f as u64, place: place as u64, old, new, entry: changed.entry() }
}

/// "only the amended parity bytes, that entry's size and hashes, the set hash, the control hash and, if the greatest size grew, the data size and
/// its new tail may differ from before": the first byte that does and may not.
fn changed_elsewhere(before: &Volume, after: &[u8], files: &[File], a: &Amendment, length: usize) -> Option<usize> {
    let at = 96 + list(&files[..saved(files)[a.file as usize - 1]]).len();
    let place = 96 + list(files).len() + a.place as usize;
    let mut may = vec![16..32, 32..48, at + 16..at + 56, place..place + a.new.len()];
    if length > before.length {
        may.extend([88..96, before.length..length]);
    }
    (0..after.len()).find(|i| after[*i] != before.room[*i] && !may.iter().any(|range| range.contains(i)))
}

/// An amendment of one volume, in rooms that hold it and in one that is a byte short.
fn amended(counts: &mut Counts, random: &mut Random, volume: &mut Volume, files: &[File], a: &Amendment) {
    let fresh = afresh(volume.code, files, volume.number);
    let what = format!("{:?} volume {} of {} files", volume.code, volume.number, files.len());
    if fresh.len() > volume.length {
        resize(volume, fresh.len(), random);
        let short = &volume.room[..fresh.len() - 1];
        let got = amend(counts, &what, short, volume.length as u64, a);
        counts.same(|| format!("{what}, a byte short"), got, (14, short.to_vec()));
    }
    resize(volume, fresh.len(), random);
    let (answer, after) = amend(counts, &what, &volume.room, volume.length as u64, a);
    let want = [&fresh[..], &volume.room[fresh.len()..]].concat();
    counts.same(|| format!("{what} against one written afresh"), (answer, &after), (accepted(fresh.len()), &want));
    counts.same(|| format!("{what}: a byte elsewhere"), changed_elsewhere(volume, &after, files, a, fresh.len()), None);
    (volume.room, volume.length) = (after, fresh.len());
}

/// A call that differs in one thing from an amendment; it may be accepted all the same, and is not kept.
fn varied(counts: &mut Counts, random: &mut Random, volume: &Volume, a: &Amendment) {
    let (mut a, mut length) = (a.clone(), volume.length as u64);
    let bit = 1 << random.below(8);
    match random.below(8) {
        0 => length += [1, 64, u64::MAX - length][random.below(3)],
        1 => length -= 1 + random.below(volume.length) as u64,
        2 => a.file = [0, a.file - 1, a.file + 1, a.file + 256, u64::MAX][random.below(5)],
        3 => a.place = [a.place.wrapping_sub(1), a.place + 1, a.place + (1 << 32), u64::MAX][random.below(4)],
        4 => a.old.push(7),
        5 => a.new.push(7),
        6 => a.entry.truncate(random.below(a.entry.len())),
        _ => {
            let at = random.below(a.entry.len());
            a.entry[at] ^= bit;
        }
    }
    amend(counts, "with one thing changed", &volume.room, length, &a);
}

/// A run over four volumes of one set, of both codes, the greatest number among them.
fn amendments(counts: &mut Counts, random: &mut Random, mut files: Vec<File>, steps: usize) {
    let n = saved(&files).len();
    let [one, any, last] = [1, 1 + random.below(255 - n) as u64, 255 - n as u64];
    let mut volumes = [(Code::Powers, one), (Code::Cauchy, any), (CODES[random.below(2)], any), (CODES[random.below(2)], last)].map(|(code, number)| {
        let room = afresh(code, &files, number);
        Volume { code, number, length: room.len(), room }
    });
    for _ in 0..steps {
        let a = change(&mut files, 1 + random.below(n), random);
        for volume in &mut volumes {
            varied(counts, random, volume, &a);
            amended(counts, random, volume, &files, &a);
        }
    }
}

/// So many files, at least one of them saved; of the others some in eight are not.
fn set(random: &mut Random, files: usize, unsaved: usize) -> Vec<File> {
    let one_saved = random.below(files);
    let mut set = vec![];
    for i in 0..files {
        let length = [0, 0, 1, 5, 63, 64, 100, 200][random.below(8)];
        let saved = i == one_saved || random.below(8) >= unsaved;
        set.push(file(random, length, saved));
    }
    set
}

/// The longest file that there is: grown to 16,777,216 bytes in one step, and changed at both of its ends.
fn longest(counts: &mut Counts, random: &mut Random, code: Code) {
    let mut files = vec![file(random, 5, true), file(random, 0, false)];
    let mut volume = Volume { code, number: 254, room: afresh(code, &files, 254), length: 0 };
    volume.length = volume.room.len();
    for (place, old, new) in [(5, 0, 16_777_211), (16_777_213, 3, 3), (0, 1, 1), (16_777_216, 0, 0)] {
        let old = files[0].contents[place..place + old].to_vec();
        let new = random.bytes(new);
        files[0].contents.splice(place..place + old.len(), new.clone());
        let a = Amendment { file: 1, place: place as u64, old, new, entry: files[0].entry() };
        amended(counts, random, &mut volume, &files, &a);
    }
    let mut a = Amendment { file: 1, place: 16_777_216, old: vec![], new: vec![1], entry: files[0].entry() };
    let room = [&volume.room[..], &[0; 9]].concat();
    answers(counts, "a file to more than the greatest size", &room, volume.length as u64, &a, 21);
    a.entry[16] = 1;
    answers(counts, "a file to a size above the greatest", &room, volume.length as u64, &a, 17);
}

pub fn run(counts: &mut Counts, random: &mut Random) {
    for round in 0..rounds(300) {
        let files = 1 + random.below(6);
        let files = set(random, files, round % 5);
        amendments(counts, random, files, 12);
    }
    for round in 0..rounds(20) {
        let length = [16_383, 16_384, 16_385, 16_000][round % 4];
        let files = vec![file(random, 20, true), file(random, length, false), file(random, length, true)];
        amendments(counts, random, files, 4);
    }
    let most = set(random, 254, 0);
    amendments(counts, random, most, 3);
    if !small() {
        for code in CODES {
            longest(counts, random, code);
        }
    }
}
