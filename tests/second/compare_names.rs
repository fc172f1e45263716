//! Names that no boat can store (document 02, 2026-14): names of dots, colons, units 0 and units near these, each in each call that meets an entry's name:
//! written, walked, checked, in a list that is written, in files that are read whole and in chunks cut everywhere, amended, compared, exported, imported
//! and put into catalogs; at the first, a middle and the last entry; by both codes. Lines of md5sum text with such names are passed over.

use crate::amend::Amendment;
use crate::compare_amend::{accepted, answers};
use crate::compare_catalog::{add, open};
use crate::compare_faults::at;
use crate::compare_par1::rehashed;
use crate::compare_read_cuts::pushed;
use crate::cuts::{self, Chunks};
use crate::field::{Code, CODES};
use crate::files::{afresh, list, File};
use crate::job_calls::read_end;
use crate::par1::PARTS;
use crate::{calls, expected, par1, small, Counts, Random};

/// The whole names "." and "..", and names with a unit 0, 47, 58 or 92.
fn refused() -> Vec<Vec<u16>> {
    let mut names = vec![vec![46], vec![46, 46]];
    for unit in [0, 58, 47, 92] {
        names.extend([vec![unit], vec![97, unit], vec![unit, 97], vec![97, unit, 98], vec![unit, unit], vec![46, unit], vec![unit, 46], vec![46, 46, unit]]);
        for place in [0, 1, 30, 59] {
            let mut long = vec![0x4e; 60];
            long[place] = unit;
            names.push(long);
        }
    }
    names
}

/// Other names of dots, names with a dot, and units that share a byte with one that is not allowed or lie next to it.
fn allowed() -> Vec<Vec<u16>> {
    let mut names = vec![vec![46, 97], vec![97, 46], vec![46, 46, 97], vec![97, 46, 46], vec![46, 97, 46], vec![46, 32], vec![32, 46]];
    names.extend([3, 4, 5, 60].map(|dots| vec![46; dots]));
    names.extend([vec![46, 0x2e00], vec![0x2e00, 46], vec![46, 0x2e2e], vec![46, 0x012e], vec![0x012e, 46], vec![46, 46, 0x2e00], vec![0x2e2e, 0x2e2e]]);
    let near = [1, 45, 46 + 256, 48, 57, 59, 91, 93, 256, 512, 0x2e00, 0x2e2e, 0x3a00, 0x3a3a, 0x013a, 0x2f00, 0x5c00, 0xff0e, 0xff1a, 0xffff];
    names.extend(near.map(|unit| vec![unit]));
    names.extend(near.map(|unit| vec![97, unit]));
    names
}

fn bytes(units: &[u16]) -> Vec<u8> {
    units.iter().flat_map(|unit| unit.to_le_bytes()).collect()
}

fn shown(units: &[u16]) -> String {
    format!("name {:?}", &units[..units.len().min(4)])
}

/// A saved file with this name.
fn named(units: &[u16]) -> File {
    File { contents: b"12345".to_vec(), status: 1, name: bytes(units) }
}

/// Three files of which the one at this place, from 1, has the name.
fn files(units: &[u16], place: usize) -> Vec<File> {
    (1..=3).map(|p| if p == place { named(units) } else { named(&[65, 64 + p as u16]) }).collect()
}

/// Where the name begins in a file with these entries.
fn name_at(place: usize) -> usize {
    96 + 60 * (place - 1) + 56
}

/// A volume, or an index where the number is 0, of these files: of names that are allowed, with the name put over one of them and the control hash put
/// right, for no other field depends on it.
fn file(code: Code, number: u64, units: &[u16], place: usize) -> Vec<u8> {
    let placeholder = files(&vec![66; units.len()], place);
    let mut whole = if number == 0 { par1::write_volume(code, 7, 0, &list(&placeholder), b"").unwrap() } else { afresh(code, &placeholder, number) };
    whole[name_at(place)..name_at(place) + 2 * units.len()].copy_from_slice(&bytes(units));
    rehashed(whole)
}

/// Writing an entry: after contents and status, before the room. The first entry of a list, and a lone one before its contents.
fn entries(counts: &mut Counts, units: &[u16], fits: bool) {
    let (name, entry) = (bytes(units), named(units).entry());
    let number = |passed: u32| if fits { passed } else { 18 };
    for (status, room, passed) in [(0, 200, 0), (1, 200, 0), (1, 0, 14), (1, 56 + name.len() - 1, 14)] {
        let room = vec![3; room];
        let got = calls::write_entry(b"12345", status, &name, &room);
        counts.same(|| format!("{} written", shown(units)), got.0, number(passed));
        counts.same(|| format!("{} written", shown(units)), got, expected::write_entry(b"12345", status, &name, &room));
    }
    counts.same(|| "17 before 18".into(), calls::write_entry(b"12345", 2, &name, &[3; 200]).0, 17);
    for (room, passed) in [(24, 0), (0, 14)] {
        let got = calls::entry(&[&entry[..], b"after it"].concat(), &vec![3; room]).0;
        counts.same(|| format!("{} at the front of a list", shown(units)), got, number(passed));
    }
    for (contents, passed) in [(&b"12345"[..], 0), (b"12346", 15)] {
        counts.same(|| format!("{} checked", shown(units)), calls::check(&entry, contents), number(passed));
    }
    let mut longer = entry.clone();
    longer[16..24].copy_from_slice(&16_777_217u64.to_le_bytes());
    counts.same(|| "17 before 18 in an entry".into(), calls::check(&longer, b"12345"), 17);
    counts.same(|| "16 before 18 in an entry".into(), calls::check(&entry[..entry.len() - 1], b"12345"), 16);
}

/// The answer of reading in chunks.
fn in_chunks(chunks: Chunks) -> (bool, (u64, Vec<u8>)) {
    let (taken, job) = pushed(&chunks);
    let (answer, _, room) = read_end(&job, &[3; PARTS]);
    (taken, (answer, room))
}

/// Cuts in three of which both lie in the name or next to it.
fn round_the_name(file: &[u8], from: usize, to: usize) -> Vec<Chunks<'_>> {
    let places = from.saturating_sub(2)..=(to + 2).min(file.len());
    places.clone().flat_map(|i| places.clone().filter(move |&j| j >= i).map(move |j| vec![&file[..i], &file[i..j], &file[j..]])).collect()
}

/// A file with the name, read whole and in chunks: 18 with its place, or accepted.
fn read(counts: &mut Counts, code: Code, units: &[u16], place: usize, fits: bool) {
    for number in [0, 2] {
        let file = file(code, number, units, place);
        let got = calls::read(&file, &[3; PARTS]);
        counts.same(|| format!("{} at entry {place} read", shown(units)), got.0, if fits { 0 } else { at(18, place) });
        counts.same(|| format!("{} at entry {place} read", shown(units)), &got, &expected::read(&file, &[3; PARTS]));
        let mut cut = cuts::in_two(&file).step_by(if small() { 29 } else { 1 }).collect::<Vec<_>>();
        cut.extend([1, 2, 3, 5, 64].map(|length| cuts::each(&file, length)));
        cut.push(cuts::spaced(&file));
        if units.len() < 5 && !small() {
            cut.extend(round_the_name(&file, name_at(place), name_at(place) + 2 * units.len()));
        }
        for chunks in cut {
            let lengths: Vec<usize> = chunks.iter().take(4).map(|chunk| chunk.len()).collect();
            counts.same(|| format!("{} at entry {place} read in chunks {lengths:?}", shown(units)), in_chunks(chunks), (true, got.clone()));
        }
    }
}

/// A list that is written: 18 with its place, before the tests after it; another code is 10 before.
fn written(counts: &mut Counts, code: Code, units: &[u16], place: usize, fits: bool) {
    let list = list(&files(units, place));
    for (number, data, room, passed) in [(0, &b""[..], 900, 0), (2, b"12345", 900, 0), (2, b"12345", 0, 14), (2, b"1234", 900, 9), (253, b"12345", 900, 7)] {
        let room = vec![3; room];
        let got = calls::write_volume(code.number(), 7, number, &list, data, &room);
        counts.same(|| format!("{} at entry {place} in a list", shown(units)), got.0, if fits { passed } else { at(18, place) });
        counts.same(|| format!("{} at entry {place} in a list", shown(units)), got, expected::write_volume(code.number(), 7, number, &list, data, &room));
    }
    counts.same(|| "10 before 18".into(), calls::write_volume(2, 7, 0, &list, b"", &[3; 900]).0, 10);
}

/// "amending (both entries)": a volume with the name, and a new entry with it. Where it is allowed, the entry of the file is taken, and any other file's is 21.
fn amended(counts: &mut Counts, code: Code, units: &[u16], place: usize, fits: bool) {
    let volume = file(code, 2, units, place);
    let length = volume.len() as u64;
    for number in 1..=3 {
        let entry = files(units, place)[number - 1].entry();
        let amendment = Amendment { file: number as u64, place: 1, old: b"23".to_vec(), new: b"xy".to_vec(), entry };
        let want = if fits { accepted(volume.len()) } else { at(18, place) };
        answers(counts, &format!("a volume, {} at entry {place}", shown(units)), &volume, length, &amendment, want);
    }
    let other = afresh(code, &files(&[67], place), 2);
    let amendment = Amendment { file: place as u64, place: 0, old: vec![], new: vec![], entry: named(units).entry() };
    answers(counts, &format!("with {}", shown(units)), &other, other.len() as u64, &amendment, if fits { 21 } else { 18 });
}

/// Comparing, exporting, importing, catalogs: what reading refuses they refuse.
fn others(counts: &mut Counts, code: Code, units: &[u16], place: usize, fits: bool) {
    let (whole, right) = (file(code, 2, units, place), afresh(code, &files(&vec![66; units.len()], place), 2));
    let refusal = at(18, place);
    for (one, two, text) in [(&whole, &right, "refused 1 18\n"), (&right, &whole, "refused 2 18\n"), (&whole, &whole, "refused 1 18\nrefused 2 18\n")] {
        let got = calls::compare(one, two, &[3; 300]);
        counts.same(|| format!("{} compared", shown(units)), &got, &expected::compare(one, two, &[3; 300]));
        if !fits {
            counts.same(|| format!("{} compared", shown(units)), got.1[..text.len()].to_vec(), text.as_bytes().to_vec());
        }
    }
    let got = calls::export(&whole, &[3; 400]);
    let unfit = units.iter().any(|unit| !(32..=126).contains(unit));
    counts.same(|| format!("{} exported", shown(units)), got.0 % 32, if !fits { 18 } else if unfit { 24 } else { 0 });
    counts.same(|| format!("{} exported", shown(units)), got, expected::export(&whole, &[3; 400]));
    for text in [&b""[..], b"no line\n"] {
        let got = calls::import(&whole, text, &[3; 5]);
        counts.same(|| format!("{} imported", shown(units)), got.0, if !fits { refusal } else if text.is_empty() { accepted(3) } else { at(22, 1) });
    }
    let got = open(counts, &shown(units), &whole, &[3; 200]).0;
    counts.same(|| format!("{} in a catalog", shown(units)), got, if fits { accepted(100) } else { refusal });
    let (_, catalog) = open(counts, "names that are allowed", &right, &[3; 200]);
    let got = add(counts, &shown(units), &catalog, &whole).0;
    counts.same(|| format!("{} in a volume for a catalog", shown(units)), got, if fits { accepted(128) } else { refusal });
}

/// "lines of md5sum text with such names are still passed over": of a list that has none of them, with any sums and any number of times.
fn passed_over(counts: &mut Counts) {
    let whole = par1::write_volume(Code::Cauchy, 7, 0, &named(&[97]).entry(), b"").unwrap();
    let (sum, other) = ("827ccb0eea8a706c4c34a16891f84e7b", "00000000000000000000000000000000");
    for name in [&b"."[..], b"..", b"...", b".a", b"a:", b":", b"a/b", b"a\\", b"\0", b"a\0", b"\0a", b"a\0\0"] {
        let line = |sum: &str, name: &[u8]| [sum.as_bytes(), b"  ", name, b"\n"].concat();
        let text = [line(sum, name), line(other, name), line(sum, b"a"), line(other, name)].concat();
        let got = calls::import(&whole, &text, &[3; 2]);
        counts.same(|| format!("lines for {name:?}"), &got, &(accepted(1), vec![1, 3]));
        counts.same(|| format!("lines for {name:?}"), got, expected::import(&whole, &text, &[3; 2]));
    }
}

/// Every unit of 16 bits as a name, and after an "a".
fn every_unit(counts: &mut Counts) {
    for unit in (0..=0xffff).step_by(if small() { 97 } else { 1 }) {
        for name in [vec![unit], vec![97, unit]] {
            let want = if [0, 47, 58, 92].contains(&unit) || name == [46] { 18 } else { 0 };
            counts.same(|| shown(&name), calls::write_entry(b"", 0, &bytes(&name), &[3; 60]).0, want);
        }
    }
}

pub fn run(counts: &mut Counts, _: &mut Random) {
    let names = refused().into_iter().map(|name| (name, false)).chain(allowed().into_iter().map(|name| (name, true)));
    for (i, (units, fits)) in names.enumerate() {
        entries(counts, &units, fits);
        let places = CODES.into_iter().flat_map(|code| [1, 2, 3].map(|place| (code, place)));
        for (code, place) in places.skip(if small() { i % 6 } else { 0 }).take(if small() { 1 } else { 6 }) {
            written(counts, code, &units, place, fits);
            read(counts, code, &units, place, fits);
            amended(counts, code, &units, place, fits);
            others(counts, code, &units, place, fits);
        }
    }
    passed_over(counts);
    every_unit(counts);
}
