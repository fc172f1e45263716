//! The two codes (document 02, 2026-13): factors by hand; which versions are read, whole and in chunks, and which code comes back; volumes and indices
//! of both that are written, and numbers that are no code; 29 in its place; sets of files that are lost and rebuilt by both codes; "if at least as many
//! volumes are in hand as files of size 1 or more are lost, all lost files are rebuildable; if fewer, none of those is"; and every pair of missing
//! files of 24 with every pair of volumes.

use crate::calls::{CAUCHY, POWERS};
use crate::compare_catalog::index;
use crate::compare_read_cuts::pushed;
use crate::field::Code::{self, Cauchy};
use crate::field::{self, CODES};
use crate::files::{afresh, file, list, saved, File};
use crate::inventory::Change::{AddFile, AddVolume, RemoveFile, SetAside};
use crate::inventory::LENGTH;
use crate::par1::{version, PARTS};
use crate::{calls, cuts, expected, job_calls, par1, rounds, small, Counts, Random};

/// The file with this version; no hash is over it.
fn with_version(file: &[u8], version: u32) -> Vec<u8> {
    [&file[..8], &version.to_le_bytes(), &file[12..]].concat()
}

/// The file as it is by the other code; one with another version, or too short to have one, as it is.
pub fn turned(file: &[u8]) -> Vec<u8> {
    let code = CODES.into_iter().find(|&code| file.get(8..12) == Some(&version(code).to_le_bytes()));
    code.map_or(file.to_vec(), |code| with_version(file, version(code.other())))
}

/// 2 times 142 and 3 times 244 are 1 (document 01, P2 and P3); 1 exclusive-or 3 is 2, 1 exclusive-or 2 is 3, 2 exclusive-or 3 is 1.
fn by_hand(counts: &mut Counts) {
    for (f, v, factor) in [(1, 253, 142), (1, 254, 244), (2, 253, 1)] {
        counts.same(|| format!("the factor of file {f} in volume {v}"), calls::coefficient(CAUCHY, f, v, &[0]), (0, vec![factor]));
    }
    for f in 1..=254u64 {
        for v in 1..=255 - f {
            let (number, factor) = calls::coefficient(CAUCHY, f, v, &[0]);
            let product = field::product(f as u8 ^ (256 - v) as u8, factor[0]);
            counts.same(|| format!("the factor of file {f} in volume {v}, times what it is the inverse of"), (number, product), (0, 1));
        }
    }
    for code in [2, 3, 255, 256, 257, 1 << 16, 1 << 31, u32::MAX] {
        for (f, v, room) in [(1, 1, 1), (0, 1, 1), (254, 2, 1), (u64::MAX, u64::MAX, 0), (1, 1, 0)] {
            let room = vec![7; room];
            counts.same(|| format!("a factor by code {code}"), calls::coefficient(code, f, v, &room), (10, room));
        }
    }
}

/// Two saved files and one between that is not.
fn files() -> Vec<File> {
    let file = |contents: &[u8], status, name: &[u8]| File { contents: contents.to_vec(), status, name: name.to_vec() };
    vec![file(b"12345", 1, b"A\0"), file(b"not saved", 0, b"N\0"), file(b"abcdefgh", 1, b"C\0D\0")]
}

/// A volume and an index of each code.
fn of_both() -> Vec<(Code, Vec<u8>)> {
    CODES.into_iter().flat_map(|code| [(code, index(code, &files())), (code, afresh(code, &files(), 7))]).collect()
}

/// The answer of reading a file in these chunks, and the room after it.
fn read_in_chunks(chunks: cuts::Chunks, room: &[u8]) -> (u64, Vec<u8>) {
    let (accepted, job) = pushed(&chunks);
    assert!(accepted, "a push is refused");
    let (answer, _, after) = job_calls::read_end(&job, room);
    (answer, after)
}

/// "test 3 now passes both", "reading returns it": of any other version 3, before the tests after it and after those before it.
fn versions(counts: &mut Counts) {
    let near = [65_535, 65_537, 131_071, 131_072, 131_073, 131_327, 131_329, 196_864, 0, 1, 2, 256, 512, 258, u32::MAX];
    let bits = (0..32).flat_map(|bit| CODES.map(|code| version(code) ^ 1 << bit));
    let versions: Vec<u32> = near.into_iter().chain(bits).chain(CODES.map(version)).chain(CODES.map(|code| version(code).swap_bytes())).collect();
    for (_, whole) in of_both() {
        for &version in &versions {
            let file = with_version(&whole, version);
            let code = CODES.into_iter().find(|&code| par1::version(code) == version);
            let want = if code.is_none() { 3 } else { 0 };
            let got = calls::read(&file, &[7; PARTS]);
            counts.same(|| format!("version {version}"), &got, &expected::read(&file, &[7; PARTS]));
            let told = code.map_or(vec![7; 8], |code| (code.number() as u64).to_le_bytes().to_vec());
            counts.same(|| format!("version {version} and its code"), (got.0, &got.1[56..]), (want, &told[..]));
            for chunks in cuts::in_two(&file).step_by(if small() { 31 } else { 1 }) {
                counts.same(|| format!("version {version} in chunks"), read_in_chunks(chunks, &[7; PARTS]), got.clone());
            }
            let mut other = file.clone();
            other[16] ^= 1;
            counts.same(|| format!("version {version} before 5"), calls::read(&other, &[]).0, if code.is_none() { 3 } else { 5 });
            other[0] ^= 1;
            counts.same(|| format!("2 before version {version}"), calls::read(&other, &[]).0, 2);
        }
        for room in 0..=PARTS + 2 {
            let room = vec![7; room];
            counts.same(|| format!("a room of {} bytes", room.len()), calls::read(&whole, &room), expected::read(&whole, &room));
        }
    }
}

/// "writing and asking for a factor are told the code": of what is written only the version differs. Another code is 10, first of all.
fn writing(counts: &mut Counts) {
    let (set, data) = (list(&files()), b"12345678");
    for (volume, data) in [(0, &b"abcd"[..]), (0, b""), (1, data), (253, data)] {
        let room = vec![7; 96 + set.len() + data.len() + 3];
        let [one, other] = CODES.map(|code| calls::write_volume(code.number(), 9, volume, &set, data, &room));
        counts.same(|| format!("volume {volume} by both codes"), (one.0, other.0, &turned(&one.1)), (0, 0, &other.1));
        let versions = [&one.1, &other.1].map(|file| u32::from_le_bytes(file[8..12].try_into().unwrap()));
        counts.same(|| format!("the versions of volume {volume}"), versions, [65_536, 131_328]);
        counts.same(|| format!("volume {volume} by Cauchy's code"), other, expected::write_volume(CAUCHY, 9, volume, &set, data, &room));
    }
    let mut fault = set.clone();
    fault[56] = 47;
    for code in [2, 3, 256, 1 << 16, 65_536, 131_328, u32::MAX] {
        for (volume, list, data, room) in [(1, &set, &data[..], 400), (1, &fault, data, 400), (254, &set, data, 400), (1, &set, b"", 400), (0, &set, b"", 0)] {
            let room = vec![7; room];
            let got = calls::write_volume(code, 9, volume, list, data, &room);
            counts.same(|| format!("writing by code {code}"), &got, &(10, room.clone()));
            counts.same(|| format!("writing by code {code}"), got, expected::write_volume(code, 9, volume, list, data, &room));
        }
    }
}

/// "29 a volume of the other code noted, after 10, before 27 and 11": of a volume that is absent, present or set aside, by its own code, the other and none.
fn noting(counts: &mut Counts) {
    for (n, v) in [(1, 1), (1, 254), (5, 64), (254, 1)] {
        for code in CODES {
            let absent = calls::open(code.number(), n, &vec![0; 8 * n as usize], &[0; LENGTH]).1;
            let present = calls::change(&absent, AddVolume(code.number()), v).1;
            let aside = calls::change(&present, SetAside, v).1;
            for (state, bytes, own) in [("absent", &absent, 0), ("present", &present, 11), ("set aside", &aside, 27)] {
                let codes = [(code.number(), own), (code.other().number(), 29), (2, 10), (256, 10), (u32::MAX, 10)];
                for (told, want) in codes {
                    let got = calls::change(bytes, AddVolume(told), v);
                    counts.same(|| format!("volume {v} of {n} files, {state}, code {told} for {code:?}"), got.0, want);
                    counts.same(|| "what it leaves".into(), &got, &expected::change(bytes, AddVolume(told), v));
                    for out_of_range in [0, 256 - n, 255, 256, (1 << 32) + v, u64::MAX] {
                        let got = calls::change(bytes, AddVolume(told), out_of_range);
                        counts.same(|| format!("volume {out_of_range} of {n} files, code {told}"), got, (10, bytes.clone()));
                    }
                }
            }
            let mut none = absent.clone();
            none[0] = 0;
            counts.same(|| "10 of the inventory before 29".into(), calls::change(&none, AddVolume(code.other().number()), v).0, 10);
        }
    }
}

/// Nothing present of files of these sizes.
fn opened(code: Code, sizes: &[usize]) -> Vec<u8> {
    let bytes: Vec<u8> = sizes.iter().flat_map(|&size| (size as u64).to_le_bytes()).collect();
    calls::open(code.number(), sizes.len() as u64, &bytes, &[0; LENGTH]).1
}

/// Up to k of the numbers 1 to last, none twice.
fn some(random: &mut Random, last: usize, k: usize) -> Vec<usize> {
    let mut numbers: Vec<usize> = (1..=last).collect();
    for i in (1..last).rev() {
        numbers.swap(i, random.below(i + 1));
    }
    numbers.truncate(k);
    numbers
}

/// The count alone decides, whichever volumes are present: "all lost files are rebuildable", or of those of size 1 or more none.
fn any_will_do(counts: &mut Counts, random: &mut Random) {
    for round in 0..rounds(1500) {
        let n = 1 + random.below(if round % 50 == 0 { 200 } else { 14 });
        let empty = random.below(3);
        let sizes: Vec<usize> = (0..n).map(|_| if random.below(6) < empty { 0 } else { 1 + random.below(9) }).collect();
        let lost = 1 + random.below(n);
        let missing = some(random, n, lost.min(20));
        let needed = missing.iter().filter(|&&f| sizes[f - 1] > 0).count();
        let present = (needed + random.below(4)).saturating_sub(random.below(3)).min(255 - n);
        let volumes = some(random, 255 - n, present);
        let mut bytes = opened(Cauchy, &sizes);
        for f in (1..=n).filter(|f| !missing.contains(f)) {
            bytes = calls::change(&bytes, AddFile, f as u64).1;
        }
        for &v in &volumes {
            bytes = calls::change(&bytes, AddVolume(CAUCHY), v as u64).1;
        }
        for &f in &missing {
            let want = if sizes[f - 1] == 0 || present >= needed { 0 } else { 12 };
            let what = || format!("file {f} of {n}, {needed} of size 1 or more missing, volumes {volumes:?}");
            counts.same(what, calls::query(&bytes, f as u64, &[7; 255]).0, want);
        }
    }
}

/// A set written, lost and rebuilt by the library's calls alone: each file that a query brings back is the one of its entry.
fn rebuilt(counts: &mut Counts, random: &mut Random) {
    for round in 0..rounds(300) {
        let code = CODES[round % 2];
        let entries = 1 + random.below(9);
        let mut set: Vec<File> = vec![];
        for i in 0..entries {
            let (length, saved) = (random.below(40), i == 0 || random.below(5) > 0);
            set.push(file(random, length, saved));
        }
        let contents: Vec<&File> = saved(&set).into_iter().map(|i| &set[i]).collect();
        let n = contents.len();
        let sizes: Vec<usize> = contents.iter().map(|file| file.contents.len()).collect();
        let numbers = some(random, 255 - n, 5);
        let volumes: Vec<Vec<u8>> = numbers.iter().map(|&v| volume(code, &contents, &list(&set), v as u64)).collect();
        for (&v, volume) in numbers.iter().zip(&volumes) {
            counts.same(|| format!("{code:?} volume {v}"), volume, &afresh(code, &set, v as u64));
        }
        let lost = 1 + random.below(n);
        let missing = some(random, n, lost);
        let mut bytes = opened(code, &sizes);
        for f in (1..=n).filter(|f| !missing.contains(f)) {
            bytes = calls::change(&bytes, AddFile, f as u64).1;
        }
        for (&v, volume) in numbers.iter().zip(&volumes) {
            let parts = calls::read(volume, &[0; PARTS]).1;
            bytes = calls::change(&bytes, AddVolume(parts[56] as u32), v as u64).1;
        }
        for &f in &missing {
            let (number, weights) = calls::query(&bytes, f as u64, &[0; 255]);
            if number != 0 {
                counts.same(|| format!("file {f} by {code:?}"), (number, code == Cauchy && numbers.len() >= missing.len()), (12, false));
                continue;
            }
            let mut buffer = vec![0; sizes[f - 1]];
            for g in (1..=n).filter(|g| !missing.contains(g)) {
                calls::mul_add(weights[g - 1], &contents[g - 1].contents, &mut buffer);
            }
            for (&v, volume) in numbers.iter().zip(&volumes) {
                calls::mul_add(weights[n + v - 1], &volume[96 + list(&set).len()..], &mut buffer);
            }
            counts.same(|| format!("file {f} of {n} rebuilt by {code:?}"), calls::check(&contents[f - 1].entry(), &buffer), 0);
        }
    }
}

/// Volume v by the library's factors, folds and writing.
fn volume(code: Code, contents: &[&File], list: &[u8], v: u64) -> Vec<u8> {
    let mut data = vec![0; contents.iter().map(|file| file.contents.len()).max().unwrap_or(0)];
    for (f, file) in (1..).zip(contents) {
        let (_, factor) = calls::coefficient(code.number(), f, v, &[0]);
        calls::mul_add(factor[0], &file.contents, &mut data);
    }
    calls::write_volume(code.number(), 0x0500_0001, v, list, &data, &vec![0; 96 + list.len() + data.len()]).1
}

const FILES: u64 = 24;

/// With files a and b of 24 missing and each pair of volumes 1 to `last` present: how often they come back, and how often by the second program, for
/// which two rows of two columns must not be multiples of one another. No factor is 0, so the two come back together or not at all: both are asked for with
/// volumes up to 24, and one of them in turn with greater ones. A pair in which one comes back and the other does not ends the run. The inventory of two
/// volumes has the bits of those of each.
fn pairs_of_volumes(code: Code, a: u64, b: u64, last: u64) -> (u64, u64) {
    let mut none = opened(code, &[1; FILES as usize]);
    for f in (1..=FILES).filter(|&f| f != a && f != b) {
        none = calls::change(&none, AddFile, f).1;
    }
    let factors: Vec<[u8; 2]> = (1..=last).map(|v| [a, b].map(|f| field::coefficient(code, f as u8, v as u8))).collect();
    let ones: Vec<Vec<u8>> = (1..=last).map(|v| calls::change(&none, AddVolume(code.number()), v).1).collect();
    let (mut back, mut by_rows) = (0, 0);
    for v in 1..=last {
        for w in v + 1..=last {
            let bytes: Vec<u8> = ones[v as usize - 1].iter().zip(&ones[w as usize - 1]).map(|(one, other)| one | other).collect();
            let turn = (v + w) as usize % 2;
            let asked = if w <= FILES { &[a, b][..] } else { &[[a, b][turn]] };
            let mut numbers = asked.iter().map(|&f| calls::query(&bytes, f, &[0; 255]).0);
            let first = numbers.next().unwrap();
            assert!([0, 12].contains(&first) && numbers.all(|number| number == first), "files {a} and {b} with volumes {v} and {w}");
            back += (first == 0) as u64;
            let [row, other] = [v, w].map(|v| factors[v as usize - 1]);
            by_rows += (field::product(row[0], other[1]) != field::product(row[1], other[0])) as u64;
        }
    }
    (back, by_rows)
}

/// Every pair of missing files with every pair of volumes, of both codes, on two threads; how many come back of each is printed.
fn every_pair(counts: &mut Counts) {
    let last = if small() { 4 } else { 255 - FILES };
    let missing: Vec<(u64, u64)> = (1..=FILES).flat_map(|a| (a + 1..=FILES).map(move |b| (a, b))).collect();
    let in_all = missing.len() as u64 * last * (last - 1) / 2;
    for code in CODES {
        let (first, second) = missing.split_at(missing.len() / 2);
        let counted = |part: &[(u64, u64)]| part.iter().map(|&(a, b)| pairs_of_volumes(code, a, b, last)).collect::<Vec<_>>();
        let found = std::thread::scope(|scope| {
            let other = scope.spawn(|| counted(second));
            [counted(first), other.join().expect("a thread")].concat()
        });
        for (&(a, b), (back, by_rows)) in missing.iter().zip(&found) {
            counts.same(|| format!("files {a} and {b} with each pair of {code:?} volumes"), back, by_rows);
        }
        let back: u64 = found.iter().map(|(back, _)| back).sum();
        println!("{code:?}: two of 24 files missing, two volumes of 1 to {last} present: what is asked for comes back in {back} of {in_all} cases");
        counts.same(|| format!("whether all come back by {code:?}"), back == in_all, code == Cauchy);
    }
}

/// Volumes of the other code are refused in the middle of a list of calls, and change no answer.
fn of_the_other_code(counts: &mut Counts, random: &mut Random) {
    for round in 0..rounds(200) {
        let (code, n) = (CODES[round % 2], 1 + random.below(9));
        let sizes: Vec<usize> = (0..n).map(|_| random.below(3)).collect();
        let (mut one, mut other) = (opened(code, &sizes), opened(code, &sizes));
        for _ in 0..30 {
            let v = 1 + random.below(12) as u64;
            let got = calls::change(&one, AddVolume(code.other().number()), v);
            counts.same(|| format!("volume {v} of the other code"), got, (29, one.clone()));
            let f = 1 + random.below(n) as u64;
            let (change, number) = [(AddFile, f), (RemoveFile, f), (AddVolume(code.number()), v), (SetAside, v)][random.below(4)];
            (one, other) = (calls::change(&one, change, number).1, calls::change(&other, change, number).1);
            counts.same(|| "an inventory that was offered volumes of the other code".into(), &one, &other);
        }
    }
    let sizes = [1, 1];
    let [powers, cauchy] = CODES.map(|code| opened(code, &sizes));
    counts.same(|| "inventories of both codes".into(), (&powers[..136], powers[136], cauchy[136]), (&cauchy[..136], POWERS as u8, CAUCHY as u8));
}

pub fn run(counts: &mut Counts, random: &mut Random) {
    by_hand(counts);
    versions(counts);
    writing(counts);
    noting(counts);
    of_the_other_code(counts, random);
    any_will_do(counts, random);
    rebuilt(counts, random);
    every_pair(counts);
}
