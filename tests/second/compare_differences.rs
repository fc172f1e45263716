//! Two files compared (document 02, 2026-06): pairs whose lines are written here by hand; all pairs of sixteen small files; one bit changed at a
//! time, the hashes right or not; lists of unequal length; every short pattern of data, and runs round the ends of blocks; every refusal on
//! either side and on both; rooms of every length up to that of the lines.

use crate::compare_faults::put;
use crate::compare_par1::rehashed;
use crate::field::{Code, CODES};
use crate::files::{afresh, list, File};
use crate::par1::VOLUME_LIMIT;
use crate::{calls, expected, par1, rounds, small, Counts, Random};

/// A call against what the documents say of it: the lines.
fn compare(counts: &mut Counts, what: &str, one: &[u8], two: &[u8], room: &[u8]) -> Vec<u8> {
    let (answer, after) = calls::compare(one, two, room);
    let (want, want_after) = expected::compare(one, two, room);
    counts.same(|| format!("comparing {what}, a room of {} bytes", room.len()), (answer, after == want_after), (want, true));
    let length = (answer / 32) as usize;
    after[..length.min(after.len())].to_vec()
}

/// The same in rooms that the lines just fill, that are longer, that are a byte short, and of no bytes.
fn pair(counts: &mut Counts, what: &str, one: &[u8], two: &[u8]) {
    let length = crate::differences::compare(one, two).len();
    for room in [length, length + 9, length.saturating_sub(1), 0] {
        compare(counts, what, one, two, &vec![0xee; room]);
    }
}

/// Both ways round.
fn both_ways(counts: &mut Counts, what: &str, one: &[u8], two: &[u8]) {
    pair(counts, what, one, two);
    pair(counts, what, two, one);
}

/// The lines are these, a word between two bars each.
fn gives(counts: &mut Counts, what: &str, one: &[u8], two: &[u8], lines: &str) {
    let text: String = lines.split_terminator(" | ").map(|line| format!("{line}\n")).collect();
    let got = compare(counts, what, one, two, &vec![0xee; text.len()]);
    counts.same(|| format!("the lines of {what}"), String::from_utf8_lossy(&got).into_owned(), text);
    pair(counts, what, one, two);
}

fn file(contents: &[u8], status: u64, name: &[u8]) -> File {
    File { contents: contents.to_vec(), status, name: name.to_vec() }
}

/// Two saved files and one between that is not.
fn files() -> Vec<File> {
    vec![file(b"12345", 1, b"A\0B\0"), file(b"not saved", 2, b"N\0"), file(b"abcdefgh", 3, b"C\0D\0")]
}

fn index(program: u32, files: &[File], comment: &[u8]) -> Vec<u8> {
    par1::write_volume(Code::Powers, program, 0, &list(files), comment).unwrap()
}

/// Pairs whose lines are known beforehand.
fn by_hand(counts: &mut Counts) {
    let (set, plain) = (files(), index(7, &files(), b"abcd"));
    gives(counts, "a file and itself", &plain, &plain.clone(), "");
    gives(counts, "another program", &plain, &index(8, &set, b"abcd"), "head program");
    for (comment, run) in [(b"Xbcd", "0 0"), (b"abXd", "2 2"), (b"abcX", "3 3"), (b"XXXX", "0 3"), (b"aXXd", "1 2")] {
        gives(counts, "another comment", &plain, &index(7, &set, comment), &format!("head control | data {run}"));
    }
    gives(counts, "two runs", &plain, &index(7, &set, b"XbcX"), "head control | data 0 0 | data 3 3");
    gives(counts, "a tail", &plain, &index(7, &set, b"abcdef"), "head control | head data | data 4 5");
    gives(counts, "a tail after a run", &plain, &index(7, &set, b"abXXef"), "head control | head data | data 2 5");
    gives(counts, "a tail apart", &plain, &index(7, &set, b"Xbcdef"), "head control | head data | data 0 0 | data 4 5");
    gives(counts, "no data", &plain, &index(7, &set, b""), "head control | head data | data 0 3");
    let changed = |at: usize, file: File| {
        let mut files = files();
        files[at] = file;
        index(7, &files, b"abcd")
    };
    gives(counts, "another status", &plain, &changed(1, file(b"not saved", 4, b"N\0")), "head control | entry 2 status");
    gives(counts, "another name", &plain, &changed(2, file(b"abcdefgh", 3, b"C\0E\0")), "head control | entry 3 name");
    let longer = "head control | head list | head start | entry 1 length | entry 1 name";
    gives(counts, "a longer name", &plain, &changed(0, file(b"12345", 1, b"A\0B\0C\0")), longer);
    let sized = "head control | entry 2 size | entry 2 md5 | entry 2 16k";
    gives(counts, "another file, not saved", &plain, &changed(1, file(b"not sav ed", 2, b"N\0")), sized);
    gives(counts, "another saved file", &plain, &changed(0, file(b"12346", 1, b"A\0B\0")), "head control | head set | entry 1 md5 | entry 1 16k");
    let fewer = "head control | head set | head files | head list | head start | entry 3 all";
    gives(counts, "an entry less", &plain, &index(7, &set[..2], b"abcd"), fewer);
    let none = "head control | head set | head files | head list | head start | entry 1 all | entry 2 all | entry 3 all";
    gives(counts, "no entry", &index(7, &[], b"abcd"), &plain, none);
    let empty = [file(b"", 1, b"A\0")];
    let [one, other] = [1, 254].map(|v| afresh(Code::Powers, &empty, v));
    gives(counts, "another volume", &one, &other, "head control | head number");
    let of_the_other = |program| par1::write_volume(Code::Cauchy, program, 0, &list(&set), b"abcd").unwrap();
    gives(counts, "another code", &plain, &of_the_other(7), "head version");
    gives(counts, "another code and program", &of_the_other(8), &plain, "head version | head program");
    let volumes = CODES.map(|code| afresh(code, &[file(b"12345", 1, b"A\0B\0")], 2));
    gives(counts, "volumes of both codes", &volumes[0], &volumes[1], "head version | head control | data 0 4");
}

/// Sixteen files of which four are refused, each with each.
fn all_pairs(counts: &mut Counts) {
    let set = files();
    let mut other = files();
    other[0].contents.extend(b"6789 and on");
    let mut turned = files();
    turned.reverse();
    let volume = afresh(Code::Powers, &set, 1);
    let mut data = volume.clone();
    *data.last_mut().unwrap() ^= 1;
    let files = [
        index(7, &set, b""),
        index(7, &set, b"comment!"),
        index(8, &set[..1], b"commend!!!"),
        index(7, &[], b""),
        index(7, &turned, b"comment!"),
        volume.clone(),
        afresh(Code::Powers, &set, 2),
        afresh(Code::Powers, &other, 1),
        afresh(Code::Powers, &turned, 253),
        afresh(Code::Cauchy, &set, 2),
        par1::write_volume(Code::Cauchy, 7, 0, &list(&set), b"comment!").unwrap(),
        rehashed(data.clone()),
        data,
        volume[..95].to_vec(),
        vec![],
        rehashed([&volume[..], b"x"].concat()),
    ];
    for (i, one) in files.iter().enumerate() {
        for (j, two) in files.iter().enumerate() {
            pair(counts, &format!("file {i} with file {j} of sixteen"), one, two);
        }
    }
}

/// One bit of a file changed, the control hash right or not; and one bit of its list or its data, every hash right.
fn one_bit(counts: &mut Counts, random: &mut Random) {
    for whole in [afresh(Code::Powers, &files(), 3), afresh(Code::Cauchy, &files(), 3), index(7, &files(), b"comment!")] {
        let [program, number, _, _, size, start, _, code] = par1::read(&whole).unwrap();
        let code = Code::of(code).unwrap();
        for at in (0..whole.len()).step_by(if small() { 23 } else { 1 }) {
            let mut one = whole.clone();
            one[at] ^= 1 << random.below(8);
            both_ways(counts, &format!("a bit of byte {at}"), &whole, &one);
            let (list, data) = (one[96..96 + size as usize].to_vec(), one[start as usize..].to_vec());
            both_ways(counts, &format!("a bit of byte {at}, rehashed"), &whole, &rehashed(one));
            if let Ok(right) = par1::write_volume(code, program as u32, number, &list, &data) {
                both_ways(counts, &format!("a bit of byte {at}, all hashes right"), &whole, &right);
            }
        }
    }
}

/// Lists that begin alike, end alike, or have one entry more between; places of more than one digit.
fn lists(counts: &mut Counts, random: &mut Random) {
    for _ in 0..rounds(200) {
        let one: Vec<File> = (0..random.below(14)).map(|i| crate::files::file(random, 3, i % 3 > 0)).collect();
        let mut two = one.clone();
        for _ in 0..random.below(3) {
            let at = random.below(two.len() + 1);
            match random.below(4) {
                0 => two.insert(at, crate::files::file(random, 3, true)),
                1 => two.truncate(at),
                2 if at < two.len() => two[at] = crate::files::file(random, 3, true),
                _ if at < two.len() => two[at].status ^= 1 << random.below(64),
                _ => (),
            }
        }
        both_ways(counts, "two lists", &index(7, &one, b""), &index(7, &two, b""));
        if one.iter().any(File::is_saved) && two.iter().any(File::is_saved) {
            let codes = [(); 2].map(|_| CODES[random.below(2)]);
            both_ways(counts, "volumes of two lists", &afresh(codes[0], &one, 1), &afresh(codes[1], &two, 1));
        }
    }
    let long: Vec<File> = (0..1200).map(|_| crate::files::file(random, 0, false)).collect();
    let mut other = long.clone();
    for at in [0, 8, 9, 98, 99, 998, 999, 1199] {
        other[at].status ^= 4;
    }
    both_ways(counts, "a long list", &index(7, &long, b""), &index(7, &other, b""));
    both_ways(counts, "a long list and a short one", &index(7, &long, b""), &index(7, &other[..1], b""));
}

/// Zeros of each even length up to 8 against every pattern of each even length up to 8.
fn patterns(counts: &mut Counts) {
    for zeros in (0..=8).step_by(2) {
        let one = index(7, &[], &vec![0; zeros]);
        for length in (0..=8).step_by(2) {
            for pattern in (0..1u32 << length).step_by(if small() { 37 } else { 1 }) {
                let comment: Vec<u8> = (0..length).map(|i| (pattern >> i & 1) as u8).collect();
                pair(counts, &format!("{zeros} zeros with {comment:?}"), &one, &index(7, &[], &comment));
            }
        }
    }
}

/// Data of thousands of bytes with runs that begin and end round the ends of blocks, of both lengths.
fn blocks(counts: &mut Counts, random: &mut Random) {
    for _ in 0..rounds(400) {
        let length = [256, 4094, 4096, 4098, 12288, 20000][random.below(6)];
        let one = random.bytes(length);
        let mut two = one.clone();
        for _ in 0..1 + random.below(5) {
            let block = [16, 32, 64, 256, 512, 1024, 4096][random.below(7)];
            let from = (block * random.below(length / block + 1) + random.below(3)).saturating_sub(1);
            let run = [1, 1, 2, 15, 16, 17, block - 1, block, block + 1][random.below(9)];
            for p in from.min(length)..(from + run).min(length) {
                two[p] ^= 1 + random.below(255) as u8;
            }
        }
        two.truncate(length - [0, 0, 2, 256][random.below(4)]);
        both_ways(counts, "long data", &index(7, &[], &one), &index(7, &[], &two));
    }
    let n = if small() { 2_000 } else { 100_000 };
    let (one, two) = (vec![0; n], [0, 1].repeat(n / 2));
    both_ways(counts, "every second byte", &index(7, &[], &one), &index(7, &[], &two));
    both_ways(counts, "every byte", &index(7, &[], &one), &index(7, &[], &vec![1; n]));
}

/// Every room from no byte to more than the lines.
fn rooms(counts: &mut Counts) {
    let (one, two) = (afresh(Code::Cauchy, &files(), 1), index(8, &files()[1..], b"comment!"));
    for (one, two) in [(&one, &two), (&one, &one), (&one[..95].to_vec(), &two), (&vec![], &two[..99].to_vec())] {
        let length = crate::differences::compare(one, two).len();
        for n in 0..length + 3 {
            compare(counts, "into rooms", one, two, &vec![0xee; n]);
        }
        let got = calls::compare(one, two, &vec![0xee; length.saturating_sub(1)]);
        counts.same(|| "a byte short".into(), got, if length == 0 { (0, vec![]) } else { (14, vec![0xee; length - 1]) });
    }
}

/// A file for each refusal of reading.
pub fn refused_files() -> Vec<(u32, Vec<u8>)> {
    let whole = afresh(Code::Powers, &files(), 7);
    let with = |change: &dyn Fn(&mut Vec<u8>)| {
        let mut one = whole.clone();
        change(&mut one);
        rehashed(one)
    };
    let unhashed = |at: usize| {
        let mut one = whole.clone();
        one[at] ^= 1;
        one
    };
    vec![
        (1, vec![]),
        (1, whole[..95].to_vec()),
        (2, unhashed(0)),
        (3, unhashed(9)),
        (3, unhashed(8)),
        (4, with(&|f| f.push(0))),
        (5, unhashed(16)),
        (5, unhashed(99)),
        (16, with(&|f| put(f, 96, 59))),
        (17, with(&|f| put(f, 96 + 16, 16_777_217))),
        (18, with(&|f| f[96 + 56] = 47)),
        (18, with(&|f| f[96 + 58] = 58)),
        (18, with(&|f| f[96 + 56..96 + 60].copy_from_slice(b".\0.\0"))),
        (19, with(&|f| put(f, 56, 4))),
        (7, with(&|f| put(f, 48, 254))),
        (8, with(&|f| f[32] ^= 1)),
        (9, with(&|f| {
            f.pop();
            let size = f.len() as u64 - u64::from_le_bytes(f[80..88].try_into().unwrap());
            put(f, 88, size)
        })),
    ]
}

/// "Each refused file gives a line `refused S N`, side 1 before 2, and then nothing else is written": each with each, and with an accepted one.
fn refusals(counts: &mut Counts) {
    let (files, whole) = (refused_files(), afresh(Code::Cauchy, &files(), 7));
    for (n, one) in &files {
        gives(counts, "side 1 refused", one, &whole, &format!("refused 1 {n}"));
        gives(counts, "side 2 refused", &whole, one, &format!("refused 2 {n}"));
        for (m, two) in &files {
            gives(counts, "both sides refused", one, two, &format!("refused 1 {n} | refused 2 {m}"));
        }
    }
}

/// Random bytes, and every front of a file.
fn anything(counts: &mut Counts, random: &mut Random) {
    let whole = afresh(Code::Cauchy, &files(), 7);
    for n in (0..whole.len()).step_by(if small() { 29 } else { 1 }) {
        both_ways(counts, "the front of a file", &whole, &whole[..n]);
        let bytes = random.bytes(n);
        both_ways(counts, "random bytes", &bytes, &whole);
        pair(counts, "random bytes with themselves", &bytes, &bytes);
    }
    for _ in 0..rounds(300) {
        let (one, two) = (crate::compare_par1::file(random), crate::compare_par1::file(random));
        both_ways(counts, "any two files", &one, &two);
    }
}

/// Files of the greatest length, and of a byte more.
fn longest(counts: &mut Counts) {
    let comment = vec![0; VOLUME_LIMIT - 96];
    let one = index(7, &[], &comment);
    gives(counts, "the longest file and itself", &one, &one, "");
    let mut two = one.clone();
    for at in [96, 96 + 12_345_678, VOLUME_LIMIT - 1] {
        two[at] = 1;
    }
    let lines = "head control | data 0 0 | data 12345678 12345678 | data 33554335 33554335";
    gives(counts, "the longest files", &one, &rehashed(two), lines);
    gives(counts, "the longest file and a short one", &index(7, &[], b""), &one, "head control | head data | data 0 33554335");
    gives(counts, "a file of a byte more", &one, &[&one[..], &[0]].concat(), "refused 2 1");
}

pub fn run(counts: &mut Counts, random: &mut Random) {
    by_hand(counts);
    all_pairs(counts);
    one_bit(counts, random);
    lists(counts, random);
    patterns(counts);
    blocks(counts, random);
    rooms(counts);
    refusals(counts);
    anything(counts, random);
    if !small() {
        longest(counts);
    }
}
