//! Files of both codes: volumes and indices that the second program writes, whole, damaged at every byte of the header and the list, cut
//! short and extended; with fields of any 64-bit number; random bytes; files of another client; entries and volumes written, and
//! accepted files written again from their parts.

use crate::calls::{CAUCHY, POWERS};
use crate::compare_faults::put;
use crate::field::{Code, CODES};
use crate::par1::PARTS;
use crate::{calls, expected, par1, rounds, small, Counts, Random};

/// A name of one unit or more, at times with a unit that is not allowed or an odd byte.
fn name(random: &mut Random) -> Vec<u8> {
    let mut name: Vec<u8> = vec![];
    for _ in 0..1 + random.below(9) {
        let unit = if random.below(8) == 0 { random.below(65536) } else { 48 + random.below(75) };
        name.extend((unit as u16).to_le_bytes());
    }
    if random.below(40) == 0 {
        name.push(7);
    }
    name
}

/// Contents of a length that matters: empty, short, round the 16k hash.
fn contents(random: &mut Random) -> Vec<u8> {
    let n = [0, 1, 5, 57, 58, 300, 16383, 16384, 16385][random.below(9)];
    random.bytes(n)
}

/// A list of up to four entries, of statuses that older programs wrote too.
pub fn list(random: &mut Random) -> Vec<u8> {
    let mut list = vec![];
    for _ in 0..random.below(5) {
        let (m, status) = (contents(random), random.below(4) as u64);
        if let Ok(mut entry) = par1::write_entry(&m, 0, &name(random)) {
            put(&mut entry, 8, status);
            list.extend(entry);
        }
    }
    list
}

/// The data size of a volume with this list; 0 where an entry breaks a rule.
fn data_size(list: &[u8]) -> usize {
    par1::data_size(&par1::entries(list).unwrap_or_default()) as usize
}

/// A file that is accepted: an index or a volume, of either code.
pub fn file(random: &mut Random) -> Vec<u8> {
    loop {
        let list = list(random);
        let volume = random.below(4) as u64;
        let size = if volume == 0 { 2 * random.below(20) } else { data_size(&list) };
        let data = random.bytes(size);
        if let Ok(file) = par1::write_volume(CODES[random.below(2)], random.below(1 << 31) as u32, volume, &list, &data) {
            return file;
        }
    }
}

/// A room with some bytes more than reading takes.
const ROOM: usize = PARTS + 4;

fn read(counts: &mut Counts, what: &str, file: &[u8], room: usize) {
    let room = vec![3; room];
    counts.same(|| format!("reading {what}, {} bytes", file.len()), calls::read(file, &room), expected::read(file, &room));
}

/// The control hash of a damaged file put right, so that the tests after it are reached.
pub fn rehashed(mut file: Vec<u8>) -> Vec<u8> {
    if file.len() >= 32 {
        let hash = crate::md5::digest(&file[32..]);
        file[16..32].copy_from_slice(&hash);
    }
    file
}

fn damaged(counts: &mut Counts, random: &mut Random) {
    for _ in 0..rounds(60) {
        let whole = file(random);
        read(counts, "a whole file", &whole, ROOM);
        for room in [0, 56, PARTS - 1, PARTS] {
            read(counts, "into little room", &whole, room);
        }
        for at in 0..whole.len().min(400) {
            let mut one = whole.clone();
            one[at] ^= 1 << random.below(8);
            read(counts, "one bit changed", &one, ROOM);
            read(counts, "one bit changed, rehashed", &rehashed(one), ROOM);
        }
        for field in (48..96).step_by(8) {
            for number in [0, 1, 2, 96, 255, 1 << 32, u64::MAX - 1, u64::MAX, random.below(1 << 16) as u64] {
                let mut one = whole.clone();
                one[field..field + 8].copy_from_slice(&number.to_le_bytes());
                read(counts, "a field changed", &rehashed(one), ROOM);
            }
        }
        let length = whole.len() as u64;
        for numbers in [[u64::MAX - 1, 94, length - 94], [u64::MAX - 96, u64::MAX, length + 1]] {
            let mut one = whole.clone();
            for (at, number) in (72..).step_by(8).zip(numbers) {
                one[at..at + 8].copy_from_slice(&number.to_le_bytes());
            }
            read(counts, "sizes whose sums are above 64 bits", &rehashed(one), ROOM);
        }
        for n in [0, 1, 95, 96, 97, whole.len() - 1] {
            read(counts, "cut short", &whole[..n.min(whole.len())], ROOM);
        }
        read(counts, "extended", &[&whole[..], &[0]].concat(), ROOM);
        let n = random.below(300);
        read(counts, "random bytes", &random.bytes(n), ROOM);
    }
}

/// A file with this list and volume number, no data, and a control hash that is right; its set hash is zeros.
pub fn unhashed(volume: u64, entries: u64, list: &[u8]) -> Vec<u8> {
    let mut file = [&b"PAR\0\0\0\0\0"[..], &[0; 88], list].concat();
    file[8..12].copy_from_slice(&par1::version(Code::Powers).to_le_bytes());
    let size = list.len() as u64;
    for (at, number) in [(48, volume), (56, entries), (64, 96), (72, size), (80, 96 + size), (88, 0)] {
        file[at..at + 8].copy_from_slice(&number.to_le_bytes());
    }
    rehashed(file)
}

/// The numbers of saved files and of the volume at the ends of their ranges, read and written.
fn many_files(counts: &mut Counts) {
    for n in [0, 1, 2, 128, 253, 254, 255] {
        let list = par1::write_entry(b"", 1, b"A\0").unwrap().repeat(n);
        for volume in [0, 1, 2, 127, 128, 254, 255, 256, u64::MAX] {
            read(counts, "a volume number", &unhashed(volume, n as u64, &list), ROOM);
            let room = vec![5; 96 + list.len()];
            for code in CODES {
                counts.same(
                    || format!("writing {code:?} volume {volume} of {n} files"),
                    calls::write_volume(code.number(), 9, volume, &list, &[], &room),
                    expected::write_volume(code.number(), 9, volume, &list, &[], &room),
                );
                if let Ok(file) = par1::write_volume(code, 9, volume, &list, &[]) {
                    read(counts, "a volume of many files", &file, ROOM);
                }
            }
        }
        read(counts, "a list and no header", &[&vec![0; 96][..], &list].concat(), ROOM);
    }
}

/// Entry sizes round the least one, each in a list that it fills; and a volume of empty files.
fn small_entries(counts: &mut Counts) {
    let entry = par1::write_entry(b"", 1, b"A\0B\0").unwrap();
    let whole = par1::write_volume(Code::Powers, 0, 0, &entry, &[]).unwrap();
    for size in 54..=61 {
        let mut one = whole[..96 + size.min(60)].to_vec();
        one.resize(96 + size, 65);
        one[96..104].copy_from_slice(&(size as u64).to_le_bytes());
        one[72..80].copy_from_slice(&(size as u64).to_le_bytes());
        one[80..88].copy_from_slice(&(96 + size as u64).to_le_bytes());
        read(counts, &format!("an entry of {size} bytes"), &rehashed(one), ROOM);
    }
    let empty = par1::write_volume(Code::Powers, 0, 1, &entry.repeat(3), &[]).unwrap();
    read(counts, "a volume of empty files", &empty, PARTS);
}

fn test_data(name: &str) -> Vec<u8> {
    std::fs::read(format!("tests/data/{name}")).expect("test data")
}

/// Files of another client; the volumes of chart have the list of its index put in by hand (tests/data/chart/README.md).
fn other_client(counts: &mut Counts) {
    for name in ["trip/trip.par", "trip/trip.p01", "trip/trip.p02", "trip/trip.p03", "chart/chart.par", "chart/chart.p01", "chart/chart.p02"] {
        let file = test_data(name);
        counts.same(|| format!("{name} is accepted"), calls::read(&file, &[0; PARTS]).0, 0);
        read(counts, name, &file, PARTS);
        again(counts, &file);
    }
    let (trip, chart) = (test_data("trip/trip.par"), test_data("chart/chart.par"));
    for (name, entry) in [("trip/A.LOG", &trip[96..162]), ("trip/B.LOG", &trip[162..228]), ("chart/CHART.DAT", &chart[162..236])] {
        counts.same(|| format!("{name} against its entry"), calls::check(entry, &test_data(name)), 0);
    }
}

/// The data of the client's volumes is the parity of the files that are saved, which have their numbers in this order.
fn other_parity(counts: &mut Counts, set: &str, volumes: u64, saved: &[&str]) {
    for v in 1..=volumes {
        let volume = test_data(&format!("{set}/{set}.p0{v}"));
        let [.., start, size, _] = par1::read(&volume).expect("a volume");
        let mut data = vec![0; size as usize];
        for (f, name) in (1..).zip(saved) {
            let (_, weight) = calls::coefficient(POWERS, f, v, &[0]);
            calls::mul_add(weight[0], &test_data(&format!("{set}/{name}")), &mut data);
        }
        counts.same(|| format!("the data of {set}.p0{v}"), &data[..], &volume[start as usize..]);
    }
}

/// An accepted file written again from its parts.
fn again(counts: &mut Counts, file: &[u8]) {
    let Ok([program, number, _, _, list, start, _, code]) = par1::read(file) else { return };
    let (list, data) = (&file[96..96 + list as usize], &file[start as usize..]);
    let got = calls::write_volume(code as u32, program as u32, number, list, data, &vec![7; file.len() + 3]);
    counts.same(|| format!("a file of {} bytes written again", file.len()), got, (0, [file, &[7; 3]].concat()));
}

fn write(counts: &mut Counts, random: &mut Random) {
    for round in 0..rounds(2000) {
        let (m, n) = (contents(random), name(random));
        let status = [0, 1, 2, 3, 4, 1 << 32, u64::MAX][random.below(7)];
        let n = if round % 50 == 0 { vec![] } else { n };
        let room = vec![7; (56 + n.len() + 3).saturating_sub(random.below(7))];
        let what = || format!("entry of {} bytes, status {status}, name {n:?}", m.len());
        counts.same(what, calls::write_entry(&m, status, &n, &room), expected::write_entry(&m, status, &n, &room));
    }
    for _ in 0..rounds(1000) {
        let mut l = list(random);
        if random.below(5) == 0 && !l.is_empty() {
            let at = random.below(l.len());
            l[at] ^= 1 << random.below(8);
        }
        let number = [0, 1, 2, 252, 253, 254, 255, 256, u64::MAX][random.below(9)];
        let size = if number == 0 { random.below(9) } else { data_size(&l) + random.below(2) };
        let data = random.bytes(size);
        let room = vec![7; (96 + l.len() + size + 2).saturating_sub(random.below(6))];
        let code = [0, 1, 0, 1, 0, 1, 2, u32::MAX][random.below(8)];
        let what = || format!("volume {number} of a list of {} bytes, code {code}", l.len());
        counts.same(what, calls::write_volume(code, 9, number, &l, &data, &room), expected::write_volume(code, 9, number, &l, &data, &room));
        again(counts, &file(random));
    }
    if small() {
        return;
    }
    let limit = vec![0; 33_554_432 - 96 + 2];
    for size in [limit.len() - 4, limit.len() - 2, limit.len()] {
        let what = || format!("an index with {size} bytes of comment");
        let room = vec![7; 33_554_432];
        counts.same(what, calls::write_volume(CAUCHY, 0, 0, &[], &limit[..size], &room), expected::write_volume(CAUCHY, 0, 0, &[], &limit[..size], &room));
    }
    let mut longest = par1::write_volume(Code::Powers, 0, 0, &[], &limit[..limit.len() - 2]).unwrap();
    read(counts, "the longest file", &longest, PARTS);
    longest.push(0);
    read(counts, "a file of a byte more", &longest, PARTS);
    let entry = par1::write_entry(b"", 0, b"A\0").unwrap();
    let list = entry.repeat(33_554_432 / entry.len());
    let got = calls::write_volume(POWERS, 0, 0, &list, &[], &[7; 96]);
    counts.same(|| "an index whose list is too long".into(), got, expected::write_volume(POWERS, 0, 0, &list, &[], &[7; 96]));
    let contents = vec![1; 16_777_217];
    for size in [16_777_216, 16_777_217] {
        let what = || format!("entry of {size} bytes");
        let got = calls::write_entry(&contents[..size], 1, b"A\0", &[7; 60]);
        counts.same(what, got, expected::write_entry(&contents[..size], 1, b"A\0", &[7; 60]));
    }
}

fn check(counts: &mut Counts, random: &mut Random) {
    for _ in 0..rounds(400) {
        let m = contents(random);
        let entry = par1::write_entry(&m, random.below(2) as u64, &name(random)).unwrap_or(random.bytes(70));
        let mut same = |what: &str, e: &[u8], m: &[u8]| {
            counts.same(|| format!("checking {what}"), calls::check(e, m), par1::check(e, m));
        };
        same("the contents", &entry, &m);
        same("longer contents", &entry, &[&m[..], &[0]].concat());
        same("shorter contents", &entry, &m[..m.len().saturating_sub(1)]);
        same("an entry cut short", &entry[..entry.len() - 1], &m);
        same("an entry with a byte more", &[&entry[..], &[0]].concat(), &m);
        let mut other = m.clone();
        if let Some(last) = other.last_mut() {
            *last ^= 1;
        }
        same("other contents", &entry, &other);
        let mut changed = entry.clone();
        changed[random.below(entry.len())] ^= 1 << random.below(8);
        same("another entry", &changed, &m);
    }
}

pub fn run(counts: &mut Counts, random: &mut Random) {
    damaged(counts, random);
    many_files(counts);
    small_entries(counts);
    other_client(counts);
    other_parity(counts, "trip", 3, &["A.LOG", "B.LOG", "EMPTY.LOG", "TRACK.LOG"]);
    other_parity(counts, "chart", 2, &["C.LOG", "D.LOG"]);
    check(counts, random);
    write(counts, random);
}
