//! Reading in chunks, the job itself (document 02, 2026-03): calls in any order, jobs of other lengths, jobs of random bytes, which are refused
//! with 20 exactly by their counts; and files of 33,554,432 bytes, and of more, in chunks.

use crate::compare_faults::at;
use crate::compare_par1::unhashed;
use crate::compare_read_cuts::pushed;
use crate::cuts;
use crate::field::Code::{Cauchy, Powers};
use crate::job_calls::{read_end, read_push, read_start};
use crate::jobs::{number, read_refused, AT, CONTROL_TOTAL, ENTRIES, MOST, READ, READ_ENDED, SAVED, SET_TOTAL, TOTAL};
use crate::par1::PARTS;
use crate::{expected, par1, rounds, small, Counts, Random};

/// A push is 20 and changes nothing exactly where the counts say so; else it counts on, and pushes give the counts that it leaves.
fn push(counts: &mut Counts, job: &[u8], bytes: &[u8]) -> Vec<u8> {
    let (answer, after) = read_push(job, bytes);
    let what = || format!("a push of {} bytes to {job:?}", bytes.len());
    if read_refused(job) {
        counts.same(what, (answer, &after[..]), (20, job));
    } else {
        let total = (number(job, TOTAL) + bytes.len() as u64).min(MOST);
        counts.same(what, (answer, number(&after, TOTAL), read_refused(&after)), (0, total, false));
    }
    after
}

/// An end is 20 and changes nothing exactly where the counts say so; else the job is over, and the room is written where the answer is 0.
fn end(counts: &mut Counts, job: &[u8], room: &[u8]) -> Vec<u8> {
    let (answer, after, written) = read_end(job, room);
    let what = || format!("the end of {job:?}, room {}", room.len());
    let kept = if answer == 0 { written[PARTS..] == room[PARTS..] } else { written == room };
    if read_refused(job) {
        counts.same(what, (answer, &after[..], kept), (20, job, true));
    } else {
        counts.same(what, (answer % 32 != 20, number(&after, READ_ENDED) != 0, kept), (true, true, true));
    }
    after
}

/// A start takes any job, running or over, and any number of bytes from 392 on; those past the job stay, and a shorter room is 14.
fn start(counts: &mut Counts, fresh: &[u8], room: &[u8]) -> Vec<u8> {
    let (answer, after) = read_start(room);
    let want = if room.len() < READ { (14, room.to_vec()) } else { (0, [fresh, &room[READ..]].concat()) };
    counts.same(|| format!("a start with {} bytes", room.len()), (answer, after.clone()), want);
    after
}

/// Lists of calls on one job, ends among them. The answer at an end is that of the bytes pushed since the last start.
fn any_order(counts: &mut Counts, random: &mut Random, fresh: &[u8]) {
    let file = par1::write_volume(Cauchy, 1, 2, &par1::write_entry(b"12345", 1, b"A\0").unwrap(), b"54321").unwrap();
    for _ in 0..rounds(500) {
        let (mut job, mut taken, mut over) = (fresh.to_vec(), vec![], false);
        for _ in 0..20 {
            let from = if over { 0 } else { taken.len().min(file.len()) };
            let n = if random.below(4) == 0 { file.len() } else { random.below(80) };
            let chunk = &file[from..(from + n).min(file.len())];
            match random.below(8) {
                0 => (job, taken, over) = (start(counts, fresh, &job), vec![], false),
                1 => {
                    let room = vec![3; [0, PARTS - 1, PARTS, PARTS + 4][random.below(4)]];
                    let want = if over { (20, room.clone()) } else { expected::read(&taken, &room) };
                    let (answer, _, written) = read_end(&job, &room);
                    counts.same(|| format!("the end after {} bytes, over: {over}", taken.len()), (answer, written), want);
                    (job, over) = (end(counts, &job, &room), true);
                }
                _ => {
                    job = push(counts, &job, chunk);
                    if !over {
                        taken.extend(chunk);
                    }
                }
            }
        }
    }
}

fn lengths(counts: &mut Counts, random: &mut Random, fresh: &[u8]) {
    for n in [0, 1, 8, 200, READ - 1, READ + 1, READ + 8, 2 * READ] {
        let job: Vec<u8> = fresh.iter().copied().cycle().take(n).collect();
        push(counts, &job, b"abc");
        push(counts, &job, b"");
        end(counts, &job, &[3; PARTS + 4]);
        start(counts, fresh, &random.bytes(n));
    }
    start(counts, fresh, &random.bytes(READ));
}

/// A number at or next to this one.
fn near(random: &mut Random, number: u64) -> u64 {
    match random.below(16) {
        0 => number.wrapping_add(1),
        1 => number.wrapping_sub(1),
        2 => number.wrapping_add(1 << (8 * random.below(8))),
        _ => number,
    }
}

/// Random bytes with counts that go together, or nearly so.
pub fn random_job(random: &mut Random) -> Vec<u8> {
    let totals = [0, 1, 31, 32, 33, 95, 96, 97, 153, 154, 155, 212, 1000, 65_536, MOST - 1, MOST, MOST + 1, 1 << 32, u64::MAX];
    let total = totals[random.below(19)];
    let list = total.saturating_sub(96);
    let entries = [0, 1, 2, list / 58, list / 58 / 2][random.below(5)].min(list / 58);
    let saved = [0, entries, entries / 2][random.below(3)];
    let at = [0, list - 58 * entries, (list - 58 * entries) / 2][random.below(3)];
    let mut job = random.bytes(READ);
    let numbers = [(TOTAL, total), (CONTROL_TOTAL, total.saturating_sub(32)), (AT, at), (ENTRIES, entries), (SAVED, saved), (READ_ENDED, 0)];
    for (place, number) in numbers.into_iter().chain([(SET_TOTAL, saved.wrapping_mul(16))]) {
        let number = near(random, number);
        job[place..place + 8].copy_from_slice(&number.to_le_bytes());
    }
    job
}

/// Bytes that no file gives, with any counts: an answer comes back, and it is 20 by the counts alone.
fn random_bytes(counts: &mut Counts, random: &mut Random) {
    let mut refused = 0;
    for _ in 0..rounds(20_000) {
        let mut job = random_job(random);
        if random.below(3) == 0 {
            let list_size = [0, 1, 57, 58, 1 << 20, u64::MAX][random.below(6)];
            job[8 + 72..8 + 80].copy_from_slice(&list_size.to_le_bytes());
        }
        refused += read_refused(&job) as usize;
        let n = [0, 1, 2, 57, 58, 200, 1000][random.below(7)];
        let after = push(counts, &job, &random.bytes(n));
        end(counts, &after, &[3; PARTS]);
        end(counts, &job, &[3; PARTS - 1]);
        let n = [READ, READ, 0, READ - 1][random.below(4)];
        let bytes = random.bytes(n);
        push(counts, &bytes, b"abc");
    }
    counts.same(|| "some jobs of random bytes are refused and some are not".into(), (refused > 0, refused < rounds(20_000)), (true, true));
}

/// A file in chunks of one length gives the answer of the whole; and where it is of the greatest length or longer, a byte more is 1.
fn long_file(counts: &mut Counts, what: &str, file: &[u8], chunk: usize) {
    let room = vec![3; PARTS];
    let whole = expected::read(file, &room);
    let (accepted, mut job) = pushed(&cuts::each(file, chunk));
    let what = || format!("{what}, {} bytes in chunks of {chunk}", file.len());
    let (answer, _, written) = read_end(&job, &room);
    counts.same(what, (accepted, (answer, written)), (true, whole.clone()));
    let more = if file.len() < par1::VOLUME_LIMIT { vec![0] } else { vec![0, 1, 0, 2, 64, 1_000_000] };
    let mut length = file.len();
    for more in more {
        let (number, next) = read_push(&job, &file[..more]);
        let (answer, _, written) = read_end(&next, &room);
        length += more;
        let want = if length == file.len() { whole.clone() } else { (1, room.clone()) };
        counts.same(what, (number, (answer, written)), (0, want));
        job = next;
    }
}

/// The greatest length, a byte more and many more; a name of a MiB; the greatest number of entries, of which the last is at fault.
fn long(counts: &mut Counts) {
    let comment = vec![5; par1::VOLUME_LIMIT - 96];
    let mut longest = par1::write_volume(Cauchy, 1, 0, &[], &comment).unwrap();
    for chunk in [4096, 1_000_003, longest.len()] {
        long_file(counts, "the longest file", &longest, chunk);
    }
    longest.resize(par1::VOLUME_LIMIT + 100_000, 5);
    for more in [1, 2, 100_000] {
        for chunk in [4096, 1 << 20, 1 << 26] {
            long_file(counts, "a file that is too long", &longest[..par1::VOLUME_LIMIT + more], chunk);
        }
    }
    long_file(counts, "zeros that are too many", &vec![0; par1::VOLUME_LIMIT + 1], 65_536);
    let name = b"N\0".repeat(1 << 19);
    let named = par1::write_volume(Powers, 1, 1, &par1::write_entry(b"12345", 1, &name).unwrap(), b"12345").unwrap();
    for chunk in [4095, 4096, 1 << 18] {
        long_file(counts, "a long name", &named, chunk);
    }
    let mut list = par1::write_entry(b"", 0, b"A\0").unwrap().repeat(578_523);
    let last = list.len() - 2;
    list[last] = 92;
    let many = unhashed(0, 578_523, &list);
    counts.same(|| "the last of many entries".into(), expected::read(&many, &[]).0, at(18, 578_523));
    long_file(counts, "the last of many entries", &many, 4095);
}

pub fn run(counts: &mut Counts, random: &mut Random) {
    let (_, fresh) = read_start(&[0; READ]);
    any_order(counts, random, &fresh);
    lengths(counts, random, &fresh);
    random_bytes(counts, random);
    if !small() {
        long(counts);
    }
}
