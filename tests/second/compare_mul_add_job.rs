//! mul_add in chunks (document 02, 2026-03): every cut of short fragments in two and in three, byte by byte, with chunks of no bytes; long ones;
//! another buffer at each push; positions past the buffer's end and at the end of 64 bits; calls in any order; jobs of random bytes, and of
//! other lengths.

use crate::cuts::{self, Chunks};
use crate::job_calls::{mul_add_end, mul_add_push, mul_add_start};
use crate::jobs::{mul_add_refused, number, MUL_ADD, MUL_ADD_ENDED, POSITION, WEIGHT};
use crate::{calls, expected, field, rounds, small, Counts, Random};

/// Each push is accepted, and the buffer is that of one call on the whole fragment.
fn cut(counts: &mut Counts, weight: u8, buffer: &[u8], want: &[u8], chunks: Chunks) {
    let mut job = mul_add_start(weight, &[9; MUL_ADD]).1;
    let (mut sum, mut accepted) = (buffer.to_vec(), true);
    for chunk in &chunks {
        let (number, next, after) = mul_add_push(&job, chunk, &sum);
        accepted &= number == 0;
        (job, sum) = (next, after);
    }
    let lengths = || chunks.iter().map(|chunk| chunk.len()).collect::<Vec<_>>();
    let what = || format!("weight {weight}, a buffer of {} bytes, chunks of {:?}", buffer.len(), lengths());
    let (first, over) = mul_add_end(&job);
    counts.same(what, (accepted, &sum[..], first, mul_add_end(&over).0), (true, want, 0, 20));
}

fn every_cut(counts: &mut Counts, random: &mut Random) {
    for n in (0..=36).step_by(if small() { 9 } else { 1 }) {
        let fragment = random.bytes(n);
        for m in [0, 1, n / 2, n.saturating_sub(1), n, n + 1, 50] {
            let (weight, buffer) = (random.below(256) as u8, random.bytes(m));
            let want = field::mul_add(weight, &fragment, &buffer);
            let three = if m == n { 1 } else { 7 } * if small() { 5 } else { 1 };
            for chunks in cuts::in_two(&fragment).chain(cuts::in_three(&fragment).step_by(three)) {
                cut(counts, weight, &buffer, &want, chunks);
            }
            for chunks in [cuts::each(&fragment, 1), cuts::spaced(&fragment)] {
                cut(counts, weight, &buffer, &want, chunks);
            }
        }
    }
}

/// Long fragments, held against the library's own call on the whole too.
fn long(counts: &mut Counts, random: &mut Random) {
    let n = if small() { 3000 } else { 100_000 };
    let (fragment, buffer) = (random.bytes(n), random.bytes(n / 3 * 2));
    for round in 0..rounds(40) {
        let weight = random.below(256) as u8;
        let mut whole = buffer.clone();
        calls::mul_add(weight, &fragment, &mut whole);
        let chunks = if round % 2 == 0 { cuts::random(&fragment, 4096, random) } else { cuts::each(&fragment, [1, 17, 4096, n][round / 2 % 4]) };
        cut(counts, weight, &buffer, &whole, chunks);
    }
}

fn push(counts: &mut Counts, job: &[u8], fragment: &[u8], buffer: &[u8]) -> Vec<u8> {
    let got = mul_add_push(job, fragment, buffer);
    let what = || format!("a push of {} bytes to {job:?}, buffer {}", fragment.len(), buffer.len());
    counts.same(what, &got, &expected::mul_add_push(job, fragment, buffer));
    got.1
}

/// On 20 the job is as it was, else it is over.
fn end(counts: &mut Counts, job: &[u8]) -> Vec<u8> {
    let (answer, after) = mul_add_end(job);
    let refused = mul_add_refused(job);
    let kept = if refused { after == job } else { number(&after, MUL_ADD_ENDED) != 0 };
    counts.same(|| format!("the end of {job:?}"), (answer, kept), (if refused { 20 } else { 0 }, true));
    after
}

/// A start takes any job, running or over, and any number of bytes from 24 on; those past the job stay.
fn start(counts: &mut Counts, weight: u8, room: &[u8]) -> Vec<u8> {
    let got = mul_add_start(weight, room);
    counts.same(|| format!("a start with {} bytes", room.len()), &got, &expected::mul_add_start(weight, room));
    got.1
}

/// Lists of calls on one job, ends among them; each push has a buffer of its own, shorter or longer than the one before.
fn any_order(counts: &mut Counts, random: &mut Random) {
    for _ in 0..rounds(500) {
        let mut job = start(counts, random.below(256) as u8, &[9; MUL_ADD]);
        for _ in 0..20 {
            let (n, m) = (random.below(40), random.below(120));
            job = match random.below(10) {
                0 => end(counts, &job),
                1 => start(counts, random.below(256) as u8, &job),
                _ => push(counts, &job, &random.bytes(n), &random.bytes(m)),
            };
        }
    }
}

fn lengths(counts: &mut Counts, random: &mut Random) {
    let right = mul_add_start(7, &[0; MUL_ADD]).1;
    for n in [0, 1, 8, 16, 23, 25, 32, 48, 100] {
        let job: Vec<u8> = right.iter().copied().cycle().take(n).collect();
        push(counts, &job, b"abc", b"defg");
        push(counts, &job, b"", b"");
        end(counts, &job);
        start(counts, 7, &random.bytes(n));
    }
}

/// Any numbers: each weight but 0 to 255 is 20, each mark but 0; no position is.
fn random_bytes(counts: &mut Counts, random: &mut Random) {
    for _ in 0..rounds(5000) {
        let mut job = random.bytes(MUL_ADD);
        let weights = [0, 1, 255, 256, 257, 1 << 32, u64::MAX, random.below(256) as u64];
        let ended = [0, 0, 0, 1, 2, 256, 1 << 63, u64::MAX];
        let positions = [0, 1, 29, 30, 31, 1 << 32, 1 << 63, u64::MAX - 30, u64::MAX - 1, u64::MAX, random.below(60) as u64];
        for (at, number) in [(WEIGHT, weights[random.below(8)]), (MUL_ADD_ENDED, ended[random.below(8)]), (POSITION, positions[random.below(11)])] {
            if random.below(12) > 0 {
                job[at..at + 8].copy_from_slice(&number.to_le_bytes());
            }
        }
        let n = random.below(40);
        push(counts, &job, &random.bytes(n), &random.bytes(30));
        end(counts, &job);
    }
}

pub fn run(counts: &mut Counts, random: &mut Random) {
    every_cut(counts, random);
    long(counts, random);
    any_order(counts, random);
    lengths(counts, random);
    random_bytes(counts, random);
}
