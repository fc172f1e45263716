//! The running hash (document 02, 2026-03): every cut of short messages in two and in three, byte by byte, with chunks of no bytes; long messages;
//! calls in any order; rooms round the 16 bytes of a digest; totals that pass 2^64; hashes of random bytes.

use crate::cuts::{self, Chunks};
use crate::job_calls::{hash_end, hash_push, hash_start};
use crate::jobs::{Hash, HASH};
use crate::{expected, rounds, small, Counts, Random};

/// A message with what it must give: the hash before the end, the room after it.
struct Whole<'a> {
    message: &'a [u8],
    hash: Hash,
    room: Vec<u8>,
}

const ROOM: [u8; 20] = [7; 20];

fn whole(message: &[u8]) -> Whole<'_> {
    Whole { message, hash: HASH.pushed(message), room: expected::md5(message, &ROOM).1 }
}

/// Each push is accepted; the end gives the digest of the whole and ends the hash.
fn cut(counts: &mut Counts, whole: &Whole, chunks: Chunks) {
    let mut hash = hash_start(&Hash { words: [9; 4], tail: [9; 64], total: 9, ended: 9 });
    let mut accepted = true;
    for chunk in &chunks {
        let (number, next) = hash_push(&hash, chunk);
        accepted &= number == 0;
        hash = next;
    }
    let (number, after, room) = hash_end(&hash, &ROOM);
    let lengths = || chunks.iter().map(|chunk| chunk.len()).collect::<Vec<_>>();
    let what = || format!("a message of {} bytes in chunks of {:?}", whole.message.len(), lengths());
    counts.same(what, (accepted, hash, number, room, after.ended != 0), (true, whole.hash, 0, whole.room.clone(), true));
}

fn every_cut(counts: &mut Counts, random: &mut Random) {
    let bytes = random.bytes(300);
    for n in (0..=200).step_by(if small() { 9 } else { 1 }) {
        let whole = whole(&bytes[..n]);
        for chunks in cuts::in_two(whole.message) {
            cut(counts, &whole, chunks);
        }
        for length in [1, 2, 63, 64, 65] {
            cut(counts, &whole, cuts::each(whole.message, length));
        }
        cut(counts, &whole, cuts::spaced(whole.message));
    }
    for n in [0, 1, 55, 56, 63, 64, 65, 119, 120, 128, 129, 192] {
        let whole = whole(&bytes[..n]);
        for chunks in cuts::in_three(whole.message).step_by(if small() { 97 } else { 1 }) {
            cut(counts, &whole, chunks);
        }
    }
}

fn long(counts: &mut Counts, random: &mut Random) {
    let bytes = random.bytes(if small() { 1 << 14 } else { 1 << 20 });
    let whole = whole(&bytes);
    for length in [1, 61, 4096, 65_536, bytes.len()] {
        cut(counts, &whole, cuts::each(&bytes, length));
    }
    for _ in 0..rounds(20) {
        let chunks = cuts::random(&bytes, 4096, random);
        cut(counts, &whole, chunks);
    }
}

fn push(counts: &mut Counts, hash: &Hash, bytes: &[u8]) -> Hash {
    let got = hash_push(hash, bytes);
    counts.same(|| format!("a push of {} bytes into {hash:?}", bytes.len()), got, expected::hash_push(hash, bytes));
    got.1
}

/// On 20 the hash is as it was, else it is over.
fn end(counts: &mut Counts, hash: &Hash, room: &[u8]) -> Hash {
    let (number, after, written) = hash_end(hash, room);
    let want = expected::hash_end(hash, room);
    let what = || format!("the end of {hash:?}, room {}", room.len());
    let kept = if number == 20 { after == *hash } else { after.ended != 0 };
    counts.same(what, ((number, written), kept), (want, true));
    after
}

/// Lists of calls on one hash, ends among them, each on the hash last handed back.
fn any_order(counts: &mut Counts, random: &mut Random) {
    for _ in 0..rounds(500) {
        let mut hash = HASH;
        for _ in 0..20 {
            let n = random.below(150);
            hash = match random.below(8) {
                0 => hash_start(&hash),
                1 => end(counts, &hash, &vec![3; [0, 1, 15, 16, 17, 40][random.below(6)]]),
                _ => push(counts, &hash, &random.bytes(n)),
            };
        }
        counts.same(|| "a hash that is started again".into(), hash_start(&hash), HASH);
    }
}

/// 14 writes nothing and ends the hash: a second end is 20, with room enough too, and so is a push.
fn little_room(counts: &mut Counts) {
    for n in 0..=20 {
        let hash = push(counts, &HASH, b"abc");
        let over = end(counts, &hash, &vec![3; n]);
        for again in [0, 16] {
            let number = hash_end(&over, &vec![3; again]).0;
            counts.same(|| format!("the end again after {n} bytes of room"), number, 20);
        }
        counts.same(|| "a push after the end".into(), hash_push(&over, b"d"), (20, over));
        counts.same(|| "a push of no bytes after the end".into(), hash_push(&over, b""), (20, over));
    }
}

/// A hash of random bytes whose tail is zeros past those that wait; it is over unless its mark is 0.
pub fn random_hash(random: &mut Random) -> Hash {
    let totals = [0, 1, 63, 64, 1 << 29, (1 << 61) - 1, 1 << 61, u64::MAX - 70, u64::MAX - 1, u64::MAX];
    let total = totals[random.below(10)].wrapping_sub(random.below(3) as u64);
    let ended = [0, 0, 0, 1, 2, 256, 1 << 32, 1 << 63, u64::MAX][random.below(9)];
    let mut hash = Hash { words: [0; 4].map(|_| random.below(1 << 31) as u32 * 2 + 1), tail: [0; 64], total, ended };
    let waiting = total as usize % 64;
    hash.tail[..waiting].copy_from_slice(&random.bytes(waiting));
    hash
}

fn random_bytes(counts: &mut Counts, random: &mut Random) {
    for _ in 0..rounds(3000) {
        let (mut hash, n) = (random_hash(random), random.below(200));
        let after = push(counts, &hash, &random.bytes(n));
        end(counts, &after, &[3; 16]);
        end(counts, &hash, &[3; 15]);
        hash.tail = random.bytes(64).try_into().unwrap();
        let (number, after) = hash_push(&hash, &random.bytes(n));
        let wanted = if hash.ended != 0 { (20, hash.total, true) } else { (0, hash.total.wrapping_add(n as u64), true) };
        counts.same(|| format!("a push into {hash:?}"), (number, after.total, number == 0 || after == hash), wanted);
        let (number, after, _) = hash_end(&hash, &[3; 16]);
        let kept = if number == 20 { after == hash } else { after.ended != 0 };
        counts.same(|| format!("the end of {hash:?}"), (number, kept), (wanted.0, true));
    }
}

pub fn run(counts: &mut Counts, random: &mut Random) {
    every_cut(counts, random);
    long(counts, random);
    any_order(counts, random);
    little_room(counts);
    random_bytes(counts, random);
}
